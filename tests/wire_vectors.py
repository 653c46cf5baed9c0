#!/usr/bin/env python3
"""Make the stored input and the expected output of the program wire_main.

wire_main reads ten-byte blocks and writes for each the number 0 and the ten
bytes again where they are those of a message, else the number 7. A block that
the input cuts short writes nothing.

    python3 tests/wire_vectors.py           write crates/wire_main/stdin, stdout
    python3 tests/wire_vectors.py --check   compare with them, write nothing

Written from document 01 ("Ten bytes (000)", "Conditions in Reverse Polish")
and not from the crate. The rules stand here twice: is_message tests ten given
bytes, base_cases builds ten bytes from field values and says whether they are
a message. The script stops where the two differ.
"""

import re
import sys
from pathlib import Path

import stored

FOLDER = Path(__file__).resolve().parent.parent / "crates" / "wire_main"
ACCEPTED, NO_MESSAGE = 0, 7

# ---- The validator: ten bytes in, yes or no out. ----

REASON_TEXTS = {b"reset", b"count", b"unk", b"inval", b"pid", b"unsup", b"notstop"}
STATE_TEXTS = {
    b"Dead", b"Moribund", b"Ready", b"Scheding", b"Running",
    b"Queueing", b"Wakeme", b"Broken", b"Stopped", b"Rendezvou",
}
# States 10 to 255 in lower-case hex without a leading zero; 0 to 9 have names.
STATE_HEX = re.compile(rb"[a-f]|[1-9a-f][0-9a-f]")
PROC_ADDRESS = re.compile(rb"[0-9a-f]{8}\x00")


def zeros(part):
    """An unused stretch: all its bytes are zero."""
    return not any(part)


def is_tmget(data):
    """addr[4] n[1], n at most 9, four unused bytes."""
    return data[4] <= 9 and zeros(data[5:])


def is_tmput(data):
    """addr[4] n[1] data[4], n at most 4, data beyond n unused."""
    return data[4] <= 4 and zeros(data[5 + data[4]:])


def is_pid_request(data):
    """pid[4], five unused bytes; any pid, listed or not."""
    return zeros(data[4:])


def is_tcondbreak(data):
    """val[4], one letter, three zeros, one unused byte."""
    val, letter, rest = data[:4], data[4:5], data[5:]
    if not zeros(rest):
        return False
    if letter in (b"n", b"k", b"p", b"b", b"d"):
        return True
    return letter in (b"*", b"&", b"=", b"!", b"a", b"o") and zeros(val)


def is_rerr(data):
    """One of the seven reasons, zero padded."""
    return data.rstrip(b"\x00") in REASON_TEXTS


def is_rmget(data):
    """Any nine bytes."""
    return len(data) == 9


def is_rproc(data):
    """The address as eight lower-case hex digits, then a zero."""
    return PROC_ADDRESS.fullmatch(data) is not None


def is_rstatus(data):
    """The text of a state byte, zero padded."""
    text = data.rstrip(b"\x00")
    return text in STATE_TEXTS or STATE_HEX.fullmatch(text) is not None


# By type byte: the eight served T-messages, and the replies. Of the replies
# 5, 11, 13, 15 and 17 are fixed. Every other type is no message.
RULES = {
    1: is_rerr, 2: is_tmget, 3: is_rmget, 4: is_tmput, 5: zeros,
    6: is_pid_request, 7: is_rproc, 8: is_pid_request, 9: is_rstatus,
    10: is_pid_request, 11: zeros, 12: is_pid_request, 13: zeros,
    14: is_pid_request, 15: zeros, 16: is_tcondbreak, 17: zeros,
}


def is_message(block):
    """Whether these ten bytes are those that some message writes."""
    rule = RULES.get(block[0])
    return rule is not None and rule(block[1:])


# ---- The generator: field values in, ten bytes and the wanted answer out. ----

TERR, RERR, TMGET, RMGET, TMPUT, RMPUT, TPROC, RPROC, TSTATUS, RSTATUS = range(10)
TRNOTE, RRNOTE, TSTOP, RSTOP, TSTART, RSTART, TCONDBREAK, RCONDBREAK = range(10, 18)
TSTARTSTOP, RSTARTSTOP, TKILL, RKILL = 18, 19, 22, 23

REASONS = "reset count unk inval pid unsup notstop".split()
STATE_NAMES = ("Dead Moribund Ready Scheding Running "
               "Queueing Wakeme Broken Stopped Rendezvous").split()
VAL_USED = "nkpbd"
VAL_UNUSED = "*&=!ao"


def message(kind, *fields):
    """The type byte, the fields, and zeros up to ten bytes."""
    return (bytes([kind]) + b"".join(fields)).ljust(10, b"\x00")


def word(value):
    """A number of four bytes, high-order first."""
    return value.to_bytes(4, "big")


def type_cases():
    """Every type byte, with nine zeros and with nine non-zero bytes."""
    served = {TMGET, TMPUT, TPROC, TSTATUS, TRNOTE, TSTOP, TSTART}
    replies = {RMGET, RMPUT, RRNOTE, RSTOP, RSTART, RCONDBREAK}
    for kind in range(256):
        yield message(kind), kind in served | replies
        yield message(kind, bytes(range(1, 10))), kind == RMGET


def tmget_cases():
    """n at most 9; the address is free where no record is looked at."""
    for n in [*range(11), 255]:
        yield message(TMGET, word(0x1004), bytes([n])), n < 10
    for address in (0, 3, 0x88, 0xFFFFFFFF):
        yield message(TMGET, word(address), b"\x09"), True


def tmput_cases():
    """n at most 4; a data byte may be non-zero only below n."""
    for n in [*range(6), 255]:
        head = word(0x1009), bytes([n])
        yield message(TMPUT, *head), n < 5
        yield message(TMPUT, *head, b"\xaa\xbb\xcc\xdd"), n == 4
        for place in range(4):
            data = bytes(0x5A if i == place else 0 for i in range(4))
            yield message(TMPUT, *head, data), place < n < 5
    for address in (0, 0xFFFFFFFF):
        yield message(TMPUT, word(address), b"\x03\xaa\xbb\xcc"), True


def pid_cases():
    """The five pid requests; the unserved types stay none with a pid too."""
    for pid in (0, 1, 5, 7, 0xFFFFFFFF):
        for kind in (TPROC, TSTATUS, TRNOTE, TSTOP, TSTART):
            yield message(kind, word(pid)), True
        for kind in (TERR, TSTARTSTOP, RSTARTSTOP, TKILL, RKILL):
            yield message(kind, word(pid)), False


def tcondbreak_cases():
    """Every letter with val zero and not zero; every other byte as letter."""
    single = [0x5A << shift for shift in (24, 16, 8, 0)]
    for letter in VAL_USED + VAL_UNUSED:
        op = letter.encode().ljust(4, b"\x00")
        for val in (0, 0x01020304, 255, 256, *single):
            wanted = val == 0 or letter in VAL_USED
            yield message(TCONDBREAK, word(val), op), wanted
        yield message(TCONDBREAK, word(0), letter.encode() * 4), False
        yield message(TCONDBREAK, word(0), op[::-1]), False
    # Neighbouring code points and upper case are among these.
    for code in range(256):
        if chr(code) not in VAL_USED + VAL_UNUSED:
            yield message(TCONDBREAK, word(0), bytes([code])), False
            yield message(TCONDBREAK, word(0x01020304), bytes([code])), False


def rerr_cases():
    """The seven reasons; near texts are none."""
    for reason in REASONS:
        yield message(RERR, reason.encode()), True
        for text in (reason[:-1], reason + "s", reason.upper(), " " + reason):
            yield message(RERR, text.encode()), False


def rmget_cases():
    """Any nine bytes."""
    for data in ("040506070000000000", "3738393a3b3c3d3e3f", "ffffffffffffffffff",
                 "00ff00800a0d207f01", "000000000000000001"):
        yield message(RMGET, bytes.fromhex(data)), True


def rproc_cases():
    """Eight lower-case hex digits and a zero."""
    for address in (0, 1, 0x80001000, 0x80002000, 0xFFFFFFFF,
                    0xABCDEF01, 0x01234567, 0x89ABCDEF):
        yield message(RPROC, b"%08x" % address), True
        yield message(RPROC, word(address)), False
        yield message(RPROC, b"%07x" % (address >> 4)), False
        yield message(RPROC, b"%09x" % address), False
    for code in range(256):
        if chr(code) not in "0123456789abcdef":
            yield message(RPROC, b"8000", bytes([code]), b"000"), False


def rstatus_cases():
    """The texts of the 256 state bytes; other forms of them are none."""
    for state in range(256):
        name = STATE_NAMES[state][:9] if state < 10 else "%x" % state
        yield message(RSTATUS, name.encode()), True
        if state < 16:
            yield message(RSTATUS, b"%02x" % state), False
        if state < 10:
            yield message(RSTATUS, b"%x" % state), False
            yield message(RSTATUS, name.lower().encode()), False
            yield message(RSTATUS, name[:-1].encode()), False
        elif name != name.upper():
            yield message(RSTATUS, name.upper().encode()), False
        yield message(RSTATUS, b"%x" % (state + 256)), False
        yield message(RSTATUS, bytes([state])), chr(state) in "abcdef"


def fixed_cases():
    """The fixed replies: nine zeros."""
    for kind in (RMPUT, RRNOTE, RSTOP, RSTART, RCONDBREAK):
        yield message(kind), True


def base_cases():
    """All base blocks, each with whether it is a message."""
    for cases in (type_cases, tmget_cases, tmput_cases, pid_cases,
                  tcondbreak_cases, rerr_cases, rmget_cases, rproc_cases,
                  rstatus_cases, fixed_cases):
        yield from cases()


# ---- The stored files. ----

def neighbours(block):
    """The block with one byte changed, at each of the ten positions."""
    for place, byte in enumerate(block):
        changed = ((byte + 1) % 256, (byte - 1) % 256, byte ^ 0x20, int(byte == 0))
        for other in changed:
            yield block[:place] + bytes([other]) + block[place + 1:]


def make_blocks():
    """The bases, then the neighbours of each message, none twice."""
    bases = list(base_cases())
    for block, wanted in bases:
        if len(block) != 10 or is_message(block) != wanted:
            sys.exit(f"the two descriptions differ at {block.hex(' ')}: wanted {wanted}")
    blocks = dict.fromkeys(block for block, _ in bases)
    for block, wanted in bases:
        if wanted:
            blocks.update(dict.fromkeys(neighbours(block)))
    return list(blocks)


def answer(block):
    """What wire_main writes for a whole block."""
    if is_message(block):
        return bytes([ACCEPTED]) + block
    return bytes([NO_MESSAGE])


def make_files():
    """The two files, by path, and what they are."""
    blocks = make_blocks()
    cut = message(TMGET, word(0x1004), b"\x04")[:7]
    files = {
        FOLDER / "stdin": b"".join(blocks) + cut,
        FOLDER / "stdout": b"".join(map(answer, blocks)),
    }
    accepted = sum(map(is_message, blocks))
    said = f"{len(blocks)} blocks, {accepted} accepted, {len(blocks) - accepted} refused"
    return files, said


if __name__ == "__main__":
    sys.exit(stored.run(make_files))
