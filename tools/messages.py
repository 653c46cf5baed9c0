"""The ten-byte messages of the line as text (docs/PROTOCOL.md)."""

TYPES = {
    0: "Terr", 1: "Rerr", 2: "Tmget", 3: "Rmget", 4: "Tmput", 5: "Rmput", 6: "Tproc", 7: "Rproc",
    8: "Tstatus", 9: "Rstatus", 10: "Trnote", 11: "Rrnote", 12: "Tstop", 13: "Rstop", 14: "Tstart", 15: "Rstart",
    16: "Tcondbreak", 17: "Rcondbreak", 18: "Tstartstop", 19: "Rstartstop", 22: "Tkill", 23: "Rkill",
}
RERR, TMGET, RMGET, TMPUT, RMPUT, TPROC, RPROC, TSTATUS, RSTATUS = range(1, 10)
TRNOTE, RRNOTE, TSTOP, RSTOP, TSTART, RSTART, TCONDBREAK, RCONDBREAK = range(10, 18)
PID_REQUESTS = (TPROC, TSTATUS, TRNOTE, TSTOP, TSTART)
TEXT_REPLIES = (RERR, RPROC, RSTATUS)
FIXED_REPLIES = (RMPUT, RRNOTE, RSTOP, RSTART, RCONDBREAK)
DECIMAL_LETTERS, HEX_LETTERS, BARE_LETTERS = "nkd", "pb", "*&=!ao"


def number(part):
    """A number of several bytes, high-order first."""
    return int.from_bytes(part, "big")


def name_of(kind):
    return TYPES.get(kind, f"type {kind}")


def printable(text):
    """Bytes as characters; those that a terminal does not print as such are escaped."""
    return "".join(chr(byte) if 0x20 <= byte < 0x7f else f"\\x{byte:02x}" for byte in text)


def with_unused(text, unused):
    """The text, and behind it the unused bytes where one of them is not zero."""
    return f"{text}, unused {unused.hex(' ')}" if any(unused) else text


def condbreak(data):
    """The letter and its val, and the bytes that this letter leaves unused."""
    val, letter = data[:4], chr(data[4])
    if letter in DECIMAL_LETTERS:
        return f"{letter} {number(val)}", data[5:]
    if letter in HEX_LETTERS:
        return f"{letter} {number(val):#x}", data[5:]
    if letter in BARE_LETTERS:
        return letter, (val if any(val) else b"") + data[5:]
    return f"op {data[4:8].hex(' ')} val {number(val):#x}", data[8:]


def show_request(message):
    """A request by its name and fields; a type that is not served with all nine bytes, unless they are zeros."""
    kind, data = message[0], message[1:]
    name = name_of(kind)
    if kind == TMGET:
        return with_unused(f"{name} {number(data[:4]):#x} n {data[4]}", data[5:])
    if kind == TMPUT:
        n = min(data[4], 4)
        written = "".join(f" {byte:02x}" for byte in data[5:5 + n])
        return with_unused(f"{name} {number(data[:4]):#x} n {data[4]}{written}", data[5 + n:])
    if kind in PID_REQUESTS:
        return with_unused(f"{name} {number(data[:4])}", data[4:])
    if kind == TCONDBREAK:
        text, unused = condbreak(data)
        return with_unused(f"{name} {text}", unused)
    return f"{name} {data.hex(' ')}" if any(data) else name


def show_reply(message, n=9):
    """A reply by its name and fields; of an Rmget the n bytes that were asked for."""
    kind, data = message[0], message[1:]
    name = name_of(kind)
    if kind == RMGET:
        return with_unused(f"{name} {data[:n].hex(' ')}".rstrip(), data[n:])
    if kind in TEXT_REPLIES:
        text, _, unused = data.partition(b"\x00")
        return with_unused(f"{name} {printable(text)}", unused)
    if kind in FIXED_REPLIES:
        return with_unused(name, data)
    return f"{name} {data.hex(' ')}"
