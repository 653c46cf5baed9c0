"""Calls of text steps for the program calls_main: kind 10 of docs/CALLS.md.

Each call is ordinary steps over the worked setup, one text step, and ordinary steps after it. Written from documents
01 and 02 (request Three) and source document 004, and not from the crates. The rule is Stub of
tests/text_step_vectors.py; beside it every directed call states its reply by hand, or its errors in the order that 02
has, and memory afterwards where it matters: the script stops where the two differ. tests/calls_vectors.py stores the
calls.
"""

import sys

from text_step_vectors import ACCEPTED, BAD_TEXTS, BASE, BEGIN, FILL, LEAST_BUFFER, LOOK, MINUS_ONE, NO_PACKET
from text_step_vectors import EBUSY, EFAULT, EINVAL, ESRCH, SHORT_BUFFER, SIZE, TEXT, Script, any_text, chance
from text_step_vectors import step_bytes, word

STEP = 10
HELD = 1024
OTHER_KIND = b"\xff"
ROOMS = (LEAST_BUFFER, LEAST_BUFFER + 1, 40, HELD)
SHORT = (0, 1, LEAST_BUFFER - 1)
SEED, RANDOM_CALLS = 19, 300


# ---- The format. ----

def encoded(text, room, before, after):
    return bytes([STEP]) + b"".join(map(word, (room, len(text), len(before), len(after)))) + text + before + after


def shown(step, answer):
    """What a step writes."""
    kind, *arguments = step
    if kind != TEXT:
        return bytes([ACCEPTED]) + answer
    number, error, text = answer
    if number != ACCEPTED:
        return bytes([number])
    return bytes([number]) + text + bytes([FILL]) * (arguments[1] - len(text)) + bytes([error, len(text)])


class Call(Script):
    """Ordinary steps with one text step among them."""

    def made(self, tail, last):
        """The call and its answer. Behind the steps before and after stand bytes that are no whole step, each with
        what the program says to them."""
        steps = [one for one in self.steps if one[0][0] not in (BEGIN, LOOK)]
        at = [step[0] for step, _ in steps].index(TEXT)
        _, text, room = steps[at][0]
        before, after = (b"".join(step_bytes(step) for step, _ in part) for part in (steps[:at], steps[at + 1:]))
        told, then = (b"".join(shown(*one) for one in part) for part in (steps[:at], steps[at + 1:]))
        answer = told + tail[1] + shown(*steps[at]) + then + last[1] + bytes(self.stub.memory)
        return encoded(text, room, before + tail[0], after + last[0]), answer


def one(text, wanted, before=None, after=None, room=LEAST_BUFFER, tail=(b"", b""), last=(b"", b"")):
    """A call: functions for the steps before and after it, and the wanted reply, number or None."""
    call = Call()
    if before:
        before(call)
    call.text(text, wanted, room)
    if after:
        after(call)
    return call.made(tail, last)


# ---- What stands before a text step. ----

def ready(call):
    """Process 7 is current, and Ready."""
    call.select(7)


def marked(call):
    """Process 7 is current and to be stopped, but not Stopped yet."""
    call.select(7)
    call.ask(12, 7, b"", b"")


def nobody(call):
    """Process 7 is Stopped, and none is current."""
    call.stop(7, 0x10, 0x1008)


def other(call):
    """Process 7 is Stopped, and 5 is current and not."""
    call.stop(7, 0x10, 0x1008)
    call.select(5)


def stopped(call):
    """Processes 5 and 7 are Stopped, and 7 is current."""
    call.stop(5, 0x80, 0x100C)
    call.select(7)
    call.stop(7, 0x10, 0x1008)


def released(call):
    """Process 7 is current, and was started again."""
    stopped(call)
    call.ask(14, 7, b"", b"")


def restarted(call):
    """The restart let go of the process and of the traps."""
    stopped(call)
    call.plant(3, 0x1008)
    call.restart()


def one_trap(call):
    call.plant(3, 0x1008)


def upper_trap(call):
    call.plant(3, 0x100A)


def two_traps(call):
    call.plant(3, 0x1008)
    call.plant(4, 0x100A)


def traps_beside(call):
    """A trap right below the word at 1008 and one right above it."""
    call.plant(3, 0x1006)
    call.plant(4, 0x100C)


def end_traps(call):
    """A trap in the first word of the window and one in the last."""
    call.plant(3, 0x1000)
    call.plant(4, 0x103E)


def in_hand(call):
    """A condition is in hand."""
    call.ask(16, 9, b"n", b"")


# ---- The errors of a request, in the order of document 02. ----

def reply(text, errno, response):
    """The reply's text: the PID and the letter of the request."""
    pid, letter, *_ = text.split(" ")
    flag, last = (MINUS_ONE, errno) if errno else (0, response)
    return f"{pid} {letter} {flag:#x} {last:#x}"


def word_errors():
    """Letter, PID, alignment, window: each with each of the others, right and wrong."""
    addresses = ((0x1004, None), (0x1000, None), (0x103C, None), (0x1001, EINVAL), (0x1002, EINVAL), (0x103F, EINVAL),
                 (0xFFF, EINVAL), (0x1041, EINVAL), (0x3, EINVAL), (0xFFFFFFFF, EINVAL), (0xFFC, EFAULT),
                 (0x1040, EFAULT), (0x0, EFAULT), (0x84, EFAULT), (0x80001004, EFAULT), (0xFFFFFFFC, EFAULT))
    for letter in "idIDcszZ0":
        for pid in (0, 5, 0xFFFFFFFF):
            for address, wrong in addresses:
                text = f"{pid:#x} {letter} {address:#x} 0x5"
                errno = EINVAL if letter not in "idID" else ESRCH if pid else wrong
                at = address - BASE
                previous = at | at + 1 << 8 | at + 2 << 16 | at + 3 << 24 if not errno else None
                yield one(text, reply(text, errno, previous))


def register_errors():
    """Letter, PID, number, none current, not Stopped."""
    for before, wrong in ((None, ESRCH), (nobody, ESRCH), (restarted, ESRCH), (ready, EBUSY), (marked, EBUSY),
                          (other, EBUSY), (released, EBUSY), (stopped, None)):
        for letter in "rRcs":
            for pid in (0, 7):
                for number in (0, 1, 32, 33, 34, 0x84, 0x1000, 0xFFFFFFFF):
                    text = f"{pid:#x} {letter} {number:#x} 0xa1b2c3d4"
                    is_numbered = number <= 33 and (letter, number) != ("R", 0)
                    errno = (EINVAL if letter not in "rR" else ESRCH if pid else
                             wrong if is_numbered else EINVAL)
                    previous = {0: 0x10111213, 1: 0x14151617, 32: 0x90919293, 33: 0x1008}.get(number)
                    yield one(text, reply(text, errno, previous), before)


def low_addresses():
    """A Stopped process that is current has registers at 0 to 135; for a word they lie outside the window."""
    for letter in "idID":
        for address, errno in ((0x0, EFAULT), (0x4, EFAULT), (0x84, EFAULT), (0x88, EFAULT), (0x2, EINVAL)):
            text = f"0x0 {letter} {address:#x} 0x5"
            yield one(text, reply(text, errno, None), stopped)


def letters():
    """Every letter, over a Stopped process that is current: an unlisted one is 22, also with a wrong PID."""
    for letter in map(chr, range(0x21, 0x7F)):
        is_listed = letter in "idIDrR"
        for pid in (0, 1):
            text = f"{pid:#x} {letter} 0x1 0x5"
            errno = EINVAL if not is_listed else ESRCH if pid else None if letter in "rR" else EINVAL
            yield one(text, reply(text, errno, 0x14151617), stopped)


def buffers():
    """A short buffer comes before everything that a text can be; a longer one keeps its rest."""
    longest = "0xffffffff ~ 0xffffffff 0xffffffff"
    for before in (None, stopped, two_traps):
        for room in SHORT:
            for text in ("0x0 I 0x1008 0x5", "0x0 i 0x01008 0x5", "0x5 c 0x1 0x0", "", longest, "0" * HELD):
                yield one(text, SHORT_BUFFER, before, room=room)
        for room in ROOMS:
            yield one("0x0 i 0x1004 0x0", "0x0 i 0x0 0x7060504", before, room=room)
            yield one("0x0 I 0x1004 0x0", "0x0 I 0x0 0x7060504", before, room=room)
            yield one(longest, longest[:-10] + "0x16", before, room=room)
            yield one("0x0 i 0x01008 0x5", NO_PACKET, before, room=room)
            yield one("", NO_PACKET, before, room=room)


def texts():
    """What is no packet changes nothing."""
    odd = [b"0x0 \xe9 0x1004 0x0", b"0x0 i 0x1004 0x0\xff", bytes(HELD), "0x0 I 0x1004 0x0" + " " * 40]
    for text in [*BAD_TEXTS, *odd]:
        yield one(text, NO_PACKET, two_traps, looked_at(8, 9, 10, 11))


# ---- Writes under traps, and what comes after. ----

def looked_at(*data):
    """Tmget of the word at 1008."""
    return lambda call: call.ask(2, 0x1008, b"\x04", bytes(data))


def is_memory(call, at, wanted):
    """Stops unless the call's answer ends with memory that has these bytes from an offset on."""
    found = call[1][-SIZE:][at:at + len(wanted)]
    if found != wanted:
        sys.exit(f"memory at {BASE + at:#x} is {found.hex(' ')}, not {wanted.hex(' ')}")


def unset(*idents):
    def after(call):
        for ident in idents:
            call.ask(16, ident, b"d", b"")
    return after


def traps():
    """A word across no trap, one, the other, two, and beside two: written, and then a read, d, or a restart."""
    patched, plain = bytes([0x44, 0x33, 0x22, 0x11]), bytes([8, 9, 10, 11])
    trap = bytes([0x02, 0x90])
    real = ((None, patched, ()), (one_trap, trap + patched[2:], (3,)), (upper_trap, patched[:2] + trap, (3,)),
            (two_traps, trap + trap, (3, 4)), (traps_beside, patched, (3, 4)))
    for before, memory, idents in real:
        for letter in "id":
            yield one(f"0x0 {letter} 0x1008 0x11223344", f"0x0 {letter} 0x0 0xb0a0908", before, looked_at(*plain))
        for letter in "ID":
            afters = [(None, memory), (looked_at(*patched), memory), (Call.restart, patched), (unset(*idents), patched)]
            if len(idents) == 2:
                first = patched[:2] + trap if before is two_traps else patched
                afters.append((unset(3), first))
            for after, wanted in afters:
                call = one(f"0x0 {letter} 0x1008 0x11223344", f"0x0 {letter} 0x0 0xb0a0908", before, after)
                is_memory(call, 8, wanted)
                yield call
        refused = "0x7 D 0x1008 0x11223344"
        yield one(refused, reply(refused, ESRCH, None), before, looked_at(*plain))


def end_words():
    """Both ends of the window, under traps: written, and then a restart or d."""
    for address, previous, at, there in ((0x1000, 0x3020100, 0, "02904433"), (0x103C, 0x3F3E3D3C, 60, "66550290")):
        for letter in "idID":
            data = 0x33445566
            text = f"0x0 {letter} {address:#x} {data:#x}"
            is_read = letter in "id"
            plain = (previous if is_read else data).to_bytes(4, "little")
            real = bytes.fromhex("02900203" if at == 0 else "3c3d0290") if is_read else bytes.fromhex(there)
            for after, wanted in ((None, real), (Call.restart, plain), (unset(3, 4), plain)):
                call = one(text, reply(text, None, previous), end_traps, after)
                is_memory(call, at, wanted)
                yield call


def kept():
    """What a text step leaves: the condition in hand, the process, its registers, the other's."""
    def planted(call):
        call.ask(16, 0x1010, b"b", b"")

    def registers(first, data):
        return lambda call: call.ask(2, first, bytes([len(data)]), data)

    for text in ("0x0 I 0x1004 0x7060504", "0x0 c 0x1 0x0", "0x5 i 0x1004 0x0", "0x0 d 0x1001 0x0", "0x0 d 0x2000 0x0",
                 "0x0 r 0x1 0x0", "no packet"):
        yield one(text, None, in_hand, planted)
    yield one("0x0 R 0x21 0x1020304", "0x0 R 0x0 0x1008", stopped, registers(0x80, bytes.fromhex("90919293 01020304")))
    yield one("0x0 R 0x1 0x0", "0x0 R 0x0 0x14151617", stopped, registers(0, bytes.fromhex("10111213 00000000")))
    yield one("0x0 R 0x1 0x0", "0x0 R 0x0 0x14151617", stopped, lambda call: (
        call.select(5), registers(4, bytes.fromhex("84858687"))(call)))
    yield one("0x0 R 0x22 0x0", "0x0 R 0xffffffff 0x16", stopped, registers(0x80, bytes.fromhex("90919293 00001008")))
    yield one("0x0 D 0x1004 0x5", "0x0 D 0x0 0x7060504", stopped, lambda call: call.ask(14, 7, b"", b""))


def ends():
    """Steps that a cut or another kind ends: the text step is made all the same, and the steps after it."""
    read, said = "0x0 D 0x1004 0x5", "0x0 D 0x0 0x7060504"
    none = b"", b""
    for tail in ((b"\x01", b""), (b"\x01\x02\x00\x00\x10", b""), (b"\x03" + word(7), b""), (b"\x00", OTHER_KIND),
                 (b"\x06\x05", OTHER_KIND), (b"\xff\x01", OTHER_KIND), (b"\x0a" * 11, OTHER_KIND)):
        for before in (None, two_traps):
            yield one(read, said, before, None, tail=tail)
            yield one(read, said, before, Call.restart, last=tail)
            yield one(read, said, before, Call.restart, tail=tail, last=tail)


def longest():
    """As much as is held: 93 requests have 1,023 bytes."""
    def many(call):
        for i in range(93):
            call.ask(2, BASE + i % SIZE, b"\x01", bytes([i % SIZE]))

    for before, after in ((many, None), (None, many), (many, many)):
        for room in (LEAST_BUFFER, HELD):
            yield one("0x0 i 0x1004 0x0", "0x0 i 0x0 0x7060504", before, after, room, (b"\x01", b""), (b"\x01", b""))
    yield one(bytes(HELD), NO_PACKET, many, many, HELD, (b"\x00", OTHER_KIND), (b"\x00", OTHER_KIND))


DIRECTED = (word_errors, register_errors, low_addresses, letters, buffers, texts, traps, end_words, kept, ends, longest)


# ---- Random calls, with the answers of Stub. ----

def scattered():
    noise, pick = chance(SEED)
    befores = (None, ready, nobody, other, stopped, stopped, stopped, released, one_trap, upper_trap, two_traps,
               two_traps, traps_beside)
    for _ in range(RANDOM_CALLS):
        text = any_text(noise, pick)
        yield one(text, None, pick(befores), pick((None, None, Call.restart)), pick((0, 33, 34, 34, 34, 35, 60)))


def cases():
    """Every call with its answer."""
    for made in (*DIRECTED, scattered):
        yield from made()
