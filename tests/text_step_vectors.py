#!/usr/bin/env python3
"""Text steps over the worked setup, between ordinary steps, with the answers that document 02 wants.

    python3 tests/text_step_vectors.py              print them
    python3 tests/text_step_vectors.py PROGRAM ..   run them by a program (tests/text_step_run.c) and compare

Written from documents 01 and 02 (request Three) and source document 004, not from the crates; it shares nothing with
the Rust code. The rule stands here twice: Stub goes by the words of the papers, and every directed step states its
answer by hand; the script stops where the two differ. Random steps, after those, have the answers of Stub.

How a step and its answer become bytes is in step_bytes() and answer_bytes() alone.
"""

import random
import re
import subprocess
import sys

ACCEPTED, NO_PACKET, SHORT_BUFFER = 0, 10, 11
ESRCH, EFAULT, EBUSY, EINVAL = 3, 14, 16, 22
MINUS_ONE = 0xFFFFFFFF
LEAST_BUFFER, FILL = 34, 0xEE
BASE, SIZE, BLOCK, PC = 4096, 64, 136, 132
READY, STOPPED = 2, 8
TRAP = bytes([0x02, 0x90])
MOST_UNSEEN = 16  # refused steps between two looks
SEED, RANDOM_STEPS = 17, 600
NUMBER = rb"0x(0|[1-9a-f][0-9a-f]{0,7})"
FORM = re.compile(NUMBER + rb" ([!-~]) " + NUMBER + rb" " + NUMBER)


def word(value):
    """A number of four bytes, high-order first."""
    return value.to_bytes(4, "big")


# ---- The rule. ----

class Stub:
    """The worked setup, as far as the steps below need it: breakpoints have no elements."""

    def __init__(self):
        self.memory = bytearray(range(SIZE))
        self.registers = bytearray(2 * BLOCK)
        self.pids = [5, 7]
        self.states = [READY, READY]
        self.wanted = [False, False]
        self.current = None
        self.draft = None
        self.points = {}  # by site: the id and the plain bytes

    # plain memory, and below 136 the current process's registers

    def places(self, address, n):
        """For each byte the buffer that it is in, memory, registers or a breakpoint's plain bytes, and where there."""
        for at in range(address, address + n):
            if at < BLOCK:
                yield self.registers, BLOCK * self.current + at
            elif at & ~1 in self.points:
                yield self.points[at & ~1][1], at & 1
            else:
                yield self.memory, at - BASE

    def read(self, address, n):
        return bytes(buffer[i] for buffer, i in self.places(address, n))

    def write(self, address, data):
        for (buffer, i), byte in zip(self.places(address, len(data)), data):
            buffer[i] = byte

    def remove(self, site):
        self.memory[site - BASE:site - BASE + 2] = self.points.pop(site)[1]

    # ordinary steps; all of these are accepted where they are used

    def request(self, message):
        kind, number, rest = message[0], int.from_bytes(message[1:5], "big"), message[5:]
        index = self.pids.index(number) if number in self.pids else None
        reply = b""
        if kind == 2:
            reply = self.read(number, rest[0])
        elif kind == 4:
            self.write(number, rest[1:1 + rest[0]])
        elif kind == 6:
            self.current = index
            reply = (b"80001000", b"80002000")[index]
        elif kind == 12:
            self.wanted[index] = self.states[index] != STOPPED
        elif kind == 14:
            self.wanted[index] = False
            self.states[index] = READY
        else:
            self.operation(chr(rest[0]), number)
        return bytes([kind + 1]) + reply.ljust(9, b"\0")

    def operation(self, letter, number):
        if letter == "n":
            self.draft = number
        elif letter == "b":
            at = number - BASE
            self.points[number] = (self.draft, bytearray(self.memory[at:at + 2]))
            self.memory[at:at + 2] = TRAP
            self.draft = None
        else:
            self.remove(next(site for site, (ident, _) in self.points.items() if ident == number))

    def schedule(self, pid, block):
        index = self.pids.index(pid)
        stops = self.wanted[index]
        if stops:
            self.registers[BLOCK * index:BLOCK * (index + 1)] = block
            self.states[index], self.wanted[index] = STOPPED, False
        return stops

    def restart(self):
        for site in list(self.points):
            self.remove(site)
        self.draft = self.current = None
        self.wanted = [False, False]
        self.states = [READY if state == STOPPED else state for state in self.states]

    # a text step: the number, whether ERRFLG is -1, and the text

    def text(self, request, room):
        if room < LEAST_BUFFER:
            return SHORT_BUFFER, 0, b""
        found = FORM.fullmatch(request)
        if not found:
            return NO_PACKET, 0, b""
        letter = found[2].decode()
        pid, third, fourth = (int(found[i], 16) for i in (1, 3, 4))
        errno, response = self.served(pid, letter, third, fourth)
        flag, last = (MINUS_ONE, errno) if errno else (0, response)
        return ACCEPTED, int(bool(errno)), b"0x%x %s 0x%x 0x%x" % (pid, letter.encode(), flag, last)

    def served(self, pid, letter, third, fourth):
        """An errno and nothing, or 0 and the response."""
        if letter not in "idIDrR":
            return EINVAL, None
        if pid != 0:
            return ESRCH, None
        if letter in "rR":
            return self.register(letter, third, fourth)
        if third % 4:
            return EINVAL, None
        if not BASE <= third <= BASE + SIZE - 4:
            return EFAULT, None
        previous = int.from_bytes(self.read(third, 4), "little")
        if letter in "ID":
            self.write(third, fourth.to_bytes(4, "little"))
        return 0, previous

    def register(self, letter, number, data):
        if number > 33 or (letter == "R" and number == 0):
            return EINVAL, None
        if self.current is None:
            return ESRCH, None
        if self.states[self.current] != STOPPED:
            return EBUSY, None
        at = BLOCK * self.current + 4 * number
        previous = int.from_bytes(self.registers[at:at + 4], "big")
        if letter == "R":
            self.registers[at:at + 4] = word(data)
        return 0, previous


# ---- The format: that of the program of 01, with a kind 0 that begins anew, 6 for a text step, 7 for a look and 8 that
# begins anew with a protected stretch (of docs/PROTOCOL.md only). ----

BEGIN, REQUEST, SCHEDULE, RESTART, TEXT, LOOK, PROTECT = 0, 1, 3, 5, 6, 7, 8


def step_bytes(step):
    """A step is its kind and its arguments; those of a text step are the request and the room for its reply."""
    kind, *arguments = step
    head = bytes([kind])
    if kind == REQUEST:
        return head + arguments[0]
    if kind == SCHEDULE:
        pid, block = arguments
        return head + word(pid) + block
    if kind == TEXT:
        request, room = arguments
        return head + word(room) + word(len(request)) + request
    if kind == PROTECT:
        return head + b"".join(address.to_bytes(8, "big") for address in arguments)
    return head


def answer_bytes(step, answer):
    """The answer of a step; of a look it is memory and register area."""
    kind, *arguments = step
    if kind == TEXT:
        number, error, text = answer
        buffer = text + bytes([FILL]) * (arguments[1] - len(text))
        return bytes([number, error, len(text)]) + buffer
    if kind in (BEGIN, PROTECT):
        return b""
    if kind == LOOK:
        return answer
    return bytes([ACCEPTED]) + answer


# ---- Steps with the answers that are wanted, by hand. ----

class Script:
    """Steps, each with its answer. A wanted answer of None is for Stub to say."""

    def __init__(self):
        self.steps = []
        self.begin()

    def look(self):
        """Shows memory and register area."""
        self.unseen = 0
        self.add((LOOK,), bytes(self.stub.memory + self.stub.registers))

    def add(self, step, answer, wanted=None):
        if wanted is not None and answer != wanted:
            sys.exit(f"the two descriptions differ at step {len(self.steps)}, {step}: {answer} and {wanted}")
        self.steps.append((step, answer))

    def begin(self):
        self.stub, self.unseen = Stub(), 0
        self.add((BEGIN,), b"")

    def ask(self, kind, number, rest, reply):
        message = (bytes([kind]) + word(number) + rest).ljust(10, b"\0")
        wanted = (bytes([kind + 1]) + reply).ljust(10, b"\0")
        self.add((REQUEST, message), self.stub.request(message), wanted)

    def plant(self, ident, site):
        self.ask(16, ident, b"n", b"")
        self.ask(16, site, b"b", b"")

    def select(self, pid):
        self.ask(6, pid, b"", {5: b"80001000", 7: b"80002000"}[pid])

    def stop(self, pid, first, pc):
        """A Tstop and the schedule event; the block's bytes count up from the first, then the pc."""
        self.ask(12, pid, b"", b"")
        block = bytes((first + i) % 256 for i in range(PC)) + word(pc)
        self.add((SCHEDULE, pid, block), bytes([self.stub.schedule(pid, block)]), b"\1")

    def restart(self):
        self.stub.restart()
        self.add((RESTART,), b"\1reset\0\0\0\0")

    def text(self, request, wanted, room=LEAST_BUFFER):
        """A text step: by hand its reply, its number, or None. A look after those carried out, and some others."""
        step = (TEXT, request.encode() if isinstance(request, str) else request, room)
        if isinstance(wanted, str):
            wanted = ACCEPTED, int(" 0xffffffff " in wanted[4:]), wanted.encode()
        elif wanted is not None:
            wanted = wanted, 0, b""
        before = self.stub.memory + self.stub.registers
        answer = self.stub.text(*step[1:])
        self.add(step, answer, wanted)
        is_refused = answer[0] or answer[1]
        if is_refused and self.stub.memory + self.stub.registers != before:
            sys.exit(f"a refused step changed something: {step}")
        self.unseen += 1
        if not is_refused or self.unseen == MOST_UNSEEN:
            self.look()

    def memory(self, address, wanted):
        """What memory must hold now, by hand."""
        at = address - BASE
        data = bytes.fromhex(wanted)
        if self.stub.memory[at:at + len(data)] != data:
            sys.exit(f"memory at {address:#x} is {self.stub.memory[at:at + len(data)].hex(' ')}, not {wanted}")


def words(s):
    """Every letter of a word, each answer the word before the step."""
    s.text("0x0 i 0x1004 0x0", "0x0 i 0x0 0x7060504")
    s.text("0x0 d 0x1000 0xffffffff", "0x0 d 0x0 0x3020100")
    s.text("0x0 I 0x1004 0xdeadbeef", "0x0 I 0x0 0x7060504")
    s.memory(0x1003, "03 ef be ad de 08")
    s.text("0x0 i 0x1004 0x0", "0x0 i 0x0 0xdeadbeef")
    s.text("0x0 D 0x1004 0x1", "0x0 D 0x0 0xdeadbeef")
    s.memory(0x1003, "03 01 00 00 00 08")
    s.text("0x0 d 0x1004 0x0", "0x0 d 0x0 0x1")
    s.ask(4, 0x1006, b"\2\xaa\xbb", b"")
    s.text("0x0 i 0x1004 0x0", "0x0 i 0x0 0xbbaa0001")
    s.text("0x0 D 0x1004 0x0", "0x0 D 0x0 0xbbaa0001")
    s.text("0x0 d 0x1004 0x0", "0x0 d 0x0 0x0")


def window_ends(s):
    """The first and the last word, and the words beside them."""
    for letter in "idID":
        data = "0x3020100" if letter in "ID" else "0x0"
        s.text(f"0x0 {letter} 0x1000 {data}", f"0x0 {letter} 0x0 0x3020100")
        data = "0x3f3e3d3c" if letter in "ID" else "0x0"
        s.text(f"0x0 {letter} 0x103c {data}", f"0x0 {letter} 0x0 0x3f3e3d3c")
        for address in ("0xffc", "0x1040", "0x0", "0x4", "0x84", "0x88", "0x80001004", "0xfffffffc"):
            s.text(f"0x0 {letter} {address} 0x5", f"0x0 {letter} 0xffffffff 0xe")
        for address in ("0x1001", "0x1002", "0x1003", "0x103d", "0x1", "0xfff", "0x1041", "0xffffffff", "0x3"):
            s.text(f"0x0 {letter} {address} 0x5", f"0x0 {letter} 0xffffffff 0x16")


def one_trap(s):
    """A trap in either half of a word, and one beside it."""
    s.plant(3, 0x1008)
    s.text("0x0 i 0x1008 0x0", "0x0 i 0x0 0xb0a0908")
    s.text("0x0 I 0x1008 0x44332211", "0x0 I 0x0 0xb0a0908")
    s.memory(0x1006, "06 07 02 90 33 44 0c")
    s.text("0x0 d 0x1004 0x0", "0x0 d 0x0 0x7060504")
    s.plant(4, 0x100E)
    s.text("0x0 D 0x100c 0x88776655", "0x0 D 0x0 0xf0e0d0c")
    s.memory(0x1008, "02 90 33 44 55 66 02 90")
    s.ask(2, 0x1008, b"\x08", bytes.fromhex("11 22 33 44 55 66 77 88"))
    s.ask(16, 3, b"d", b"")
    s.memory(0x1008, "11 22 33 44 55 66 02 90")
    s.text("0x0 I 0x100c 0x90029002", "0x0 I 0x0 0x88776655")
    s.ask(16, 4, b"d", b"")
    s.memory(0x1008, "11 22 33 44 02 90 02 90")
    s.text("0x0 d 0x100c 0x0", "0x0 d 0x0 0x90029002")


def two_traps(s):
    """A trap in each half of a word."""
    s.plant(3, 0x1008)
    s.plant(4, 0x100A)
    s.text("0x0 d 0x1008 0x0", "0x0 d 0x0 0xb0a0908")
    s.text("0x0 D 0x1008 0x44332211", "0x0 D 0x0 0xb0a0908")
    s.memory(0x1007, "07 02 90 02 90 0c")
    s.text("0x0 i 0x1008 0x0", "0x0 i 0x0 0x44332211")
    s.ask(4, 0x1009, b"\2\xaa\xbb", b"")
    s.text("0x0 I 0x1008 0x0", "0x0 I 0x0 0x44bbaa11")
    s.ask(16, 4, b"d", b"")
    s.memory(0x1008, "02 90 00 00")
    s.text("0x0 I 0x1008 0x1020304", "0x0 I 0x0 0x0")
    s.restart()
    s.memory(0x1008, "04 03 02 01")
    s.text("0x0 i 0x1008 0x0", "0x0 i 0x0 0x1020304")


def registers(s):
    """Registers of the current process, high-order first; the other's block stays."""
    s.stop(7, 0x10, 0x1008)
    s.stop(5, 0x80, 0x100C)
    s.select(7)
    s.text("0x0 r 0x0 0x0", "0x0 r 0x0 0x10111213")
    s.text("0x0 r 0x1 0xffffffff", "0x0 r 0x0 0x14151617")
    s.text("0x0 r 0x1f 0x0", "0x0 r 0x0 0x8c8d8e8f")
    s.text("0x0 r 0x20 0x0", "0x0 r 0x0 0x90919293")
    s.text("0x0 r 0x21 0x0", "0x0 r 0x0 0x1008")
    s.text("0x0 R 0x21 0x1020304", "0x0 R 0x0 0x1008")
    s.text("0x0 R 0x1 0x0", "0x0 R 0x0 0x14151617")
    s.text("0x0 R 0x20 0xffffffff", "0x0 R 0x0 0x90919293")
    s.ask(2, 0x80, b"\x08", bytes.fromhex("ff ff ff ff 01 02 03 04"))
    s.ask(4, 0x86, b"\2\xaa\xbb", b"")
    s.text("0x0 r 0x21 0x0", "0x0 r 0x0 0x102aabb")
    for letter in "idID":
        for address in ("0x0", "0x4", "0x84"):
            s.text(f"0x0 {letter} {address} 0x5", f"0x0 {letter} 0xffffffff 0xe")
    s.select(5)
    s.text("0x0 r 0x21 0x0", "0x0 r 0x0 0x100c")
    s.text("0x0 r 0x0 0x0", "0x0 r 0x0 0x80818283")


def register_errors(s):
    """The number, then none current, then not Stopped; each before the next."""
    numbers = ("r 0x22", "R 0x22", "r 0x23", "R 0x84", "r 0x1000", "R 0x80000000", "r 0xffffffff", "R 0x0")

    def all_answer(errno):
        for request in numbers:
            s.text(f"0x0 {request} 0x5", f"0x0 {request[0]} 0xffffffff 0x16")
        for request in ("r 0x0", "r 0x1", "r 0x21", "R 0x1", "R 0x20", "R 0x21"):
            s.text(f"0x0 {request} 0x5", f"0x0 {request[0]} 0xffffffff {errno}")

    all_answer("0x3")
    s.stop(7, 0x10, 0x1008)
    all_answer("0x3")
    s.select(5)
    all_answer("0x10")
    s.select(7)
    for request in numbers:
        s.text(f"0x0 {request} 0x5", f"0x0 {request[0]} 0xffffffff 0x16")
    s.text("0x0 R 0x21 0x5", "0x0 R 0x0 0x1008")
    s.ask(14, 7, b"", b"")
    all_answer("0x10")
    s.restart()
    all_answer("0x3")


def letters(s):
    """Every letter: unlisted ones, c and s too, before the PID; then the PID before all else."""
    s.stop(7, 0x10, 0x1008)
    s.select(7)
    for letter in map(chr, range(0x21, 0x7F)):
        listed = letter in "idIDrR"
        errno = "0x3" if listed else "0x16"
        for pid in ("0x1", "0x7", "0xffffffff"):
            for address in ("0x1004", "0x1", "0x1040", "0x0", "0x22") if listed else ("0x1004", "0x1"):
                s.text(f"{pid} {letter} {address} 0x5", f"{pid} {letter} 0xffffffff {errno}")
        if not listed:
            s.text(f"0x0 {letter} 0x1004 0x5", f"0x0 {letter} 0xffffffff 0x16")
            s.text(f"0x0 {letter} 0x1 0x0", f"0x0 {letter} 0xffffffff 0x16")


BAD_TEXTS = [
    "", " ", "0x0", "0x0 i", "0x0 i 0x1004", "0x0 i 0x1004 ", "0x0 i 0x1004 0x", "i 0x1004 0x0",
    "0x0 i 0x1004 0x0 ", " 0x0 i 0x1004 0x0", "0x0 i 0x1004 0x0\0", "0x0 i 0x1004 0x0\n", "0x0 i 0x1004 0x0 0x0",
    "0x0  i 0x1004 0x0", "0x0 i  0x1004 0x0", "0x0 i 0x1004  0x0", "0x0\ti 0x1004 0x0", "0x0i 0x1004 0x0",
    "0x00 i 0x1004 0x0", "0x0 i 0x01004 0x0", "0x0 i 0x1004 0x00", "0x0 i 0x00001004 0x0",
    "0x0 i 0x103C 0x0", "0X0 i 0x1004 0x0", "0x0 I 0x1004 0xAB", "0x0 i 0X1004 0x0",
    "0x100000000 i 0x1004 0x0", "0x0 i 0x100001004 0x0", "0x0 D 0x1004 0x123456789", "0x0 i 0x000001004 0x0",
    "0x0 ii 0x1004 0x0", "0x0   0x1004 0x0", "0x0 \x7f 0x1004 0x0", "0x0 \x1f 0x1004 0x0", "0x i 0x1004 0x0",
    "0 i 0x1004 0x0", "0x0 i 4100 0x0", "0x0 i -0x1 0x0", "0x0 i 0x1004 0xg", "0xffffffff i 0xffffffff 0xfffffffff",
    "0" * 64, "0x0 i 0x1004 0x0" + " " * 40,
]


def numbers(s):
    """Buffers, and texts that are no packet's. A short buffer comes first."""
    s.plant(3, 0x1004)
    s.ask(16, 9, b"n", b"")
    longest = "0xffffffff ~ 0xffffffff 0xffffffff"
    for room in (0, 1, 16, 33):
        s.text("0x0 I 0x1008 0x5", SHORT_BUFFER, room)
        s.text("0x0 I 0x01008 0x5", SHORT_BUFFER, room)
        s.text("", SHORT_BUFFER, room)
    for room in (34, 35, 60):
        s.text("0x0 i 0x1004 0x5", "0x0 i 0x0 0x7060504", room)
        s.text(longest, longest[:-10] + "0x16", room)
        s.text("0x0 I 0x01008 0x5", NO_PACKET, room)
        s.text("", NO_PACKET, room)
    for text in BAD_TEXTS:
        s.text(text, NO_PACKET)
    s.text(b"0x0 \xe9 0x1004 0x0", NO_PACKET)
    s.ask(16, 0x100A, b"b", b"")
    s.memory(0x1008, "08 09 02 90")


def condition_in_hand(s):
    """What is in hand stays, whatever a text step answers: the b after it is accepted."""
    s.stop(7, 0x10, 0x1008)
    s.select(7)
    for ident, request in enumerate(("0x0 I 0x1004 0x7060504", "0x0 R 0x1 0x5", "0x0 c 0x1 0x0", "0x5 i 0x1004 0x0",
                                     "0x0 d 0x1001 0x0", "0x0 d 0x2000 0x0", "no packet")):
        s.ask(16, ident, b"n", b"")
        s.text(request, None)
        s.ask(16, 0x1010 + 2 * ident, b"b", b"")
    s.memory(0x1010, "02 90 " * 7 + "1e")


DIRECTED = (words, window_ends, one_trap, two_traps, registers, register_errors, letters, numbers, condition_in_hand)


def chance(seed):
    """Numbers from 0 to below 1, and a choice by one of them."""
    # Of this generator only random() is the same in every version of Python.
    noise = random.Random(seed).random
    return noise, lambda choices: choices[int(noise() * len(choices))]


def any_text(noise, pick):
    """A request, mostly one that is served; one in ten has a wrong byte, or one too many."""
    letter = pick("iiddIIDDrrRRcsz")
    addresses = [BASE + 4 * pick(range(16)), BASE - 6 + pick(range(76)), 0x1008, int(noise() * 2 ** 32)]
    third = pick(range(36)) if letter in "rR" else pick(addresses)
    text = f"{pick(('0x0',) * 9 + ('0x7',))} {letter} {third:#x} {int(noise() * 16 ** pick(range(9))):#x}"
    if noise() < 0.1:
        place = pick(range(len(text)))
        text = text[:place] + pick("0 xaF") + text[place + pick((0, 1)):]
    return text


def scattered(s):
    """Random requests over two traps and a Stopped process, with the answers of Stub."""
    noise, pick = chance(SEED)
    s.plant(3, 0x1008)
    s.plant(4, 0x100A)
    s.stop(7, 0x10, 0x1008)
    for _ in range(RANDOM_STEPS):
        s.text(any_text(noise, pick), None, pick((0, 33, 34, 34, 34, 34, 35, 60)))
        if noise() < 0.1:
            s.select(pick((5, 7)))


def script():
    s = Script()
    for cases in (*DIRECTED, scattered):
        cases(s)
        s.look()
        s.begin()
    return s.steps


def cases():
    """Every step and its answer as bytes, for another script to store."""
    return [(step_bytes(step), answer_bytes(step, answer)) for step, answer in script()]


# ---- Printed, or run. ----

def shown(step, answer):
    kind, *arguments = step
    if kind == TEXT:
        number, error, text = answer
        request, room = arguments
        return f"text {request!r} over {room} bytes: number {number}, error {error}, {text!r}"
    if kind == LOOK:
        return f"     memory {answer[:SIZE].hex()}"
    names = {BEGIN: "begin", PROTECT: "protect", REQUEST: "request", SCHEDULE: "schedule", RESTART: "restart"}
    return f"{names[kind]} {step_bytes(step)[1:11].hex(' ')}: {answer.hex(' ')}"


def compare(steps, command):
    """Runs the steps by a program. Gives how many answers are wrong."""
    data = b"".join(step_bytes(step) for step, _ in steps)
    output = subprocess.run(command, input=data, stdout=subprocess.PIPE, check=True).stdout
    wrong = 0
    for step, answer in steps:
        wanted = answer_bytes(step, answer)
        got, output = output[:len(wanted)], output[len(wanted):]
        if got != wanted:
            wrong += 1
            print(f"{shown(step, answer)}\n  got {got.hex(' ')}")
    if output:
        wrong += 1
        print(f"left over: {output.hex(' ')}")
    return wrong


def main():
    steps = script()
    texts = [answer for step, answer in steps if step[0] == TEXT]
    counts = ", ".join(f"{sum(answer[0] == number for answer in texts)} number {number}"
                       for number in (ACCEPTED, NO_PACKET, SHORT_BUFFER))
    said = f"{len(steps)} steps, {len(texts)} of text: {counts}, {sum(answer[1] for answer in texts)} with ERRFLG -1"
    if len(sys.argv) == 1:
        print("\n".join(shown(*one) for one in steps))
        print(said)
        return 0
    wrong = compare(steps, sys.argv[1:])
    print(f"{said}; {wrong} wrong")
    return 1 if wrong else 0


if __name__ == "__main__":
    sys.exit(main())
