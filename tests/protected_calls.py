#!/usr/bin/env python3
"""Calls of sessions with a protected stretch for the program calls_main: kind 11 of docs/CALLS.md.

    python3 tests/protected_calls.py                   say how many there are
    python3 tests/protected_calls.py PROGRAM ..        run them by a program and compare

Each call is a setup (B, M, processes, from, to), ordinary steps, one text step, and ordinary steps after it. Written
from documents 01 and 02 (requests Two, Three, Five and Seven), not from the crates; it shares nothing with the Rust
code. The rule stands here twice: Stub goes by the words of the papers, and every directed step states its answer by
hand; the script stops where the two differ. Random calls, after those, have the answers of Stub.
rust/reference/examples/protected_calls.rs answers the same calls by the independent stub in Rust.

How a call becomes bytes is in encoded(), and what is lent in lent(), alone.
"""

import random
import re
import subprocess
import sys

KIND = 11
HELD_MEMORY, HELD_PROCESSES, HELD = 64, 4, 1024
BLOCK, PC, LEAST_BUFFER, FILL = 136, 132, 34, 0xEE
READY, STOPPED = 2, 8
TOP = 2 ** 32
TRAP = bytes([0x02, 0x90])
REQUEST, TRAP_EVENT, SCHEDULE, STATE, RESTART = 1, 2, 3, 4, 5
BODIES = {REQUEST: 10, TRAP_EVENT: 4 + BLOCK, SCHEDULE: 4 + BLOCK, STATE: 5, RESTART: 0}
ESRCH, EACCES, EFAULT, EBUSY, EINVAL = 3, 13, 14, 16, 22
NUMBER = rb"0x(0|[1-9a-f][0-9a-f]{0,7})"
FORM = re.compile(NUMBER + rb" ([!-~]) " + NUMBER + rb" " + NUMBER)
SEED, RANDOM_CALLS = 23, 600


def word(value):
    """A number of four bytes, high-order first."""
    return value.to_bytes(4, "big")


def number(data):
    return int.from_bytes(data, "big")


# ---- The format. ----

class Setup:
    """What a setup is asked for. There are always four pairs of pid and Proc address; those past the count are for
    nobody to look at."""

    def __init__(self, base=4096, size=64, start=4096, end=4096, count=2, pairs=None):
        self.base, self.size, self.start, self.end, self.count = base, size, start, end, count
        self.pairs = pairs or ((5, 0x80001000), (7, 0x80002000), (0, 0), (5, 0))


def encoded(setup, text, room, before, after):
    """The call: the setup, the four lengths, the text and the steps before and after it."""
    numbers = word(setup.base) + word(setup.size) + setup.start.to_bytes(8, "big") + setup.end.to_bytes(8, "big")
    pairs = b"".join(word(pid) + word(address) for pid, address in setup.pairs)
    lengths = room, len(text), len(before), len(after)
    assert max(lengths) <= HELD, "more than the program holds"
    lengths = b"".join(map(word, lengths))
    return bytes([KIND]) + numbers + word(setup.count) + pairs + lengths + text + before + after


def lent(setup):
    """The memory and the register area that the program lends."""
    memory = bytearray(i % 256 for i in range(min(setup.size, HELD_MEMORY)))
    return memory, bytearray(BLOCK * min(setup.count, HELD_PROCESSES))


# ---- The rule. ----

class Refused(Exception):
    """A reason, an errno, or the number of a step."""


class Stub:
    def __init__(self, setup):
        self.base, self.size, self.start, self.end = setup.base, setup.size, setup.start, setup.end
        self.pairs = setup.pairs[:setup.count]
        self.memory, self.registers = lent(setup)
        self.number = self.setup_number(setup)
        self.states, self.wanted = [READY] * len(self.pairs), [False] * len(self.pairs)
        self.current = self.draft = None  # an index; an id and its elements
        self.points = {}  # by site: id, elements, plain bytes

    def setup_number(self, setup):
        pids = [pid for pid, _ in self.pairs]
        rising = [self.base, self.start, self.end, self.base + self.size]
        if not (4 <= self.size <= 65536 and self.size % 4 == 0 and self.base % 4 == 0 and self.base >= 4096
                and self.base + self.size <= TOP and 1 <= setup.count <= 4 and 0 not in pids
                and len(set(pids)) == len(pids)
                and self.start % 4 == 0 and self.end % 4 == 0 and rising == sorted(rising)):
            return 1
        return 2 if len(self.memory) != self.size or len(self.registers) != BLOCK * setup.count else 0

    # addresses

    def inside(self, address, n):
        return self.base <= address and address + n <= self.base + self.size

    def touches(self, address, n):
        """Whether one of these bytes is protected."""
        return any(self.start <= byte < self.end for byte in range(address, address + n))

    def place(self, address, n, writes):
        """Refuses what names no stretch that may be read, or written."""
        if address + n <= BLOCK:
            if writes and address <= 3:
                raise Refused("inval")
            if self.current is None:
                raise Refused("pid")
            if self.states[self.current] != STOPPED:
                raise Refused("notstop")
        elif not self.inside(address, n):
            raise Refused("inval")
        elif writes and self.touches(address, n):
            raise Refused("unsup")

    def bytes_at(self, address, n):
        """For each byte the buffer that it is in, memory, registers or a breakpoint's plain bytes, and where there."""
        for at in range(address, address + n):
            if at < BLOCK:
                yield self.registers, BLOCK * self.current + at
            elif at & ~1 in self.points:
                yield self.points[at & ~1][2], at & 1
            else:
                yield self.memory, at - self.base

    def read(self, address, n):
        return bytes(buffer[i] for buffer, i in self.bytes_at(address, n))

    def write(self, address, data):
        for (buffer, i), byte in zip(self.bytes_at(address, len(data)), data):
            buffer[i] = byte

    def remove(self, site):
        self.memory[site - self.base:site - self.base + 2] = self.points.pop(site)[2]

    # requests

    def request(self, message):
        """The ten bytes of the reply, and what stands beside them."""
        beside = []
        try:
            reply = self.reply(message, beside)
        except Refused as refused:
            reply = bytes([1]) + str(refused).encode()
            if message[0] == 16 and message[5:9] != b"d\0\0\0":
                self.draft = None
        return reply.ljust(10, b"\0") + (b"\2" + bytes(beside[0]) if beside else b"")

    def reply(self, message, beside):
        kind, value, n, rest = message[0], number(message[1:5]), message[5], message[6:]
        if kind in (18, 22):
            raise Refused("unsup")
        if kind not in (2, 4, 6, 8, 10, 12, 14, 16):
            raise Refused("unk")
        if kind in (2, 4):
            if n > (9 if kind == 2 else 4):
                raise Refused("count")
            if any(rest if kind == 2 else rest[n:]):
                raise Refused("inval")
            if n:
                self.place(value, n, kind == 4)
            if kind == 4:
                self.write(value, rest[:n])
                return bytes([5])
            return bytes([3]) + (self.read(value, n) if n else b"")
        if kind == 16:
            self.operation(chr(n), value, rest)
            return bytes([17])
        return self.of_process(kind, value, message[5:], beside)

    def of_process(self, kind, pid, unused, beside):
        if any(unused):
            raise Refused("inval")
        if pid not in [one for one, _ in self.pairs]:
            raise Refused("pid")
        index = [one for one, _ in self.pairs].index(pid)
        is_stopped = self.states[index] == STOPPED
        if kind == 6:
            self.current = index
            return b"\7%08x" % self.pairs[index][1]
        if kind == 8:
            names = ("Dead Moribund Ready Scheding Running Queueing Wakeme Broken Stopped Rendezvou").split()
            state = self.states[index]
            return b"\t" + (names[state] if state < 10 else f"{state:x}").encode()
        if kind == 12:
            self.wanted[index] = not is_stopped
        if kind == 14:
            self.wanted[index] = False
            if is_stopped:
                self.states[index] = READY
                pc = number(self.registers[BLOCK * index + PC:][:4])
                beside.extend([self.points[pc][2]] if pc in self.points else [])
        return bytes([kind + 1])

    def operation(self, letter, value, unused):
        if any(unused) or letter not in "nkp*&=!aobd" or (letter in "*&=!ao" and value):
            raise Refused("inval")
        if letter == "n":
            self.begin(value)
        elif letter == "d":
            sites = [site for site, (ident, _, _) in self.points.items() if ident == value]
            if not sites:
                raise Refused("inval")
            self.remove(sites[0])
        elif self.draft is None:
            raise Refused("inval")
        elif letter == "b":
            self.set(value)
        else:
            self.join(letter, value)

    def begin(self, ident):
        if ident > 255 or ident in [point[0] for point in self.points.values()]:
            raise Refused("inval")
        if len(self.points) == 8:
            raise Refused("count")
        self.draft = ident, []

    def join(self, letter, value):
        elements = self.draft[1]
        if len(elements) == 64 or len(elements) + sum(len(point[1]) for point in self.points.values()) == 128:
            raise Refused("count")
        if letter in "&=!ao" and depth(elements) < 2:
            raise Refused("inval")
        elements.append((letter, value))

    def set(self, site):
        ident, elements = self.draft
        if site % 2 or not self.inside(site, 2) or site in self.points:
            raise Refused("inval")
        if self.touches(site, 2):
            raise Refused("unsup")
        if depth(elements) != 1:
            raise Refused("inval")
        at = site - self.base
        self.points[site] = ident, elements, bytearray(self.memory[at:at + 2])
        self.memory[at:at + 2] = TRAP
        self.draft = None

    # events

    def trap(self, pid, block):
        index, (ident, elements, plain) = self.event(pid, block)
        if not self.is_true(elements, pid):
            return b"\2" + bytes(plain)
        self.stop(index, block)
        return bytes([1, ident])

    def event(self, pid, block):
        index = self.listed(pid)
        if self.states[index] == STOPPED:
            raise Refused(5)
        pc = number(block[PC:])
        if pc not in self.points:
            raise Refused(6)
        return index, self.points[pc]

    def listed(self, pid):
        pids = [one for one, _ in self.pairs]
        if pid not in pids:
            raise Refused(4)
        return pids.index(pid)

    def stop(self, index, block):
        self.registers[BLOCK * index:BLOCK * (index + 1)] = block
        self.states[index], self.wanted[index] = STOPPED, False

    def schedule(self, pid, block):
        index = self.listed(pid)
        stops = self.wanted[index]
        if stops:
            self.stop(index, block)
        return bytes([stops])

    def state(self, pid, value):
        index = self.listed(pid)
        if STOPPED in (self.states[index], value):
            raise Refused(5)
        self.states[index] = value
        return b""

    def restart(self):
        for site in list(self.points):
            self.remove(site)
        self.draft = self.current = None
        self.wanted = [False] * len(self.wanted)
        self.states = [READY if state == STOPPED else state for state in self.states]
        return b"\1reset\0\0\0\0"

    def is_true(self, elements, pid):
        stack = [1]
        for letter, value in elements:
            if letter in "kp":
                stack.append(int(value == pid) if letter == "k" else value)
            elif letter == "*":
                address = stack.pop()
                if not self.inside(address, 4):
                    return True
                stack.append(int.from_bytes(self.read(address, 4), "little"))
            else:
                right, left = stack.pop(), stack.pop()
                stack.append({"&": left & right, "=": int(left == right), "!": int(left != right),
                              "a": int(bool(left and right)), "o": int(bool(left or right))}[letter])
        return stack[-1] != 0

    # steps as bytes

    def step(self, kind, body):
        """What the program writes for a whole step."""
        try:
            if kind == REQUEST:
                answer = self.request(body)
            elif kind == TRAP_EVENT:
                answer = self.trap(number(body[:4]), body[4:])
            elif kind == SCHEDULE:
                answer = self.schedule(number(body[:4]), body[4:])
            elif kind == STATE:
                answer = self.state(number(body[:4]), body[4])
            else:
                answer = self.restart()
        except Refused as refused:
            return bytes([refused.args[0]])
        return b"\0" + answer

    # a text step: what it shows

    def text(self, request, room):
        found = FORM.fullmatch(request)
        if room < LEAST_BUFFER or not found:
            return bytes([11 if room < LEAST_BUFFER else 10])
        pid, letter, third, fourth = int(found[1], 16), found[2].decode(), int(found[3], 16), int(found[4], 16)
        try:
            flag, last = 0, self.served(pid, letter, third, fourth)
        except Refused as refused:
            flag, last = 0xFFFFFFFF, refused.args[0]
        text = b"0x%x %s 0x%x 0x%x" % (pid, letter.encode(), flag, last)
        return b"\0" + text + bytes([FILL]) * (room - len(text)) + bytes([int(flag != 0), len(text)])

    def served(self, pid, letter, third, fourth):
        if letter not in "idIDrR":
            raise Refused(EINVAL)
        if pid:
            raise Refused(ESRCH)
        if letter in "rR":
            return self.register(letter, third, fourth)
        if third % 4:
            raise Refused(EINVAL)
        if not self.inside(third, 4):
            raise Refused(EFAULT)
        if letter in "ID" and self.touches(third, 4):
            raise Refused(EACCES)
        previous = int.from_bytes(self.read(third, 4), "little")
        if letter in "ID":
            self.write(third, fourth.to_bytes(4, "little"))
        return previous

    def register(self, letter, at, data):
        if at > 33 or (letter == "R" and at == 0):
            raise Refused(EINVAL)
        if self.current is None:
            raise Refused(ESRCH)
        if self.states[self.current] != STOPPED:
            raise Refused(EBUSY)
        start = BLOCK * self.current + 4 * at
        previous = number(self.registers[start:start + 4])
        if letter == "R":
            self.registers[start:start + 4] = word(data)
        return previous


def depth(elements):
    return 1 + sum({"k": 1, "p": 1, "*": 0}.get(letter, -1) for letter, _ in elements)


# ---- Calls with the answers that are wanted, by hand. ----

class Call:
    """A session. A wanted answer of None is for Stub to say."""

    def __init__(self, setup, wanted=0):
        self.setup, self.stub = setup, Stub(setup)
        self.parts, self.said = [b"", b""], [b"", b""]
        self.shown, self.request = None, None
        if wanted is not None and self.stub.number != wanted:
            sys.exit(f"setup {vars(setup)} is {self.stub.number}, not {wanted}")

    def step(self, kind, body, wanted):
        assert len(body) == BODIES[kind]
        protected = self.protected()
        answer = self.stub.step(kind, body)
        if self.protected() != protected:
            sys.exit(f"a protected byte was changed by {kind} {body.hex(' ')}")
        if wanted is not None and answer != wanted:
            sys.exit(f"step {kind} {body.hex(' ')} of {vars(self.setup)}: {answer.hex(' ')}, not {wanted.hex(' ')}")
        self.add(bytes([kind]) + body, answer)

    def add(self, tail, answer):
        """Bytes of a step, or of none, with what the program writes for them."""
        part = int(self.request is not None)
        self.parts[part] += tail
        self.said[part] += answer

    def protected(self):
        return bytes(self.stub.memory[self.stub.start - self.stub.base:self.stub.end - self.stub.base])

    def ask(self, kind, value, rest=b"", wanted=None, beside=b""):
        """A request, with the reason of its Rerr, or the data of its reply."""
        message = (bytes([kind]) + word(value) + rest).ljust(10, b"\0")
        if isinstance(wanted, str):
            wanted = bytes([1]) + wanted.encode()
        elif wanted is not None:
            wanted = bytes([kind + 1]) + wanted
        self.step(REQUEST, message, wanted and b"\0" + wanted.ljust(10, b"\0") + beside)

    def put(self, address, n, wanted):
        self.ask(4, address, bytes([n]) + bytes([0xA1, 0xA2, 0xA3, 0xA4][:n]), wanted)

    def get(self, address, data):
        self.ask(2, address, bytes([len(data)]), data)

    def op(self, letter, value, wanted):
        self.ask(16, value, letter.encode(), wanted)

    def plant(self, ident, site):
        self.op("n", ident, b"")
        self.op("b", site, b"")

    def event(self, kind, pid, pc, wanted):
        self.step(kind, word(pid) + bytes(PC) + word(pc), wanted)

    def restart(self):
        self.step(RESTART, b"", b"\0\1reset\0\0\0\0")

    def text(self, request, wanted=None, room=LEAST_BUFFER):
        """The text step: by hand its reply, or its number."""
        request = request.encode() if isinstance(request, str) else request
        protected = self.protected()
        shown = self.stub.text(request, room)
        if self.protected() != protected:
            sys.exit(f"a protected byte was changed by {request}")
        if isinstance(wanted, str):
            text = wanted.encode()
            error = int(b" 0xffffffff " in text[4:])
            wanted = b"\0" + text + bytes([FILL]) * (room - len(text)) + bytes([error, len(text)])
        elif wanted is not None:
            wanted = bytes([wanted])
        if wanted is not None and shown != wanted:
            sys.exit(f"text {request} of {vars(self.setup)}: {shown}, not {wanted}")
        self.request, self.shown = (request, room), shown

    def memory(self, at, wanted):
        """What memory must hold now, by hand."""
        data = bytes.fromhex(wanted)
        if self.stub.memory[at:at + len(data)] != data:
            sys.exit(f"memory at {at} of {vars(self.setup)} is {self.stub.memory[at:at + len(data)].hex(' ')}")

    def made(self):
        """The call and its answer. A call without a text step reads a word that is never there."""
        if self.request is None and self.stub.number == 0:
            self.text("0x0 i 0x0 0x0", "0x0 i 0xffffffff 0xe")
        request, room = self.request or (b"0x0 i 0x0 0x0", LEAST_BUFFER)
        call = encoded(self.setup, request, room, *self.parts)
        if self.stub.number:
            return call, bytes([self.stub.number])
        return call, b"\0" + self.said[0] + self.shown + self.said[1] + bytes(self.stub.memory)


# ---- Setups. ----

def accepted_setups():
    """Stretches at both ends, empty ones at every edge, and to = 2^32."""
    for base in (4096, 0x80000000, TOP - 64):
        for start in range(0, 68, 4):
            yield Call(Setup(base, 64, base + start, base + start))
        for start, end in ((0, 4), (60, 64), (0, 64), (8, 12), (4, 60), (0, 60), (4, 64)):
            yield Call(Setup(base, 64, base + start, base + end))
    for start, end in ((TOP - 4, TOP), (TOP - 4, TOP - 4), (TOP, TOP)):
        yield Call(Setup(TOP - 4, 4, start, end))
    four = ((1, 0), (2, 0), (0xFFFFFFFF, 0), (3, 0xFFFFFFFF))
    for count in (1, 2, 3, 4):
        yield Call(Setup(4096, 8, 4100, 4104, count, four))
    # What is past the count is not looked at.
    yield Call(Setup(4096, 8, 4100, 4104, 1, ((5, 1), (5, 1), (0, 1), (0, 1))))
    yield Call(Setup(4096, 8, 4100, 4104, 2, ((5, 1), (6, 1), (6, 1), (0, 1))))


def refused_setups():
    """Each rule broken alone, and several together: number 1; then, M over what is lent: number 2."""
    b, top = 4096, TOP - 64
    stretches = ((b, b + 1, b + 4), (b, b + 2, b + 4), (b, b + 3, b + 4), (b, b, b + 1), (b, b, b + 2), (b, b, b + 63),
                 (b, b + 2, b + 2), (b, b - 4, b + 4), (b, b - 4, b - 4), (b, 0, 0), (b, 0, b + 4), (b, 4, b),
                 (b, b + 8, b + 4), (b, b + 64, b), (b, b + 64, b + 60), (b, b + 60, b + 68), (b, b + 68, b + 68),
                 (b, b, TOP), (b, TOP + b, TOP + b + 4), (b, b, TOP + b + 4), (b, b, 2 ** 64 - 4),
                 (b, 2 ** 64 - 4, 2 ** 64 - 4), (top, top, TOP + 4), (top, TOP + 4, TOP + 4), (top, TOP - 4, 0),
                 (top, 0, 0), (top, 0, 4), (top, TOP, TOP - 4), (top, top - 4, TOP), (top, TOP - 1, TOP))
    for base, start, end in stretches:
        yield Call(Setup(base, 64, start, end), 1)
    windows = (4092, 64), (4098, 64), (0, 64), (TOP - 60, 64), (4096, 0), (4096, 2), (4096, 62), (4096, 65540)
    for base, size in windows:
        yield Call(Setup(base, size, base, base), 1)
        yield Call(Setup(base, size, 1, 0), 1)
    pairs = ((5, 0), (7, 0), (9, 0), (11, 0))
    for count in (0, 5, 6, 2 ** 29, 2 ** 29 + 1, 2 ** 32 - 1):
        yield Call(Setup(b, 64, b, b, count, pairs), 1)
    for wrong in (((0, 1),) + pairs[1:], ((5, 1), (0, 1)) + pairs[2:], ((5, 1), (5, 1)) + pairs[2:]):
        yield Call(Setup(b, 64, b, b, 2, wrong), 1)
    yield Call(Setup(b, 64, b, b, 4, ((5, 0), (7, 0), (9, 0), (7, 0))), 1)
    for size in (68, 128, 65536):
        yield Call(Setup(b, size, b, b), 2)
        yield Call(Setup(b, size, b + 4, b + size), 2)
        yield Call(Setup(b, size, b, b + size + 4), 1)
        yield Call(Setup(b, size, b + 2, b + size), 1)


# ---- Writes. ----

STRETCHES = ((0, 4), (8, 12), (8, 24), (60, 64), (40, 64), (0, 32), (0, 64))


def plain(first, n):
    return bytes(range(first, first + n))


def writes():
    """Every count at every place around both edges of a stretch, each in a session of its own."""
    for base in (4096, TOP - 64):
        for start, end in STRETCHES:
            for edge in sorted({start, end}):
                for at in range(edge - 5, edge + 6):
                    call = Call(Setup(base, 64, base + start, base + end))
                    for n in (4, 3, 2, 1):
                        if base + at >= TOP:
                            continue
                        wanted = ("inval" if at < 0 or at + n > 64 else
                                  "unsup" if at < end and at + n > start else b"")
                        call.put(base + at, n, wanted)
                        if wanted:
                            continue
                        call.memory(at, "a1a2a3a4"[:2 * n])
                        call.ask(4, base + at, bytes([n]) + plain(at, n), b"")
                    yield call


def by_hand():
    """A stretch of four bytes at 0x1008: what a write meets, and what is left of it."""
    call = Call(Setup(start=0x1008, end=0x100C))
    call.put(0x1004, 4, b"")
    call.put(0x1005, 4, "unsup")
    call.put(0x1008, 4, "unsup")
    call.put(0x100B, 1, "unsup")
    call.put(0x100B, 4, "unsup")
    call.put(0x100C, 4, b"")
    call.get(0x1004, bytes.fromhex("a1a2a3a4 08090a0b a1"))
    call.memory(0, "00010203 a1a2a3a4 08090a0b a1a2a3a4 10")
    yield call
    # Counts, unused bytes and no byte at all come before it; the address too.
    call = Call(Setup(start=0x103C, end=0x1040))
    call.ask(4, 0x103C, b"\5\1\1\1\1", "count")
    call.ask(4, 0x103C, b"\2\1\1\0\1", "inval")
    call.ask(4, 0x103C, b"\0\1", "inval")
    call.put(0x103C, 0, b"")
    call.put(0x103E, 3, "inval")
    call.put(0x103E, 2, "unsup")
    call.put(0x1040, 1, "inval")
    call.put(4, 1, "pid")
    call.put(0, 1, "inval")
    yield call
    # The same before the window.
    call = Call(Setup(start=0x1000, end=0x1004))
    call.put(0xFFF, 2, "inval")
    call.put(0xFFF, 0, b"")
    call.put(0x1003, 2, "unsup")
    call.put(0x1004, 2, b"")
    yield call
    # An empty stretch refuses nothing.
    for edge in range(0x1000, 0x1044, 4):
        call = Call(Setup(start=edge, end=edge))
        for at in range(0x1000, 0x103D):
            call.put(at, 4, b"")
        call.text(f"0x0 I {min(edge, 0x103C):#x} 0x5", None)
        yield call


# ---- Breakpoints. ----

def breaks():
    """b at every even and odd place around both edges: a whole condition, one that leaves two values, and none."""
    for base in (4096, TOP - 64):
        for start, end, edge in ((start, end, edge) for start, end in STRETCHES for edge in (start, end)):
            call = Call(Setup(base, 64, base + start, base + end))
            for at in range(edge - 3, edge + 4):
                if base + at >= TOP:
                    continue
                outside = at < 0 or at + 2 > 64
                protected = at < end and at + 2 > start
                first = "inval" if at % 2 or outside else "unsup" if protected else b""
                call.op("n", 3, b"")
                call.op("b", base + at, first)
                if first == b"":
                    # Taken comes before the depth, and before all that is protected.
                    call.op("n", 4, b"")
                    call.op("b", base + at, "inval")
                    call.op("d", 3, b"")
                call.op("b", base + at, "inval")
                call.op("n", 3, b"")
                call.op("p", 1, b"")
                call.op("b", base + at, "unsup" if first == "unsup" else "inval")
                call.op("p", 1, "inval")
            call.memory(0, plain(0, 64).hex())
            yield call


def neighbours():
    """Traps on both sides of a stretch: writes over them, events at them, and what a restart or d leaves."""
    for last in ("restart", "d"):
        call = Call(Setup(start=0x1008, end=0x100C))
        call.plant(1, 0x1006)
        call.plant(2, 0x100C)
        call.memory(4, "0405 0290 08090a0b 0290 0e")
        call.put(0x1004, 4, b"")
        call.put(0x1006, 3, "unsup")
        call.put(0x100B, 2, "unsup")
        call.put(0x100C, 4, b"")
        call.memory(4, "a1a2 0290 08090a0b 0290 a3a4")
        call.get(0x1005, bytes.fromhex("a2a3a4 08090a0b a1a2"))
        call.event(TRAP_EVENT, 5, 0x1006, b"\0\1\1")
        call.event(TRAP_EVENT, 7, 0x1008, b"\6")
        call.event(TRAP_EVENT, 7, 0x100C, b"\0\1\2")
        call.text("0x0 D 0x1008 0x5", "0x0 D 0xffffffff 0xd")
        call.ask(14, 5, b"", b"", b"\2\xa3\xa4")
        call.ask(14, 7, b"", b"", b"\2\xa1\xa2")
        if last == "d":
            call.op("d", 1, b"")
            call.op("d", 2, b"")
        else:
            call.restart()
        call.memory(4, "a1a2a3a4 08090a0b a1a2a3a4 10")
        yield call


def free_reads():
    """Conditions read in the stretch, and processes run there."""
    call = Call(Setup(start=0x1008, end=0x100C))
    for letter, value in (("n", 4), ("p", 0x1008), ("*", 0), ("p", 0x0B0A0908), ("=", 0), ("a", 0), ("b", 0x1010)):
        call.op(letter, value, b"")
    call.event(TRAP_EVENT, 5, 0x1010, b"\0\1\4")
    call.ask(12, 7, b"", b"")
    call.event(SCHEDULE, 7, 0x1008, b"\0\1")
    call.text("0x0 i 0x1008 0x0", "0x0 i 0x0 0xb0a0908")
    call.ask(14, 7, b"", b"")
    call.get(0x1004, plain(4, 9))
    yield call
    # Registers are not of the window, whatever is protected.
    call = Call(Setup(start=0x1000, end=0x1040))
    call.ask(6, 5, b"", b"80001000")
    call.ask(12, 5, b"", b"")
    call.event(SCHEDULE, 5, 0x1008, b"\0\1")
    call.put(4, 4, b"")
    call.text("0x0 R 0x21 0x1000", "0x0 R 0x0 0x1008")
    call.get(132, bytes.fromhex("00001000"))
    call.put(0x1000, 4, "unsup")
    yield call


# ---- Text steps. ----

def texts():
    """Every letter of a word in, beside and before the stretch: 22, then 3, then 22, 14 and 13."""
    for start, end in STRETCHES:
        around = sorted({start - 4, start, start + 1, start + 2, end - 4, end - 1, end, end + 4})
        for at in around:
            for letter in "idIDc":
                for pid in (0, 5):
                    address = 4096 + at
                    request = f"{pid:#x} {letter} {address:#x} 0xa4a3a2a1"
                    errno = (EINVAL if letter == "c" else ESRCH if pid else EINVAL if at % 4 else
                             EFAULT if not 0 <= at <= 60 else
                             EACCES if letter in "ID" and start <= at < end else None)
                    previous = None if errno else int.from_bytes(plain(at, 4), "little")
                    wanted = (f"{pid:#x} {letter} 0xffffffff {errno:#x}" if errno else
                              f"{pid:#x} {letter} 0x0 {previous:#x}")
                    call = Call(Setup(start=4096 + start, end=4096 + end))
                    call.text(request, wanted)
                    if letter in "ID" and not errno:
                        call.memory(at, "a1a2a3a4")
                    yield call
    # At the top, where to is 2^32; and a condition in hand, which stays.
    for letter, wanted in (("i", "0x0 i 0x0 0x3f3e3d3c"), ("I", "0x0 I 0xffffffff 0xd"), ("D", "0x0 D 0xffffffff 0xd")):
        call = Call(Setup(TOP - 64, 64, TOP - 4, TOP))
        call.op("n", 9, b"")
        call.text(f"0x0 {letter} 0xfffffffc 0x5", wanted)
        call.op("b", TOP - 6, b"")
        call.memory(56, "3839 0290 3c3d3e3f")
        yield call
    # Numbers 11 and 10 come before it.
    for room in (0, 33):
        call = Call(Setup(start=0x1008, end=0x100C))
        call.text("0x0 I 0x1008 0x5", 11, room)
        yield call
    call = Call(Setup(start=0x1008, end=0x100C))
    call.text("0x0 I 0x01008 0x5", 10)
    yield call


def ends():
    """Steps that a cut or another kind ends: the text step is made all the same, and the steps after it."""
    for tail, said_of_it in ((b"\1", b""), (b"\3" + word(7), b""), (b"\6\5", b"\xff"), (b"\x0b" * 20, b"\xff")):
        for part in (0, 1):
            call = Call(Setup(start=0x1008, end=0x100C))
            call.put(0x1008, 1, "unsup")
            if part == 0:
                call.add(tail, said_of_it)
            call.text("0x0 I 0x1008 0x5", "0x0 I 0xffffffff 0xd")
            call.put(0x100C, 1, b"")
            if part == 1:
                call.add(tail, said_of_it)
            yield call


DIRECTED = (accepted_setups, refused_setups, writes, by_hand, breaks, neighbours, free_reads, texts, ends)


# ---- Random calls, with the answers of Stub. ----

def any_setup(noise, pick):
    """Mostly one that is accepted."""
    size = pick((4, 8, 16, 64, 64, 64))
    base = pick((4096, 4096, 0x80000000, TOP - size))
    start = 4 * pick(range(size // 4 + 1))
    end = start + 4 * pick(range((size - start) // 4 + 1))
    count = pick((1, 2, 2, 3, 4))
    if noise() < 0.15:
        start, end = start + pick((-4, -1, 0, 2)), end + pick((-4, -2, 0, 1, 4, TOP))
    if noise() < 0.03:
        size += pick((1, 4, 64))
    pids = pick(((5, 7, 9, 11), (5, 7, 9, 11), (1, 0xFFFFFFFF, 2, 3), (5, 6, 5, 0)))
    pairs = tuple((pid, int(noise() * TOP)) for pid in pids)
    return Setup(base, size, (base + start) % 2 ** 64, (base + end) % 2 ** 64, count, pairs)


def any_step(call, noise, pick):
    stub = call.stub
    edges = (stub.base, stub.base + stub.size, stub.start, stub.end, stub.start, stub.end, 136, 0)
    address = (pick(edges) + pick(range(-5, 6))) % TOP
    pid = pick([*(one for one, _ in stub.pairs), 5])
    site = pick([*stub.points, address, address & ~1, address & ~1])
    way = noise()
    if way < 0.3:
        n = pick((0, 1, 2, 3, 4, 4, 4, 5))
        call.ask(4, address, bytes([n]) + bytes(pick(range(256)) for _ in range(min(n, 4))))
    elif way < 0.4:
        call.ask(2, address, bytes([pick(range(11))]))
    elif way < 0.7:
        ident = pick(range(10))
        call.op("n", ident, None)
        for letter, value in pick(((), (), (("k", pid), ("a", 0)), (("p", address), ("*", 0), ("a", 0)), (("p", 1),))):
            call.op(letter, value, None)
        call.op("b", site, None)
    elif way < 0.76:
        call.op("d", pick(range(10)), None)
    elif way < 0.86:
        call.ask(pick((6, 8, 12, 14, 14)), pid)
    elif way < 0.97:
        call.event(pick((TRAP_EVENT, TRAP_EVENT, SCHEDULE)), pid, site, None)
    elif way < 0.99:
        call.step(STATE, word(pid) + bytes([pick((2, 4, 8, 12))]), None)
    else:
        call.restart()


def any_text(call, noise, pick):
    stub = call.stub
    letter = pick("iIDdIDrRc")
    edge = pick((stub.base, stub.base + stub.size, stub.start, stub.end))
    third = pick(range(36)) if letter in "rR" else (edge + pick((-4, -4, 0, 0, 1, 2, 4))) % TOP
    text = f"{pick((0, 0, 0, 0, 5)):#x} {letter} {third:#x} {int(noise() * TOP):#x}"
    call.text(text, None, pick((34, 34, 34, 40, 33)))


def scattered():
    # Of this generator only random() is the same in every version of Python.
    noise = random.Random(SEED).random

    def pick(choices):
        return choices[int(noise() * len(choices))]

    for _ in range(RANDOM_CALLS):
        call = Call(any_setup(noise, pick), None)
        if call.stub.number == 0:
            for _ in range(int(noise() * 8)):
                if len(call.parts[0]) < 600:
                    any_step(call, noise, pick)
            any_text(call, noise, pick)
            for _ in range(int(noise() * 6)):
                if len(call.parts[1]) < 600:
                    any_step(call, noise, pick)
        yield call


def in_turn(makers):
    for made in makers:
        yield from made()


def calls():
    return in_turn((*DIRECTED, scattered))


def cases():
    """Every call with its answer."""
    return (call.made() for call in calls())


# ---- Counted, or run. ----

def said(made):
    """How many calls there are, and what is among their answers."""
    numbers = [answer[0] for _, answer in made]
    counts = ", ".join(f"{numbers.count(one)} number {one}" for one in sorted(set(numbers)))
    everything = b"".join(answer for _, answer in made)
    unsup, errors = everything.count(b"\0\1unsup"), everything.count(b" 0xffffffff 0xd" + bytes([FILL]))
    return f"{len(made)} calls: setups of {counts}; {unsup} times unsup, {errors} times errno 13"


def counted_or_run(made, said_of):
    """Says what the calls are, or runs them by the program of the command line and says how many answers are wrong."""
    if len(sys.argv) == 1:
        print(said_of(made))
        return 0
    data = b"".join(call for call, _ in made)
    output = subprocess.run(sys.argv[1:], input=data, stdout=subprocess.PIPE, check=True).stdout
    wrong = 0
    for call, answer in made:
        got, output = output[:len(answer)], output[len(answer):]
        if got != answer:
            wrong += 1
            print(f"{call.hex()}: {got.hex()}, not {answer.hex()}")
    if output:
        wrong += 1
        print(f"left over: {output.hex(' ')}")
    print(f"{said_of(made)}; {wrong} wrong")
    return 1 if wrong else 0


if __name__ == "__main__":
    sys.exit(counted_or_run(list(cases()), said))
