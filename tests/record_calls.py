#!/usr/bin/env python3
"""Calls of sessions over a record as it is, fit or spoiled, for the program calls_main: kind 14 of docs/CALLS.md.

    python3 tests/record_calls.py                   say how many there are
    python3 tests/record_calls.py PROGRAM ..        run them by a program and compare

Each call is a record, 64 bytes of memory, ordinary steps, one text step, and ordinary steps after it. Written from
documents 01 and 02 (requests Two, Three, Five and Seven), not from the crates. The rule stands here twice: Record says
by the words of the papers whether it is fit, and Stub of tests/protected_calls.py serves what is; every directed call
states its number, its answers and its memory by hand. The script stops where the two differ. Random calls, after those,
have the answers of the rule. rust/reference/examples/record_calls.rs answers the same calls by the independent stub in
Rust.
"""

import copy
import random
import sys

import protected_calls
from protected_calls import BLOCK, HELD, HELD_MEMORY, HELD_PROCESSES, READY, RESTART, SCHEDULE, STATE
from protected_calls import STOPPED, TOP, TRAP, TRAP_EVENT, any_step, any_text, counted_or_run, in_turn, word

KIND = 14
SEED, RANDOM_CALLS = 29, 400
BASE, FREE, JUNK = 4096, 0, 0xE7


# ---- The record and its format. ----

class Process:
    def __init__(self, pid=0, address=0, state=READY, wanted=0):
        self.pid, self.address, self.state, self.wanted = pid, address, state, wanted


class Entry:
    """A breakpoint. What a free one holds is of no account, and so is the room behind the two plain bytes."""

    def __init__(self, used=FREE, ident=JUNK, count=JUNK, plain=b"\xE7" * 4, site=JUNK):
        self.used, self.ident, self.count, self.plain, self.site = used, ident, count, plain, site


class Record:
    """Two processes, a protected stretch from 0x1010 to before 0x1018, and nothing in the table, unless told."""

    def __init__(self):
        self.base, self.size, self.offset, self.length, self.count = BASE, 64, 16, 8, 2
        self.processes = [Process(5, 0x80001000), Process(7, 0x80002000), Process(), Process(7, 3, STOPPED, JUNK)]
        self.selected, self.current = 0, JUNK
        self.entries = [Entry() for _ in range(8)]
        self.active, self.ident, self.drafted = 0, JUNK, JUNK
        self.memory = bytearray(range(HELD_MEMORY))

    def plant(self, index, ident, site):
        """A breakpoint whose trap is in memory, where memory reaches."""
        at = site - self.base
        plain = bytes(self.memory[at:at + 2]) if 0 <= at else b""
        self.entries[index] = Entry(1, ident, 0, plain.ljust(4, bytes([JUNK])), site)
        if 0 <= at <= HELD_MEMORY - 2:
            self.memory[at:at + 2] = TRAP
        return self

    def but(self, **changes):
        """The same with these fields changed. A field of a part is named process0_pid, entry2_site and so on."""
        other = copy.deepcopy(self)
        for name, value in changes.items():
            part, _, field = name.partition("_")
            if field:
                parts = other.processes if part[:-1] == "process" else other.entries
                assert hasattr(parts[int(part[-1])], field), name
                setattr(parts[int(part[-1])], field, value)
            else:
                assert hasattr(other, name), name
                setattr(other, name, value)
        return other

    def encoded(self, text, room, before, after):
        numbers = b"".join(map(word, (self.base, self.size, self.offset, self.length, self.count)))
        processes = b"".join(word(one.pid) + word(one.address) + bytes([one.state, one.wanted])
                             for one in self.processes)
        entries = b"".join(bytes([one.used, one.ident, one.count]) + one.plain + word(one.site)
                           for one in self.entries)
        draft = bytes([self.active, self.ident, self.drafted])
        record = numbers + processes + bytes([self.selected]) + word(self.current) + entries + draft
        assert len(record) == 156 and len(self.memory) == 64
        lengths = room, len(text), len(before), len(after)
        assert max(lengths) <= HELD, "more than the program holds"
        return bytes([KIND]) + record + bytes(self.memory) + b"".join(map(word, lengths)) + text + before + after

    # ---- The rule: the number that every step begins with.

    def listed(self):
        return self.processes[:self.count]

    def used(self):
        return [one for one in self.entries if one.used != FREE]

    def number(self):
        """2: "memory is not M bytes, register area not 136 for each process", of what is lent; then 3."""
        if self.size > HELD_MEMORY or self.count > HELD_PROCESSES:
            return 2
        fit = (self.window_fits() and self.stretch_fits() and self.processes_fit() and self.table_fits()
               and self.draft_fits())
        return 0 if fit else 3

    def window_fits(self):
        return (self.size % 4 == 0 and 4 <= self.size <= 65536 and self.base % 4 == 0 and self.base >= 4096
                and self.base + self.size <= TOP)

    def stretch_fits(self):
        """02, Five: "from and to are multiples of 4, and B, from, to, B + M never fall"."""
        start, end = self.base + self.offset, self.base + self.offset + self.length
        rising = [self.base, start, end, self.base + self.size]
        return start % 4 == 0 and end % 4 == 0 and rising == sorted(rising)

    def processes_fit(self):
        """A mark and whether one is current are yes or no: a record holds 0 or 1 for them."""
        pids = [one.pid for one in self.listed()]
        return (1 <= len(pids) and min(pids) >= 1 and len(set(pids)) == len(pids)
                and all(one.wanted in ((0,) if one.state == STOPPED else (0, 1)) for one in self.listed())
                and (self.selected == 0 or (self.selected == 1 and self.current in pids)))

    def table_fits(self):
        used = self.used()
        return (len({one.ident for one in used}) == len(used) and len({one.site for one in used}) == len(used)
                and all(map(self.entry_fits, used)))

    def entry_fits(self, one):
        """The pool is zeros, and no letter is 0: so a condition with an element is not well formed."""
        at = one.site - self.base
        protected = set(range(self.offset, self.offset + self.length)) & {at, at + 1}
        return (one.used == 1 and one.count == 0 and one.site % 2 == 0 and 0 <= at <= self.size - 2
                and bytes(self.memory[at:at + 2]) == TRAP and not protected)

    def draft_fits(self):
        if self.active == 0:
            return True
        used = self.used()
        return (self.active == 1 and self.drafted == 0 and self.ident not in [one.ident for one in used]
                and len(used) < 8)


class Stub(protected_calls.Stub):
    """The stub over a record as it is; over one that is not fit, or lent the wrong sizes, every step is refused."""

    def __init__(self, record):
        self.number = record.number()
        self.base, self.size = record.base, record.size
        self.start = record.base + record.offset
        self.end = self.start + record.length
        listed = record.listed()
        self.pairs = [(one.pid, one.address) for one in listed]
        self.states, self.wanted = [one.state for one in listed], [one.wanted == 1 for one in listed]
        self.memory = record.memory[:record.size]
        self.registers = bytearray(BLOCK * min(record.count, HELD_PROCESSES))
        pids = [pid for pid, _ in self.pairs]
        self.current = pids.index(record.current) if self.number == 0 and record.selected else None
        self.draft = (record.ident, []) if record.active else None
        self.points = {one.site: (one.ident, [], bytearray(one.plain[:2])) for one in record.used()}

    def step(self, kind, body):
        return bytes([self.number]) if self.number else super().step(kind, body)

    def text(self, request, room):
        return bytes([self.number]) if self.number else super().text(request, room)


class Call(protected_calls.Call):
    """A session over a record, whose number is told by hand; None is for Record to say."""

    def __init__(self, record, wanted=0):
        self.setup, self.stub = record, Stub(record)
        self.parts, self.said = [b"", b""], [b"", b""]
        self.shown, self.request = None, None
        if wanted is not None and self.stub.number != wanted:
            sys.exit(f"record {record.encoded(b'', 0, b'', b'').hex()} is {self.stub.number}, not {wanted}")

    def protected(self):
        return b"" if self.stub.number else super().protected()

    def restart(self):
        if self.stub.number:
            self.step(RESTART, b"", bytes([self.stub.number]))
        else:
            super().restart()

    def made(self):
        if self.request is None:
            self.text("0x0 i 0x0 0x0", None)
        request, room = self.request
        answer = self.said[0] + self.shown + self.said[1] + bytes(self.stub.memory)
        return self.setup.encoded(request, room, *self.parts), answer


# ---- Directed calls: a record that is fit, and the same with one thing changed. ----

def standing():
    """Breakpoint 3 at 0x1008 and breakpoint 9 just behind the stretch, at 0x1018."""
    return Record().plant(0, 3, BASE + 8).plant(2, 9, BASE + 24)


def carried_out(record, base=BASE):
    """A read, a write, a text step and a restart, which a fit record carries out. By hand: the plain byte i is i, and a
    trap stands over the bytes at 8."""
    call = Call(record, 0)
    call.get(base + 7, bytes.fromhex("0708090a"))
    call.ask(4, base + 9, bytes.fromhex("03aabbcc"), b"")
    call.memory(7, "07 0290 bb cc 0c")
    call.text(f"0x0 I {base + 0x1C:#x} 0x44332211", "0x0 I 0x0 0x1f1e1d1c")
    call.restart()
    call.memory(0, "0001020304050607 08aabbcc 0c0d0e0f 1011121314151617 18191a1b 11223344 2021222324252627")
    return call


def refused(record, number=3):
    """The same steps, each refused with this number. Memory stays as it was brought."""
    call = Call(record, number)
    one = bytes([number])
    call.step(1, bytes.fromhex("02 00001007 04 00000000"), one)
    call.step(1, bytes.fromhex("04 00001009 03 aabbcc00"), one)
    call.text("0x0 I 0x101c 0x44332211", number)
    call.step(RESTART, b"", one)
    call.memory(0, bytes(record.memory[:record.size]).hex())
    return call


def every_step():
    """Each kind of step over a fit record, and over three that are refused; also a request that is none, a text that is
    none and a buffer that is short."""
    call = carried_out(standing())
    call.event(TRAP_EVENT, 5, 0x1008, b"\6")
    yield call
    call = Call(standing(), 0)
    call.event(TRAP_EVENT, 5, 0x1008, b"\0\1\3")
    call.event(SCHEDULE, 7, 0x1008, b"\0\0")
    call.event(TRAP_EVENT, 7, 0x1018, b"\0\1\x09")
    call.step(STATE, word(7) + b"\4", b"\5")
    call.text("0x0 I 0x1010 0x5", "0x0 I 0xffffffff 0xd")
    call.op("d", 3, b"")
    call.memory(4, "0405060708090a0b")
    yield call
    for spoiled, number in ((standing().but(offset=4), 3), (standing().but(size=68), 2), (standing().but(count=5), 2)):
        one = bytes([number])
        call = Call(spoiled, number)
        call.event(TRAP_EVENT, 5, 0x1008, one)
        call.event(SCHEDULE, 5, 0x1008, one)
        call.step(STATE, word(5) + b"\4", one)
        call.step(1, bytes(10), one)
        call.step(1, b"\x14" * 10, one)
        yield call
        for text, room in (("0x0 I 0x01008 0x5", 34), ("0x0 I 0x1008 0x5", 33), ("", 0)):
            call = Call(spoiled, number)
            call.text(text, number, room)
            yield call


def sites():
    """A site at every place around both edges of a stretch, with its trap in memory: even, and no byte protected."""
    for start, end in ((16, 24), (0, 4), (60, 64), (0, 64), (16, 16), (32, 60)):
        for at in sorted({*range(start - 3, start + 3), *range(end - 3, end + 3)}):
            record = Record().but(offset=start, length=end - start).plant(4, 3, BASE + at)
            inside = 0 <= at and at + 2 <= 64
            first, second = start <= at < end, start <= at + 1 < end
            if at % 2 or not inside or first or second:
                yield refused(record)
                continue
            call = Call(record, 0)
            call.get(BASE + at, bytes([at, at + 1]))
            call.put(BASE + at, 2, b"")
            call.restart()
            call.memory(at, "a1a2")
            yield call
    # By hand, around 0x1010 to before 0x1018: only the second byte, the first, both, only the first, none.
    for at, number in ((14, 0), (15, 3), (16, 3), (22, 3), (23, 3), (24, 0)):
        yield Call(Record().plant(0, 3, BASE + at), number)
    # The same with an entry that is free, and in the last of the table.
    yield carried_out(standing().but(entry7_site=BASE + 16))
    yield refused(standing().plant(7, 1, BASE + 18))


def stretches():
    """Of 64 bytes: what fits, and what leaves the window, by a word, by far, or over 2^32."""
    bare = Record().plant(0, 3, BASE + 8).plant(2, 9, BASE + 24)
    for offset, length in ((16, 8), (12, 0), (0, 0), (64, 0), (32, 32), (0, 8), (60, 4), (12, 12), (0, 4), (32, 0)):
        yield carried_out(bare.but(offset=offset, length=length))
    for offset, length in ((32, 36), (60, 8), (64, 4), (68, 0), (0, 68), (32, 0x10000), (TOP - 4, 0), (TOP - 4, 4),
                           (TOP - 4, 8), (TOP - 32, 64), (32, TOP - 4), (32, TOP - 32), (4, TOP - 4), (0, TOP - 4),
                           (32, 2), (34, 4), (33, 4), (30, 2), (34, 2), (32, 31), (31, 33), (62, 2), (63, 1), (64, 1)):
        yield refused(bare.but(offset=offset, length=length))
    # Nothing in the table: the bounds alone.
    for offset, length, number in ((0, 64, 0), (0, 68, 3), (4, 60, 0), (4, 64, 3), (64, 0, 0), (65, 0, 3), (1, 0, 3)):
        yield Call(Record().but(offset=offset, length=length), number)


def windows():
    """B and M, with what is lent: at most 64 bytes. A window that ends before a site has it outside."""
    yield carried_out(standing().but(base=BASE, size=64))
    for base in (0x80000000, TOP - 64):
        record = Record().but(base=base)
        record.plant(0, 3, base + 8).plant(2, 9, base + 24)
        yield carried_out(record, base)
    for base in (TOP - 60, TOP - 4, 4092, 0, BASE + 1, BASE + 2, BASE + 4):
        yield refused(standing().but(base=base))
    for size in (32, 36, 60):
        call = Call(standing().but(size=size), 0)
        call.get(0x1006, bytes.fromhex("06070809"))
        call.restart()
        call.memory(0, bytes(range(size)).hex())
        yield call
    for size in (0, 1, 2, 3, 4, 8, 24, 26, 62, 63):
        yield refused(standing().but(size=size))
    for size in (65, 66, 68, 128, 65536, 65540, TOP - 4, TOP - 1):
        yield refused(standing().but(size=size), 2)
        yield refused(standing().but(size=size, base=2, offset=1), 2)
    # The smallest window, with its one trap in it or beyond it.
    call = Call(Record().but(size=4, offset=0, length=0).plant(0, 1, BASE + 2), 0)
    call.get(0x1000, bytes([0, 1, 2, 3]))
    call.memory(0, "0001 0290")
    yield call
    yield refused(Record().but(size=4, offset=0, length=0).plant(0, 1, BASE + 4))


def traps():
    """A trap has to stand at its site, both bytes of it."""
    for at in (8, 24):
        for first, second in ((0x02, 0x91), (0x03, 0x90), (0x90, 0x02), (0, 0), (at, at + 1), (0x02, 0), (0, 0x90)):
            spoiled = standing()
            spoiled.memory[at:at + 2] = bytes([first, second])
            yield refused(spoiled)
    # One that stands where no breakpoint is, is memory like any other.
    more = standing()
    more.memory[40:42] = TRAP
    call = carried_out(more)
    call.get(BASE + 40, b"\x02\x90")
    yield call


def entries():
    """Breakpoints: ids and sites differ, sites are even and inside, flags are 0 or 1, and no condition has elements."""
    fit = standing()
    yield carried_out(fit)
    for spoiled in (fit.but(entry2_ident=3), fit.but(entry0_ident=9), fit.but(entry2_site=BASE + 8),
                    fit.but(entry0_site=BASE + 24), fit.but(entry2_ident=3, entry2_site=BASE + 8),
                    fit.but(entry0_site=BASE + 9), fit.but(entry0_site=BASE + 7), fit.but(entry0_site=BASE - 2),
                    fit.but(entry0_site=BASE + 64), fit.but(entry0_site=8), fit.but(entry0_site=0),
                    fit.but(entry0_site=TOP - 2), fit.but(entry0_site=TOP - 1)):
        yield refused(spoiled)
    for used in (2, 3, 127, 128, 255):
        yield refused(fit.but(entry0_used=used))
        yield refused(fit.but(entry5_used=used))
    for count in (1, 2, 16, 17, 64, 65, 128, 129, 255):
        yield refused(fit.but(entry2_count=count))
    # Free entries in front, between and behind hold anything.
    yield carried_out(fit.but(entry1_ident=3, entry1_site=BASE + 8, entry7_ident=9, entry7_count=255))
    # A free entry leaves its trap as memory.
    call = Call(fit.but(entry2_used=0), 0)
    call.get(BASE + 24, TRAP)
    call.restart()
    call.memory(24, "0290")
    yield call
    # All eight, ids 0 and 255 among them; an eighth that has the first one's id, or its site.
    full = Record().but(offset=64, length=0)
    for index in range(8):
        full.plant(index, (0, 255, 7, 3, 200, 128, 127, 1)[index], BASE + 4 * index)
    call = Call(full, 0)
    call.get(BASE, bytes(range(9)))
    call.op("n", 5, "count")
    call.op("n", 255, "inval")
    call.event(TRAP_EVENT, 7, BASE + 28, b"\0\1\1")
    call.op("d", 0, b"")
    call.restart()
    call.memory(0, bytes(range(64)).hex())
    yield call
    yield refused(full.but(entry7_ident=0))
    yield refused(full.but(entry7_site=BASE))
    yield refused(full.but(entry0_count=1))


def processes():
    """One to four, pids distinct and at least 1; no Stopped one with a stop wanted; flags are 0 or 1."""
    fit = standing().but(process2_pid=9, process3_pid=11, process3_state=2, process3_wanted=0)
    for count in (1, 2, 3, 4):
        yield carried_out(fit.but(count=count))
    yield refused(fit.but(count=0))
    for count in (5, 6, 256, 0x10000, TOP - 1):
        yield refused(fit.but(count=count), 2)
    for spoiled in (fit.but(process0_pid=0), fit.but(process1_pid=0), fit.but(process1_pid=5),
                    fit.but(process0_pid=7), fit.but(process1_wanted=2), fit.but(process0_wanted=255),
                    fit.but(process0_state=STOPPED, process0_wanted=1),
                    fit.but(process1_state=STOPPED, process1_wanted=1),
                    fit.but(process1_state=STOPPED, process1_wanted=2),
                    fit.but(count=3, process2_pid=5), fit.but(count=4, process3_pid=9),
                    fit.but(count=4, process3_pid=0), fit.but(count=4, process3_wanted=3),
                    fit.but(count=4, process3_state=STOPPED, process3_wanted=1)):
        yield refused(spoiled)
    # The same in a process that is not of the count.
    for other in (fit.but(process2_pid=5), fit.but(process3_pid=0), fit.but(process3_wanted=3),
                  fit.but(process2_state=STOPPED, process2_wanted=1)):
        yield carried_out(other)
    # Proc addresses are free; a mark is kept; a Stopped process is one.
    yield carried_out(fit.but(process1_address=0x80001000))
    call = Call(fit.but(process1_wanted=1, process0_state=STOPPED), 0)
    call.ask(8, 5, b"", b"Stopped")
    call.ask(6, 7, b"", b"80002000")
    call.event(TRAP_EVENT, 5, 0x1008, b"\5")
    call.event(SCHEDULE, 7, 0x1008, b"\0\1")
    call.text("0x0 r 0x21 0x0", "0x0 r 0x0 0x1008")
    call.ask(14, 7, b"", b"", b"\2\x08\x09")
    call.ask(14, 5, b"", b"")
    yield call
    for state in (0, 1, 3, 4, 7, 9, 12, 255):
        yield carried_out(fit.but(process0_state=state, process1_state=state, process1_wanted=1))


def currents():
    """The current process is none, or a listed pid."""
    fit = standing()
    for current in (0, 5, 6, TOP - 1):
        call = Call(fit.but(current=current), 0)
        call.ask(2, 132, b"\4", "pid")
        yield call
    for current in (5, 7):
        call = Call(fit.but(selected=1, current=current), 0)
        call.ask(2, 132, b"\4", "notstop")
        yield call
    call = Call(fit.but(selected=1, current=7, process1_state=STOPPED), 0)
    call.get(132, bytes(4))
    call.text("0x0 R 0x5 0x1234", "0x0 R 0x0 0x0")
    call.get(20, bytes.fromhex("00001234"))
    call.restart()
    call.ask(2, 20, b"\4", "pid")
    yield call
    for selected, current in ((1, 0), (1, 6), (1, 9), (1, TOP - 5), (2, 5), (2, 7), (255, 5), (128, 7)):
        yield refused(fit.but(selected=selected, current=current))
    # Process 7 stands in the room past the count, and is listed no more.
    yield refused(fit.but(count=1, selected=1, current=7))
    yield refused(fit.but(count=1, selected=1, current=0))


def drafts():
    """A condition in hand: an unused id, a free entry, and no element, for the pool has none that is one."""
    fit = standing()
    call = Call(fit.but(active=1, ident=4, drafted=0), 0)
    call.op("k", 7, b"")
    call.op("a", 0, b"")
    call.text("0x0 i 0x1018 0x0", "0x0 i 0x0 0x1b1a1918")
    call.op("b", BASE + 12, b"")
    call.memory(12, "0290")
    call.event(TRAP_EVENT, 5, BASE + 12, b"\0\2\x0c\x0d")
    call.event(TRAP_EVENT, 7, BASE + 12, b"\0\1\4")
    yield call
    for ident in (0, 255):
        yield carried_out(fit.but(active=1, ident=ident, drafted=0))
    yield carried_out(fit.but(active=0, ident=3, drafted=65))
    for active in (2, 3, 128, 255):
        yield refused(fit.but(active=active, ident=4, drafted=0))
    for ident in (3, 9):
        yield refused(fit.but(active=1, ident=ident, drafted=0))
    for count in (1, 2, 64, 65, 128, 129, 255):
        yield refused(fit.but(active=1, ident=4, drafted=count))
    full = Record().but(offset=64, length=0, active=1, ident=9, drafted=0)
    for index in range(7):
        full.plant(index, index, BASE + 2 * index)
    call = Call(full, 0)
    call.op("b", BASE + 14, b"")
    call.op("n", 20, "count")
    call.restart()
    call.memory(0, bytes(range(64)).hex())
    yield call
    full.plant(7, 7, BASE + 14)
    yield refused(full)
    yield Call(full.but(active=0), 0)


DIRECTED = (every_step, sites, stretches, windows, traps, entries, processes, currents, drafts)


# ---- Random calls, with the answers of the rule. ----

def any_record(noise, pick):
    """One that is mostly fit."""
    size = pick((16, 32, 64, 64, 64))
    base = pick((4096, 4096, 0x80000000, TOP - size))
    record = Record().but(base=base, size=size, offset=4 * pick(range(size // 4 + 1)), length=0)
    record.length = 4 * pick(range((size - record.offset) // 4 + 1))
    record.memory = bytearray(pick(range(256)) for _ in range(HELD_MEMORY))
    protected = range(record.offset, record.offset + record.length)
    free = [at for at in range(0, size, 2) if at not in protected]
    for index in range(8):
        if free and noise() < 0.4:
            at = free.pop(pick(range(len(free))))
            record.plant(index, 10 * index + pick(range(10)), base + at)
    record.count = pick((1, 2, 3, 4))
    for index, one in enumerate(record.processes):
        one.pid, one.address = pick((5, 6)) + 10 * index, pick(range(1 << 20))
        one.state, one.wanted = pick((READY, READY, STOPPED, 4, 12)), 0
        one.wanted = pick((0, 1)) if one.state != STOPPED else 0
    if noise() < 0.5:
        record.selected, record.current = 1, pick(record.listed()).pid
    if noise() < 0.3 and len(record.used()) < 8:
        record.active, record.ident, record.drafted = 1, 100, 0
    return record


def spoil(record, noise, pick):
    """One field made another, which may leave it fit."""
    way = pick(range(8))
    if way == 0:
        field = pick(("base", "size", "offset", "length", "count", "current"))
        change = pick((-4, -2, -1, 1, 2, 4, 8, 64))
        return record.but(**{field: (getattr(record, field) + change) % TOP})
    if way == 1:
        return record.but(**{pick(("selected", "active", "drafted")): pick((0, 1, 2, 65))})
    if way == 2:
        return record.but(**{f"process{pick(range(4))}_{pick(('pid', 'state', 'wanted'))}": pick((0, 1, 2, 5, 8, 15))})
    if way in (3, 4):
        field = pick(("used", "ident", "count"))
        return record.but(**{f"entry{pick(range(8))}_{field}": pick((0, 1, 2, 10, 65, 100))})
    if way == 5:
        return record.but(**{f"entry{pick(range(8))}_site": (record.base + pick(range(-2, record.size + 2))) % TOP})
    other = record.but()
    other.memory[pick(range(HELD_MEMORY))] = pick((0, 0x02, 0x90))
    return other


def scattered():
    # Of this generator only random() is the same in every version of Python.
    noise = random.Random(SEED).random

    def pick(choices):
        return choices[int(noise() * len(choices))]

    for _ in range(RANDOM_CALLS):
        record = any_record(noise, pick)
        for _ in range(pick((0, 0, 1, 1, 2))):
            record = spoil(record, noise, pick)
        call = Call(record, None)
        for _ in range(int(noise() * 6)):
            if len(call.parts[0]) < 600:
                any_step(call, noise, pick)
        any_text(call, noise, pick)
        for _ in range(1 + int(noise() * 4)):
            if len(call.parts[1]) < 600:
                any_step(call, noise, pick)
        yield call


def calls():
    return in_turn((*DIRECTED, scattered))


def cases():
    """Every call with its answer."""
    return (call.made() for call in calls())


# ---- Counted, or run. ----

def said(_):
    """How many calls there are, by the number that their record has."""
    numbers = [call.stub.number for call in calls()]
    counts = ", ".join(f"{numbers.count(one)} number {one}" for one in sorted(set(numbers)))
    return f"{len(numbers)} calls: records of {counts}"


if __name__ == "__main__":
    sys.exit(counted_or_run(list(cases()), said))
