#!/usr/bin/env python3
"""Make the stored runs of the stub's program.

    python3 tests/program_vectors.py           write the four files below
    python3 tests/program_vectors.py --check   compare with them, write nothing

crates/program_main/stdin     directed steps, written here call by call
crates/program_random/stdin   random steps of rust/steps
.../stdout                 what rust/reference answers

The reference is written from documents 01 and 02 and shares nothing with the
crates; expected output never comes from the program under test. Every directed
call also carries the answer that they want, written by hand (for the worked set
with the bytes as 01 prints them), and the script stops where the reference
differs.
"""

import functools
import subprocess
import sys
from pathlib import Path

import stored

ROOT = Path(__file__).resolve().parent.parent
SEED, RANDOM_STEPS = 1, 20_000

REQUEST, TRAP, SCHEDULE, STATE, RESTART = 1, 2, 3, 4, 5
TERR, RERR, TMGET, RMGET, TMPUT, RMPUT, TPROC, RPROC, TSTATUS, RSTATUS = range(10)
TRNOTE, RRNOTE, TSTOP, RSTOP, TSTART, RSTART, TCONDBREAK, RCONDBREAK = range(10, 18)
TSTARTSTOP, TKILL = 18, 22
PID_REQUESTS = (TPROC, TSTATUS, TRNOTE, TSTOP, TSTART)
SERVED = (TMGET, TMPUT, *PID_REQUESTS, TCONDBREAK)
STATE_NAMES = ("Dead Moribund Ready Scheding Running "
               "Queueing Wakeme Broken Stopped Rendezvous").split()
READY, STOPPED = 2, 8
B, END, LAST = 4096, 4160, 0xFFFFFFFF


# ---- Ten bytes. ----

def word(value):
    """A number of four bytes, high-order first."""
    return value.to_bytes(4, "big")


def raw(text):
    """Bytes as 01 prints them."""
    return bytes.fromhex(text)


def message(kind, *fields):
    """The type byte, the fields, and zeros up to ten bytes."""
    return (bytes([kind]) + b"".join(fields)).ljust(10, b"\x00")


def tmget(address, n):
    return message(TMGET, word(address), bytes([n]))


def tmput(address, data, n=None):
    """Writes the bytes of a hex text; n is their count unless given."""
    data = raw(data)
    return message(TMPUT, word(address), bytes([len(data) if n is None else n]), data)


def ask_pid(kind, pid):
    return message(kind, word(pid))


def cond(letter, val=0):
    return message(TCONDBREAK, word(val), letter.encode())


def changed(request, place, byte=1):
    """The request with one of its nine data bytes (1 to 9) changed."""
    return request[:place] + bytes([byte]) + request[place + 1:]


def rerr(reason):
    return message(RERR, reason.encode())


def rmget(data):
    return message(RMGET, raw(data))


def rproc(text):
    return message(RPROC, text.encode())


def rstatus(text):
    return message(RSTATUS, text[:9].encode())


BAD_COUNT, UNK, INVAL, PID, UNSUP, NOTSTOP = map(
    rerr, "count unk inval pid unsup notstop".split())
RESET = rerr("reset")
WRITTEN, NOTE, MARKED = message(RMPUT), message(RRNOTE), message(RSTOP)
STARTED, TAKEN = message(RSTART), message(RCONDBREAK)


def block(pc, first=0x40):
    """A saved block: bytes that count up, then pc at offset 132."""
    return bytes((first + i) % 256 for i in range(132)) + word(pc)


# ---- Answers of events. ----

UNLISTED, IS_STOPPED, NO_SITE = b"\x04", b"\x05", b"\x06"
YES, NO, ACCEPTED = b"\x00\x01", b"\x00\x00", b"\x00"


def stop(ident):
    return bytes([0, 1, ident])


def beside(plain):
    """02 and the two plain bytes; nothing where there are none."""
    return b"\x02" + raw(plain) if plain else b""


def passed(plain):
    return b"\x00" + beside(plain)


class Script:
    """Steps in order, each with what it must write and a comment."""

    def __init__(self):
        self.steps = []

    def ask(self, request, reply, comment):
        assert len(request) == len(reply) == 10, comment
        self.add(REQUEST, request, b"\x00" + reply, comment)

    def start(self, pid, plain, comment):
        """A Tstart that is accepted, with the plain bytes beside its reply, if any."""
        self.add(REQUEST, ask_pid(TSTART, pid), b"\x00" + STARTED + beside(plain), comment)

    def trap(self, pid, pc, wanted, comment, first=0x40):
        self.add(TRAP, word(pid) + block(pc, first), wanted, comment)

    def schedule(self, pid, pc, wanted, comment, first=0x40):
        self.add(SCHEDULE, word(pid) + block(pc, first), wanted, comment)

    def state(self, pid, value, wanted, comment):
        self.add(STATE, word(pid) + bytes([value]), wanted, comment)

    def restart(self, comment):
        self.add(RESTART, b"", b"\x00" + RESET, comment)

    def add(self, kind, body, wanted, comment):
        self.steps.append((bytes([kind]) + body, wanted, comment))

    def plant(self, ident, elements, site, comment):
        """A whole condition; an element is a letter, or a letter and its val."""
        self.ask(cond("n", ident), TAKEN, f"{comment}: n {ident}")
        for element in elements:
            self.ask(cond(*element), TAKEN, f"{comment}: {element}")
        self.ask(cond("b", site), TAKEN, f"{comment}: b {site}")

    def fresh(self):
        """The worked setup again, but for the register area."""
        self.restart("back to the worked setup: no breakpoint")
        for i in range(0, 64, 4):
            data = bytes(range(i, i + 4)).hex()
            self.ask(tmput(B + i, data), WRITTEN, "back to the worked setup: memory")
        for pid in (5, 7):
            self.state(pid, READY, ACCEPTED, "back to the worked setup: Ready")


# ---- The worked set, with the bytes as 01 prints them. ----

def worked_memory(s):
    s.ask(raw("02 00001004 04 00000000"), raw("03 04 05 06 07 0000000000"), "case 1")
    s.fresh()
    s.ask(raw("02 00001004 0a 00000000"), raw("01 63 6f 75 6e 74 00000000"), "case 2")
    s.fresh()
    s.ask(tmget(4151, 9), raw("03 37 38 39 3a 3b 3c 3d 3e 3f"), "case 3: to the window's end")
    s.ask(tmget(4152, 9), raw("01 69 6e 76 61 6c 00000000"), "case 3: past it")


def case_5(s):
    """Cases 4 and 5; that memory holds 02 90 shows in the reference's tests only."""
    s.fresh()
    done = raw("11 000000000000000000")
    s.ask(raw("10 00000003 6e000000 00"), done, "case 4: n 3")
    s.ask(raw("10 00001008 62000000 00"), done, "case 4: b 4,104")
    s.ask(tmget(4104, 2), raw("03 08 09 00000000000000"), "case 4: plain bytes")
    s.ask(raw("04 00001009 03 aabbcc00"), raw("05 000000000000000000"), "case 5: write")
    s.ask(tmget(4104, 4), raw("03 08 aa bb cc 0000000000"), "case 5: plain bytes")


def worked_removal(s):
    case_5(s)
    s.ask(cond("d", 3), TAKEN, "case 6: d 3")
    s.ask(tmget(4104, 4), rmget("08aabbcc"), "case 6: memory after d")
    s.trap(5, 4104, NO_SITE, "case 6: no breakpoint after d")
    case_5(s)
    s.add(RESTART, b"", raw("00 01 72 65 73 65 74 00000000"), "case 6: restart")
    s.ask(tmget(4104, 4), rmget("08aabbcc"), "case 6: memory after the restart")
    s.trap(5, 4104, NO_SITE, "case 6: no breakpoint after the restart")


def worked_processes(s):
    s.fresh()
    s.state(5, 9, ACCEPTED, "case 7: state 9")
    s.ask(ask_pid(TSTATUS, 5), raw("09 52 65 6e 64 65 7a 76 6f 75"), "case 7: Rendezvou")
    s.state(5, 12, ACCEPTED, "case 7: state 12")
    s.ask(ask_pid(TSTATUS, 5), raw("09 63 0000000000000000"), "case 7: c")
    s.fresh()
    s.ask(ask_pid(TPROC, 5), raw("07 38 30 30 30 31 30 30 30 00"), "case 8: Tproc 5")
    s.ask(ask_pid(TPROC, 6), raw("01 70 69 64 000000000000"), "case 8: Tproc 6")


def worked_conditions(s):
    s.fresh()
    s.plant(4, [("k", 7), "a"], 4104, "case 9")
    s.trap(5, 4104, raw("00 02 08 09"), "case 9: 5 passes")
    s.trap(7, 4104, raw("00 01 04"), "case 9: 7 stops")
    s.fresh()
    s.plant(4, [("p", 0x1008), "*", ("p", 0x0B0A0908), "=", "a"], 4104, "case 10")
    s.trap(5, 4104, raw("00 01 04"), "case 10: stops")
    s.fresh()
    s.ask(cond("n", 1), TAKEN, "case 11: n 1")
    s.ask(cond("a"), INVAL, "case 11: a lacks a value")
    s.ask(message(20), raw("01 75 6e 6b 000000000000"), "case 11: type 20")
    s.ask(tmget(0, 1), PID, "case 11: none current")
    s.ask(ask_pid(TPROC, 5), rproc("80001000"), "case 11: 5 is current and Ready")
    s.ask(tmget(0, 1), raw("01 6e 6f 74 73 74 6f 70 0000"), "case 11: notstop")


def worked_continue(s):
    """Of request Two of 02."""
    s.fresh()
    s.plant(4, [], 4104, "Two")
    s.trap(7, 4104, raw("00 01 04"), "Two: 7 stops")
    s.add(REQUEST, raw("0e 00000007 0000000000"), raw("00 0f 000000000000000000 02 08 09"), "Two: Tstart 7")
    s.ask(tmget(4104, 2), raw("03 08 09 00000000000000"), "Two: plain bytes")
    s.trap(7, 4104, raw("00 01 04"), "Two: 7 stops again")


# ---- Requests and their refusals. ----

def types(s):
    s.fresh()
    for kind in sorted(set(range(256)) - set(SERVED)):
        reply = UNSUP if kind in (TSTARTSTOP, TKILL) else UNK
        s.ask(message(kind, word(5)), reply, f"type {kind} is not served")
        s.ask(bytes([kind]) * 10, reply, f"type {kind}: no other byte is looked at")


def counts(s):
    s.fresh()
    for n in (10, 11, 128, 255):
        s.ask(tmget(B, n), BAD_COUNT, "Tmget n over 9")
        s.ask(changed(tmget(LAST, n), 9), BAD_COUNT, "count before unused bytes and address")
    for n in (5, 9, 255):
        s.ask(tmput(B, "01020304", n), BAD_COUNT, "Tmput n over 4")
    for place in range(6, 10):
        s.ask(changed(tmget(B, 4), place), INVAL, "Tmget: unused byte")
        s.ask(changed(tmget(0, 0), place), INVAL, "Tmget n 0: unused byte")
        s.ask(changed(tmput(0, ""), place), INVAL, "Tmput n 0: data is unused")
    for n in range(1, 4):
        s.ask(tmput(B, "01020304", n), INVAL, f"Tmput n {n}: data beyond n")
    s.ask(tmget(B, 9), rmget("000102030405060708"), "no refused write was done")


def addresses(s):
    s.fresh()
    for n in range(1, 10):
        data = bytes(range(64 - n, 64)).hex()
        s.ask(tmget(END - n, n), rmget(data), f"the window's last {n}")
        s.ask(tmget(END - n + 1, n), INVAL, f"{n} bytes past the window's end")
        s.ask(tmget(B - 1, n), INVAL, f"{n} bytes from below the window")
        s.ask(tmget(137 - n, n), INVAL, f"{n} bytes across 135 and 136")
        s.ask(tmget(LAST, n), INVAL, f"{n} bytes from 2^32 - 1")
    for address in (136, 140, 2048, 4095, END, 0x80001000, LAST - 8, LAST - 3):
        s.ask(tmget(address, 1), INVAL, f"nothing at {address}")
        s.ask(tmput(address, "5a"), INVAL, f"nothing to write at {address}")
    for address in (133, 134, 135, B - 1, B - 3, END - 3, END - 1, LAST - 1, LAST):
        s.ask(tmput(address, "5a5b5c5d"), INVAL, f"four bytes at {address}")
    for address in (0, 3, 4, 135, 136, 4095, B, END, LAST):
        s.ask(tmget(address, 0), rmget(""), f"no bytes at {address}")
        s.ask(tmput(address, ""), WRITTEN, f"no bytes written at {address}")
    for n in range(1, 5):
        data = bytes(range(0xF0, 0xF0 + n)).hex()
        s.ask(tmput(END - n, data), WRITTEN, f"write the window's last {n}")
        s.ask(tmget(END - n, n), rmget(data), "read them")
    s.ask(tmput(B, "a0a1"), WRITTEN, "write the window's first bytes")
    s.ask(tmget(B, 3), rmget("a0a102"), "read them and one more")


def pids(s):
    s.fresh()
    for kind in PID_REQUESTS:
        for pid in (0, 1, 6, 8, 0x05000000, 0x00050000, 0x107, LAST):
            s.ask(ask_pid(kind, pid), PID, f"type {kind}: unlisted pid {pid}")
        for place in range(5, 10):
            s.ask(changed(ask_pid(kind, 5), place), INVAL, f"type {kind}: unused byte")
            s.ask(changed(ask_pid(kind, 6), place), INVAL, "unused bytes before pid")
    s.ask(tmget(4, 1), PID, "a refused Tproc makes none current")
    s.ask(ask_pid(TPROC, 7), rproc("80002000"), "Tproc 7")
    s.ask(ask_pid(TSTATUS, 5), rstatus("Ready"), "Tstatus 5")
    s.ask(ask_pid(TRNOTE, 5), NOTE, "Trnote 5")
    s.ask(ask_pid(TRNOTE, 7), NOTE, "Trnote 7")
    s.ask(ask_pid(TPROC, 6), PID, "a refused Tproc leaves the current process")
    s.ask(tmget(4, 1), NOTSTOP, "7 is still current, and Ready")


def states(s):
    s.fresh()
    for value in range(256):
        text = STATE_NAMES[value] if value < 10 else "%x" % value
        if value == STOPPED:
            s.state(7, value, IS_STOPPED, "no state event makes a process Stopped")
        else:
            s.state(7, value, ACCEPTED, f"state {value}")
            s.ask(ask_pid(TSTATUS, 7), rstatus(text), f"state {value} is {text}")
    s.ask(ask_pid(TSTATUS, 5), rstatus("Ready"), "the other process is as it was")


# ---- Registers. ----

def registers_refused(s):
    s.fresh()
    for reply, comment in ((PID, "none current"), (NOTSTOP, "current and Ready")):
        for address, n in ((0, 1), (0, 9), (3, 1), (4, 4), (127, 9), (132, 4), (135, 1)):
            s.ask(tmget(address, n), reply, f"{comment}: read {n} at {address}")
        for address, data in ((4, "01"), (4, "01020304"), (132, "01020304"), (135, "01")):
            s.ask(tmput(address, data), reply, f"{comment}: write at {address}")
        for address in range(4):
            s.ask(tmput(address, "01"), INVAL, f"{comment}: register zero first")
            s.ask(tmput(address, "01020304"), INVAL, f"{comment}: register zero first")
        s.ask(tmget(135, 2), INVAL, f"{comment}: the address first")
        s.ask(tmget(136, 1), INVAL, f"{comment}: the address first")
        s.ask(ask_pid(TPROC, 5), rproc("80001000"), "make 5 current")


def registers_read(s):
    s.fresh()
    s.plant(1, [], 4104, "a breakpoint")
    s.trap(5, 4104, stop(1), "5 stops and its block is saved")
    s.ask(tmget(0, 4), PID, "a stop makes no process current")
    s.ask(ask_pid(TPROC, 5), rproc("80001000"), "make 5 current")
    s.ask(ask_pid(TSTATUS, 5), rstatus("Stopped"), "5 is Stopped")
    s.ask(tmget(0, 9), rmget("404142434445464748"), "registers zero to two, as saved")
    s.ask(tmget(3, 2), rmget("4344"), "across registers zero and one")
    s.ask(tmget(128, 4), rmget("c0c1c2c3"), "status")
    s.ask(tmget(132, 4), rmget("00001008"), "pc at offset 132")
    s.ask(tmget(127, 9), rmget("bfc0c1c2c300001008"), "the last nine")
    s.ask(tmget(135, 1), rmget("08"), "the last byte")
    s.ask(tmget(128, 9), INVAL, "one too many")


def registers_written(s):
    """Goes on from registers_read."""
    for address in range(4):
        for data in ("01", "0102", "01020304"):
            s.ask(tmput(address, data), INVAL, "register zero is never written")
    s.ask(tmput(0, ""), WRITTEN, "no bytes at register zero")
    s.ask(tmput(4, "a1"), WRITTEN, "the first byte of register one")
    s.ask(tmput(130, "b1b2b3b4"), WRITTEN, "across status and pc")
    s.ask(tmput(135, "c1"), WRITTEN, "the last byte")
    s.ask(tmput(135, "c1c2"), INVAL, "past the last byte")
    s.ask(tmget(0, 6), rmget("40414243a145"), "register one is written")
    s.ask(tmget(128, 8), rmget("c0c1b1b2b3b410c1"), "status and pc are written")


def registers_of_two(s):
    """Goes on from registers_written."""
    s.ask(ask_pid(TPROC, 7), rproc("80002000"), "make 7 current")
    s.ask(tmget(132, 4), NOTSTOP, "7 is Ready")
    s.trap(7, 4104, stop(1), "7 stops at the same breakpoint", first=0x10)
    s.ask(tmget(0, 9), rmget("101112131415161718"), "7 has its own block")
    s.ask(tmput(8, "d1d2d3d4"), WRITTEN, "write a register of 7")
    s.ask(ask_pid(TPROC, 5), rproc("80001000"), "make 5 current")
    s.ask(tmget(4, 9), rmget("a145464748494a4b4c"), "5 has what it had")
    s.ask(ask_pid(TPROC, 7), rproc("80002000"), "make 7 current")
    s.ask(tmget(4, 9), rmget("14151617d1d2d3d41c"), "7 has what was written")
    s.start(7, "0809", "start 7")
    s.ask(tmget(4, 1), NOTSTOP, "7 is current and no longer Stopped")


# ---- Traps under reads and writes. ----

def three_sites(s):
    s.fresh()
    for ident, site in ((1, 4104), (2, 4106), (3, 4108)):
        s.plant(ident, [], site, "three sites in a row")
    s.ask(tmget(4102, 9), rmget("060708090a0b0c0d0e"), "plain bytes")
    s.ask(tmput(4105, "a1a2a3a4"), WRITTEN, "four bytes from an odd address")
    s.ask(tmget(4102, 9), rmget("060708a1a2a3a40d0e"), "the bytes written")
    s.ask(cond("d", 2), TAKEN, "remove the one in the middle")
    s.ask(tmget(4102, 9), rmget("060708a1a2a3a40d0e"), "nothing changed for a reader")
    s.trap(5, 4106, NO_SITE, "there is no breakpoint any more")
    s.plant(2, [("p", 0), "a"], 4106, "the middle again, never true")
    s.trap(5, 4106, passed("a2a3"), "Pass gives the bytes written")
    s.ask(tmput(4104, "b1b2b3b4"), WRITTEN, "four bytes over two sites")
    s.trap(5, 4106, passed("b3b4"), "Pass gives the new ones")
    s.ask(tmput(4107, "c1"), WRITTEN, "one byte under a trap")
    s.trap(5, 4106, passed("b3c1"), "Pass gives it too")
    s.ask(tmput(4103, "d1d2"), WRITTEN, "beside and under a trap")
    s.ask(tmget(4102, 9), rmget("06d1d2b2b3c1a40d0e"), "all bytes written")
    s.restart("every trap's plain bytes go back")
    s.ask(tmget(4102, 9), rmget("06d1d2b2b3c1a40d0e"), "memory as written")


def trap_alike(s):
    s.fresh()
    s.ask(tmput(4104, "0290"), WRITTEN, "memory that looks like a trap")
    s.trap(5, 4104, NO_SITE, "it is no breakpoint")
    s.plant(1, [("p", 0), "a"], 4104, "and no obstacle")
    s.trap(5, 4104, passed("0290"), "those are the plain bytes")
    s.ask(tmput(4104, "0809"), WRITTEN, "write other ones")
    s.trap(5, 4104, passed("0809"), "now these are")
    s.ask(tmput(4104, "0290"), WRITTEN, "the trap's own bytes under a trap")
    s.ask(cond("d", 1), TAKEN, "remove the breakpoint")
    s.ask(tmget(4104, 2), rmget("0290"), "they were written")


def window_ends(s):
    s.fresh()
    s.plant(1, [], B, "a breakpoint on the first bytes")
    s.plant(2, [], END - 2, "and on the last ones")
    s.ask(tmget(B, 4), rmget("00010203"), "the first bytes are plain")
    s.ask(tmget(END - 4, 4), rmget("3c3d3e3f"), "the last ones too")
    s.ask(tmput(END - 1, "e1"), WRITTEN, "write the last byte")
    s.ask(tmput(B, "e2"), WRITTEN, "write the first one")
    s.ask(tmget(END - 3, 4), INVAL, "past the end")
    s.trap(7, END - 2, stop(2), "stop at the last site")
    s.trap(5, B, stop(1), "stop at the first one")
    s.start(7, "3ee1", "start 7: what was written is there")
    s.start(5, "e201", "start 5: here too")
    s.restart("the breakpoints go")
    s.ask(tmget(END - 2, 2), rmget("3ee1"), "what was written is there")
    s.ask(tmget(B, 2), rmget("e201"), "here too")


# ---- Conditions. ----

def dropped(s, request, reply, comment):
    """The request is refused and drops the condition in hand."""
    s.ask(cond("n", 1), TAKEN, f"{comment}: n 1")
    s.ask(request, reply, comment)
    s.ask(cond("b", 4120), INVAL, f"{comment}: nothing is in hand")


def kept(s, request, reply, comment):
    """The request leaves the condition in hand."""
    s.ask(cond("n", 1), TAKEN, f"{comment}: n 1")
    s.ask(request, reply, comment)
    s.ask(cond("b", 4120), TAKEN, f"{comment}: the condition is in hand")
    s.ask(cond("d", 1), TAKEN, f"{comment}: d 1")


def letters(s):
    s.fresh()
    s.plant(3, [], 4104, "a breakpoint")
    for letter in "zcejlmqrNKPBDAO+|~ 1":
        dropped(s, cond(letter), INVAL, f"no letter {letter!r}")
    dropped(s, message(TCONDBREAK), INVAL, "no letter at all")
    for letter in "*&=!ao":
        dropped(s, cond(letter, 1), INVAL, f"{letter}: val is unused")
        dropped(s, cond(letter, 0x80000000), INVAL, f"{letter}: val is unused")
    for letter in "nkpb*&=!ao":
        for place in range(6, 10):
            dropped(s, changed(cond(letter), place), INVAL, f"{letter}: bytes after it")
    for place in range(6, 9):
        dropped(s, changed(cond("d", 3), place), INVAL, "not d and three zeros")
    kept(s, changed(cond("d", 3), 9), INVAL, "d with a non-zero ninth byte")
    kept(s, cond("d", 4), INVAL, "d of an unknown id")
    kept(s, cond("d", 3 + 256), INVAL, "d of an id over 255")
    kept(s, cond("d", 3), TAKEN, "d of a breakpoint")
    kept(s, cond("d", 1), INVAL, "d of the id in hand")
    kept(s, tmget(B, 10), BAD_COUNT, "another request that is refused")


def nothing_in_hand(s):
    s.fresh()
    for letter in "kp*&=!ao":
        s.ask(cond(letter), INVAL, f"{letter}: nothing in hand")
    s.ask(cond("b", 4104), INVAL, "b: nothing in hand")
    s.ask(cond("d", 0), INVAL, "d: no breakpoint 0")


def idents(s):
    s.fresh()
    s.plant(0, [], 4104, "the lowest id")
    s.plant(255, [], 4106, "the highest id")
    for ident in (0, 255, 256, 257, 511, 0x01000000, LAST):
        dropped(s, cond("n", ident), INVAL, f"n {ident} is in use or over 255")
    s.ask(cond("n", 1), TAKEN, "n 1")
    s.ask(cond("k", 5), TAKEN, "with an element")
    kept(s, cond("n", 1), TAKEN, "n of the id in hand begins anew")
    s.ask(cond("n", 2), TAKEN, "n 2")
    s.ask(cond("n", 1), TAKEN, "n 1 replaces it")
    s.ask(cond("b", 4108), TAKEN, "set as 1")
    s.trap(5, 4108, stop(1), "it has id 1")
    s.ask(cond("d", 2), INVAL, "there is no 2")


def sites(s):
    s.fresh()
    s.plant(3, [], 4104, "a breakpoint")
    for site in (4104, 4105, 4103, 4095, 4159, 4161, 4094, 4160, 0, 132, 136, LAST - 1, LAST):
        dropped(s, cond("b", site), INVAL, f"no site at {site}")
    s.ask(cond("n", 1), TAKEN, "n 1")
    s.ask(cond("p", 1), TAKEN, "depth 2")
    s.ask(cond("b", 4120), INVAL, "depth is not 1")
    s.ask(cond("b", 4120), INVAL, "and nothing is in hand")
    s.plant(1, [], 4102, "the site below")
    s.plant(2, [], 4106, "the site above")


def lacking_values(s):
    s.fresh()
    for letter in "&=!ao":
        dropped(s, cond(letter), INVAL, f"{letter} needs two values")
    s.ask(cond("n", 1), TAKEN, "n 1")
    for element in (("p", 1), "=", "*"):
        s.ask(cond(*element), TAKEN, f"{element}")
    s.ask(cond("o"), INVAL, "one value is left")
    s.ask(cond("k", 5), INVAL, "and nothing is in hand")


def seventeenth(s):
    """01's limit was 16; since request Seven of 02 a 17th element is one like any other."""
    s.fresh()
    for letter in "kp*&=!ao":
        lacks = letter in "&=!ao"
        s.ask(cond("n", 1), TAKEN, "n 1")
        for _ in range(8):
            s.ask(cond("k", 5), TAKEN, "two elements")
            s.ask(cond("a"), TAKEN, "of sixteen")
        s.ask(cond(letter), INVAL if lacks else TAKEN, f"{letter}: a 17th element")
        s.ask(cond("b", 4120), TAKEN if letter == "*" else INVAL, "one value or more, or nothing in hand")
        if letter == "*":
            s.ask(cond("d", 1), TAKEN, "the breakpoint of 17 elements goes")
    s.plant(1, [("k", 5), "a"] * 8, 4120, "sixteen elements")
    s.trap(7, 4120, passed("1819"), "not for 7")
    s.trap(5, 4120, stop(1), "for 5")
    s.plant(2, [("p", i) for i in range(8)] + ["o"] * 8, 4122, "a depth of nine")
    s.trap(7, 4122, stop(2), "true")


# ---- Request Seven of 02: 64 elements in a condition, 128 places for all of them. ----

LONGEST = [("k", 5), "a"] * 32  # true for 5, evaluated to its end


def in_hand(s, ident, elements, comment):
    """A condition that stays in hand."""
    s.ask(cond("n", ident), TAKEN, f"{comment}: n {ident}")
    for number, element in enumerate(elements, 1):
        s.ask(cond(*element), TAKEN, f"{comment}: element {number}")


def sixty_fifth(s):
    s.fresh()
    for letter in "kp*&=!ao":
        in_hand(s, 1, LONGEST, "64 elements")
        s.ask(cond(letter), BAD_COUNT, f"{letter}: a 65th element, places are left")
        s.ask(cond("b", 4120), INVAL, "the condition in hand is dropped")
    in_hand(s, 1, [("p", i) for i in range(64)], "a depth of 65")
    s.ask(cond("a"), BAD_COUNT, "a 65th that has its values")
    s.plant(1, LONGEST, 4120, "64 elements")
    s.trap(7, 4120, passed("1819"), "not for 7")
    s.trap(5, 4120, stop(1), "for 5")
    s.plant(2, [("p", i) for i in range(32)] + ["o"] * 32, 4122, "a depth of 33")
    s.trap(7, 4122, stop(2), "true")


def all_places(s):
    s.fresh()
    s.plant(1, LONGEST, 4104, "64 of 128 places")
    s.plant(2, ["*"] * 64, 4106, "all 128 places")
    for letter in "kp*&=!ao":
        s.ask(cond(letter), INVAL, f"{letter}: nothing in hand comes first")
        s.ask(cond("n", 3), TAKEN, "n needs no place")
        s.ask(cond(letter), BAD_COUNT, f"{letter}: no place is left, whatever values are")
        s.ask(cond("b", 4120), INVAL, "the condition in hand is dropped")
    s.plant(3, [], 4108, "neither does b")
    s.trap(7, 4106, stop(2), "7 stops at the second")
    s.trap(5, 4104, stop(1), "5 at the first")


def places_by_d(s):
    """Goes on from all_places."""
    s.ask(cond("n", 4), TAKEN, "n 4")
    s.ask(cond("d", 4), INVAL, "d of no breakpoint gives nothing back, and drops nothing")
    s.ask(cond("d", 1), TAKEN, "d 1 gives 64 back")
    for number, element in enumerate(LONGEST, 1):
        s.ask(cond(*element), TAKEN, f"place {64 + number}")
    s.ask(cond("p", 1), BAD_COUNT, "a 65th element, and no place is left")
    s.ask(cond("b", 4104), INVAL, "the condition in hand is dropped")
    s.plant(4, LONGEST, 4110, "its places came back")
    s.start(5, "", "start 5: no breakpoint is at 4,104 any more")
    s.trap(5, 4110, stop(4), "the new one stops 5")
    s.start(7, "0a0b", "start 7 at the second, whose elements were moved")
    s.trap(7, 4106, stop(2), "and which stops it again")


def places_in_hand(s):
    s.fresh()
    s.plant(1, LONGEST, 4104, "64 of 128 places")
    in_hand(s, 2, LONGEST[:62], "62 more in hand")
    in_hand(s, 3, LONGEST, "n gives them back, 64 others take them")
    s.ask(cond("n", 3), TAKEN, "and again, all 128 held before")
    in_hand(s, 3, LONGEST[:63], "63 in hand")
    s.ask(cond("z"), INVAL, "a refusal drops them")
    s.plant(3, LONGEST[:60], 4106, "124 places by breakpoints")
    in_hand(s, 4, [("p", 1), ("p", 2), "o", "a"], "the last four in hand")
    s.ask(cond("*"), BAD_COUNT, "the fifth finds no place")
    s.plant(4, [("p", 1), ("p", 2), "o", "a"], 4108, "the last four")
    for ident, site in ((1, 4104), (3, 4106), (4, 4108)):
        s.trap(5, site, stop(ident), "each has its own elements")
        s.start(5, f"{site - B:02x}{site - B + 1:02x}", "and goes on")
    s.ask(cond("d", 3), TAKEN, "60 places in the middle go back")
    s.trap(7, 4104, passed("0809"), "the first has its own elements still")
    s.trap(7, 4108, stop(4), "the last too")
    s.plant(5, LONGEST[:58] + ["*", "*"], 4112, "60 others, at the lowest free entry")
    s.trap(5, 4108, stop(4), "the last has its elements still")
    s.ask(cond("n", 6), TAKEN, "n 6")
    s.ask(cond("k", 5), BAD_COUNT, "all places are held again")


def places_by_restart(s):
    """Goes on from places_in_hand."""
    s.ask(cond("d", 4), TAKEN, "four places go back")
    in_hand(s, 6, [("p", 1)] * 4, "and are in hand, so all are held")
    s.restart("a restart gives all back")
    s.ask(cond("p", 1), INVAL, "nothing is in hand")
    s.plant(1, LONGEST, 4104, "64 of 128 places")
    in_hand(s, 2, LONGEST, "128 of 128 places")
    s.ask(cond("b", 4106), TAKEN, "set with all places held")
    s.trap(7, 4106, passed("0a0b"), "not for 7")
    s.trap(5, 4106, stop(2), "for 5")


def full_table(s):
    s.fresh()
    for ident in range(8):
        s.plant(10 + ident, [], B + 2 * ident, "eight breakpoints")
    s.ask(cond("n", 9), BAD_COUNT, "a ninth n: the table is full")
    s.ask(cond("k", 5), INVAL, "nothing is in hand")
    s.ask(cond("n", 12), INVAL, "id in use before table full")
    s.ask(cond("n", 256), INVAL, "id over 255 before table full")
    s.ask(tmget(B, 9), rmget("000102030405060708"), "plain bytes under all of them")
    s.ask(tmget(B + 9, 9), rmget("090a0b0c0d0e0f1011"), "and here")
    s.trap(5, B + 14, stop(17), "the eighth stops")
    s.ask(cond("d", 13), TAKEN, "one goes")
    s.ask(cond("n", 9), TAKEN, "now n is taken")
    s.ask(cond("b", B + 20), TAKEN, "and set")
    s.ask(cond("n", 8), BAD_COUNT, "full again")
    s.start(5, "0e0f", "start 5 at the eighth, which stays")
    s.ask(cond("n", 8), BAD_COUNT, "so the table is full")
    s.ask(cond("d", 17), TAKEN, "the eighth goes")
    s.plant(8, [], B + 14, "there is room again, at the same site")
    s.restart("all eight go")
    s.ask(tmget(B + 3, 9), rmget("030405060708090a0b"), "memory is plain")
    s.plant(10, [], B, "the table is fresh")


def truth(s, elements, wanted, comment):
    """The condition at 4,120 for process 5."""
    s.plant(1, elements, 4120, comment)
    s.trap(5, 4120, stop(1) if wanted else passed("1819"), comment)
    s.restart(comment)


def primaries(s):
    s.fresh()
    truth(s, [], True, "no element: the final b is true")
    truth(s, [("k", 5), "a"], True, "k 5 for 5")
    truth(s, [("k", 7), "a"], False, "k 7 for 5")
    truth(s, [("k", 0), "a"], False, "k of a pid that nobody has")
    truth(s, [("k", 5), "="], True, "k gives 1, and b gives 1")
    truth(s, [("k", 7), ("p", 0), "=", "a"], True, "k gives 0")
    truth(s, [("p", 0), "a"], False, "p 0 is false")
    truth(s, [("p", 0x80000000), "a"], True, "non-zero is true")
    truth(s, [("p", 1), "="], True, "the final b is 1")


def operators(s):
    s.fresh()
    truth(s, [("p", 2), "&"], False, "1 & 2")
    truth(s, [("p", 3), "&"], True, "1 & 3")
    truth(s, [("p", 0xFF00FF00), ("p", 0x0FF00FF0), "&", ("p", 0x0F000F00), "=", "a"],
          True, "& is bit-wise, in 32 bits")
    truth(s, [("p", 0xFFFF0000), ("p", 0x0000FFFF), "&", "a"], False, "& of no common bit")
    truth(s, [("p", 7), ("p", 7), "=", "a"], True, "7 = 7")
    truth(s, [("p", 7), ("p", 0x80000007), "=", "a"], False, "= in 32 bits")
    truth(s, [("p", 7), ("p", 7), "=", "="], True, "= gives 1")
    truth(s, [("p", 7), ("p", 7), "!", "a"], False, "7 ! 7")
    truth(s, [("p", 7), ("p", 8), "!", "a"], True, "7 ! 8")
    truth(s, [("p", 7), ("p", 8), "!", "="], True, "! gives 1")
    truth(s, [("p", 2), "a", ("p", 1), "="], True, "a gives 1")
    truth(s, [("p", 2), ("p", 4), "a", "="], True, "a is logical")
    truth(s, [("p", 0), ("p", 4), "a", "a"], False, "0 a 4")
    truth(s, [("p", 4), ("p", 0), "a", "a"], False, "4 a 0")
    truth(s, [("p", 0), "o"], True, "1 o 0")
    truth(s, [("p", 2), ("p", 4), "o", "="], True, "o gives 1")
    truth(s, [("p", 0), ("p", 4), "o", "a"], True, "0 o 4")
    truth(s, [("p", 0), ("p", 0), "o", "a"], False, "0 o 0")
    truth(s, [("p", 0), "a", ("p", 9), "o"], True, "a then o")
    truth(s, [("k", 7), ("k", 5), "o", "a"], True, "7 or 5")
    truth(s, [("k", 7), ("k", 5), "a", "a"], False, "7 and 5")


def stars(s):
    s.fresh()
    look = ["=", "a"]
    truth(s, [("p", B), "*", ("p", 0x03020100)] + look, True, "low-order first")
    truth(s, [("p", B), "*", ("p", 0x00010203)] + look, False, "not high-order first")
    truth(s, [("p", B + 1), "*", ("p", 0x04030201)] + look, True, "at any alignment")
    truth(s, [("p", 4120), "*", ("p", 0x1B1A1918)] + look, True, "plain under its own trap")
    truth(s, [("p", 4117), "*", ("p", 0x18171615)] + look, True, "one byte under the trap")
    truth(s, [("p", 4121), "*", ("p", 0x1C1B1A19)] + look, True, "the other byte")
    truth(s, [("p", END - 4), "*", ("p", 0x3F3E3D3C)] + look, True, "the last word")
    truth(s, [("p", END - 4), "*", ("p", 0)] + look, False, "the last word is not 0")
    for address in (END - 3, END, B - 1, B - 4, 0, 132, 136, LAST, LAST - 3):
        truth(s, [("p", address), "*", ("p", 0), "a", "a"], True, f"* outside at {address}")
    truth(s, ["*", ("p", 0), "a"], True, "* of the final b reads address 1: outside")
    truth(s, [("p", 0), "a", "*"], True, "* of 0")
    truth(s, [("p", B), "*", "*", ("p", 0), "a", "a"], True, "** leaves the window")
    s.ask(tmput(B, "04100000"), WRITTEN, "a pointer to 4,100")
    truth(s, [("p", B), "*", "*", ("p", 0x07060504)] + look, True, "** in the window")
    truth(s, [("p", B), "*", "*", ("p", 0xFF), "&", ("p", 4)] + look, True, "masked")
    s.ask(tmput(B, "00000000"), WRITTEN, "zeros")
    truth(s, [("p", B), "*", "a"], False, "* reads 0")
    truth(s, [("p", B - 4), "*", ("p", B), "*", "a", "a"], True, "the first * outside decides")
    truth(s, [("p", B), "*", ("p", B - 4), "*", "a", "a"], True, "a later one too")


def stars_over_writes(s):
    s.fresh()
    s.plant(1, [("p", 4103), "*", ("p", 0xA2A10807), "=", "a"], 4104, "looks at its own site")
    s.plant(2, [], 4106, "another trap beside")
    s.trap(5, 4104, passed("0809"), "not yet")
    s.ask(tmput(4105, "a1a2"), WRITTEN, "write under both traps")
    s.trap(5, 4104, stop(1), "now it is true")
    s.ask(tmput(4105, "09"), WRITTEN, "write again")
    s.trap(7, 4104, passed("0809"), "not for 7 any more")
    s.trap(7, 4106, stop(2), "7 stops at the other one")


# ---- Stopping, starting, events, restarts. ----

def stop_and_start(s):
    s.fresh()
    s.schedule(5, 4104, NO, "no stop is wanted")
    s.ask(ask_pid(TSTOP, 5), MARKED, "Tstop")
    s.schedule(7, 4104, NO, "not of 7")
    s.schedule(5, 4104, YES, "5 stops")
    s.ask(ask_pid(TSTATUS, 5), rstatus("Stopped"), "it is Stopped")
    s.schedule(5, 4106, NO, "a Stopped one answers no")
    s.ask(ask_pid(TPROC, 5), rproc("80001000"), "make it current")
    s.ask(tmget(132, 4), rmget("00001008"), "its block was saved once")
    s.ask(ask_pid(TSTOP, 5), MARKED, "Tstop of a Stopped one")
    s.start(5, "", "Tstart")
    s.ask(ask_pid(TSTATUS, 5), rstatus("Ready"), "it is Ready")
    s.schedule(5, 4104, NO, "no mark was left")
    s.ask(ask_pid(TSTOP, 5), MARKED, "Tstop")
    s.start(5, "", "Tstart cancels it")
    s.schedule(5, 4104, NO, "no stop is wanted")
    s.ask(ask_pid(TSTOP, 7), MARKED, "Tstop 7")
    s.state(7, 4, ACCEPTED, "a state event keeps the mark")
    s.ask(ask_pid(TSTATUS, 7), rstatus("Running"), "7 is Running")
    s.schedule(7, 0, YES, "7 stops")
    s.start(7, "", "start 7")
    s.ask(ask_pid(TSTATUS, 7), rstatus("Ready"), "Ready, not Running")
    s.state(7, 200, ACCEPTED, "another state")
    s.start(7, "", "Tstart of one that is not Stopped")
    s.ask(ask_pid(TSTATUS, 7), rstatus("c8"), "its state stays")


def marks(s):
    s.fresh()
    s.plant(1, [("k", 7), "a"], 4104, "a breakpoint for 7")
    s.ask(ask_pid(TSTOP, 5), MARKED, "Tstop 5")
    s.trap(5, 4104, passed("0809"), "5 passes")
    s.schedule(5, 4104, YES, "Pass keeps the mark")
    s.ask(ask_pid(TSTOP, 7), MARKED, "Tstop 7")
    s.trap(7, 4104, stop(1), "7 stops at the breakpoint")
    s.start(7, "0809", "start 7")
    s.schedule(7, 4104, NO, "no mark was left")
    s.ask(ask_pid(TSTOP, 7), MARKED, "Tstop 7")
    s.restart("restart clears marks")
    s.schedule(7, 4104, NO, "no stop is wanted")


def second_stops(s):
    """A continue at a site keeps the breakpoint: only d and restart remove it."""
    s.fresh()
    s.plant(1, [], 4104, "a breakpoint")
    s.trap(5, 4104, stop(1), "5 stops")
    s.trap(7, 4104, stop(1), "7 too")
    s.ask(cond("n", 9), TAKEN, "a condition in hand")
    s.start(5, "0809", "start 5 at the breakpoint")
    s.ask(ask_pid(TSTATUS, 7), rstatus("Stopped"), "7 stays Stopped")
    s.ask(ask_pid(TSTATUS, 5), rstatus("Ready"), "5 is Ready")
    s.ask(cond("b", 4112), TAKEN, "the condition in hand stayed")
    for first in (0x50, 0x60):
        s.trap(5, 4104, stop(1), "5 stops again at the same breakpoint", first)
        s.start(5, "0809", "and goes on again")
    s.ask(tmget(4104, 2), rmget("0809"), "a read has the plain bytes")
    s.ask(tmput(4105, "a1a2"), WRITTEN, "write under the trap")
    s.start(7, "08a1", "start 7: the bytes written")
    s.trap(7, 4104, stop(1), "7 stops again")
    s.ask(tmput(4104, "0290"), WRITTEN, "the trap's own bytes under the trap")
    s.start(7, "0290", "those are the plain ones then")
    s.trap(7, 4104, stop(1), "7 stops once more")
    s.ask(cond("d", 1), TAKEN, "the breakpoint goes")
    s.start(7, "", "start 7: none is there")
    s.trap(7, 4104, NO_SITE, "it is gone")
    s.trap(5, 4112, stop(9), "5 stops at the other one")
    s.restart("every breakpoint goes, 5 is Ready")
    s.start(5, "", "5 is not Stopped, and none is there")
    s.trap(5, 4112, NO_SITE, "it is gone")


def continues_beside(s):
    s.fresh()
    s.plant(1, [], 4104, "a breakpoint")
    s.plant(2, [], 4110, "another")
    for pc in (4102, 4103, 4105, 4106, 4108, 4112, 0, 0x00100800, 0x10081008, LAST):
        s.ask(ask_pid(TSTOP, 5), MARKED, "Tstop 5")
        s.schedule(5, pc, YES, f"5 stops at {pc}")
        s.start(5, "", f"no breakpoint is at {pc}")
    s.trap(5, 4104, stop(1), "5 stops at the first")
    s.trap(7, 4110, stop(2), "7 stops at the other")
    s.start(7, "0e0f", "start 7: by its own block")
    s.start(5, "0809", "start 5: by its own block")


def continues_written(s):
    s.fresh()
    s.plant(1, [], 4104, "a breakpoint")
    s.plant(2, [], 4110, "another")
    for data, plain, comment in (
            ("0000100e", "0e0f", "its pc becomes 4,110"), ("0000100a", "", "its pc becomes 4,106"),
            ("00001008", "0809", "its pc is written as it was"), ("10001008", "", "its pc is high above")):
        s.trap(5, 4104, stop(1), "5 stops at the first")
        s.ask(ask_pid(TPROC, 5), rproc("80001000"), "make 5 current")
        s.ask(tmput(132, data), WRITTEN, comment)
        s.start(5, plain, f"{comment}: start 5")
    s.trap(5, 4110, stop(2), "5 stops at the other")
    s.ask(tmput(135, "08"), WRITTEN, "the last byte of its pc")
    s.start(5, "0809", "start 5 at the first")
    s.trap(5, 4110, stop(2), "5 stops at the other")
    s.ask(tmput(128, "00001008"), WRITTEN, "status, not pc")
    s.start(5, "0e0f", "start 5 at the other")


def continues_scheduled(s):
    s.fresh()
    s.plant(1, [("k", 7), "a"], 4104, "a breakpoint that never stops 5")
    s.ask(ask_pid(TSTOP, 5), MARKED, "Tstop 5")
    s.schedule(5, 4104, YES, "a schedule event stops 5 at the site")
    s.start(5, "0809", "start 5: whatever stopped it, whatever the condition")
    s.trap(5, 4104, passed("0809"), "5 passes")
    s.ask(ask_pid(TSTOP, 5), MARKED, "Tstop 5")
    s.schedule(5, 4120, YES, "a schedule event stops 5 elsewhere")
    s.plant(2, [], 4120, "a breakpoint comes to where it is")
    s.start(5, "1819", "start 5: it is at a site now")


def continues_not_stopped(s):
    s.fresh()
    s.plant(1, [], 4104, "a breakpoint")
    s.trap(5, 4104, stop(1), "5 stops")
    s.start(5, "0809", "start 5")
    s.start(5, "", "start 5 again: Ready, its saved pc still at the site")
    s.ask(ask_pid(TSTOP, 5), MARKED, "Tstop 5")
    s.start(5, "", "a mark is no stop")
    s.state(5, 200, ACCEPTED, "another state")
    s.start(5, "", "which is not Stopped either")
    s.ask(ask_pid(TSTATUS, 5), rstatus("c8"), "its state stays")
    s.start(7, "", "7 has not been Stopped")
    s.ask(ask_pid(TSTART, 6), PID, "an unlisted pid")
    s.ask(changed(ask_pid(TSTART, 5), 9), INVAL, "an unused byte")
    s.trap(5, 4104, stop(1), "5 stops")
    s.ask(ask_pid(TSTART, 6), PID, "an unlisted pid: no bytes")
    s.ask(changed(ask_pid(TSTART, 5), 5), INVAL, "an unused byte: no bytes")
    s.start(5, "0809", "5 was Stopped all along")


def numbers(s):
    s.fresh()
    s.plant(1, [], 4104, "a breakpoint")
    for pid in (0, 1, 6, 0x05000000, LAST):
        s.trap(pid, 4104, UNLISTED, f"trap of pid {pid}")
        s.trap(pid, 4106, UNLISTED, "unlisted before no site")
        s.schedule(pid, 4104, UNLISTED, f"schedule of pid {pid}")
        s.state(pid, READY, UNLISTED, f"state of pid {pid}")
        s.state(pid, STOPPED, UNLISTED, "unlisted before value 8")
    for pc in (0, 4102, 4103, 4105, 4106, 0x00100800, LAST):
        s.trap(5, pc, NO_SITE, f"no site at {pc}")
    s.state(5, STOPPED, IS_STOPPED, "no state event gives 8")
    s.trap(5, 4104, stop(1), "5 stops")
    s.trap(5, 4104, IS_STOPPED, "a trap of a Stopped process")
    s.trap(5, 4106, IS_STOPPED, "Stopped before no site")
    s.state(5, READY, IS_STOPPED, "a state event of a Stopped process")
    s.state(5, STOPPED, IS_STOPPED, "also with value 8")
    s.ask(ask_pid(TSTATUS, 5), rstatus("Stopped"), "it is Stopped")
    s.state(7, READY, ACCEPTED, "7 is not")


def restarts(s):
    s.fresh()
    s.restart("without any breakpoint")
    s.restart("and again")
    s.plant(1, [], 4104, "a breakpoint")
    s.trap(5, 4104, stop(1), "5 stops")
    s.state(7, 6, ACCEPTED, "7 is Wakeme")
    s.ask(ask_pid(TPROC, 5), rproc("80001000"), "make 5 current")
    s.ask(tmput(4, "fedcba98"), WRITTEN, "write a register")
    s.ask(cond("n", 2), TAKEN, "a condition in hand")
    s.restart("with all of that")
    s.ask(cond("b", 4106), INVAL, "nothing is in hand")
    s.ask(tmget(4, 4), PID, "none is current")
    s.ask(ask_pid(TSTATUS, 5), rstatus("Ready"), "Stopped became Ready")
    s.ask(ask_pid(TSTATUS, 7), rstatus("Wakeme"), "another state stays")
    s.trap(5, 4104, NO_SITE, "no breakpoint")
    s.ask(tmget(4102, 5), rmget("060708090a"), "memory is plain")
    s.ask(ask_pid(TSTOP, 7), MARKED, "Tstop 7")
    s.schedule(7, 4104, YES, "7 stops", first=0x80)
    s.restart("the register area stays")
    s.ask(ask_pid(TPROC, 7), rproc("80002000"), "make 7 current")
    s.ask(tmget(4, 4), NOTSTOP, "7 is Ready")
    s.ask(ask_pid(TSTATUS, 7), rstatus("Ready"), "Ready, not Wakeme")


SECTIONS = (
    worked_memory, worked_removal, worked_processes, worked_conditions, worked_continue,
    types, counts, addresses, pids, states,
    registers_refused, registers_read, registers_written, registers_of_two,
    three_sites, trap_alike, window_ends,
    letters, nothing_in_hand, idents, sites, lacking_values, seventeenth,
    sixty_fifth, all_places, places_by_d, places_in_hand, places_by_restart, full_table,
    primaries, operators, stars, stars_over_writes,
    stop_and_start, marks, second_stops, continues_beside, continues_written, continues_scheduled,
    continues_not_stopped, numbers, restarts,
)


# ---- The reference. ----

def built(name):
    """The program of a Rust crate, without a registry."""
    target = ROOT / "rust" / "target"
    subprocess.run(["cargo", "build", "--release", "--offline", "--quiet", "--manifest-path",
                    str(ROOT / "rust" / name / "Cargo.toml"), "--target-dir", str(target)], check=True)
    return str(target / "release" / name)


@functools.cache
def reference():
    return built("reference")


def answers(data):
    """What the reference writes for this input."""
    return subprocess.run([reference()], input=data, stdout=subprocess.PIPE, check=True).stdout


def random_steps():
    """Steps of the generator, which itself looks that nothing reachable is lacking."""
    return subprocess.run([built("steps"), str(SEED), str(RANDOM_STEPS), "--stats"], check=True,
                          stdout=subprocess.PIPE, stderr=subprocess.DEVNULL).stdout


def check_steps(steps, output):
    """Each step of the script has written what its call says."""
    place = 0
    for number, (step, wanted, comment) in enumerate(steps):
        given = output[place:place + len(wanted)]
        if given != wanted:
            sys.exit(f"step {number} ({comment}): {step[:14].hex(' ')}\n"
                     f"  wanted {wanted.hex(' ')}\n  given  {given.hex(' ')}")
        place += len(wanted)
    if place != len(output):
        sys.exit(f"the reference writes {len(output)} bytes, {place} are wanted")


def check_ends(cut):
    """The example of 01, and how a run ends."""
    example = raw("00 03 04 05 06 07 00 00 00 00 00 00 01 72 65 73 65 74 00 00 00 00")
    assert len(example) == 22
    assert answers(raw("01 02 00001004 04 00000000 05")) == example
    assert answers(b"") == b""
    for kind in (0, 6, 7, 128, 255):
        assert answers(b"\x05" + bytes([kind]) + b"\x05" * 200) == b"\x00" + RESET + b"\xff"
    for length in (1, 2, len(cut)):
        assert answers(b"\x05" + cut[:length]) == b"\x00" + RESET


# ---- The stored files. ----

def make_files():
    """The four files, by path, and what they are."""
    script = Script()
    for section in SECTIONS:
        section(script)
    directed = b"".join(step for step, _, _ in script.steps)
    cut = (bytes([TRAP]) + word(5) + block(4104))[:-1]
    check_ends(cut)
    check_steps(script.steps, answers(directed))
    files = {}
    for name, data in (("program_main", directed + cut), ("program_random", random_steps())):
        folder = ROOT / "crates" / name
        files[folder / "stdin"] = data
        files[folder / "stdout"] = answers(data)
    said = f"{len(script.steps)} directed steps and a cut one, {RANDOM_STEPS} random ones"
    return files, said


if __name__ == "__main__":
    sys.exit(stored.run(make_files))
