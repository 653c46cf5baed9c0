"""The worked session: what show_session runs where it is given no steps."""

from messages import TCONDBREAK, TMGET, TMPUT, TPROC, TSTART, TSTATUS, TSTOP
from session import REQUEST, RESTART, SCHEDULE, STATE, TRAP


def word(value):
    return value.to_bytes(4, "big")


def ask(kind, *fields):
    """A request: its type, its fields, and zeros up to ten bytes."""
    return bytes([REQUEST]) + (bytes([kind]) + b"".join(fields)).ljust(10, b"\x00")


def mget(address, n):
    return ask(TMGET, word(address), bytes([n]))


def mput(address, data):
    data = bytes.fromhex(data)
    return ask(TMPUT, word(address), bytes([len(data)]), data)


def of_pid(kind, pid):
    return ask(kind, word(pid))


def cond(letter, val=0):
    return ask(TCONDBREAK, word(val), letter.encode())


def event(kind, pid, pc):
    """A trap or schedule event: registers of zeros but for pc."""
    return bytes([kind]) + word(pid) + bytes(132) + word(pc)


def state(pid, value):
    return bytes([STATE]) + word(pid) + bytes([value])


RESTARTED = bytes([RESTART])

SESSION = [
    ("Reads, to the end of the window and past it", [
        mget(0x1004, 4), mget(0x1004, 10), mget(0x1037, 9), mget(0x1038, 9)]),
    ("A write across a standing breakpoint is there when the breakpoint goes", [
        cond("n", 3), cond("b", 0x1008), mget(0x1008, 2), mput(0x1009, "aabbcc"), mget(0x1008, 4), cond("d", 3),
        mget(0x1008, 4), RESTARTED, mput(0x1009, "090a0b")]),
    ("Processes and their states", [
        state(5, 9), of_pid(TSTATUS, 5), state(5, 12), of_pid(TSTATUS, 5), of_pid(TPROC, 5), of_pid(TPROC, 6)]),
    ("A breakpoint for process 7 only", [
        cond("n", 4), cond("k", 7), cond("a"), cond("b", 0x1008), event(TRAP, 5, 0x1008), event(TRAP, 7, 0x1008),
        RESTARTED]),
    ("A condition on memory reads what the program has there, not the trap", [
        cond("n", 4), cond("p", 0x1008), cond("*"), cond("p", 0x0B0A0908), cond("="), cond("a"), cond("b", 0x1008),
        event(TRAP, 5, 0x1008), RESTARTED]),
    ("A breakpoint stops again after a continue, which carries the bytes under it for the kernel", [
        cond("n", 4), cond("b", 0x1008), event(TRAP, 7, 0x1008), of_pid(TPROC, 7), mput(40, "00000063"),
        of_pid(TSTART, 7), event(TRAP, 7, 0x1008), cond("d", 4), of_pid(TSTART, 7), RESTARTED]),
    ("Stopping a process, its registers, and starting it again", [
        mget(0, 1), of_pid(TPROC, 5), mget(0, 1), of_pid(TSTOP, 5), event(SCHEDULE, 5, 0x1010), mget(132, 4),
        of_pid(TSTART, 5), of_pid(TSTATUS, 5)]),
    ("Refused: a condition that lacks a value, and a type that is none", [
        cond("n", 1), cond("a"), ask(20)]),
]
