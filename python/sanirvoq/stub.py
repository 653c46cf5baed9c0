"""The stub itself, as a kernel calls it: a record over lent memory. The practice head and patch plans stand on it."""

from __future__ import annotations

import ctypes
from dataclasses import dataclass
from typing import NamedTuple

from .errors import CallError
from .library import buffer, call
from .structures import PLACES, Entry, Target
from .texts import LONGEST

BLOCK = 136
STOP, PASS = 1, 2
NUMBERS = {
    1: "a rule of the setup is broken", 2: "a buffer has the wrong size", 3: "the record is not fit",
    4: "unlisted pid", 5: "the process is Stopped", 6: "no breakpoint has its site at the pc", 10: "no text packet",
    11: "the buffer for a text is too short",
}


@dataclass(frozen=True)
class Setup:
    """A window at base with these bytes, processes as pid and Proc address, and the protected stretch."""

    base: int
    memory: bytes
    processes: tuple[tuple[int, int], ...]
    protected: tuple[int, int] | None = None


class Result(NamedTuple):
    """What a step answers: its number, its answer and two more bytes (sanirvoq_answer, first and second)."""

    number: int
    answer: int
    first: int
    second: int


class Stub:
    """A record, its memory and its registers."""

    def __init__(self, setup: Setup) -> None:
        self.target = Target(base=setup.base, size=len(setup.memory), count=len(setup.processes))
        for place, (pid, address) in zip(self.target.processes, setup.processes):
            place.pid, place.address = pid, address
        self.places = (ctypes.c_uint32 * (2 * PLACES))()
        self.memory = buffer(setup.memory)
        self.registers = buffer(BLOCK * len(setup.processes))
        self._lent = (self.memory, len(setup.memory), self.registers, BLOCK * len(setup.processes))
        self._setup(setup)

    def _setup(self, setup: Setup) -> None:
        low, high = setup.protected or (setup.base, setup.base)
        result = call("sanirvoq_step_setup")(ctypes.byref(self.target), *self._lent, low, high)
        if result & 0xFF:
            raise CallError("sanirvoq_step_setup", result & 0xFF, NUMBERS.get(result & 0xFF, "refused"))

    def _step(self, name: str, pid: int, value: int, given: bytes, reply: ctypes.Array[ctypes.c_char],
              length: int) -> Result:
        result = call(f"sanirvoq_step_{name}")(*self.lent(), pid, value, buffer(given), len(given), reply, length)
        return Result(*result.to_bytes(4, "little"))

    def lent(self) -> tuple[object, ...]:
        """The record and what is lent to every call that has one."""
        return (ctypes.byref(self.target), self.places, *self._lent)

    def request(self, request: bytes) -> tuple[Result, bytes]:
        """A request of ten bytes and its reply; the result is Pass where a process goes on at a breakpoint."""
        reply = buffer(10)
        result = self._step("request", 0, 0, request, reply, 10)
        self._demand("request", result)
        return result, reply.raw[:10]

    def text(self, request: bytes) -> bytes:
        """A text request and its reply."""
        reply = buffer(LONGEST)
        result = self._step("text", 0, 0, request, reply, LONGEST)
        self._demand("text", result)
        return reply.raw[:result.first]

    def trap(self, pid: int, block: bytes) -> Result:
        return self._step("trap", pid, 0, block, buffer(0), 0)

    def schedule(self, pid: int, block: bytes) -> bool:
        result = self._step("schedule", pid, 0, block, buffer(0), 0)
        self._demand("schedule", result)
        return result.answer == STOP

    def state(self, pid: int, value: int) -> Result:
        return self._step("state", pid, value, b"", buffer(0), 0)

    def restart(self) -> bytes:
        reply = buffer(10)
        self._demand("restart", self._step("restart", 0, 0, b"", reply, 10))
        return reply.raw[:10]

    def _demand(self, name: str, result: Result) -> None:
        if result.number != 0:
            raise CallError(f"sanirvoq_step_{name}", result.number, NUMBERS.get(result.number, "refused"))

    def entries(self) -> list[Entry]:
        """The breakpoints that stand."""
        return [entry for entry in self.target.table.entries if entry.used]
