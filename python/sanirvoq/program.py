"""The program of document 01 as a head: requests, and the kernel's events, as steps (docs/PROTOCOL.md, "The program").

Only its requests are the host's business. The events are the practice's: they say what the processes do.
"""

from __future__ import annotations

import time

from .errors import LineError
from .exchange import Counts, Notices, Settings
from .links import Link, drain
from .log import Log
from .messages import SIZE, Kind
from .stub import BLOCK, PASS

REQUEST, TRAP, SCHEDULE, STATE, RESTART = 1, 2, 3, 4, 5
NUMBERS = {3: "its record is not fit", 4: "unlisted pid", 5: "the process is Stopped, or state 8",
           6: "no breakpoint there"}


class ProgramExchange:
    """Requests as steps of kind 1. Pipes lose nothing, so nothing is sent twice."""

    def __init__(self, link: Link, log: Log, settings: Settings) -> None:
        self._link, self._log, self._settings = link, log, settings
        self._held = b""
        self._waiting = False
        self.counts = Counts()
        self.notices = Notices()

    def ask(self, request: bytes, repeatable: bool, asked: int = 9) -> tuple[bytes, int]:
        if self._waiting:  # somebody interrupted the last request: its reply must not be taken for this one's
            drain(self._link, 0.1)
            self._held = b""
        self._log.message(">", request, asked)
        self.counts.sent += 1
        self._waiting = True
        self._link.send(bytes([REQUEST]) + request)
        self._number("the request")
        reply = self._take(SIZE)
        self._waiting = False
        if reply[0] == Kind.RSTART:
            self._drop_pass()
        self._log.message("<", reply, asked)
        return reply, 1

    def _drop_pass(self) -> None:
        """Behind an Rstart the kernel may be told of the bytes to run: 02 and two bytes, at once and for it alone."""
        if not self._held:
            self._held = self._link.receive(0.05)
        if self._held[:1] == bytes([PASS]):
            self._log.note(f"for the kernel: run {self._take(3)[1:].hex(' ')} elsewhere")

    def text(self, request: bytes) -> bytes:
        raise LineError("the program of document 01 does not speak the text dialect: use `practice`")

    def trap(self, pid: int, pc: int) -> str:
        """A process runs into the trap at pc, all its other registers zero."""
        self._event(TRAP, pid, bytes(BLOCK - 4) + pc.to_bytes(4, "big"))
        answer = self._take(1)[0]
        return f"Pass {self._take(2).hex(' ')}" if answer == PASS else f"Stop {self._take(1)[0]}"

    def schedule(self, pid: int, pc: int) -> str:
        """The kernel is about to run a process."""
        self._event(SCHEDULE, pid, bytes(BLOCK - 4) + pc.to_bytes(4, "big"))
        return "yes" if self._take(1)[0] else "no"

    def state(self, pid: int, value: int) -> str:
        self._event(STATE, pid, bytes([value]))
        return "accepted"

    def restart(self) -> str:
        self._link.send(bytes([RESTART]))
        self._number("the restart")
        self._log.message("<", self._take(SIZE))
        for told in self.notices.restarted:
            told()
        return "Rerr reset"

    def _event(self, kind: int, pid: int, body: bytes) -> None:
        self._log.note(f"event {kind} of process {pid}")
        self._link.send(bytes([kind]) + pid.to_bytes(4, "big") + body)
        self._number("the event")

    def _number(self, what: str) -> None:
        number = self._take(1)[0]
        if number != 0:
            raise LineError(f"the program refused {what} with number {number}: {NUMBERS.get(number, 'unknown')}")

    def _take(self, count: int) -> bytes:
        end = time.monotonic() + self._settings.seconds
        while len(self._held) < count:
            left = end - time.monotonic()
            if left <= 0:
                raise LineError("the program does not answer", known=False)
            self._held += self._link.receive(left)
        data, self._held = self._held[:count], self._held[count:]
        return data

    def close(self) -> None:
        self._link.close()
