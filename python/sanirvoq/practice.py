"""A head on this machine to practise with: the proved stub behind a line, and a kernel that only plays.

The stub is the library's. The kernel's processes run no instructions: the pc of each walks through a routine, two bytes
at a time, and takes the traps that stand there. It walks a fixed number of steps after every request, so a session
goes the same way every time.
"""

from __future__ import annotations

from dataclasses import dataclass
from typing import Callable

from .errors import CallError
from .frames import Answer, FrameReader, frame
from .lines import LineReader
from .messages import SIZE, Kind
from .registers import NAMES, PC
from .stub import BLOCK, PASS, STOP, Result, Setup, Stub

STEPS = 8
HALFWORD = 2
WINDOW = 1024
BASE = 0x1000
ROUTINE = (0x1000, 0x1040)
PROTECTED = (0x13F0, 0x1400)
PROCESSES = ((5, 0x80001000), (7, 0x80002000))


def practice_setup() -> Setup:
    """1,024 bytes at 0x1000, each its address's lowest byte; processes 5 and 7; the last 16 bytes protected."""
    return Setup(BASE, bytes(i & 0xFF for i in range(WINDOW)), PROCESSES, PROTECTED)


def worked_setup() -> Setup:
    """The worked setup of document 01: 64 bytes."""
    return Setup(BASE, bytes(range(64)), PROCESSES)


@dataclass
class Walker:
    """A process that plays: its registers, of which the pc walks and a0 counts the rounds."""

    pid: int
    index: int
    block: bytearray
    stopped: bool = False

    def get(self, number: int) -> int:
        return int.from_bytes(self.block[4 * number:4 * number + 4], "big")

    def set(self, number: int, value: int) -> None:
        self.block[4 * number:4 * number + 4] = (value & 0xFFFFFFFF).to_bytes(4, "big")

    def advance(self) -> None:
        """One instruction further; behind the routine's end it begins anew and the round is counted in a0."""
        pc = self.get(PC) + HALFWORD
        if not ROUTINE[0] <= pc < ROUTINE[1]:
            pc = ROUTINE[0]
            self.set(NAMES.index("a0"), self.get(NAMES.index("a0")) + 1)
        self.set(PC, pc)


class Kernel:
    """Owns the stub and its processes; the line hands it requests."""

    def __init__(self, setup: Setup) -> None:
        self.stub = Stub(setup)
        self.walkers = []
        for index, (pid, address) in enumerate(setup.processes):
            walker = Walker(pid, index, bytearray(BLOCK))
            walker.set(NAMES.index("sp"), address + 0x400)
            walker.set(PC, ROUTINE[0])
            self.walkers.append(walker)

    def request(self, request: bytes) -> bytes:
        """A request and its reply; then the processes run for a while."""
        result, reply = self.stub.request(request)
        if reply[0] == Kind.RSTART:
            self._go_on(int.from_bytes(request[1:5], "big"), result)
        self.run()
        return reply

    def text(self, request: bytes) -> bytes | None:
        """A text request and its reply; nothing where the bytes are no text packet."""
        try:
            return self.stub.text(request)
        except CallError:
            return None

    def restart(self) -> bytes:
        reply = self.stub.restart()
        for walker in self.walkers:
            walker.stopped = False
        return reply

    def _go_on(self, pid: int, result: Result) -> None:
        """A process that was let go takes its registers from the register area, as the host may have changed them."""
        for walker in self.walkers:
            if walker.pid == pid and walker.stopped:
                start = BLOCK * walker.index
                walker.block[:] = self.stub.registers.raw[start:start + BLOCK]
                walker.stopped = False
                if result.answer == PASS:
                    walker.advance()

    def run(self) -> None:
        """Each process that is not Stopped is scheduled once and walks some steps."""
        for walker in self.walkers:
            if walker.stopped:
                continue
            if self.stub.schedule(walker.pid, bytes(walker.block)):
                walker.stopped = True
            else:
                self._walk(walker)

    def _walk(self, walker: Walker) -> None:
        sites = {entry.site for entry in self.stub.entries()}
        for _ in range(STEPS):
            if walker.get(PC) in sites:
                result = self.stub.trap(walker.pid, bytes(walker.block))
                if result.number == 0 and result.answer == STOP:
                    walker.stopped = True
                    return
            walker.advance()


class FrameService:
    """The head's end of a line of frames, with text lines between them."""

    def __init__(self, kernel: Kernel) -> None:
        self._kernel = kernel
        self._reader = FrameReader()
        self._lines = LineReader()

    def take(self, piece: bytes) -> bytes:
        """What the head sends back for a piece of the line. A bad packet is answered with nothing."""
        back = b""
        for packet in self._reader.feed(piece):
            if packet.kind is Answer.PACKET and packet.request:
                back += frame(packet.sequence, self._kernel.request(packet.body))
            elif packet.kind is Answer.PACKET and packet.identifier & 0xFFFF8000 == 0x8000 and not packet.body:
                back += frame(packet.sequence, self._kernel.restart())
        for line in self._lines.feed(piece):
            reply = self._kernel.text(line.encode())
            back += reply + b"\n" if reply is not None else b""
        return back


class BlockService:
    """The head's end of a line of bare blocks."""

    def __init__(self, kernel: Kernel) -> None:
        self._kernel = kernel
        self._held = b""

    def take(self, piece: bytes) -> bytes:
        self._held += piece
        back = b""
        while len(self._held) >= SIZE:
            back += self._kernel.request(self._held[:SIZE])
            self._held = self._held[SIZE:]
        return back


Service = Callable[[bytes], bytes]


def service(kernel: Kernel, blocks: bool) -> Service:
    return BlockService(kernel).take if blocks else FrameService(kernel).take
