"""How ten bytes and their reply travel: in frames, as bare blocks, or as steps of the program of document 01."""

from __future__ import annotations

import time
from dataclasses import dataclass, field
from typing import Callable, Protocol

from .errors import LineError
from .frames import RESTART, Answer, FrameReader, Packet, frame
from .lines import LineReader
from .links import Link, drain
from .log import Log
from .messages import SIZE, Kind, Message, encode, read, rerr


@dataclass
class Settings:
    """How long an answer may take, and how often a request that may be repeated is sent again."""

    seconds: float = 1.0
    tries: int = 5


@dataclass
class Counts:
    """What the line did since it was opened."""

    sent: int = 0
    again: int = 0
    bad: int = 0
    resynchronised: int = 0


@dataclass
class Notices:
    """Who is told of what the head says unasked: a restart, and lines of its own log."""

    restarted: list[Callable[[], None]] = field(default_factory=list)
    said: list[Callable[[str], None]] = field(default_factory=list)


class Exchange(Protocol):
    counts: Counts
    notices: Notices

    def ask(self, request: bytes, repeatable: bool, asked: int = 9) -> tuple[bytes, int]:
        """The reply, and how often the request was sent."""

    def text(self, request: bytes) -> bytes: ...

    def restart(self) -> str:
        """Asks a head to practise with for a restart: the protocol has no such request."""

    def close(self) -> None: ...


def unanswered(tries: int, repeatable: bool) -> LineError:
    if repeatable:
        return LineError(f"no answer from the head ({tries} tries): is it switched on, and is the line the right one?",
                         known=False)
    return LineError("no whole answer came, and this request is never sent twice: whether the head carried it out is "
                     "not known", known=False)


class FrameExchange:
    """Requests and replies as packets of 26 bytes. Text lines travel between the packets, ended by a line feed."""

    def __init__(self, link: Link, log: Log, settings: Settings) -> None:
        self._link, self._log, self._settings = link, log, settings
        self._reader = FrameReader()
        self._sequence = 0
        self._lines = LineReader()
        self._resets = 0
        self.counts = Counts()
        self.notices = Notices()

    def ask(self, request: bytes, repeatable: bool, asked: int = 9) -> tuple[bytes, int]:
        most = self._settings.tries if repeatable else 1
        waited: set[int] = set()
        self._take_backlog()
        for tries in range(1, most + 1):
            self._sequence = (self._sequence + 1) % 256
            waited.add(self._sequence)
            self._log.message(">", request, asked)
            self.counts.sent += 1
            self._link.send(frame(self._sequence, request))
            reply = self._await_reply(waited, repeatable)
            if reply is not None:
                self._log.message("<", reply, asked)
                return reply, tries
            if tries < most:
                self.counts.again += 1
                self._log.note("no whole answer: the request is sent again")
        raise unanswered(most, repeatable)

    def _take_backlog(self) -> None:
        """What the head said since the last request, so that the wait for a reply begins with the reply."""
        end = time.monotonic() + self._settings.seconds
        while (piece := self._link.receive(0)) and time.monotonic() < end:
            self._take_lines(piece)
            for packet in self._reader.feed(piece):
                self._is_reply(packet, set())

    def _await_reply(self, waited: set[int], repeatable: bool) -> bytes | None:
        """The reply to one of our tries; nothing where none comes in time. Where the request may be sent again, a bad
        packet ends the wait; else a good one may still come."""
        end = time.monotonic() + self._settings.seconds
        while (left := end - time.monotonic()) > 0:
            piece = self._link.receive(left)
            packets = self._reader.feed(piece)
            self._take_lines(piece)
            for packet in packets:
                if self._is_reply(packet, waited):
                    return packet.body
            if repeatable and any(packet.kind is not Answer.PACKET for packet in packets):
                return None
        return None

    def _is_reply(self, packet: Packet, waited: set[int]) -> bool:
        """Whether a packet is the reply that is waited for; what else it is goes to the log."""
        if packet.kind is not Answer.PACKET:
            self.counts.bad += 1
            self._log.note("a packet came back bad")
            return False
        if packet.request and packet.body == rerr("reset"):
            self._log.message("<", packet.body)
            self._resets += 1
            for told in self.notices.restarted:
                told()
            return False
        if not packet.request or packet.sequence not in waited:
            self._log.note(f"a packet that was not waited for (sequence {packet.sequence}) is dropped")
            return False
        return True

    def _take_lines(self, piece: bytes) -> None:
        """Lines of text between the packets: what the head says by itself."""
        for line in self._lines.feed(piece):
            self._hear(line)

    def _hear(self, line: str) -> None:
        self._log.note(f"the head says: {line}")
        for told in self.notices.said:
            told(line)

    def text(self, request: bytes) -> bytes:
        """A text request as a line between the packets; the reply is the line with the same PID and letter."""
        self._take_backlog()  # a late reply must not be taken for this one's: texts carry no sequence
        self._log.text(">", request)
        self.counts.sent += 1
        self._link.send(request + b"\n")
        head = b" ".join(request.split(b" ")[:2]) + b" "
        end = time.monotonic() + self._settings.seconds
        while (left := end - time.monotonic()) > 0:
            piece = self._link.receive(left)
            self._reader.feed(piece)
            for line in self._lines.feed(piece):
                if line.encode().startswith(head):
                    self._log.text("<", line.encode())
                    return line.encode()
                self._hear(line)
        raise LineError("no text reply: this head may not speak the text dialect, or the line lost it", known=False)

    def restart(self) -> str:
        """Asks a head to practise with for a restart."""
        self._take_backlog()
        self._log.note("a restart is asked for")
        self._link.send(RESTART)
        before = self._resets
        end = time.monotonic() + self._settings.seconds
        while (left := end - time.monotonic()) > 0:
            piece = self._link.receive(left)
            self._take_lines(piece)
            for packet in self._reader.feed(piece):
                self._is_reply(packet, set())
            if self._resets > before:
                return "Rerr reset"
        raise LineError("the head did not restart: only heads to practise with do so on request", known=False)

    def close(self) -> None:
        self._link.close()


class BlockExchange:
    """Bare blocks of ten bytes. Nothing guards them: a lost byte is seen by the missing answer only."""

    def __init__(self, link: Link, log: Log, settings: Settings) -> None:
        self._link, self._log, self._settings = link, log, settings
        self._waiting = False
        self.counts = Counts()
        self.notices = Notices()

    def ask(self, request: bytes, repeatable: bool, asked: int = 9) -> tuple[bytes, int]:
        if self._waiting:  # somebody interrupted the last request: its reply must not be taken for this one's
            self.resynchronise()
        most = self._settings.tries if repeatable else 1
        for tries in range(1, most + 1):
            self._log.message(">", request, asked)
            self.counts.sent += 1
            self._waiting = True
            self._link.send(request)
            reply = self._receive_block()
            if reply is not None:
                self._waiting = False
                self._log.message("<", reply, asked)
                return reply, tries
            self.resynchronise()
            self.counts.again += tries < most
        raise unanswered(most, repeatable)

    def _receive_block(self) -> bytes | None:
        """Ten bytes, in time; blocks of Rerr reset, which are no replies, are taken off first."""
        end, data = time.monotonic() + self._settings.seconds, b""
        while (left := end - time.monotonic()) > 0:
            data += self._link.receive(left)
            while data.startswith(rerr("reset")):
                self._log.message("<", data[:SIZE])
                data = data[SIZE:]
                for told in self.notices.restarted:
                    told()
            if len(data) >= SIZE:
                return data[:SIZE]
        return None

    def resynchronise(self) -> None:
        """Zeros, one at a time, until Rerr unk comes back whole: then the head is between two requests. That no zero
        is left over is seen by a read of no bytes, which changes nothing."""
        self._log.note("a byte was lost: zeros are sent until the head answers Rerr unk")
        self.counts.resynchronised += 1
        quiet = min(0.05, self._settings.seconds)
        drain(self._link, quiet)
        data = b""
        for _ in range(6 * SIZE):
            self._link.send(b"\0")
            data += drain(self._link, quiet)
            if data.endswith(rerr("unk")):
                self._link.send(encode(read(0, 0)))
                if self._receive_block() == encode(Message(Kind.RMGET)):
                    self._log.note("the head is between two requests again")
                    self._waiting = False
                    return
                data = b""
        raise LineError("no answer from the head, not even to zeros: is it switched on, and is the line the right one?",
                        known=False)

    def restart(self) -> str:
        raise LineError("a line of bare blocks has no way to ask for a restart: use frames")

    def text(self, request: bytes) -> bytes:
        raise LineError("a line of bare blocks carries no text dialect: use frames")

    def close(self) -> None:
        self._link.close()
