"""Lines that lose, garble, double and delay: what is asked again, and what never is."""

from __future__ import annotations

import pytest
from conftest import PLAIN, practised

from sanirvoq import Head, Line, LineError, Refused, Settings, connect
from sanirvoq.breakpoints import parse
from sanirvoq.condition import Element
from sanirvoq.exchange import BlockExchange, FrameExchange
from sanirvoq.frames import FrameReader, frame
from sanirvoq.log import Log
from sanirvoq.messages import Kind, condition, decode, encode, of_process, read, rerr, write
from sanirvoq.noise import Noise
from sanirvoq.practice import Kernel, practice_setup, service
from sanirvoq.repeat import is_repeatable

QUICK = Settings(seconds=0.05, tries=20)


class BadLine:
    """A line to a practice head that spoils what it is told to: a function takes the number of a request, or of a
    reply, and its bytes, and gives what arrives."""

    def __init__(self, blocks: bool = False, request=None, reply=None) -> None:  # type: ignore[no-untyped-def]
        self.kernel = Kernel(practice_setup())
        self._take = service(self.kernel, blocks)
        self._request = request or (lambda number, data: data)
        self._reply = reply or (lambda number, data: data)
        self._back = b""
        self.sent: list[bytes] = []
        self._answered = 0

    def send(self, data: bytes) -> None:
        self.sent.append(data)
        back = self._take(self._request(len(self.sent), data))
        if back:
            self._answered += 1
            self._back += self._reply(self._answered, back)

    def receive(self, seconds: float) -> bytes:
        piece, self._back = self._back[:7], self._back[7:]
        return piece

    def close(self) -> None:
        pass

    def requests(self) -> list[str]:
        """What was sent, by kind and letter."""
        reader = FrameReader()
        messages = [decode(packet.body) for data in self.sent for packet in reader.feed(data)]
        return [one.kind.title + one.op for one in messages]


def head_over(line: BadLine, blocks: bool = False) -> Head:
    kind = BlockExchange if blocks else FrameExchange
    return Head(kind(line, Log(), Settings(0.02, 4)))


def lose(*numbers: int):  # type: ignore[no-untyped-def]
    return lambda number, data: b"" if number in numbers else data


def test_what_may_be_repeated() -> None:
    safe = [read(0, 1), write(0x1000, b"a"), condition("n", 3), condition("d", 3),
            *(of_process(kind, 5) for kind in (Kind.TPROC, Kind.TSTATUS, Kind.TRNOTE, Kind.TSTOP))]
    never = [of_process(Kind.TSTART, 5), *(condition(op) for op in "kp*&=!aob")]
    assert all(is_repeatable(one) for one in safe)
    assert not any(is_repeatable(one) for one in never)


@pytest.mark.parametrize("spoiled", ["request", "reply"])
def test_a_lost_read_is_asked_again(spoiled: str) -> None:
    line = BadLine(**{spoiled: lose(1)})
    assert head_over(line).read(0x1000, 4) == PLAIN[:4]
    assert line.requests() == ["Tmget", "Tmget"]


def test_a_bad_packet_is_asked_for_again() -> None:
    line = BadLine(reply=lambda number, data: data[:20] + b"\x81" + data[21:] if number == 1 else data)
    head = head_over(line)
    assert head.read(0x1000, 4) == PLAIN[:4]
    marks = [entry.split(" ", 1)[1] for entry in head.exchange._log.lines]  # type: ignore[attr-defined]
    assert [mark[0] for mark in marks] == [">", "#", "#", ">", "<"] and "sent again" in marks[2]
    assert head.exchange.counts.bad == 1 and head.exchange.counts.again == 1


@pytest.mark.parametrize("spoiled", ["request", "reply"])
def test_a_lost_continue_is_never_sent_again(spoiled: str) -> None:
    line = BadLine(**{spoiled: lose(1)})
    with pytest.raises(LineError, match="never sent twice") as caught:
        head_over(line).start(7)
    assert not caught.value.known
    assert line.requests() == ["Tstart"]


@pytest.mark.parametrize("number", range(1, 6))
@pytest.mark.parametrize("spoiled", ["request", "reply"])
def test_a_breakpoint_with_any_part_lost(spoiled: str, number: int) -> None:
    """n, k, p, &, b: whichever is lost, the breakpoint stands once, with its condition as it was meant."""
    elements = (Element("k", 7), Element("a"))
    line = BadLine(**{spoiled: lose(number)})
    head_over(line).set_breakpoint(3, 0x1100, elements)
    [entry] = line.kernel.stub.entries()
    assert (entry.id, entry.site, entry.count) == (3, 0x1100, 2)
    assert list(line.kernel.stub.places[:4]) == [ord("k"), 7, ord("a"), 0]


def test_a_lost_answer_to_b_is_told_by_n() -> None:
    line = BadLine(reply=lose(2))
    head_over(line).set_breakpoint(3, 0x1100)
    assert line.requests() == ["Tcondbreakn", "Tcondbreakb", "Tcondbreakn"]


def test_a_lost_answer_to_d() -> None:
    line = BadLine(reply=lose(3))
    head = head_over(line)
    head.set_breakpoint(3, 0x1100)
    head.delete_breakpoint(3)
    assert line.requests()[-2:] == ["Tcondbreakd", "Tcondbreakd"] and not line.kernel.stub.entries()
    with pytest.raises(Refused):
        head.delete_breakpoint(3)


def test_a_dead_line_says_so() -> None:
    line = BadLine(request=lambda number, data: b"")
    with pytest.raises(LineError, match="4 tries"):
        head_over(line).read(0x1000, 1)
    with pytest.raises(LineError, match="not even to zeros"):
        head_over(BadLine(True, request=lambda number, data: b""), blocks=True).read(0x1000, 1)


@pytest.mark.parametrize("seed", range(4))
def test_noise_on_a_line_of_frames(seed: int) -> None:
    """Everything that is safe to repeat comes through, whole, whatever the line does."""
    noise = Noise(lose=0.004, garble=0.004, double=0.002, delay=0.002, seed=seed)
    head = connect("practice", Line(settings=Settings(0.05, 40), noise=noise))
    assert head.read(0x1000, 300) == PLAIN[:300]
    head.write(0x1201, bytes(range(100, 160)))
    assert head.read(0x1200, 62) == b"\x00" + bytes(range(100, 160)) + bytes([61])
    assert head.exchange.counts.again > 0


def test_breakpoints_over_a_noisy_line() -> None:
    """Whatever is lost: a breakpoint that is said to stand stands once, with its condition as it was meant."""
    found = parse("break 3 at 0x1100 if pid == 7 and word[0x1008] == 0x0b0a0908")
    meant = [number for one in found.elements for number in (ord(one.op), one.value)]
    stood = again = 0
    for seed in range(12):
        pair = practised(settings=QUICK, noise=Noise(lose=0.002, garble=0.002, double=0.001, seed=seed))
        try:
            pair.head.set_breakpoint(found.ident, found.site, found.elements)
        except LineError as error:
            assert "not known" in str(error)
            continue
        [entry] = pair.kernel.stub.entries()
        assert (entry.id, entry.site, entry.count) == (3, 0x1100, len(found.elements))
        assert list(pair.kernel.stub.places[:len(meant)]) == meant
        stood += 1
        again += pair.sent().count("Tcondbreak: begin breakpoint 3") > 1
    assert stood >= 10 and again >= 3


def test_answers_that_are_later_than_the_patience() -> None:
    """An answer to an earlier try of the same request counts, so a slow line is slow and no more."""
    pair = practised(settings=Settings(0.03, 60), noise=Noise(delay=0.05, seed=5))
    assert pair.head.read(0x1000, 90) == PLAIN[:90]
    assert pair.head.exchange.counts.again > 0


@pytest.mark.parametrize("place", range(10))
def test_a_lost_byte_of_a_bare_request(place: int) -> None:
    """Whichever byte of a read is lost, zeros bring the head back between two requests."""
    line = BadLine(True, request=lambda number, data: data[:place] + data[place + 1:] if number == 2 else data)
    head = head_over(line, blocks=True)
    assert head.read(0x1000, 9) + head.read(0x1009, 9) + head.read(0x1012, 3) == PLAIN[:21]
    assert head.exchange.counts.resynchronised >= 1


@pytest.mark.parametrize("place", range(10))
def test_a_lost_byte_of_a_bare_reply(place: int) -> None:
    line = BadLine(True, reply=lambda number, data: data[:place] + data[place + 1:] if number == 2 else data)
    head = head_over(line, blocks=True)
    assert head.read(0x1000, 9) + head.read(0x1009, 9) + head.read(0x1012, 3) == PLAIN[:21]


def test_bare_continue_is_never_sent_again() -> None:
    line = BadLine(True, reply=lose(1))
    with pytest.raises(LineError, match="never sent twice"):
        head_over(line, blocks=True).start(7)
    assert line.sent.count(encode(of_process(Kind.TSTART, 7))) == 1


class Scripted:
    """A line that brings these bytes after the first request."""

    def __init__(self, data: bytes) -> None:
        self.data = b""
        self._later = data

    def send(self, data: bytes) -> None:
        self.data, self._later = self.data + self._later, b""

    def receive(self, seconds: float) -> bytes:
        piece, self.data = self.data[:5], self.data[5:]
        return piece

    def close(self) -> None:
        pass


def test_what_the_head_says_unasked() -> None:
    reply = bytes([Kind.RMPUT]) + bytes(9)
    data = b"left 412 mm\r\n" + frame(77, rerr("reset")) + frame(200, reply) + b"laser 45 mW\n" + frame(1, reply)
    exchange = FrameExchange(Scripted(data), Log(), Settings(0.2, 1))
    said: list[str] = []
    exchange.notices.said.append(said.append)
    exchange.notices.restarted.append(lambda: said.append("restarted"))
    Head(exchange).put(0x1000, b"a")
    assert said == ["left 412 mm", "restarted", "laser 45 mW"]


def test_a_reset_before_a_bare_reply() -> None:
    data = rerr("reset") + bytes([Kind.RMPUT]) + bytes(9)
    exchange = BlockExchange(Scripted(data), Log(), Settings(0.2, 1))
    told: list[int] = []
    exchange.notices.restarted.append(lambda: told.append(1))
    Head(exchange).put(0x1000, b"a")
    assert told == [1]


def test_an_interrupted_request_does_not_shift_replies() -> None:
    """After Ctrl-C between a bare request and its reply, the next request gets its own reply."""
    pair = practised(blocks=True)
    exchange = pair.head.exchange
    link = exchange._link  # type: ignore[attr-defined]
    receive = link.receive
    link.receive = lambda seconds: (_ for _ in ()).throw(KeyboardInterrupt())
    with pytest.raises(KeyboardInterrupt):
        pair.head.read(0x1000, 4)
    link.receive = receive
    assert pair.head.read(0x1010, 4) == PLAIN[16:20]
