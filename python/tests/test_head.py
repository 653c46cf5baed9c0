"""What a head can do, and each refusal in words."""

from __future__ import annotations

import pytest
from conftest import Pair

from sanirvoq import Head, Refused, TextRefused
from sanirvoq import texts, window
from sanirvoq.messages import condition
from sanirvoq.registers import NAMES, number_of


def stopped(pair: Pair, pid: int = 7) -> None:
    pair.head.stop(pid)
    assert pair.head.is_stopped(pid)


def test_the_mission(pair: Pair) -> None:
    """A breakpoint, a write across it, its removal: the write is there."""
    head = pair.head
    head.set_breakpoint(3, 0x1008)
    assert pair.memory()[8:12] == bytes.fromhex("02900a0b")
    head.write(0x1009, bytes.fromhex("aabbcc"))
    assert pair.memory()[8:12] == bytes.fromhex("0290bbcc") and head.read(0x1008, 4) == bytes.fromhex("08aabbcc")
    head.delete_breakpoint(3)
    assert pair.memory()[8:12] == bytes.fromhex("08aabbcc")


def test_registers(pair: Pair) -> None:
    stopped(pair)
    values = pair.head.registers(7)
    assert list(values) == list(NAMES) and values["sp"] == 0x80002400
    pair.head.set_register(7, number_of("a1") or 0, 0xDEADBEEF)
    pair.head.set_register(7, number_of("pc") or 0, 0x1010)
    after = pair.head.registers(7)
    assert (after["a1"], after["pc"]) == (0xDEADBEEF, 0x1010)


def test_register_names() -> None:
    assert [number_of(name) for name in ("zero", "ra", "fp", "s0", "a0", "t6", "status", "pc", "x31", "x32", "ax")] == [
        0, 1, 8, 8, 10, 31, 32, 33, 31, None, None]


def test_a_breakpoint_survives_continue(pair: Pair) -> None:
    pair.head.set_breakpoint(3, 0x1008)
    for _ in range(3):
        for _ in range(10):
            if pair.head.is_stopped(7):
                break
        assert pair.head.register(7, NAMES.index("pc")) == 0x1008
        pair.head.start(7)
        assert not pair.head.is_stopped(7)


REFUSALS = {
    "inval outside": (lambda head: head.read(0x900, 4), "inval", "window"),
    "inval zero": (lambda head: head.put(0, b"a"), "inval", "register zero"),
    "pid none current": (lambda head: head.read(4, 4), "pid", "no process is current"),
    "pid unlisted": (lambda head: head.status(6), "pid", "no such process"),
    "notstop": (lambda head: head.registers(7), "notstop", "not Stopped"),
    "n in use": (lambda head: [head.set_breakpoint(1, 0x1100), head.set_breakpoint(1, 0x1102)], "inval", "stands"),
    "b taken": (lambda head: [head.set_breakpoint(1, 0x1100), head.set_breakpoint(2, 0x1100)], "inval", "taken"),
    "b outside": (lambda head: head.set_breakpoint(1, 0x2000), "inval", "outside"),
    "full": (lambda head: [head.set_breakpoint(i, 0x1100 + 2 * i) for i in range(9)], "count", "eight"),
    "d unknown": (lambda head: head.delete_breakpoint(9), "inval", "no breakpoint has this id"),
    "element with nothing in hand": (lambda head: head.request(condition("k", 7)), "inval", "being built"),
}


@pytest.mark.parametrize("name", REFUSALS)
def test_each_refusal_in_words(pair: Pair, name: str) -> None:
    act, reason, meaning = REFUSALS[name]
    with pytest.raises(Refused) as caught:
        act(pair.head)
    assert caught.value.reason == reason and meaning in str(caught.value)
    assert caught.value.advice and "\n" not in str(caught.value)


def test_the_window_is_found(pair: Pair) -> None:
    assert window.guess(pair.head) == (0x1000, 1024)
    assert window.find(pair.head, 0x13FF) == (0x1000, 1024)
    assert window.find(pair.head, 0x1234) == (0x1000, 1024)


def test_processes_are_found(pair: Pair) -> None:
    assert pair.head.find_processes(range(1, 20)) == [5, 7]


def test_text_dialect(pair: Pair) -> None:
    ask = pair.head.text
    assert texts.response(ask(texts.TextPacket("i", 0x1004, 0))) == 0x07060504
    assert texts.response(ask(texts.TextPacket("I", 0x1004, 0xDEADBEEF))) == 0x07060504
    assert pair.head.read(0x1004, 4) == bytes.fromhex("efbeadde")
    for packet, errno in ((texts.TextPacket("i", 0x1005, 0), 22), (texts.TextPacket("i", 0x3000, 0), 14),
                          (texts.TextPacket("r", 33, 0), 3), (texts.TextPacket("c", 0, 0), 22),
                          (texts.TextPacket("i", 0x1004, 0, pid=5), 3)):
        with pytest.raises(TextRefused) as caught:
            texts.response(ask(packet))
        assert caught.value.errno == errno and caught.value.meaning


def test_the_program_of_01(program: Head) -> None:
    """01's cases 4 to 6 and 9, through the program."""
    program.set_breakpoint(3, 0x1008)
    program.write(0x1009, bytes.fromhex("aabbcc"))
    assert program.read(0x1008, 4) == bytes.fromhex("08aabbcc")
    program.delete_breakpoint(3)
    assert program.read(0x1008, 4) == bytes.fromhex("08aabbcc")
    assert window.guess(program) == (0x1000, 64)
    assert program.exchange.restart() == "Rerr reset"


def test_the_programs_events(program: Head) -> None:
    from sanirvoq.breakpoints import parse
    exchange = program.exchange
    program.set_breakpoint(4, 0x1008, parse("break 4 at 0x1008 if pid == 7").elements)
    assert exchange.trap(5, 0x1008) == "Pass 08 09"  # type: ignore[attr-defined]
    assert exchange.trap(7, 0x1008) == "Stop 4"  # type: ignore[attr-defined]
    assert program.registers(7)["pc"] == 0x1008
    program.start(7)
    assert program.status_name(7) == "Ready"
    program.stop(5)
    assert exchange.schedule(5, 0x1010) == "yes"  # type: ignore[attr-defined]
