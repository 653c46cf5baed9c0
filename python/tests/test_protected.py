"""The protected stretch: the head refuses and nothing is changed; told of it, this side refuses before sending."""

from __future__ import annotations

import pytest
from conftest import PLAIN, Pair
from test_transfer import bench_over

from sanirvoq import Refused, TextRefused, texts
from sanirvoq.cli.table import execute, perform
from sanirvoq.practice import PROTECTED

LOW = PROTECTED[0]


def test_reads_are_free(pair: Pair) -> None:
    assert pair.head.read(LOW, 16) == PLAIN[-16:]


@pytest.mark.parametrize("address, data", [(LOW, b"a"), (LOW - 3, b"abcd"), (LOW + 15, b"a")])
def test_a_write_is_refused(pair: Pair, address: int, data: bytes) -> None:
    with pytest.raises(Refused, match="laser power limits") as caught:
        pair.head.put(address, data)
    assert caught.value.reason == "unsup" and pair.memory() == PLAIN


def test_a_breakpoint_is_refused(pair: Pair) -> None:
    with pytest.raises(Refused, match="laser power limits"):
        pair.head.set_breakpoint(3, LOW)
    assert pair.memory() == PLAIN


def test_a_text_write_is_refused(pair: Pair) -> None:
    with pytest.raises(TextRefused, match="protected") as caught:
        texts.response(pair.head.text(texts.TextPacket("I", LOW, 1)))
    assert caught.value.errno == 13 and pair.memory() == PLAIN


def test_a_long_write_into_it_is_taken_back(pair: Pair) -> None:
    with pytest.raises(Refused, match="the 32 bytes written before it were put back"):
        execute(bench_over(pair), f"fill {LOW - 32:#x} 40 0xee")
    assert pair.memory() == PLAIN


@pytest.mark.parametrize("line", ["write 0x13ee aabbccdd", "fill 0x1000 1024 0", "break 3 at 0x13f0"])
def test_told_of_it_nothing_is_sent(pair: Pair, line: str, capfd: pytest.CaptureFixture[str]) -> None:
    bench = bench_over(pair)
    execute(bench, "protected 0x13f0 0x1400")
    assert perform(bench, line) == 2 and "laser power limits" in capfd.readouterr().err
    assert pair.memory() == PLAIN and all(one.startswith("Tmget") for one in pair.sent())
