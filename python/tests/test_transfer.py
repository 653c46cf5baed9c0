"""Long reads and writes: interrupted, resumed, refused on the way."""

from __future__ import annotations

from pathlib import Path

import pytest
from conftest import PLAIN, Pair

from sanirvoq import Differs, LineError, Refused, transfer
from sanirvoq.cli.bench import Bench, Options
from sanirvoq.cli.output import Output
from sanirvoq.cli.table import execute
from sanirvoq.errors import CommandError
from sanirvoq.messages import Kind, decode, rerr


class Broken:
    """An exchange that works up to a number of requests of a kind, then fails as it is told."""

    def __init__(self, inner: object, kind: Kind, count: int, failure: object) -> None:
        self._inner, self._kind, self._left, self._failure = inner, kind, count, failure

    def __getattr__(self, name: str) -> object:
        return getattr(self._inner, name)

    def ask(self, request: bytes, repeatable: bool, asked: int = 9) -> tuple[bytes, int]:
        if decode(request).kind is self._kind:
            self._left -= 1
            if self._left < 0 and isinstance(self._failure, BaseException):
                raise self._failure
            if self._left == -1 and isinstance(self._failure, bytes):
                return self._failure, 1
        return self._inner.ask(request, repeatable, asked)  # type: ignore[attr-defined,no-any-return]


def bench_over(pair: Pair) -> Bench:
    bench = Bench(Options(head="practice"), Output())
    bench._head = pair.head
    return bench


def spoil(pair: Pair, kind: Kind, count: int, failure: object) -> object:
    whole = pair.head.exchange
    pair.head.exchange = Broken(whole, kind, count, failure)  # type: ignore[assignment]
    return whole


@pytest.mark.parametrize("failure", [LineError("no answer", known=False), KeyboardInterrupt()])
def test_a_save_goes_on_where_it_was_interrupted(pair: Pair, tmp_path: Path, failure: BaseException) -> None:
    bench, path = bench_over(pair), tmp_path / "dump.bin"
    whole = spoil(pair, Kind.TMGET, 40, failure)
    with pytest.raises(LineError, match="give the same command again"):
        execute(bench, f"save 0x1000 1000 {path}")
    part = path.with_name("dump.bin.part").stat().st_size
    assert 0 < part < 1000 and not path.exists()
    pair.head.exchange = whole  # type: ignore[assignment]
    before = len(pair.sent())
    _, result = execute(bench, f"save 0x1000 1000 {path}")
    assert result.data["resumed"] == part and f"resumed at byte {part}" in str(result.shown[0])
    assert path.read_bytes() == PLAIN[:1000]
    assert len(pair.sent()) - before <= (1000 - part) // 9 + 40
    assert sorted(one.name for one in tmp_path.iterdir()) == ["dump.bin"]


def test_another_stretch_does_not_resume(pair: Pair, tmp_path: Path) -> None:
    bench, path = bench_over(pair), tmp_path / "dump.bin"
    whole = spoil(pair, Kind.TMGET, 40, LineError("no answer"))
    with pytest.raises(LineError):
        execute(bench, f"save 0x1000 1000 {path}")
    pair.head.exchange = whole  # type: ignore[assignment]
    _, result = execute(bench, f"save 0x1010 900 {path}")
    assert result.data["resumed"] == 0 and path.read_bytes() == PLAIN[16:916]


@pytest.mark.parametrize("failure", [LineError("no answer", known=False), KeyboardInterrupt()])
def test_a_write_interrupted_in_the_middle_and_resumed(pair: Pair, tmp_path: Path, failure: BaseException) -> None:
    bench, path = bench_over(pair), tmp_path / "new.bin"
    new = bytes(255 - byte for byte in PLAIN[:400])
    path.write_bytes(new)
    whole = spoil(pair, Kind.TMPUT, 30, failure)
    with pytest.raises(LineError, match="120 of 400 bytes were confirmed.*resume"):
        execute(bench, f"write 0x1010 file {path}")
    assert pair.memory()[16:416] == new[:120] + PLAIN[136:416]
    pair.head.exchange = whole  # type: ignore[assignment]
    before = len(pair.sent())
    _, result = execute(bench, f"write 0x1010 file {path} resume")
    assert result.data["sent"] == 280 and pair.memory()[16:416] == new
    assert sum("Tmput" in one for one in pair.sent()[before:]) == 70


def test_a_refusal_on_the_way_puts_the_old_bytes_back(pair: Pair) -> None:
    bench = bench_over(pair)
    spoil(pair, Kind.TMPUT, 5, rerr("unsup"))
    with pytest.raises(Refused, match="protected.*20 bytes written before it were put back"):
        execute(bench, "fill 0x1010 40 0xee")
    assert pair.memory() == PLAIN


@pytest.mark.parametrize("line", ["write 0x13fc aabbccddee", "fill 0x1300 500 1", "write 0xffe aabbccdd",
                                  "write 0x20 aa", "write 0xffffffff aabb"])
def test_a_write_that_leaves_the_window_changes_nothing(pair: Pair, line: str) -> None:
    with pytest.raises(CommandError):
        execute(bench_over(pair), line)
    assert pair.memory() == PLAIN and not any("Tmput" in one for one in pair.sent())


def test_a_told_protected_stretch_is_left_alone(pair: Pair) -> None:
    bench = bench_over(pair)
    execute(bench, "protected 0x1020 0x1024")
    for line in ("write 0x101d aabbccdd", "write 0x1023 aa", "fill 0x1000 1024 0"):
        with pytest.raises(CommandError, match="laser power"):
            execute(bench, line)
    execute(bench, "write 0x101c aabbccdd")
    execute(bench, "write 0x1024 aa")
    assert pair.memory()[0x20:0x24] == PLAIN[0x20:0x24]


def test_what_is_read_back_is_compared(pair: Pair) -> None:
    spoil(pair, Kind.TMPUT, 0, bytes([Kind.RMPUT]) + bytes(9))
    with pytest.raises(Differs, match="1 of 1 bytes|4 of 4 bytes"):
        transfer.write(pair.head, 0x1000, b"\xaa\xbb\xcc\xdd")


def test_progress_goes_up_to_the_end(pair: Pair) -> None:
    seen: list[tuple[int, int]] = []
    assert transfer.read(pair.head, 0x1000, 100, lambda done, total: seen.append((done, total))) == PLAIN[:100]
    assert seen[-1] == (100, 100) and seen == sorted(seen)
