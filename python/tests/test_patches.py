"""Patches: the plan is the fewest writes there can be, the checker accepts it, and what is sent is what was meant."""

from __future__ import annotations

import functools
import json
import random
from pathlib import Path
from typing import Callable

import pytest
from conftest import PLAIN, Pair, Ran
from terminal import Person
from test_transfer import bench_over, spoil

from sanirvoq import CommandError, Differs, LineError, Refused
from sanirvoq.cli.table import execute
from sanirvoq.messages import Kind, rerr
from sanirvoq.patches import Write, check, plan
from sanirvoq.stub import Setup, Stub

BASE = 0x1000


def fewest(found: bytes, wanted: bytes, protected: tuple[int, int]) -> int:
    """The least number of writes of at most four bytes, off protected ones, that cover what differs: tried all."""
    @functools.cache
    def from_byte(at: int) -> int:
        while at < len(found) and found[at] == wanted[at]:
            at += 1
        if at == len(found):
            return 0
        covers = [(low, high) for low in range(at - 3, at + 1) for high in range(at + 1, low + 5)
                  if low >= 0 and high <= len(found) and not (low < protected[1] and high > protected[0])]
        return 1 + min(from_byte(high) for _, high in covers)
    return from_byte(0)


def test_no_list_is_shorter() -> None:
    chance = random.Random(4)
    lengths = set()
    for _ in range(400):
        size = 4 * chance.randrange(1, 9)
        low = 4 * chance.randrange(size // 4 + 1)
        high = 4 * chance.randrange(low // 4, size // 4 + 1)
        found = bytes(chance.randrange(256) for _ in range(size))
        wanted = bytes(byte if low <= at < high or chance.random() < 0.6 else chance.randrange(256)
                       for at, byte in enumerate(found))
        made = plan(BASE, found, wanted, (BASE + low, BASE + high))
        memory = bytearray(found)
        for one in made.writes:
            at = one.address - BASE
            assert 1 <= len(one.data) <= 4 and (at + len(one.data) <= low or at >= high or low == high)
            memory[at:at + len(one.data)] = one.data
        assert memory == wanted
        assert len(made.writes) == fewest(found, wanted, (low, high) if low < high else (size, size))
        lengths.add(len(made.writes))
    assert len(lengths) > 4


def test_a_difference_in_the_protected_stretch() -> None:
    with pytest.raises(CommandError, match="laser power limits.*first at 0x1006"):
        plan(BASE, bytes(16), bytes(6) + b"\x01\x01" + bytes(8), (BASE + 4, BASE + 8))


def test_the_checker() -> None:
    stub = Stub(Setup(BASE, bytes(16), ((1, 0),), (BASE + 8, BASE + 12)))
    wanted = b"abcd" + bytes(12)
    check(stub, [Write(BASE, b"abcd")], wanted)
    check(stub, [Write(BASE, b"abxx"), Write(BASE + 2, b"cd")], wanted)
    for writes, told in (([Write(BASE + 2, b"cd"), Write(BASE, b"abxx")], "do not give"), ([], "do not give"),
                         ([Write(BASE, b"abcd"), Write(BASE + 7, b"ab")], "write 1 "),
                         ([Write(BASE, b"")], "write 0 "), ([Write(BASE + 14, b"abcd")], "write 0 "),
                         ([Write(0xFFFFFFFF, b"ab")], "write 0 ")):
        with pytest.raises(Differs, match=told):
            check(stub, writes, wanted)


def image_file(tmp_path: Path, data: bytes) -> Path:
    path = tmp_path / "new.bin"
    path.write_bytes(data)
    return path


def test_across_a_breakpoint(pair: Pair, tmp_path: Path, capfd: pytest.CaptureFixture[str]) -> None:
    """An image at an odd address and of an odd length, over a trap."""
    bench = bench_over(pair)
    bench.options.yes = True
    execute(bench, "break 3 at 0x1008")
    new = bytearray(PLAIN[5:26])
    new[3:5], new[12] = b"\xaa\xbb", 0xCC
    _, result = execute(bench, f"patch {image_file(tmp_path, bytes(new))} at 0x1005")
    assert result.data["writes"] == 2 and result.data["bytes"] == 3
    said = capfd.readouterr().out
    assert "3 bytes to change, in 2 runs:" in said and "no list with fewer does it" in said
    assert "2 bytes of it under breakpoint 3 (believed)" in said
    assert pair.memory()[8:10] == b"\x02\x90" and pair.head.read(0x1005, 21) == new
    execute(bench, "delete 3")
    assert pair.memory()[5:26] == new and pair.memory()[:5] + pair.memory()[26:] == PLAIN[:5] + PLAIN[26:]
    assert sum("Tmput" in one for one in pair.sent()) == 2
    _, result = execute(bench, f"patch {tmp_path}/new.bin at 0x1005")
    assert result.data["sent"] is False and "nothing to send" in str(result.shown[0])


def test_only_what_changes_under_a_trap_is_counted(pair: Pair, tmp_path: Path,
                                                   capfd: pytest.CaptureFixture[str]) -> None:
    bench = bench_over(pair)
    bench.options.yes = True
    execute(bench, "break 3 at 0x1008")
    execute(bench, "break 4 at 0x1010")
    image = image_file(tmp_path, PLAIN[:9] + b"\xaa" + PLAIN[10:20])
    execute(bench, f"patch {image} at 0x1000")
    assert "1 byte of it under breakpoint 3 (believed)" in capfd.readouterr().out


def test_a_refusal_takes_the_patch_back(pair: Pair, tmp_path: Path) -> None:
    bench = bench_over(pair)
    bench.options.yes = True
    whole = spoil(pair, Kind.TMPUT, 3, rerr("unsup"))
    with pytest.raises(Refused, match="the 3 writes before it were taken back"):
        execute(bench, f"patch {image_file(tmp_path, bytes(64))} at 0x1020")
    pair.head.exchange = whole  # type: ignore[assignment]
    assert pair.memory() == PLAIN


def test_interrupted_and_given_again(pair: Pair, tmp_path: Path) -> None:
    bench = bench_over(pair)
    bench.options.yes = True
    path = image_file(tmp_path, bytes(64))
    whole = spoil(pair, Kind.TMPUT, 7, LineError("no answer", known=False))
    with pytest.raises(LineError, match="7 of 16 writes were confirmed.*same command again"):
        execute(bench, f"patch {path} at 0x1040")
    pair.head.exchange = whole  # type: ignore[assignment]
    _, result = execute(bench, f"patch {path} at 0x1040")
    assert result.data["writes"] == 9 and pair.memory()[64:128] == bytes(64)


def test_asked_at_the_prompt(tmp_path: Path) -> None:
    image_file(tmp_path, b"frog")
    person = Person(tmp_path, "practice")
    person.await_prompt()
    for answer, told in (("n", "nothing was sent"), ("", "nothing was sent"), ("y", "4 bytes changed by 1 write")):
        person.writes("patch new.bin at 0x1010")
        person.child.send("\r")
        assert person.sees(lambda: person.row().endswith("send 1 write? [y/N] ")), person.text()
        asked = person.screen.cursor.y
        person.child.send(answer + "\r")
        person.await_prompt(below=asked)
        assert told in "\n".join(person.screen.display[asked:person.screen.cursor.y])
    assert "66 72 6f 67" in person.types("read 0x1010 4")
    person.is_gone()


def test_json_and_nobody_to_ask(command: Callable[..., Ran], tmp_path: Path) -> None:
    image_file(tmp_path, b"frog")
    ran = command("--head", "practice", "--json", "--yes", "patch", "new.bin", "at", "0x1010")
    told = json.loads(ran.out)
    assert ran.status == 0 and told["writes"] == 1 and told["runs"] == [{"address": 0x1010, "length": 4}]
    ran = command("--head", "practice", "patch", "new.bin", "at", "0x1010")
    assert ran.status == 2 and "nothing was sent" in ran.err
