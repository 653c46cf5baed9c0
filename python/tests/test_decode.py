"""Logs and captures, told."""

from __future__ import annotations

from pathlib import Path
from typing import Callable

from conftest import Ran

from sanirvoq import messages
from sanirvoq.frames import frame


def test_a_log_is_kept_and_told(command: Callable[..., Ran], tmp_path: Path) -> None:
    assert command("--head", "practice", "--log", "mill.log", "write", "0x1009", "aa", "bb").status == 0
    lines = (tmp_path / "mill.log").read_text().splitlines()
    assert any(line.endswith("> 040000100902aabb0000  Tmput: write aa bb at 0x1009")
               for line in lines)
    ran = command("decode", "mill.log")
    assert ran.status == 0 and "mill.log as log:" in ran.out and "Tmput: write aa bb at 0x1009" in ran.out
    (tmp_path / "mill.log").write_text("2026-11-17T20:00:00.000 > 10000000036400000000  something else\nfrog\n")
    ran = command("decode", "mill.log")
    assert "Tcondbreak: delete breakpoint 3" in ran.out and "line 2 is no line of a log: frog" in ran.out


def test_captures_are_told(command: Callable[..., Ran], tmp_path: Path) -> None:
    ask, answer = messages.encode(messages.read(0x1004, 4)), bytes.fromhex("03040506070000000000")
    bad = bytearray(frame(3, ask))
    bad[20] ^= 1
    (tmp_path / "frames.bin").write_bytes(b"boot\n" + frame(1, ask) + b"left 412 mm\n" + frame(1, answer) + bytes(bad))
    (tmp_path / "blocks.bin").write_bytes(ask + answer + b"\x01\x02")
    ran = command("decode", "frames.bin")
    assert [line.split(maxsplit=1)[1] for line in ran.out.splitlines()[1:]] == [
        f"sequence   1  {ask.hex()}  Tmget: read 4 at 0x1004",
        f"sequence   1  {answer.hex()}  Rmget: bytes 04 05 06 07 00 00 00 00 00",
        "a packet with a bad body, sequence 3"]
    ran = command("decode", "blocks.bin")
    assert "blocks.bin as blocks:" in ran.out and "Tmget: read 4 at 0x1004" in ran.out and "cut: 2 of 10" in ran.out
    assert command("decode", "none.bin").status == 2
