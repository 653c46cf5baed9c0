"""The head of examples/head under qemu: real traps, real code, and the story of the mission."""

from __future__ import annotations

import shutil
from pathlib import Path
from typing import Callable, Iterator

import pytest
from conftest import REPOSITORY
from terminal import Person

from sanirvoq import connect, qemu, window

RULE = 0x8010006A
OLD, NEW = bytes.fromhex("13078020"), bytes.fromhex("13878702")


@pytest.fixture
def address(required: Callable[[bool, str], None]) -> Iterator[str]:
    required(shutil.which(qemu.EMULATOR) is not None, "apt-get update && apt-get install -y qemu-system-misc")
    required((REPOSITORY / qemu.IMAGE).is_file(), "make it with examples/head/build.sh")
    with qemu.running() as found:
        yield found


def test_what_the_head_has(address: str) -> None:
    with connect(address) as head:
        assert window.guess(head) == (0x80100000, 4096)
        assert head.find_processes(range(1, 10)) == [5, 7]
        assert head.read(RULE, 4) == OLD


def test_the_story(address: str, tmp_path: Path) -> None:
    """Glare at 505 mm passes for the log. New code goes across a breakpoint; the breakpoint goes; the code stays."""
    person = Person(tmp_path, "--head", address)
    person.await_prompt("head> ")

    def types(line: str) -> str:
        return person.types(line, "head> ")

    assert person.sees(lambda: "head: left 505 mm" in person.text())
    assert "breakpoint 3 stands at 0x8010006a" in types("break 3 at 0x8010006a if pid == 7")
    assert "process 7 is Stopped at 0x8010006a, breakpoint 3 (believed)" in types("wait 7")
    assert "2 bytes of it under breakpoint 3 (believed)" in types(f"write 0x8010006a {NEW.hex()}")
    types("status 5")
    assert person.sees(lambda: "head: left 412 mm" in person.text()), person.text()
    assert "is gone" in types("delete 3")
    assert "goes on" in types("continue 7")
    assert "13 87 87 02" in types("read 0x8010006a 4")
    assert "restarted" in types("restart")
    assert "13 87 87 02" in types("read 0x8010006a 4")
    person.is_gone()


def test_a_long_save_over_the_line(address: str, tmp_path: Path) -> None:
    """4,096 bytes, while the head goes on saying its lines between the packets."""
    person = Person(tmp_path, "--head", address)
    person.await_prompt("head> ")
    assert "4,096 bytes from 0x80100000 saved in all.bin" in person.types("save 0x80100000 4096 all.bin", "head> ")
    assert (tmp_path / "all.bin").read_bytes()[RULE - 0x80100000:][:4] == OLD
    person.is_gone()
