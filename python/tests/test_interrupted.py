"""Ctrl-C in the middle of a transfer, and a cable that is pulled: at the terminal, over a slow line."""

from __future__ import annotations

import re
import socket
import subprocess
import sys
from pathlib import Path
from typing import Iterator

import pytest
from conftest import PLAIN
from terminal import PROMPT, Person

NEW = bytes(255 - byte for byte in PLAIN[:400])
WATCHED = re.compile(r"(\d+)/\d+ B +[\d.]+ bytes/s +\d:\d\d:\d\d")


@pytest.fixture
def person(tmp_path: Path) -> Iterator[Person]:
    """A line on which every piece is up to 20 ms late."""
    (tmp_path / "new.bin").write_bytes(NEW)
    made = Person(tmp_path, "practice", "--delay", "0.02")
    made.await_prompt()
    yield made
    made.is_gone()


def interrupt(person: Person, line: str, doing: str) -> str:
    """Gives a command and Ctrl-C as soon as its progress is some way on, with rate and time left on the screen."""
    person.writes(line)
    begun = person.screen.cursor.y

    def some_way_on() -> bool:
        found = WATCHED.search(person.text())
        return doing in person.text() and found is not None and int(found.group(1)) > 60
    person.child.send("\r")
    assert person.sees(some_way_on), person.text()
    person.child.sendintr()
    person.await_prompt(PROMPT, begun)
    return "\n".join(person.screen.display[begun + 1:person.screen.cursor.y])


def test_a_write_is_interrupted_and_resumed(person: Person) -> None:
    said = interrupt(person, "write 0x1000 file new.bin", "writing")
    confirmed = re.search(r"(\d+) of 400 bytes were confirmed", said)
    assert confirmed and 0 < int(confirmed.group(1)) < 400 and "resume" in said
    said = person.types("write 0x1000 file new.bin resume")
    sent = re.search(r"(\d+) of 400 bytes were still to be written", said)
    assert sent and 400 - int(confirmed.group(1)) - 4 <= int(sent.group(1)) <= 400 - int(confirmed.group(1))
    assert "the head has the same 400 bytes" in person.types("diff new.bin at 0x1000")


def test_a_save_is_interrupted_and_resumed(person: Person, tmp_path: Path) -> None:
    assert "give the same command again" in interrupt(person, "save 0x1000 1000 all.bin", "saving all.bin")
    assert re.search(r"saved in all.bin, resumed at byte \d+", person.types("save 0x1000 1000 all.bin"))
    assert (tmp_path / "all.bin").read_bytes() == PLAIN[:1000]


def test_a_read_is_interrupted(person: Person) -> None:
    assert "interrupted" in interrupt(person, "dump", "reading")
    assert "00 01 02 03" in person.types("read 0x1000 4")


def served(port: int) -> subprocess.Popen[str]:
    process = subprocess.Popen([sys.executable, "-m", "sanirvoq", "practice", "--serve", str(port)],
                               stdout=subprocess.PIPE, text=True)
    assert process.stdout is not None and process.stdout.readline().startswith("tcp:")
    return process


def test_the_cable_is_pulled(tmp_path: Path) -> None:
    with socket.socket() as probe:
        probe.bind(("127.0.0.1", 0))
        port = probe.getsockname()[1]
    first = served(port)
    at = Person(tmp_path, "--head", f"tcp:127.0.0.1:{port}")
    at.await_prompt("head> ")
    first.kill()
    first.communicate()
    assert "line" in at.types("read 0x1000 4", "head> ")
    assert f"no head at 127.0.0.1:{port}" in at.types("read 0x1000 4", "head> ")
    second = served(port)
    assert "00 01 02 03" in at.types("read 0x1000 4", "head> ")
    at.is_gone()
    second.kill()
    second.communicate()
