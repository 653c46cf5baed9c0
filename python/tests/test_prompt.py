"""The prompt in a real terminal, as a person sits at it."""

from __future__ import annotations

import re
import time
from pathlib import Path
from typing import Iterator

import pytest
from terminal import PROMPT, Person

from sanirvoq import Head


@pytest.fixture
def person(tmp_path: Path) -> Iterator[Person]:
    made = Person(tmp_path, "practice")
    made.await_prompt()
    assert "the proved stub over 1,024 bytes" in made.text() and "its window is 0x1000 to 0x13ff" in made.text()
    yield made
    made.is_gone()


def test_the_mission(person: Person) -> None:
    assert "breakpoint 3 stands at 0x1008 if pid == 7" in person.types("break 3 at 0x1008 if pid == 7")
    assert "process 7 is Stopped at 0x1008, breakpoint 3 (believed)" in person.types("wait 7")
    assert "1 byte of it under breakpoint 3 (believed)" in person.types("write 0x1009 aa bb cc")
    assert "0x00001008  08 aa bb cc" in person.types("read 0x1008 4")
    assert "a0 of process 7 was" in person.types("set a0 = 99 of 7")
    assert "process 7 goes on" in person.types("continue 7")
    assert "is gone" in person.types("delete 3")
    assert "0x00001008  08 aa bb cc" in person.types("read 0x1008 4")
    assert person.leaves()[0] == 0


def test_a_caret_stands_under_the_fault(person: Person) -> None:
    seen = person.types("break 3 at 0x1009")
    assert seen.index("^") == len(PROMPT) + len("break 3 at ") and "has to be even" in seen
    assert "no breakpoint of this side stands" in person.types("list")


def test_mistakes_do_not_end_it(person: Person) -> None:
    assert "did you mean read?" in person.types("raed 0x1000 4")
    assert "the head refused (pid)" in person.types("status 9")
    assert "0x00001000  00 01" in person.types("read 0x1000 2")


def test_completion(person: Person) -> None:
    person.child.send("regi\t")
    assert person.sees(lambda: person.row() == "practice> registers"), person.text()
    person.child.send(" 7")
    assert person.sees(lambda: person.row() == "practice> registers 7")
    assert "notstop" in person.enters()
    person.child.send("set s1\t")
    assert person.sees(lambda: "s10" in person.text() and "s11" in person.text())
    person.child.send("\x15")
    assert person.sees(lambda: person.row() == PROMPT)


def test_history_of_earlier_sessions(person: Person, tmp_path: Path) -> None:
    person.types("read 0x1004 4")
    assert person.leaves()[0] == 0
    again = Person(tmp_path, "practice")
    again.await_prompt()
    again.child.send("\x1b[A")
    assert again.sees(lambda: again.row() == "practice> read 0x1004 4")
    assert "04 05 06 07" in again.enters()
    again.is_gone()


def test_help(person: Person) -> None:
    assert "break ID at ADDRESS [if CONDITION]" in person.types("help")
    assert "word[ADDRESS]" in person.types("help break")


def test_text_mode(person: Person) -> None:
    person.types("text", "text> ")
    assert "0x0 i 0x0 0x7060504" in person.types("0x0 i 0x1004 0x0", "text> ")
    assert "was 0x7060504 and is 0xdeadbeef" in person.types("I 0x1004 0xdeadbeef", "text> ")
    assert "errno 22" in person.types("i 0x1001", "text> ")
    person.enters()
    assert "ef be ad de" in person.types("read 0x1004 4")


def test_it_says_what_is_left_behind(person: Person) -> None:
    person.types("break 3 at 0x1100")
    status, said = person.leaves()
    assert status == 0 and "1 breakpoint still stands on the head" in said


def test_a_restart_is_told(person: Person) -> None:
    person.types("break 3 at 0x1100")
    assert "no breakpoint stands any more (1 stood, as far as known)" in person.types("restart")
    assert "no breakpoint of this side stands" in person.types("list")


def test_interrupted(person: Person, tmp_path: Path) -> None:
    """Ctrl-C at a line that is being typed drops it; while an answer is waited for, it brings the prompt."""
    person.writes("read 0x10")
    person.child.sendintr()
    person.await_prompt(below=person.screen.cursor.y)
    assert "00 01" in person.types("read 0x1000 2")
    dead = Person(tmp_path, "--timeout", "30", "--head", "program:sleep 60")
    dead.looks(2)
    time.sleep(1)
    dead.child.sendintr()
    dead.await_prompt("head> ")
    dead.is_gone()


def test_noise(tmp_path: Path) -> None:
    """A session over a bad cable goes as over a good one, and `line` says how often it asked again."""
    noisy = Person(tmp_path, "--timeout", "0.1", "--tries", "20", "practice", "--noise", "0.004", "--seed", "3")
    noisy.await_prompt()
    assert "0x00001030  30 31 32 33 34 35 36 37 38 39 3a 3b 3c 3d 3e 3f" in noisy.types("read 0x1000 64")
    again = re.search(r"(\d+) of them again", noisy.types("line"))
    assert again and int(again.group(1)) > 0
    noisy.is_gone()


def test_the_program(tmp_path: Path, program: Head) -> None:
    """The program of document 01, its processes moved by hand."""
    at = Person(tmp_path, "practice", "program")
    at.await_prompt()
    at.types("break 4 at 0x1008 if pid == 7")
    assert "Pass 08 09" in at.types("event trap 5 at 0x1008")
    assert "Stop 4" in at.types("event trap 7 at 0x1008")
    assert "process 7 is Stopped at 0x1008, breakpoint 4 (believed)" in at.types("wait 7")
    assert "restarted" in at.types("restart")
    at.is_gone()
