"""The sessions of README.md, typed again at a terminal.

    python3 tests/transcripts.py [practice | qemu]     puts what is shown today into README.md

A fenced block `practice` is typed at `sanirvoq practice`, a block `qemu` at `sanirvoq practice qemu`. A line that
begins with `$ ` is a command of the shell, in the same folder. Times are not compared, nor when the head says its
lines.
"""

from __future__ import annotations

import os
import re
import subprocess
import sys
import tempfile
from pathlib import Path

from terminal import Person

README = Path(__file__).resolve().parents[1] / "README.md"
BLOCK = re.compile(r"^```(practice|qemu)\n(.*?)^```$", re.M | re.S)
QUESTION = "[y/N] "
TIME = re.compile(r"\b\d\d:\d\d:\d\d\b")


def blocks(kind: str) -> list[str]:
    return [match.group(2) for match in BLOCK.finditer(README.read_text(encoding="utf-8")) if match.group(1) == kind]


def commands(block: str, prompt: str) -> list[str]:
    """The lines that a person types."""
    return [line for line in block.splitlines() if line.startswith((prompt, "$ "))]


def typed(person: Person, line: str, prompt: str) -> list[str]:
    """Types a line, says y to its question, and gives what the screen shows of it."""
    person.writes(line)
    begun = person.screen.cursor.y
    person.child.send("\r")
    assert person.sees(lambda: person.screen.cursor.y > begun and
                       (person.row() == prompt or person.row().endswith(QUESTION))), person.text()
    if person.row().endswith(QUESTION):
        asked = person.screen.cursor.y
        person.child.send("y\r")
        person.await_prompt(prompt, asked)
    shown = person.screen.display[begun:person.screen.cursor.y]
    return [str(row).rstrip() for row in shown]


def session(kind: str, block: str, folder: Path) -> str:
    """The block as it goes today."""
    prompt = f"{kind}> "
    person = Person(folder, "practice", *([] if kind == "practice" else [kind]))
    person.await_prompt(prompt)
    lines = []
    for line in commands(block, prompt):
        if line.startswith("$ "):
            done = subprocess.run(line[2:], shell=True, cwd=folder, capture_output=True, text=True, check=True)
            lines += [line, *done.stdout.splitlines()]
        else:
            lines += typed(person, line[len(prompt):], prompt)
    person.leaves()
    return "\n".join(lines) + "\n"


def comparable(block: str) -> list[str]:
    """Without what is another each time."""
    return [TIME.sub("HH:MM:SS", line) for line in block.splitlines() if not line.startswith("head: ")]


def main() -> None:
    os.environ["PYTHONPATH"] = str(README.parent)
    text = README.read_text(encoding="utf-8")

    def again(match: re.Match[str]) -> str:
        if sys.argv[1:] not in ([], [match.group(1)]):
            return match.group()
        with tempfile.TemporaryDirectory() as folder:
            os.environ["XDG_STATE_HOME"] = folder
            return f"```{match.group(1)}\n{session(match.group(1), match.group(2), Path(folder))}```"
    README.write_text(BLOCK.sub(again, text), encoding="utf-8")


if __name__ == "__main__":
    sys.exit(main())
