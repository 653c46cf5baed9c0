"""A person at a terminal: pexpect has the pseudo-terminal, pyte is the screen."""

from __future__ import annotations

import sys
import time
from pathlib import Path
from typing import Callable

import pexpect
import pyte

PROMPT = "practice> "
ROWS, COLUMNS = 120, 120
PATIENCE = 20.0


class Person:
    """Types, and reads the screen."""

    def __init__(self, folder: Path, *words: str) -> None:
        self.child = pexpect.spawn(sys.executable, ["-m", "sanirvoq", *words], cwd=str(folder), encoding="utf-8",
                                   dimensions=(ROWS, COLUMNS))
        self.screen = pyte.Screen(COLUMNS, ROWS)
        self.screen.write_process_input = self.child.send
        self.stream = pyte.Stream(self.screen)

    def looks(self, seconds: float = 0.1) -> bool:
        """Takes in what comes; false where nothing can come any more."""
        try:
            self.stream.feed(self.child.read_nonblocking(65536, timeout=seconds))
        except pexpect.TIMEOUT:
            pass
        except pexpect.EOF:
            return False
        return True

    def sees(self, wanted: Callable[[], bool]) -> bool:
        """Whether the screen comes to look so, in time."""
        end = time.monotonic() + PATIENCE
        while not wanted():
            if time.monotonic() > end or not self.looks():
                return wanted()
        return True

    def row(self) -> str:
        """The row where the cursor is, up to the cursor."""
        return str(self.screen.display[self.screen.cursor.y])[:self.screen.cursor.x]

    def text(self) -> str:
        return "\n".join(line.rstrip() for line in self.screen.display).rstrip()

    def await_prompt(self, prompt: str = PROMPT, below: int = -1) -> None:
        assert self.sees(lambda: self.row() == prompt and self.screen.cursor.y > below), self.text()

    def writes(self, line: str) -> None:
        """A line without its end."""
        self.child.send(line)
        assert self.sees(lambda: self.row().endswith(line)), self.text()

    def types(self, line: str, prompt: str = PROMPT) -> str:
        """A whole line; gives what it brought."""
        self.writes(line)
        return self.enters(prompt)

    def enters(self, prompt: str = PROMPT) -> str:
        begun = self.screen.cursor.y
        self.child.send("\r")
        self.await_prompt(prompt, begun)
        lines = self.screen.display[begun + 1:self.screen.cursor.y]
        return "\n".join(line.rstrip() for line in lines)

    def leaves(self) -> tuple[int, str]:
        """Ctrl-D; the exit status and the last screen."""
        self.child.sendeof()
        self.sees(lambda: False)
        self.child.close()
        return self.child.exitstatus, self.text()

    def is_gone(self) -> None:
        self.child.close(force=True)
