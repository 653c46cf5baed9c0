"""What a person sees, or a tool: text on a terminal, or one JSON object for each command."""

from __future__ import annotations

import contextlib
import json
import sys
from dataclasses import dataclass, field
from typing import Any, Iterator, Sequence

from rich.console import Console, RenderableType
from rich.progress import BarColumn, Progress, TextColumn, TimeRemainingColumn, TransferSpeedColumn
from rich.text import Text

from ..errors import BenchError, CommandError
from ..transfer import Progress as Report
from ..transfer import nothing

LONG = 256  # bytes from which on progress is shown


@dataclass
class Result:
    """What a command found: fields for tools, and what a person is shown. `status` is its exit status."""

    data: dict[str, Any] = field(default_factory=dict)
    shown: list[RenderableType] = field(default_factory=list)
    status: int = 0


def said(text: str, **data: Any) -> Result:
    """A result of one line."""
    return Result(data, [text])


def table(titles: Sequence[str], rows: Sequence[Sequence[str]], right: Sequence[str] = ()) -> list[str]:
    """Lines of columns that are as wide as their widest cell, with titles where there are any; `right` names those
    that are set to the right."""
    lines = [titles, *rows] if any(titles) else rows
    widths = [max(len(line[column]) for line in lines) for column in range(len(titles))]
    return ["  ".join(cell.rjust(width) if title in right else cell.ljust(width)
                      for cell, width, title in zip(line, widths, titles)).rstrip() for line in lines]


def counted(count: int, what: str) -> str:
    """A count with its noun: 1 run, 2 runs."""
    return f"{count:,} {what}" if count == 1 else f"{count:,} {what}s"


class Output:
    def __init__(self, as_json: bool = False, colour: bool | None = None) -> None:
        self.as_json = as_json
        none = None if colour is None else not colour
        self.console = Console(highlight=False, markup=False, no_color=none)
        self.errors = Console(stderr=True, highlight=False, markup=False, no_color=none)

    def show(self, name: str, result: Result) -> None:
        if self.as_json:
            self._json({"command": name, "ok": result.status == 0, **result.data})
            return
        for one in result.shown:
            self.put(self.console, one, whole=isinstance(one, Text))

    def put(self, console: Console, shown: RenderableType, whole: bool = False) -> None:
        """A line: broken between words on a terminal, unless it is to stay whole; in a file or a pipe always whole."""
        console.print(shown, soft_wrap=whole or not console.is_terminal)

    def notice(self, text: str) -> None:
        """What was not asked for: a restart of the head, a line that it says, a warning."""
        if self.as_json:
            self._json({"notice": text})
        else:
            self.put(self.console, Text(text, style="cyan"))

    def fail(self, line: str, error: BenchError, typed_at: int | None = None) -> None:
        """One line that says what is wrong. Where the fault has a place, a caret stands under it: under the line that
        was typed (typed_at is where it began on the screen), or under the line printed again."""
        if self.as_json:
            self._json({"ok": False, "error": str(error), "status": error.status, "line": line,
                        **({"at": error.at} if isinstance(error, CommandError) and error.at is not None else {})})
            return
        shown = Text(f"{error}", style="red")
        if isinstance(error, CommandError) and error.at is not None:
            caret = "^" * max(1, min(error.length, max(len(line) - error.at, 1)))
            if typed_at is None:
                self.put(self.errors, line, whole=True)
            shown = Text(" " * ((typed_at or 0) + error.at) + caret + " ", style="red").append(shown)
            self.put(self.errors, shown, whole=True)
        else:
            self.put(self.errors, shown)

    def _json(self, data: dict[str, Any]) -> None:
        print(json.dumps(data), flush=True)

    @contextlib.contextmanager
    def progress(self, what: str, total: int) -> Iterator[Report]:
        """A report of progress, with rate and time left, where somebody watches and it is long enough to watch."""
        if self.as_json or total < LONG or not self.errors.is_terminal:
            yield nothing
            return
        columns = (TextColumn("{task.description}"), BarColumn(), TextColumn("{task.completed:.0f}/{task.total:.0f} B"),
                   TransferSpeedColumn(), TimeRemainingColumn())
        with Progress(*columns, console=self.errors, transient=True) as bar:
            task = bar.add_task(what, total=total)
            yield lambda done, of: bar.update(task, completed=done, total=of)


def demand_terminal() -> None:
    if not (sys.stdin.isatty() and sys.stdout.isatty()):
        raise CommandError("a prompt needs a terminal: give a command, or `run FILE` (`run -` for standard input)")
