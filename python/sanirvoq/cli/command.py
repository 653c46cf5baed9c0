"""What a command is."""

from __future__ import annotations

from dataclasses import dataclass
from typing import Callable

from .bench import Bench
from .output import Result
from .words import Words


@dataclass(frozen=True)
class Command:
    """A command: its name, how it is written, one line on what it does, and more where one line is not enough."""

    name: str
    usage: str
    summary: str
    run: Callable[[Bench, Words], Result]
    details: str = ""
    group: str = ""
