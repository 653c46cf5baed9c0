"""A head by its address."""

from __future__ import annotations

from dataclasses import dataclass, field
from pathlib import Path

from .errors import CommandError
from .exchange import BlockExchange, Exchange, FrameExchange, Settings
from .head import Head
from .library import repository
from .links import Link, ProgramLink, open_link
from .log import Log
from .noise import Noise
from .practice import Kernel, practice_setup, service, worked_setup
from .program import ProgramExchange
from .serving import PracticeLink

PROGRAM = Path("target") / "bin" / "program_main"


@dataclass
class Line:
    """How to speak to a head: in bare blocks or, else, in frames; with which patience; over what noise (practice)."""

    blocks: bool = False
    settings: Settings = field(default_factory=Settings)
    log: Log = field(default_factory=Log)
    noise: Noise | None = None


def exchange_over(link: Link, line: Line) -> Exchange:
    if line.blocks:
        return BlockExchange(link, line.log, line.settings)
    return FrameExchange(link, line.log, line.settings)


def program_path() -> Path:
    path = repository() / PROGRAM
    if not path.is_file():
        raise CommandError(f"no {path}: make it with `tools/build.sh program_main`")
    return path


def connect(address: str, line: Line | None = None) -> Head:
    """A head at an address: one of links.open_link, `practice` or `practice:worked` (a head in this process), or
    `program` (the program of document 01)."""
    line = line or Line()
    kind, _, rest = address.partition(":")
    if kind == "practice":
        if rest not in ("", "worked"):
            raise CommandError(f"the practice heads are practice and practice:worked, not {address}")
        kernel = Kernel(worked_setup() if rest else practice_setup())
        return Head(exchange_over(PracticeLink(service(kernel, line.blocks), line.noise), line))
    if address == "program":
        return Head(ProgramExchange(ProgramLink([str(program_path())]), line.log, line.settings))
    return Head(exchange_over(open_link(address), line))
