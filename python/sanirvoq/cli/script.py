"""Commands from a file: each line is shown and run, up to the first that fails."""

from __future__ import annotations

import sys
from pathlib import Path

from ..condition import Token, refuse
from ..errors import BenchError, CommandError
from .bench import Bench
from .output import Result
from .table import ENDS, execute, find
from .words import Words


def lines_of(token: Token) -> list[tuple[int, str]]:
    """The lines of a script with their numbers, comments and empty ones left out; - is standard input."""
    try:
        text = sys.stdin.read() if token.text == "-" else Path(token.text).read_text(encoding="utf-8")
    except (OSError, UnicodeDecodeError) as error:
        refuse(f"cannot read {token.text}: {getattr(error, 'strerror', None) or error}", token)
    listed = [(number, line.split("#", 1)[0].rstrip()) for number, line in enumerate(text.splitlines(), 1)]
    return [(number, line) for number, line in listed if line.strip()]


def run_file(bench: Bench, token: Token) -> Result:
    lines = lines_of(token)
    for number, line in lines:
        try:
            find(Words(line).name.text)
        except CommandError as error:
            raise CommandError(f"{token.text}, line {number}: {error}; nothing of it was run") from None
    for number, line in lines:
        if line.split()[0] in ENDS:
            break
        if not bench.output.as_json:
            bench.output.put(bench.output.console, f"> {line}", whole=True)
        try:
            name, result = execute(bench, line)
        except BenchError as error:
            bench.output.fail(line, error)
            return Result({"failed": number}, [f"{token.text} ended at line {number}"], error.status)
        bench.output.show(name, result)
        if result.status:
            return Result({"failed": number}, [f"{token.text} ended at line {number}"], result.status)
    return Result({"lines": len(lines)})
