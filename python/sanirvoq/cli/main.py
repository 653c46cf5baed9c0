"""The command `sanirvoq`: options, then a command, or none for the prompt."""

from __future__ import annotations

import argparse
import os
import shlex
import sys
from pathlib import Path

from .. import __version__
from ..errors import BenchError, CallError, CommandError, FileError, LibraryError
from .bench import Bench, Options
from .output import Output, demand_terminal
from .practice import run_practice
from .prompt import Prompt
from .table import COMMANDS, perform

STATUSES = """exit status: 0 done; 1 differs (diff, what is read back); 2 a bad command, nothing was sent;
3 the head refused; 4 the line failed; 5 the proved library cannot be had"""


def pair(text: str) -> tuple[int, int]:
    """BASE:SIZE or FROM:TO, numbers decimal or 0x."""
    low, _, high = text.partition(":")
    return int(low, 0), int(high, 0)


def parser() -> argparse.ArgumentParser:
    listed = "\n".join(f"  {command.usage}\n      {command.summary}" for command in COMMANDS.values())
    made = argparse.ArgumentParser(
        "sanirvoq", usage="sanirvoq [OPTIONS] [COMMAND ..]", formatter_class=argparse.RawDescriptionHelpFormatter,
        description="The bench of the Sanirvoq debug stub. Without a command: a prompt.\n"
                    "`sanirvoq practice` starts a session with a head on this machine.",
        epilog=f"commands:\n{listed}\n\n{STATUSES}")
    made.add_argument("--head", metavar="ADDRESS", default=os.environ.get("SANIRVOQ_HEAD"),
                      help="tcp:HOST:PORT, serial:PATH@BAUD, pty:PATH, program:COMMAND, practice, practice:worked, "
                           "program; else SANIRVOQ_HEAD")
    made.add_argument("--blocks", action="store_true", help="bare blocks of ten bytes, no frames")
    made.add_argument("--timeout", metavar="SECONDS", type=float, default=1.0, help="for each answer (1)")
    made.add_argument("--tries", metavar="N", type=int, default=5, help="for requests that may be repeated (5)")
    made.add_argument("--log", metavar="FILE", type=Path, help="every exchange with time and meaning")
    made.add_argument("--session", metavar="FILE", type=Path, help="keeps what is believed between two commands")
    made.add_argument("--window", metavar="BASE:SIZE", type=pair, help="where the head's memory lies")
    made.add_argument("--protected", metavar="FROM:TO", type=pair, help="the protected stretch")
    made.add_argument("--json", action="store_true", help="one JSON object for each command")
    made.add_argument("--yes", action="store_true", help="answers every question with yes")
    made.add_argument("--no-color", action="store_true", help="no colours")
    made.add_argument("--version", action="version", version=f"sanirvoq {__version__}")
    made.add_argument("command", nargs=argparse.REMAINDER, help=argparse.SUPPRESS)
    return made


def options_of(given: argparse.Namespace) -> Options:
    return Options(given.head, given.blocks, given.timeout, given.tries, given.log, given.session, given.json,
                   given.yes, given.window, given.protected)


def joined(words: list[str]) -> str:
    """The words of the shell as one line; only words with blanks in them are quoted."""
    return words[0] if len(words) == 1 else " ".join(shlex.quote(word) if " " in word else word for word in words)


def greet(bench: Bench) -> None:
    """The first contact: where the window lies, or what is wrong with the line."""
    try:
        base, size = bench.window()
        bench.output.notice(f"the head answers: its window is {base:#x} to {base + size - 1:#x}, {size:,} bytes")
    except (LibraryError, CallError):
        raise
    except BenchError as error:
        bench.output.notice(str(error))
    except KeyboardInterrupt:
        bench.output.notice("interrupted: the head has not answered yet")


def at_prompt(options: Options, output: Output, name: str) -> int:
    bench = Bench(options, output)
    prompt = Prompt(bench, name)
    bench.attend(prompt.confirm)
    try:
        if options.head:
            greet(bench)
        return prompt.loop()
    finally:
        bench.close()


def one_command(options: Options, output: Output, line: str) -> int:
    bench = Bench(options, output)
    try:
        return perform(bench, line)
    finally:
        bench.close()


def entry(arguments: list[str] | None = None) -> int:
    """The exit status of the whole."""
    given = parser().parse_args(arguments)
    output = Output(given.json, False if given.no_color else None)
    options = options_of(given)
    try:
        if given.command[:1] == ["practice"]:
            return run_practice(given.command[1:], options, output, at_prompt)
        if given.command:
            return one_command(options, output, joined(given.command))
        demand_terminal()
        return at_prompt(options, output, "head")
    except BenchError as error:
        output.fail(" ".join(given.command), error)
        return error.status
    except OSError as error:
        output.fail(" ".join(given.command), FileError(error))
        return FileError.status
    except KeyboardInterrupt:
        return 130


if __name__ == "__main__":
    sys.exit(entry())
