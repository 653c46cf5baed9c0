"""All commands, and how a line becomes one."""

from __future__ import annotations

import difflib

from rich.text import Text

from ..errors import BenchError, CommandError, FileError, LineGone
from . import breaks, changes, line, memory, processes
from .bench import Bench
from .command import Command
from .output import Result
from .words import Words

ENDS = ("quit", "exit")


def help_of(bench: Bench, words: Words) -> Result:
    if words.more():
        token = words.next("the command")
        words.end()
        command = find(token.text, token.at)
        return Result({"usage": command.usage, "help": command.summary},
                      [command.usage, f"    {command.summary}", *command.details.splitlines()])
    lines: list[str | Text] = []
    group = ""
    for command in COMMANDS.values():
        if command.group != group:
            group = command.group
            lines.append(Text(f"{group}:", style="bold"))
        lines += [f"  {command.usage}", Text(f"      {command.summary}", style="dim")]
    return Result({name: command.summary for name, command in COMMANDS.items()}, list(lines))


def run_script(bench: Bench, words: Words) -> Result:
    from .script import run_file
    token = words.next("the script's file")
    words.end()
    return run_file(bench, token)


COMMANDS: dict[str, Command] = {command.name: command for command in [
    *memory.COMMANDS, *changes.COMMANDS, *processes.COMMANDS, *breaks.COMMANDS, *line.COMMANDS,
    Command("run", "run FILE", "the commands of a file, up to the first that fails", run_script, group="session"),
    Command("help", "help [COMMAND]", "this list, or more on one command", help_of, group="session"),
    Command("quit", "quit", "ends the prompt; breakpoints stay on the head", lambda bench, words: Result(),
            group="session"),
]}


def find(name: str, at: int = 0) -> Command:
    """The command of this name, or the only one that begins so."""
    if name in COMMANDS:
        return COMMANDS[name]
    begun = [one for one in COMMANDS if one.startswith(name)]
    if len(begun) == 1:
        return COMMANDS[begun[0]]
    if begun:
        raise CommandError(f"{name} may be {' or '.join(begun)}", at, len(name))
    close = difflib.get_close_matches(name, COMMANDS, 1)
    hint = f" (did you mean {close[0]}?)" if close else ": `help` lists them"
    raise CommandError(f"no command is called {name}{hint}", at, len(name))


def execute(bench: Bench, text: str) -> tuple[str, Result]:
    """Runs one line; gives the command's name and its result."""
    words = Words(text)
    command = find(words.name.text, words.name.at)
    words.usage = command.usage
    try:
        return command.name, command.run(bench, words)
    except OSError as error:
        raise FileError(error) from error


def perform(bench: Bench, text: str, typed_at: int | None = None) -> int:
    """Runs one line and shows what came of it; gives the exit status."""
    try:
        name, result = execute(bench, text)
    except KeyboardInterrupt:
        bench.output.notice("interrupted")
        return 130
    except BenchError as error:
        bench.output.fail(text, error, typed_at)
        if isinstance(error, LineGone):
            bench.disconnect()
        return error.status
    bench.output.show(name, result)
    return result.status
