"""The prompt: history, completion, help, and a line at the bottom that says where one is."""

from __future__ import annotations

import os
from pathlib import Path
from typing import Iterable

from prompt_toolkit import PromptSession
from prompt_toolkit.completion import CompleteEvent, Completer, Completion, PathCompleter
from prompt_toolkit.document import Document
from prompt_toolkit.history import FileHistory, History, InMemoryHistory

from ..registers import NAMES
from .bench import Bench
from .output import counted
from .table import COMMANDS, ENDS, perform

AFTER: dict[str, list[str]] = {"set": list(NAMES[1:]), "registers": [], "explain": ["break"], "help": list(COMMANDS),
         "window": ["find"], "protected": ["none"], "map": ["svg"], "event": ["trap", "schedule", "state"]}
WITH_PIDS = ("ps", "status", "stop", "continue", "wait", "select", "registers")
WITH_FILES = ("diff", "patch", "map", "decode", "run", "save", "write")
CONDITION_WORDS = ["at", "if", "pid", "word[", "and", "or", "not", "=="]


class BenchCompleter(Completer):
    """Commands first; then what the command takes: pids, registers, ids, words of a condition, files."""

    def __init__(self, bench: Bench) -> None:
        self._bench = bench
        self._paths = PathCompleter(expanduser=True)

    def get_completions(self, document: Document, complete_event: CompleteEvent) -> Iterable[Completion]:
        text = document.text_before_cursor
        words = text.split()
        typed = "" if not words or text.endswith(" ") else words[-1]
        before = len(words) - (1 if typed else 0)
        listed = list(COMMANDS) if before == 0 else self._after(words)
        for word in listed:
            if word.startswith(typed) and word != typed:
                meta = COMMANDS[word].summary if before == 0 else ""
                yield Completion(word, -len(typed), display_meta=meta)
        if before and words[0] in WITH_FILES and typed and not typed.startswith("0x"):
            yield from self._paths.get_completions(Document(typed), complete_event)

    def _after(self, words: list[str]) -> list[str]:
        belief = self._bench.belief
        command = words[0]
        listed = list(AFTER.get(command, []))
        if command in WITH_PIDS:
            listed += [str(pid) for pid in belief.processes]
        if command == "delete":
            listed += [str(ident) for ident in belief.breakpoints]
        if command in ("break", "explain"):
            listed += CONDITION_WORDS
        if command == "write":
            listed += ["hex", "bytes", "file", "resume"]
        return listed


def history() -> History:
    """The lines of earlier sessions, in XDG_STATE_HOME or ~/.local/state; in memory only where that cannot be."""
    folder = Path(os.environ.get("XDG_STATE_HOME") or Path.home() / ".local" / "state") / "sanirvoq"
    try:
        folder.mkdir(parents=True, exist_ok=True)
        return FileHistory(str(folder / "history"))
    except OSError:
        return InMemoryHistory()


def bottom(bench: Bench) -> str:
    """Where one is: the head, the window, breakpoints that stand as far as known, and the line's trouble."""
    belief = bench.belief
    parts = [bench.options.head or "no head"]
    if belief.base is not None:
        parts.append(f"window {belief.base:#x}..{belief.base + belief.size - 1:#x}")
    parts.append(f"{counted(len(belief.breakpoints), 'breakpoint')} (believed)")
    if belief.current is not None:
        parts.append(f"process {belief.current}")
    if bench.connected:
        parts.append(f"{bench.connected.exchange.counts.again} sent again")
    return " " + "  |  ".join(parts)


class Prompt:
    def __init__(self, bench: Bench, name: str) -> None:
        self._bench = bench
        self._name = name
        self._session: PromptSession[str] = PromptSession(history=history(), completer=BenchCompleter(bench),
                                                          complete_while_typing=False,
                                                          bottom_toolbar=lambda: bottom(bench))

    def confirm(self, question: str) -> bool:
        try:
            return PromptSession[str]().prompt(f"{question} [y/N] ").strip().lower() in ("y", "yes")
        except (EOFError, KeyboardInterrupt):
            return False

    def loop(self) -> int:
        """Until `quit` or the end of input. The exit status is 0: each line's fault was shown at once."""
        while True:
            mark = f"{'text' if self._bench.text_mode else self._name}> "
            try:
                text = self._session.prompt(mark)
            except KeyboardInterrupt:
                continue
            except EOFError:
                break
            if self._bench.text_mode:
                self._text_line(text, len(mark))
            elif text.strip() in ENDS:
                break
            elif text.strip():
                perform(self._bench, text, len(mark))
        self._farewell()
        return 0

    def _text_line(self, text: str, typed_at: int) -> None:
        """A line of the text dialect: a request without the word text before it."""
        if not text.strip() or text.strip() in ENDS:
            self._bench.text_mode = False
            return
        perform(self._bench, f"text {text}", typed_at - len("text "))

    def _farewell(self) -> None:
        stand = len(self._bench.belief.breakpoints)
        if stand:
            told = "breakpoint still stands" if stand == 1 else "breakpoints still stand"
            self._bench.output.notice(f"{stand} {told} on the head, as far as known")
