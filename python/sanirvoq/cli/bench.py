"""What a session of the command line holds: the head, beliefs, output, and the checks before anything is sent."""

from __future__ import annotations

import collections
import contextlib
import re
from dataclasses import dataclass
from pathlib import Path
from typing import Callable

from .. import transfer, window
from ..belief import Belief
from ..connect import Line, connect
from ..errors import CommandError, LineError, Refused
from ..exchange import Settings
from ..head import Head
from ..log import Log
from ..noise import Noise
from .output import Output


KEPT = 1000  # lines that the head said


@dataclass
class Options:
    """The options of the command line."""

    head: str | None = None
    blocks: bool = False
    seconds: float = 1.0
    tries: int = 5
    log: Path | None = None
    session: Path | None = None
    as_json: bool = False
    yes: bool = False
    window: tuple[int, int] | None = None
    protected: tuple[int, int] | None = None
    noise: Noise | None = None


class Bench:
    """One session. The head is reached at the first command that needs it."""

    def __init__(self, options: Options, output: Output) -> None:
        self.options = options
        self.output = output
        self.log = Log(options.log)
        self.belief = Belief.load(options.session) if options.session else Belief()
        if options.window:
            self.belief.base, self.belief.size = options.window
        if options.protected:
            self.belief.protected = options.protected
        self.text_mode = False
        self.said: collections.deque[str] = collections.deque(maxlen=KEPT)
        self._last_said: dict[str, str] = {}
        self._confirm: Callable[[str], bool] | None = None
        self._head: Head | None = None

    def attend(self, confirm: Callable[[str], bool]) -> None:
        """Somebody sits at the prompt and can be asked."""
        self._confirm = confirm

    @property
    def interactive(self) -> bool:
        return self._confirm is not None

    @property
    def connected(self) -> Head | None:
        return self._head

    @property
    def head(self) -> Head:
        if self._head is None:
            if not self.options.head:
                raise CommandError("no head is named: --head ADDRESS or SANIRVOQ_HEAD; `practice` needs none")
            settings = Settings(self.options.seconds, self.options.tries)
            self._head = connect(self.options.head, Line(self.options.blocks, settings, self.log, self.options.noise))
            self._head.exchange.notices.restarted.append(self._restarted)
            self._head.exchange.notices.said.append(self._said)
        return self._head

    def _said(self, line: str) -> None:
        """A line that the head says by itself: shown where its numbers are others than the last time."""
        self.said.append(line)
        form = re.sub(r"[0-9]+", "#", line)
        if self._last_said.get(form) != line:
            self._last_said[form] = line
            self.output.notice(f"head: {line}")

    def last_said(self) -> list[str]:
        """The last line of each kind that the head said."""
        return [line for _, line in sorted(self._last_said.items())]

    def _restarted(self) -> None:
        stood = len(self.belief.breakpoints)
        self.belief.restarted()
        self.output.notice(f"the head was restarted: no breakpoint stands any more ({stood} stood, as far as known)")

    def disconnect(self) -> None:
        """The next command that needs the head connects anew."""
        if self._head:
            head, self._head = self._head, None
            with contextlib.suppress(OSError):
                head.close()

    def close(self) -> None:
        if self.options.session:
            self.belief.save(self.options.session)
        self.disconnect()
        self.log.close()

    def confirm(self, question: str) -> bool:
        """Yes or no, by --yes or by the person at the prompt."""
        if self.options.yes:
            return True
        if self._confirm is None:
            raise CommandError("nobody can be asked here: say --yes to send it, nothing was sent")
        return self._confirm(question)

    def window(self) -> tuple[int, int]:
        """Base and size of the window, found by reads where they are not known."""
        if self.belief.base is None:
            self.belief.base, self.belief.size = window.guess(self.head)
        return self.belief.base, self.belief.size

    def read(self, address: int, length: int, what: str = "reading") -> bytes:
        """Reads a stretch with progress, and remembers what was seen."""
        self.check_window(address, length)
        with self.output.progress(what, length) as report:
            data = transfer.read(self.head, address, length, report)
        if address >= window.LOWEST:
            self.belief.seen(address, data)
        return data

    def check_window(self, address: int, length: int) -> None:
        """A stretch that is known to leave the window is refused before anything is sent."""
        if address >= window.LOWEST and self.belief.in_window(address, length) is False:
            base, size = self.belief.base or 0, self.belief.size
            raise CommandError(f"{address:#x} to {address + length - 1:#x} is not all in the window, "
                               f"{base:#x} to {base + size - 1:#x}")

    def check_write(self, address: int, length: int) -> None:
        """A write that cannot be carried out whole is refused before its first byte is sent."""
        if address < window.LOWEST:
            raise CommandError(f"{address:#x} is no memory: `set` writes registers")
        self.check_window(address, length)
        if self.belief.is_protected(address, length):
            low, high = self.belief.protected or (0, 0)
            raise CommandError(f"the stretch meets the protected one, {low:#x} to {high - 1:#x} (the laser power "
                               "limits), which the head does not let anybody write")
        for end in (address, address + length - 1):
            if not window.is_served(self.head, end):
                raise CommandError(f"{end:#x} is outside the window: nothing was written")

    def write(self, address: int, data: bytes) -> bytes:
        """Writes a stretch whole and compares it; what it held before. A refusal on the way puts the old bytes back."""
        self.check_write(address, len(data))
        before = self.read(address, len(data), "reading what is there")
        done = 0

        def follow(count: int, total: int, report: transfer.Progress) -> None:
            nonlocal done
            done = min(count, len(data))
            report(count, total)

        try:
            with self.output.progress("writing", 2 * len(data)) as report:
                transfer.write(self.head, address, data, lambda count, total: follow(count, total, report))
        except Refused as error:
            self.head.write(address, before[:done])
            back = f"; the {done} bytes written before it were put back" if done else "; nothing was written"
            raise Refused(error.reason, error.meaning, error.advice + back, error.request) from None
        except (LineError, KeyboardInterrupt) as error:
            told = str(error) or "interrupted"
            raise LineError(f"{told}; {done} of {len(data)} bytes were confirmed: give the same command with `resume` "
                            "at its end to write the rest", known=False) from None
        self.belief.seen(address, data)
        return before

