"""Every exchange with its time and meaning: in a file where one is named, and the last ones in memory."""

from __future__ import annotations

import collections
import datetime
from pathlib import Path
from typing import TextIO

from .messages import READ_MOST, meaning

KEPT = 2000
SENT, RECEIVED, NOTE = ">", "<", "#"


class Log:
    """Lines of the form `TIME > HEX  MEANING`; `<` is what came, `#` a remark on the line."""

    def __init__(self, path: Path | None = None) -> None:
        self._file: TextIO | None = path.open("a", encoding="utf-8") if path else None
        self.lines: collections.deque[str] = collections.deque(maxlen=KEPT)

    def message(self, direction: str, data: bytes, asked: int = READ_MOST) -> None:
        self._put(direction, f"{data.hex()}  {meaning(data, asked)}")

    def text(self, direction: str, text: bytes) -> None:
        self._put(direction, f"{text.hex()}  text: {text.decode('ascii', 'replace')}")

    def note(self, text: str) -> None:
        self._put(NOTE, text)

    def _put(self, mark: str, text: str) -> None:
        now = datetime.datetime.now().isoformat(timespec="milliseconds")
        line = f"{now} {mark} {text}"
        self.lines.append(line)
        if self._file:
            self._file.write(line + "\n")
            self._file.flush()

    def close(self) -> None:
        if self._file:
            self._file.close()
            self._file = None
