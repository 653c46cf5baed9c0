"""Long reads and writes: in pieces, with progress, resumable, read back and compared."""

from __future__ import annotations

import json
from pathlib import Path
from typing import Callable

from .errors import CommandError, Differs
from .head import Head
from .images import MOST, differences
from .messages import WRITE_MOST

Progress = Callable[[int, int], None]
CHUNK = 36  # bytes of a file that are stored at once: four reads of nine


def nothing(done: int, total: int) -> None:
    """Progress that nobody watches."""


def read(head: Head, address: int, length: int, progress: Progress = nothing) -> bytes:
    data = b""
    for _, piece in head.pieces(address, length):
        data += piece
        progress(len(data), length)
    return data


class PartFile:
    """A file that is being saved: the bytes so far in NAME.part, and what is being saved in NAME.part.json."""

    def __init__(self, path: Path, address: int, length: int) -> None:
        self.path = path
        self._part = path.with_name(path.name + ".part")
        self._about = path.with_name(path.name + ".part.json")
        self._job = {"address": address, "length": length}

    def begin(self) -> int:
        """How many bytes an interrupted save of the same stretch has left; 0 where there is none."""
        try:
            if json.loads(self._about.read_text(encoding="utf-8")) == self._job:
                return min(self._part.stat().st_size, self._job["length"])
        except (OSError, ValueError):
            pass
        self._about.write_text(json.dumps(self._job) + "\n", encoding="utf-8")
        self._part.write_bytes(b"")
        return 0

    def append(self, data: bytes) -> None:
        with self._part.open("ab") as file:
            file.write(data)

    def finish(self) -> bytes:
        data = self._part.read_bytes()
        self._part.replace(self.path)
        self._about.unlink()
        return data


def save(head: Head, address: int, length: int, path: Path, progress: Progress = nothing) -> tuple[bytes, int]:
    """Saves a stretch to a file. An interrupted save goes on where it ended: gives the bytes and where it began."""
    part = PartFile(path, address, length)
    begun = done = part.begin()
    progress(done, length)
    while done < length:
        piece = head.read(address + done, min(CHUNK, length - done))
        part.append(piece)
        done += len(piece)
        progress(done, length)
    return part.finish(), begun


def check_size(length: int) -> None:
    if length > MOST:
        raise CommandError(f"{length} bytes are more than any window holds ({MOST})")


def compare(address: int, wanted: bytes, found: bytes) -> None:
    """An error where what is read back is not what was written."""
    runs = differences(wanted, found)
    if runs:
        count = sum(run.length for run in runs)
        raise Differs(f"{count} of {len(wanted)} bytes read back are not what was written, the first at "
                      f"{address + runs[0].start:#x}: something else writes there too, or the line garbled them")


def write(head: Head, address: int, data: bytes, progress: Progress = nothing) -> None:
    """Writes four bytes at a time, then reads all back and compares."""
    total = 2 * len(data)
    for at in range(0, len(data), WRITE_MOST):
        head.put(address + at, data[at:at + WRITE_MOST])
        progress(min(at + WRITE_MOST, len(data)), total)
    found = read(head, address, len(data), lambda done, _: progress(len(data) + done, total))
    compare(address, data, found)


def resume(head: Head, address: int, data: bytes, progress: Progress = nothing) -> int:
    """Writes what is not there yet, and compares; gives how many bytes were written."""
    found = read(head, address, len(data), progress)
    sent = 0
    for run in differences(data, found):
        piece = data[run.start:run.start + run.length]
        head.write(address + run.start, piece)
        sent += len(piece)
    compare(address, data, read(head, address, len(data), progress))
    return sent
