"""The proved archive as a shared library: found, linked once into a cache folder, loaded, its calls declared."""

from __future__ import annotations

import ctypes
import functools
import hashlib
import os
import subprocess
import tempfile
from pathlib import Path
from typing import Any, Callable

from . import structures as s
from .errors import LibraryError

ARCHIVE = "libsanirvoq.a"
SIZE = ctypes.c_size_t
BYTES = ctypes.c_void_p
_MEMORY: list[type] = [BYTES, SIZE, BYTES, SIZE]
_RECORD: list[type] = [ctypes.POINTER(s.Target), ctypes.POINTER(ctypes.c_uint32)]
_STEP: list[type] = [*_RECORD, *_MEMORY, ctypes.c_uint32, ctypes.c_uint8, BYTES, SIZE, BYTES, SIZE]

# Every call: its arguments and its result, as include/sanirvoq.h has them.
CALLS: dict[str, tuple[list[type], type]] = {
    "sanirvoq_message_encode": ([s.Fields, BYTES, SIZE], ctypes.c_uint8),
    "sanirvoq_message_decode": ([BYTES, SIZE], s.Found),
    "sanirvoq_image_differences": ([BYTES, SIZE, BYTES, SIZE, ctypes.POINTER(ctypes.c_uint32), SIZE], s.Comparison),
    "sanirvoq_text_encode": ([s.TextFields, BYTES, SIZE], s.TextWritten),
    "sanirvoq_text_decode": ([BYTES, SIZE], s.TextFound),
    "sanirvoq_frame_reader": ([], s.FrameReaderState),
    "sanirvoq_frame_feed": ([s.FrameReaderState, BYTES, SIZE, BYTES, SIZE], s.FrameFed),
    "sanirvoq_frame_reply": ([ctypes.c_uint32, BYTES, SIZE, BYTES, SIZE], ctypes.c_uint8),
    "sanirvoq_patch_check": ([*_RECORD, *_MEMORY, ctypes.POINTER(s.PlannedWrite), SIZE, BYTES, SIZE, BYTES, SIZE],
                             s.Verdict),
    "sanirvoq_patch_plan": ([*_RECORD, *_MEMORY, BYTES, SIZE, BYTES, SIZE, ctypes.POINTER(s.PlannedWrite), SIZE],
                            s.Planning),
    "sanirvoq_step_setup": ([_RECORD[0], *_MEMORY, ctypes.c_uint64, ctypes.c_uint64], ctypes.c_uint32),
    "sanirvoq_step_request": (_STEP, ctypes.c_uint32),
    "sanirvoq_step_trap": (_STEP, ctypes.c_uint32),
    "sanirvoq_step_schedule": (_STEP, ctypes.c_uint32),
    "sanirvoq_step_state": (_STEP, ctypes.c_uint32),
    "sanirvoq_step_restart": (_STEP, ctypes.c_uint32),
    "sanirvoq_step_text": (_STEP, ctypes.c_uint32),
}


def repository() -> Path:
    """The repository that this package stands in, where it was not installed elsewhere."""
    return Path(__file__).resolve().parents[2]


def archive_path() -> Path:
    """The archive: of the folder SANIRVOQ_LIB, else of this repository's target/staticlib."""
    named = os.environ.get("SANIRVOQ_LIB")
    folder = Path(named) if named else repository() / "target" / "staticlib"
    path = folder / ARCHIVE
    if not path.is_file():
        raise LibraryError(f"no {ARCHIVE} in {folder}: make it with `tools/build.sh sanirvoq` in the repository, "
                           "or name its folder in SANIRVOQ_LIB")
    return path


def cache_folder() -> Path:
    base = os.environ.get("XDG_CACHE_HOME") or str(Path.home() / ".cache")
    return Path(base) / "sanirvoq"


def shared_library(archive: Path) -> Path:
    """The shared library of this archive, linked at first use. Its name has the archive's sum, so a new archive is
    never mistaken for an old one."""
    digest = hashlib.sha256(archive.read_bytes()).hexdigest()[:20]
    folder = cache_folder()
    path = folder / f"libsanirvoq-{digest}.so"
    if path.is_file():
        return path
    try:
        folder.mkdir(parents=True, exist_ok=True)
        with tempfile.TemporaryDirectory(dir=folder) as room:
            made = Path(room) / path.name
            link(archive, made)
            os.replace(made, path)
    except OSError as error:
        raise LibraryError(f"cannot link {archive}: {error}") from error
    return path


def link(archive: Path, made: Path) -> None:
    command = ["gcc", "-shared", "-Wl,-z,defs", "-Wl,--whole-archive", str(archive), "-Wl,--no-whole-archive",
               "-o", str(made)]
    done = subprocess.run(command, capture_output=True, text=True, check=False)
    if done.returncode != 0:
        lines = done.stderr.strip().splitlines() or ["gcc said nothing"]
        raise LibraryError(f"gcc cannot link {archive} as a shared library: {lines[0]}")


@functools.cache
def library() -> ctypes.CDLL:
    """The loaded library, with every call that it has declared."""
    path = shared_library(archive_path())
    try:
        loaded = ctypes.CDLL(str(path))
    except OSError as error:
        raise LibraryError(f"cannot load {path}: {error}") from error
    for name, (arguments, result) in CALLS.items():
        function = getattr(loaded, name, None)
        if function is not None:
            function.argtypes = arguments
            function.restype = result
    return loaded


def call(name: str) -> Callable[..., Any]:
    """A call by its name; an error where this archive has none."""
    function: Callable[..., Any] | None = getattr(library(), name, None)
    if function is None:
        raise LibraryError(f"the library has no {name}: {archive_path()} is older than this package")
    return function


def buffer(data: bytes | int) -> ctypes.Array[ctypes.c_char]:
    """A buffer of these bytes, or of so many zeros, that may be lent to a call; never null, also where it is empty."""
    size = data if isinstance(data, int) else len(data)
    made = ctypes.create_string_buffer(max(size, 1))
    if not isinstance(data, int):
        ctypes.memmove(made, data, size)
    return made
