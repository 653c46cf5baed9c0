"""The head of examples/head under qemu, started and ended."""

from __future__ import annotations

import contextlib
import shutil
import socket
import subprocess
import time
from pathlib import Path
from typing import Iterator

from .errors import CommandError, LineError
from .library import repository

EMULATOR = "qemu-system-riscv32"
IMAGE = Path("target") / "head" / "head.elf"
PATIENCE = 10.0


def image() -> Path:
    """The kernel's image; an error where it or qemu is missing."""
    path = repository() / IMAGE
    if shutil.which(EMULATOR) is None:
        raise CommandError(f"{EMULATOR} is not installed: apt-get update && apt-get install -y qemu-system-misc")
    if not path.is_file():
        raise CommandError(f"no {path}: make it with examples/head/build.sh")
    return path


def free_port() -> int:
    with socket.socket() as probe:
        probe.bind(("127.0.0.1", 0))
        return int(probe.getsockname()[1])


def await_port(process: subprocess.Popen[bytes], port: int) -> None:
    """Until qemu listens at its port. The head starts when somebody calls, so nobody calls to try: its listening is
    looked up."""
    end = time.monotonic() + PATIENCE
    while time.monotonic() < end:
        if process.poll() is not None:
            said = process.stderr.read().decode(errors="replace").strip() if process.stderr else ""
            raise LineError(f"{EMULATOR} ended with status {process.returncode}: {said}")
        if f"0100007F:{port:04X} 00000000:0000 0A" in Path("/proc/net/tcp").read_text(encoding="ascii"):
            return
        time.sleep(0.05)
    raise LineError(f"{EMULATOR} does not listen after {PATIENCE:.0f} s")


@contextlib.contextmanager
def running() -> Iterator[str]:
    """A head that runs; the address to connect to."""
    port = free_port()
    command = [EMULATOR, "-machine", "virt", "-bios", "none", "-display", "none", "-monitor", "none",
               "-serial", f"tcp:127.0.0.1:{port},server=on,wait=on,nodelay=on", "-kernel", str(image())]
    process = subprocess.Popen(command, start_new_session=True, stderr=subprocess.PIPE)
    try:
        await_port(process, port)
        yield f"tcp:127.0.0.1:{port}"
    finally:
        process.terminate()
        process.communicate()
