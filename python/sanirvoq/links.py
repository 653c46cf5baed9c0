"""Ways to the head: a serial port, TCP, a pseudo-terminal, or the standard input and output of a program."""

from __future__ import annotations

import os
import select
import shlex
import socket
import stat
import subprocess
import time
import tty
from typing import Protocol

from .errors import CommandError, LineError, LineGone

DEFAULT_BAUD = 115200
PIECE = 4096


class Link(Protocol):
    """A line of bytes both ways."""

    def send(self, data: bytes) -> None: ...

    def receive(self, seconds: float) -> bytes:
        """What there is, as soon as there is something; nothing after so many seconds."""

    def close(self) -> None: ...


class DescriptorLink:
    """A line over file descriptors: pseudo-terminals, sockets, pipes."""

    def __init__(self, reading: int, writing: int) -> None:
        self._reading = reading
        self._writing = writing

    def send(self, data: bytes) -> None:
        try:
            while data:
                data = data[os.write(self._writing, data):]
        except OSError as error:
            raise LineGone(f"the line is gone: {error.strerror}", known=False) from error

    def receive(self, seconds: float) -> bytes:
        try:
            ready, _, _ = select.select([self._reading], [], [], max(seconds, 0))
            if not ready:
                return b""
            data = os.read(self._reading, PIECE)
        except OSError as error:
            raise LineGone(f"the line is gone: {error.strerror}", known=False) from error
        if not data:
            raise LineGone("the other end closed the line", known=False)
        return data

    def close(self) -> None:
        for descriptor in {self._reading, self._writing}:
            os.close(descriptor)


class TcpLink(DescriptorLink):
    def __init__(self, host: str, port: int, seconds: float) -> None:
        try:
            self._socket = socket.create_connection((host, port), timeout=seconds)
        except OSError as error:
            raise LineError(f"no head at {host}:{port}: {error.strerror or error}") from error
        self._socket.setblocking(True)
        self._socket.setsockopt(socket.IPPROTO_TCP, socket.TCP_NODELAY, 1)
        super().__init__(self._socket.fileno(), self._socket.fileno())

    def close(self) -> None:
        self._socket.close()


class PtyLink(DescriptorLink):
    """A pseudo-terminal by its path, set to raw."""

    def __init__(self, path: str) -> None:
        try:
            descriptor = os.open(path, os.O_RDWR | os.O_NOCTTY)
            tty.setraw(descriptor)
        except OSError as error:
            raise LineError(f"cannot open {path}: {error.strerror}") from error
        super().__init__(descriptor, descriptor)


class SerialLink:
    """A serial port, by pyserial: eight bits, no parity, one stop bit."""

    def __init__(self, path: str, baud: int) -> None:
        import serial
        try:
            self._port = serial.Serial(path, baud, timeout=0, exclusive=True)
        except (OSError, ValueError) as error:
            raise LineError(f"cannot open {path}: {error}") from error

    def send(self, data: bytes) -> None:
        try:
            self._port.write(data)
            self._port.flush()
        except OSError as error:
            raise LineGone(f"the serial port is gone: {error}", known=False) from error

    def receive(self, seconds: float) -> bytes:
        try:
            select.select([self._port.fileno()], [], [], max(seconds, 0))
            return bytes(self._port.read(PIECE))
        except OSError as error:
            raise LineGone(f"the serial port is gone: {error}", known=False) from error

    def close(self) -> None:
        self._port.close()


class ProgramLink(DescriptorLink):
    """A program on this machine, by its standard input and output."""

    def __init__(self, command: list[str]) -> None:
        try:
            self._process = subprocess.Popen(command, stdin=subprocess.PIPE, stdout=subprocess.PIPE,
                                             start_new_session=True)
        except OSError as error:
            raise LineError(f"cannot start {command[0]}: {error.strerror}") from error
        assert self._process.stdin is not None and self._process.stdout is not None
        super().__init__(self._process.stdout.fileno(), self._process.stdin.fileno())

    def close(self) -> None:
        assert self._process.stdin is not None and self._process.stdout is not None
        self._process.stdin.close()
        try:
            self._process.wait(timeout=2)
        except subprocess.TimeoutExpired:
            self._process.terminate()
            self._process.wait()
        self._process.stdout.close()


def open_link(address: str, seconds: float = 5.0) -> Link:
    """A line by its address: tcp:HOST:PORT, serial:PATH[@BAUD], pty:PATH, program:COMMAND, or a device's path."""
    kind, _, rest = address.partition(":")
    if kind == "tcp":
        host, _, port = rest.rpartition(":")
        if not host or not port.isdigit():
            raise CommandError(f"a TCP address is tcp:HOST:PORT, not {address}")
        return TcpLink(host.strip("[]"), int(port), seconds)
    if kind == "serial" and rest:
        path, _, baud = rest.partition("@")
        if baud and not baud.isdigit():
            raise CommandError(f"a serial address is serial:PATH@BAUD, not {address}")
        return SerialLink(path, int(baud or DEFAULT_BAUD))
    if kind == "pty" and rest:
        return PtyLink(rest)
    if kind == "program" and rest:
        return ProgramLink(shlex.split(rest))
    if os.path.exists(address) and stat.S_ISCHR(os.stat(address).st_mode):
        if address.startswith("/dev/pts/"):
            return PtyLink(address)
        return SerialLink(address, DEFAULT_BAUD)
    raise CommandError(f"no way to a head is called {address}: tcp:HOST:PORT, serial:PATH@BAUD, pty:PATH, "
                       "program:COMMAND or a device's path")


def drain(link: Link, quiet: float, most: float = 2.0) -> bytes:
    """What comes until the line was quiet for so long."""
    end, data = time.monotonic() + most, b""
    while time.monotonic() < end:
        piece = link.receive(quiet)
        if not piece:
            break
        data += piece
    return data
