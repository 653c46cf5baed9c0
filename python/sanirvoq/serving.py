"""A practice head behind a real line: a socket pair for one prompt, a pseudo-terminal or a TCP port for others."""

from __future__ import annotations

import os
import socket
import threading
import tty

from .errors import LineError
from .links import PIECE, DescriptorLink
from .noise import Noise
from .practice import Service


def serve(descriptor: int, take: Service, noise: Noise | None = None) -> None:
    """Answers what comes until the other end is gone."""
    while True:
        try:
            piece = os.read(descriptor, PIECE)
            if not piece:
                return
            back = take(noise.carry(piece) if noise else piece)
            back = noise.carry(back) if noise and back else back
            while back:
                back = back[os.write(descriptor, back):]
        except OSError:
            return


def in_background(descriptor: int, take: Service, noise: Noise | None = None) -> threading.Thread:
    """The same beside the rest of the program; the descriptor is closed at the end."""
    def run() -> None:
        serve(descriptor, take, noise)
        os.close(descriptor)
    thread = threading.Thread(target=run, daemon=True)
    thread.start()
    return thread


class PracticeLink(DescriptorLink):
    """A line to a practice head in this process."""

    def __init__(self, take: Service, noise: Noise | None = None) -> None:
        ours, theirs = socket.socketpair()
        in_background(theirs.detach(), take, noise)
        descriptor = ours.detach()
        super().__init__(descriptor, descriptor)


def serve_pty(take: Service, noise: Noise | None = None) -> tuple[str, threading.Thread]:
    """A practice head behind a pseudo-terminal: the path that others open."""
    ours, theirs = os.openpty()
    tty.setraw(theirs)
    return os.ttyname(theirs), in_background(ours, take, noise)


def listen(port: int) -> socket.socket:
    """A listening socket on this machine only; port 0 takes a free one."""
    listener = socket.socket()
    listener.setsockopt(socket.SOL_SOCKET, socket.SO_REUSEADDR, 1)
    try:
        listener.bind(("127.0.0.1", port))
    except OSError as error:
        raise LineError(f"cannot listen on port {port}: {error.strerror}") from error
    listener.listen(1)
    return listener


def serve_tcp(listener: socket.socket, take: Service, noise: Noise | None = None) -> None:
    """One caller after the other; the head goes on between them."""
    while True:
        try:
            caller, _ = listener.accept()
        except OSError:
            return
        with caller:
            caller.setsockopt(socket.IPPROTO_TCP, socket.TCP_NODELAY, 1)
            serve(caller.fileno(), take, noise)
