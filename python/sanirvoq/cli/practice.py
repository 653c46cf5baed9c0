"""practice: a session with a head on this machine, or such a head for others to connect to."""

from __future__ import annotations

import argparse
import dataclasses
from typing import Callable

from .. import qemu
from ..noise import Noise
from ..practice import Kernel, practice_setup, service, worked_setup
from ..serving import listen, serve_pty, serve_tcp
from .bench import Options
from .output import Output, demand_terminal

HEADS = ("small", "worked", "program", "qemu")
PRACTISE = Callable[[Options, Output, str], int]
WELCOME = {
    "small": "a head on this machine: the proved stub over 1,024 bytes at 0x1000 (the last 16 protected), processes 5 "
             "and 7",
    "worked": "the worked setup: the proved stub over 64 bytes at 0x1000, processes 5 and 7",
    "program": "the program of document 01: 64 bytes at 0x1000; its processes do what `event` says",
    "qemu": "examples/head under qemu: a RISC-V head with two processes that measure logs",
}
_PLAYED = ("dump 0x1000 32", "break 3 at 0x1008 if pid == 7", "wait 7", "registers 7", "write 0x1009 aa bb cc",
           "continue 7", "delete 3", "map")
FIRST_STEPS = {
    "small": _PLAYED,
    "worked": _PLAYED,
    "program": ("dump", "break 4 at 0x1008 if pid == 7", "event trap 5 at 0x1008", "event trap 7 at 0x1008", "ps",
                "continue 7"),
    "qemu": ("says", "break 3 at 0x8010006a if pid == 7", "wait 7", "registers 7",
             "write 0x8010006a 13 87 87 02", "says", "delete 3", "continue 7"),
}


def practice_parser() -> argparse.ArgumentParser:
    made = argparse.ArgumentParser("sanirvoq practice", description="A session with a head on this machine.")
    made.add_argument("which", nargs="?", choices=HEADS, default="small", metavar="HEAD",
                      help="; ".join(f"{name}: {text}" for name, text in WELCOME.items()))
    made.add_argument("--noise", type=float, default=0.0, metavar="SHARE",
                      help="the share of bytes that the line loses, and of those that it garbles, as 0.002")
    made.add_argument("--delay", type=float, default=0.0, metavar="SECONDS", help="how late a piece may be")
    made.add_argument("--seed", type=int, default=1, help="of the noise")
    made.add_argument("--serve", metavar="pty|PORT",
                      help="no prompt: the head waits at a pseudo-terminal or a TCP port of this machine for others")
    return made


def greet(which: str, output: Output) -> None:
    output.notice(WELCOME[which])
    for at, step in enumerate(FIRST_STEPS[which]):
        output.console.print(f"{'      ' if at else 'try:  '}{step}")
    output.console.print("`help` lists all commands, the tab key completes, `quit` ends.")


def run_practice(words: list[str], options: Options, output: Output, practise: PRACTISE) -> int:
    given = practice_parser().parse_args(words)
    noise = Noise(given.noise, given.noise, given.noise / 4, given.delay, given.seed)
    options = dataclasses.replace(options, noise=noise if given.noise or given.delay else None)
    if given.serve:
        return serve(given.which, given.serve, options, output)
    demand_terminal()
    if not output.as_json:
        greet(given.which, output)
    if given.which == "qemu":
        with qemu.running() as address:
            return practise(dataclasses.replace(options, head=address), output, "qemu")
    head = {"small": "practice", "worked": "practice:worked", "program": "program"}[given.which]
    return practise(dataclasses.replace(options, head=head), output, "practice")


def serve(which: str, where: str, options: Options, output: Output) -> int:
    """A head for others, until it is interrupted."""
    if which not in ("small", "worked"):
        output.errors.print("only the heads small and worked can be served")
        return 2
    take = service(Kernel(worked_setup() if which == "worked" else practice_setup()), options.blocks)
    if where == "pty":
        path, thread = serve_pty(take, options.noise)
        print(f"pty:{path}", flush=True)
        thread.join()
        return 0
    if not where.isdigit():
        output.errors.print("--serve takes pty or a port's number")
        return 2
    listener = listen(int(where))
    print(f"tcp:127.0.0.1:{listener.getsockname()[1]}", flush=True)
    serve_tcp(listener, take, options.noise)
    return 0
