"""A head over TCP, a pseudo-terminal, a serial port and a program."""

from __future__ import annotations

import signal
import subprocess
import sys
from typing import Iterator

import pytest
from conftest import PLAIN, Ran
from typing import Callable

from sanirvoq import CommandError, LineError, connect
from sanirvoq.links import open_link


@pytest.fixture
def served(request: pytest.FixtureRequest) -> Iterator[str]:
    """`sanirvoq practice --serve ..` as a process of its own; its address."""
    words = [sys.executable, "-m", "sanirvoq", *request.param[1:], "practice", "--serve", request.param[0]]
    process = subprocess.Popen(words, stdout=subprocess.PIPE, text=True)
    assert process.stdout is not None
    yield process.stdout.readline().strip()
    process.send_signal(signal.SIGINT)
    assert process.wait(timeout=10) == 130
    process.stdout.close()


@pytest.mark.parametrize("served", [("0",), ("pty",)], indirect=True)
def test_frames(served: str) -> None:
    with connect(served) as head:
        assert head.read(0x1000, 50) == PLAIN[:50]
        head.set_breakpoint(3, 0x1100)


@pytest.mark.parametrize("served", [("pty",)], indirect=True)
def test_a_serial_port(served: str) -> None:
    """pyserial over a pseudo-terminal."""
    with connect(served.replace("pty:", "serial:") + "@115200") as head:
        assert head.read(0x1000, 50) == PLAIN[:50]


@pytest.mark.parametrize("served", [("0",)], indirect=True)
def test_the_head_goes_on_between_two_callers(served: str, command: Callable[..., Ran]) -> None:
    """Commands one by one at the shell, with a session file for what is believed."""
    def run(*words: str) -> Ran:
        return command("--head", served, "--session", "mill.json", *words)
    assert run("break", "3", "at", "0x1100").out == "breakpoint 3 stands at 0x1100\n"
    assert "0x00001100" in run("list").out
    again = run("break", "3", "at", "0x1102")
    assert again.status == 2 and "stands already" in again.err
    assert run("delete", "3").status == 0
    assert "no breakpoint of this side stands" in run("list").out
    assert run("delete", "3").status == 3


def test_addresses_that_are_none() -> None:
    for address in ("tcp:nowhere", "frog", "serial:", "practice:frog", "tcp::1"):
        with pytest.raises(CommandError):
            connect(address)
    for address in ("tcp:127.0.0.1:1", "serial:/dev/none@9600", "pty:/dev/none", "program:/no/such/program"):
        with pytest.raises(LineError):
            connect(address)


def test_a_program_that_ends() -> None:
    link = open_link("program:true")
    with pytest.raises(LineError):
        link.receive(5)
    link.close()
