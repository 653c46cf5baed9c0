"""Heads, lines and the command line, for all tests."""

from __future__ import annotations

import os
import signal
import subprocess
import sys
from dataclasses import dataclass
from pathlib import Path
from typing import Callable, Iterator

import pytest

PYTHON = Path(__file__).resolve().parents[1]
REPOSITORY = PYTHON.parent
sys.path.insert(0, str(PYTHON))

from sanirvoq import Head, Line, Settings, connect  # noqa: E402
from sanirvoq.practice import Kernel, practice_setup, service  # noqa: E402
from sanirvoq.exchange import BlockExchange, FrameExchange  # noqa: E402
from sanirvoq.log import Log  # noqa: E402
from sanirvoq.noise import Noise  # noqa: E402
from sanirvoq.serving import PracticeLink  # noqa: E402

PLAIN = bytes(i & 0xFF for i in range(1024))

# A shell lets what it starts in the background ignore Ctrl-C, and so would every program that the tests start.
signal.signal(signal.SIGINT, signal.default_int_handler)


@dataclass
class Ran:
    """What a run of the command gave."""

    status: int
    out: str
    err: str


@pytest.fixture(autouse=True)
def state(tmp_path: Path, monkeypatch: pytest.MonkeyPatch) -> None:
    """No test sees the history of a person, or a head of the environment."""
    monkeypatch.setenv("XDG_STATE_HOME", str(tmp_path / "state"))
    monkeypatch.delenv("SANIRVOQ_HEAD", raising=False)
    monkeypatch.setenv("PYTHONPATH", str(PYTHON))


@pytest.fixture
def command(tmp_path: Path) -> Callable[..., Ran]:
    """Runs the command as a person does at a shell, in an empty folder."""
    def run(*words: str, stdin: str = "", env: dict[str, str] | None = None) -> Ran:
        done = subprocess.run([sys.executable, "-m", "sanirvoq", *words], capture_output=True, text=True, input=stdin,
                              cwd=tmp_path, env={**os.environ, **(env or {})}, timeout=60, check=False)
        return Ran(done.returncode, done.stdout, done.stderr)
    return run


@dataclass
class Pair:
    """A head as the host sees it, and the kernel behind it."""

    head: Head
    kernel: Kernel
    log: Log

    def memory(self) -> bytes:
        """Real memory, traps and all."""
        return self.kernel.stub.memory.raw[:1024]

    def sent(self) -> list[str]:
        """The requests that were sent, by their meaning."""
        return [line.split("  ", 1)[1] for line in self.log.lines if " > " in line]


def practised(blocks: bool = False, settings: Settings | None = None, noise: Noise | None = None) -> Pair:
    kernel = Kernel(practice_setup())
    log = Log()
    kind = BlockExchange if blocks else FrameExchange
    link = PracticeLink(service(kernel, blocks), noise)
    return Pair(Head(kind(link, log, settings or Settings(0.5, 5))), kernel, log)


@pytest.fixture
def pair() -> Iterator[Pair]:
    made = practised()
    yield made
    made.head.close()


@pytest.fixture
def program(required: Callable[[bool, str], None]) -> Iterator[Head]:
    """The program of document 01 as a head."""
    required((REPOSITORY / "target" / "bin" / "program_main").is_file(), "make it with `tools/build.sh program_main`")
    made = connect("program", Line())
    yield made
    made.close()


def pytest_addoption(parser: pytest.Parser) -> None:
    parser.addoption("--require-all", action="store_true", help="what is missing fails, and is not left out")


@pytest.fixture
def required(request: pytest.FixtureRequest) -> Callable[[bool, str], None]:
    """Says that something is missing: a failure with --require-all, else the test is left out."""
    def check(there: bool, how: str) -> None:
        if not there:
            (pytest.fail if request.config.getoption("--require-all") else pytest.skip)(how)
    return check
