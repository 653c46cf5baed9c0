"""Lines of random words: each has an exit status, none breaks the tool, and a bad one changes nothing."""

from __future__ import annotations

import random
from pathlib import Path

import pytest
from conftest import PLAIN, practised

from sanirvoq.breakpoints import parse
from sanirvoq.cli.bench import Bench, Options
from sanirvoq.cli.output import Output
from sanirvoq.cli.table import COMMANDS, perform
from sanirvoq.errors import CommandError

LEFT_OUT = {"wait", "run", "quit", "patch"}  # patience, files of the reader's, nothing, and its own tests
WORDS = ["0x1000", "0x1008", "0x1009", "0x13fe", "0x1400", "0x20", "0", "1", "2", "3", "4", "7", "5", "16", "0x10",
         "255", "256", "0xffffffff", "at", "if", "pid", "==", "!=", "and", "or", "not", "&", "word[0x1008]", "(", ")",
         "of", "=", "a0", "pc", "zero", "aa", "aabb", "hex", "bytes", "file", "image.bin", "none.bin", "resume", "svg",
         "find", "none", "break", "i", "I", "r", "trap", "frog", "-1", "'", '"', "word[", "]", "\x00", "\u00e9"]


def test_random_commands(tmp_path: Path, capfd: pytest.CaptureFixture[str], monkeypatch: pytest.MonkeyPatch) -> None:
    monkeypatch.chdir(tmp_path)
    (tmp_path / "image.bin").write_bytes(PLAIN[:20])
    chance = random.Random(6)
    pair = practised()
    bench = Bench(Options(head="practice"), Output())
    bench._head = pair.head
    names = [name for name in COMMANDS if name not in LEFT_OUT]
    reached: dict[int, int] = {}
    for _ in range(6000):
        line = " ".join([chance.choice(names), *chance.choices(WORDS, k=chance.randrange(7))])
        before = pair.memory(), len(pair.kernel.stub.entries())
        status = perform(bench, line)
        out, err = capfd.readouterr()
        reached[status] = reached.get(status, 0) + 1
        assert status in (0, 1, 2, 3), (line, status, err)
        assert bool(err) == (status >= 2), (line, err)
        if status == 2:
            assert (pair.memory(), len(pair.kernel.stub.entries())) == before and not out, line
    assert min(reached.get(status, 0) for status in (0, 2, 3)) > 30, reached


def test_random_conditions() -> None:
    chance = random.Random(7)
    good = 0
    for _ in range(20000):
        line = "break 3 at 0x1008 if " + " ".join(chance.choices(WORDS[6:30], k=chance.randrange(8)))
        try:
            parse(line)
            good += 1
        except CommandError as error:
            assert error.at is not None and 0 <= error.at <= len(line), line
    assert good > 100
