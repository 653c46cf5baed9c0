"""What the host believes, kept between two commands."""

from __future__ import annotations

from pathlib import Path
from typing import Callable

import pytest
from conftest import Ran

from sanirvoq.belief import Belief, Believed, stretches
from sanirvoq.errors import CommandError


def test_saved_and_loaded(tmp_path: Path) -> None:
    belief = Belief({3: Believed(0x1008, "pid == 7", 2, "20:00:00")}, [5, 7], 0x1000, 64, (0x1020, 0x1024), 7)
    belief.seen(0x1000, b"abc")
    belief.seen(0x1010, b"xyz")
    belief.seen(0x1001, b"Q")
    belief.save(tmp_path / "mill.json")
    assert Belief.load(tmp_path / "mill.json") == belief
    assert belief.changed(0x1001) and not belief.changed(0x1000) and not belief.changed(0x1020)
    assert Belief.load(tmp_path / "none.json") == Belief()


def test_a_file_that_is_no_session(tmp_path: Path, command: Callable[..., Ran]) -> None:
    for text in ("frog", "[]", "{}", '{"breakpoints": 3}'):
        (tmp_path / "mill.json").write_text(text)
        with pytest.raises(CommandError, match="is no session"):
            Belief.load(tmp_path / "mill.json")
    ran = command("--session", "mill.json", "--head", "practice", "list")
    assert ran.status == 2 and len(ran.err.splitlines()) == 1


def test_stretches() -> None:
    assert stretches({}) == [] and stretches({5: 1, 6: 2, 9: 255}) == [(5, "0102"), (9, "ff")]


def test_under_traps() -> None:
    belief = Belief({3: Believed(0x1008, "", 0, ""), 4: Believed(0x100A, "", 0, "")})
    assert belief.under_traps(0x1009, 2) == {0x1009: 3, 0x100A: 4}
    belief.restarted()
    assert not belief.under_traps(0x1000, 64) and belief.restarts == 1


def test_places() -> None:
    assert Belief({1: Believed(0, "", 60, ""), 2: Believed(2, "", 60, "")}).places_left() == 8
