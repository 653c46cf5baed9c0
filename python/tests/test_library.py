"""What is said where the archive cannot be had."""

from __future__ import annotations

import subprocess
from pathlib import Path
from typing import Callable

import pytest
from conftest import Ran
from terminal import Person


def test_no_archive(command: Callable[..., Ran], tmp_path: Path) -> None:
    ran = command("--head", "practice", "read", "0x1000", "4", env={"SANIRVOQ_LIB": str(tmp_path)})
    assert ran.status == 5
    assert "no libsanirvoq.a in" in ran.err and "tools/build.sh sanirvoq" in ran.err
    assert len(ran.err.splitlines()) == 1 and not ran.out


def test_no_archive_at_all(command: Callable[..., Ran], tmp_path: Path) -> None:
    (tmp_path / "libsanirvoq.a").write_bytes(b"this is no archive")
    ran = command("--head", "practice", "read", "0x1000", "4",
                  env={"SANIRVOQ_LIB": str(tmp_path), "XDG_CACHE_HOME": str(tmp_path / "cache")})
    assert ran.status == 5 and "gcc cannot link" in ran.err
    assert not list((tmp_path / "cache").rglob("*.so"))


def test_an_archive_that_lacks_a_call(command: Callable[..., Ran], tmp_path: Path) -> None:
    source = tmp_path / "empty.c"
    source.write_text("int nothing;\n")
    subprocess.run(["gcc", "-fPIC", "-c", "empty.c"], cwd=tmp_path, check=True)
    subprocess.run(["ar", "rc", "libsanirvoq.a", "empty.o"], cwd=tmp_path, check=True)
    ran = command("--head", "practice", "read", "0x1000", "4",
                  env={"SANIRVOQ_LIB": str(tmp_path), "XDG_CACHE_HOME": str(tmp_path / "cache")})
    assert ran.status == 5 and "the library has no sanirvoq_" in ran.err and "older" in ran.err


def test_linked_once(command: Callable[..., Ran], tmp_path: Path) -> None:
    cache = {"XDG_CACHE_HOME": str(tmp_path / "cache")}
    assert command("--head", "practice", "read", "0x1000", "4", env=cache).status == 0
    [made] = (tmp_path / "cache").rglob("*.so")
    first = made.stat().st_mtime_ns
    assert command("--head", "practice", "read", "0x1000", "4", env=cache).status == 0
    assert made.stat().st_mtime_ns == first


def test_a_prompt_without_the_archive(tmp_path: Path, monkeypatch: pytest.MonkeyPatch) -> None:
    """The practice head cannot be had either, so the prompt does not begin."""
    monkeypatch.setenv("SANIRVOQ_LIB", str(tmp_path))
    person = Person(tmp_path, "practice")
    person.sees(lambda: False)
    person.child.close()
    assert person.child.exitstatus == 5 and "tools/build.sh sanirvoq" in person.text()


def test_a_prompt_without_a_terminal(command: Callable[..., Ran]) -> None:
    for words in ([], ["practice"], ["--head", "practice"]):
        ran = command(*words)
        assert ran.status == 2 and "a prompt needs a terminal" in ran.err
