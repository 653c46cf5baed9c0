"""The sessions that README.md shows are what happens."""

from __future__ import annotations

import shutil
from pathlib import Path
from typing import Callable

import pytest
from conftest import REPOSITORY
from transcripts import blocks, comparable, session

from sanirvoq import qemu


def test_there_are_sessions() -> None:
    assert blocks("practice") and blocks("qemu")


@pytest.mark.parametrize("block", blocks("practice"), ids=lambda block: "session")
def test_practice(block: str, tmp_path: Path) -> None:
    assert comparable(session("practice", block, tmp_path)) == comparable(block)


@pytest.mark.parametrize("block", blocks("qemu"), ids=lambda block: "session")
def test_qemu(block: str, tmp_path: Path, required: Callable[[bool, str], None]) -> None:
    required(shutil.which(qemu.EMULATOR) is not None, "apt-get update && apt-get install -y qemu-system-misc")
    required((REPOSITORY / qemu.IMAGE).is_file(), "make it with examples/head/build.sh")
    shown = session("qemu", block, tmp_path)
    assert comparable(shown) == comparable(block)
    for line in block.splitlines():
        if line.startswith("head: "):
            assert line in shown, line
