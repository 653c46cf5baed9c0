"""Conditions in words: what they compile to, what they mean on the stub, and how faults are shown."""

from __future__ import annotations

import random

import pytest
from conftest import practised

from sanirvoq.breakpoints import parse
from sanirvoq.condition import depths
from sanirvoq.errors import CommandError
from sanirvoq.registers import BLOCK
from sanirvoq.stub import STOP

COMPILED = {
    "break 4 at 0x1008": "",
    "break 4 at 0x1008 if pid == 7": "k 7|a",
    "break 4 at 0x1008 if 7 == pid": "k 7|a",
    "break 4 at 0x1008 if word[0x1008] == 0x0b0a0908": "p 0x1008|*|p 0xb0a0908|=|a",
    "break 4 at 0x1008 if pid != 7": "k 7|p 0x0|=|a",
    "break 4 at 0x1008 if word[4] & 3 != 0 or pid == 5": "p 0x4|*|p 0x3|&|p 0x0|!|k 5|o|a",
    "break 4 at 0x1008 if not (pid == 5 and 1)": "k 5|p 0x1|a|p 0x0|=|a",
    "break 4 at 0x1008 if word[word[0x1000]]": "p 0x1000|*|*|a",
}


@pytest.mark.parametrize("line, elements", COMPILED.items())
def test_compiled(line: str, elements: str) -> None:
    found = parse(line)
    assert "|".join(str(one) for one in found.elements) == elements
    assert ([1] + depths(found.elements))[-1] == 1


FAULTS = {
    "break 300 at 0x1008": ("300", "too large"),
    "break toad at 0x1008": ("toad", "no number"),
    "break 3 on 0x1008": ("on", "`at` is expected"),
    "break 3 at 0x1009": ("0x1009", "even"),
    "break 3 at 0x100000000": ("0x100000000", "too large"),
    "break 3 at 0x1008 when pid == 7": ("when", "`if` is expected"),
    "break 3 at 0x1008 if pid": ("pid", "only in a comparison"),
    "break 3 at 0x1008 if pid == word[4]": ("word", "with a number"),
    "break 3 at 0x1008 if pid = 7": ("=", "=="),
    "break 3 at 0x1008 if pid < 7": ("<", "order"),
    "break 3 at 0x1008 if 1 == 2 == 3": ("== 3", "two values at a time"),
    "break 3 at 0x1008 if frog == 1": ("frog", "no number"),
    "break 3 at 0x1008 if and": ("and", "a value is expected"),
    "break 3 at 0x1008 if word(4)": ("(4", "word needs an address"),
    "break 3 at 0x1008 if 1 2": ("2", "not expected"),
    "break 3 at 0x1008 if $": ("$", "no part"),
}


@pytest.mark.parametrize("line, fault", FAULTS.items())
def test_the_fault_has_its_place(line: str, fault: tuple[str, str]) -> None:
    with pytest.raises(CommandError) as caught:
        parse(line)
    assert fault[1] in str(caught.value)
    assert caught.value.at == line.rindex(fault[0])


@pytest.mark.parametrize("line", ["break 3", "break 3 at 0x1008 if", "break 3 at 0x1008 if (pid == 7",
                                  "break 3 at 0x1008 if word[4", "break 3 at 0x1008 if pid =="])
def test_what_is_missing_at_the_end(line: str) -> None:
    with pytest.raises(CommandError) as caught:
        parse(line)
    assert caught.value.at == len(line)


def test_too_many_elements() -> None:
    words = " or ".join(f"pid == {i}" for i in range(1, 33))
    assert len(parse(f"break 1 at 0x1008 if {words}").elements) == 64
    with pytest.raises(CommandError, match="66 elements, at most 64"):
        parse(f"break 1 at 0x1008 if {words} or pid == 33")


def made_up(chance: random.Random, memory: bytes, pid: int, depth: int) -> tuple[str, int]:
    """A random condition in words and its value, by Python."""
    kind = chance.randrange(9) if depth else chance.randrange(3)
    if kind == 0:
        value = chance.choice([0, 1, 2, 0xFF, 0xFFFFFFFF])
        return chance.choice([str(value), hex(value)]), value
    if kind == 1:
        at = chance.randrange(len(memory) - 3)
        return f"word[{0x1000 + at:#x}]", int.from_bytes(memory[at:at + 4], "little")
    if kind == 2:
        other = chance.choice([5, 7])
        same = chance.random() < 0.5
        return f"(pid {'==' if same else '!='} {other})", int((pid == other) == same)
    one, a = made_up(chance, memory, pid, depth - 1)
    two, b = made_up(chance, memory, pid, depth - 1)
    return {3: (f"({one} == {two})", int(a == b)), 4: (f"({one} != {two})", int(a != b)),
            5: (f"({one} and {two})", int(bool(a and b))), 6: (f"({one} or {two})", int(bool(a or b))),
            7: (f"({one} & {two})", a & b), 8: (f"(not {one})", int(not a))}[kind]


def test_conditions_mean_what_they_say() -> None:
    """Random conditions, set through the line and tried by a trap, beside Python's opinion."""
    chance = random.Random(3)
    pair = practised()
    reached = {0: 0, 1: 0}
    for _ in range(300):
        pid = chance.choice([5, 7])
        words, value = made_up(chance, pair.kernel.stub.memory.raw[:1024], pid, 4)
        found = parse(f"break 9 at 0x1100 if {words}")
        pair.head.set_breakpoint(9, 0x1100, found.elements)
        block = bytes(BLOCK - 4) + (0x1100).to_bytes(4, "big")
        result = pair.kernel.stub.trap(pid, block)
        assert (result.number, result.answer == STOP) == (0, bool(value)), words
        reached[int(bool(value))] += 1
        pair.head.delete_breakpoint(9)
        pair.head.start(pid)
    assert min(reached.values()) > 50
