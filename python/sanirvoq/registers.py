"""The saved registers by their RISC-V ABI names."""

from __future__ import annotations

NAMES = ("zero", "ra", "sp", "gp", "tp", "t0", "t1", "t2", "s0", "s1", "a0", "a1", "a2", "a3", "a4", "a5", "a6", "a7",
         "s2", "s3", "s4", "s5", "s6", "s7", "s8", "s9", "s10", "s11", "t3", "t4", "t5", "t6", "status", "pc")
COUNT = len(NAMES)
PC = NAMES.index("pc")
BLOCK = 4 * COUNT


def number_of(name: str) -> int | None:
    """The number of a register by its ABI name, fp, or x0 to x31."""
    if name == "fp":
        return NAMES.index("s0")
    if name in NAMES:
        return NAMES.index(name)
    if name[:1] == "x" and name[1:].isdigit() and int(name[1:]) < 32:
        return int(name[1:])
    return None


def values(block: bytes) -> dict[str, int]:
    """The registers of a block of 136 bytes, high-order first."""
    return {name: int.from_bytes(block[4 * i:4 * i + 4], "big") for i, name in enumerate(NAMES)}
