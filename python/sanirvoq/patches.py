"""The fewest writes from what the head has to what is wanted: sanirvoq_patch_plan, and sanirvoq_patch_check over it.

Both calls work over a record. Here that is a local one: its window is the stretch that was read from the head, which is
plain memory, so it has no breakpoint.
"""

from __future__ import annotations

import ctypes
from dataclasses import dataclass

from .errors import CallError, CommandError, Differs
from .images import Run, differences
from .library import buffer, call
from .messages import WRITE_MOST
from .structures import PlannedWrite
from .stub import Setup, Stub

MOST_WRITES = 16384
ACCEPTED, BROKEN = 0, 1
PROTECTED_DIFFERS = 21


@dataclass(frozen=True)
class Write:
    """One write of 1 to 4 bytes."""

    address: int
    data: bytes


@dataclass(frozen=True)
class Plan:
    """What differs, and the fewest writes that change it."""

    address: int
    found: bytes
    wanted: bytes
    runs: list[Run]
    writes: list[Write]

    @property
    def differing(self) -> int:
        return sum(run.length for run in self.runs)


def clipped(protected: tuple[int, int] | None, low: int, high: int) -> tuple[int, int] | None:
    """The part of the protected stretch that lies in another one."""
    if protected is None or protected[0] >= high or protected[1] <= low:
        return None
    return max(protected[0], low), min(protected[1], high)


def plan(address: int, found: bytes, wanted: bytes, protected: tuple[int, int] | None = None) -> Plan:
    """The plan for a stretch; address and length are multiples of 4."""
    stub = Stub(Setup(address, found, ((1, 0),), clipped(protected, address, address + len(found))))
    offers = (PlannedWrite * MOST_WRITES)()
    room = buffer(len(found))
    made = call("sanirvoq_patch_plan")(*stub.lent(), buffer(wanted), len(wanted), room, len(found), offers, MOST_WRITES)
    if made.number == PROTECTED_DIFFERS:
        raise CommandError(f"the image differs from the head in the protected stretch (the laser power limits), first "
                           f"at {made.address:#x}: nothing was sent")
    if made.number != 0:
        raise CallError("sanirvoq_patch_plan", made.number, "no plan")
    writes = [Write(one.address, bytes(one.bytes)[:one.count]) for one in offers[:made.writes]]
    check(stub, writes, wanted)
    return Plan(address, found, wanted, differences(found, wanted), writes)


def check(stub: Stub, writes: list[Write], wanted: bytes) -> None:
    """An error unless the checker accepts these writes, in their order, over the stub's plain window."""
    offers = (PlannedWrite * max(len(writes), 1))()
    for place, one in zip(offers, writes):
        place.address, place.count = one.address, len(one.data)
        ctypes.memmove(place.bytes, one.data.ljust(WRITE_MOST, b"\0"), WRITE_MOST)
    room = buffer(len(wanted))
    found = call("sanirvoq_patch_check")(*stub.lent(), offers, len(writes), buffer(wanted), len(wanted), room,
                                         len(wanted))
    if found.number != 0:
        raise CallError("sanirvoq_patch_check", found.number, "no verdict")
    if found.verdict == BROKEN:
        raise Differs(f"write {found.index} of the plan leaves the window, meets the protected stretch, or is not of 1 "
                      "to 4 bytes")
    if found.verdict != ACCEPTED:
        raise Differs("these writes do not give the wanted image")
