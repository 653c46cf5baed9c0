"""What differs between two images, by the library."""

from __future__ import annotations

import ctypes
from typing import NamedTuple

from .errors import CallError
from .library import buffer, call

MOST = 65536


class Run(NamedTuple):
    """A maximal run of differing bytes: its first byte's offset, and its length."""

    start: int
    length: int


def differences(one: bytes, other: bytes) -> list[Run]:
    """Every maximal run of differing bytes, rising, by sanirvoq_image_differences."""
    function = call("sanirvoq_image_differences")
    lent = buffer(one), len(one), buffer(other), len(other)
    counted = function(*lent, (ctypes.c_uint32 * 1)(), 0)
    if counted.number == 8:
        raise CallError("sanirvoq_image_differences", 8, "images of unequal length, or over 65,536 bytes")
    places = 2 * counted.runs
    room = (ctypes.c_uint32 * max(places, 1))()
    found = function(*lent, room, places)
    if found.number != 0:
        raise CallError("sanirvoq_image_differences", found.number, "the list lacks room")
    return [Run(room[2 * i], room[2 * i + 1]) for i in range(found.runs)]
