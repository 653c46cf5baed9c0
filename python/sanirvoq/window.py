"""Where the head's window lies. The protocol does not tell it, but a read outside is refused, so it can be found."""

from __future__ import annotations

from .errors import CommandError, Refused
from .head import Head

LOWEST = 4096
MOST = 65536
GUESSES = (0x1000, 0x80000000, 0x80100000)


def is_served(head: Head, address: int) -> bool:
    """Whether the byte at an address is in the window: a read of it changes nothing."""
    try:
        head.read(address, 1)
    except Refused as error:
        if error.reason != "inval":
            raise
        return False
    return True


def border(head: Head, inside: int, outside: int) -> int:
    """The last served address on the way from one inside to one outside, by halving."""
    while abs(outside - inside) > 1:
        middle = (inside + outside) // 2
        if is_served(head, middle):
            inside = middle
        else:
            outside = middle
    return inside


def find(head: Head, address: int) -> tuple[int, int]:
    """Base and size of the window that has this address."""
    if address < LOWEST or not is_served(head, address):
        raise CommandError(f"the head serves no memory at {address:#x}: name an address in its window")
    low = border(head, address, max(LOWEST, address - MOST) - 1)
    high = border(head, address, min(address + MOST, 2**32))
    return low, high - low + 1


def guess(head: Head) -> tuple[int, int]:
    """The window at one of the usual addresses."""
    for address in GUESSES:
        if is_served(head, address):
            return find(head, address)
    raise CommandError("the window is not where this tool looks first: say `window find ADDRESS` with an address in it")
