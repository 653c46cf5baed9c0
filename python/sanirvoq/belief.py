"""What the host believes of the head. The protocol cannot list breakpoints, processes or the window: this is what was
done and seen from here. A restart of the head, or another tool on its line, makes it wrong."""

from __future__ import annotations

import dataclasses
import json
from dataclasses import dataclass, field
from pathlib import Path

from .condition import PLACES
from .errors import CommandError

TRAP_LENGTH = 2
SEEN = ("first", "last")


def stretches(seen: dict[int, int]) -> list[tuple[int, str]]:
    """Bytes by their addresses as stretches: where each begins, and its bytes in hex."""
    found: list[tuple[int, bytearray]] = []
    for at in sorted(seen):
        if not found or at != found[-1][0] + len(found[-1][1]):
            found.append((at, bytearray()))
        found[-1][1].append(seen[at])
    return [(start, data.hex()) for start, data in found]


@dataclass
class Believed:
    """A breakpoint that was set from here."""

    site: int
    words: str
    count: int
    time: str


@dataclass
class Belief:
    """Beliefs, and the bytes of the window as they were first seen and as they were last."""

    breakpoints: dict[int, Believed] = field(default_factory=dict)
    processes: list[int] = field(default_factory=list)
    base: int | None = None
    size: int = 0
    protected: tuple[int, int] | None = None
    current: int | None = None
    first: dict[int, int] = field(default_factory=dict)
    last: dict[int, int] = field(default_factory=dict)
    restarts: int = 0

    def seen(self, address: int, data: bytes) -> None:
        """Bytes that were read, or written and read back."""
        for at, byte in enumerate(data, address):
            self.first.setdefault(at, byte)
            self.last[at] = byte

    def changed(self, address: int) -> bool:
        """Whether a byte is another one than when it was first seen."""
        return address in self.first and self.first[address] != self.last[address]

    def restarted(self) -> None:
        """The head said that it was restarted: no breakpoint stands, no process is current."""
        self.breakpoints.clear()
        self.current = None
        self.restarts += 1

    def under_traps(self, address: int, length: int) -> dict[int, int]:
        """Addresses in a stretch that lie under a breakpoint's trap, each with the breakpoint's id."""
        covered = {}
        for ident, one in self.breakpoints.items():
            for at in range(one.site, one.site + TRAP_LENGTH):
                if address <= at < address + length:
                    covered[at] = ident
        return covered

    def places_left(self) -> int:
        return PLACES - sum(one.count for one in self.breakpoints.values())

    def is_protected(self, address: int, length: int = 1) -> bool:
        if self.protected is None:
            return False
        return address < self.protected[1] and address + length > self.protected[0]

    def in_window(self, address: int, length: int) -> bool | None:
        """Whether a stretch lies in the window; nothing where the window is not known."""
        if self.base is None:
            return None
        return self.base <= address and address + length <= self.base + self.size

    # between two commands

    def save(self, path: Path) -> None:
        data = dataclasses.asdict(self)
        for name in SEEN:
            data[name] = stretches(data[name])
        path.write_text(json.dumps(data, indent=1) + "\n", encoding="utf-8")

    @classmethod
    def load(cls, path: Path) -> Belief:
        if not path.exists():
            return cls()
        try:
            data = json.loads(path.read_text(encoding="utf-8"))
            data["breakpoints"] = {int(ident): Believed(**one) for ident, one in data["breakpoints"].items()}
            data["protected"] = tuple(data["protected"]) if data["protected"] else None
            for name in SEEN:
                data[name] = {at: byte for start, text in data[name]
                              for at, byte in enumerate(bytes.fromhex(text), start)}
            return cls(**data)
        except (ValueError, KeyError, TypeError, AttributeError) as error:
            raise CommandError(f"{path} is no session of this tool: {error}") from error
