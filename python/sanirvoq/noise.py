"""A bad cable: bytes that are lost, garbled, doubled and late, by a seed, so that a run can be made again."""

from __future__ import annotations

import random
import time
from dataclasses import dataclass


@dataclass
class Noise:
    """The share of bytes that are lost, garbled and doubled, and the longest delay of a piece in seconds."""

    lose: float = 0.0
    garble: float = 0.0
    double: float = 0.0
    delay: float = 0.0
    seed: int = 1

    def __post_init__(self) -> None:
        self._random = random.Random(self.seed)

    def carry(self, data: bytes) -> bytes:
        """What arrives of what was sent."""
        if self.delay:
            time.sleep(self._random.random() * self.delay)
        arrived = bytearray()
        for byte in data:
            chance = self._random.random()
            if chance < self.lose:
                continue
            if chance < self.lose + self.garble:
                byte ^= 1 << self._random.randrange(8)
            arrived.append(byte)
            if chance > 1 - self.double:
                arrived.append(byte)
        return bytes(arrived)
