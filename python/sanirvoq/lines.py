"""Lines of text on a line that carries frames too.

A text stands between two packets, in printable ASCII, and ends with a line feed. Every byte of a packet has its high
bit set or is 1d or 1e, so no packet holds a line, and a reader of frames skips the text.
"""

from __future__ import annotations

LINE_FEED, RETURN = 0x0A, 0x0D
LONGEST = 256


class LineReader:
    """Takes the line in pieces of any size."""

    def __init__(self) -> None:
        self._held = bytearray()

    def feed(self, piece: bytes) -> list[str]:
        """Every whole line that this piece brings; another byte drops what is held."""
        lines = []
        for byte in piece:
            if byte == LINE_FEED:
                if self._held:
                    lines.append(self._held.decode("ascii"))
                self._held.clear()
            elif 0x20 <= byte < 0x7F and len(self._held) < LONGEST:
                self._held.append(byte)
            elif byte != RETURN:
                self._held.clear()
        return lines
