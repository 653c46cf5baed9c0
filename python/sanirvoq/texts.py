"""Packets of the text dialect, by the library, and their errors in words."""

from __future__ import annotations

from dataclasses import dataclass

from .errors import CallError, TextRefused
from .library import buffer, call
from .structures import TextFields

LONGEST = 34
ERROR_FLAG = 0xFFFFFFFF
ERRNO = {
    3: "PID is not 0, or registers were asked for and no process is current",
    13: "the word lies in the protected stretch (the laser power limits)",
    14: "the word is not all in the window",
    16: "the current process is not Stopped",
    22: "a letter that is not served, an address that is no multiple of 4, or a register that is none",
}


@dataclass(frozen=True)
class TextPacket:
    """PID LETTER ADDR DATA; of a reply the last two are ERRFLG and RESPONSE."""

    letter: str
    third: int
    fourth: int
    pid: int = 0


class NoPacket(CallError):
    """A letter that no packet has, or bytes that are no packet's text."""

    def __init__(self, name: str, number: int) -> None:
        super().__init__(name, number, "no text packet")


def encode(packet: TextPacket) -> bytes:
    """The packet's one text, by sanirvoq_text_encode."""
    letter = ord(packet.letter) if len(packet.letter) == 1 and packet.letter.isascii() else 0
    room = buffer(LONGEST)
    fields = TextFields(pid=packet.pid, letter=letter, third=packet.third, fourth=packet.fourth)
    written = call("sanirvoq_text_encode")(fields, room, LONGEST)
    if written.number != 0:
        raise NoPacket("sanirvoq_text_encode", written.number)
    return room.raw[:written.filled]


def decode(text: bytes) -> TextPacket:
    """The packet whose text this is, by sanirvoq_text_decode."""
    found = call("sanirvoq_text_decode")(buffer(text), len(text))
    if found.number != 0:
        raise NoPacket("sanirvoq_text_decode", found.number)
    packet = found.packet
    return TextPacket(chr(packet.letter), packet.third, packet.fourth, packet.pid)


def response(reply: TextPacket) -> int:
    """The response of a reply; an error where its flag says one."""
    if reply.third == ERROR_FLAG:
        meaning = ERRNO.get(reply.fourth, "an errno that the dialect does not have")
        raise TextRefused(reply.fourth, meaning, encode(reply).decode())
    return reply.fourth
