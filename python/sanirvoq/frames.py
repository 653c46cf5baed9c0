"""Packets against noise, by the library: a reader of the line, and a request as a packet."""

from __future__ import annotations

import ctypes
from dataclasses import dataclass
from enum import IntEnum

from .errors import CallError
from .library import buffer, call
from .structures import FrameAnswer

BODY_BUFFER = 534
FRAMED = 26
# A CVK_HDR_DATA packet with no body and sequence 0. The heads to practise with (practice.py, examples/head) take it
# for a wish to be restarted; the protocol itself has none.
RESTART = bytes.fromhex("1d80a08080808081e2c3c01e")


class Answer(IntEnum):
    NOTHING = 0
    PACKET = 1
    BAD_HEADER = 2
    BAD_BODY = 3


@dataclass(frozen=True)
class Packet:
    """What the reader answered, and where in the bytes fed by this call (the offset behind the last byte of it)."""

    kind: Answer
    identifier: int
    index: int
    sequence: int
    request: bool
    body: bytes
    end: int


class FrameReader:
    """Takes the line in pieces of any size, by sanirvoq_frame_feed."""

    def __init__(self) -> None:
        self._state = call("sanirvoq_frame_reader")()
        self._body = buffer(BODY_BUFFER)
        self._feed = call("sanirvoq_frame_feed")

    def feed(self, piece: bytes) -> list[Packet]:
        """Every answer that this piece brings."""
        answers: list[Packet] = []
        lent, at = buffer(piece), 0
        while True:
            fed = self._feed(self._state, ctypes.addressof(lent) + at, len(piece) - at, self._body, BODY_BUFFER)
            if fed.number != 0:
                raise CallError("sanirvoq_frame_feed", fed.number, "the body buffer is too short")
            self._state = fed.reader
            at += fed.taken
            if fed.answer.kind == Answer.NOTHING:
                return answers
            answers.append(self._packet(fed.answer, at))

    def _packet(self, answer: FrameAnswer, end: int) -> Packet:
        body = self._body.raw[:answer.size] if answer.kind == Answer.PACKET else b""
        return Packet(Answer(answer.kind), answer.id, answer.index, answer.sequence, bool(answer.request), body, end)


def frame(sequence: int, message: bytes) -> bytes:
    """Ten bytes as a packet of 26, by sanirvoq_frame_reply: requests and replies have the same form."""
    room = buffer(FRAMED)
    number = call("sanirvoq_frame_reply")(sequence, buffer(message), len(message), room, FRAMED)
    if number != 0:
        meaning = "not ten bytes" if number == 2 else "the sequence is over 255"
        raise CallError("sanirvoq_frame_reply", number, meaning)
    return room.raw[:FRAMED]
