"""The ten-byte messages: written and read by the library, and told in words."""

from __future__ import annotations

import ctypes
import functools
from dataclasses import dataclass
from enum import IntEnum

from .errors import CallError
from .library import buffer, call
from .structures import Fields

SIZE = 10
REASONS = ("reset", "count", "unk", "inval", "pid", "unsup", "notstop")
STATES = ("Dead", "Moribund", "Ready", "Scheding", "Running", "Queueing", "Wakeme", "Broken", "Stopped", "Rendezvous")
STOPPED = 8
READ_MOST = 9
WRITE_MOST = 4


class Kind(IntEnum):
    """The types that messages have (docs/PROTOCOL.md, "Ten bytes")."""

    RERR = 1
    TMGET = 2
    RMGET = 3
    TMPUT = 4
    RMPUT = 5
    TPROC = 6
    RPROC = 7
    TSTATUS = 8
    RSTATUS = 9
    TRNOTE = 10
    RRNOTE = 11
    TSTOP = 12
    RSTOP = 13
    TSTART = 14
    RSTART = 15
    TCONDBREAK = 16
    RCONDBREAK = 17

    @property
    def title(self) -> str:
        """The name in docs/PROTOCOL.md: Tmget."""
        return self.name[0] + self.name[1:].lower()


@dataclass(frozen=True)
class Message:
    """A message by its fields; a field that its kind does not use stays as it is here."""

    kind: Kind
    value: int = 0
    n: int = 0
    op: str = ""
    code: int = 0
    data: bytes = b""

    @property
    def reason(self) -> str:
        """Of an Rerr: its reason."""
        return REASONS[self.code]


class NoMessage(CallError):
    """Bytes or fields that are no message."""

    def __init__(self, call_name: str, number: int) -> None:
        meaning = "not ten bytes" if number == 2 else "no message"
        super().__init__(call_name, number, meaning)


def encode(message: Message) -> bytes:
    """The ten bytes of a message, by sanirvoq_message_encode."""
    fields = Fields(kind=message.kind, n=message.n, op=ord(message.op or "\0"), code=message.code, value=message.value)
    ctypes.memmove(fields.bytes, message.data.ljust(9, b"\0"), 9)
    room = buffer(SIZE)
    number = call("sanirvoq_message_encode")(fields, room, SIZE)
    if number != 0:
        raise NoMessage("sanirvoq_message_encode", number)
    return room.raw[:SIZE]


def decode(data: bytes) -> Message:
    """The message of these bytes, by sanirvoq_message_decode."""
    found = call("sanirvoq_message_decode")(buffer(data), len(data))
    if found.number != 0:
        raise NoMessage("sanirvoq_message_decode", found.number)
    fields = found.fields
    kind = Kind(fields.kind)
    used = {Kind.RMGET: 9, Kind.TMPUT: fields.n}.get(kind, 0)
    op = chr(fields.op) if kind is Kind.TCONDBREAK else ""
    return Message(kind, fields.value, fields.n, op, fields.code, bytes(fields.bytes)[:used])


@functools.cache
def rerr(reason: str) -> bytes:
    """The ten bytes of an Rerr."""
    return encode(Message(Kind.RERR, code=REASONS.index(reason)))


def read(address: int, n: int) -> Message:
    return Message(Kind.TMGET, address, n)


def write(address: int, data: bytes) -> Message:
    return Message(Kind.TMPUT, address, len(data), data=data)


def of_process(kind: Kind, pid: int) -> Message:
    return Message(kind, pid)


def condition(op: str, value: int = 0) -> Message:
    return Message(Kind.TCONDBREAK, value, op=op)


def state_name(code: int) -> str:
    """The whole name of a state; on the line Rendezvous is cut to nine bytes."""
    return STATES[code] if code < len(STATES) else f"{code:#x}"


_PID_WORDS = {
    Kind.TPROC: "make process {} current", Kind.TSTATUS: "ask the state of process {}",
    Kind.TRNOTE: "ask the note of process {}", Kind.TSTOP: "stop process {} when it is next scheduled",
    Kind.TSTART: "let process {} go on",
}
_OP_WORDS = {
    "n": "begin breakpoint {}", "k": "push: is the process {}", "p": "push {:#x}", "*": "the word at the address",
    "&": "bit-wise and", "=": "equal", "!": "different", "a": "and", "o": "or", "b": "set the breakpoint at {:#x}",
    "d": "delete breakpoint {}",
}
_REPLY_WORDS = {Kind.RMPUT: "written", Kind.RRNOTE: "no note", Kind.RSTOP: "will stop", Kind.RSTART: "goes on",
                Kind.RCONDBREAK: "done"}


def words(message: Message, asked: int = READ_MOST) -> str:
    """What a message says. `asked`: of an Rmget, how many bytes were asked for."""
    kind = message.kind
    if kind is Kind.TMGET:
        return f"read {message.n} at {message.value:#x}"
    if kind is Kind.TMPUT:
        return f"write {message.data.hex(' ') or 'nothing'} at {message.value:#x}"
    if kind in _PID_WORDS:
        return _PID_WORDS[kind].format(message.value)
    if kind is Kind.TCONDBREAK:
        return _OP_WORDS[message.op].format(message.value)
    if kind is Kind.RERR:
        return f"refused: {message.reason}" if message.reason != "reset" else "the stub was restarted"
    if kind is Kind.RMGET:
        return f"bytes {message.data[:asked].hex(' ')}".rstrip()
    if kind is Kind.RPROC:
        return f"its Proc is at {message.value:#010x}"
    if kind is Kind.RSTATUS:
        return state_name(message.code)
    return _REPLY_WORDS[kind]


def meaning(data: bytes, asked: int = READ_MOST) -> str:
    """Ten bytes as a line of a log: the type's name and what it says."""
    try:
        message = decode(data)
    except NoMessage:
        return "no message"
    return f"{message.kind.title}: {words(message, asked)}"
