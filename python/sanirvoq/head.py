"""A head: what its service line can do, one method each."""

from __future__ import annotations

from types import TracebackType
from typing import Iterable, Iterator

from . import registers, texts
from .condition import Element
from .errors import LineError, Refused
from .exchange import Exchange
from .messages import (READ_MOST, STOPPED, WRITE_MOST, Kind, Message, NoMessage, condition, decode, encode, of_process,
                       read, state_name, write)
from .refusals import refusal
from .repeat import is_repeatable

REPLY_OF = {Kind.TMGET: Kind.RMGET, Kind.TMPUT: Kind.RMPUT, Kind.TPROC: Kind.RPROC, Kind.TSTATUS: Kind.RSTATUS,
            Kind.TRNOTE: Kind.RRNOTE, Kind.TSTOP: Kind.RSTOP, Kind.TSTART: Kind.RSTART,
            Kind.TCONDBREAK: Kind.RCONDBREAK}
WHOLE_TRIES = 20


class Head:
    """A head at the other end of an exchange. Every method raises Refused, LineError, or returns."""

    def __init__(self, exchange: Exchange) -> None:
        self.exchange = exchange

    def __enter__(self) -> Head:
        return self

    def __exit__(self, kind: type[BaseException] | None, error: BaseException | None,
                 trace: TracebackType | None) -> None:
        self.close()

    def close(self) -> None:
        self.exchange.close()

    def request(self, message: Message) -> tuple[Message, int]:
        """Sends a request. Gives its reply and how often it was sent; an error where the reply is Rerr."""
        data, tries = self.exchange.ask(encode(message), is_repeatable(message), message.n or READ_MOST)
        try:
            reply = decode(data)
        except NoMessage:
            raise LineError(f"the head's answer is no message: {data.hex(' ')}", known=False) from None
        if reply.kind is Kind.RERR:
            if tries > 1 and message.op == "d" and reply.reason == "inval":
                return Message(Kind.RCONDBREAK), tries
            raise refusal(reply.reason, message)
        if reply.kind is not REPLY_OF[message.kind]:
            raise LineError(f"the head answered {message.kind.title} with {reply.kind.title}", known=False)
        return reply, tries

    # memory

    def pieces(self, address: int, length: int) -> Iterator[tuple[int, bytes]]:
        """The bytes of a stretch as they come, nine at a time: each piece with its address."""
        for at in range(address, address + length, READ_MOST):
            n = min(READ_MOST, address + length - at)
            reply, _ = self.request(read(at, n))
            yield at, reply.data[:n]

    def read(self, address: int, length: int) -> bytes:
        """Plain memory: traps are never seen."""
        return b"".join(data for _, data in self.pieces(address, length))

    def put(self, address: int, data: bytes) -> None:
        """One write of at most four bytes."""
        self.request(write(address, data))

    def write(self, address: int, data: bytes) -> None:
        """Writes four bytes at a time. A byte under a trap is kept with its breakpoint, and the trap stays."""
        for at in range(0, len(data), WRITE_MOST):
            self.put(address + at, data[at:at + WRITE_MOST])

    # processes

    def select(self, pid: int) -> int:
        """Makes a process current; gives the address of its Proc structure."""
        return self.request(of_process(Kind.TPROC, pid))[0].value

    def status(self, pid: int) -> int:
        """The state byte of a process."""
        return self.request(of_process(Kind.TSTATUS, pid))[0].code

    def status_name(self, pid: int) -> str:
        return state_name(self.status(pid))

    def is_stopped(self, pid: int) -> bool:
        return self.status(pid) == STOPPED

    def stop(self, pid: int) -> None:
        """The process stops when it is next scheduled."""
        self.request(of_process(Kind.TSTOP, pid))

    def start(self, pid: int) -> None:
        """Takes a wanted stop back, or lets a Stopped process go on."""
        self.request(of_process(Kind.TSTART, pid))

    def find_processes(self, pids: Iterable[int]) -> list[int]:
        """Those of these pids that the head has: the protocol cannot list them."""
        found = []
        for pid in pids:
            try:
                self.status(pid)
            except Refused as error:
                if error.reason != "pid":
                    raise
            else:
                found.append(pid)
        return found

    def registers(self, pid: int) -> dict[str, int]:
        """The registers of a Stopped process, by their ABI names; it is the current one afterwards."""
        self.select(pid)
        return registers.values(self.read(0, registers.BLOCK))

    def register(self, pid: int, number: int) -> int:
        self.select(pid)
        return int.from_bytes(self.read(4 * number, 4), "big")

    def set_register(self, pid: int, number: int, value: int) -> None:
        self.select(pid)
        self.put(4 * number, value.to_bytes(4, "big"))

    # breakpoints

    def set_breakpoint(self, ident: int, site: int, elements: Iterable[Element] = ()) -> None:
        """Builds a breakpoint and sets it.

        An element or a b is never sent twice by itself. Where one's answer is lost the whole is begun anew: n replaces
        what is in hand. After a lost b, n tells: refused with inval, the id is in use, so the b had arrived."""
        listed = list(elements)
        set_perhaps = False
        for _ in range(WHOLE_TRIES):
            try:
                self.request(condition("n", ident))
            except Refused as error:
                if set_perhaps and error.reason == "inval":
                    return
                raise
            try:
                set_perhaps = False
                for element in listed:
                    self.request(condition(element.op, element.value))
                set_perhaps = True
                self.request(condition("b", site))
                return
            except LineError as error:
                if error.known:
                    raise
        raise LineError(f"breakpoint {ident} could not be set: answers were lost {WHOLE_TRIES} times; whether it "
                        "stands is not known", known=False)

    def delete_breakpoint(self, ident: int) -> None:
        """Removes a breakpoint; what was written under its trap goes back to memory."""
        self.request(condition("d", ident))

    # the text dialect

    def text(self, packet: texts.TextPacket) -> texts.TextPacket:
        """A text request and its reply, which may say an error (texts.response raises it)."""
        reply = self.exchange.text(texts.encode(packet))
        try:
            return texts.decode(reply)
        except texts.NoPacket:
            raise LineError(f"the head's answer is no text packet: {reply!r}", known=False) from None
