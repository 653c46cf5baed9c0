"""window, protected, line, log, decode, text, restart, event."""

from __future__ import annotations

from pathlib import Path

from .. import decode as decoding
from .. import texts, window
from ..condition import Token, number_of, refuse
from ..errors import CommandError
from ..messages import read
from ..program import ProgramExchange
from ..registers import COUNT
from ..registers import number_of as register_number
from .bench import Bench
from .command import Command
from .output import Result, said
from .words import Words

TEXT_LETTERS = "idIDrR"


def show_window(bench: Bench, words: Words) -> Result:
    if words.take("find"):
        bench.belief.base, bench.belief.size = window.find(bench.head, words.number("an address in it"))
    elif words.more():
        set_window(bench, words)
    words.end()
    base, size = bench.window()
    return said(f"the window is {base:#x} to {base + size - 1:#x}, {size} bytes", base=base, size=size)


def set_window(bench: Bench, words: Words) -> None:
    base = words.number("the base", least=window.LOWEST)
    size = words.number("the size", least=4, most=window.MOST)
    words.end()
    if base % 4 or size % 4 or base + size > 2**32:
        raise CommandError("base and size are multiples of 4, and the window ends at the last address at most")
    bench.belief.base, bench.belief.size = base, size


def protected(bench: Bench, words: Words) -> Result:
    if words.take("none"):
        bench.belief.protected = None
    elif words.more():
        low, high = words.number("the first address"), words.number("the address behind the last", most=2**32)
        if low % 4 or high % 4 or low > high:
            raise CommandError("both are multiples of 4, and the second is not under the first")
        bench.belief.protected = (low, high)
    words.end()
    stretch = bench.belief.protected
    if stretch is None:
        return said("no protected stretch is known here; the head refuses writes to one with unsup", protected=None)
    return said(f"protected, as told: {stretch[0]:#x} to {stretch[1] - 1:#x} (the head decides, not this tool)",
                protected=list(stretch))


def line(bench: Bench, words: Words) -> Result:
    words.end()
    counts = bench.head.exchange.counts
    told = (f"{bench.options.head}: {counts.sent} requests sent, {counts.again} of them again, {counts.bad} packets "
            f"came back bad, {counts.resynchronised} times resynchronised")
    return said(told, head=bench.options.head, **vars(counts))


def says(bench: Bench, words: Words) -> Result:
    count = words.number("how many", least=1) if words.more() else 0
    words.end()
    bench.head.request(read(0, 0))  # what has come since is taken in with its answer
    lines = list(bench.said)[-count:] if count else bench.last_said()
    return Result({"said": lines}, list(lines) or ["the head has said nothing by itself"])


def show_log(bench: Bench, words: Words) -> Result:
    count = words.number("how many", least=1) if words.more() else 20
    words.end()
    lines = list(bench.log.lines)[-count:]
    return Result({"log": lines}, list(lines))


def decode(bench: Bench, words: Words) -> Result:
    token = words.next("the file")
    form = words.take(*decoding.FORMS)
    words.end()
    try:
        data = Path(token.text).read_bytes()
    except OSError as error:
        refuse(f"cannot read {token.text}: {error.strerror}", token)
    form = form or decoding.form_of(data)
    told = list(decoding.tell(data, form))
    return Result({"form": form, "told": told}, [f"{token.text} as {form}:", *told])


def text(bench: Bench, words: Words) -> Result:
    """One text request; without one the prompt becomes that of the dialect."""
    if not words.more():
        if not bench.interactive:
            raise CommandError(f"a text request is missing: {words.usage}", len(words.line))
        bench.text_mode = True
        return said("text requests now: i ADDR, d ADDR, I ADDR DATA, D .., r REG, R REG VALUE, or PID LETTER ADDR "
                    "DATA; an empty line ends it")
    packet = text_packet(words)
    words.end()
    reply = bench.head.text(packet)
    shown = f"{texts.encode(reply).decode()}"
    value = texts.response(reply)
    return said(f"{shown}    {text_meaning(packet, value)}", request=texts.encode(packet).decode(), reply=shown,
                response=value)


def text_packet(words: Words) -> texts.TextPacket:
    """A whole packet, or its letter and what that needs; a register may have its name."""
    first = words.next("the letter")
    whole = first.text[:1].isdigit()
    letter = words.next("the letter") if whole else first
    if len(letter.text) != 1 or not "!" <= letter.text <= "~":
        refuse(f"the letter is one of {', '.join(TEXT_LETTERS)}", letter)
    third = text_number(words.next("the address or register"), letter.text in "rR")
    fourth = number_of(words.next("the data")) if whole or letter.text in "IDR" else 0
    return texts.TextPacket(letter.text, third, fourth, number_of(first) if whole else 0)


def text_number(token: Token, is_register: bool) -> int:
    if is_register and (number := register_number(token.text)) is not None and number < COUNT:
        return number
    return number_of(token)


def text_meaning(packet: texts.TextPacket, value: int) -> str:
    if packet.letter in "id":
        return f"the word at {packet.third:#x} is {value:#x}"
    if packet.letter in "ID":
        return f"the word at {packet.third:#x} was {value:#x} and is {packet.fourth:#x}"
    if packet.letter == "r":
        return f"register {packet.third} is {value:#x}"
    return f"register {packet.third} was {value:#x} and is {packet.fourth:#x}"


def restart(bench: Bench, words: Words) -> Result:
    words.end()
    reply = bench.head.exchange.restart()
    return said("restarted; plain memory is as it was written, no breakpoint stands", reply=reply)


def event(bench: Bench, words: Words) -> Result:
    """What the program's processes do: the kernel's events, for practice with the program of document 01."""
    kind = words.next("the event")
    if kind.text not in ("trap", "schedule", "state"):
        refuse(f"the events are trap, schedule and state: {words.usage}", kind)
    pid = words.number("the process (pid)")
    if kind.text == "state":
        value = words.number("the state", most=255)
    else:
        words.demand("at")
        value = words.number("the pc")
    words.end()
    exchange = bench.head.exchange
    if not isinstance(exchange, ProgramExchange):
        raise CommandError("only the program of document 01 takes events from here: practice program")
    answer = {"trap": exchange.trap, "schedule": exchange.schedule, "state": exchange.state}[kind.text](pid, value)
    return said(f"the stub answers its kernel: {answer}", answer=answer)


COMMANDS = [
    Command("window", "window [find ADDRESS | BASE SIZE]", "where the head's memory lies: found by reads, or told",
            show_window, group="line"),
    Command("protected", "protected [FROM TO | none]", "tells this tool of the protected stretch, FROM up to before TO",
            protected, "The head refuses writes there itself; told of it, this tool refuses them before sending.",
            "line"),
    Command("line", "line", "what the line did: requests, sent again, bad packets", line, group="line"),
    Command("log", "log [COUNT]", "the last exchanges with their times and meanings (--log FILE keeps all)", show_log,
            group="line"),
    Command("says", "says [COUNT]", "what the head says by itself: the last line of each kind, or the last lines", says,
            "Lines that differ in their numbers only are of one kind. One is shown unasked where its numbers are\n"
            "others than the last time.", "line"),
    Command("decode", "decode FILE [log | frames | blocks]", "tells a log, or a capture of raw bytes", decode,
            group="line"),
    Command("text", "text [LETTER ADDRESS [DATA]]", "a request of the old text dialect; alone: a prompt for it", text,
            "Letters: i, d read a word; I, D write one and answer what was there; r, R read and write a register of\n"
            "the selected process. A whole packet is taken too: text 0x0 i 0x1004 0x0", "line"),
    Command("restart", "restart", "asks a head to practise with for a restart of its stub", restart, group="line"),
    Command("event", "event trap PID at PC | schedule PID at PC | state PID VALUE",
            "what a process does, for the program of document 01", event, group="line"),
]
