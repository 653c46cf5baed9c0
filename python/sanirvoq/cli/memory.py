"""read, dump, save, write, fill."""

from __future__ import annotations

from pathlib import Path

from rich.text import Text

from .. import transfer
from ..condition import Token, number_of, refuse
from ..errors import CommandError, LineError
from .bench import Bench
from .command import Command
from .output import Result, counted, said
from .words import Words

ROW = 16
HEX = "0123456789abcdefABCDEF"


def file_bytes(token: Token) -> bytes:
    """The bytes of a file that is to be sent or compared."""
    try:
        data = Path(token.text).read_bytes()
    except OSError as error:
        refuse(f"cannot read {token.text}: {error.strerror}", token)
    if not data:
        refuse(f"{token.text} is empty", token)
    transfer.check_size(len(data))
    return data


def file_to_make(token: Token) -> Path:
    """The path of a file that is to be written."""
    path = Path(token.text)
    if path.is_dir():
        refuse(f"{path} is a folder", token)
    if not path.parent.is_dir():
        refuse(f"there is no folder {path.parent}", token)
    return path


def read(bench: Bench, words: Words) -> Result:
    address, length = words.stretch()
    words.end()
    data = bench.read(address, length)
    lines = [f"{address + at:#010x}  {data[at:at + ROW].hex(' ')}" for at in range(0, length, ROW)]
    return Result({"address": address, "bytes": data.hex()}, list(lines))


def dump(bench: Bench, words: Words) -> Result:
    address, length = words.stretch() if words.more() else bench.window()
    words.end()
    data = bench.read(address, length)
    return Result({"address": address, "bytes": data.hex()}, list(dump_lines(bench, address, data)))


def dump_lines(bench: Bench, address: int, data: bytes) -> list[Text]:
    """Rows of 16 with characters; red lies under a trap, yellow has changed since it was first seen."""
    under = bench.belief.under_traps(address, len(data))
    lines = []
    for at in range(0, len(data), ROW):
        row = data[at:at + ROW]
        line = Text(f"{address + at:#010x} ")
        for offset, byte in enumerate(row, address + at):
            style = "bold red" if offset in under else "yellow" if bench.belief.changed(offset) else ""
            line.append(" ").append(f"{byte:02x}", style=style)
        line.append("   " * (ROW - len(row)) + "  ")
        line.append("".join(chr(byte) if 0x20 <= byte < 0x7F else "." for byte in row), style="dim")
        lines.append(line)
    return lines


def save(bench: Bench, words: Words) -> Result:
    address, length = words.stretch()
    path = file_to_make(words.next("the file"))
    words.end()
    bench.check_window(address, length)
    bench.head.read(address + length - 1, 1)
    try:
        with bench.output.progress(f"saving {path.name}", length) as report:
            data, begun = transfer.save(bench.head, address, length, path, report)
    except (LineError, KeyboardInterrupt) as error:
        raise LineError(f"{error or 'interrupted'}; what came is in {path}.part: give the same command again to go on "
                        "from there", known=True) from None
    bench.belief.seen(address, data)
    resumed = f", resumed at byte {begun}" if begun else ""
    return said(f"{counted(length, 'byte')} from {address:#x} saved in {path}{resumed}", address=address, length=length,
                file=str(path), resumed=begun)


def hex_bytes(words: Words) -> bytes:
    """Hex digits, in pairs or together, up to the end of the line or the word resume."""
    data = b""
    while words.more() and words.peek() != "resume":
        token = words.next("bytes")
        if len(token.text) % 2 or any(one not in HEX for one in token.text):
            refuse(f"{token.text!r} is no row of hex pairs, as aa or aabbcc", token)
        data += bytes.fromhex(token.text)
    return data


def number_bytes(words: Words) -> bytes:
    data = b""
    while words.more() and words.peek() != "resume":
        data += bytes([number_of(words.next("a byte"), 255)])
    return data


def write(bench: Bench, words: Words) -> Result:
    address = words.number("the address")
    form = words.take("file", "bytes", "hex")
    if form == "file":
        data = file_bytes(words.next("the file"))
    else:
        data = number_bytes(words) if form == "bytes" else hex_bytes(words)
    if not data:
        words.next("what to write")
    resume = bool(words.take("resume"))
    words.end()
    transfer.check_size(len(data))
    if address + len(data) > 2**32:
        raise CommandError("the stretch passes the last address")
    return resumed_write(bench, address, data) if resume else whole_write(bench, address, data)


def whole_write(bench: Bench, address: int, data: bytes) -> Result:
    bench.write(address, data)
    told = f"{counted(len(data), 'byte')} written at {address:#x}, read back and the same"
    return Result({"address": address, "length": len(data), "same": True}, [told, *stays(bench, address, data)])


def resumed_write(bench: Bench, address: int, data: bytes) -> Result:
    bench.check_write(address, len(data))
    with bench.output.progress("comparing and writing the rest", len(data)) as report:
        sent = transfer.resume(bench.head, address, data, report)
    bench.belief.seen(address, data)
    told = f"{sent} of {counted(len(data), 'byte')} were still to be written at {address:#x}; all are there now"
    return Result({"address": address, "length": len(data), "sent": sent, "same": True},
                  [told, *stays(bench, address, data)])


def stays(bench: Bench, address: int, data: bytes) -> list[str]:
    """What to say of bytes that were written under a trap."""
    return stays_lines(bench.belief.under_traps(address, len(data)))


def stays_lines(under: dict[int, int]) -> list[str]:
    """The same of these addresses, each with its breakpoint."""
    if not under:
        return []
    which = ", ".join(str(ident) for ident in sorted(set(under.values())))
    return [f"{counted(len(under), 'byte')} of it under breakpoint {which} (believed): the trap stays, and what is "
            "written there stays too"]


def fill(bench: Bench, words: Words) -> Result:
    address, length = words.stretch()
    byte = words.number("the byte", most=255)
    words.end()
    transfer.check_size(length)
    return whole_write(bench, address, bytes([byte]) * length)


COMMANDS = [
    Command("read", "read ADDRESS LENGTH", "bytes of memory, as the program sees them: traps never show", read,
            group="memory"),
    Command("dump", "dump [ADDRESS LENGTH]", "the same with characters; without a stretch the whole window", dump,
            "Red bytes lie under a trap that was set from here, yellow ones changed since they were first seen.",
            "memory"),
    Command("save", "save ADDRESS LENGTH FILE", "a stretch into a file; interrupted, the same command goes on", save,
            "Reads nine bytes at a time. What has come is in FILE.part until all is there; it is not read again.",
            "memory"),
    Command("write", "write ADDRESS [hex] PAIRS | bytes NUMBERS | file FILE [resume]",
            "writes, reads back and compares", write,
            "Sends four bytes at a time. A refusal on the way puts the old bytes back. After an interruption the same\n"
            "command with `resume` at its end writes only what is not there yet.", "memory"),
    Command("fill", "fill ADDRESS LENGTH BYTE", "writes one byte all over a stretch", fill, group="memory"),
]
