"""A log of this tool, or a capture of raw bytes, told line by line."""

from __future__ import annotations

import re
from typing import Iterator

from .frames import Answer, FrameReader
from .messages import SIZE, meaning

_LOGGED = re.compile(r"^(\S+) ([<>#]) (.*)$")
_HEX = re.compile(r"^[0-9a-f]+")
FORMS = ("log", "frames", "blocks")


def form_of(data: bytes) -> str:
    """What a file is: a log of this tool, packets, or bare blocks."""
    try:
        first = data.decode("utf-8").splitlines()[:1]
        if first and _LOGGED.match(first[0]):
            return "log"
    except UnicodeDecodeError:
        pass
    whole = any(packet.kind is Answer.PACKET for packet in FrameReader().feed(data))
    return "frames" if whole else "blocks"


def tell(data: bytes, form: str) -> Iterator[str]:
    return {"log": tell_log, "frames": tell_frames, "blocks": tell_blocks}[form](data)


def tell_log(data: bytes) -> Iterator[str]:
    """Each line, its bytes told anew from their hex, whatever its words say."""
    for number, line in enumerate(data.decode("utf-8", "replace").splitlines(), 1):
        match = _LOGGED.match(line)
        if not match:
            yield f"line {number} is no line of a log: {line}"
            continue
        time, mark, rest = match.groups()
        found = _HEX.match(rest)
        if mark == "#" or not found or len(found.group()) % 2:
            yield line
            continue
        told = tell_bytes(bytes.fromhex(found.group()))
        yield f"{time} {mark} {told}"


def tell_bytes(data: bytes) -> str:
    if len(data) == SIZE:
        return meaning(data)
    return f"text: {data.decode('ascii', 'replace')}"


def tell_blocks(data: bytes) -> Iterator[str]:
    """Blocks of ten bytes from the start on."""
    for at in range(0, len(data), SIZE):
        block = data[at:at + SIZE]
        told = meaning(block) if len(block) == SIZE else f"cut: {len(block)} of {SIZE} bytes"
        yield f"{at:6}  {block.hex()}  {told}"


def tell_frames(data: bytes) -> Iterator[str]:
    """Every packet and every bad one, with the offset behind it."""
    for packet in FrameReader().feed(data):
        where = f"{packet.end:6}"
        if packet.kind is Answer.BAD_HEADER:
            yield f"{where}  a packet with a bad header"
        elif packet.kind is Answer.BAD_BODY:
            yield f"{where}  a packet with a bad body, sequence {packet.sequence}"
        elif packet.request:
            yield f"{where}  sequence {packet.sequence:3}  {packet.body.hex()}  {meaning(packet.body)}"
        else:
            yield f"{where}  a packet of {len(packet.body)} bytes, logical ID {packet.identifier:#010x}"
