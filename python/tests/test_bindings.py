"""The calls of the archive as Python sees them."""

from __future__ import annotations

import ctypes
import random
import re
import subprocess
from pathlib import Path

import pytest
from conftest import REPOSITORY

from sanirvoq import frames, images, messages, structures, texts
from sanirvoq.errors import CallError
from sanirvoq.messages import Kind, Message

# docs/PROTOCOL.md, "Examples", in words.
EXAMPLES = {
    "02000010040400000000": "Tmget: read 4 at 0x1004",
    "03040506070000000000": "Rmget: bytes 04 05 06 07 00 00 00 00 00",
    "0163 6f756e7400000000".replace(" ", ""): "Rerr: refused: count",
    "04000010 0903aabbcc00".replace(" ", ""): "Tmput: write aa bb cc at 0x1009",
    "06000000050000000000": "Tproc: make process 5 current",
    "07383030303130303000": "Rproc: its Proc is at 0x80001000",
    "0952656e64657a766f75": "Rstatus: Rendezvous",
    "09630000000000000000": "Rstatus: 0xc",
    "10000000036e00000000": "Tcondbreak: begin breakpoint 3",
    "10000010086200000000": "Tcondbreak: set the breakpoint at 0x1008",
    "01726573657400000000": "Rerr: the stub was restarted",
    "14000000000000000000": "no message",
    "02000010040a00000000": "no message",
}


@pytest.mark.parametrize("data, told", EXAMPLES.items())
def test_messages_in_words(data: str, told: str) -> None:
    assert messages.meaning(bytes.fromhex(data)) == told


def test_every_message_is_read_back() -> None:
    chance = random.Random(1)
    for _ in range(2000):
        n = chance.randrange(5)
        value = chance.randrange(2**32)
        for message in (messages.read(value, chance.randrange(10)), messages.write(value, chance.randbytes(n)),
                        messages.of_process(chance.choice([Kind.TPROC, Kind.TSTATUS, Kind.TSTOP]), value),
                        messages.condition(chance.choice("nkpbd"), value), messages.condition(chance.choice("*&=!ao")),
                        Message(Kind.RSTATUS, code=chance.randrange(256)), Message(Kind.RERR, code=chance.randrange(7)),
                        Message(Kind.RMGET, data=chance.randbytes(9)), Message(Kind.RPROC, value)):
            assert messages.decode(messages.encode(message)) == message


def test_what_is_no_message() -> None:
    for message in (messages.read(0, 10), Message(Kind.TMPUT, n=5), messages.condition("x")):
        with pytest.raises(CallError) as caught:
            messages.encode(message)
        assert caught.value.number == 7
    with pytest.raises(CallError) as caught:
        messages.decode(bytes(9))
    assert caught.value.number == 2


def naive_runs(one: bytes, other: bytes) -> list[tuple[int, int]]:
    marks = "".join("d" if a != b else "." for a, b in zip(one, other))
    return [(match.start(), len(match.group())) for match in re.finditer("d+", marks)]


def test_image_differences() -> None:
    chance = random.Random(2)
    for _ in range(300):
        one = bytes(chance.randrange(3) for _ in range(chance.randrange(200)))
        other = bytes(chance.randrange(3) for _ in one)
        assert images.differences(one, other) == naive_runs(one, other)
    with pytest.raises(CallError):
        images.differences(b"a", b"ab")


def test_text_packets() -> None:
    packet = texts.TextPacket("i", 0x1004, 0)
    assert texts.encode(packet) == b"0x0 i 0x1004 0x0"
    assert texts.decode(b"0x0 i 0x1004 0x0") == packet
    for wrong in (b"0x0 i 0x01004 0x0", b"0x0 i 0x1004 0x0\n", b""):
        with pytest.raises(CallError):
            texts.decode(wrong)
    with pytest.raises(CallError):
        texts.encode(texts.TextPacket("ii", 0, 0))


def test_frames_cut_anywhere() -> None:
    body = bytes(range(1, 11))
    line = b"noise" + frames.frame(5, body) + b"\x00" + frames.frame(200, body[::-1])
    for cut in range(len(line)):
        reader = frames.FrameReader()
        answers = reader.feed(line[:cut]) + reader.feed(line[cut:])
        assert [(one.kind, one.sequence, one.body) for one in answers] == [
            (frames.Answer.PACKET, 5, body), (frames.Answer.PACKET, 200, body[::-1])]


def test_a_garbled_frame_is_bad() -> None:
    line = bytearray(frames.frame(9, bytes(10)))
    line[15] ^= 4
    kinds = [one.kind for one in frames.FrameReader().feed(bytes(line))]
    assert kinds == [frames.Answer.BAD_BODY]


def test_the_wish_to_restart_is_a_packet_without_a_body() -> None:
    [packet] = frames.FrameReader().feed(frames.RESTART)
    assert (packet.kind, packet.identifier, packet.body, packet.request) == (frames.Answer.PACKET, 0x8000, b"", False)


C_NAMES = {structures.Entry: "entry", structures.Draft: "draft", structures.Table: "table",
           structures.Process: "process", structures.Target: "target", structures.Fields: "fields",
           structures.Found: "found", structures.Comparison: "comparison", structures.TextFields: "text_packet",
           structures.TextWritten: "text_written", structures.TextFound: "text_found",
           structures.FrameReaderState: "frame_reader", structures.FrameAnswer: "frame_answer",
           structures.FrameFed: "frame_fed", structures.PlannedWrite: "write", structures.Verdict: "verdict",
           structures.Planning: "planning"}


def test_structs_are_the_headers(tmp_path: Path) -> None:
    """Size and every field's offset, as a C compiler has them of include/sanirvoq.h."""
    lines, expected = [], []
    for kind, name in C_NAMES.items():
        lines.append(f'printf("{name} %zu\\n", sizeof(struct sanirvoq_{name}));')
        expected.append(f"{name} {ctypes.sizeof(kind)}")
        for field, *_ in kind._fields_:
            lines.append(f'printf("{name}.{field} %zu\\n", offsetof(struct sanirvoq_{name}, {field}));')
            expected.append(f"{name}.{field} {getattr(kind, field).offset}")
    source = tmp_path / "sizes.c"
    source.write_text('#include <stdio.h>\n#include "sanirvoq.h"\nint main(void) {\n' + "\n".join(lines) + "\n}\n")
    binary = tmp_path / "sizes"
    subprocess.run(["gcc", f"-I{REPOSITORY}/include", str(source), "-o", str(binary)], check=True)
    assert subprocess.run([str(binary)], capture_output=True, text=True, check=True).stdout.splitlines() == expected
