#!/usr/bin/env python3
"""Make the stored lines for readers of packets, with the answers to them.

    python3 tests/frame_vectors.py           write the file
    python3 tests/frame_vectors.py --check   compare with it, write nothing

The file is tests/frame_vectors.txt. tests/frame_calls.py makes calls for the
program calls_main of the same cases.

Written from documents 02 (request Nine) and 002 and not from the crates: a
packet is taken apart by counting its stuffed bytes, not bit by bit. A line of
the file is a name, the reader to begin with ("-" is a new one, else its eight
numbers), the pieces in hex, and the answers: at which byte, and what.
rust/sanirvoq/tests/frame_vectors.rs runs them.
"""

import random
import sys
from pathlib import Path

import stored

ROOT = Path(__file__).resolve().parent.parent
BEGIN, END, LONGEST = 0x1D, 0x1E, 532


# ---- Writing. ----

def checksum(data):
    total = 0xA1E8
    for byte in data:
        total = (total + byte) & 0xFFFF
        total = ((total << 3) & 0xFFFF) + (total >> 13)
    return total.to_bytes(2, "little")


def stuff(data, pad="0"):
    bits = "".join(f"{byte:08b}" for byte in data)
    bits += pad * (-len(bits) % 7)
    return bytes(0x80 | int(bits[i:i + 7], 2) for i in range(0, len(bits), 7))


def header(number, length):
    return number.to_bytes(4, "little") + length.to_bytes(2, "little")


def frame(number, body, length=None, pads="00", sums=(0, 0)):
    """A packet; sums are added to the last bytes of the two checksums."""
    def part(data, pad, wrong):
        total = checksum(data)
        return stuff(data + bytes([total[0], (total[1] + wrong) % 256]), pad)
    head = header(number, len(body) if length is None else length)
    line = bytes([BEGIN]) + part(head, pads[0], sums[0])
    return line + (part(body, pads[1], sums[1]) if body else b"") + bytes([END])


# ---- Reading: the answers to a line, each with how many bytes it comes after. ----

def unstuff(stuffed, size):
    bits = "".join(f"{byte & 0x7f:07b}" for byte in stuffed)
    data = bytes(int(bits[i:i + 8], 2) for i in range(0, 8 * size, 8))
    return data, "1" in bits[8 * size:]


def whole(data, padded):
    return not padded and checksum(data[:-2]) == data[-2:]


def take(line, at, size):
    """So many bytes as `size` take when stuffed: them or None, and the place after; "again" at a begin byte."""
    end = at + -(-8 * size // 7)
    for place in range(at, min(end, len(line))):
        if line[place] == BEGIN:
            return "again", place
        if line[place] < 0x80:
            return None, place + 1
    return (line[at:end], end) if end <= len(line) else ("short", len(line))


def bad(number):
    if number >> 16 == 0 and number & 0x8000:
        return f"body:{number >> 8 & 63}:{number & 255}"
    return "header"


def packet(line, at):
    """The answer to what begins before `at`, or None, and the place from which to look for a begin byte."""
    got, end = take(line, at, 8)
    if isinstance(got, str):
        return None, end
    head, padded = unstuff(got, 8) if got is not None else (b"", True)
    length = int.from_bytes(head[4:6], "little")
    if not head or not whole(head, padded) or length > LONGEST:
        return "header", end
    number, body = int.from_bytes(head[:4], "little"), b""
    fault = bad(number) if length else "header"
    if length:
        got, end = take(line, end, length + 2)
        if isinstance(got, str):
            return None, end
        data, padded = unstuff(got, length + 2) if got is not None else (b"", True)
        if not data or not whole(data, padded):
            return fault, end
        body = data[:-2]
    if end == len(line) or line[end] == BEGIN:
        return None, end
    if line[end] != END:
        return fault, end + 1
    return f"packet:{number}:{length}:{body.hex()}", end + 1


def answers(line):
    found, at = [], 0
    while (start := line.find(BEGIN, at)) >= 0:
        answer, at = packet(line, start + 1)
        if answer:
            found.append(f"{at}:{answer}")
    return found


# ---- The cases. ----

def cases():
    ten, noise = bytes(range(1, 11)), bytes([0x00, 0x1E, 0x80, 0xFF, 0x41])
    one = frame(0x8005, ten)
    yield "example_of_002", frame(0x40950000, b"")
    for length in (0, 1, 10, 531, 532, 533):
        yield f"length_{length}", frame(0x8001, bytes(i * 7 % 256 for i in range(length)))
    yield "length_65535", frame(0x8001, b"", length=65535)
    for name, number in (("ack", 0x40000000), ("nack", 0xC1050000), ("flast", 0xC005), ("other", 0x7FFF),
                         ("index", 0xBF07), ("high", 0x18005), ("top", 0xFFFFFFFF)):
        yield f"id_{name}", frame(number, ten)
        yield f"id_{name}_body_wrong", frame(number, ten, sums=(0, 1))
        yield f"id_{name}_no_body_no_end", frame(number, b"")[:-1] + b"\x1f"
    for name, pads in (("header", "10"), ("body", "01"), ("both", "11")):
        yield f"padding_{name}", frame(0x8005, ten, pads=pads)
    for name, sums in (("header", (1, 0)), ("body", (0, 1)), ("both", (1, 1))):
        yield f"checksum_{name}", frame(0x8005, ten, sums=sums)
    for place in range(1, len(one)):
        yield f"begin_at_{place}", one[:place] + bytes([BEGIN]) + one[place + 1:] + one
        yield f"again_at_{place}", one[:place] + one
        yield f"clear_at_{place}", one[:place] + bytes([one[place] & 0x7F]) + one[place + 1:] + one
        yield f"end_at_{place}", one[:place] + bytes([END]) + one[place:]
        yield f"lost_at_{place}", one[:place] + one[place + 1:] + one
        yield f"twice_at_{place}", one[:place] + one[place:place + 1] + one[place:] + one
    yield "end_late", one[:-1] + b"\xff" + one[-1:] + one
    yield "noise_between", noise + one + noise + frame(0x8006, b"") + noise + one
    yield "nothing", b""
    choose = random.Random(9)
    for k in range(60):
        line = b"".join(
            frame(choose.choice((0x8000, 0xC000, 0x12345678)) + choose.randrange(256),
                  choose.randbytes(choose.choice((0, 1, 10, 40))))
            for _ in range(3))
        line = bytearray(line)
        for _ in range(choose.randrange(4)):
            line[choose.randrange(len(line))] ^= 1 << choose.randrange(8)
        yield f"random_{k}", bytes(line)


def cut(line, places):
    ends = [*places, len(line)]
    return [line[a:b] for a, b in zip([0, *ends], ends)]


def lines():
    one = frame(0x8005, bytes(range(1, 11)))
    choose = random.Random(10)
    out = []

    def add(name, line, pieces, reader="-"):
        out.append(f"{name} {reader} {'/'.join(p.hex() for p in pieces)} {';'.join(answers(line)) or '-'}")

    for name, line in cases():
        add(name, line, [line])
        add(f"{name}_cut", line, cut(line, sorted(choose.randrange(len(line) + 1) for _ in range(3))))
    for place in range(len(one) + 1):
        add(f"cut_at_{place}", one, cut(one, [place]))
    add("every_byte_alone", one, cut(one, range(1, len(one))))
    for phase in range(5):
        top = (2 ** 64 - 1, 2 ** 32 - 1, 2 ** 32 - 1, 65535, 65535, 65535, phase, 255)
        add(f"any_reader_{phase}", one, [one], ",".join(map(str, top)))
        low = (0, 0, 0, 0, 0, 0, phase, 0)
        add(f"empty_reader_{phase}", one, [one], ",".join(map(str, low)))
    return "\n".join(out) + "\n"


def make():
    text = lines()
    return {ROOT / "tests" / "frame_vectors.txt": text.encode()}, f"{text.count(chr(10))} lines"


if __name__ == "__main__":
    sys.exit(stored.run(make))
