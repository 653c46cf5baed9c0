"""Calls of frames for the program calls_main: kinds 8 and 9 of docs/CALLS.md.

Written from document 02 (request Nine), source document 002 and the reader's numbers in include/sanirvoq.h, and not
from the crates. The cases and their answers are those of tests/frame_vectors.py; the reader after a piece is told from
all bytes of the line so far at once, not byte by byte. tests/calls_vectors.py stores the calls.
"""

import random

import frame_vectors
from frame_vectors import BEGIN, LONGEST, answers, checksum, frame, unstuff, whole

FEED, REPLY = 8, 9
ACCEPTED, WRONG_SIZE, WRONG_FRAME = 0, 2, 12
LEAST_BUFFER, REPLY_SIZE, MESSAGE_SIZE = 534, 26, 10
HELD = 1024
FILL = 0xEE
PIECE = 100
SEED, RANDOM_REPLIES = 11, 60

# A reader: its last eight bytes, count, logical ID, scale, size, sum, phase and held bits.
WIDTHS = (8, 4, 4, 2, 2, 2, 1, 1)
NEW = (0,) * 8
IN_HEADER, IN_BODY, BEFORE_END = 1, 2, 3


def word(value):
    """A number of four bytes, high-order first."""
    return value.to_bytes(4, "big")


# ---- The reader after a line. ----

def stuffed_size(size):
    return -(-8 * size // 7)


def is_clear(data):
    return any(byte < 0x80 for byte in data)


def inside(number, size, taken, phase):
    """The reader in a part of `size` bytes and a checksum, of which these stuffed bytes are taken."""
    count = 7 * len(taken) // 8
    data, _ = unstuff(taken, count)
    over = 7 * len(taken) - 8 * count
    held = taken[-1] << 8 - over & 0xFF if over else 0
    total = int.from_bytes(checksum(data[:size]), "little")
    return (int.from_bytes((bytes(8) + data)[-8:], "little"), count, number, 2 << len(taken) % 8, size, total,
            phase, held)


def packet_so_far(line):
    """What follows the last begin byte: the logical ID and length of a good header, or None, and the bytes after it."""
    rest = line[line.rfind(BEGIN) + 1:]
    head = rest[:10]
    if len(head) < 10 or is_clear(head):
        return None, rest
    data, padded = unstuff(head, 8)
    length = int.from_bytes(data[4:6], "little")
    if not whole(data, padded) or length > LONGEST:
        return None, rest
    return (int.from_bytes(data[:4], "little"), length), rest[10:]


def body_so_far(line):
    """The complete bytes of the body at the end of the line, with those of its checksum."""
    found, rest = packet_so_far(line)
    if BEGIN not in line or not found or not found[1]:
        return b""
    body = rest[:stuffed_size(found[1] + 2)]
    body = body[:next((i for i, byte in enumerate(body) if byte < 0x80), len(body))]
    return unstuff(body, min(7 * len(body) // 8, found[1] + 2))[0]


def reader_after(line):
    """The reader after this line, from a new one."""
    found, rest = packet_so_far(line)
    if BEGIN not in line:
        return NEW
    if not found:
        return NEW if len(rest) >= 10 or is_clear(rest) else inside(0, 6, rest, IN_HEADER)
    number, length = found
    if not length:
        return NEW if rest else (0, 0, number, 2, 0, 0xA1E8, BEFORE_END, 0)
    body, after = rest[:stuffed_size(length + 2)], rest[stuffed_size(length + 2):]
    if is_clear(body) or after:
        return NEW
    if len(body) < stuffed_size(length + 2):
        return inside(number, length, body, IN_BODY)
    return (0, 0, number, 0, length, 0, BEFORE_END, 0) if whole(*unstuff(body, length + 2)) else NEW


# ---- The format. ----

def reader_bytes(reader):
    return b"".join(value.to_bytes(width, "big") for value, width in zip(reader, WIDTHS))


def answer_bytes(answer):
    """Kind, index, sequence and request, then logical ID and size."""
    kind, *values = answer.split(":")
    if kind == "header":
        return bytes([2, 0, 0, 0]) + word(0) + word(0)
    if kind == "body":
        return bytes([3, *map(int, values), 0]) + word(0) + word(0)
    if kind == "packet":
        number, size = int(values[0]), int(values[1])
        request = number >> 15 == 1 and size == MESSAGE_SIZE
        return bytes([1, number >> 8 & 63, number & 255, request]) + word(number) + word(size)
    return bytes(4) + word(0) + word(0)


def feed_call(reader, piece, room):
    return bytes([FEED]) + word(room) + word(len(piece)) + reader_bytes(reader) + piece


def feed_answer(number, taken, answer, reader, buffer):
    return bytes([number]) + word(taken) + answer_bytes(answer) + reader_bytes(reader) + buffer


# ---- Lines, in pieces: each call takes a piece up to its first answer. ----

def fed(line, reader, start, end, told):
    """The call that feeds these bytes of a line, its answer, and how many it takes."""
    at, answer = next(((at, answer) for at, answer in told if start < at <= end), (end, "nothing"))
    buffer = bytearray([FILL]) * LEAST_BUFFER
    before = body_so_far(line[:start])
    for place in range(start, at):
        after = body_so_far(line[:place + 1])
        if len(after) > len(before):
            buffer[len(after) - 1] = after[-1]
        before = after
    call = feed_call(reader, line[start:end], LEAST_BUFFER)
    return (call, feed_answer(ACCEPTED, at - start, answer, reader_after(line[:at]), bytes(buffer))), at


def in_pieces(line, ends, reader=NEW):
    told = [(int(at), answer) for at, answer in (one.split(":", 1) for one in answers(line))]
    start = 0
    for end in ends:
        while True:
            one, start = fed(line, reader, start, end, told)
            yield one
            reader = reader_after(line[:start])
            if start == end:
                break


def lines():
    one = frame(0x8005, bytes(range(1, 11)))
    for _, line in frame_vectors.cases():
        yield from in_pieces(line, [len(line)])
    for place in range(len(one) + 1):
        yield from in_pieces(one, [place, len(one)])
    yield from in_pieces(one, range(1, len(one) + 1))
    for phase in (0, 1, 2, 3, 4, 255):
        yield from in_pieces(one, [len(one)], (2 ** 64 - 1, 2 ** 32 - 1, 2 ** 32 - 1, 65535, 65535, 65535, phase, 255))
        yield from in_pieces(one, [len(one)], (0, 0, 0, 0, 0, 0, phase, 0))
    all_lines = b"".join(line for _, line in frame_vectors.cases())
    yield from in_pieces(all_lines, [*range(PIECE, len(all_lines), PIECE), len(all_lines)])


# ---- Readers and buffers, with the answers by hand. ----

def ending(number, size):
    return 0, 0, number, 0, size, 0, BEFORE_END, 0


ANSWERED = [
    # the end is due
    (ending(0x8005, 10), b"\x1e", 1, "packet:32773:10"),
    (ending(0x8005, 9), b"\x1e\x1e", 1, "packet:32773:9"),
    (ending(0x8005, 10), b"\x00", 1, "body:0:5"),
    (ending(0xBF07, 1), b"\xff\x1e", 1, "body:63:7"),
    (ending(0x8005, 0), b"\x80", 1, "header"),
    (ending(0x18005, 10), b"\x80", 1, "header"),
    (ending(0x12345678, 10), b"\x1f", 1, "header"),
    (ending(0x12345678, 65535), b"\x1e", 1, "packet:305419896:65535"),
    # data is due: a reader that was made with a logical ID answers by it
    ((0, 0, 0, 2, 6, 0, IN_HEADER, 0), b"\x00", 1, "header"),
    ((0, 0, 0x8105, 2, 6, 0, IN_HEADER, 0), b"\x1e", 1, "body:1:5"),
    ((0, 0, 0x8105, 2, 6, 0, IN_BODY, 0), b"\x7f", 1, "body:1:5"),
]

UNANSWERED = [
    # no begin byte: the reader stays
    ((1, 2, 3, 4, 5, 6, 0, 7), b"\x00\x1e\x80\xff"),
    ((2 ** 64 - 1, 2 ** 32 - 1, 2 ** 32 - 1, 65535, 65535, 65535, 4, 255), b"\x00\x1e\x80\xff"),
    ((9, 9, 9, 9, 9, 9, 255, 9), b""),
]

ROOMS = (LEAST_BUFFER, LEAST_BUFFER + 1, HELD)
SHORT = (0, 1, 26, LEAST_BUFFER - 1)


def directed():
    for room in ROOMS:
        buffer = bytes([FILL]) * room
        for reader, piece, taken, answer in ANSWERED:
            yield feed_call(reader, piece, room), feed_answer(ACCEPTED, taken, answer, NEW, buffer)
        for reader, piece in UNANSWERED:
            yield feed_call(reader, piece, room), feed_answer(ACCEPTED, len(piece), "nothing", reader, buffer)
        # a byte 00 for the place 600, where the buffer has it
        stored = bytes([FILL]) * min(room, 600) + (bytes(1) + bytes([FILL]) * (room - 601) if room > 600 else b"")
        far, next_one = (0, 600, 0, 4, 65535, 0, IN_BODY, 0), (0, 601, 0, 8, 65535, 0, IN_BODY, 0)
        yield feed_call(far, b"\x80", room), feed_answer(ACCEPTED, 1, "nothing", next_one, stored)
    for room in SHORT:
        for reader, piece, *_ in [*ANSWERED, *UNANSWERED]:
            buffer = bytes([FILL]) * room
            yield feed_call(reader, piece, room), feed_answer(WRONG_FRAME, 0, "nothing", reader, buffer)


# ---- Replies. ----

def reply(sequence, message, room):
    buffer, number = bytes([FILL]) * room, ACCEPTED
    if len(message) != MESSAGE_SIZE:
        number = WRONG_SIZE
    elif room != REPLY_SIZE or sequence > 255:
        number = WRONG_FRAME
    else:
        buffer = frame(0x8000 + sequence, message)
    call = bytes([REPLY]) + word(room) + word(len(message)) + word(sequence) + message
    return call, bytes([number]) + buffer


def replies():
    ten = bytes(range(1, 11))
    for sequence in (0, 1, 5, 127, 128, 255, 256, 0x8005, 2 ** 32 - 1):
        for room in (0, 25, 26, 27, HELD):
            for message in (ten, ten[:9], ten + b"\x0b", b""):
                yield reply(sequence, message, room)
    for message in (bytes(10), b"\xff" * 10, b"\x1d\x1e" * 5, bytes(HELD)):
        yield reply(5, message, REPLY_SIZE)
    # Of this generator only random() is the same in every version of Python.
    noise = random.Random(SEED).random
    for _ in range(RANDOM_REPLIES):
        yield reply(int(noise() * 256), bytes(int(noise() * 256) for _ in range(10)), REPLY_SIZE)


def cases():
    """Every call with its answer."""
    yield from lines()
    yield from directed()
    yield from replies()
