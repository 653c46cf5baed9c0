"""Calls of the text packets for the program calls_main: kinds 6 and 7 of docs/CALLS.md.

Written from document 02 (request Three) and source document 004 and not from the crates. The rule stands here twice:
text() and packet() go by the words of 02, and every directed case states its answer by hand; cases() stops where the
two differ. tests/calls_vectors.py stores the calls.
"""

import random
import re
import sys

WRITE, READ = 6, 7
ACCEPTED, NO_PACKET, SHORT_BUFFER = 0, 10, 11
LEAST_BUFFER = 34
HELD = 64
FILL = 0xEE
SEED, RANDOM_CALLS = 3, 400
FORM = re.compile(rb"0x(0|[1-9a-f][0-9a-f]{0,7}) ([!-~]) 0x(0|[1-9a-f][0-9a-f]{0,7}) 0x(0|[1-9a-f][0-9a-f]{0,7})")


def word(value):
    """A number of four bytes, high-order first."""
    return value.to_bytes(4, "big")


# ---- The rule. ----

def text(fields):
    """The one text of a packet: pid, letter, and two numbers."""
    pid, letter, third, fourth = fields
    return b"0x%x %c 0x%x 0x%x" % (pid, letter, third, fourth)


def packet(data):
    """The packet whose text these bytes are, or None."""
    found = FORM.fullmatch(data)
    if not found:
        return None
    pid, letter, third, fourth = found.groups()
    return int(pid, 16), letter[0], int(third, 16), int(fourth, 16)


def written(fields, length):
    """The number, how many bytes are filled, and the buffer."""
    untouched = bytes([FILL]) * length
    if length < LEAST_BUFFER:
        return SHORT_BUFFER, 0, untouched
    if not 0x21 <= fields[1] <= 0x7E:
        return NO_PACKET, 0, untouched
    data = text(fields)
    return ACCEPTED, len(data), data + untouched[len(data):]


# ---- The format. ----

def fields_bytes(fields):
    pid, letter, third, fourth = fields
    return word(pid) + bytes([letter]) + word(third) + word(fourth)


def write_call(fields, length):
    number, filled, buffer = written(fields, length)
    return bytes([WRITE]) + word(length) + fields_bytes(fields), bytes([number]) + word(filled) + buffer


def read_call(data):
    fields = packet(data)
    answer = bytes([NO_PACKET]) + bytes(13) if fields is None else bytes([ACCEPTED]) + fields_bytes(fields)
    return bytes([READ]) + word(len(data)) + data, answer


# ---- Directed cases: what is written, and what is read, by hand. ----

WRITES = [
    ((0, ord("i"), 0x1004, 0), b"0x0 i 0x1004 0x0"),
    ((0, ord("i"), 0, 0x07060504), b"0x0 i 0x0 0x7060504"),
    ((0, ord("D"), 0x1004, 0xDEADBEEF), b"0x0 D 0x1004 0xdeadbeef"),
    ((7, ord("c"), 0xFFFFFFFF, 22), b"0x7 c 0xffffffff 0x16"),
    ((0, ord("!"), 0, 0), b"0x0 ! 0x0 0x0"),
    ((0x10, ord("~"), 0x0A, 0xABCDEF), b"0x10 ~ 0xa 0xabcdef"),
    ((0xF, ord("0"), 0xFF, 0xFFF), b"0xf 0 0xff 0xfff"),
    ((0xFFFF, ord("x"), 0xFFFFF, 0xFFFFFF), b"0xffff x 0xfffff 0xffffff"),
    ((0x0FFFFFFF, ord("R"), 0x10000000, 0x80000000), b"0xfffffff R 0x10000000 0x80000000"),
    ((0x12345678, ord("r"), 0x9ABCDEF0, 0x1), b"0x12345678 r 0x9abcdef0 0x1"),
    ((0xFFFFFFFF, ord("s"), 0xFFFFFFFF, 0xFFFFFFFF), b"0xffffffff s 0xffffffff 0xffffffff"),
]

NONE = [
    # nothing at all, blanks, fields left off or too many
    b"", b" ", b"   ", b"0x0", b"0x0 ", b"0x0 i", b"0x0 i ", b"0x0 i 0x0", b"0x0 i 0x0 ", b"0x0 i 0x0 0x",
    b"0x0 0x0 0x0", b"i 0x0 0x0", b"0x0 i 0x0 0x0 0x0", b"0x0 i 0x0 0x0 i",
    # a byte before, a byte after, a zero after, a line's end
    b" 0x0 i 0x0 0x0", b"0x0 i 0x0 0x0 ", b"0x0 i 0x0 0x0q", b"0x0 i 0x0 0x0\0", b"0x0 i 0x0 0x0\n",
    b"0x0 i 0x0 0x0\r\n",
    # blanks: two, a tab, none
    b"0x0  i 0x0 0x0", b"0x0 i  0x0 0x0", b"0x0 i 0x0  0x0", b"0x0\ti 0x0 0x0", b"0x0i 0x0 0x0",
    b"0x0 i0x0 0x0", b"0x0 i 0x00x0",
    # leading zeros
    b"0x00 i 0x0 0x0", b"0x0 i 0x00 0x0", b"0x0 i 0x0 0x00", b"0x01 i 0x0 0x0", b"0x0 i 0x01004 0x0",
    b"0x0 i 0x0 0x00000001", b"0x0 i 0x00000000 0x0",
    # upper case
    b"0xA i 0x0 0x0", b"0x0 i 0xaB 0x0", b"0x0 i 0x0 0xFFFFFFFF", b"0X0 i 0x0 0x0", b"0x0 i 0X0 0x0",
    b"0x0 i 0x0 0X1",
    # nine digits, also with a leading zero; more
    b"0x100000000 i 0x0 0x0", b"0x0 i 0x123456789 0x0", b"0x0 i 0x0 0xfffffffff", b"0x0 i 0x0 0x0fffffff0",
    b"0x0 i 0x0 0x10000000000000000", b"0x0 i 0x0 0x100000001",
    # no number: no digit, no 0x, signs, other letters
    b"0x i 0x0 0x0", b"0 i 0x0 0x0", b"0x0 i 0 0x0", b"0x0 i 1004 0x0", b"x0 i 0x0 0x0", b"0x0 i -0x1 0x0",
    b"0x0 i 0x-1 0x0", b"0x0 i +0x1 0x0", b"0x0 i 0x0 0xg", b"0x0 i 0x0 0x1g", b"0x0 i 0x:0 0x0",
    b"0x0 i 0x`0 0x0", b"0x0 i 0x/0 0x0", b"0x0 i 0x1_0 0x0", b"0x0 i 0b1 0x0", b"00 i 0x0 0x0",
    # two letters, none
    b"0x0 ii 0x0 0x0", b"0x0 0x0 0x0 0x0", b"0x0   0x0 0x0",
    # longer than any packet, to the longest that the program holds
    b"0xffffffff i 0xffffffff 0xffffffff ", b"0xffffffff i 0xffffffff 0xfffffffff", b"0" * HELD,
    b"0x" + b"f" * (HELD - 2), b"0x0 i 0x0 0x0" + b" " * (HELD - 13),
]


def directed():
    """Calls with the answers by hand."""
    for fields, data in WRITES:
        for length in (0, 1, 33):
            yield write_call(fields, length), bytes([SHORT_BUFFER]) + word(0) + bytes([FILL]) * length
        for length in (34, 35, HELD):
            rest = bytes([FILL]) * (length - len(data))
            yield write_call(fields, length), bytes([ACCEPTED]) + word(len(data)) + data + rest
        yield read_call(data), bytes([ACCEPTED]) + fields_bytes(fields)
    # every letter, written and read; 11 comes before 10
    for letter in range(256):
        fields, data = (0, letter, 0, 0), b"0x0 " + bytes([letter]) + b" 0x0 0x0"
        if 0x21 <= letter <= 0x7E:
            yield write_call(fields, 34), bytes([ACCEPTED]) + word(13) + data + bytes([FILL]) * 21
            yield read_call(data), bytes([ACCEPTED]) + fields_bytes(fields)
        else:
            yield write_call(fields, 34), bytes([NO_PACKET]) + word(0) + bytes([FILL]) * 34
            yield write_call(fields, 33), bytes([SHORT_BUFFER]) + word(0) + bytes([FILL]) * 33
            yield read_call(data), bytes([NO_PACKET]) + bytes(13)
    for data in NONE:
        yield read_call(data), bytes([NO_PACKET]) + bytes(13)


# ---- Random cases: packets, and texts with one fault. ----

def scattered():
    # Of this generator only random() is the same in every version of Python.
    noise = random.Random(SEED).random

    def pick(choices):
        return choices[int(noise() * len(choices))]

    def number():
        return int(noise() * 16 ** pick(range(9)))

    for _ in range(RANDOM_CALLS):
        fields = (number(), pick(range(0x1E, 0x82)), number(), number())
        yield write_call(fields, pick((0, 20, 32, 33, 34, 34, 35, 40, HELD)))
        data = bytearray(text((fields[0], pick(range(0x21, 0x7F)), *fields[2:])))
        place = pick(range(len(data)))
        fault = pick(("none", "put in", "leave out", "change", "cut"))
        if fault == "put in":
            data.insert(place, pick(b"0 xaFi"))
        elif fault == "leave out":
            del data[place]
        elif fault == "change":
            data[place] = pick(b"0123456789abcdefABCDEFxX iI\0")
        elif fault == "cut":
            del data[place:]
        yield read_call(bytes(data))


def cases():
    """Every call with its answer; the directed ones seen to be as the rule has them."""
    for (call, answer), wanted in directed():
        if answer != wanted:
            sys.exit(f"the two descriptions differ at the call {call.hex(' ')}")
        yield call, answer
    yield from scattered()
