#!/usr/bin/env python3
"""Make the stored input and the expected output of the program calls_main.

calls_main reads calls that need no session and writes what each answers; the
format is that of docs/CALLS.md. Kind 1 compares two images; the calls of the
text packets, kinds 6 and 7, are made by tests/text_vectors.py, those of frames,
kinds 8 and 9, by tests/frame_calls.py, those of text steps, kind 10, by
tests/text_step_calls.py, those of sessions with a protected stretch, kind 11,
by tests/protected_calls.py, those of patch checks and patch plans, kinds 12 and
13, by tests/patch_calls.py, those of sessions over a record as it is, kind 14,
by tests/record_calls.py.

    python3 tests/calls_vectors.py           write crates/calls_main/stdin, stdout
    python3 tests/calls_vectors.py --check   compare with them, write nothing

Written from document 02 (request One) and not from the crates. The rule stands
here twice: differences() finds the runs in any two images, and every directed
case states its runs by hand. The script stops where the two differ.
"""

import random
import re
import sys
from pathlib import Path

import frame_calls
import patch_calls
import protected_calls
import record_calls
import stored
import text_step_calls
import text_vectors

FOLDER = Path(__file__).resolve().parent.parent / "crates" / "calls_main"
DIFFERENCES = 1
ACCEPTED, WRONG_IMAGES, SHORT_LIST = 0, 8, 9
LONGEST = 65_536
SEED, RANDOM_CALLS = 1, 400


def word(value):
    """A number of four bytes, high-order first."""
    return value.to_bytes(4, "big")


# ---- The rule: two images and the places of a list in, number and answer out. ----

def differences(a, b):
    """Every maximal run of differing bytes once, rising, as start and length."""
    marks = bytes(x != y for x, y in zip(a, b))
    return [(run.start(), len(run.group())) for run in re.finditer(rb"\x01+", marks)]


def comparison(a, b, places):
    """The number, how many runs there are, and the runs that the list gets."""
    if len(a) != len(b) or len(a) > LONGEST:
        return WRONG_IMAGES, None, []
    runs = differences(a, b)
    if 2 * len(runs) > places:
        return SHORT_LIST, len(runs), []
    return ACCEPTED, len(runs), runs


# ---- The format. ----

def call(a, b, places):
    return bytes([DIFFERENCES]) + word(len(a)) + word(len(b)) + word(places) + a + b


def answer(number, count, runs):
    counted = b"" if count is None else word(count)
    return bytes([number]) + counted + b"".join(word(start) + word(size) for start, size in runs)


# ---- Directed cases: images, places, and the answer by hand. ----

def image(length):
    """Bytes of which none is its neighbour's, whatever the length."""
    return bytes((7 * i + i // 256) % 256 for i in range(length))


def changed(base, *stretches):
    """The image with every byte of these stretches, start and length, made another."""
    data = bytearray(base)
    for start, size in stretches:
        for i in range(start, start + size):
            data[i] ^= 1 + i % 255
    return bytes(data)


def accepted(runs):
    return ACCEPTED, len(runs), runs


def short(count):
    return SHORT_LIST, count, []


REFUSED = (WRONG_IMAGES, None, [])


def alike():
    """Nothing differs, so no room is needed."""
    for length in (0, 1, 2, 100):
        for places in (0, 1, 2, 5):
            yield image(length), image(length), places, accepted([])


def placed():
    """One run at the first byte, at the last, in the middle, over all; two runs with one equal byte between."""
    for length in (1, 2, 3, 16, 17, 100):
        base = image(length)
        for run in ((0, 1), (length - 1, 1), (length // 2, 1), (0, length), (length // 3, length - length // 3)):
            yield base, changed(base, run), 2, accepted([run])
    base = image(40)
    for runs in ([(0, 1), (2, 1)], [(0, 39 - 20), (20, 20)], [(0, 1), (39, 1)], [(3, 16), (20, 16)], [(7, 1), (9, 31)]):
        yield base, changed(base, *runs), 4, accepted(runs)


def every_byte():
    """A byte that differs in its lowest or highest bit, or in all, is one that differs."""
    for bits in (0x01, 0x80, 0xFF):
        for value in (0, 1, 0x7F, 0x80, 0xFE, 0xFF):
            yield bytes([5, value, 5]), bytes([5, value ^ bits, 5]), 2, accepted([(1, 1)])


def alternating():
    """Every other byte differs, from the first on or from the second on."""
    for length in (1, 2, 3, 4, 33, 64):
        base = image(length)
        for first in (0, 1):
            runs = [(start, 1) for start in range(first, length, 2)]
            yield base, changed(base, *runs), 2 * len(runs), accepted(runs)


def rooms():
    """Room exact, one more, one short, one run short, one place, none: two places a run."""
    base = image(50)
    runs = [(0, 3), (4, 1), (10, 20), (31, 1), (48, 2)]
    other = changed(base, *runs)
    for places in (10, 11, 12, 40, 65_536):
        yield base, other, places, accepted(runs)
    for places in (9, 8, 2, 1, 0):
        yield base, other, places, short(5)
    yield image(1), changed(image(1), (0, 1)), 1, short(1)
    yield image(1), changed(image(1), (0, 1)), 0, short(1)


def unequal():
    """Unequal lengths are number 8, whatever the bytes and the list are."""
    for first, second in ((0, 1), (1, 0), (3, 4), (4, 3), (100, 50)):
        for places in (0, 2, 9):
            yield image(first), image(second), places, REFUSED
    yield image(20), changed(image(10), (0, 10)), 0, REFUSED


def longest():
    """65,536 bytes are compared; 65,537 are number 8, also where nothing differs."""
    base = image(LONGEST)
    ends = [(0, 1), (LONGEST - 1, 1)]
    yield base, changed(base, *ends), 4, accepted(ends)
    yield base, changed(base, (0, LONGEST)), 2, accepted([(0, LONGEST)])
    odd = [(start, 1) for start in range(1, LONGEST, 2)]
    yield base, changed(base, *odd), LONGEST, accepted(odd)
    yield base, changed(base, *odd), LONGEST - 1, short(len(odd))
    yield image(LONGEST + 1), image(LONGEST + 1), LONGEST, REFUSED
    yield base, image(LONGEST + 1), 0, REFUSED
    yield image(LONGEST + 1), base, 0, REFUSED


DIRECTED = (alike, placed, every_byte, alternating, rooms, unequal, longest)


def directed():
    """Every directed case, seen to be as the rule has it."""
    for cases in DIRECTED:
        for a, b, places, wanted in cases():
            if comparison(a, b, places) != wanted:
                sys.exit(f"{cases.__name__}: the two descriptions differ at images of {len(a)} and "
                         f"{len(b)} bytes with {places} places")
            yield a, b, places


# ---- Random cases: short images, few differences or many, lists around the room that is needed. ----

def scattered():
    # Of this generator only random() is the same in every version of Python.
    noise = random.Random(SEED).random

    def pick(choices):
        return choices[int(noise() * len(choices))]

    for _ in range(RANDOM_CALLS):
        length = pick((1, 2, 5, 15, 16, 17, 31, 32, 33, 64, 200))
        share = pick((0.02, 0.2, 0.5, 0.8, 0.98))
        a = bytes(pick(range(256)) for _ in range(length))
        b = bytes(x ^ pick(range(1, 256)) if noise() < share else x for x in a)
        if noise() < 0.05:
            b = b[:-1]
        needed = 2 * len(differences(a, b))
        yield a, b, max(0, needed + pick((-2, -1, 0, 0, 0, 1, 7)))


# ---- The stored files. ----

def make_files():
    """The two files, by path, and what they are."""
    cases = [*directed(), *scattered()]
    answers = [comparison(*case) for case in cases]
    others = [*text_vectors.cases(), *frame_calls.cases()]
    steps = [*text_step_calls.cases()]
    sessions = [*protected_calls.cases()]
    patches = [*patch_calls.cases()]
    records = [*record_calls.cases()]
    later = steps + sessions + patches + records
    cut = call(image(8), image(8), 2)[:-1]
    files = {
        FOLDER / "stdin": b"".join([*(call(*case) for case in cases),
                                    *(made for made, _ in others + later), cut]),
        FOLDER / "stdout": b"".join([*(answer(*one) for one in answers),
                                     *(given for _, given in others + later)]),
    }
    numbers = [number for number, _, _ in answers] + [given[0] for _, given in others]
    counts = ", ".join(f"{numbers.count(number)} number {number}" for number in sorted(set(numbers)))
    return files, (f"{len(numbers)} calls and a cut one: {counts}; {len(steps)} text steps between other steps; "
                   f"{len(sessions)} sessions with a protected stretch; {len(patches)} patch checks and plans; "
                   f"{len(records)} sessions over a record as it is")


if __name__ == "__main__":
    sys.exit(stored.run(make_files))
