#!/usr/bin/env python3
"""Calls that check and plan patches, document 02, Twelve; tests/calls_vectors.py stores them.

    python3 tests/patch_calls.py                   say how many there are
    python3 tests/patch_calls.py PROGRAM ..        run them by a program and compare

Each call is a setup with a protected stretch and ordinary steps, as in tests/protected_calls.py, then one check of an
offer or one plan over the session's plain window. Written from documents 01 and 02, not from the crates; it shares
nothing with the Rust code. The rule stands here twice: checked() and planned() go by the words of 02, and every
directed call states its answer by hand; the script stops where the two differ. Random calls have the answers of the
two functions, and every plan is checked. tests/patch_run.c answers the same calls through the archive, and
rust/reference/examples/patch_calls.rs by the independent stub in Rust.

How a call and its answer become bytes is in encoded(), check_bytes() and plan_bytes() alone.
"""

import random
import subprocess
import sys

from protected_calls import REQUEST, STATE, TOP, Setup, Stub, word

CHECK, PLAN = 12, 13
ACCEPTED, BOUND, DIFFER = 0, 1, 2
SIZES, TOO_LONG, SHORT_LIST, PROTECTED = 2, 16, 17, 21
LONGEST_OFFER, HELD_MEMORY = 16_384, 65_536
FILL = bytes([0xEE]) * 12
SEED, RANDOM_CALLS = 29, 500


# ---- The format. ----

def write_bytes(write):
    address, count, data = write
    return word(address) + word(count) + data


def encoded(kind, setup, steps, room, wanted, offer, places):
    """The setup; the lengths of the steps, of the room, of the wanted image, and of the offer or the list, in writes;
    then the steps, the image and the offer."""
    numbers = word(setup.base) + word(setup.size) + setup.start.to_bytes(8, "big") + setup.end.to_bytes(8, "big")
    pairs = b"".join(word(pid) + word(address) for pid, address in setup.pairs)
    last = len(offer) if kind == CHECK else places
    lengths = b"".join(map(word, (len(steps), room, len(wanted), last)))
    data = b"".join(map(write_bytes, offer)) if kind == CHECK else b""
    return bytes([kind]) + numbers + word(setup.count) + pairs + lengths + steps + wanted + data


def check_bytes(number, verdict, index):
    """The number; with number 0 the verdict and the index of the first write that breaks a bound, else 0."""
    return bytes([number]) + (bytes([verdict]) + word(index) if number == 0 else b"")


def plan_bytes(number, address, writes, places):
    """The number, the address of number 21 or 0, how many writes were filled, and the whole list."""
    filled = b"".join(map(write_bytes, writes))
    return bytes([number]) + word(address) + word(len(writes)) + filled + FILL * (places - len(writes))


# ---- The rule. ----

def is_bound(stub, address, count):
    """Whether a write keeps the bounds."""
    return (1 <= count <= 4 and stub.base <= address and address + count <= stub.base + stub.size
            and not any(stub.start <= byte < stub.end for byte in range(address, address + count)))


def checked(stub, offer, wanted):
    """A verdict and an index."""
    image = bytearray(plain(stub))
    for index, (address, count, data) in enumerate(offer):
        if not is_bound(stub, address, count):
            return BOUND, index
        image[address - stub.base:address - stub.base + count] = data[:count]
    return (ACCEPTED if image == wanted else DIFFER), 0


def planned(stub, wanted):
    """The lowest protected address that differs or None, and the list."""
    here = plain(stub)
    differing = [at for at in range(stub.size) if here[at] != wanted[at]]
    protected = [at for at in differing if stub.start <= stub.base + at < stub.end]
    if protected:
        return stub.base + protected[0], []
    free_until = [stub.start - stub.base] if stub.start < stub.end else []
    writes, covered = [], 0
    for at in differing:
        if at < covered:
            continue
        covered = min([at + 4, stub.size, *(end for end in free_until if end > at)])
        writes.append((stub.base + at, covered - at, bytes(wanted[at:covered]).ljust(4, b"\0")))
    return None, writes


def plain(stub):
    memory = bytearray(stub.memory)
    for site, (_, _, kept) in stub.points.items():
        memory[site - stub.base:site - stub.base + 2] = kept
    return bytes(memory)


class Session(Stub):
    """A stub over a window as large as there can be."""

    def __init__(self, setup, steps):
        super().__init__(setup)
        if setup.size > 64:
            self.memory = bytearray(i % 256 for i in range(min(setup.size, HELD_MEMORY)))
            self.number = self.setup_number(setup)
        self.said = b"".join(self.step(kind, body) for kind, body in steps) if self.number == 0 else b""


class Call:
    """A check where there is an offer, else a plan."""

    def __init__(self, setup, steps, wanted, offer=None, places=0, room=None):
        self.setup, self.steps, self.offer, self.places = setup, steps, offer, places
        self.session = Session(setup, steps)
        self.wanted = bytes(wanted(plain(self.session)) if callable(wanted) else wanted)
        self.room = setup.size if room is None else room

    def number(self):
        """Of sizes only."""
        if self.room != self.session.size:
            return SIZES
        if len(self.wanted) != self.session.size or len(self.offer or ()) > LONGEST_OFFER:
            return TOO_LONG
        return 0

    def answer(self):
        """The number, then a verdict and an index, or an address and writes."""
        number = self.number()
        if self.offer is not None:
            return (number, *(checked(self.session, self.offer, self.wanted) if number == 0 else (0, 0)))
        if number:
            return number, 0, []
        address, writes = planned(self.session, self.wanted)
        if address is not None:
            return PROTECTED, address, []
        return (SHORT_LIST, 0, []) if len(writes) > self.places else (0, 0, writes)

    def wants(self, *wanted):
        """Stops unless the answer is the one that was written by hand."""
        if self.answer() != wanted:
            sys.exit(f"{vars(self.setup)}: {self.answer()}, not {wanted}")
        return self

    def made(self):
        kind = PLAN if self.offer is None else CHECK
        steps = b"".join(bytes([step]) + body for step, body in self.steps)
        call = encoded(kind, self.setup, steps, self.room, self.wanted, self.offer or (), self.places)
        answer = self.answer()
        shown = check_bytes(*answer) if kind == CHECK else plan_bytes(*answer, self.places)
        return call, bytes([self.session.number]) + self.session.said + (shown if self.session.number == 0 else b"")


# ---- Calls with their answers by hand. ----

def condition(letter, value):
    return REQUEST, (bytes([16]) + word(value) + letter.encode()).ljust(10, b"\0")


TRAPS = [condition("n", 1), condition("b", 0x1008), condition("n", 2), condition("b", 0x100A)]
B = 0x1000


def changed(*changes):
    """The plain window with these bytes in the place of its own."""
    def wanted(image):
        image = bytearray(image)
        for at, byte in changes:
            image[at] = byte
        return image
    return wanted


def padded(data):
    return bytes(data).ljust(4, b"\0")


def one(address, *data):
    return address, len(data), padded(data)


def plans():
    free, word_at_8 = Setup(), Setup(start=B + 8, end=B + 12)
    yield Call(free, [], changed()).wants(0, 0, [])
    yield Call(free, TRAPS, changed(), places=3).wants(0, 0, [])
    yield Call(free, [], changed((0, 9)), places=1).wants(0, 0, [one(B, 9, 1, 2, 3)])
    yield Call(free, [], changed((3, 9)), places=2).wants(0, 0, [one(B + 3, 9, 4, 5, 6)])
    # Equal bytes among the four; the next write begins after the four, not after the difference.
    yield Call(free, [], changed((0, 9), (3, 9), (4, 9)), places=2).wants(
        0, 0, [one(B, 9, 1, 2, 9), one(B + 4, 9, 5, 6, 7)])
    # Cut short at the window's end.
    for at in (60, 61, 62, 63):
        data = [9, *range(at + 1, 64)]
        yield Call(free, [], changed((at, 9)), places=1).wants(0, 0, [one(B + at, *data)])
    # Cut short before a protected byte, and taken up behind it.
    for at in (4, 5, 6, 7):
        data = [9, *range(at + 1, 8)]
        yield Call(word_at_8, [], changed((at, 9)), places=1).wants(0, 0, [one(B + at, *data)])
    yield Call(word_at_8, [], changed((6, 9), (7, 9), (12, 9)), places=2).wants(
        0, 0, [one(B + 6, 9, 9), one(B + 12, 9, 13, 14, 15)])
    yield Call(word_at_8, [], changed((12, 9)), places=1).wants(0, 0, [one(B + 12, 9, 13, 14, 15)])
    # An empty stretch cuts nothing.
    for edge in (0, 4, 8, 64):
        yield Call(Setup(start=B + edge, end=B + edge), [], changed((3, 9), (7, 9)), places=2).wants(
            0, 0, [one(B + 3, 9, 4, 5, 6), one(B + 7, 9, 8, 9, 10)])
    # Plain bytes under traps count, and what the traps are does not.
    yield Call(free, TRAPS, changed((9, 0xAA)), places=1).wants(0, 0, [one(B + 9, 0xAA, 10, 11, 12)])
    # A protected byte differs: its address, before a list that is too short.
    yield Call(word_at_8, [], changed((0, 9), (11, 9), (9, 8))).wants(PROTECTED, B + 9, [])
    yield Call(word_at_8, [], changed((11, 9)), places=9).wants(PROTECTED, B + 11, [])
    yield Call(Setup(start=B, end=B + 64), [], changed((63, 9))).wants(PROTECTED, B + 63, [])
    yield Call(Setup(start=B, end=B + 64), [], changed()).wants(0, 0, [])
    # A list that is too short, exactly.
    three = changed((0, 9), (10, 9), (20, 9))
    for places in (0, 1, 2):
        yield Call(free, [], three, places=places).wants(SHORT_LIST, 0, [])
    for places in (3, 4, 9):
        yield Call(free, [], three, places=places).wants(
            0, 0, [one(B, 9, 1, 2, 3), one(B + 10, 9, 11, 12, 13), one(B + 20, 9, 21, 22, 23)])
    # At the top of memory.
    top = Setup(TOP - 64, 64, TOP - 4, TOP)
    yield Call(top, [], changed((58, 9)), places=1).wants(0, 0, [one(TOP - 6, 9, 59)])
    yield Call(top, [], changed((63, 9))).wants(PROTECTED, TOP - 1, [])
    # Every byte, and every other.
    yield Call(free, [], lambda image: bytes(byte ^ 0xFF for byte in image), places=16)
    yield Call(free, [], lambda image: bytes(byte ^ at % 2 for at, byte in enumerate(image)), places=16)
    yield from sizes(None)


def sizes(offer):
    """2 before 16, and a setup that is refused."""
    for room in (0, 63, 65):
        yield Call(Setup(), [], bytes(64), offer, room=room).wants(SIZES, 0, 0 if offer is not None else [])
        yield Call(Setup(), [], bytes(63), offer, room=room).wants(SIZES, 0, 0 if offer is not None else [])
    for length in (0, 63, 65):
        yield Call(Setup(), TRAPS, bytes(length), offer).wants(TOO_LONG, 0, 0 if offer is not None else [])
    yield Call(Setup(start=B + 2), [], bytes(64), offer)


def checks():
    word_at_4 = Setup(start=B + 4, end=B + 8)
    right = one(B, 9)
    wanted = changed((0, 9))
    yield Call(word_at_4, [], changed(), []).wants(0, ACCEPTED, 0)
    yield Call(word_at_4, TRAPS, changed(), []).wants(0, ACCEPTED, 0)
    yield Call(word_at_4, [], wanted, []).wants(0, DIFFER, 0)
    yield Call(word_at_4, [], wanted, [right]).wants(0, ACCEPTED, 0)
    yield Call(word_at_4, TRAPS, changed((8, 7), (9, 6)), [one(B + 8, 7, 6)]).wants(0, ACCEPTED, 0)
    # Data beyond the count is ignored.
    yield Call(word_at_4, [], wanted, [(B, 1, bytes([9, 7, 7, 7]))]).wants(0, ACCEPTED, 0)
    # Longer than needed; right in its order only; one byte off.
    yield Call(word_at_4, [], wanted, [right, right, one(B + 9, 9)]).wants(0, ACCEPTED, 0)
    yield Call(word_at_4, [], wanted, [one(B, 8, 1), right]).wants(0, ACCEPTED, 0)
    yield Call(word_at_4, [], wanted, [right, one(B, 8, 1)]).wants(0, DIFFER, 0)
    yield Call(word_at_4, [], wanted, [one(B, 9, 1, 2, 4)]).wants(0, DIFFER, 0)
    # The stretch's neighbours, and the window's ends.
    edges = changed((3, 9), (8, 9), (63, 9))
    yield Call(word_at_4, [], edges, [one(B + 3, 9), one(B + 8, 9), one(B + 63, 9)]).wants(0, ACCEPTED, 0)
    broken = [(B, 0, b"\t\0\0\0"), (B, 5, b"\t\1\2\3"), (B, 0x80000001, b"\t\1\2\3"), (B, 0xFFFFFFFF, b"\t\1\2\3"),
              one(B - 1, 9), one(B - 1, 0, 9), one(B + 64, 9), one(B + 63, 63, 9), one(B + 61, 61, 62, 63, 9),
              one(B + 3, 3, 4), one(B + 4, 4), one(B + 7, 7), one(B + 7, 7, 8), one(B + 1, 1, 2, 3, 4),
              one(0, 9), one(0xFFFFFFFF, 9), one(0xFFFFFFFF, 9, 9), one(0xFFFFFFFD, 9, 9, 9, 9), one(0x80001000, 9)]
    for write in broken:
        yield Call(word_at_4, [], changed(), [write]).wants(0, BOUND, 0)
        # The first one that breaks a bound, and before a difference.
        yield Call(word_at_4, [], changed(), [right, write, write]).wants(0, BOUND, 1)
    # Protected bytes that are written as they are break a bound all the same; one that differs is a difference.
    yield Call(word_at_4, [], changed(), [one(B + 4, 4, 5, 6, 7)]).wants(0, BOUND, 0)
    yield Call(word_at_4, [], changed((5, 9)), []).wants(0, DIFFER, 0)
    # A window that ends at 2^32.
    top = Setup(TOP - 8, 8, TOP - 8, TOP - 8)
    yield Call(top, [], changed((7, 9)), [one(TOP - 1, 9)]).wants(0, ACCEPTED, 0)
    yield Call(top, [], changed((7, 9)), [one(TOP - 1, 9, 9)]).wants(0, BOUND, 0)
    yield Call(top, [], changed((4, 9)), [one(TOP - 4, 9, 5, 6, 7)]).wants(0, ACCEPTED, 0)
    yield from sizes([])


def largest():
    """A window of 65,536 bytes: 16,384 writes, and one more."""
    setup = Setup(B, 65_536, B, B)
    turned = bytes(i % 256 ^ 0xFF for i in range(65_536))
    writes = [(B + at, 4, turned[at:at + 4]) for at in range(0, 65_536, 4)]
    yield Call(setup, [], turned, places=LONGEST_OFFER).wants(0, 0, writes)
    yield Call(setup, [], turned, places=LONGEST_OFFER - 1).wants(SHORT_LIST, 0, [])
    yield Call(setup, TRAPS, turned, writes).wants(0, ACCEPTED, 0)
    yield Call(setup, [], turned, [*writes, writes[0]]).wants(TOO_LONG, 0, 0)


DIRECTED = (plans, checks, largest)


# ---- Random calls. ----

def scattered():
    # Of this generator only random() is the same in every version of Python.
    noise = random.Random(SEED).random

    def pick(choices):
        return choices[int(noise() * len(choices))]

    for _ in range(RANDOM_CALLS):
        size = pick((4, 8, 12, 16, 64))
        base = pick((4096, 0x80000000, TOP - size))
        start = base + 4 * pick(range(size // 4 + 1))
        end = start + 4 * pick(range((base + size - start) // 4 + 1))
        setup = Setup(base, size, start, end)
        steps = [step for ident in range(pick(range(4)))
                 for step in (condition("n", ident), condition("b", base + 2 * pick(range(size // 2))))]
        steps.append((STATE, word(5) + bytes([4])))
        share = pick((0, 0.1, 0.4, 0.9))
        spoils = noise() < 0.1

        def wanted(image):
            return bytes(pick(range(256)) if noise() < share and (spoils or not start <= base + at < end) else byte
                         for at, byte in enumerate(image))

        image = wanted(plain(Session(setup, steps)))
        address, writes = planned(Session(setup, steps), image)
        places = max(0, len(writes) + pick((-1, 0, 0, 1, 3)))
        yield Call(setup, steps, image, places=places)
        if address is None:
            yield Call(setup, steps, image, writes).wants(0, ACCEPTED, 0)
        if noise() < 0.5 and writes:
            del writes[pick(range(len(writes)))]
        if noise() < 0.6:
            wild = ((base + pick(range(-3, size + 3))) % TOP, pick((0, 1, 2, 3, 4, 5)), bytes([pick(range(256))] * 4))
            writes.insert(pick(range(len(writes) + 1)), wild)
        yield Call(setup, steps, image, writes)


def cases():
    """Every call with its answer."""
    for made in (*DIRECTED, scattered):
        for call in made():
            yield call.made()


def main():
    calls = [call for made in (*DIRECTED, scattered) for call in made()]
    made = [call.made() for call in calls]
    answers = [call.answer()[:2] if call.offer is not None else call.answer()[:1] for call in calls]
    counts = ", ".join(f"{answers.count(one)} {one}" for one in sorted(set(answers)))
    said = f"{len(made)} calls, by number and verdict: {counts}"
    if len(sys.argv) == 1:
        print(said)
        return 0
    output = subprocess.run(sys.argv[1:], input=b"".join(call for call, _ in made), stdout=subprocess.PIPE,
                            check=True).stdout
    wrong = 0
    for call, answer in made:
        got, output = output[:len(answer)], output[len(answer):]
        if got != answer:
            wrong += 1
            print(f"{call[:200].hex()}: {got[:200].hex()}, not {answer[:200].hex()}")
    if output:
        wrong += 1
        print(f"left over: {output[:200].hex(' ')}")
    print(f"{said}; {wrong} wrong")
    return 1 if wrong else 0


if __name__ == "__main__":
    sys.exit(main())
