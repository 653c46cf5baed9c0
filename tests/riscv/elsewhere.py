#!/usr/bin/env python3
"""Set a breakpoint at each instruction of tests/riscv/instructions.S in turn, at which no process stops.

    python3 tests/riscv/elsewhere.py

The kernel of examples/head has to run each instruction elsewhere (Pass), and both processes must come to the sum that
they come to without a breakpoint. At an instruction of four bytes a second breakpoint stands on its second half
meanwhile. Then faults: of an instruction, and of one that runs elsewhere. Then a trap that something else than the stub
overwrites, here by qemu's own debugger: the session is lost, the program is not. Then noise on the line before a
request. The last line is 'N tried, M failed'.
Needs target/head/instructions.elf (examples/head/build.sh tests/riscv/instructions.S).
"""

import random
import socket
import sys
import tempfile
from pathlib import Path

ROOT = Path(__file__).resolve().parent.parent.parent
sys.path.insert(0, str(ROOT / "examples" / "head"))

from line import Head, packet  # noqa: E402

BEGIN, LUI = 0x80100012, 0x8010001A  # the first instruction of the loop, and one of four bytes
NAMES = ("left", "right")


def word(number):
    return number.to_bytes(4, "big")


class Failed(Exception):
    pass


def served(head, request, reply):
    found = head.ask(request)
    if found[:len(reply)] != reply:
        raise Failed(f"{request.hex()} is answered {found.hex()}")
    return found


def condbreak(head, letter, value):
    served(head, bytes([16]) + word(value) + letter.encode() + bytes(4), bytes([17]))


def set_breakpoint(head, number, site):
    """For process 9, which there is not."""
    condbreak(head, "n", number)
    condbreak(head, "k", 9)
    condbreak(head, "a", 0)
    condbreak(head, "b", site)


def plain(head, address, n):
    return served(head, bytes([2]) + word(address) + bytes([n]) + bytes(4), bytes([3]))[1:1 + n]


def put(head, address, data):
    served(head, bytes([4]) + word(address) + bytes([len(data)]) + data.ljust(4, b"\0"), bytes([5]))


def sums(head):
    """The second line of each from now on: of a round that began after this."""
    head.forget()
    return [head.line_of(name, 2) for name in NAMES]


def is_long(halfword):
    return halfword[0] & 3 == 3


def sites(head):
    """The addresses of the instructions, up to the halfword 0."""
    site = BEGIN
    while plain(head, site, 2) != bytes(2):
        yield site
        site += 4 if is_long(plain(head, site, 2)) else 2


def tried(head, site, wanted):
    two = is_long(plain(head, site, 2))
    set_breakpoint(head, 1, site)
    if two:
        set_breakpoint(head, 2, site + 2)
    found = sums(head)
    if two:
        condbreak(head, "d", 2)
    condbreak(head, "d", 1)
    if found != wanted:
        print(f"at {site:#x}: {found} and not {wanted}")
    return found == wanted


def status(head, pid):
    return served(head, bytes([8]) + word(pid) + bytes(5), bytes([9]))[1:].rstrip(b"\0")


def broken(head, code, site, traps, cause):
    """With this code at a site both processes break, and the host sees it; code put back and restarted, they go on."""
    kept = plain(head, site, len(code))
    if traps:
        set_breakpoint(head, 1, site)
    head.forget()
    put(head, site, code)
    lines = [head.line_of(f"{name} is broken") for name in NAMES]
    states = [status(head, pid) for pid in (5, 7)]
    put(head, site, kept)
    reply = head.ask()
    right = [f"{name} is broken, cause {cause}" for name in NAMES]
    return lines == right and states == [b"Broken"] * 2 and reply == b"\x01reset\0\0\0\0"


def debugger(path, *commands):
    """Has qemu's debugger carry out commands of the remote protocol of gdb; the machine stands still meanwhile."""
    with socket.socket(socket.AF_UNIX) as line:
        line.connect(path)
        for command in commands:
            line.sendall(f"${command}#{sum(command.encode()) % 256:02x}".encode())
            answer = b""
            while not answer.endswith(b"$OK#9a"):
                come = line.recv(100)
                if not come:
                    raise Failed(f"qemu's debugger answers {command} with {answer}")
                answer += come
            line.sendall(b"+")


def overwritten(head, path):
    """Breakpoints at two places; the trap of the second becomes other bytes, in fact the plain ones."""
    kept = plain(head, LUI, 4)
    set_breakpoint(head, 1, BEGIN)
    set_breakpoint(head, 2, LUI)
    head.forget()
    debugger(path, f"M{LUI:x},2:{kept[:2].hex()}", "D")
    lost = head.line_of("the debug session is lost")
    condbreak(head, "n", 1)  # its id is free again
    return lost == "the debug session is lost, traps overwritten: 1" and plain(head, LUI, 4) == kept


def noises():
    """Bytes of every kind, a packet that is cut, and one with a byte changed, which gets no answer."""
    chance = random.Random(1)
    whole = packet(7, bytes([4]) + word(LUI) + b"\x02abcd")
    yield bytes(chance.randrange(256) for _ in range(300))
    yield whole[:13]
    yield whole[:20] + bytes([whole[20] ^ 1]) + whole[21:]


def main():
    count = failed = 0
    folder = tempfile.TemporaryDirectory()
    path = str(Path(folder.name) / "gdb")
    with folder, Head(ROOT / "target" / "head" / "instructions.elf", "-gdb", f"unix:{path},server=on,wait=off") as head:
        wanted = sums(head)
        print(wanted)
        for site in list(sites(head)):
            count += 1
            failed += not tried(head, site, wanted)
        # An illegal instruction; a load from address 0, at its place and under a breakpoint.
        load = bytes.fromhex("03250000")
        for code, traps, cause in ((bytes(2), False, 2), (load, False, 5), (bytes(2), True, 2), (load, True, 5)):
            count += 1
            if not broken(head, code, LUI, traps, cause) or sums(head) != wanted:
                print(f"{code.hex()} with {'a' if traps else 'no'} breakpoint breaks otherwise")
                failed += 1
        count += 1
        if not overwritten(head, path) or sums(head) != wanted:
            print("a trap that is overwritten is handled otherwise")
            failed += 1
        for noise in noises():
            count += 1
            if head.ask(bytes([8]) + word(5) + bytes(5), noise) != b"\x09Ready\0\0\0\0" or sums(head) != wanted:
                print(f"noise is taken for something: {noise.hex()}")
                failed += 1
    print(f"{count} tried, {failed} failed")
    sys.exit(failed != 0)


if __name__ == "__main__":
    main()
