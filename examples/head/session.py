#!/usr/bin/env python3
"""The story of the mission on a head that runs: a patch written across a breakpoint is still there when it is gone.

    python3 examples/head/session.py            against the head with the proved stub, target/head/head.elf
    python3 examples/head/session.py --naive    the same against target/head/naive.elf, a stub that saves the plain
                                                bytes once, when the breakpoint is planted: the failure ruled out
    --check                                     compare with the stored session.txt or session_naive.txt, print nothing

examples/head/build.sh makes both. Left the requests, right the replies; `prints` is what the head itself prints.
"""

import argparse
import sys
from pathlib import Path

HERE = Path(__file__).resolve().parent
ROOT = HERE.parent.parent
sys.path.insert(0, str(ROOT / "tools"))

from line import Head  # noqa: E402
from messages import TCONDBREAK, TMGET, TMPUT, TPROC, TSTART, TSTATUS, TSTOP, show_reply, show_request  # noqa: E402

RULE = 0x8010006A         # programs.S: the instruction that says what is glare
POWER_LIMIT = 0x80100F00  # the word that the stub protects
PATCH = bytes.fromhex("13878702")
A4, PC = 4 * 14, 132
LEFT, RIGHT = 5, 7
WIDTH = 40


class Session:
    def __init__(self, head):
        self.head, self.lines = head, []

    def tell(self, text):
        self.lines += ([""] if self.lines else []) + [f"# {text}"]

    def send(self, kind, number, rest=b""):
        request = bytes([kind]) + number.to_bytes(4, "big") + rest.ljust(5, b"\0")
        reply = self.head.ask(request)
        n = rest[0] if kind == TMGET else 9
        self.lines.append(f"{show_request(request):<{WIDTH}} {show_reply(reply, n)}")
        return reply

    def get(self, address, n):
        return self.send(TMGET, address, bytes([n]))

    def put(self, address, data):
        return self.send(TMPUT, address, bytes([len(data)]) + data)

    def condition(self, letter, value=0):
        return self.send(TCONDBREAK, value, letter.encode())

    def restart(self):
        self.lines.append(f"{'restart of the head':<{WIDTH}} {show_reply(self.head.ask())}")

    def prints(self, *names):
        """What the head prints now. The second line of a process from now on is of a scan that began after this."""
        for name in names:
            self.head.forget()
            self.lines.append(f"{'':{WIDTH}} prints: {self.head.line_of(name, 2)}")

    def wait(self, name="left"):
        """Until the other process has surely come round: both rest as long between two scans."""
        self.head.forget()
        self.head.line_of(name, 3)

    def laser(self):
        """What the head prints of its laser, where its power has changed."""
        self.wait()
        for line in self.head.lines("laser")[-1:]:  # a process may have read the limit before it changed
            self.lines.append(f"{'':{WIDTH}} prints: {line}")


def play(session):
    session.tell("The left side of the log is 412 mm. Glare at 505 mm gets through the rule of 520 mm.")
    session.prints("left", "right")
    session.tell("Breakpoint 3 at the rule, for process 7 (right) alone. 5 (left) runs on, over the trap.")
    session.condition("n", 3)
    session.condition("k", RIGHT)
    session.condition("a")
    session.condition("b", RULE)
    session.wait()
    session.send(TSTATUS, RIGHT)
    session.send(TPROC, RIGHT)
    session.get(PC, 4)
    session.get(RULE, 4)
    session.prints("left")
    session.tell("New code across the breakpoint: glare is 40 mm above the last point kept (addi a4, a5, 40).")
    session.put(RULE, PATCH)
    session.get(RULE, 4)
    session.prints("left")
    session.tell("Process 7 goes on, over the new code, and comes to the breakpoint again: 380 + 40 mm in a4.")
    session.send(TSTART, RIGHT)
    session.wait()
    session.send(TSTATUS, RIGHT)
    session.get(A4, 4)
    session.tell("The breakpoint goes. The patch is to stay.")
    session.condition("d", 3)
    session.send(TSTART, RIGHT)
    session.get(RULE, 4)
    session.prints("left", "right")
    session.tell("Stop and continue, without a breakpoint.")
    session.send(TSTOP, LEFT)
    session.wait("right")
    session.send(TSTATUS, LEFT)
    session.send(TSTART, LEFT)
    session.prints("left")
    session.tell("The laser's power limit, 45 mW, can be read and not changed, by a breakpoint neither.")
    session.get(POWER_LIMIT, 4)
    session.put(POWER_LIMIT, (90).to_bytes(4, "little"))
    session.laser()
    session.condition("n", 4)
    session.condition("b", POWER_LIMIT)
    session.laser()
    session.get(POWER_LIMIT, 4)
    session.tell("The head restarts.")
    session.restart()
    session.get(RULE, 4)
    session.prints("left", "right")


def main():
    parser = argparse.ArgumentParser(description=__doc__, formatter_class=argparse.RawDescriptionHelpFormatter)
    parser.add_argument("--naive", action="store_true")
    parser.add_argument("--check", action="store_true")
    options = parser.parse_args()
    elf = ROOT / "target" / "head" / ("naive.elf" if options.naive else "head.elf")
    if not elf.exists():
        sys.exit(f"{elf} is not there: run examples/head/build.sh first")
    with Head(elf) as head:
        session = Session(head)
        play(session)
    text = "\n".join(session.lines) + "\n"
    if not options.check:
        print(text, end="")
        return
    stored = HERE / ("session_naive.txt" if options.naive else "session.txt")
    if text != stored.read_text():
        sys.exit(f"not as in {stored}:\n{text}")
    print(f"as in {stored}")


if __name__ == "__main__":
    main()
