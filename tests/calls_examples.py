#!/usr/bin/env python3
"""Run the examples of docs/CALLS.md.

    python3 tests/calls_examples.py [PROGRAM]        target/bin/calls_main unless given

Each block marked `calls` is one run. A line is a call and, after `<`, what the program writes for it, both in hex; one
that begins with blanks goes on with the line above, and `ee*26` is 26 times the byte ee.
"""

import re
import subprocess
import sys
from pathlib import Path

ROOT = Path(__file__).resolve().parent.parent
DOCUMENT = ROOT / "docs" / "CALLS.md"


def raw(text):
    """The bytes of hex digits."""
    return bytes.fromhex(re.sub(r"(\w\w)\*(\d+)", lambda run: run[1] * int(run[2]), text))


def runs():
    """The calls of each block with their answers."""
    for block in re.findall(r"^```calls\n(.*?)^```$", DOCUMENT.read_text(), re.DOTALL | re.MULTILINE):
        yield [[raw(part) for part in line.split("<")] for line in re.sub(r"\n +", " ", block).splitlines()]


def main():
    program = Path(sys.argv[1] if len(sys.argv) > 1 else ROOT / "target" / "bin" / "calls_main").resolve()
    count = wrong = 0
    for run in runs():
        data = b"".join(call for call, _ in run)
        output = subprocess.run([program], input=data, stdout=subprocess.PIPE, check=True).stdout
        for call, answer in run:
            count += 1
            got, output = output[:len(answer)], output[len(answer):]
            if got != answer:
                wrong += 1
                print(f"{call.hex(' ')}: {got.hex(' ')}")
        if output:
            wrong += 1
            print(f"left over: {output.hex(' ')}")
    print(f"{count} calls of {DOCUMENT.name}, {wrong} wrong")
    return 1 if wrong or not count else 0


if __name__ == "__main__":
    sys.exit(main())
