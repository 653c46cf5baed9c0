#!/usr/bin/env python3
"""Run the examples of docs/PROTOCOL.md.

    python3 tests/protocol_examples.py [PROGRAM]        target/bin/program_main unless given
    python3 tests/protocol_examples.py --text PROGRAM   those with text, by tests/text_step_run.c

Each block marked `session` is one run. A line is a step and, after `<`, its answer without the number, which is 0:
`> TEN BYTES`, `trap PID PC`, `schedule PID PC`, `state PID VALUE` or `restart`. A block marked `text-session` has no
`trap` and no `state`, but `text REQUEST` with its reply after `<`, and `text ROOM: REQUEST` over a buffer of so many
bytes, with its number after `<`; where it begins with `protect FROM TO`, its setup has that stretch.
"""

import re
import subprocess
import sys
from pathlib import Path

import text_step_vectors as vectors

ROOT = Path(__file__).resolve().parent.parent
DOCUMENT = ROOT / "docs" / "PROTOCOL.md"
KINDS = {"trap": 2, "schedule": 3}


def word(value):
    return value.to_bytes(4, "big")


def encoded(text):
    """The program's input for a step."""
    if text.startswith(">"):
        message = bytes.fromhex(text[1:])
        if len(message) != 10:
            raise ValueError(f"not ten bytes: {text}")
        return b"\x01" + message
    name, *numbers = text.split()
    numbers = [int(number, 0) for number in numbers]
    if name in KINDS:
        pid, pc = numbers
        return bytes([KINDS[name]]) + word(pid) + bytes(132) + word(pc)
    if name == "state":
        pid, value = numbers
        return b"\x04" + word(pid) + bytes([value])
    if name == "restart":
        return b"\x05"
    raise ValueError(f"no step: {text}")


def blocks(mark):
    """The lines of each block with this mark, as pairs of a step's text and its answer."""
    for block in re.findall(rf"^```{mark}\n(.*?)^```$", DOCUMENT.read_text(), re.DOTALL | re.MULTILINE):
        yield [tuple(part.strip() for part in line.partition("<")[::2]) for line in block.splitlines()]


def run(program, data):
    return subprocess.run([program], input=data, stdout=subprocess.PIPE, check=True).stdout


def session(program):
    """Runs the blocks of the program of 01. Gives how many steps there are, and how many answers are wrong."""
    count = wrong = 0
    for block in blocks("session"):
        output = run(program, b"".join(encoded(step) for step, _ in block))
        for step, answer in block:
            count += 1
            wanted = b"\x00" + bytes.fromhex(answer)
            got, output = output[:len(wanted)], output[len(wanted):]
            if got != wanted:
                wrong += 1
                print(f"{step}: {got.hex(' ')}")
        if output:
            wrong += 1
            print(f"left over: {output.hex(' ')}")
    return count, wrong


def text_pair(step, answer):
    """A step of a text session as tests/text_step_vectors.py has it, with its answer."""
    if step.startswith("protect "):
        return (vectors.PROTECT, *(int(address, 0) for address in step.split()[1:])), b""
    if not step.startswith("text "):
        kind, body = encoded(step)[0], encoded(step)[1:]
        arguments = [int.from_bytes(body[:4], "big"), body[4:]] if kind == vectors.SCHEDULE else [body]
        return (kind, *arguments), bytes.fromhex(answer)
    room, text = re.fullmatch(r"text (?:(\d+): )?(.*)", step).groups()
    made = vectors.TEXT, text.encode(), int(room or vectors.LEAST_BUFFER)
    if room:
        return made, (int(answer), 0, b"")
    return made, (vectors.ACCEPTED, int(answer.split()[2] == "0xffffffff"), answer.encode())


def text_session(program):
    """The same of the blocks with text."""
    count = wrong = 0
    for block in blocks("text-session"):
        steps = [((vectors.BEGIN,), b""), *(text_pair(*line) for line in block)]
        count += len(block)
        wrong += vectors.compare(steps, [program])
    return count, wrong


def main():
    arguments = sys.argv[1:]
    with_text = arguments[:1] == ["--text"]
    default = [ROOT / "target" / "bin" / "program_main"]
    program, = arguments[with_text:] or default
    count, wrong = (text_session if with_text else session)(Path(program).resolve())
    print(f"{count} steps of {DOCUMENT.name}, {wrong} wrong")
    return 1 if wrong or not count else 0


if __name__ == "__main__":
    sys.exit(main())
