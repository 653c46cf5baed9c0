#!/usr/bin/env python3
"""Show a session with the stub's program as a person reads it: each step, and beside it the answer.

    python3 tools/show_session.py                   the worked session, by target/bin/program_main
    python3 tools/show_session.py --build           the same; proves and links the program first
    python3 tools/show_session.py STEPS             the steps of a file in the program's format
    python3 tools/show_session.py STEPS ANSWERS     with the program's output from a file; runs nothing

What is shown (docs/PROTOCOL.md has the format):
- a request and its reply by name and fields; of an Rmget the n bytes that were asked for, and no more
- behind a message, `unused` and its unused bytes, where one of them is not zero
- behind an Rstart, `Pass` and the plain bytes that the kernel is to run elsewhere, where the process goes on at a
  breakpoint
- under a step that changes memory or breakpoints, each breakpoint that stands: the plain bytes of its site and what is
  in memory there, the trap; and of one that went, what is in memory afterwards. This is told from the steps and the
  accepted answers, over the worked setup; nothing is read for it. A read or a Pass behind an Rstart that does not have
  those bytes is marked !
- how the input ends, where it is cut inside a step or comes to an unknown kind; and whether the output fits the steps

Exit status: 0; 1 where the output does not fit the steps or something is marked; 2 for bad usage, a file that cannot
be read, or no program.
"""

import argparse
import subprocess
import sys
from pathlib import Path

from session import show_answer, show_step, split_answers, split_steps
from under_traps import UnderTraps
from worked import SESSION

ROOT = Path(__file__).resolve().parent.parent
PROGRAM = ROOT / "target" / "bin" / "program_main"
LOG = ROOT / "target" / "check.log"
WIDTH = 36


def lines_of(data, output, titles=None):
    """The lines of a session, and whether the output fits the steps; a title stands before the step of its index."""
    steps, ending, written = split_steps(data)
    answers, rest = split_answers(steps, output)
    traps, lines, fits = UnderTraps(), [], True
    for i, (step, answer) in enumerate(zip(steps, answers)):
        if titles and i in titles:
            lines += ([""] if i else []) + [f"# {titles[i]}"]
        lines.append(f"{show_step(step):<{WIDTH}} {show_answer(step, answer)}")
        below = traps.take(step, answer)
        lines += [f"    {line}" for line in below]
        fits = fits and not any(line.startswith("!") for line in below)
    if len(answers) < len(steps):
        lines.append(f"! the output ends before the answer of step {len(answers) + 1} of {len(steps)}: "
                     f"{show_step(steps[len(answers)])}")
        return lines, False
    if ending:
        lines.append(ending)
    if rest != written:
        lines.append(f"! after the last answer the output has {rest.hex(' ') or 'nothing'}, "
                     f"not {written.hex(' ') or 'nothing'}")
        fits = False
    return lines, fits


def build():
    """Proves and links the program; the log goes to a file. Whether it went well."""
    LOG.parent.mkdir(exist_ok=True)
    print(f"proving and linking program_main; the log is {LOG.relative_to(ROOT)}", file=sys.stderr)
    with LOG.open("wb") as log:
        done = subprocess.run([ROOT / "tools" / "build.sh", "program_main"], stdout=log, stderr=log, check=False)
    return done.returncode == 0


def run_program(program, data):
    return subprocess.run([program], input=data, stdout=subprocess.PIPE, check=True).stdout


def worked_session():
    """The bytes of the worked session, and its titles by the index of a step."""
    data, titles, count = b"", {}, 0
    for title, steps in SESSION:
        titles[count] = title
        count += len(steps)
        data += b"".join(steps)
    return data, titles


def arguments():
    about, _, rest = __doc__.partition("\n\n")
    parser = argparse.ArgumentParser(description=about, epilog=rest,
                                     formatter_class=argparse.RawDescriptionHelpFormatter)
    parser.add_argument("steps", nargs="?", type=Path, help="the program's input")
    parser.add_argument("answers", nargs="?", type=Path, help="the program's output for it")
    parser.add_argument("--build", action="store_true", help="run `tools/build.sh program_main` first")
    parser.add_argument("--program", type=Path, default=PROGRAM, help="the program that is run")
    return parser.parse_args()


def output_of(given, data):
    """What the program wrote: from the file of answers, or by running it."""
    if given.answers:
        return given.answers.read_bytes()
    if not given.program.is_file():
        raise OSError(f"there is no {given.program}; --build makes target/bin/program_main")
    return run_program(given.program.resolve(), data)


def main():
    given = arguments()
    try:
        if given.build and not build():
            raise OSError(f"tools/build.sh program_main failed, see {LOG.relative_to(ROOT)}")
        data, titles = (given.steps.read_bytes(), None) if given.steps else worked_session()
        output = output_of(given, data)
    except OSError as error:
        print(error, file=sys.stderr)
        return 2
    lines, fits = lines_of(data, output, titles)
    print("\n".join(lines))
    return 0 if fits else 1


if __name__ == "__main__":
    sys.exit(main())
