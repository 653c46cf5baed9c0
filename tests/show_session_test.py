#!/usr/bin/env python3
"""Tests of tools/show_session.py. They run on bytes that stand here or are stored; no prover is needed.

    python3 tests/show_session_test.py
"""

import os
import random
import subprocess
import sys
import tempfile
import unittest
from pathlib import Path

ROOT = Path(__file__).resolve().parent.parent
TOOL = ROOT / "tools" / "show_session.py"
PROGRAM = ROOT / "target" / "bin" / "program_main"
sys.path.insert(0, str(TOOL.parent))

from messages import TPROC, TSTART, TSTATUS, TSTOP, show_reply, show_request  # noqa: E402
from session import SCHEDULE, TRAP, split_steps  # noqa: E402
from show_session import lines_of, worked_session  # noqa: E402
from worked import RESTARTED, cond, event, mget, mput, of_pid  # noqa: E402


def raw(text):
    return bytes.fromhex(text)


RMPUT, RSTOP, RSTART, RCONDBREAK = (raw(f"00 {kind} 000000000000000000") for kind in ("05", "0d", "0f", "11"))
RESET = raw("00 01 72 65 73 65 74 00000000")
INVAL = raw("00 01 69 6e 76 61 6c 00000000")


def rmget(text):
    return (raw("00 03") + raw(text)).ljust(11, b"\x00")


def shown(*pairs):
    """The lines of steps with their answers, without runs of blanks; the output has to fit."""
    lines, fits = lines_of(b"".join(step for step, _ in pairs), b"".join(answer for _, answer in pairs))
    assert fits
    return [" ".join(line.split()) for line in lines]


class Messages(unittest.TestCase):
    def test_unused_bytes_that_are_not_zero(self):
        for text, wanted in (
                ("02 00001004 04 00000001", "Tmget 0x1004 n 4, unused 00 00 00 01"),
                ("04 00001009 03 aabbcc00", "Tmput 0x1009 n 3 aa bb cc"),
                ("04 00001009 02 aabbcc00", "Tmput 0x1009 n 2 aa bb, unused cc 00"),
                ("04 00001009 00 00000000", "Tmput 0x1009 n 0"),
                ("04 00001009 ff aabbccdd", "Tmput 0x1009 n 255 aa bb cc dd"),
                ("06 00000005 0100000000", "Tproc 5, unused 01 00 00 00 00"),
                ("10 00000003 6e000000 00", "Tcondbreak n 3"),
                ("10 00000003 64000000 07", "Tcondbreak d 3, unused 00 00 00 07"),
                ("10 00000000 61000000 00", "Tcondbreak a"),
                ("10 00000009 61000000 00", "Tcondbreak a, unused 00 00 00 09 00 00 00 00"),
                ("10 00001008 78000000 00", "Tcondbreak op 78 00 00 00 val 0x1008"),
                ("14 000000000000000000", "type 20"),
                ("16 00000005 6e6f746500", "Tkill 00 00 00 05 6e 6f 74 65 00")):
            self.assertEqual(show_request(raw(text)), wanted)

    def test_n_bytes_of_an_rmget(self):
        self.assertEqual(show_reply(raw("03 040506070000000000"), 4), "Rmget 04 05 06 07")
        self.assertEqual(show_reply(raw("03 000000000000000000"), 0), "Rmget")
        self.assertEqual(show_reply(raw("03 000000000000000000"), 9), "Rmget 00 00 00 00 00 00 00 00 00")
        self.assertEqual(show_reply(raw("03 040506070000000001"), 4), "Rmget 04 05 06 07, unused 00 00 00 00 01")
        self.assertEqual(shown((mget(0x1004, 4), rmget("04050607"))), ["Tmget 0x1004 n 4 Rmget 04 05 06 07"])

    def test_texts_are_printable(self):
        self.assertEqual(show_reply(raw("01 636f756e7400000000")), "Rerr count")
        self.assertEqual(show_reply(raw("01 636f756e7400000001")), "Rerr count, unused 00 00 01")
        self.assertEqual(show_reply(raw("09 ff1b00000000000000")), "Rstatus \\xff\\x1b")


class Ends(unittest.TestCase):
    def test_cut(self):
        for length, wanted in ((1, "with 0 of its 140"), (140, "with 139 of its 140")):
            lines, fits = lines_of(RESTARTED + event(TRAP, 5, 0x1008)[:length], RESET)
            self.assertEqual(lines[1:], [f"cut: a trap {wanted} bytes is not run"])
            self.assertTrue(fits)

    def test_unknown_kind(self):
        for kind in (0, 6, 255):
            lines, fits = lines_of(RESTARTED + bytes([kind]) + RESTARTED * 3, RESET + b"\xff")
            self.assertEqual(lines[1:], [f"unknown kind {kind}: the run ends, 3 more bytes are not read"])
            self.assertTrue(fits)

    def test_output_that_does_not_fit(self):
        for output, wanted in (
                (RESET, "! the output ends before the answer of step 2 of 2: restart"),
                (RESET + RESET[:-1], "! the output ends before the answer of step 2 of 2: restart"),
                (RESET + RESET + b"\xff", "! after the last answer the output has ff, not nothing")):
            lines, fits = lines_of(RESTARTED * 2, output)
            self.assertEqual(lines[-1], wanted)
            self.assertFalse(fits)
        lines, fits = lines_of(b"\x07", b"")
        self.assertEqual(lines[-1], "! after the last answer the output has nothing, not ff")
        self.assertFalse(fits)

    def test_nothing(self):
        self.assertEqual(lines_of(b"", b""), ([], True))


class Traps(unittest.TestCase):
    PLANT = [(cond("n", 3), RCONDBREAK), (cond("b", 0x1008), RCONDBREAK)]
    PLANTED = ["Tcondbreak n 3 Rcondbreak", "Tcondbreak b 0x1008 Rcondbreak",
               "breakpoint 3 at 0x1008: plain 08 09, in memory 02 90"]
    STOP = (event(TRAP, 5, 0x1008), raw("00 01 03"))
    START = of_pid(TSTART, 5)

    def test_write_across_a_trap(self):
        lines = shown(*self.PLANT, (mput(0x1009, "aabbcc"), RMPUT), (cond("d", 3), RCONDBREAK),
                      (mget(0x1008, 4), rmget("08aabbcc")))
        self.assertEqual(lines, self.PLANTED + [
            "Tmput 0x1009 n 3 aa bb cc Rmput", "breakpoint 3 at 0x1008: plain 08 aa, in memory 02 90",
            "Tcondbreak d 3 Rcondbreak", "breakpoint 3 at 0x1008 is gone: in memory 08 aa",
            "Tmget 0x1008 n 4 Rmget 08 aa bb cc"])

    def test_refused_steps_change_nothing(self):
        lines = shown(*self.PLANT, (mput(0x1009, "aabbcc"), INVAL), (cond("d", 4), INVAL), (mput(0x1008, "08"), RMPUT))
        self.assertEqual(lines, self.PLANTED + [
            "Tmput 0x1009 n 3 aa bb cc Rerr inval", "Tcondbreak d 4 Rerr inval", "Tmput 0x1008 n 1 08 Rmput"])

    def test_start_at_a_breakpoint_keeps_it(self):
        lines = shown(*self.PLANT, self.STOP, (of_pid(TSTART, 7), RSTART), (self.START, RSTART + raw("02 08 09")),
                      (self.START, RSTART), self.STOP, (mput(0x1009, "aa"), RMPUT),
                      (self.START, RSTART + raw("02 08 aa")))
        self.assertEqual(lines[3:], [
            "trap of 5 at pc 0x1008 Stop 3", "Tstart 7 Rstart", "Tstart 5 Rstart, Pass 08 09", "Tstart 5 Rstart",
            "trap of 5 at pc 0x1008 Stop 3", "Tmput 0x1009 n 1 aa Rmput",
            "breakpoint 3 at 0x1008: plain 08 aa, in memory 02 90", "Tstart 5 Rstart, Pass 08 aa"])

    def test_start_goes_by_the_pc_that_was_written(self):
        stop = [(of_pid(TSTOP, 5), RSTOP), (event(SCHEDULE, 5, 0x1010), raw("00 01"))]
        current = (of_pid(TPROC, 5), raw("00 07 383030303130303000"))
        lines = shown(*self.PLANT, *stop, (self.START, RSTART), *stop, current, (mput(132, "00001008"), RMPUT),
                      (self.START, RSTART + raw("02 08 09")))
        self.assertEqual(lines[-1], "Tstart 5 Rstart, Pass 08 09")

    def test_a_start_with_other_bytes_is_marked(self):
        right = RSTART + raw("02 08 09")
        trap = RSTART + raw("02 02 90")
        for answers, wanted in (([RSTART], "08 09"), ([trap], "08 09"), ([right, right], "nothing")):
            pairs = [*self.PLANT, self.STOP, *((self.START, answer) for answer in answers)]
            lines, fits = lines_of(b"".join(step for step, _ in pairs), b"".join(answer for _, answer in pairs))
            self.assertEqual(lines[-1], f"    ! to be run elsewhere is {wanted}")
            self.assertFalse(fits)

    def test_what_follows_a_start(self):
        for step, answer, wanted in (
                (event(TRAP, 6, 0x1008), raw("04"), "trap of 6 at pc 0x1008 number 4: unlisted pid"),
                (of_pid(TSTATUS, 5), raw("00 09 526561647900000000"), "Tstatus 5 Rstatus Ready"),
                (event(TRAP, 5, 0x1008), raw("00 02 08 09"), "trap of 5 at pc 0x1008 Pass 08 09")):
            for start in ([(self.START, RSTART)], [self.STOP, (self.START, RSTART + raw("02 08 09"))]):
                self.assertEqual(shown(*self.PLANT, *start, (step, answer))[-1], wanted)
        lines, fits = lines_of(self.START, RSTART + raw("02 08"))
        self.assertEqual(lines[-1], "! the output ends before the answer of step 1 of 1: Tstart 5")
        self.assertFalse(fits)

    def test_restart(self):
        lines = shown(*self.PLANT, (RESTARTED, RESET), (RESTARTED, RESET))
        self.assertEqual(lines[3:], ["restart Rerr reset", "breakpoint 3 at 0x1008 is gone: in memory 08 09",
                                     "restart Rerr reset"])

    def test_a_read_of_the_trap_is_marked(self):
        pairs = [*self.PLANT, (mget(0x1008, 2), rmget("0290"))]
        lines, fits = lines_of(b"".join(step for step, _ in pairs), b"".join(answer for _, answer in pairs))
        self.assertEqual(lines[-1], "    ! plain memory has 08 09")
        self.assertFalse(fits)


class Any(unittest.TestCase):
    def test_any_bytes_are_shown(self):
        chance = random.Random(1)
        for _ in range(2000):
            data = bytes(chance.choices((1, 1, 2, 3, 4, 5, 16, 110, 98, 0, 255), k=chance.randrange(300)))
            lines, _ = lines_of(data, chance.randbytes(chance.randrange(60)).replace(b"\x07", b"\x00"))
            self.assertTrue(all(line.isprintable() for line in lines))


class Stored(unittest.TestCase):
    def test_stored_runs(self):
        for name in ("program_main", "program_random"):
            data = (ROOT / "crates" / name / "stdin").read_bytes()
            lines, fits = lines_of(data, (ROOT / "crates" / name / "stdout").read_bytes())
            self.assertTrue(fits, name)
            self.assertGreaterEqual(len(lines), len(split_steps(data)[0]))


def tool(*words, **options):
    return subprocess.run([sys.executable, TOOL, *words], capture_output=True, text=True, check=False, **options)


class Command(unittest.TestCase):
    def test_help(self):
        done = tool("--help")
        self.assertEqual(done.returncode, 0)
        for part in ("usage:", "unused", "Rmget", "Pass", "plain bytes", "--build", "Exit status"):
            self.assertIn(part, done.stdout)

    def test_files(self):
        with tempfile.TemporaryDirectory() as room:
            steps, answers = Path(room, "steps"), Path(room, "answers")
            steps.write_bytes(mget(0x1004, 4) + b"\x02")
            answers.write_bytes(rmget("04050607"))
            done = tool(steps, answers)
            self.assertEqual(done.returncode, 0)
            self.assertEqual(done.stdout.splitlines()[-1], "cut: a trap with 0 of its 140 bytes is not run")
            answers.write_bytes(rmget("04050608"))
            self.assertEqual(tool(steps, answers).returncode, 1)

    def test_bad_usage(self):
        self.assertEqual(tool("no such file").returncode, 2)
        self.assertEqual(tool("--program", "no such program").returncode, 2)

    def test_build_that_fails(self):
        with tempfile.TemporaryDirectory() as room:
            self.assertEqual(tool("--build", env={**os.environ, "PATH": room}).returncode, 2)
            rt = Path(room, "rt")
            rt.write_text("#!/bin/sh\nexit 1\n")
            rt.chmod(0o755)
            done = tool("--build", env={**os.environ, "PATH": f"{room}:{os.environ['PATH']}"})
            self.assertEqual((done.returncode, done.stdout), (2, ""))
            self.assertIn("tools/build.sh program_main failed", done.stderr)

    @unittest.skipUnless(PROGRAM.is_file(), "target/bin/program_main is not made yet")
    def test_worked_session(self):
        done = tool()
        self.assertEqual(done.returncode, 0, done.stderr)
        self.assertIn("breakpoint 3 at 0x1008 is gone: in memory 08 aa", done.stdout)
        self.assertIn("Rstart, Pass 08 09", done.stdout)
        data, titles = worked_session()
        self.assertGreater(len(done.stdout.splitlines()), len(split_steps(data)[0]) + len(titles))


if __name__ == "__main__":
    unittest.main()
