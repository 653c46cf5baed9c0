"""The command at the shell: every subcommand, exit statuses, JSON, scripts, and bad commands."""

from __future__ import annotations

import json
import xml.etree.ElementTree as ElementTree
from pathlib import Path
from typing import Callable

import pytest
from conftest import PLAIN, Ran, practised

from sanirvoq.cli.bench import Bench, Options
from sanirvoq.cli.output import Output
from sanirvoq.cli.table import COMMANDS, perform

Command = Callable[..., Ran]


def test_read(command: Command) -> None:
    assert command("--head", "practice", "read", "0x1004", "4") == Ran(0, "0x00001004  04 05 06 07\n", "")


def test_the_head_from_the_environment(command: Command) -> None:
    assert command("read", "0x1004", "1", env={"SANIRVOQ_HEAD": "practice:worked"}).out == "0x00001004  04\n"
    ran = command("read", "0x1004", "1")
    assert ran.status == 2 and "no head is named" in ran.err


def test_bare_blocks(command: Command) -> None:
    assert command("--head", "practice", "--blocks", "read", "0x1004", "4").out == "0x00001004  04 05 06 07\n"


def test_save_and_diff(command: Command, tmp_path: Path) -> None:
    ran = command("--head", "practice", "save", "0x1000", "512", "my image.bin")
    assert ran.out == "512 bytes from 0x1000 saved in my image.bin\n"
    assert (tmp_path / "my image.bin").read_bytes() == PLAIN[:512]
    assert command("--head", "practice", "diff", "my image.bin", "at", "0x1000").out == (
        "the head has the same 512 bytes\n")
    ran = command("--head", "practice", "diff", "my image.bin", "at", "0x1001")
    assert ran.status == 1 and ran.out.startswith("512 of 512 bytes differ, in 1 run:\n")


def test_json(command: Command) -> None:
    ran = command("--head", "practice", "--json", "read", "0x1004", "4")
    assert json.loads(ran.out) == {"command": "read", "ok": True, "address": 0x1004, "bytes": "04050607"}
    ran = command("--head", "practice", "--json", "read", "0x1004", "frog")
    told = json.loads(ran.out)
    assert (ran.status, told["ok"], told["status"], told["at"]) == (2, False, 2, 12) and not ran.err
    ran = command("--head", "practice", "--json", "ps")
    assert [one["pid"] for one in json.loads(ran.out)["processes"]] == [5, 7]


def test_exit_statuses(command: Command) -> None:
    for status, words in {0: "status 7", 2: "status", 3: "status 9"}.items():
        assert command("--head", "practice", *words.split()).status == status
    assert command("--head", "tcp:127.0.0.1:1", "ps").status == 4
    assert command("--timeout", "0.1", "--head", "program:sleep 5", "ps").status == 4


def test_scripts(command: Command, tmp_path: Path) -> None:
    (tmp_path / "good.txt").write_text("# a comment\nread 0x1000 2   # two\n\nwrite 0x1000 aabb\nread 0x1000 2\n")
    ran = command("--head", "practice", "run", "good.txt")
    assert ran.status == 0 and ran.out.splitlines()[-1] == "0x00001000  aa bb"
    (tmp_path / "bad.txt").write_text("write 0x1000 aabb\nstatus 9\nread 0x1000 2\n")
    ran = command("--head", "practice", "run", "bad.txt")
    assert ran.status == 3 and ran.out.splitlines()[-1] == "bad.txt ended at line 2"
    (tmp_path / "wrong.txt").write_text("write 0x1000 aabb\nfrog\n")
    ran = command("--head", "practice", "run", "wrong.txt")
    assert ran.status == 2 and "line 2" in ran.err and "nothing of it was run" in ran.err
    ran = command("--head", "practice", "run", "-", stdin="read 0x1000 1\nquit\nread 0x1001 1\n")
    assert ran.out == "> read 0x1000 1\n0x00001000  00\n"


def test_map_as_svg(command: Command, tmp_path: Path) -> None:
    (tmp_path / "image.bin").write_bytes(PLAIN[:16].replace(b"\x05", b"\xff"))
    (tmp_path / "map.txt").write_text("protected 0x1040 0x1048\nbreak 3 at 0x1008\ndump 0x1000 1024\n"
                                      "write 0x1010 ee\nmap image.bin at 0x1000 svg map.svg\n"
                                      "map image.bin at 0x1000\n")
    ran = command("--head", "practice", "--no-color", "run", "map.txt")
    assert ran.status == 0
    picture = [line for line in ran.out.splitlines() if line.startswith("0x000010")][-4:]
    assert picture[0] == "0x00001000  .....d..TT......c" + "." * 47
    assert picture[1] == "0x00001040  " + "P" * 8 + "." * 56
    root = ElementTree.parse(tmp_path / "map.svg").getroot()
    cells = [one for one in root.iter("{http://www.w3.org/2000/svg}rect") if list(one)]
    assert len(cells) == 1024
    titles = ["".join(one.itertext()) for one in cells]
    assert titles[8] == "0x1008: under a trap (believed)" and titles[0x40] == "0x1040: protected (believed)"
    assert titles[5] == "0x1005: differs from the image" and titles[16] == "0x1010: changed since first seen"


BAD = ["frog", "re", "read", "read 0x1000", "read 0x1000 0", "read 0x1000 x", "read 0x1000 4 5", "read 0xffffffff 2",
       "read -4 4", "dump 0x1000", "save 0x1000 4", "save 0x1000 4 /no/such/folder/file", "write", "write 0x1000",
       "write 0x1000 aab", "write 0x1000 hex", "write 0x1000 zz", "write 0x1000 bytes 256", "write 0x1000 bytes",
       "write 0x1000 file", "write 0x1000 file /no/such/file", "write 0x1000 file /dev/null", "write 0x1000 aa frog",
       "write 0x13ff aabb", "write 0x2000 aa", "write 0x84 aa", "fill 0x1000 4", "fill 0x1000 4 256",
       "fill 0x1000 70000 1", "fill 0x13fe 4 0", "diff", "diff /no/such/file at 0x1000", "patch", "patch /etc/hostname",
       "map frog", "map svg", "map svg /no/such/folder/map.svg", "ps frog", "ps 0", "status", "status 0", "stop",
       "stop frog", "continue", "wait", "wait 7 0", "select", "registers", "registers frog", "set", "set a0",
       "set frog = 1 of 7", "set zero = 1 of 7", "set a0 = 0x100000000 of 7", "set a0 = 1", "break", "break 3",
       "break 256 at 0x1008", "break 3 at 0x1009", "break 3 at 0x1008 if pid", "explain", "explain frog",
       "explain break 3 at 0x1009", "delete", "delete 256", "delete frog", "list 3", "forget 3", "window find",
       "window 0x1001 4", "window 0x1000 5", "window 0x10 4", "protected 0x1001 0x1004", "protected 0x1008 0x1004",
       "line 3", "log 0", "decode", "decode /no/such/file", "text", "text ii 0x1000", "text i", "text I 0x1000",
       "text i frog", "restart now", "event", "event frog", "event trap 7", "event trap 7 at 0x1008", "run",
       "run /no/such/file", "run /tmp", "save 0x1000 4 /tmp", "map svg /tmp", "write 0x1000 file /tmp", "help frog",
       'read "0x1000', "write 0x1000 \x01"]


@pytest.mark.parametrize("line", BAD)
def test_a_bad_command_changes_nothing(line: str, capfd: pytest.CaptureFixture[str]) -> None:
    """One line says what is wrong (and the command again, with a caret under the fault, where it has a place)."""
    pair = practised()
    bench = Bench(Options(head="practice"), Output())
    bench._head = pair.head
    assert perform(bench, line) == 2
    out, err = capfd.readouterr()
    lines = err.splitlines()
    assert out == "" and len(lines) in (1, 2) and len(lines[-1].strip()) > 10
    if len(lines) == 2:
        assert lines[0] == line and lines[1].lstrip().startswith("^")
    assert pair.memory() == PLAIN and not pair.kernel.stub.entries()
    assert all(one.startswith("Tmget") for one in pair.sent()), pair.sent()
    assert not bench.belief.breakpoints
    pair.head.close()


REFUSED = ["status 9", "stop 9", "continue 9", "select 9", "registers 7", "registers 9", "set a0 = 1 of 7", "delete 3",
           "break 3 at 0x2000", "text i 0x1001", "text i 0x2000", "text r pc", "text c 0x0", "read 0x2000 4"]


@pytest.mark.parametrize("line", REFUSED)
def test_a_refused_command_says_why_and_changes_nothing(line: str, capfd: pytest.CaptureFixture[str]) -> None:
    pair = practised()
    bench = Bench(Options(head="practice"), Output())
    bench._head = pair.head
    assert perform(bench, line) == 3
    out, err = capfd.readouterr()
    assert out == "" and len(err.splitlines()) == 1 and err.startswith("the head refused (")
    assert pair.memory() == PLAIN and not pair.kernel.stub.entries() and not bench.belief.breakpoints
    pair.head.close()


@pytest.mark.parametrize("line", ["ps", "registers 7", "set a1 = 3 of 7", "wait 7"])
def test_the_selected_process_stays_selected(line: str) -> None:
    """For `text r`, which acts on the current process, whatever was asked of another one."""
    pair = practised()
    bench = Bench(Options(head="practice"), Output())
    bench._head = pair.head
    for before in ("stop 5", "stop 7", "select 5"):
        assert perform(bench, before) == 0
    assert perform(bench, line) == 0
    assert (pair.kernel.stub.target.selected, pair.kernel.stub.target.current) == (1, 5)
    pair.head.close()


def test_files_that_cannot_be_written(command: Command) -> None:
    for option in ("--log", "--session"):
        ran = command("--head", "practice", option, "/no/such/folder/file", "read", "0x1000", "1")
        assert ran.status == 2 and "/no/such/folder/file: No such file" in ran.err


def test_every_command_has_help(command: Command) -> None:
    for name in COMMANDS:
        assert COMMANDS[name].usage.startswith(name) and COMMANDS[name].summary
    ran = command("help", "break")
    assert ran.status == 0 and ran.out.startswith("break ID at ADDRESS [if CONDITION]")
    ran = command("--help")
    assert all(COMMANDS[name].usage in ran.out for name in COMMANDS) and "exit status" in ran.out
