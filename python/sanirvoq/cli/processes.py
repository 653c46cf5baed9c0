"""ps, status, stop, continue, wait, select, registers, set."""

from __future__ import annotations

import time

from ..condition import Token, number_of, refuse
from ..errors import CommandError, LineError
from ..messages import STOPPED, state_name
from ..registers import NAMES, PC
from ..registers import number_of as register_number
from .bench import Bench
from .command import Command
from .output import Result, said, table
from .words import Words

LOOKED_FOR = range(1, 33)
POLL = 0.05


def pid_of(words: Words) -> int:
    return words.number("the process (pid)", least=1)


def known_processes(bench: Bench) -> list[int]:
    """The processes that the head has, asked for once: the protocol cannot list them."""
    if not bench.belief.processes:
        bench.belief.processes = bench.head.find_processes(LOOKED_FOR)
    return bench.belief.processes


def stop_words(bench: Bench, pc: int) -> str:
    """Which breakpoint a pc is at, as far as the host knows."""
    for ident, one in bench.belief.breakpoints.items():
        if one.site == pc:
            return f"breakpoint {ident} (believed)"
    return ""


def ps(bench: Bench, words: Words) -> Result:
    pids = []
    while words.more():
        pids.append(pid_of(words))
    rows = []
    for pid in pids or known_processes(bench):
        state = bench.head.status(pid)
        pc = bench.head.register(pid, PC) if state == STOPPED else None
        rows.append({"pid": pid, "state": state_name(state), "pc": pc, "at": stop_words(bench, pc) if pc else ""})
    restore(bench)
    cells = [[f"{'*' if row['pid'] == bench.belief.current else ''}{row['pid']}", str(row["state"]),
              f"{row['pc']:#010x}" if row["pc"] is not None else "", str(row["at"])] for row in rows]
    lines = table(["pid", "state", "pc", "at"], cells, right=["pid"])
    looked = [] if pids else [f"(looked for pids {LOOKED_FOR[0]} to {LOOKED_FOR[-1]}; `ps PID` asks for another)"]
    return Result({"processes": rows, "current": bench.belief.current}, [*lines, *looked])


def restore(bench: Bench) -> None:
    """The process that `select` named is current again after another one's registers were asked for."""
    if bench.belief.current is not None:
        bench.head.select(bench.belief.current)


def status(bench: Bench, words: Words) -> Result:
    pid = pid_of(words)
    words.end()
    name = bench.head.status_name(pid)
    return said(f"process {pid} is {name}", pid=pid, state=name)


def stop(bench: Bench, words: Words) -> Result:
    pid = pid_of(words)
    words.end()
    bench.head.stop(pid)
    name = bench.head.status_name(pid)
    told = "is Stopped" if name == "Stopped" else f"is {name}; it stops when it is next scheduled (`wait {pid}`)"
    return said(f"process {pid} {told}", pid=pid, state=name)


def go_on(bench: Bench, words: Words) -> Result:
    pid = pid_of(words)
    words.end()
    bench.head.start(pid)
    return said(f"process {pid} goes on", pid=pid)


def wait(bench: Bench, words: Words) -> Result:
    pid = pid_of(words)
    seconds = words.number("seconds", least=1) if words.more() else 10
    words.end()
    end = time.monotonic() + seconds
    while not bench.head.is_stopped(pid):
        if time.monotonic() > end:
            raise LineError(f"process {pid} is {bench.head.status_name(pid)} after {seconds} s and did not stop")
        time.sleep(POLL)
    pc = bench.head.register(pid, PC)
    restore(bench)
    where = stop_words(bench, pc)
    return said(f"process {pid} is Stopped at {pc:#x}{', ' + where if where else ''}", pid=pid, pc=pc, at=where)


def select(bench: Bench, words: Words) -> Result:
    pid = pid_of(words)
    words.end()
    address = bench.head.select(pid)
    bench.belief.current = pid
    return said(f"process {pid} is current; its Proc is at {address:#010x}", pid=pid, proc=address)


def chosen(bench: Bench, words: Words) -> int:
    """The process that is named, else the selected one."""
    if words.more():
        return pid_of(words)
    if bench.belief.current is None:
        raise CommandError(f"no process is selected: {words.usage}", len(words.line))
    return bench.belief.current


def registers(bench: Bench, words: Words) -> Result:
    pid = chosen(bench, words)
    words.end()
    values = bench.head.registers(pid)
    restore(bench)
    cells = [f"{name:>6} {value:08x}" for name, value in values.items()]
    lines = ["  ".join(cells[row:row + 4]) for row in range(0, len(cells), 4)]
    return Result({"pid": pid, "registers": values}, list(lines))


def register_of(token: Token) -> int:
    number = register_number(token.text)
    if number is None:
        refuse(f"no register is called {token.text}: {', '.join(NAMES[:6])}, .. {NAMES[-2]}, {NAMES[-1]}", token)
    if number == 0:
        refuse("register zero is always 0 and cannot be set", token)
    return number


def set_register(bench: Bench, words: Words) -> Result:
    number = register_of(words.next("the register"))
    words.take("=")
    value = number_of(words.next("the value"))
    pid = chosen(bench, words) if not words.take("of") else pid_of(words)
    words.end()
    before = bench.head.register(pid, number)
    bench.head.set_register(pid, number, value)
    found = bench.head.register(pid, number)
    restore(bench)
    return said(f"{NAMES[number]} of process {pid} was {before:#x} and is {found:#x}", pid=pid,
                register=NAMES[number], before=before, value=found)


COMMANDS = [
    Command("ps", "ps [PID ..]", "the processes, their states, and where the Stopped ones are", ps, group="processes"),
    Command("status", "status PID", "the state of one process", status, group="processes"),
    Command("stop", "stop PID", "stops a process when it is next scheduled", stop, group="processes"),
    Command("continue", "continue PID", "lets a Stopped process go on, or takes a wanted stop back", go_on,
            "A breakpoint where it stands stays. Never sent twice: if its answer is lost, look with `status` before\n"
            "you give it again.", "processes"),
    Command("wait", "wait PID [SECONDS]", "waits until a process is Stopped (10 s) and says where", wait,
            group="processes"),
    Command("select", "select PID", "makes a process current, for `registers`, `set` and `text r`", select,
            group="processes"),
    Command("registers", "registers [PID]", "the registers of a Stopped process, by their RISC-V names", registers,
            group="processes"),
    Command("set", "set REGISTER = VALUE [of PID]", "sets a register of a Stopped process", set_register,
            group="processes"),
]
