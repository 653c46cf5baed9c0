"""What lies under the traps, told from the steps and their answers alone.

Memory as the programs in it see it (plain memory) begins as the setup's and takes every accepted write. A breakpoint
stands from an accepted b until an accepted d or a restart; as long as it stands, memory itself holds the trap there. A
process that goes on at a breakpoint runs the plain bytes there, which come with the answer.
"""

from messages import TCONDBREAK, TMGET, TMPUT, TPROC, TSTART, number
from session import REQUEST, RESTART, SCHEDULE, STOP, TRAP, is_accepted, plain_beside

TRAP_BYTES = b"\x02\x90"
BLOCK, PC = 136, 132
BASE, SIZE, PIDS = 4096, 64, (5, 7)


class UnderTraps:
    """The worked setup: 64 bytes at 4,096, the byte at 4,096 + i is i; processes 5 and 7."""

    def __init__(self):
        self.plain = bytearray(range(SIZE))
        self.registers = {pid: bytearray(BLOCK) for pid in PIDS}
        self.current = None
        self.stopped = set()
        self.draft = None
        self.sites = {}

    def bytes_at(self, address, n):
        """Plain memory's bytes; fewer where the address is not in the window."""
        return bytes(self.plain[address - BASE:address - BASE + n]) if address >= BASE else b""

    def take(self, step, answer):
        """Takes a step with its answer, and gives lines to show: what stands under traps after a change."""
        if not is_accepted(step, answer):
            return []
        sites, plain = dict(self.sites), bytes(self.plain)
        remarks = []
        if step.kind == REQUEST:
            remarks = self.request(step.body, answer)
        elif step.kind in (TRAP, SCHEDULE) and answer[1] == STOP:
            self.stop(number(step.body[:4]), step.body[4:])
        elif step.kind == RESTART:
            self.sites, self.stopped, self.current = {}, set(), None
        if (sites, plain) != (self.sites, bytes(self.plain)):
            return remarks + self.lines(sites)
        return remarks

    def stop(self, pid, block):
        self.stopped.add(pid)
        self.registers[pid] = bytearray(block)

    def request(self, message, answer):
        kind, value, n = message[0], number(message[1:5]), message[5]
        if kind == TMGET:
            return self.compare(value, n, answer[2:2 + n])
        if kind == TMPUT:
            self.write(value, message[6:6 + n])
        elif kind == TPROC:
            self.current = value
        elif kind == TSTART:
            return self.start(value, plain_beside(answer))
        elif kind == TCONDBREAK:
            self.condbreak(chr(message[5]), value)
        return []

    def start(self, pid, answered):
        """A process that was Stopped at a breakpoint ought to go on with the plain bytes there, another with none."""
        plain = b""
        if pid in self.stopped:
            self.stopped.remove(pid)
            pc = number(self.registers[pid][PC:])
            plain = self.bytes_at(pc, len(TRAP_BYTES)) if pc in self.sites.values() else b""
        if answered == plain:
            return []
        return [f"! to be run elsewhere is {plain.hex(' ') or 'nothing'}"]

    def write(self, address, data):
        if address < BLOCK and self.current in self.registers:
            self.registers[self.current][address:address + len(data)] = data
        elif len(self.bytes_at(address, len(data))) == len(data):
            self.plain[address - BASE:address - BASE + len(data)] = data

    def condbreak(self, letter, value):
        if letter == "n":
            self.draft = value
        elif letter == "b" and self.draft is not None:
            self.sites[self.draft] = value
        elif letter == "d":
            self.sites.pop(value, None)

    def compare(self, address, n, answered):
        """A read of the window ought to answer plain memory; a remark where it does not."""
        plain = self.bytes_at(address, n)
        if address < BASE or answered == plain:
            return []
        return [f"! plain memory has {plain.hex(' ')}"]

    def lines(self, before):
        """A line for each breakpoint that stands, and for each that stood before and is gone."""
        lines = [f"breakpoint {ident} at {site:#x}: plain {self.bytes_at(site, 2).hex(' ')}, "
                 f"in memory {TRAP_BYTES.hex(' ')}" for ident, site in sorted(self.sites.items())]
        gone = sorted(before.items() - self.sites.items())
        return lines + [f"breakpoint {ident} at {site:#x} is gone: in memory {self.bytes_at(site, 2).hex(' ')}"
                        for ident, site in gone]
