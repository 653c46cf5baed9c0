//! Continues: how a process came to the pc that a Tstart finds in its register block, told from the
//! steps of a session and their answers.

use crate::step::Step;
use crate::table::{must, texts, Cell, Section};
use crate::tally::word;
use reference::{Stub, BLOCK, PC};

/// Why the saved pc of a process is what it is.
#[derive(Debug, Clone, Copy)]
enum Cause {
    /// A trap stopped it there.
    Trap,
    /// A schedule event did.
    Schedule,
    /// Tmput wrote it since.
    Written,
    /// A text step, `R`, wrote it since.
    WrittenByText,
    /// Another register area was lent since.
    Replaced,
    /// The process is not Stopped: its pc is that of an earlier stop.
    NotStopped,
}

/// A Stopped process, and the pc in its register block.
#[derive(Debug)]
struct Stopped {
    pid: u32,
    pc: u32,
    cause: Cause,
}

#[derive(Debug, Default)]
pub struct Continues {
    stopped: Vec<Stopped>,
    /// Sites where a Stop was continued; a new breakpoint takes its site out.
    continued: Vec<u32>,
    /// By cause: at a site, beside one, elsewhere.
    counts: [[u64; 3]; 6],
    /// Stops at a breakpoint whose earlier Stop was continued.
    pub second_stops: u64,
}

impl Continues {
    /// A session begins: no process is Stopped, no breakpoint stands.
    pub fn begin(&mut self) {
        self.stopped.clear();
        self.continued.clear();
    }

    /// Takes a step of number 0, its answer as the program writes it, and what the step left.
    pub fn take(&mut self, step: &Step, answer: &[u8], stub: &Stub, registers: &[u8]) {
        match (step, answer) {
            (Step::Request(request), [reply, ..]) => match (request[0], reply) {
                (4, 5) => self.write(request, stub, registers),
                (14, 15) => self.start(word(&request[1..]), stub, registers),
                (16, 17) if request[5] == b'b' => {
                    let site = word(&request[1..]);
                    self.continued.retain(|&one| one != site);
                }
                _ => {}
            },
            (Step::Trap { pid, block }, [1, ..]) => {
                let pc = word(&block[PC..]);
                self.second_stops += u64::from(self.continued.contains(&pc));
                self.stopped.push(Stopped { pid: *pid, pc, cause: Cause::Trap });
            }
            (Step::Schedule { pid, block }, [1, ..]) => {
                let pc = word(&block[PC..]);
                self.stopped.push(Stopped { pid: *pid, pc, cause: Cause::Schedule });
            }
            (Step::Restart, _) => self.begin(),
            _ => {}
        }
    }

    /// A Tmput that may have changed the saved pc of the current process.
    fn write(&mut self, request: &[u8], stub: &Stub, registers: &[u8]) {
        let (address, n) = (word(&request[1..]) as usize, usize::from(request[5]));
        let written = n > 0 && address < BLOCK && address + n > PC;
        if written {
            self.pc_written(stub, registers, Cause::Written);
        }
    }

    /// Takes a text step that wrote the saved pc of the current process.
    pub fn take_text(&mut self, stub: &Stub, registers: &[u8]) {
        self.pc_written(stub, registers, Cause::WrittenByText);
    }

    fn pc_written(&mut self, stub: &Stub, registers: &[u8], cause: Cause) {
        let Some(pid) = stub.current else { return };
        if let Some(one) = self.stopped.iter_mut().find(|one| one.pid == pid) {
            (one.pc, one.cause) = (saved_pc(stub, registers, pid), cause);
        }
    }

    fn start(&mut self, pid: u32, stub: &Stub, registers: &[u8]) {
        let pc = saved_pc(stub, registers, pid);
        let found = self.stopped.iter().position(|one| one.pid == pid);
        let cause = match found.map(|i| self.stopped.swap_remove(i)) {
            None => Cause::NotStopped,
            Some(one) if one.pc != pc => Cause::Replaced,
            Some(one) => one.cause,
        };
        let near = |by: u32| stub.at_site(pc.wrapping_add(by).wrapping_sub(2)).is_some();
        let place = if near(2) { 0 } else { 2 - usize::from((0..5).any(near)) };
        self.counts[cause as usize][place] += 1;
        if place == 0 && matches!(cause, Cause::Trap) && !self.continued.contains(&pc) {
            self.continued.push(pc);
        }
    }

    /// Those that found another register area than the stop, by place; the program has none.
    pub fn replaced(&self) -> [u64; 3] {
        self.counts[Cause::Replaced as usize]
    }

    /// Those that found a pc written by a text step, by place; the program has none.
    pub fn written_by_text(&self) -> [u64; 3] {
        self.counts[Cause::WrittenByText as usize]
    }

    pub fn section(&self) -> Section {
        let title = "Tstart in a session, by the saved pc";
        let columns = texts(["at a site", "beside", "elsewhere"]);
        let mut section = Section { title, columns, rows: Vec::new() };
        let [at, beside, elsewhere] = self.counts[Cause::Trap as usize];
        // Away from a site only where the breakpoint went while the process was Stopped at it.
        let by_trap = vec![Cell::Must(at), Cell::May(beside), Cell::May(elsewhere)];
        section.row("stopped by a trap", by_trap);
        for (name, cause) in [
            ("stopped by a schedule event", Cause::Schedule),
            ("Stopped, the pc written by Tmput", Cause::Written),
            ("not Stopped", Cause::NotStopped),
        ] {
            section.row(name, must(&self.counts[cause as usize]));
        }
        section
    }
}

/// The pc in the register block of a listed process.
fn saved_pc(stub: &Stub, registers: &[u8], pid: u32) -> u32 {
    stub.listed(pid).map_or(0, |index| word(&registers[BLOCK * index + PC..]))
}
