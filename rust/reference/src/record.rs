//! The target record, setup, and when a record is fit.

use crate::condition::{depth, Element};
use crate::list::List;
use crate::{BLOCK, ELEMENTS, ENTRIES, PLACES, PROCESSES, READY, STOPPED, TRAP};
use std::ops::Range;

/// Why a step was refused; the numbers are those of 01's table.
#[derive(Debug, Clone, Copy, PartialEq, Eq)]
pub enum Refusal {
    /// A setup rule is broken.
    Setup = 1,
    /// A lent buffer, request, reply, saved block or message has the wrong size.
    Size = 2,
    /// The record is not fit.
    Unfit = 3,
    /// An event names an unlisted pid.
    Unlisted = 4,
    /// A trap or state event for a Stopped process, or a state event with value 8.
    Stopped = 5,
    /// A trap whose pc is at no site.
    NoSite = 6,
    /// The writer was given no message, or the reader bytes of none.
    NoMessage = 7,
}

impl Refusal {
    pub fn number(self) -> u8 {
        self as u8
    }
}

#[derive(Debug, Clone, Copy, Default, PartialEq, Eq)]
pub struct Process {
    pub pid: u32,
    /// The Proc address.
    pub address: u32,
    pub state: u8,
    /// A stop is wanted.
    pub wanted: bool,
}

#[derive(Debug, Clone, PartialEq, Eq)]
pub struct Breakpoint {
    pub id: u8,
    pub site: u32,
    /// What the program has at the site, where memory holds the trap.
    pub plain: [u8; 2],
    pub elements: Vec<Element>,
}

/// The condition in hand.
#[derive(Debug, Clone, PartialEq, Eq)]
pub struct Draft {
    pub id: u8,
    pub elements: Vec<Element>,
}

/// The protected stretch, as the record has it.
#[derive(Debug, Clone, Copy, Default, PartialEq, Eq)]
pub struct Protected {
    /// Where it begins: bytes from B on.
    pub offset: u32,
    /// How many bytes it has.
    pub length: u32,
}

#[derive(Debug, Clone, Default, PartialEq, Eq)]
pub struct Stub {
    /// B, the address of the window.
    pub base: u32,
    /// M, the bytes of the window.
    pub size: u32,
    pub protected: Protected,
    pub processes: List<Process, PROCESSES>,
    pub table: [Option<Breakpoint>; ENTRIES],
    pub draft: Option<Draft>,
    /// The pid of the current process.
    pub current: Option<u32>,
}

impl Stub {
    /// The empty record: no process, B and M 0, nothing protected, table fresh, none current.
    pub fn empty() -> Self {
        Self::default()
    }

    /// Makes the record for a window, the stretch of it that is protected, and processes, each a pid
    /// and a Proc address. Rule 1 comes before rule 2; either leaves the record empty.
    pub fn setup(
        &mut self,
        base: u32,
        size: u32,
        protected: Range<u64>,
        processes: &[(u32, u32)],
        memory: &[u8],
        registers: &[u8],
    ) -> Result<(), Refusal> {
        *self = Self::empty();
        let mut list = List::new();
        for &(pid, address) in processes {
            if !list.push(Process { pid, address, state: READY, wanted: false }) {
                return Err(Refusal::Setup);
            }
        }
        if !window_fits(base, size) || !pids_fit(&list) {
            return Err(Refusal::Setup);
        }
        let protected = stretch(base, size, protected).ok_or(Refusal::Setup)?;
        let made = Self { base, size, protected, processes: list, ..Self::empty() };
        made.lent(memory, registers)?;
        *self = made;
        Ok(())
    }

    /// Number 2 of the two lent buffers, by the record's own M and count of processes.
    pub(crate) fn lent(&self, memory: &[u8], registers: &[u8]) -> Result<(), Refusal> {
        let memory_fits = u32::try_from(memory.len()) == Ok(self.size);
        if memory_fits && registers.len() == BLOCK * self.processes.len() {
            Ok(())
        } else {
            Err(Refusal::Size)
        }
    }

    /// Numbers 2 and 3 of every step after setup.
    pub(crate) fn enter(&self, memory: &[u8], registers: &[u8]) -> Result<(), Refusal> {
        self.lent(memory, registers)?;
        if fit(self, memory) {
            Ok(())
        } else {
            Err(Refusal::Unfit)
        }
    }

    /// Where in setup order the process of this pid is.
    pub fn listed(&self, pid: u32) -> Option<usize> {
        self.processes.iter().position(|process| process.pid == pid)
    }

    /// The breakpoint at this site.
    pub fn at_site(&self, site: u32) -> Option<&Breakpoint> {
        self.table.iter().flatten().find(|entry| entry.site == site)
    }

    /// The index of the breakpoint of this id.
    pub fn of_id(&self, id: u32) -> Option<usize> {
        let same = |entry: &Breakpoint| u32::from(entry.id) == id;
        self.table.iter().position(|slot| slot.as_ref().is_some_and(same))
    }

    /// The conditions: those of the breakpoints, then the one in hand.
    fn conditions(&self) -> impl Iterator<Item = &Vec<Element>> {
        let planted = self.table.iter().flatten().map(|entry| &entry.elements);
        planted.chain(self.draft.as_ref().map(|draft| &draft.elements))
    }

    /// The places that are held: one for each element of each condition.
    pub fn held(&self) -> usize {
        self.conditions().map(Vec::len).sum()
    }

    /// The free entry of the lowest index.
    pub fn free_entry(&self) -> Option<usize> {
        self.table.iter().position(Option::is_none)
    }
}

/// The bounds on M and B.
fn window_fits(base: u32, size: u32) -> bool {
    let end = u64::from(base) + u64::from(size);
    let size_fits = size.is_multiple_of(4) && (4..=65_536).contains(&size);
    size_fits && base.is_multiple_of(4) && base >= 4_096 && end <= 1 << 32
}

/// The stretch of a setup as the record has it: from and to are multiples of 4, and B, from, to,
/// B + M never fall.
fn stretch(base: u32, size: u32, Range { start, end }: Range<u64>) -> Option<Protected> {
    let rising = [u64::from(base), start, end, u64::from(base) + u64::from(size)].is_sorted();
    let sound = rising && start.is_multiple_of(4) && end.is_multiple_of(4);
    let (offset, length) = (start.checked_sub(base.into())?, end.checked_sub(start)?);
    let (offset, length) = (offset.try_into().ok()?, length.try_into().ok()?);
    sound.then_some(Protected { offset, length })
}

/// The same bounds of a record's stretch. B is a multiple of 4 there.
fn protected_fits(stub: &Stub) -> bool {
    let Protected { offset, length } = stub.protected;
    offset.is_multiple_of(4)
        && length.is_multiple_of(4)
        && u64::from(offset) + u64::from(length) <= u64::from(stub.size)
}

/// One to four processes (the list has room for four), pids distinct and at least 1.
fn pids_fit(processes: &[Process]) -> bool {
    let fits = |(i, process): (usize, &Process)| {
        process.pid >= 1 && processes[..i].iter().all(|other| other.pid != process.pid)
    };
    !processes.is_empty() && processes.iter().enumerate().all(fits)
}

/// Whether the record is fit over this memory. Of 01's list the types leave these to test; an id
/// over 255 and a value at `*` or an operator cannot be held.
pub fn fit(stub: &Stub, memory: &[u8]) -> bool {
    window_fits(stub.base, stub.size)
        && protected_fits(stub)
        && pids_fit(&stub.processes)
        && stub.processes.iter().all(|process| process.state != STOPPED || !process.wanted)
        && places_fit(stub)
        && table_fits(stub, memory)
        && stub.current.is_none_or(|pid| stub.listed(pid).is_some())
        && stub.draft.as_ref().is_none_or(|draft| draft_fits(stub, draft))
}

/// No condition has more elements than it may, and all together find places.
fn places_fit(stub: &Stub) -> bool {
    stub.conditions().all(|elements| elements.len() <= ELEMENTS) && stub.held() <= PLACES
}

/// Ids and sites differ; every site holds its trap and has no protected byte; every condition is well
/// formed.
fn table_fits(stub: &Stub, memory: &[u8]) -> bool {
    stub.table.iter().enumerate().all(|(i, slot)| {
        let Some(entry) = slot else { return true };
        let mut earlier = stub.table[..i].iter().flatten();
        trap_stands(stub, memory, entry.site)
            && !stub.protects(entry.site, TRAP.len())
            && depth(&entry.elements) == Some(1)
            && earlier.all(|other| other.id != entry.id && other.site != entry.site)
    })
}

/// The site is even, has both bytes in the window, and memory holds 02 90 there.
fn trap_stands(stub: &Stub, memory: &[u8], site: u32) -> bool {
    let bytes = stub.offset(site, TRAP.len()).and_then(|at| memory.get(at..at + TRAP.len()));
    site.is_multiple_of(2) && bytes == Some(&TRAP[..])
}

/// A well-formed beginning, an unused id and a free entry waiting.
fn draft_fits(stub: &Stub, draft: &Draft) -> bool {
    depth(&draft.elements).is_some()
        && stub.of_id(u32::from(draft.id)).is_none()
        && stub.free_entry().is_some()
}
