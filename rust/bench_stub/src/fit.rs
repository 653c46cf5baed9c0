//! When a record is fit. The test keeps what later parts of a step need.

use crate::condition::depth;
use crate::record::{Process, Refusal, Stub};
use crate::{ELEMENTS, ENTRIES, STOPPED, TRAP};

/// What the test of a fit record found on its way.
#[derive(Debug, Clone, Copy)]
pub(crate) struct Scan {
    /// The places of the breakpoints: those of the condition in hand come after them.
    pub planted: usize,
    /// All places that are held.
    pub held: usize,
    /// The values that the condition in hand leaves.
    pub depth: i32,
}

impl Stub {
    /// Numbers 2 and 3 of every step after setup.
    #[inline(always)]
    pub(crate) fn enter(&self, memory: &[u8], registers: &[u8]) -> Result<Scan, Refusal> {
        self.lent(memory, registers)?;
        self.scan(memory).ok_or(Refusal::Unfit)
    }

    /// A function of its own: inlined into each step it would leave few registers to either.
    #[inline(never)]
    fn scan(&self, memory: &[u8]) -> Option<Scan> {
        if !self.window_fits() || !self.processes_fit() || !self.current_fits() {
            return None;
        }
        if !self.stretch_fits() {
            return None;
        }
        self.scan_table(memory)
    }

    /// The current process is none or a listed pid.
    #[inline(always)]
    fn current_fits(&self) -> bool {
        let Some(pid) = self.current else { return true };
        let listed = |process: &Process| process.pid == pid;
        self.processes.get(..self.count).is_some_and(|list| list.iter().any(listed))
    }

    /// The bounds on M and B.
    #[inline(always)]
    pub(crate) fn window_fits(&self) -> bool {
        let end = u64::from(self.base) + u64::from(self.size);
        let size = self.size.wrapping_sub(4) <= 65_532;
        (self.size | self.base) & 3 == 0 && size && self.base >= 4_096 && end <= 1 << 32
    }

    /// The bounds on the protected stretch.
    #[inline(always)]
    fn stretch_fits(&self) -> bool {
        let (offset, length) = (self.protected_offset, self.protected_length);
        (offset | length) & 3 == 0 && offset <= self.size && length <= self.size - offset
    }

    /// One to four processes, pids distinct and at least 1, none Stopped with a stop wanted.
    #[inline(always)]
    pub(crate) fn processes_fit(&self) -> bool {
        let Some(list) = self.processes.get(..self.count) else { return false };
        for (i, process) in list.iter().enumerate() {
            if process.pid == 0 || (process.wanted && process.state == STOPPED) {
                return false;
            }
            if list[..i].iter().any(|other| other.pid == process.pid) {
                return false;
            }
        }
        !list.is_empty()
    }

    /// Sites hold traps off the protected stretch, conditions are well formed and find places (the
    /// pool's own length bounds them), ids and sites differ; then the condition in hand.
    #[inline(always)]
    fn scan_table(&self, memory: &[u8]) -> Option<Scan> {
        let (mut planted, mut used, mut met) = (0, 0, false);
        let (mut ids, mut sites) = ([0_u64; 4], 0_u64);
        for entry in self.entries.iter().filter(|entry| entry.used) {
            let at = entry.site.wrapping_sub(self.base) as usize;
            let trap = memory.get(at..)?.first_chunk::<2>()?;
            let end = planted + usize::from(entry.count);
            let condition = self.places.get(planted..end)?;
            if entry.site & 1 != 0 || *trap != TRAP || !whole(condition.len(), depth(condition)) {
                return None;
            }
            if self.site_is_protected(at) {
                return None;
            }
            let (of, bit) = (usize::from(entry.id >> 6), 1 << (entry.id & 63));
            if ids[of] & bit != 0 {
                return None;
            }
            ids[of] |= bit;
            let bit = 1 << (entry.site.wrapping_mul(SPREAD) >> 26);
            met |= sites & bit != 0;
            sites |= bit;
            (planted, used) = (end, used + 1);
        }
        // Two sites may share a bit; only then they are compared.
        if met && !self.sites_differ() {
            return None;
        }
        self.scan_draft(planted, used, ids)
    }

    /// A well-formed beginning, an unused id and a free entry waiting.
    #[inline(always)]
    fn scan_draft(&self, planted: usize, used: usize, ids: [u64; 4]) -> Option<Scan> {
        let draft = self.draft;
        if !draft.active {
            return Some(Scan { planted, held: planted, depth: 0 });
        }
        let held = planted + usize::from(draft.count);
        let elements = self.places.get(planted..held)?;
        let (depth, taken) = (depth(elements), ids[usize::from(draft.id >> 6)] >> (draft.id & 63));
        let fit = elements.len() <= ELEMENTS && depth >= 1 && taken & 1 == 0 && used < ENTRIES;
        fit.then_some(Scan { planted, held, depth })
    }

    #[cold]
    fn sites_differ(&self) -> bool {
        let used = |i: usize| self.entries[i].used;
        let same = |i: usize, j: usize| used(j) && self.entries[i].site == self.entries[j].site;
        !(0..ENTRIES).any(|i| used(i) && (0..i).any(|j| same(i, j)))
    }
}

/// A factor that spreads neighbouring sites over the highest bits.
const SPREAD: u32 = 0x9e37_79b1;

/// Whether so many elements with this depth are a condition.
#[inline(always)]
fn whole(count: usize, depth: i32) -> bool {
    count <= ELEMENTS && depth == 1
}
