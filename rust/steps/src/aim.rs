//! Numbers that mean something to the record at hand, and some beside them.

use crate::burst::Burst;
use reference::{Breakpoint, ENTRIES, STOPPED};

/// The first and last registers, and what is next to them.
pub(crate) const EDGES: [u32; 16] =
    [0, 1, 2, 3, 4, 5, 127, 128, 129, 130, 131, 132, 133, 134, 135, 136];

impl<'a> Burst<'a> {
    /// A breakpoint, if there is one.
    pub(crate) fn point(&mut self) -> Option<&'a Breakpoint> {
        let start = self.rng.index(ENTRIES);
        let table = &self.stub.table;
        (0..ENTRIES).find_map(|i| table[(start + i) % ENTRIES].as_ref())
    }
}

impl Burst<'_> {
    /// The first address past the window; 0 where the window ends at 2^32.
    pub(crate) fn end(&self) -> u32 {
        self.stub.base.wrapping_add(self.stub.size)
    }

    /// Any address of the window.
    pub fn inside(&mut self) -> u32 {
        self.stub.base + self.rng.below(self.stub.size)
    }

    pub(crate) fn even(&mut self) -> u32 {
        self.inside() & !1
    }

    /// A site that holds a trap, else an even address of the window.
    pub fn standing_site(&mut self) -> u32 {
        self.point().map_or_else(|| self.even(), |point| point.site)
    }

    /// Whether a breakpoint may be set there.
    pub(crate) fn is_free(&self, site: u32) -> bool {
        let inside = site.wrapping_sub(self.stub.base) < self.stub.size;
        inside && self.stub.at_site(site).is_none() && !self.stub.protects(site, 2)
    }

    /// Mostly a free site, beside a standing one where there is room.
    pub(crate) fn free_site(&mut self) -> u32 {
        let site = self.standing_site();
        let by = self.rng.pick(&[2u32, 2u32.wrapping_neg()]);
        let near = (1..5).map(|i| site.wrapping_add(by.wrapping_mul(i)));
        let near = near.into_iter().find(|&site| self.is_free(site));
        near.unwrap_or_else(|| self.even())
    }

    /// A site for b: mostly free, else taken, odd, outside, at the protected stretch or anywhere even.
    pub(crate) fn site(&mut self) -> u32 {
        let at_stretch = if self.protects() { 10 } else { 2 };
        match self.rng.weighted(&[55, 6, 5, 6, 28, at_stretch]) {
            0 => self.free_site(),
            1 => self.standing_site(),
            2 => self.inside() | 1,
            3 => {
                let (any, end, base) = (self.rng.word(), self.end(), self.stub.base);
                let below = base.wrapping_sub(2);
                self.rng.pick(&[0, 130, 132, below, end.wrapping_sub(2), end, u32::MAX - 1, any])
            }
            4 => self.even(),
            _ => self.edge_site(),
        }
    }

    pub fn free_id(&mut self) -> u32 {
        let low = self.rng.below(12);
        let first = if self.rng.chance(80) { low } else { 244 + low };
        let mut ids = (0..=8).map(|i| (first + i) % 256);
        ids.find(|&id| self.stub.of_id(id).is_none()).unwrap_or(first)
    }

    /// An id in use, a free one, or one over 255, with these weights.
    pub(crate) fn id(&mut self, weights: [u32; 3]) -> u32 {
        let known = self.point().map_or(0, |point| u32::from(point.id));
        match self.rng.weighted(&weights) {
            0 => known,
            1 => self.free_id(),
            _ => {
                let any = self.rng.word();
                self.rng.pick(&[256, 256 + known, known << 24 | 1 << 16, u32::MAX, any])
            }
        }
    }

    /// A listed pid that is Stopped, or is not, if there is one.
    pub(crate) fn pid_where(&mut self, stopped: bool) -> Option<u32> {
        let processes = &self.stub.processes;
        let start = self.rng.index(processes.len());
        let order = (0..processes.len()).map(|i| processes[(start + i) % processes.len()]);
        order.into_iter().find(|one| (one.state == STOPPED) == stopped).map(|one| one.pid)
    }

    /// Any listed pid, with a share of unlisted ones.
    pub fn pid(&mut self, unlisted: u32) -> u32 {
        let processes = &self.stub.processes;
        let pid = processes[self.rng.index(processes.len())].pid;
        if self.rng.chance(unlisted) {
            let any = self.rng.word();
            let near = [0, 1, u32::MAX, any, pid ^ 1, pid.swap_bytes(), pid.wrapping_add(256)];
            self.rng.pick(&near)
        } else {
            pid
        }
    }

    /// An address of the window or beside it, of a register, or of nothing.
    pub(crate) fn address(&mut self) -> u32 {
        match self.rng.weighted(&[42, 10, 12, 16, 10, 5, 5]) {
            0 => self.standing_site().wrapping_sub(3).wrapping_add(self.rng.below(6)),
            1 => self.stub.base.wrapping_sub(9).wrapping_add(self.rng.below(12)),
            2 => self.end().wrapping_sub(10).wrapping_add(self.rng.below(12)),
            3 => self.inside(),
            4 => self.rng.pick(&EDGES),
            5 => u32::MAX - self.rng.below(12),
            _ => {
                let any = self.rng.word();
                let gap = 136 + self.rng.below(4_096 - 136);
                self.rng.pick(&[any, gap, 4_095, 136])
            }
        }
    }
}
