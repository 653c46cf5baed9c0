//! Conditions: whole ones, faulty ones, and breakpoints until the table is full. Those at the limits
//! of elements and places are in `limits`.

use crate::burst::Burst;
use crate::step::ten;
use crate::LETTERS;
use reference::Element;

const JOINS: [u8; 5] = *b"&=!ao";

impl Burst<'_> {
    /// A whole condition, now and then with another step inside or a fault.
    pub fn condition(&mut self) {
        let id = self.id([4, 92, 4]);
        self.op(b'n', id);
        let fault = self.rng.weighted(&[88, 4, 4, 4]);
        if fault == 1 {
            let join = self.rng.pick(&JOINS);
            self.op(join, 0);
        }
        for (letter, val) in self.elements() {
            self.op(letter, val);
            if self.rng.chance(4) {
                self.between();
            }
        }
        if fault == 2 {
            let pid = self.pid(0);
            self.op(b'k', pid);
        }
        let site = self.site();
        self.op(b'b', site);
    }

    /// A condition that is left in hand.
    pub fn begin(&mut self) {
        let id = self.free_id();
        self.op(b'n', id);
        for (letter, val) in self.elements() {
            self.op(letter, val);
        }
    }

    /// The elements of a condition that is well formed.
    fn elements(&mut self) -> Vec<(u8, u32)> {
        let (pid, other) = (self.pid(15), self.pid(50));
        let (low, end) = (self.rng.pick(&[0, 0, 1, 2]), self.rng.pick(b"aao"));
        match self.rng.weighted(&[10, 14, 26, 12, 20, 4, 6, 5, 2, 4]) {
            0 => vec![],
            1 => vec![(b'k', pid), (b'a', 0)],
            2 => self.compared(end),
            3 => self.masked(end),
            4 => {
                let limit = 1 + self.rng.index(16);
                self.random(limit, true)
            }
            5 => vec![(b'*', 0), (b'p', low), (end, 0)],
            6 => vec![(b'p', low), (end, 0)],
            7 => vec![(b'k', pid), (b'k', other), (b'o', 0), (end, 0)],
            8 => self.random(16, true),
            _ => {
                let count = 17 + self.rng.index(48);
                self.chained(count)
            }
        }
    }

    /// An address that `*` may read and what it would read there.
    fn looked_at(&mut self) -> (u32, u32) {
        let address = self.address();
        self.read_at(address)
    }

    /// The address and what `*` would read there; anything where that is outside.
    pub(crate) fn read_at(&mut self, address: u32) -> (u32, u32) {
        let mut bytes = [0; 4];
        let inside = self.stub.read_plain(self.memory, address, &mut bytes);
        let value = inside.map(|()| u32::from_le_bytes(bytes));
        (address, value.unwrap_or_else(|| self.rng.word()))
    }

    pub(crate) fn compared(&mut self, end: u8) -> Vec<(u8, u32)> {
        let (address, value) = self.looked_at();
        let change = if self.rng.chance(60) { 0 } else { 1 << self.rng.below(32) };
        let equal = self.rng.pick(b"==!");
        vec![(b'p', address), (b'*', 0), (b'p', value ^ change), (equal, 0), (end, 0)]
    }

    pub(crate) fn masked(&mut self, end: u8) -> Vec<(u8, u32)> {
        let (address, value) = self.looked_at();
        let mask = self.rng.pick(&[0xff, 0xff00, 0xffff_0000, 1, 0x8000_0000]);
        let change = if self.rng.chance(60) { 0 } else { 1 << self.rng.below(32) };
        let look = [(b'p', address), (b'*', 0), (b'p', mask), (b'&', 0)];
        let rest = [(b'p', (value & mask) ^ change), (b'=', 0), (end, 0)];
        [&look[..], &rest].concat()
    }

    /// Random elements up to a limit; closed ones come back to depth 1.
    pub(crate) fn random(&mut self, limit: usize, closed: bool) -> Vec<(u8, u32)> {
        let mut list = Vec::with_capacity(limit);
        let mut depth = 1;
        while list.len() < limit {
            // A closed list needs room for the operators that bring it back.
            let full = closed && list.len() + depth >= limit;
            if full && depth == 1 {
                break;
            }
            let push = depth == 1 || (!full && self.rng.chance(45));
            let (letter, val) = if push {
                self.primary()
            } else if !full && self.rng.chance(12) {
                (b'*', 0)
            } else {
                (self.rng.pick(&JOINS), 0)
            };
            depth = Element::of(letter, val).and_then(|one| one.after(depth)).unwrap_or(depth);
            list.push((letter, val));
        }
        list
    }

    fn primary(&mut self) -> (u8, u32) {
        if self.rng.chance(35) {
            (b'k', self.pid(25))
        } else {
            let (address, value) = self.looked_at();
            let any = self.rng.word();
            (b'p', self.rng.pick(&[address, address, value, 0, 1, any]))
        }
    }

    /// Breakpoints in a row until the table is full, then one more n.
    pub fn fill(&mut self) {
        let free = self.stub.table.iter().filter(|slot| slot.is_none()).count();
        let (mut site, mut id) = (self.free_site(), self.free_id());
        for _ in 0..=free {
            self.op(b'n', id);
            if self.rng.chance(50) {
                let pid = self.pid(20);
                self.op(b'k', pid);
                self.op(b'a', 0);
            }
            self.op(b'b', site);
            id = self.next_id(id);
            site = self.next_site(site);
        }
        let again = self.id([20, 75, 5]);
        self.op(b'n', again);
    }

    /// The next id that no breakpoint of the scene has.
    pub(crate) fn next_id(&self, id: u32) -> u32 {
        let mut ids = (1..=9).map(|i| (id + i) % 256);
        ids.find(|&id| self.stub.of_id(id).is_none()).unwrap_or(0)
    }

    /// The next site that the scene has free, from the window's beginning again past its end.
    pub(crate) fn next_site(&self, site: u32) -> u32 {
        let (base, size) = (self.stub.base, self.stub.size);
        let after = |i: u32| base + (site.wrapping_sub(base) + 2 * i) % size;
        (1..=9).map(after).find(|&site| self.is_free(site)).unwrap_or(base)
    }

    /// A Tcondbreak for whatever is in hand.
    pub(crate) fn stray(&mut self) {
        let any = self.rng.byte();
        let known = self.rng.pick(&LETTERS);
        let letter = self.rng.pick(&[known, known, known, any]);
        let site = self.site();
        let val = self.rng.pick(&[0, 0, 1, 5, site]);
        self.op(letter, val);
    }

    pub(crate) fn delete(&mut self) {
        let id = self.id([75, 15, 10]);
        if self.rng.chance(20) {
            // d with a non-zero byte in its op, or in the ninth data byte.
            let place = self.rng.pick(&[0, 1, 2, 3, 3, 3]);
            let mut rest = [b'd', 0, 0, 0, 0];
            rest[1 + place] = self.rng.byte().max(1);
            self.ask(ten(16, id, &rest));
        } else {
            self.op(b'd', id);
        }
    }
}
