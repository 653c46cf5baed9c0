//! Conditions at their limits: 64 elements and a 65th, 128 places and one element more.

use crate::burst::Burst;
use crate::step::{block, ten, Step};
use crate::ELEMENT_LETTERS;
use reference::{Breakpoint, ELEMENTS, ENTRIES, PLACES};

/// How many came before: they take their letters, or what follows them, in turn.
#[derive(Debug, Clone, Copy, Default)]
pub(crate) struct Turns {
    /// Of 65th elements.
    long: usize,
    /// Of elements for which no place is left.
    no_place: usize,
    /// Of full pools.
    full: usize,
}

/// The number of this turn, and one more the next time.
fn turn(count: &mut usize) -> usize {
    *count += 1;
    *count - 1
}

impl Burst<'_> {
    /// A Tcondbreak that is never changed: with noise in some steps few long conditions would be
    /// whole.
    fn sure(&mut self, letter: u8, val: u32) {
        self.send(ten(16, val, &[letter]));
    }

    /// A well-formed condition of just so many elements: parts that each find one value and leave
    /// one. Mostly all its reads are in the window, so that it is evaluated to its end, and often
    /// its end makes it false.
    pub(crate) fn chained(&mut self, count: usize) -> Vec<(u8, u32)> {
        let (inside, pid) = (self.rng.chance(85), self.pid(30));
        let end = self.rng.pick(&[(b'k', pid), (b'k', pid), (b'p', 0)]);
        let mut list = Vec::with_capacity(count);
        while list.len() < count {
            let part = self.part(inside);
            match count - list.len() {
                // A `*` leaves as many values as it finds; at the end it reads outside.
                1 => list.push((b'*', 0)),
                // Only a part with a read is of odd length.
                5 | 7 if inside => list.extend(self.look()),
                2 if self.rng.chance(80) => list.extend([end, (b'a', 0)]),
                left if part.len() <= left => list.extend(part),
                _ => {}
            }
        }
        list
    }

    /// A part of a condition that finds one value and leaves one.
    fn part(&mut self, inside: bool) -> Vec<(u8, u32)> {
        let (pid, low) = (self.pid(15), self.rng.below(3));
        let end = self.rng.pick(b"aaaoo=!&");
        match self.rng.weighted(&[4, 1, 4, 2]) {
            0 if inside => self.look(),
            0 => self.compared(end),
            1 if !inside => self.masked(end),
            2 => vec![(b'k', pid), (end, 0)],
            _ => vec![(b'p', low), (end, 0)],
        }
    }

    /// Such a part with a read in the window.
    fn look(&mut self) -> Vec<(u8, u32)> {
        let within = self.rng.below(self.stub.size - 3);
        let (address, value) = self.read_at(self.stub.base + within);
        let change = u32::from(self.rng.chance(40));
        let end = self.rng.pick(b"aaaoo");
        vec![(b'p', address), (b'*', 0), (b'p', value ^ change), (b'=', 0), (end, 0)]
    }

    /// An element of each letter in turn, with or without the values that it needs.
    fn one_more(&mut self, turn: usize) {
        let letter = ELEMENT_LETTERS[turn % ELEMENT_LETTERS.len()];
        let val = if matches!(letter, b'k' | b'p') { self.pid(10) } else { 0 };
        self.sure(letter, val);
    }

    /// Removes breakpoints until so many entries are free and so many places are held by none.
    /// Gives how many places then are; a condition in hand counts as none, for an n follows.
    fn make_room(&mut self, entries: usize, places: usize) -> usize {
        let start = self.rng.index(ENTRIES);
        let order = (0..ENTRIES).map(|i| &self.stub.table[(start + i) % ENTRIES]);
        let mut standing: Vec<_> = order.flatten().collect();
        let held =
            |list: &[&Breakpoint]| -> usize { list.iter().map(|one| one.elements.len()).sum() };
        while standing.len() + entries > ENTRIES || held(&standing) + places > PLACES {
            let Some(one) = standing.pop() else { break };
            self.sure(b'd', u32::from(one.id));
        }
        PLACES - held(&standing)
    }

    /// A condition of 64 elements, mostly with a 65th, and its b.
    pub fn long(&mut self) {
        self.make_room(1, ELEMENTS);
        let id = self.free_id();
        self.sure(b'n', id);
        let list = if self.rng.chance(60) {
            self.chained(ELEMENTS)
        } else {
            let closed = self.rng.chance(50);
            let mut list = self.random(ELEMENTS, closed);
            list.resize(ELEMENTS, (b'*', 0));
            list
        };
        list.into_iter().for_each(|(letter, val)| self.sure(letter, val));
        if self.rng.chance(70) {
            let turn = turn(&mut self.turns.long);
            self.one_more(turn);
        }
        let site = self.site();
        self.op(b'b', site);
        self.trap_at(site);
    }

    /// Now and then a process that is not Stopped runs into the trap at a site.
    fn trap_at(&mut self, site: u32) {
        let running = self.pid_where(false).filter(|_| self.rng.chance(80));
        if let Some(pid) = running {
            let block = block(self.rng, site);
            self.steps.push(Step::Trap { pid, block });
        }
    }

    /// Conditions until all 128 places are held, elements for which none is left, and a way in
    /// which some are given back.
    pub fn fill_pool(&mut self) {
        let end = turn(&mut self.turns.full);
        // Now and then two conditions of 64 hold all.
        let two = end.is_multiple_of(3);
        let mut left = if two { self.make_room(ENTRIES, PLACES) } else { self.make_room(3, 1) };
        let stays = two || self.rng.chance(40);
        let (mut id, mut site) = (self.free_id(), self.free_site());
        let mut known = id;
        while left > 0 {
            // Two conditions can hold 128, so of three free entries one is left for an n.
            let any = 17 + self.rng.index(ELEMENTS - 17);
            let count = if two || known != id { ELEMENTS } else { any };
            let count = count.max(left.saturating_sub(ELEMENTS)).min(ELEMENTS).min(left);
            left -= count;
            self.sure(b'n', id);
            let list = self.chained(count);
            list.into_iter().for_each(|(letter, val)| self.sure(letter, val));
            if left > 0 || !stays {
                self.sure(b'b', site);
                self.trap_at(site);
                (known, id, site) = (id, self.next_id(id), self.next_site(site));
            }
        }
        self.at_no_place(stays, end, [known, id, site]);
    }

    /// All places are held: where nothing is in hand, conditions that are refused their first
    /// element; then something that may give places back, and an element.
    fn at_no_place(&mut self, in_hand: bool, end: usize, [known, id, site]: [u32; 3]) {
        if !in_hand {
            for _ in 0..ELEMENT_LETTERS.len() {
                self.sure(b'n', id);
                let turn = turn(&mut self.turns.no_place);
                self.one_more(turn);
            }
            self.sure(b'n', id);
        }
        match end % 7 {
            0 => self.steps.push(Step::Restart),
            1 => self.sure(b'd', known),
            2 => self.sure(b'n', id),
            3 => self.sure(b'b', site),
            _ => {}
        }
        let letter = self.rng.index(ELEMENT_LETTERS.len());
        self.one_more(letter);
    }
}
