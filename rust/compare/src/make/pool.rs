//! Damage to conditions: their elements, which stand in the places, and their counts.

use super::damage::Damage;
use reference::{ELEMENTS, ENTRIES, PLACES};
use sanirvoq::ffi::Draft;
use steps::{Rng, ELEMENT_LETTERS};

pub const OPERATORS: [u8; 6] = *b"*&=!ao";

/// The entries and, at the end, the condition in hand: whose elements are meant.
pub type Owner = usize;
const HAND: Owner = ENTRIES;

impl Damage<'_> {
    fn count(&mut self, owner: Owner) -> &mut u8 {
        let table = &mut self.target().table;
        match owner {
            HAND => &mut table.draft.count,
            _ => &mut table.entries[owner].count,
        }
    }

    /// The two words of one place.
    fn place(&mut self, place: usize) -> &mut [u32] {
        &mut self.made.record.raw_mut().places[2 * place..2 * place + 2]
    }

    fn set_place(&mut self, place: usize, letter: u8, value: u32) {
        self.place(place).copy_from_slice(&[letter.into(), value]);
    }

    /// One place of a used entry.
    pub fn entry_place(&mut self) -> Option<&mut [u32]> {
        let i = self.used()?;
        let (first, count) = (self.made.record.raw().first_place(i), *self.count(i));
        let k = (count > 0).then(|| self.rng.index(count.into()))?;
        Some(self.place(first + k))
    }

    /// Begins a condition as `n` does, with these elements. None where there is no place for them.
    pub fn draft_of(&mut self, elements: &[(u8, u32)]) -> Option<usize> {
        self.draft(|_, _| ())?;
        let first = self.made.record.raw().first_place(HAND);
        if first + elements.len() > PLACES {
            return None;
        }
        *self.count(HAND) = elements.len() as u8;
        for (i, &(letter, value)) in elements.iter().enumerate() {
            self.set_place(first + i, letter, value);
        }
        Some(first)
    }

    /// Puts an element before or behind those of an entry; the others move on. Where there is no
    /// room for it, it takes the place of the first or the last one.
    pub fn insert(&mut self, owner: Owner, at_end: bool, letter: u8, value: u32) -> Option<()> {
        let first = self.made.record.raw().first_place(owner);
        let (count, held) = (usize::from(*self.count(owner)), self.scene.stub.held());
        let room = count < ELEMENTS && held < PLACES;
        let end = if room { count } else { count.checked_sub(1)? };
        let at = first + if at_end { end } else { 0 };
        if room {
            self.made.record.raw_mut().places.copy_within(2 * at..2 * held, 2 * at + 2);
            *self.count(owner) += 1;
        }
        self.set_place(at, letter, value);
        Some(())
    }

    /// Takes an entry's elements out and the entry away.
    pub fn forget(&mut self) -> Option<()> {
        let i = self.used()?;
        let (first, count) = (self.made.record.raw().first_place(i), usize::from(*self.count(i)));
        self.target().table.entries[i].used = 0;
        let places = &mut self.made.record.raw_mut().places;
        places.copy_within(2 * (first + count).., 2 * first);
        Some(())
    }

    /// Fills every place with `*`, of which any number is well formed.
    fn stars(&mut self) {
        for place in 0..PLACES {
            self.set_place(place, b'*', 0);
        }
    }

    /// The used entries and the condition in hand, if any.
    fn owners(&mut self) -> Vec<Owner> {
        let table = self.target().table;
        let used = (0..ENTRIES).filter(|&i| table.entries[i].used == 1);
        used.chain((table.draft.active == 1).then_some(HAND)).collect()
    }

    /// Gives the conditions so many elements in all, each at most 64, all of them `*`. None where
    /// there are too few conditions.
    pub fn held_in_all(&mut self, total: usize) -> Option<()> {
        let owners = self.owners();
        let mut left = total;
        let mut others = owners.len();
        self.stars();
        for owner in owners {
            others -= 1;
            let least = left.saturating_sub(ELEMENTS * others);
            let share = (least <= ELEMENTS).then(|| {
                let most = left.min(ELEMENTS);
                least + self.rng.index(most - least + 1)
            })?;
            *self.count(owner) = share as u8;
            left -= share;
        }
        (left == 0).then_some(())
    }

    /// Gives one condition over 64 elements and the others none; all of them `*`, in places that
    /// there are.
    pub fn long(&mut self, owner: Owner) -> Option<()> {
        self.stars();
        for other in self.owners() {
            *self.count(other) = 0;
        }
        let count = 65 + self.rng.index(PLACES - ELEMENTS);
        *self.count(owner) = self.rng.pick(&[65, 66, count, PLACES]) as u8;
        Some(())
    }

    /// The same of a new condition in hand.
    pub fn long_draft(&mut self) -> Option<()> {
        self.draft(|_, _| ())?;
        self.long(HAND)
    }

    /// A new condition in hand of many values.
    pub fn unending_draft(&mut self) -> Option<()> {
        let planted = self.made.record.raw().first_place(HAND);
        let count = ELEMENTS.min(PLACES - planted);
        let elements: Vec<_> =
            (0..count).map(|_| (self.rng.pick(b"kp"), self.rng.word())).collect();
        self.draft_of(&elements).map(|_| ())
    }

    /// Whatever a condition that is not in hand has.
    pub fn anything_not_in_hand(&mut self) -> Option<()> {
        let [id, count] = [self.rng.byte(), self.rng.byte()];
        self.set(|target, _| target.table.draft = Draft { active: 0, id, count })
    }
}

/// A count over 64.
pub fn over_64(rng: &mut Rng) -> u8 {
    let any = 65 + rng.below(191) as u8;
    rng.pick(&[65, 66, 127, 128, 129, 255, any])
}

/// A byte that is the letter of no element.
pub fn no_letter(rng: &mut Rng) -> u8 {
    let any = rng.byte();
    let letter = rng.pick(&[b'n', b'b', b'd', 0, b'K', b'P', any]);
    if ELEMENT_LETTERS.contains(&letter) {
        0
    } else {
        letter
    }
}

/// A bit that makes a letter a number over 255.
pub fn high_bit(rng: &mut Rng) -> u32 {
    1 << (8 + rng.below(24))
}
