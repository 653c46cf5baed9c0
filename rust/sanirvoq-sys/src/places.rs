//! The conditions that a record has, as its places show them.

use crate::ffi::{Entry, Record, ENTRIES};

/// One element of a condition, as the record has it. In a fit record the letter is one of
/// `k p * & = ! a o`, and the value is 0 but for `k` and `p`; in another it may be anything.
#[derive(Debug, Clone, Copy, Default, PartialEq, Eq, Hash)]
pub struct Element {
    /// Its letter, as a number.
    pub letter: u32,
    /// The value of `k` and `p`.
    pub value: u32,
}

impl Record {
    /// The first place of the elements of the entry with this index; that of the condition in hand
    /// where there is no such entry. Free entries hold no place.
    #[must_use]
    pub fn first_place(&self, index: usize) -> usize {
        self.target.table.entries.iter().take(index).map(held).sum()
    }

    /// The condition of the breakpoint in the entry with this index, element by element. None where
    /// the entry is free or its elements lie past the last place, which no fit record has.
    #[must_use]
    pub fn condition(&self, index: usize) -> Option<impl ExactSizeIterator<Item = Element> + '_> {
        let entry = self.target.table.entries.get(index).filter(|entry| entry.used == 1)?;
        self.elements(self.first_place(index), entry.count)
    }

    /// The condition in hand, element by element. None where nothing is in hand or its elements lie
    /// past the last place.
    #[must_use]
    pub fn in_hand(&self) -> Option<impl ExactSizeIterator<Item = Element> + '_> {
        let draft = &self.target.table.draft;
        let count = (draft.active == 1).then_some(draft.count)?;
        self.elements(self.first_place(ENTRIES), count)
    }

    fn elements(
        &self,
        first: usize,
        count: u8,
    ) -> Option<impl ExactSizeIterator<Item = Element> + '_> {
        let words = self.places.get(2 * first..2 * (first + usize::from(count)))?;
        Some(words.chunks_exact(2).map(|pair| Element { letter: pair[0], value: pair[1] }))
    }
}

/// The places that an entry holds.
fn held(entry: &Entry) -> usize {
    if entry.used == 1 {
        usize::from(entry.count)
    } else {
        0
    }
}

#[cfg(test)]
mod tests {
    extern crate std;
    use super::*;
    use crate::ffi::{Draft, PLACES};
    use std::vec::Vec;

    /// Entries 1 and 4 are used; place i has letter i and value 1000 + i.
    fn record() -> Record {
        let mut record = Record::default();
        let table = &mut record.target.table;
        table.entries[0].count = 9;
        table.entries[1] = Entry { used: 1, count: 2, ..Entry::default() };
        table.entries[4] = Entry { used: 1, count: 3, ..Entry::default() };
        table.draft = Draft { active: 1, id: 7, count: 1 };
        for (place, words) in record.places.chunks_exact_mut(2).enumerate() {
            (words[0], words[1]) = (place as u32, 1_000 + place as u32);
        }
        record
    }

    fn letters(elements: Option<impl Iterator<Item = Element>>) -> Option<Vec<u32>> {
        elements.map(|list| list.map(|one| one.letter).collect())
    }

    #[test]
    fn conditions_stand_in_the_order_of_the_table() {
        let record = record();
        assert_eq!(letters(record.condition(0)), None, "a free entry");
        assert_eq!(letters(record.condition(1)), Some([0, 1].to_vec()));
        assert_eq!(letters(record.condition(4)), Some([2, 3, 4].to_vec()));
        assert_eq!(letters(record.condition(ENTRIES)), None, "no entry");
        assert_eq!(letters(record.in_hand()), Some([5].to_vec()));
        let last = record.condition(4).and_then(|list| list.last());
        assert_eq!(last, Some(Element { letter: 4, value: 1_004 }));
    }

    #[test]
    fn elements_past_the_last_place_are_not_shown() {
        let mut record = record();
        record.target.table.entries[4].count = PLACES as u8 - 2;
        assert_eq!(letters(record.condition(4)).map(|list| list.len()), Some(PLACES - 2));
        assert_eq!(letters(record.in_hand()), None);
        record.target.table.entries[4].count = PLACES as u8 - 1;
        assert_eq!(letters(record.condition(4)), None);
        record.target.table.draft.active = 0;
        assert_eq!(letters(record.in_hand()), None, "nothing is in hand");
    }
}
