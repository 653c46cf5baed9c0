//! The record as bytes of which any may be anything, and as the fields that they are.

use sanirvoq::ffi::{self, Table, Target};
use sanirvoq::{RecordWords, WORDS};
use std::mem::offset_of;
use std::ops::Range;
use std::sync::LazyLock;

/// The condition in hand is the last part before the places.
const BEFORE_DRAFT: usize = (offset_of!(Target, table) + offset_of!(Table, draft)) / 4;
const BEFORE_PLACES: usize = offset_of!(ffi::Record, places) / 4;

/// Words, so that padding too has a value that can be set, kept and compared.
#[derive(Debug, Clone, PartialEq, Eq)]
pub struct Record(RecordWords);

impl Record {
    pub fn zeroed() -> Self {
        Self(RecordWords([0; WORDS]))
    }

    /// The record as the archive has it.
    pub fn raw(&self) -> &ffi::Record {
        self.0.record()
    }

    pub fn raw_mut(&mut self) -> &mut ffi::Record {
        self.0.record_mut()
    }

    /// All of it but the places.
    pub fn target(&self) -> &Target {
        &self.raw().target
    }

    pub fn target_mut(&mut self) -> &mut Target {
        &mut self.raw_mut().target
    }

    pub fn bytes(&self) -> &[u8] {
        self.0.bytes()
    }

    pub fn bytes_mut(&mut self) -> &mut [u8] {
        self.0.bytes_mut()
    }

    fn words(&mut self) -> impl Iterator<Item = &mut u32> {
        self.0 .0.iter_mut()
    }

    fn part(&self, part: &Range<usize>) -> &[u32] {
        &self.0 .0[part.clone()]
    }

    /// Takes over another's padding, and nothing else.
    pub fn pad(&mut self, noise: &Self) {
        for ((word, noise), mask) in self.words().zip(&noise.0 .0).zip(&MASK.0 .0) {
            *word = (*word & mask) | (noise & !mask);
        }
    }

    /// Gives padding a value. An accepted step may leave it with bytes that were never written, which
    /// valgrind would hold against a comparison of all bytes.
    pub fn define_padding(&mut self) {
        for (word, mask) in self.words().zip(&MASK.0 .0) {
            *word = (*word & mask) | (0x5a5a_5a5a & !mask);
        }
    }

    /// Whether what is not the condition in hand is the same as it was in a fit record: every field,
    /// padding left out, and the places of the breakpoints. Those after them belong to the condition
    /// in hand or to none.
    pub fn same_but_draft(&self, before: &Self) -> bool {
        let planted = 2 * before.raw().first_place(ffi::ENTRIES).min(ffi::PLACES);
        let parts = [0..BEFORE_DRAFT, BEFORE_PLACES..BEFORE_PLACES + planted];
        parts.into_iter().all(|part| same(self.part(&part), before.part(&part), MASK.part(&part)))
    }
}

/// Masks before it decides, so that padding which was never written is no matter to valgrind.
fn same(one: &[u32], other: &[u32], mask: &[u32]) -> bool {
    let pairs = one.iter().zip(other).zip(mask);
    pairs.fold(0, |sum, ((a, b), m)| sum | ((a ^ b) & m)) == 0
}

/// All ones in every field, zeros in the padding.
static MASK: LazyLock<Record> = LazyLock::new(|| {
    let mut mask = Record::zeroed();
    let ffi::Record { target, places } = mask.raw_mut();
    (target.base, target.size, target.count) = (!0, !0, !0);
    (target.protected_offset, target.protected_length) = (!0, !0);
    for process in &mut target.processes {
        (process.pid, process.address) = (!0, !0);
        (process.state, process.wanted) = (!0, !0);
    }
    (target.selected, target.current) = (!0, !0);
    for entry in &mut target.table.entries {
        (entry.used, entry.id, entry.count) = (!0, !0, !0);
        (entry.plain, entry.site) = ([!0; 4], !0);
    }
    let draft = &mut target.table.draft;
    (draft.active, draft.id, draft.count) = (!0, !0, !0);
    places.fill(!0);
    mask
});

#[cfg(test)]
mod tests {
    use super::*;

    /// Padding is 1 byte before each of 8 sites, 2 after each of 4 marks, 3 after `selected`, and 1
    /// after the condition in hand.
    #[test]
    fn the_mask_leaves_out_padding_alone() {
        let ones: u32 = MASK.0 .0.iter().map(|word| word.count_ones()).sum();
        assert_eq!(ones as usize, 8 * (size_of::<ffi::Record>() - 8 - 2 * 4 - 3 - 1));
    }

    /// A record in which entry 2 has three elements and the condition in hand one.
    fn four_held() -> Record {
        let mut record = Record::zeroed();
        let table = &mut record.target_mut().table;
        (table.entries[2].used, table.entries[2].count) = (1, 3);
        (table.draft.active, table.draft.count) = (1, 1);
        record
    }

    #[test]
    fn the_condition_in_hand_and_unheld_places_are_apart() {
        let record = four_held();
        for at in 0..size_of::<ffi::Record>() {
            let mut other = record.clone();
            other.bytes_mut()[at] ^= 0x80;
            let in_hand = (4 * BEFORE_DRAFT..4 * BEFORE_PLACES).contains(&at);
            let unheld = at >= 4 * BEFORE_PLACES + 3 * 8;
            let apart = in_hand || unheld || MASK.bytes()[at] == 0;
            assert_eq!(other.same_but_draft(&record), apart, "{at}");
            assert_eq!(*record.raw() == *other.raw(), MASK.bytes()[at] == 0, "{at}");
            other.define_padding();
            let mut defined = record.clone();
            defined.define_padding();
            assert_eq!(defined == other, MASK.bytes()[at] == 0, "{at}");
        }
    }
}
