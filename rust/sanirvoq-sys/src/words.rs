//! A record of any bytes.

use crate::ffi::Record;
use core::mem::{align_of, size_of};
use core::slice;

/// The words of a record.
pub const WORDS: usize = size_of::<Record>() / 4;

const _: () = assert!(size_of::<Record>() == 4 * WORDS);
const _: () = assert!(align_of::<Record>() == align_of::<u32>());

/// A record as words, of which each may be anything. So its padding too has a value that can be set,
/// kept and compared.
#[derive(Debug, Clone, PartialEq, Eq)]
pub struct RecordWords(pub [u32; WORDS]);

impl RecordWords {
    /// The record that they are.
    #[must_use]
    pub fn record(&self) -> &Record {
        // SAFETY: size and alignment are those of the words; every value of its fields is one.
        unsafe { &*self.0.as_ptr().cast() }
    }

    /// The record that they are, to be changed. Its padding has no value where the archive wrote.
    #[must_use]
    pub fn record_mut(&mut self) -> &mut Record {
        // SAFETY: as above, and a field can be given no value that the words have not.
        unsafe { &mut *self.0.as_mut_ptr().cast() }
    }

    /// Its bytes.
    #[must_use]
    pub fn bytes(&self) -> &[u8] {
        // SAFETY: the words are initialised, and bytes have no alignment.
        unsafe { slice::from_raw_parts(self.0.as_ptr().cast(), 4 * WORDS) }
    }

    /// Its bytes, to be changed.
    #[must_use]
    pub fn bytes_mut(&mut self) -> &mut [u8] {
        // SAFETY: as above; every byte is a part of some word.
        unsafe { slice::from_raw_parts_mut(self.0.as_mut_ptr().cast(), 4 * WORDS) }
    }
}

#[cfg(test)]
mod tests {
    use super::*;

    #[test]
    fn words_bytes_and_fields_are_one_memory() {
        let mut words = RecordWords([0; WORDS]);
        words.record_mut().target.size = 0x0403_0201;
        assert_eq!(words.0[1], 0x0403_0201);
        words.bytes_mut()[0] = 0x10;
        assert_eq!(words.record().target.base.to_ne_bytes()[0], 0x10);
        words.record_mut().places[255] = u32::MAX;
        assert_eq!(words.bytes()[4 * WORDS - 1], 0xff);
        assert_eq!(words.0[WORDS - 1], u32::MAX);
    }
}
