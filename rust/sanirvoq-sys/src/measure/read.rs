//! Reads of nine bytes beside eight breakpoints, by themselves: the archive `libbench_read.a`.

use crate::ffi::ENTRIES;

/// The bytes that a read gives.
pub const BYTES: usize = 9;
/// The site of a free slot: an odd one, which lies nowhere.
pub const FREE: u32 = 1;
/// Each slot has room for four plain bytes, of which the first two are its.
pub const ROOM: usize = 4;

/// The offset of each slot's site.
pub type Sites = [u32; ENTRIES];
/// The plain bytes of each slot.
pub type Plain = [u8; ROOM * ENTRIES];

/// A part of the window, the slots, the part's offset, and where the bytes go.
type Read = unsafe extern "C" fn(*const u8, usize, *const Sites, *const Plain, u32, *mut u8, usize);

unsafe extern "C" {
    fn sanirvoq_bench_read(
        part: *const u8,
        part_length: usize,
        sites: *const Sites,
        plain: *const Plain,
        at: u32,
        out: *mut u8,
        out_length: usize,
    );
    fn sanirvoq_bench_read_by_bytes(
        part: *const u8,
        part_length: usize,
        sites: *const Sites,
        plain: *const Plain,
        at: u32,
        out: *mut u8,
        out_length: usize,
    );
}

/// Inlined where the function is a constant, so that the call is a direct one.
#[inline(always)]
fn proved(read: Read, part: &[u8], sites: &Sites, plain: &Plain, at: u32, out: &mut [u8]) {
    // SAFETY: the pointers are of live slices and arrays, with the slices' lengths, and what is
    // written is apart from what is read. Neither function asks for more, whatever the values are; they
    // always return, do not unwind and keep no pointer.
    unsafe { read(part.as_ptr(), part.len(), sites, plain, at, out.as_mut_ptr(), out.len()) }
}

/// The read of the proved stub: the plain bytes of a part of the window at an offset, then zeros; as
/// many as there is room for, at most [`BYTES`].
#[inline(always)]
pub fn straight(part: &[u8], sites: &Sites, plain: &Plain, at: u32, out: &mut [u8]) {
    proved(sanirvoq_bench_read, part, sites, plain, at, out);
}

/// The same byte by byte.
#[inline(always)]
pub fn by_bytes(part: &[u8], sites: &Sites, plain: &Plain, at: u32, out: &mut [u8]) {
    proved(sanirvoq_bench_read_by_bytes, part, sites, plain, at, out);
}

#[cfg(test)]
mod tests {
    use super::*;
    use core::array;

    /// Numbers for the test below: xorshift.
    struct Random(u64);

    impl Random {
        fn below(&mut self, bound: u32) -> u32 {
            self.0 ^= self.0 << 13;
            self.0 ^= self.0 >> 7;
            self.0 ^= self.0 << 17;
            (self.0 >> 32) as u32 % bound
        }

        fn bytes<const N: usize>(&mut self) -> [u8; N] {
            array::from_fn(|_| self.below(256) as u8)
        }
    }

    /// The plain bytes by the rule's words: the first slot whose trap is over a byte has it.
    fn expected(part: &[u8], sites: &Sites, plain: &Plain, at: u32) -> [u8; BYTES] {
        array::from_fn(|j| {
            let offset = at + j as u32;
            let over = |site: &u32| *site == offset - offset % 2;
            let Some(byte) = part.get(j) else { return 0 };
            sites.iter().position(over).map_or(*byte, |k| plain[ROOM * k + (offset % 2) as usize])
        })
    }

    #[test]
    fn both_ways_read_the_plain_bytes() {
        let mut random = Random(43);
        let mut met = [0; 2];
        for _ in 0..100_000 {
            let at = random.below(40);
            let memory: [u8; 12] = random.bytes();
            let part = &memory[..random.below(13) as usize];
            let plain: Plain = random.bytes();
            let sites: Sites = array::from_fn(|_| match random.below(3) {
                0 => FREE,
                _ => 2 * random.below(40),
            });
            let [mut one, mut other] = [[0xee; BYTES]; 2];
            straight(part, &sites, &plain, at, &mut one);
            by_bytes(part, &sites, &plain, at, &mut other);
            let expected = expected(part, &sites, &plain, at);
            assert_eq!(one, expected, "{part:?} at {at}, {sites:?}, {plain:?}");
            assert_eq!(other, expected, "{part:?} at {at}, {sites:?}, {plain:?}");
            let end = at + part.len().min(BYTES) as u32;
            let meets = sites.iter().any(|site| *site != FREE && *site < end && at < *site + 2);
            met[usize::from(meets && at < end)] += 1;
        }
        assert!(met.iter().all(|&count| count > 10_000), "no site and a site met: {met:?}");
    }

    #[test]
    fn no_more_is_written_than_there_is_room_for() {
        let (part, plain) = ([7; 12], [0; ROOM * ENTRIES]);
        for read in [straight, by_bytes] {
            for room in 0..=12 {
                for at in [0, u32::MAX] {
                    let mut out = [0xee; 12];
                    read(&part, &[FREE; ENTRIES], &plain, at, &mut out[..room]);
                    let written = room.min(BYTES);
                    assert!(out[..written].iter().all(|&byte| byte == 7), "{room} at {at}");
                    assert!(out[written..].iter().all(|&byte| byte == 0xee), "{room} at {at}");
                }
            }
        }
    }
}
