//! What differs between two images: document 02, One.

/// The bytes of the longest image.
pub const LONGEST_IMAGE: usize = 65_536;

/// A maximal run of differing bytes.
#[derive(Debug, Clone, Copy, Default, PartialEq, Eq)]
pub struct Run {
    /// The offset of its first byte.
    pub start: u32,
    /// How many bytes.
    pub length: u32,
}

/// Why two images were not compared.
#[derive(Debug, Clone, Copy, PartialEq, Eq)]
pub enum NotCompared {
    /// Number 8: their lengths are unequal, or more than 65,536.
    Images,
    /// Number 9: the list lacks room for so many runs.
    List(usize),
}

impl NotCompared {
    pub fn number(self) -> u8 {
        match self {
            Self::Images => 8,
            Self::List(_) => 9,
        }
    }
}

/// Gives each run to `take`, rising.
#[inline(always)]
fn each_run(a: &[u8], b: &[u8], mut take: impl FnMut(Run)) {
    let mut differing: u32 = 0;
    let mut end = |at: usize, length: &mut u32| {
        if *length > 0 {
            take(Run { start: at as u32 - *length, length: *length });
            *length = 0;
        }
    };
    for (at, (x, y)) in a.iter().zip(b).enumerate() {
        if x == y {
            end(at, &mut differing);
        } else {
            differing += 1;
        }
    }
    end(a.len(), &mut differing);
}

/// Fills the list from its start with every maximal run of differing bytes once, rising. Says how
/// many they are; a list without room for all stays as it is.
pub fn differences(a: &[u8], b: &[u8], list: &mut [Run]) -> Result<usize, NotCompared> {
    if a.len() != b.len() || a.len() > LONGEST_IMAGE {
        return Err(NotCompared::Images);
    }
    let mut needed = 0;
    each_run(a, b, |_| needed += 1);
    if needed > list.len() {
        return Err(NotCompared::List(needed));
    }
    let mut places = list.iter_mut();
    each_run(a, b, |run| {
        if let Some(place) = places.next() {
            *place = run;
        }
    });
    Ok(needed)
}
