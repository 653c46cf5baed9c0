//! What differs between two images: a call that needs no stub.

use core::fmt;
use sanirvoq_sys::call;
use sanirvoq_sys::ffi::Run;

/// Why two images were not compared.
#[derive(Debug, Clone, Copy, PartialEq, Eq, Hash)]
#[non_exhaustive]
pub enum NotCompared {
    /// The lengths are unequal, or over [`IMAGE`](crate::IMAGE).
    Images,
    /// The list is shorter than the runs that there are.
    RunList {
        /// How many runs there are.
        needed: usize,
    },
    /// A number that this edition has no name for.
    Other(u8),
}

impl NotCompared {
    /// The number in document 01's table, which document 02 continues.
    #[must_use]
    pub fn number(self) -> u8 {
        match self {
            Self::Images => 8,
            Self::RunList { .. } => 9,
            Self::Other(number) => number,
        }
    }
}

impl fmt::Display for NotCompared {
    fn fmt(&self, f: &mut fmt::Formatter<'_>) -> fmt::Result {
        match self {
            Self::Images => f.write_str("the images have unequal lengths, or are too long"),
            Self::RunList { needed } => write!(f, "the list lacks room for {needed} runs"),
            Self::Other(number) => write!(f, "refused with number {number}"),
        }
    }
}

impl core::error::Error for NotCompared {}

/// Fills the list from its start with every maximal run of differing bytes once, rising, and gives
/// the part that is filled. The other places stay, and after a refusal all.
///
#[cfg_attr(archive, doc = "```")]
#[cfg_attr(not(archive), doc = "```no_run")]
/// use sanirvoq::{differences, Run};
///
/// let mut list = [Run::default(); 8];
/// let runs = differences(b"service 1.07", b"service 1.12", &mut list)?;
/// assert_eq!(runs, [Run { start: 10, length: 2 }]);
/// # Ok::<(), sanirvoq::NotCompared>(())
/// ```
pub fn differences<'a>(
    a: &[u8],
    b: &[u8],
    list: &'a mut [Run],
) -> Result<&'a mut [Run], NotCompared> {
    let done = call::image_differences(a, b, call::numbers(list));
    let runs = done.runs as usize;
    match done.number {
        0 => Ok(&mut list[..runs]),
        8 => Err(NotCompared::Images),
        9 => Err(NotCompared::RunList { needed: runs }),
        other => Err(NotCompared::Other(other)),
    }
}
