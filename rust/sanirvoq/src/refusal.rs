//! Why a step is refused.

use core::fmt;

/// Why a step was refused; the numbers are those of document 01's table, which document 02 continues
/// and whose 0 is `Ok` here.
#[derive(Debug, Clone, Copy, PartialEq, Eq, Hash)]
#[non_exhaustive]
pub enum Refusal {
    /// A setup rule is broken.
    Setup,
    /// A lent buffer, request, reply, saved block or message has the wrong size.
    Size,
    /// The record is not fit.
    Unfit,
    /// An event names an unlisted pid.
    Unlisted,
    /// A trap or state event of a Stopped process, or a state event with value 8.
    Stopped,
    /// A trap whose pc is at no breakpoint.
    NoSite,
    /// The writer was given no message, or the reader bytes of none.
    NoMessage,
    /// The bytes of a text request are no packet's text.
    NoPacket,
    /// The buffer for the reply to a text request is shorter than [`TEXT`](crate::TEXT).
    TextBuffer,
    /// A wanted image is not of the window's size, or an offer has over
    /// [`PATCH_WRITES`](crate::PATCH_WRITES) writes.
    Patch,
    /// A number that this edition has no name for.
    Other(u8),
}

impl Refusal {
    /// All that have a name.
    pub const ALL: [Self; 10] = [
        Self::Setup,
        Self::Size,
        Self::Unfit,
        Self::Unlisted,
        Self::Stopped,
        Self::NoSite,
        Self::NoMessage,
        Self::NoPacket,
        Self::TextBuffer,
        Self::Patch,
    ];

    /// The number in document 01's table.
    #[must_use]
    pub fn number(self) -> u8 {
        match self {
            Self::Setup => 1,
            Self::Size => 2,
            Self::Unfit => 3,
            Self::Unlisted => 4,
            Self::Stopped => 5,
            Self::NoSite => 6,
            Self::NoMessage => 7,
            Self::NoPacket => 10,
            Self::TextBuffer => 11,
            Self::Patch => 16,
            Self::Other(number) => number,
        }
    }

    /// What a number of the archive says.
    pub(crate) fn check(number: u8) -> Result<(), Self> {
        if number == 0 {
            return Ok(());
        }
        let named = Self::ALL.into_iter().find(|refusal| refusal.number() == number);
        Err(named.unwrap_or(Self::Other(number)))
    }
}

impl fmt::Display for Refusal {
    fn fmt(&self, f: &mut fmt::Formatter<'_>) -> fmt::Result {
        f.write_str(match self {
            Self::Setup => "a setup rule is broken",
            Self::Size => "a buffer has the wrong size",
            Self::Unfit => "the record is not fit",
            Self::Unlisted => "no process has this pid",
            Self::Stopped => "the process is Stopped, or the state event would stop it",
            Self::NoSite => "the pc is at no breakpoint",
            Self::NoMessage => "no message",
            Self::NoPacket => "no text packet",
            Self::TextBuffer => "the buffer is shorter than the longest text",
            Self::Patch => "the image is not of the window's size, or the offer is too long",
            Self::Other(number) => return write!(f, "refused with number {number}"),
        })
    }
}

impl core::error::Error for Refusal {}

#[cfg(test)]
mod tests {
    use super::*;

    #[test]
    fn every_number_is_kept() {
        assert_eq!(Refusal::check(0), Ok(()));
        for number in 1..=255 {
            assert_eq!(Refusal::check(number).map_err(Refusal::number), Err(number));
        }
    }

    #[test]
    fn numbers_with_a_name_have_it() {
        assert_eq!(Refusal::ALL.map(Refusal::number), [1, 2, 3, 4, 5, 6, 7, 10, 11, 16]);
        for refusal in Refusal::ALL {
            assert_eq!(Refusal::check(refusal.number()), Err(refusal));
        }
        assert_eq!(Refusal::check(8), Err(Refusal::Other(8)));
    }
}
