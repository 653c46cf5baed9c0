//! Patches: offers of writes checked, and the fewest writes planned, from the window to a wanted image.

use crate::{PatchWrite, Refusal, Stub};
use core::fmt;
use sanirvoq_sys::call;

/// What the checker says of an offer.
#[derive(Debug, Clone, Copy, PartialEq, Eq, Hash)]
#[non_exhaustive]
#[must_use = "it says whether the offer may be written"]
pub enum Offered {
    /// All writes in order give the wanted image.
    Accepted,
    /// The write with this index is the first that has another count than 1 to 4, leaves the window
    /// or touches a protected byte.
    BrokenBound(usize),
    /// Every write is allowed, and they give another image.
    ImagesDiffer,
    /// A verdict that this edition has no name for.
    Other(u8),
}

/// Why there is no plan.
#[derive(Debug, Clone, Copy, PartialEq, Eq, Hash)]
#[non_exhaustive]
pub enum NotPlanned {
    /// A buffer has the wrong size, or the record is not fit.
    Refused(Refusal),
    /// The wanted image differs in a protected byte.
    Protected {
        /// The lowest one's address.
        address: u32,
    },
    /// The list is shorter than the plan.
    List,
}

impl NotPlanned {
    /// The number in document 01's table, which document 02 continues.
    #[must_use]
    pub fn number(self) -> u8 {
        match self {
            Self::Refused(refusal) => refusal.number(),
            Self::Protected { .. } => 21,
            Self::List => 17,
        }
    }

    /// What a number of the archive says.
    fn check(number: u8, address: u32) -> Result<(), Self> {
        match number {
            17 => Err(Self::List),
            21 => Err(Self::Protected { address }),
            other => Refusal::check(other).map_err(Self::Refused),
        }
    }
}

impl fmt::Display for NotPlanned {
    fn fmt(&self, f: &mut fmt::Formatter<'_>) -> fmt::Result {
        match self {
            Self::Refused(refusal) => refusal.fmt(f),
            Self::Protected { address } => write!(f, "the byte at {address:#x} is protected"),
            Self::List => f.write_str("the list is shorter than the plan"),
        }
    }
}

impl core::error::Error for NotPlanned {
    fn source(&self) -> Option<&(dyn core::error::Error + 'static)> {
        match self {
            Self::Refused(refusal) => Some(refusal),
            _ => None,
        }
    }
}

/// Over plain memory, as if there were no trap. Nothing is written until the host sends the writes.
impl Stub {
    /// Whether an offer of writes, in their order, turns the window into a wanted image. `room` is
    /// lent for the window, of its size; what it holds afterwards is of no account. Refused with
    /// [`Refusal::Size`], `Unfit` or `Patch`.
    pub fn check_patch(
        &self,
        memory: &[u8],
        registers: &[u8],
        offer: &[PatchWrite],
        wanted: &[u8],
        room: &mut [u8],
    ) -> Result<Offered, Refusal> {
        let done = call::patch_check(self.raw(), memory, registers, offer, wanted, room);
        Refusal::check(done.number)?;
        Ok(match done.verdict {
            0 => Offered::Accepted,
            1 => Offered::BrokenBound(done.index as usize),
            2 => Offered::ImagesDiffer,
            other => Offered::Other(other),
        })
    }

    /// Plans the writes that turn the window into a wanted image, at the front of the list, and gives
    /// the part that is filled: no accepted offer is shorter. The other places stay, and after a
    /// refusal all. `room` as for [`Stub::check_patch`].
    ///
    #[cfg_attr(archive, doc = "```")]
    #[cfg_attr(not(archive), doc = "```no_run")]
    /// # fn main() -> Result<(), Box<dyn std::error::Error>> {
    /// use sanirvoq::{Offered, PatchWrite, Process, Setup, Stub, BLOCK};
    ///
    /// let (memory, registers) = ([0, 1, 2, 3, 4, 5, 6, 7], [0; BLOCK]);
    /// let processes = [Process { pid: 5, address: 0 }];
    /// let stub = Stub::setup(&Setup::new(0x1000, 8, &processes), &memory, &registers)?;
    /// let wanted = [0, 1, 2, 9, 4, 5, 6, 7];
    /// let (mut room, mut list) = ([0; 8], [PatchWrite::default(); 2]);
    /// let plan = stub.plan_patch(&memory, &registers, &wanted, &mut room, &mut list)?;
    /// assert_eq!(plan, [PatchWrite { address: 0x1003, count: 4, bytes: [9, 4, 5, 6] }]);
    /// let verdict = stub.check_patch(&memory, &registers, plan, &wanted, &mut room)?;
    /// assert_eq!(verdict, Offered::Accepted);
    /// # Ok(())
    /// # }
    /// ```
    pub fn plan_patch<'a>(
        &self,
        memory: &[u8],
        registers: &[u8],
        wanted: &[u8],
        room: &mut [u8],
        list: &'a mut [PatchWrite],
    ) -> Result<&'a mut [PatchWrite], NotPlanned> {
        let done = call::patch_plan(self.raw(), memory, registers, wanted, room, list);
        NotPlanned::check(done.number, done.address)?;
        Ok(&mut list[..done.writes as usize])
    }
}

#[cfg(test)]
mod tests {
    use super::*;

    #[test]
    fn every_number_is_kept() {
        assert_eq!(NotPlanned::check(0, 0), Ok(()));
        for number in 1..=255 {
            assert_eq!(NotPlanned::check(number, 9).map_err(NotPlanned::number), Err(number));
        }
        assert_eq!(NotPlanned::check(21, 9), Err(NotPlanned::Protected { address: 9 }));
        assert_eq!(NotPlanned::check(17, 0), Err(NotPlanned::List));
        assert_eq!(NotPlanned::check(16, 0), Err(NotPlanned::Refused(Refusal::Patch)));
    }
}
