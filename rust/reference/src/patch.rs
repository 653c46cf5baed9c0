//! Document 02, Twelve: offers of writes that turn one image into another, checked and planned. First
//! over plain images, then over the plain window of a record.

use crate::record::{Refusal, Stub};
use std::collections::VecDeque;
use std::ops::Range;

/// The writes that may be offered.
pub const LONGEST_OFFER: usize = 16_384;
/// The bytes of the longest write.
pub const LONGEST_WRITE: usize = 4;

/// One write. Data bytes beyond the count are ignored.
#[derive(Debug, Clone, Copy, Default, PartialEq, Eq, Hash)]
pub struct Write {
    pub address: u32,
    pub count: u32,
    pub bytes: [u8; LONGEST_WRITE],
}

/// What the checker says of an offer.
#[derive(Debug, Clone, Copy, PartialEq, Eq)]
pub enum Judged {
    Accepted,
    /// The first write that breaks a bound.
    Bound(usize),
    /// No bound is broken, and the images differ.
    Differ,
}

/// Where an image lies and what of it is protected.
#[derive(Debug, Clone, PartialEq, Eq)]
pub struct Place {
    /// The address of the image's first byte.
    pub base: u32,
    /// The addresses that no write may touch.
    pub protected: Range<u64>,
}

impl Place {
    /// Where in an image of so many bytes a write begins; none where it breaks a bound: its count is
    /// 1 to 4, and all its bytes lie in the window off protected ones.
    fn offset(&self, size: usize, write: &Write) -> Option<usize> {
        let (first, count) = (u64::from(write.address), u64::from(write.count));
        let window = u64::from(self.base)..u64::from(self.base) + size as u64;
        let mut bytes = first..first + count;
        let free = bytes.all(|byte| window.contains(&byte) && !self.protected.contains(&byte));
        ((1..=LONGEST_WRITE as u64).contains(&count) && free)
            .then(|| (first - window.start) as usize)
    }

    /// Accepts exactly when no write breaks a bound and all in order give the wanted image.
    pub fn check(&self, plain: &[u8], offer: &[Write], wanted: &[u8]) -> Judged {
        let mut image = plain.to_vec();
        for (i, write) in offer.iter().enumerate() {
            let Some(at) = self.offset(plain.len(), write) else { return Judged::Bound(i) };
            let count = write.count as usize;
            image[at..at + count].copy_from_slice(&write.bytes[..count]);
        }
        if image == wanted {
            Judged::Accepted
        } else {
            Judged::Differ
        }
    }

    /// The list that turns the plain image into the wanted one, of the same size: at the lowest
    /// differing byte one write of four bytes, cut short at the window's end or before a protected
    /// byte, and so on upward. `Err` is the address of the lowest differing byte that is protected.
    pub fn plan(&self, plain: &[u8], wanted: &[u8]) -> Result<Vec<Write>, u32> {
        let differs = |at: usize| plain[at] != wanted[at];
        let is_protected = |at: usize| self.protected.contains(&(u64::from(self.base) + at as u64));
        let address = |at: usize| self.base + at as u32;
        if let Some(at) = (0..plain.len()).find(|&at| differs(at) && is_protected(at)) {
            return Err(address(at));
        }
        let (mut list, mut at) = (Vec::new(), 0);
        while at < plain.len() {
            if !differs(at) {
                at += 1;
                continue;
            }
            let mut write = Write { address: address(at), ..Write::default() };
            for byte in &mut write.bytes {
                if at == plain.len() || is_protected(at) {
                    break;
                }
                *byte = wanted[at];
                write.count += 1;
                at += 1;
            }
            list.push(write);
        }
        Ok(list)
    }

    /// How many writes the shortest accepted list has, from an image of zeros to each image whose
    /// bytes are below `values`, by trying all lists: every address in and beside the window, every
    /// count, all data of such bytes. An image is the number of its digits, the first byte the lowest;
    /// none where no list gives it.
    pub fn shortest(&self, size: u32, values: u8) -> Vec<Option<usize>> {
        let base = usize::from(values);
        let writes = self.all_writes(size, values);
        let mut known = vec![None; base.pow(size)];
        let mut waiting = VecDeque::from([0]);
        known[0] = Some(0);
        while let Some(image) = waiting.pop_front() {
            for (at, count, data) in &writes {
                let low = base.pow(*at as u32);
                let high = low * base.pow(*count);
                let next = image / high * high + data * low + image % low;
                if known[next].is_none() {
                    known[next] = known[image].map(|length| length + 1);
                    waiting.push_back(next);
                }
            }
        }
        known
    }

    /// Every write that breaks no bound: its offset, its count, and its data as a number of digits.
    fn all_writes(&self, size: u32, values: u8) -> Vec<(usize, u32, usize)> {
        let mut list = Vec::new();
        for address in self.base.saturating_sub(6)..=self.base.saturating_add(size + 6) {
            for count in 0..=6 {
                let write = Write { address, count, bytes: [0; LONGEST_WRITE] };
                if let Some(at) = self.offset(size as usize, &write) {
                    let all = usize::from(values).pow(count);
                    list.extend((0..all).map(|data| (at, count, data)));
                }
            }
        }
        list
    }
}

/// Why an offer was not checked, or a patch not planned.
#[derive(Debug, Clone, Copy, PartialEq, Eq)]
pub enum NotPatched {
    /// Number 2 or 3.
    Record(Refusal),
    /// Number 16: another image size, or too long an offer.
    Size,
    /// Number 17: the list is too short.
    List,
    /// Number 21: a protected byte differs; the lowest's address.
    Protected(u32),
}

impl NotPatched {
    pub fn number(self) -> u8 {
        match self {
            Self::Record(refusal) => refusal.number(),
            Self::Size => 16,
            Self::List => 17,
            Self::Protected(_) => 21,
        }
    }
}

impl From<Refusal> for NotPatched {
    fn from(refusal: Refusal) -> Self {
        Self::Record(refusal)
    }
}

/// What both calls are lent beside the record. The room, of which only the length counts, is where the
/// plain window may be laid out.
#[derive(Debug, Clone, Copy)]
pub struct PatchLent<'a> {
    pub memory: &'a [u8],
    pub registers: &'a [u8],
    pub wanted: &'a [u8],
    pub room: usize,
}

impl Stub {
    /// Number 2 of memory, register area and room, then 3, then 16 of the wanted image.
    fn patch_enter(&self, lent: PatchLent<'_>) -> Result<(Place, Vec<u8>), NotPatched> {
        self.lent(lent.memory, lent.registers)?;
        if lent.room != self.size as usize {
            return Err(Refusal::Size.into());
        }
        self.enter(lent.memory, lent.registers)?;
        if lent.wanted.len() != self.size as usize {
            return Err(NotPatched::Size);
        }
        let mut plain = vec![0; self.size as usize];
        self.read_plain(lent.memory, self.base, &mut plain).ok_or(Refusal::Unfit)?;
        let from = u64::from(self.base) + u64::from(self.protected.offset);
        let protected = from..from + u64::from(self.protected.length);
        Ok((Place { base: self.base, protected }, plain))
    }

    /// The verdict on an offer over the plain window. Nothing is changed.
    pub fn patch_check(&self, lent: PatchLent<'_>, offer: &[Write]) -> Result<Judged, NotPatched> {
        let (place, plain) = self.patch_enter(lent)?;
        if offer.len() > LONGEST_OFFER {
            return Err(NotPatched::Size);
        }
        Ok(place.check(&plain, offer, lent.wanted))
    }

    /// Fills the list from its start with the plan, and says how many writes it has; the rest of the
    /// list stays, and after a refusal all of it.
    pub fn patch_plan(&self, lent: PatchLent<'_>, list: &mut [Write]) -> Result<usize, NotPatched> {
        let (place, plain) = self.patch_enter(lent)?;
        let plan = place.plan(&plain, lent.wanted).map_err(NotPatched::Protected)?;
        list.get_mut(..plan.len()).ok_or(NotPatched::List)?.copy_from_slice(&plan);
        Ok(plan.len())
    }
}
