//! Patches over the plain window: an offer checked, and the list of fewest writes. The plain window is
//! laid out in the caller's room.

use crate::record::{Refusal, Stub};

/// The writes that may be offered.
pub const OFFER: usize = 16_384;

/// One write; data beyond the count is ignored.
#[repr(C)]
#[derive(Debug, Clone, Copy, Default, PartialEq, Eq)]
pub struct Write {
    pub address: u32,
    pub count: u32,
    pub bytes: [u8; 4],
}

#[derive(Debug, Clone, Copy, PartialEq, Eq)]
pub enum Judged {
    Accepted,
    /// The first write that breaks a bound.
    Bound(usize),
    Differ,
}

#[derive(Debug, Clone, Copy, PartialEq, Eq)]
pub enum Planned {
    /// So many writes stand at the front of the list.
    Filled(usize),
    /// Number 21: the lowest protected byte that differs.
    Protected(u32),
}

/// The first place from one on where two images of one length differ; their length where they do not.
#[inline(always)]
fn differing(a: &[u8], b: &[u8], mut at: usize) -> usize {
    // Where most bytes differ the next one does.
    if a.get(at).is_some_and(|byte| *byte != b[at]) {
        return at;
    }
    while let (Some(x), Some(y)) = (a[at..].first_chunk::<8>(), b[at..].first_chunk::<8>()) {
        let marks = u64::from_le_bytes(*x) ^ u64::from_le_bytes(*y);
        if marks != 0 {
            return at + marks.trailing_zeros() as usize / 8;
        }
        at += 8;
    }
    while at < a.len() && a[at] == b[at] {
        at += 1;
    }
    at
}

impl Stub {
    /// Numbers 2, 3 and 16; then the room holds the plain window.
    #[inline(always)]
    fn lay_out(
        &self,
        memory: &[u8],
        registers: &[u8],
        wanted: &[u8],
        room: &mut [u8],
    ) -> Result<(), Refusal> {
        self.lent(memory, registers)?;
        if room.len() != self.size as usize {
            return Err(Refusal::Size);
        }
        self.enter(memory, registers)?;
        if wanted.len() != room.len() {
            return Err(Refusal::Image);
        }
        room.copy_from_slice(memory);
        for entry in self.entries.iter().filter(|entry| entry.used) {
            let at = (entry.site - self.base) as usize;
            room[at..at + 2].copy_from_slice(&entry.plain);
        }
        Ok(())
    }

    /// Judges an offer; the room afterwards is of no account.
    pub fn patch_check(
        &self,
        memory: &[u8],
        registers: &[u8],
        offer: &[Write],
        wanted: &[u8],
        room: &mut [u8],
    ) -> Result<Judged, Refusal> {
        self.lay_out(memory, registers, wanted, room)?;
        if offer.len() > OFFER {
            return Err(Refusal::Image);
        }
        for (i, write) in offer.iter().enumerate() {
            let count = write.count as usize;
            let at = match self.offset(write.address, count) {
                Some(at) if count.wrapping_sub(1) < 4 && !self.protects(at, count) => at,
                _ => return Ok(Judged::Bound(i)),
            };
            match room.get_mut(at..).and_then(|room| room.first_chunk_mut::<4>()) {
                Some(room) if count == 4 => *room = write.bytes,
                _ => room[at..at + count].copy_from_slice(&write.bytes[..count]),
            }
        }
        Ok(if room == wanted { Judged::Accepted } else { Judged::Differ })
    }

    /// Fills the list from its start, unless a protected byte differs or it is too short.
    pub fn patch_plan(
        &self,
        memory: &[u8],
        registers: &[u8],
        wanted: &[u8],
        room: &mut [u8],
        list: &mut [Write],
    ) -> Result<Planned, Refusal> {
        self.lay_out(memory, registers, wanted, room)?;
        let from = self.protected_offset as usize;
        let to = from + self.protected_length as usize;
        let first = from + differing(&room[from..to], &wanted[from..to], 0);
        if first < to {
            return Ok(Planned::Protected(self.base + first as u32));
        }
        // Nothing is cut where nothing is protected.
        let cut = if from < to { from } else { usize::MAX };
        let needed = writes(room, wanted, cut).count();
        let list = list.get_mut(..needed).ok_or(Refusal::ShortList)?;
        for (place, (at, end)) in list.iter_mut().zip(writes(room, wanted, cut)) {
            let (count, mut bytes) = (end - at, [0; 4]);
            match wanted[at..].first_chunk::<4>() {
                Some(wanted) if count == 4 => bytes = *wanted,
                _ => bytes[..count].copy_from_slice(&wanted[at..end]),
            }
            *place = Write { address: self.base + at as u32, count: count as u32, bytes };
        }
        Ok(Planned::Filled(needed))
    }
}

/// The writes of the plan as their first place and the first behind them.
#[inline(always)]
fn writes<'a>(
    plain: &'a [u8],
    wanted: &'a [u8],
    cut: usize,
) -> impl Iterator<Item = (usize, usize)> + 'a {
    let mut from = 0;
    std::iter::from_fn(move || {
        let at = differing(plain, wanted, from);
        if at == plain.len() {
            return None;
        }
        let end = (at + 4).min(plain.len());
        from = if at < cut && cut < end { cut } else { end };
        Some((at, from))
    })
}
