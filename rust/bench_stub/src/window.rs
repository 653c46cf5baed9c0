//! The window's plain bytes.

use crate::record::Stub;
use crate::TRAP;

impl Stub {
    /// Where `n` bytes at an address begin in memory, if all of them lie in the window.
    #[inline(always)]
    pub(crate) fn offset(&self, address: u32, n: usize) -> Option<usize> {
        let start = address.wrapping_sub(self.base) as usize;
        let inside = address >= self.base && start + n <= self.size as usize;
        inside.then_some(start)
    }

    /// Whether an even offset is one of the stretch, which then has the byte after it too.
    #[inline(always)]
    pub(crate) fn site_is_protected(&self, at: usize) -> bool {
        at.wrapping_sub(self.protected_offset as usize) < self.protected_length as usize
    }

    /// Whether one of `n` bytes from an offset of the window on is protected.
    #[inline(always)]
    pub(crate) fn protects(&self, at: usize, n: usize) -> bool {
        let (from, length) = (self.protected_offset as usize, self.protected_length as usize);
        length > 0 && at < from + length && from < at + n
    }

    /// Fills `out` with plain bytes.
    #[inline(always)]
    pub fn read_plain(&self, memory: &[u8], address: u32, out: &mut [u8]) -> Option<()> {
        let start = self.offset(address, out.len())?;
        out.copy_from_slice(memory.get(start..start + out.len())?);
        self.lay(address, out);
        Some(())
    }

    /// Lays plain bytes over those that stand under traps.
    #[inline(always)]
    pub(crate) fn lay(&self, address: u32, out: &mut [u8]) {
        for entry in self.entries.iter().filter(|entry| entry.used) {
            let place = entry.site.wrapping_sub(address);
            // One more, so that a site one below the address counts as well.
            if place.wrapping_add(1) as usize <= out.len() {
                for (k, &byte) in entry.plain.iter().enumerate() {
                    if let Some(out) = out.get_mut(place.wrapping_add(k as u32) as usize) {
                        *out = byte;
                    }
                }
            }
        }
    }

    /// Four plain bytes, low-order first.
    #[inline(always)]
    pub(crate) fn word_at(&self, memory: &[u8], address: u32) -> Option<u32> {
        let start = self.offset(address, 4)?;
        let mut bytes = *memory.get(start..)?.first_chunk::<4>()?;
        self.lay(address, &mut bytes);
        Some(u32::from_le_bytes(bytes))
    }

    /// Writes plain bytes from an offset of the window on; a byte under a trap goes to the entry and the
    /// trap stays.
    #[inline(always)]
    pub(crate) fn write_plain(
        &mut self,
        memory: &mut [u8],
        start: usize,
        data: &[u8],
    ) -> Option<()> {
        let address = self.base.wrapping_add(start as u32);
        let stretch = memory.get_mut(start..start + data.len())?;
        stretch.copy_from_slice(data);
        for entry in self.entries.iter_mut().filter(|entry| entry.used) {
            let place = entry.site.wrapping_sub(address);
            if place.wrapping_add(1) as usize <= data.len() {
                for (k, plain) in entry.plain.iter_mut().enumerate() {
                    let at = place.wrapping_add(k as u32) as usize;
                    if let (Some(byte), Some(&value)) = (stretch.get_mut(at), data.get(at)) {
                        (*plain, *byte) = (value, TRAP[k]);
                    }
                }
            }
        }
        Some(())
    }

    /// Puts the plain bytes of an entry back.
    #[inline(always)]
    pub(crate) fn put_back(&self, memory: &mut [u8], index: usize) {
        let entry = &self.entries[index];
        let at = entry.site.wrapping_sub(self.base) as usize;
        if let Some(bytes) = memory.get_mut(at..at + 2) {
            bytes.copy_from_slice(&entry.plain);
        }
    }
}
