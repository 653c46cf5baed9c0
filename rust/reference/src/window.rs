//! The window's plain bytes: what the program has there, whether or not a trap stands on them.

use crate::record::{Breakpoint, Protected, Stub};
use crate::TRAP;

impl Stub {
    /// Where in memory `n` bytes at an address begin, if all of them lie in the window.
    pub(crate) fn offset(&self, address: u32, n: usize) -> Option<usize> {
        let start = address.checked_sub(self.base)? as usize;
        let room = (self.size as usize).checked_sub(start)?;
        (n <= room).then_some(start)
    }

    /// Whether one of `n` bytes at an address is protected. A stretch of no bytes protects none.
    pub fn protects(&self, address: u32, n: usize) -> bool {
        let Protected { offset, length } = self.protected;
        let from = u64::from(self.base) + u64::from(offset);
        let to = from + u64::from(length);
        (u64::from(address)..).take(n).any(|byte| (from..to).contains(&byte))
    }

    /// Fills `out` with the plain bytes at an address; `None` where they are not all in the window.
    pub fn read_plain(&self, memory: &[u8], address: u32, out: &mut [u8]) -> Option<()> {
        let start = self.offset(address, out.len())?;
        out.copy_from_slice(memory.get(start..start + out.len())?);
        for entry in self.table.iter().flatten() {
            for (place, k) in places(entry, address) {
                if let Some(byte) = out.get_mut(place) {
                    *byte = entry.plain[k];
                }
            }
        }
        Some(())
    }

    /// Writes plain bytes at an address; a byte under a trap goes to the entry and the trap stays.
    pub fn write_plain(&mut self, memory: &mut [u8], address: u32, data: &[u8]) -> Option<()> {
        let start = self.offset(address, data.len())?;
        let stretch = memory.get_mut(start..start + data.len())?;
        stretch.copy_from_slice(data);
        for entry in self.table.iter_mut().flatten() {
            for (place, k) in places(entry, address) {
                if let (Some(byte), Some(&value)) = (stretch.get_mut(place), data.get(place)) {
                    entry.plain[k] = value;
                    *byte = TRAP[k];
                }
            }
        }
        Some(())
    }

    /// Plants a trap; the entry comes back with the plain bytes of its site.
    pub(crate) fn plant(&self, memory: &mut [u8], mut entry: Breakpoint) -> Option<Breakpoint> {
        let at = self.offset(entry.site, TRAP.len())?;
        let bytes = memory.get_mut(at..at + TRAP.len())?;
        entry.plain.copy_from_slice(bytes);
        bytes.copy_from_slice(&TRAP);
        Some(entry)
    }

    /// Frees an entry and puts its plain bytes back.
    pub(crate) fn remove(&mut self, memory: &mut [u8], index: usize) {
        let Some(entry) = self.table.get_mut(index).and_then(Option::take) else { return };
        let at = self.offset(entry.site, TRAP.len());
        if let Some(bytes) = at.and_then(|at| memory.get_mut(at..at + TRAP.len())) {
            bytes.copy_from_slice(&entry.plain);
        }
    }
}

/// The places of a trap's two bytes from an address on. A byte below the address gets a place past
/// every stretch: the window is far smaller than 2^32.
fn places(entry: &Breakpoint, address: u32) -> [(usize, usize); 2] {
    let first = entry.site.wrapping_sub(address);
    [(first as usize, 0), (first.wrapping_add(1) as usize, 1)]
}
