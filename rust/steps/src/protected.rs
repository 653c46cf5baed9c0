//! Steps that are aimed at the protected stretch: at its edges, within it and around it. An empty one
//! is aimed at as well, for it must refuse nothing.

use crate::burst::Burst;
use crate::step::ten;
use reference::Protected;

impl Burst<'_> {
    /// The first protected address and the first behind it, cut to 32 bits: 0 stands for 2^32.
    pub(crate) fn stretch(&self) -> (u32, u32) {
        let Protected { offset, length } = self.stub.protected;
        let from = self.stub.base.wrapping_add(offset);
        (from, from.wrapping_add(length))
    }

    /// Whether anything is protected.
    pub(crate) fn protects(&self) -> bool {
        self.stub.protected.length > 0
    }

    /// Any address of the stretch; its edge where it is empty.
    fn in_stretch(&mut self) -> u32 {
        let Protected { length, .. } = self.stub.protected;
        self.stretch().0.wrapping_add(self.rng.below(length.max(1)))
    }

    /// A site for b: at, just before and just after the stretch, and odd in it.
    pub(crate) fn edge_site(&mut self) -> u32 {
        let ((from, to), within) = (self.stretch(), self.in_stretch());
        let before = [from, to].map(|edge| edge.wrapping_sub(2));
        self.rng.pick(&[
            before[0],
            before[0],
            from,
            from,
            before[1],
            to,
            to,
            within & !1,
            within | 1,
        ])
    }

    /// The address of a word: the stretch's first and last, those beside it, and unaligned ones.
    pub(crate) fn edge_word(&mut self) -> u32 {
        let ((from, to), within) = (self.stretch(), self.in_stretch());
        let before = [from, to].map(|edge| edge.wrapping_sub(4));
        let near =
            [before[0], from, before[1], to, within & !3, within & !3, within, to.wrapping_sub(1)];
        self.rng.pick(&near)
    }

    /// Where `n` bytes begin that end just before the stretch, reach in by a byte, lie in it, begin
    /// in its last byte or just behind it.
    fn edge_address(&mut self, n: u32) -> u32 {
        let ((from, to), within) = (self.stretch(), self.in_stretch());
        let near = [
            from.wrapping_sub(n),
            from.wrapping_sub(n).wrapping_add(1),
            from,
            to.wrapping_sub(n),
            to.wrapping_sub(1),
            to,
            within,
        ];
        self.rng.pick(&near)
    }

    /// A write or a read at the stretch, now and then with a fault that is told before it.
    pub(crate) fn at_stretch(&mut self) {
        let n = 1 + self.rng.below(4);
        let address = self.edge_address(n);
        let [a, b, c, d] = self.rng.word().to_be_bytes();
        match self.rng.weighted(&[60, 6, 5, 5, 24]) {
            0 => {
                let mut rest = [n as u8, a, b, c, d];
                rest[1 + n as usize..].fill(0);
                self.ask(ten(4, address, &rest));
            }
            1 => self.ask(ten(4, address, &[0])),
            2 => self.ask(ten(4, address, &[5 + a % 9, a, b, c, d])),
            3 => self.ask(ten(4, address, &[n as u8 - 1, 1, 1, 1, 1])),
            _ => {
                let before = self.rng.below(5);
                self.ask(ten(2, address.wrapping_sub(before), &[1 + a % 9]));
            }
        }
    }

    /// A b at the stretch: of a condition that has depth 1, of one that has not, and of none.
    pub(crate) fn break_at_stretch(&mut self) {
        let (id, site) = (self.free_id(), self.edge_site());
        match self.rng.weighted(&[50, 30, 20]) {
            0 => self.op(b'n', id),
            1 => {
                let pid = self.pid(0);
                self.op(b'n', id);
                self.op(b'k', pid);
            }
            // Refused, so that nothing is in hand.
            _ => self.op(b'n', 256 + id),
        }
        self.op(b'b', site);
    }

    /// One of the two.
    pub fn protected(&mut self) {
        if self.rng.chance(65) {
            self.at_stretch();
        } else {
            self.break_at_stretch();
        }
    }
}
