//! How deep a step's stack is: it runs on a block that was painted before, and the lowest byte whose
//! paint is gone says how deep it came.

use crate::call::{Kind, Lent};
use crate::ffi;
use core::arch::asm;
use std::vec;
use std::vec::Vec;

/// Far more than a step needs: past its end nothing would stop a write.
const ROOM: usize = 1 << 18;
const PAINT: u8 = 0xa5;

/// A stack of 16-byte lines, which the calling convention aligns to.
#[repr(align(16))]
#[derive(Debug, Clone, Copy)]
struct Line([u8; 16]);

/// A stack that steps are called on.
#[derive(Debug)]
pub struct PaintedStack {
    lines: Vec<Line>,
}

impl Default for PaintedStack {
    fn default() -> Self {
        Self { lines: vec![Line([PAINT; 16]); ROOM / 16] }
    }
}

impl PaintedStack {
    /// Calls a step. Answers its result and the bytes of stack that it used, from its return address
    /// down to the deepest byte that was written.
    #[must_use]
    pub fn call(&mut self, kind: Kind, lent: Lent<'_>) -> (u32, usize) {
        let (function, arguments) = spelled(kind, lent);
        // SAFETY: as in `Lent::call`: the arguments are the step's, and what they point to stays lent
        // until this returns. A step is one of the archive's (with the feature `measure` nothing stands
        // in for it), which has no recursion: what it needs is far less than the room.
        unsafe { self.measure(function, &arguments) }
    }

    /// Calls the function that is there. Answers its result and the bytes that it used, from its return
    /// address down to the deepest byte that was written.
    ///
    /// # Safety
    /// What the function asks of its arguments; and it keeps to the room of this stack.
    unsafe fn measure(&mut self, function: *const (), arguments: &[usize]) -> (u32, usize) {
        let (first, rest) = arguments.split_at(6);
        self.lines.fill(Line([PAINT; 16]));
        // The arguments that go by the stack lie from a multiple of 16 on.
        let below = rest.len().div_ceil(2);
        let from = ROOM / 16 - below;
        let words: Vec<usize> = rest.iter().copied().chain([0; 1]).take(2 * below).collect();
        for (line, pair) in self.lines[from..].iter_mut().zip(words.chunks(2)) {
            line.0[..8].copy_from_slice(&pair[0].to_ne_bytes());
            line.0[8..].copy_from_slice(&pair[1].to_ne_bytes());
        }
        // By the whole stack: the function writes below it.
        let top = self.lines.as_mut_ptr().wrapping_add(from);
        let result: u32;
        // SAFETY: rsp is back before the block ends, and r12, where it waits, is callee-saved. The
        // top is a multiple of 16.
        unsafe {
            asm!(
                "mov r12, rsp",
                "mov rsp, r13",
                "call r15",
                "mov rsp, r12",
                out("r12") _,
                in("r13") top,
                in("r15") function,
                in("rdi") first[0],
                in("rsi") first[1],
                in("rdx") first[2],
                in("rcx") first[3],
                in("r8") first[4],
                in("r9") first[5],
                lateout("eax") result,
                clobber_abi("sysv64"),
            );
        }
        let untouched =
            self.lines.iter().flat_map(|line| line.0).take_while(|&b| b == PAINT).count();
        assert!(untouched > ROOM / 4, "a step came near the end of the painted stack");
        (result, 16 * from - untouched)
    }
}

/// A step's function and its arguments, in their order, as words.
fn spelled(kind: Kind, lent: Lent<'_>) -> (*const (), Vec<usize>) {
    let Lent { record, memory, registers, from, to, pid, value, input, reply } = lent;
    let target = (&raw mut record.target).expose_provenance();
    let places = record.places.as_mut_ptr().expose_provenance();
    let window = [memory.as_mut_ptr().expose_provenance(), memory.len()];
    let area = [registers.as_mut_ptr().expose_provenance(), registers.len()];
    let Some(step) = kind.function() else {
        let stretch = [from as usize, to as usize];
        let words = [&[target][..], &window, &area, &stretch].concat();
        return (ffi::sanirvoq_step_setup as *const (), words);
    };
    let (input, input_length) = (input.as_ptr().expose_provenance(), input.len());
    let (reply, reply_length) = (reply.as_mut_ptr().expose_provenance(), reply.len());
    let rest = [pid as usize, usize::from(value), input, input_length, reply, reply_length];
    (step as *const (), [&[target, places][..], &window, &area, &rest].concat())
}

#[cfg(test)]
mod tests {
    use super::*;
    use crate::ffi::Record;
    use core::arch::naked_asm;

    /// Writes the lowest byte of N that it takes from the stack, besides its return address.
    #[unsafe(naked)]
    unsafe extern "C" fn takes<const N: usize>() {
        naked_asm!("sub rsp, {n}", "mov byte ptr [rsp], 0", "add rsp, {n}", "ret", n = const N)
    }

    /// The arguments from the seventh on: by value, a struct of six words lies as they do.
    #[repr(C)]
    struct Pushed([usize; 6]);

    fn fold(first: [usize; 6], pushed: Pushed) -> u32 {
        let all = first.iter().chain(&pushed.0);
        all.fold(0, |sum: u32, &one| sum.wrapping_mul(31).wrapping_add(one as u32))
    }

    /// Folds its arguments, each where it stands.
    #[rustfmt::skip]
    unsafe extern "C" fn folds(
        a: usize, b: usize, c: usize, d: usize, e: usize, f: usize, pushed: Pushed,
    ) -> u32 {
        fold([a, b, c, d, e, f], pushed)
    }

    /// Measures a function that follows no pointer. Gives also what `folds` is to make of the
    /// arguments.
    fn measured(painted: &mut PaintedStack, function: *const ()) -> (u32, usize, u32) {
        let record = &mut Record::default();
        let (memory, registers) = (&mut [0; 5][..], &mut [0; 11][..]);
        let (input, reply) = (&[0; 23][..], &mut [0; 31][..]);
        let (block, area) = (memory.as_ptr().addr(), registers.as_ptr().addr());
        let (target, places) = ((&raw const record.target).addr(), record.places.as_ptr().addr());
        let first = [target, places, block, 5, area, 11];
        let pushed = Pushed([13, 17, input.as_ptr().addr(), 23, reply.as_ptr().addr(), 31]);
        let (from, to, pid, value) = (0, 0, 13, 17);
        let lent = Lent { record, memory, registers, from, to, pid, value, input, reply };
        let (_, arguments) = spelled(Kind::Request, lent);
        // SAFETY: the function's writes are within the stack.
        let (result, used) = unsafe { painted.measure(function, &arguments) };
        (result, used, fold(first, pushed))
    }

    #[test]
    fn a_known_use_is_measured_to_the_byte() {
        let mut painted = PaintedStack::default();
        let functions: [(unsafe extern "C" fn(), usize); 4] =
            [(takes::<1>, 1), (takes::<1000>, 1000), (takes::<50_000>, 50_000), (takes::<8>, 8)];
        for (function, bytes) in functions {
            let (_, used, _) = measured(&mut painted, function as *const ());
            assert_eq!(used, 8 + bytes);
        }
    }

    #[test]
    #[should_panic(expected = "near the end")]
    fn a_use_beyond_the_room_is_not_taken_for_a_measure() {
        measured(&mut PaintedStack::default(), takes::<{ ROOM - 1000 }> as *const ());
    }

    #[test]
    fn arguments_arrive_in_their_places() {
        let (result, _, expected) = measured(&mut PaintedStack::default(), folds as *const ());
        assert_eq!(result, expected);
    }
}
