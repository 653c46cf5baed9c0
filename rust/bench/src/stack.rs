//! How deep the steps' stack is: each runs on a painted stack.

use crate::cases::Case;
use crate::proved::Caller;
use sanirvoq::call::{Kind, Lent};
use sanirvoq_sys::measure::stack::PaintedStack;

/// Calls steps on a painted stack.
#[derive(Default)]
pub struct Painted {
    stack: PaintedStack,
    /// The most bytes that each step used, in the order of `Kind::ALL`.
    deepest: [usize; Kind::ALL.len()],
}

impl Caller for Painted {
    fn call(&mut self, kind: Kind, lent: Lent<'_>) -> u32 {
        let (result, used) = self.stack.call(kind, lent);
        let deepest = &mut self.deepest[kind as usize];
        *deepest = used.max(*deepest);
        result
    }
}

/// The deepest stack of a step over the cases, and the first case that came so deep.
#[derive(Debug, Clone, Copy, PartialEq, Eq)]
pub struct Depth {
    pub step: Kind,
    pub bytes: usize,
    pub case: &'static str,
}

/// Runs every case on a painted stack, with the steps that prepare it.
pub fn depths(cases: &[Case]) -> Vec<Depth> {
    let mut depths = Kind::ALL.map(|step| Depth { step, bytes: 0, case: "" });
    for case in cases {
        let painted: Painted = case.called().caller;
        for (depth, bytes) in depths.iter_mut().zip(painted.deepest) {
            if bytes > depth.bytes {
                (depth.bytes, depth.case) = (bytes, case.name);
            }
        }
    }
    depths.into_iter().filter(|depth| depth.bytes > 0).collect()
}

#[cfg(test)]
mod tests {
    use super::*;
    use crate::cases::cases;

    #[test]
    fn every_step_is_measured() {
        let depths = depths(&cases(&[64]));
        assert_eq!(depths.iter().map(|depth| depth.step).collect::<Vec<_>>(), Kind::ALL);
    }
}
