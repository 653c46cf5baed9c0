//! From a list of ops where the sides differ to a short one.

use crate::archive::Stub;
use crate::difference::Difference;
use crate::op::Op;
use crate::pair::Pair;

/// Runs a list from nothing. Gives the length of the shortest prefix at whose end the sides differ.
pub fn replay(stub: Stub, ops: &[Op]) -> Option<(usize, Box<Difference>)> {
    let mut pair = Pair::new(stub);
    let mut numbered = ops.iter().enumerate();
    numbered.find_map(|(i, op)| pair.run(op).err().map(|difference| (i + 1, difference)))
}

/// Cuts the list to its shortest failing prefix, then drops single ops, from the last to the first,
/// as long as it still fails in the same way. None where it does not fail.
pub fn shrink(stub: Stub, mut ops: Vec<Op>) -> Option<(Vec<Op>, Box<Difference>)> {
    let (length, mut difference) = replay(stub, &ops)?;
    ops.truncate(length);
    let mut dropped = true;
    while dropped {
        dropped = false;
        let mut i = ops.len();
        while i > 0 {
            i -= 1;
            let op = ops.remove(i);
            match replay(stub, &ops) {
                Some((length, found)) if found.what == difference.what => {
                    ops.truncate(length);
                    (difference, dropped) = (found, true);
                    i = i.min(length);
                }
                _ => ops.insert(i, op),
            }
        }
    }
    Some((ops, difference))
}
