//! Conditions in Reverse Polish: their elements, their depth and their value.

use crate::record::Stub;

#[derive(Debug, Clone, Copy, PartialEq, Eq)]
pub enum Element {
    /// `k`: 1 where the trapping pid is this one, else 0.
    Pid(u32),
    /// `p`: a 32-bit literal.
    Literal(u32),
    /// `*`: four plain bytes, low-order first.
    Indirect,
    /// `&`: bit-wise and.
    And,
    /// `=`
    Equal,
    /// `!`
    Differ,
    /// `a`: logical and.
    Both,
    /// `o`: logical or.
    Either,
}

impl Element {
    /// The element of a letter and its val; val is unused for all but `k` and `p`.
    pub fn of(letter: u8, val: u32) -> Option<Self> {
        Some(match letter {
            b'k' => Self::Pid(val),
            b'p' => Self::Literal(val),
            b'*' => Self::Indirect,
            b'&' => Self::And,
            b'=' => Self::Equal,
            b'!' => Self::Differ,
            b'a' => Self::Both,
            b'o' => Self::Either,
            _ => return None,
        })
    }

    /// The values that it takes; each element leaves one.
    pub fn needs(self) -> usize {
        match self {
            Self::Pid(_) | Self::Literal(_) => 0,
            Self::Indirect => 1,
            _ => 2,
        }
    }

    /// The depth after this element, or `None` where values are lacking.
    pub fn after(self, depth: usize) -> Option<usize> {
        Some(depth.checked_sub(self.needs())? + 1)
    }
}

/// The depth that a list of elements leaves, `None` where it is not well formed up to its end.
/// It starts at 1, the truth of the final b; a whole condition leaves 1.
pub fn depth(elements: &[Element]) -> Option<usize> {
    elements.iter().try_fold(1, |depth, element| element.after(depth))
}

impl Stub {
    /// Whether a condition is true for a trapping pid. A `*` that is not all in the window decides
    /// it at once. A list that is not well formed, which no fit record has, counts as true.
    pub fn holds(&self, memory: &[u8], elements: &[Element], pid: u32) -> bool {
        let mut below = Vec::with_capacity(elements.len());
        let mut top = 1;
        for &element in elements {
            top = match element {
                Element::Pid(_) | Element::Literal(_) => {
                    below.push(top);
                    primary(element, pid)
                }
                Element::Indirect => {
                    let mut bytes = [0; 4];
                    if self.read_plain(memory, top, &mut bytes).is_none() {
                        return true;
                    }
                    u32::from_le_bytes(bytes)
                }
                _ => match below.pop() {
                    Some(left) => join(element, left, top),
                    None => return true,
                },
            };
        }
        top != 0
    }
}

/// The value of `k` or `p`.
fn primary(element: Element, pid: u32) -> u32 {
    match element {
        Element::Pid(val) => u32::from(val == pid),
        Element::Literal(val) => val,
        _ => 0,
    }
}

/// The value of an operator that takes two.
fn join(element: Element, left: u32, right: u32) -> u32 {
    match element {
        Element::And => left & right,
        Element::Equal => u32::from(left == right),
        Element::Differ => u32::from(left != right),
        Element::Both => u32::from(left != 0 && right != 0),
        _ => u32::from(left != 0 || right != 0),
    }
}
