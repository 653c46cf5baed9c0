//! Elements, the values that they leave, and what a condition comes to.

use crate::record::Stub;
use crate::ELEMENTS;

#[derive(Debug, Clone, Copy, PartialEq, Eq)]
pub enum Element {
    Pid(u32),
    Literal(u32),
    Indirect,
    And,
    Equal,
    Differ,
    Both,
    Either,
}

impl Element {
    /// The element of a letter and its val; None for another letter, or a val that is unused and not 0.
    #[inline(always)]
    pub fn of(letter: u8, val: u32) -> Option<Self> {
        Some(match letter {
            b'k' => Self::Pid(val),
            b'p' => Self::Literal(val),
            _ if val != 0 => return None,
            b'*' => Self::Indirect,
            b'&' => Self::And,
            b'=' => Self::Equal,
            b'!' => Self::Differ,
            b'a' => Self::Both,
            b'o' => Self::Either,
            _ => return None,
        })
    }

    /// By how much it changes the depth: one value more, the same, or one less. As a difference of
    /// two tests it takes no branch.
    #[inline(always)]
    pub(crate) fn change(self) -> i32 {
        let pushes = matches!(self, Self::Pid(_) | Self::Literal(_));
        let stays = matches!(self, Self::Indirect);
        i32::from(pushes) - i32::from(!(pushes || stays))
    }
}

/// The depth that elements leave; 0 or less at some point is a lack of values, which gives 0. A sum
/// and a least value, without a branch for each element.
#[inline(always)]
pub(crate) fn depth(elements: &[Element]) -> i32 {
    let (mut depth, mut least) = (1, 1);
    for element in elements {
        depth += element.change();
        least = least.min(depth);
    }
    if least < 1 {
        0
    } else {
        depth
    }
}

/// So many elements are common; a stack for them is cleared sooner.
const FEW: usize = 16;

impl Stub {
    /// Whether a well-formed condition is true for a pid.
    pub(crate) fn holds(&self, memory: &[u8], elements: &[Element], pid: u32) -> bool {
        if elements.len() <= FEW {
            self.evaluate::<FEW>(memory, elements, pid)
        } else {
            self.evaluate::<ELEMENTS>(memory, elements, pid)
        }
    }

    /// The topmost value is kept apart from the stack.
    #[inline(always)]
    fn evaluate<const N: usize>(&self, memory: &[u8], elements: &[Element], pid: u32) -> bool {
        let (mut stack, mut height, mut top) = ([0_u32; N], 0, 1);
        for &element in elements {
            if let Element::Pid(val) | Element::Literal(val) = element {
                stack[height] = top;
                height += 1;
                let own = u32::from(val == pid);
                top = if matches!(element, Element::Pid(_)) { own } else { val };
                continue;
            }
            if element == Element::Indirect {
                let Some(value) = self.word_at(memory, top) else { return true };
                top = value;
                continue;
            }
            height -= 1;
            top = joined(element, stack[height], top);
        }
        top != 0
    }
}

#[inline(always)]
fn joined(element: Element, left: u32, right: u32) -> u32 {
    match element {
        Element::And => left & right,
        Element::Equal => u32::from(left == right),
        Element::Differ => u32::from(left != right),
        Element::Both => u32::from(left != 0) & u32::from(right != 0),
        _ => u32::from(left | right != 0),
    }
}
