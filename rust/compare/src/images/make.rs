//! Makes pairs of images and lists from a seed.

use steps::Rng;

pub const LONGEST: usize = reference::LONGEST_IMAGE;

/// How two images differ.
#[derive(Debug, Clone, Copy, PartialEq, Eq)]
pub enum Sort {
    Equal,
    FirstAndLast,
    Sparse,
    Dense,
    Alternating,
    OneRun,
    Unequal,
    TooLong,
}

impl Sort {
    pub const ALL: [Self; 8] = [
        Self::Equal,
        Self::FirstAndLast,
        Self::Sparse,
        Self::Dense,
        Self::Alternating,
        Self::OneRun,
        Self::Unequal,
        Self::TooLong,
    ];

    pub fn name(self) -> &'static str {
        match self {
            Self::Equal => "equal",
            Self::FirstAndLast => "first and last byte",
            Self::Sparse => "few bytes",
            Self::Dense => "most bytes",
            Self::Alternating => "every other byte",
            Self::OneRun => "all bytes",
            Self::Unequal => "unequal lengths",
            Self::TooLong => "65,537 bytes",
        }
    }

    /// Whether a call on such images can have this number.
    pub fn can_have(self, number: u8) -> bool {
        match self {
            Self::Equal => number == 0,
            Self::Unequal | Self::TooLong => number == 8,
            _ => number != 8,
        }
    }
}

/// How long the list is beside what the runs need.
#[derive(Debug, Clone, Copy, PartialEq, Eq)]
pub enum Room {
    Exact,
    More,
    OneShort,
    None,
    Any,
}

impl Room {
    pub const ALL: [Self; 5] = [Self::Exact, Self::More, Self::OneShort, Self::None, Self::Any];

    pub fn name(self) -> &'static str {
        match self {
            Self::Exact => "exact",
            Self::More => "a place more or some",
            Self::OneShort => "a place short",
            Self::None => "none",
            Self::Any => "any",
        }
    }
}

/// Two images and a list of so many places, full of one number.
#[derive(Debug, Clone)]
pub struct Pair {
    pub sort: Sort,
    pub room: Room,
    pub a: Vec<u8>,
    pub b: Vec<u8>,
    pub places: usize,
    pub fill: u32,
}

/// An image's length: short ones mostly, and now and then the longest.
fn length(rng: &mut Rng) -> usize {
    match rng.weighted(&[3, 40, 40, 12, 2, 3]) {
        0 => 0,
        1 => 1 + rng.index(20),
        2 => 1 + rng.index(300),
        3 => 1 + rng.index(4_096),
        4 => 1 + rng.index(LONGEST),
        _ => LONGEST,
    }
}

/// Another byte than it was.
fn another(rng: &mut Rng, byte: &mut u8) {
    *byte ^= 1 + rng.below(255) as u8;
}

/// Makes each byte another that is picked.
fn change(rng: &mut Rng, bytes: &mut [u8], mut picked: impl FnMut(&mut Rng, usize) -> bool) {
    for (i, byte) in bytes.iter_mut().enumerate() {
        if picked(rng, i) {
            another(rng, byte);
        }
    }
}

fn images(rng: &mut Rng, sort: Sort) -> (Vec<u8>, Vec<u8>) {
    let length = if sort == Sort::TooLong { LONGEST + 1 } else { length(rng) };
    let a = rng.bytes(length);
    let mut b = a.clone();
    let first = rng.index(2);
    let percent = 1 + rng.below(20);
    match sort {
        Sort::Equal => {}
        Sort::FirstAndLast => change(rng, &mut b, |_, i| i == 0 || i + 1 == length),
        Sort::Sparse => change(rng, &mut b, |rng, _| rng.chance(percent)),
        Sort::Dense => change(rng, &mut b, |rng, _| !rng.chance(percent)),
        Sort::Alternating => change(rng, &mut b, |_, i| i % 2 == first),
        Sort::OneRun => change(rng, &mut b, |_, _| true),
        Sort::Unequal | Sort::TooLong => change(rng, &mut b, |rng, _| rng.chance(percent)),
    }
    if sort == Sort::Unequal {
        b = unequal(rng, b);
    }
    (a, b)
}

/// One byte more or less, or another length.
fn unequal(rng: &mut Rng, mut bytes: Vec<u8>) -> Vec<u8> {
    match rng.index(3) {
        0 if !bytes.is_empty() => bytes.truncate(bytes.len() - 1),
        1 if !bytes.is_empty() => bytes.truncate(rng.index(bytes.len())),
        _ => bytes.push(rng.byte()),
    }
    bytes
}

impl Pair {
    pub fn new(rng: &mut Rng) -> Self {
        // Images of 65,537 bytes cost as much as a hundred others.
        let sort = Sort::ALL[rng.weighted(&[10, 10, 20, 20, 15, 10, 10, 2])];
        let (a, b) = images(rng, sort);
        let needed = 2 * counted(&a, &b);
        let room = Room::ALL[rng.weighted(&[40, 20, 20, 10, 10])];
        let places = match room {
            Room::Exact => needed,
            Room::More => needed + 1 + rng.index(3),
            Room::OneShort => needed.saturating_sub(1),
            Room::None => 0,
            Room::Any => rng.index(needed + 8),
        };
        Self { sort, room, a, b, places, fill: rng.word() }
    }

    /// How many runs were made, where the sort says so.
    pub fn made(&self) -> Option<usize> {
        let length = self.a.len();
        match self.sort {
            Sort::Equal => Some(0),
            Sort::FirstAndLast => Some(length.min(if length == 2 { 1 } else { 2 })),
            Sort::OneRun => Some(length.min(1)),
            Sort::Alternating => Some((length + usize::from(self.a.first() != self.b.first())) / 2),
            _ => None,
        }
    }
}

/// How many runs there are, as far as both images reach: as many as first bytes of runs.
fn counted(a: &[u8], b: &[u8]) -> usize {
    let differing: Vec<bool> = a.iter().zip(b).map(|(a, b)| a != b).collect();
    let inside = differing.windows(2).filter(|two| !two[0] && two[1]).count();
    inside + usize::from(differing.first() == Some(&true))
}
