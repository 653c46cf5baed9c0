//! How the limits of conditions were met: 64 elements in one, 128 places in all.

use crate::step::Step;
use crate::table::{must, texts, Cell, Section};
use crate::tally::word;
use crate::ELEMENT_LETTERS;
use reference::{depth, Stub, ELEMENTS, PC, PLACES};

/// The places held before a step, and what may be done with the condition in hand.
#[derive(Debug, Clone, Copy, Default, PartialEq, Eq)]
pub struct Held {
    /// Those of the condition in hand; none where nothing is.
    pub hand: Option<usize>,
    pub all: usize,
    /// The depth of the condition in hand; none where nothing is.
    pub depth: Option<usize>,
}

impl Held {
    pub fn of(stub: &Stub) -> Self {
        let elements = stub.draft.as_ref().map(|draft| &draft.elements);
        let depth = elements.and_then(|elements| depth(elements));
        Self { hand: elements.map(Vec::len), all: stub.held(), depth }
    }
}

/// Steps by the places that they left held, up to these.
const UP_TO: [(&str, usize); 5] =
    [("0", 0), ("to 16", 16), ("to 64", 64), ("to 127", PLACES - 1), ("128", PLACES)];
/// Traps by the elements of their condition, up to these.
const SIZES: [usize; 4] = [0, 16, ELEMENTS - 1, ELEMENTS];
/// What was accepted while all places were held.
const WHILE_FULL: usize = 4;

#[derive(Debug, Default)]
pub struct Places {
    /// Accepted: the 64th of its condition, the 128th place.
    last: [u64; 2],
    /// Elements refused with count, by letter: a 65th with places left, no place with fewer than 64
    /// in hand, and both.
    refused: [[u64; ELEMENT_LETTERS.len()]; 3],
    /// n, b, d, restart.
    while_full: [u64; WHILE_FULL],
    left: [u64; UP_TO.len()],
    /// Stop, Pass.
    traps: [[u64; SIZES.len()]; 2],
}

impl Places {
    /// Counts a step by the stub that it left.
    pub(crate) fn left(&mut self, stub: &Stub) {
        let held = stub.held();
        if let Some(place) = UP_TO.iter().position(|&(_, upto)| held <= upto) {
            self.left[place] += 1;
        }
    }

    /// Counts a step of number 0 by its answer.
    pub(crate) fn take(&mut self, step: &Step, answer: &[u8], before: Held, stub: &Stub) {
        let full = u64::from(before.all == PLACES);
        match (step, answer) {
            (Step::Request([16, _, _, _, _, letter, 0, 0, 0, _]), _) => {
                self.operation(*letter, answer, before);
            }
            (Step::Trap { block, .. }, [stop_or_pass, ..]) => {
                let count = stub.at_site(word(&block[PC..])).map_or(0, |one| one.elements.len());
                let place = SIZES.iter().position(|&upto| count <= upto);
                self.traps[usize::from(*stop_or_pass) - 1][place.unwrap_or(0)] += 1;
            }
            (Step::Restart, _) => self.while_full[3] += full,
            _ => {}
        }
    }

    fn operation(&mut self, letter: u8, reply: &[u8], before: Held) {
        let full = before.all == PLACES;
        let place = ELEMENT_LETTERS.iter().position(|&one| one == letter);
        match (place, reply[0]) {
            (Some(_), 17) => {
                self.last[0] += u64::from(before.hand == Some(ELEMENTS - 1));
                self.last[1] += u64::from(before.all == PLACES - 1);
            }
            (Some(i), _) if reply[1..].starts_with(b"count") => {
                let long = before.hand == Some(ELEMENTS);
                self.refused[usize::from(full) + usize::from(full && long)][i] += 1;
            }
            (None, 17) => {
                let known = b"nbd".iter().position(|&one| one == letter);
                self.while_full[known.unwrap_or(0)] += u64::from(full);
            }
            _ => {}
        }
    }

    /// Three sections: the limits by letter, the places held, and traps by elements.
    pub(crate) fn sections(&self) -> [Section; 3] {
        let columns = texts(ELEMENT_LETTERS.map(char::from));
        let title = "elements refused with count, by letter";
        let [long, no_place, both] = self.refused;
        let mut refused = Section { title, columns, rows: Vec::new() };
        refused.row("a 65th element, places left", must(&long));
        refused.row("no place left, under 64 in hand", must(&no_place));
        refused.row("both: all letters together", must(&[both.iter().sum()]));
        let columns = texts(UP_TO.map(|(name, _)| name));
        let mut held = Section { title: "places", columns, rows: Vec::new() };
        held.row("held after a step", must(&self.left));
        held.row("accepted: the 64th element, the 128th place", must(&self.last));
        held.row("accepted with all held: n, b, d, restart", must(&self.while_full));
        [refused, held, self.by_elements()]
    }

    fn by_elements(&self) -> Section {
        let (title, columns) = ("traps by elements", texts(["0", "to 16", "to 63", "64"]));
        let [stops, passes] = self.traps.map(|counts| must(&counts));
        let mut section = Section { title, columns, rows: Vec::new() };
        section.row("Stop", stops);
        // Without an element every condition is true.
        section.row("Pass", [&[Cell::None], &passes[1..]].concat());
        section
    }
}
