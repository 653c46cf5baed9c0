//! How many places are held, told from the history alone: the elements sent and accepted, less those
//! removed, dropped or replaced. It is kept beside the book, whose draft outlives a refusal that
//! drops the condition in hand, and takes nothing from a record.

use crate::{word, MESSAGE};

#[derive(Debug, Clone, Default, PartialEq, Eq)]
pub struct Places {
    /// Elements that were accepted so far.
    accepted: u64,
    /// Of those, the ones whose places were given back.
    given_back: u64,
    /// The id of the condition in hand, and its elements.
    hand: Option<(u32, u64)>,
    /// Each breakpoint's id and elements.
    planted: Vec<(u32, u64)>,
}

impl Places {
    /// After an accepted setup none is held.
    pub fn new() -> Self {
        Self::default()
    }

    /// The places held.
    pub fn held(&self) -> u64 {
        self.accepted - self.given_back
    }

    /// A request of number 0, with its reply.
    pub fn request(&mut self, request: &[u8; MESSAGE], reply: &[u8; MESSAGE]) {
        let (val, op) = (word(&request[1..]), &request[5..9]);
        match (request[0], reply[0]) {
            (16, 17) => self.operation(op[0], val),
            (16, _) if op != b"d\0\0\0" => self.drop_hand(),
            _ => {}
        }
    }

    /// A restart of number 0.
    pub fn restart(&mut self) {
        self.drop_hand();
        self.given_back += self.planted.drain(..).map(|(_, elements)| elements).sum::<u64>();
    }

    fn drop_hand(&mut self) {
        self.given_back += self.hand.take().map_or(0, |(_, elements)| elements);
    }

    /// An accepted Tcondbreak.
    fn operation(&mut self, letter: u8, val: u32) {
        match letter {
            b'n' => {
                self.drop_hand();
                self.hand = Some((val, 0));
            }
            b'b' => self.planted.extend(self.hand.take()),
            b'd' => {
                let place = self.planted.iter().position(|&(id, _)| id == val);
                self.given_back += place.map_or(0, |place| self.planted.swap_remove(place).1);
            }
            _ => {
                self.accepted += 1;
                self.hand = self.hand.map(|(id, elements)| (id, elements + 1));
            }
        }
    }
}
