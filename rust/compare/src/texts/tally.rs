//! What a run of text packets reached.

use super::make::{Case, Damage, Letter, Room};
use steps::table::{lacking, must, table, texts, Cell, Section};

/// The numbers that a call can have.
const NUMBERS: [u8; 3] = [0, 10, 11];

#[derive(Debug, Default)]
pub struct Tally {
    /// By letter and by room of a writer's call, and by damage of a reader's: numbers 0, 10 and 11.
    letters: [Counts; Letter::ALL.len()],
    rooms: [Counts; Room::ALL.len()],
    damages: [Counts; Damage::ALL.len()],
    /// Texts read by length: 13, 14 to 33, 34.
    lengths: [u64; 3],
}

type Counts = [u64; NUMBERS.len()];

/// The counts of those numbers that can be, which must be reached.
fn cells(counts: &Counts, can_be: impl Fn(u8) -> bool) -> Vec<Cell> {
    let pairs = NUMBERS.iter().zip(counts);
    pairs.map(|(&number, &count)| Cell::where_possible(can_be(number), count)).collect()
}

fn by_letter((letter, counts): (&Letter, &Counts)) -> (String, Vec<Cell>) {
    let can_be = |number| number == 11 || (number == 0) == letter.in_range();
    (format!("written, letter: {}", letter.name()), cells(counts, can_be))
}

fn by_room((room, counts): (&Room, &Counts)) -> (String, Vec<Cell>) {
    (
        format!("written, buffer: {}", room.name()),
        cells(counts, |number| (number == 11) == room.is_short()),
    )
}

fn by_damage((damage, counts): (&Damage, &Counts)) -> (String, Vec<Cell>) {
    (format!("read: {}", damage.name()), cells(counts, |number| damage.can_have(number)))
}

impl Tally {
    /// Counts a call with its number.
    pub fn count(&mut self, case: &Case, number: u8) {
        let Some(column) = NUMBERS.iter().position(|&one| one == number) else { return };
        match case {
            Case::Write { letter, room, .. } => {
                self.letters[*letter as usize][column] += 1;
                self.rooms[*room as usize][column] += 1;
            }
            Case::Read { damage, text, .. } => {
                self.damages[*damage as usize][column] += 1;
                if number == 0 {
                    let shortest = usize::from(text.len() > 13);
                    self.lengths[shortest + usize::from(text.len() == 34)] += 1;
                }
            }
        }
    }

    fn section(&self) -> Section {
        let letters = Letter::ALL.iter().zip(&self.letters).map(by_letter);
        let rooms = Room::ALL.iter().zip(&self.rooms).map(by_room);
        let damages = Damage::ALL.iter().zip(&self.damages).map(by_damage);
        let rows = letters.chain(rooms).chain(damages).collect();
        let mut section =
            Section { title: "text packets, by number", columns: texts(NUMBERS), rows };
        section.row("read, of 13, 14 to 33, 34 bytes", must(&self.lengths));
        section
    }

    pub fn table(&self) -> String {
        table(&[self.section()])
    }

    /// What had to be reached and was not.
    pub fn lacking(&self) -> Vec<String> {
        lacking(&[self.section()])
    }
}
