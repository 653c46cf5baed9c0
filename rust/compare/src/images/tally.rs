//! What a run of pairs reached.

use super::make::{Pair, Room, Sort, LONGEST};
use steps::table::{lacking, must, table, texts, Cell, Section};

/// The numbers that a call can have.
const NUMBERS: [u8; 3] = [0, 8, 9];
/// The most runs that two images can have.
const MOST_RUNS: u32 = LONGEST as u32 / 2;

const LENGTHS: [(&str, usize); 6] = [
    ("0", 0),
    ("to 20", 20),
    ("to 4,096", 4_096),
    ("to 65,535", LONGEST - 1),
    ("65,536", LONGEST),
    ("65,537", LONGEST + 1),
];

#[derive(Debug, Default)]
pub struct Tally {
    /// By sort, by room, and by the first image's length: numbers 0, 8 and 9.
    sorts: [Counts; Sort::ALL.len()],
    rooms: [Counts; Room::ALL.len()],
    lengths: [Counts; LENGTHS.len()],
    /// Accepted calls by runs: none, one, more, the most that there can be.
    runs: [u64; 4],
}

type Counts = [u64; NUMBERS.len()];

/// The counts of those numbers that can be, which must be reached.
fn cells(counts: &Counts, can_be: impl Fn(u8) -> bool) -> Vec<Cell> {
    let pairs = NUMBERS.iter().zip(counts);
    pairs.map(|(&number, &count)| Cell::where_possible(can_be(number), count)).collect()
}

fn by_sort((sort, counts): (&Sort, &Counts)) -> (String, Vec<Cell>) {
    (sort.name().to_string(), cells(counts, |number| sort.can_have(number)))
}

fn by_room((room, counts): (&Room, &Counts)) -> (String, Vec<Cell>) {
    let enough = matches!(room, Room::Exact | Room::More);
    (format!("room: {}", room.name()), cells(counts, |number| number != 9 || !enough))
}

fn by_length((&(name, length), counts): (&(&str, usize), &Counts)) -> (String, Vec<Cell>) {
    let can_be = |number| match length {
        0 => number != 9,
        length if length > LONGEST => number == 8,
        _ => true,
    };
    (format!("first image: {name} bytes"), cells(counts, can_be))
}

impl Tally {
    /// Counts a call with its number and how many runs it said there are.
    pub fn count(&mut self, pair: &Pair, number: u8, runs: u32) {
        let Some(column) = NUMBERS.iter().position(|&one| one == number) else { return };
        self.sorts[pair.sort as usize][column] += 1;
        self.rooms[pair.room as usize][column] += 1;
        let length = LENGTHS.iter().position(|&(_, upto)| pair.a.len() <= upto);
        self.lengths[length.unwrap_or(LENGTHS.len() - 1)][column] += 1;
        if number == 0 {
            self.runs[if runs == MOST_RUNS { 3 } else { runs.min(2) as usize }] += 1;
        }
    }

    fn section(&self) -> Section {
        let sorts = Sort::ALL.iter().zip(&self.sorts).map(by_sort);
        let rooms = Room::ALL.iter().zip(&self.rooms).map(by_room);
        let lengths = LENGTHS.iter().zip(&self.lengths).map(by_length);
        let rows = sorts.chain(rooms).chain(lengths).collect();
        let columns = texts(NUMBERS);
        let mut section = Section { title: "image differences, by number", columns, rows };
        section.row("accepted with 0, 1, more, 32,768 runs", must(&self.runs));
        section
    }

    pub fn table(&self) -> String {
        table(&[self.section()])
    }

    /// What had to be reached and was not.
    pub fn lacking(&self) -> Vec<String> {
        lacking(&[self.section()])
    }
}
