//! What a run of patches reached.

use super::make::{Fault, Images, Made, Offer, Room};
use reference::patch::Judged;
use steps::table::{lacking, must, table, texts, Cell, Section};

/// What checking can come to: a number, or with number 0 a verdict.
const CHECKED: [&str; 6] = ["accepted", "bound", "differ", "2", "3", "16"];
const PLANNED: [&str; 6] = ["0", "2", "3", "16", "21", "17"];

type Counts = [u64; 6];

#[derive(Debug, Default)]
pub struct Tally {
    offers: [Counts; Offer::ALL.len()],
    checked: [Counts; Fault::ALL.len()],
    images: [Counts; Images::ALL.len()],
    rooms: [Counts; Room::ALL.len()],
    planned: [Counts; Fault::ALL.len()],
    /// Plans of no write, one, more, and of 16,384.
    writes: [u64; 4],
}

impl Tally {
    pub fn checked(&mut self, made: &Made, number: u8, judged: Judged) {
        let column = match (number, judged) {
            (0, Judged::Accepted) => 0,
            (0, Judged::Bound(_)) => 1,
            (0, Judged::Differ) => 2,
            (2, _) => 3,
            (3, _) => 4,
            _ => 5,
        };
        self.offers[made.offered as usize][column] += 1;
        self.checked[made.fault as usize][column] += 1;
    }

    pub fn planned(&mut self, made: &Made, number: u8, writes: u32) {
        let column = PLANNED.iter().position(|name| *name == number.to_string()).unwrap_or(0);
        self.images[made.images as usize][column] += 1;
        self.rooms[made.places as usize][column] += 1;
        self.planned[made.fault as usize][column] += 1;
        if number == 0 {
            self.writes[if writes == 16_384 { 3 } else { writes.min(2) as usize }] += 1;
        }
    }

    fn sections(&self) -> [Section; 2] {
        let mut checked =
            Section { title: "patches checked", columns: texts(CHECKED), rows: Vec::new() };
        for ((offer, name), counts) in Offer::ALL.iter().zip(&self.offers) {
            let reached = verdicts(*offer);
            checked
                .row(format!("offer: {name}"), cells(counts, |i| reached.contains(&i), |i| i < 3));
        }
        for ((fault, name), counts) in Fault::ALL.iter().zip(&self.checked) {
            let reached = |i: usize| match fault.number() {
                0 => i < 3 || i == 5,
                number => usize::from(number) + 1 == i,
            };
            checked.row(*name, cells(counts, reached, |_| true));
        }
        let columns = texts(PLANNED);
        let mut planned =
            Section { title: "patches planned, by number", columns, rows: Vec::new() };
        for ((images, name), counts) in Images::ALL.iter().zip(&self.images) {
            let reached = numbers(*images);
            planned.row(
                format!("images: {name}"),
                cells(counts, |i| reached.contains(&i), |i| i % 3 == 0 || i > 3),
            );
        }
        for ((room, name), counts) in Room::ALL.iter().zip(&self.rooms) {
            let enough = matches!(room, Room::Exact | Room::More);
            let reached = |i: usize| match i {
                0 => *room != Room::OneShort,
                5 => !enough,
                _ => false,
            };
            planned.row(format!("list: {name}"), cells(counts, reached, |i| i == 0 || i == 5));
        }
        for ((fault, name), counts) in Fault::ALL.iter().zip(&self.planned) {
            let reached = |i: usize| match fault.number() {
                0 => i == 0 || i > 2,
                number => usize::from(number) == i + 1,
            };
            planned.row(*name, cells(counts, reached, |_| true));
        }
        planned.row("accepted with 0, 1, more, 16,384 writes", must(&self.writes));
        [checked, planned]
    }

    pub fn table(&self) -> String {
        table(&self.sections())
    }

    /// What had to be reached and was not, and what was and must not be.
    pub fn lacking(&self) -> Vec<String> {
        lacking(&self.sections())
    }
}

/// Counts that must be reached, those of the rest that must not be, and others.
fn cells(
    counts: &Counts,
    reached: impl Fn(usize) -> bool,
    decided: impl Fn(usize) -> bool,
) -> Vec<Cell> {
    let cell = |(i, &count)| match (reached(i), decided(i)) {
        (true, _) => Cell::Must(count),
        (false, true) => Cell::Never(count),
        (false, false) => Cell::May(count),
    };
    counts.iter().enumerate().map(cell).collect()
}

/// The columns that an offer of this sort reaches, faults and sizes aside.
fn verdicts(offer: Offer) -> &'static [usize] {
    match offer {
        // A protected byte may differ.
        Offer::Plan | Offer::Longer | Offer::InOrder | Offer::Most => &[0, 2],
        Offer::OutOfOrder | Offer::Dropped => &[2],
        Offer::TooMany => &[5],
        Offer::Any => &[0, 1, 2],
        _ => &[1],
    }
}

/// The columns that such images reach in a plan, faults aside.
fn numbers(images: Images) -> &'static [usize] {
    match images {
        Images::Equal => &[0],
        Images::Protected => &[4],
        Images::Shorter | Images::Longer => &[3],
        _ => &[0, 5],
    }
}
