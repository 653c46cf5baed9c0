//! What steps came to: their numbers, replies, reasons and answers, the letters of conditions, and
//! the bounds and sites that reads and writes met.

use crate::continues::Continues;
use crate::places::{Held, Places};
use crate::protection::Protection;
use crate::step::Step;
use crate::table::{must, texts, Cell, Section};
use crate::LETTERS;
use reference::{Reason, Stub, MESSAGE};

const KINDS: [&str; 6] = ["setup", "request", "trap", "schedule", "state", "restart"];

/// The T-messages: type byte, name, whether it is served, and the reasons that it can get, as
/// indices of [`Reason::ALL`].
const TYPES: [(u8, &str, bool, &[usize]); 11] = [
    (0, "Terr", false, &[2]),
    (2, "Tmget", true, &[1, 3, 4, 6]),
    (4, "Tmput", true, &[1, 3, 4, 6]),
    (6, "Tproc", true, &[3, 4]),
    (8, "Tstatus", true, &[3, 4]),
    (10, "Trnote", true, &[3, 4]),
    (12, "Tstop", true, &[3, 4]),
    (14, "Tstart", true, &[3, 4]),
    (16, "Tcondbreak", true, &[1, 3]),
    (18, "Tstartstop", false, &[5]),
    (22, "Tkill", false, &[5]),
];

/// The index of unsup in [`Reason::ALL`].
const UNSUP: usize = 5;

pub struct Tally {
    /// By kind, 0 a setup and 1 to 5 as in the program's format.
    numbers: [[u64; 7]; 6],
    /// Requests of number 0, by type byte: all, served, and by reason.
    types: Vec<[u64; 9]>,
    resets: u64,
    /// Stop, Pass, yes, no.
    answers: [u64; 4],
    /// Rstart with the plain bytes, and alone.
    started: [u64; 2],
    accepted: [u64; 11],
    refused: [u64; 11],
    /// Those refused with count: a full table, a 65th element, or no place left.
    full: [u64; 11],
    /// Tcondbreaks with another letter.
    other_letters: u64,
    crossed: [u64; 4],
    /// Stretches over the end of the registers, the window's beginning and end, and 2^32.
    bounds: [u64; 4],
    standing: [u64; 9],
    places: Places,
    /// Its section is for runs whose setups protect something.
    pub protection: Protection,
    /// Fed apart, in sessions only.
    pub continues: Continues,
}

impl Default for Tally {
    fn default() -> Self {
        Self {
            numbers: [[0; 7]; 6],
            types: vec![[0; 9]; 256],
            resets: 0,
            answers: [0; 4],
            started: [0; 2],
            accepted: [0; 11],
            refused: [0; 11],
            full: [0; 11],
            other_letters: 0,
            crossed: [0; 4],
            bounds: [0; 4],
            standing: [0; 9],
            places: Places::default(),
            protection: Protection::default(),
            continues: Continues::default(),
        }
    }
}

/// Four bytes, high-order first.
pub fn word(bytes: &[u8]) -> u32 {
    bytes.iter().take(4).fold(0, |sum, &byte| sum << 8 | u32::from(byte))
}

pub fn letter_index(letter: u8) -> Option<usize> {
    LETTERS.iter().position(|&one| one == letter)
}

/// The index in [`Reason::ALL`], where a reply is Rerr.
fn reason(reply: &[u8]) -> Option<usize> {
    let (&kind, text) = reply.split_first()?;
    Reason::ALL.iter().position(|reason| kind == 1 && reason.text() == *text)
}

impl Tally {
    /// Counts a step by its kind, its number and the stub that it left.
    pub fn number(&mut self, kind: usize, number: u8, stub: Option<&Stub>) {
        self.numbers[kind][usize::from(number)] += 1;
        if let Some(stub) = stub {
            self.standing[stub.table.iter().flatten().count()] += 1;
            self.places.left(stub);
        }
    }

    /// Counts a step of number 0 by its answer, as the program writes it, the places held before it
    /// and the stub that it left.
    pub fn answer(&mut self, step: &Step, answer: &[u8], before: Held, stub: &Stub) {
        self.places.take(step, answer, before, stub);
        self.protection.take(step, answer, before, stub);
        match (step, answer) {
            (Step::Request(request), _) => {
                let (reply, plain) = answer.split_at(MESSAGE);
                self.request(request, reply, stub);
                if reply[0] == 15 {
                    self.started[usize::from(plain.is_empty())] += 1;
                }
            }
            (Step::Trap { .. }, [stop_or_pass, ..]) => {
                self.answers[usize::from(*stop_or_pass) - 1] += 1;
            }
            (Step::Schedule { .. }, [yes, ..]) => self.answers[3 - usize::from(*yes)] += 1,
            (Step::Restart, _) => self.resets += u64::from(reason(answer) == Some(0)),
            _ => {}
        }
    }

    fn request(&mut self, request: &[u8], reply: &[u8], stub: &Stub) {
        let reason = reason(reply);
        let counts = &mut self.types[usize::from(request[0])];
        counts[0] += 1;
        match reason {
            Some(reason) => counts[2 + reason] += 1,
            None => counts[1] += u64::from(reply[0] == request[0].wrapping_add(1)),
        }
        match request[0] {
            2 | 4 => self.stretch(request, reply, stub),
            16 => self.operation(request[5], reason),
            _ => {}
        }
    }

    fn operation(&mut self, letter: u8, reason: Option<usize>) {
        match (letter_index(letter), reason) {
            (None, _) => self.other_letters += 1,
            (Some(i), None) => self.accepted[i] += 1,
            (Some(i), Some(reason)) => {
                self.refused[i] += 1;
                self.full[i] += u64::from(Reason::ALL[reason] == Reason::Count);
            }
        }
    }

    /// A read or a write: the bounds that it meets, and the sites that it crosses.
    fn stretch(&mut self, request: &[u8], reply: &[u8], stub: &Stub) {
        let (base, size) = (u64::from(stub.base), u64::from(stub.size));
        let start = u64::from(word(&request[1..]));
        let end = start + u64::from(request[5].min(9));
        for (count, bound) in self.bounds.iter_mut().zip([136, base, base + size, 1 << 32]) {
            *count += u64::from(start < bound && bound < end);
        }
        if reply[0] == 5 && start >= base && end > start {
            let sites = stub.table.iter().flatten().map(|entry| u64::from(entry.site));
            let crossed = sites.filter(|&site| start < site + 2 && site < end).count();
            self.crossed[crossed.min(3)] += 1;
        }
    }

    // ---- As a table. ----

    /// The eight sections, with the numbers that each kind can have; a kind with none has no row. Where
    /// setups protect something, Tmput and Tcondbreak can be unsup.
    pub fn sections(&self, possible: &[&[usize]; 6], protects: bool) -> [Section; 8] {
        let (by_number, by_answer) = (self.by_number(possible), self.by_answer());
        let (continues, by_letter) = (self.continues.section(), self.by_letter());
        let [refused, held, by_elements] = self.places.sections();
        let by_type = self.by_type(protects);
        [by_number, by_type, by_answer, continues, by_letter, refused, held, by_elements]
    }

    fn by_number(&self, possible: &[&[usize]; 6]) -> Section {
        let columns = texts(["all", "0", "1", "2", "3", "4", "5", "6"]);
        let mut section = Section { title: "steps by number", columns, rows: Vec::new() };
        for ((name, counts), possible) in KINDS.iter().zip(&self.numbers).zip(possible) {
            if !possible.is_empty() {
                let cell = |i| Cell::where_possible(possible.contains(&i), counts[i]);
                let all = Cell::Must(counts.iter().sum());
                section.row(name, [all].into_iter().chain((0..7).map(cell)).collect());
            }
        }
        section
    }

    fn by_type(&self, protects: bool) -> Section {
        let reasons = Reason::ALL.map(|one| String::from_utf8_lossy(&one.text()).replace('\0', ""));
        let columns = texts(["all", "served"]).into_iter().chain(reasons).collect();
        let title = "requests of number 0, by type and reason";
        let mut section = Section { title, columns, rows: Vec::new() };
        let cells = |counts: &[u64; 9], served: bool, reasons: &[usize]| {
            let reached = |i| i == 0 || (i == 1 && served) || (i > 1 && reasons.contains(&(i - 2)));
            (0..9).map(|i| Cell::where_possible(reached(i), counts[i])).collect()
        };
        for (kind, name, served, reasons) in TYPES {
            let unsup = (protects && matches!(kind, 4 | 16)).then_some(UNSUP);
            let reasons: Vec<usize> = reasons.iter().copied().chain(unsup).collect();
            section.row(name, cells(&self.types[usize::from(kind)], served, &reasons));
        }
        let rest = (0..=255u8).filter(|kind| TYPES.iter().all(|one| one.0 != *kind));
        let rest: Vec<_> = rest.map(|kind| self.types[usize::from(kind)]).collect();
        let sum =
            rest.iter().fold([0; 9], |sum: [u64; 9], one| std::array::from_fn(|i| sum[i] + one[i]));
        section.row(format!("{} other types", rest.len()), cells(&sum, false, &[2]));
        let fewest = rest.iter().map(|counts| counts[0]).min().unwrap_or(0);
        section.row("the rarest of these", must(&[fewest]));
        let resets = Cell::Must(self.resets);
        section.row("restart", vec![resets, Cell::None, resets]);
        section
    }

    fn by_answer(&self) -> Section {
        let title = "answers, writes, breakpoints";
        let mut section = Section { title, columns: Vec::new(), rows: Vec::new() };
        section.row("trap: Stop, Pass", must(&self.answers[..2]));
        let second_stops = self.continues.second_stops;
        section.row("trap: a second Stop at the same breakpoint", must(&[second_stops]));
        section.row("schedule: yes, no", must(&self.answers[2..]));
        section.row("Tstart: with the plain bytes, reply alone", must(&self.started));
        section.row("writes that cross 0 to 3 sites", must(&self.crossed));
        section.row("steps with 0 to 8 breakpoints", must(&self.standing));
        section.row("stretches over 136, B, B + M, 2^32", must(&self.bounds));
        section
    }

    fn by_letter(&self) -> Section {
        let columns = texts(LETTERS.map(char::from));
        let mut section = Section { title: "conditions, by letter", columns, rows: Vec::new() };
        section.row("accepted", must(&self.accepted));
        section.row("refused", must(&self.refused));
        section.row("refused with count", letters_but(b"bd", &self.full));
        section.row("refused with another letter", must(&[self.other_letters]));
        section
    }
}

/// Counts by letter; some letters cannot be reached.
pub fn letters_but(left_out: &[u8], counts: &[u64; 11]) -> Vec<Cell> {
    let cell = |(letter, &count)| Cell::where_possible(!left_out.contains(letter), count);
    LETTERS.iter().zip(counts).map(cell).collect()
}
