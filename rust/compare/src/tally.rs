//! What a run reached: what steps came to, and what is this comparison's own.

use crate::make::setup::RULES;
use crate::make::sorts::{Expect, SORTS};
use crate::op::{Call, Kind, Op, Origin};
use crate::pair::{Pair, Seen};
use crate::text_steps::TextSteps;
use reference::{read_text, BLOCK, PC};
use std::ops::Range;
use steps::places::Held;
use steps::table::{lacking, must, table, texts, Cell, Section};
use steps::tally::{letter_index, letters_but, word};

const BUFFERS: [&str; 5] = ["memory", "registers", "request", "reply", "block"];
const WINDOWS: [(&str, u32); 5] =
    [("4", 4), ("to 64", 64), ("to 4,096", 4_096), ("to 65,532", 65_532), ("65,536", 65_536)];
/// A stretch of an accepted setup: what is said of it, and whether it is so of B, from, to and B + M.
type Named = (&'static str, fn([u64; 4]) -> bool);
const STRETCHES: [Named; 12] = [
    ("empty, at B", |[base, from, to, _]| from == to && from == base),
    ("empty, within", |[base, from, to, end]| from == to && base < from && to < end),
    ("empty, at B + M", |[_, from, to, end]| from == to && to == end),
    ("empty, at 2^32", |[_, from, to, _]| from == to && to == 1 << 32),
    ("a word, at B", |[base, from, to, end]| from == base && to == from + 4 && to < end),
    ("a word, within", |[base, from, to, end]| base < from && to == from + 4 && to < end),
    ("a word, up to B + M", |[base, from, to, end]| base < from && to == from + 4 && to == end),
    ("a word, up to 2^32", |[_, from, to, _]| to == from + 4 && to == 1 << 32),
    ("more, at B", |[base, from, to, end]| from == base && to > from + 4 && to < end),
    ("more, within", |[base, from, to, end]| base < from && to > from + 4 && to < end),
    ("more, up to B + M", |[base, from, to, end]| base < from && to > from + 4 && to == end),
    ("the whole window", |[base, from, to, end]| from == base && to == end),
];
/// The numbers that each kind can have.
const NUMBERS: [&[usize]; 6] =
    [&[0, 1, 2], &[0, 2, 3], &[0, 2, 3, 4, 5, 6], &[0, 2, 3, 4], &[0, 2, 3, 4, 5], &[0, 2, 3]];

pub struct Tally {
    steps: steps::tally::Tally,
    texts: TextSteps,
    /// Letters that were evaluated in a trap, and `*` that read outside the window.
    evaluated: [u64; 11],
    read_outside: u64,
    rules: [u64; RULES.len()],
    /// By buffer: none, one less, one more, another size.
    sizes: [[u64; 4]; 5],
    /// By sort: fit, number 2, number 3.
    sorts: [[u64; 3]; SORTS.len()],
    /// Accepted setups by window, by processes, and those whose window ends at 2^32.
    windows: [u64; WINDOWS.len()],
    processes: [u64; 4],
    at_top: u64,
    stretches: [u64; STRETCHES.len()],
    outside: u64,
    areas: u64,
    /// The last record's broken rule.
    rule: Option<usize>,
}

impl Default for Tally {
    fn default() -> Self {
        Self {
            steps: steps::tally::Tally::default(),
            texts: TextSteps::default(),
            evaluated: [0; 11],
            read_outside: 0,
            rules: [0; RULES.len()],
            sizes: [[0; 4]; 5],
            sorts: [[0; 3]; SORTS.len()],
            windows: [0; WINDOWS.len()],
            processes: [0; 4],
            at_top: 0,
            stretches: [0; STRETCHES.len()],
            outside: 0,
            areas: 0,
            rule: None,
        }
    }
}

impl Tally {
    /// Counts an op that was run on the pair.
    pub fn count(&mut self, op: &Op, seen: &Seen, pair: &Pair) {
        match (op, seen) {
            (Op::Registers(_), _) => self.areas += 1,
            (Op::Outside { .. }, _) => self.outside += 1,
            (Op::Record(_, Origin::Damaged(sort)), Seen::Judged(number)) => {
                self.sorts[*sort][usize::from(number.saturating_sub(1))] += 1;
            }
            (Op::Record(_, Origin::Setup(rule)), _) => self.rule = *rule,
            (Op::Step(call), Seen::Step { size, count, places }) => {
                self.step(call, (*size, *count), *places, pair);
            }
            _ => {}
        }
    }

    /// `before` is the record's M and count of processes before the step, `places` what was held.
    fn step(&mut self, call: &Call, before: (u32, u32), places: Held, pair: &Pair) {
        let answer = pair.answer();
        let stub = pair.scene().map(|scene| scene.stub);
        if call.kind == Kind::Text {
            self.texts.count(call, answer.number(), answer.text(), stub);
        } else {
            self.steps.number(call.kind as usize, answer.number(), stub);
        }
        match (call.kind, answer.number()) {
            (_, 2) => self.wrong_sizes(call, before, pair),
            (Kind::Text, 0) => self.text(call, pair),
            (Kind::Setup, 0) => self.session(call, before, pair),
            (Kind::Setup, _) => self.refused_setup(),
            (_, 0) => self.accepted(call, places, pair),
            _ => {}
        }
    }

    fn accepted(&mut self, call: &Call, places: Held, pair: &Pair) {
        if let Some((step, scene)) = call.step().zip(pair.scene()) {
            let answer = pair.answer().written(call.kind);
            self.steps.answer(&step, &answer, places, scene.stub);
            if pair.book().is_some() {
                self.steps.continues.take(&step, &answer, scene.stub, scene.registers);
            }
        }
        if call.kind == Kind::Trap {
            self.trap(call, pair);
        }
    }

    /// A text step that wrote a saved pc is why a later Tstart finds it.
    fn text(&mut self, call: &Call, pair: &Pair) {
        let writes = read_text(&call.input).is_ok_and(|one| (one.letter, one.third) == (b'R', 33));
        let done = writes && !pair.answer().is_text_error(call.kind);
        if let Some(scene) = pair.scene().filter(|_| done && pair.book().is_some()) {
            self.steps.continues.take_text(scene.stub, scene.registers);
        }
    }

    fn session(&mut self, call: &Call, (size, count): (u32, u32), pair: &Pair) {
        self.steps.continues.begin();
        let row = WINDOWS.iter().position(|&(_, upto)| size <= upto).unwrap_or(0);
        self.windows[row] += 1;
        self.processes[count as usize - 1] += 1;
        let base = pair.scene().map_or(0, |scene| scene.stub.base);
        self.at_top += u64::from(base.wrapping_add(size) == 0);
        let (base, Range { start, end }) = (u64::from(base), call.protected.clone());
        for (count, (_, holds)) in self.stretches.iter_mut().zip(STRETCHES) {
            *count += u64::from(holds([base, start, end, base + u64::from(size)]));
        }
    }

    fn refused_setup(&mut self) {
        if let Some(rule) = self.rule.take() {
            self.rules[rule] += 1;
        }
    }

    /// The letters that were evaluated are the book's to say; a trap changes nothing that it reads.
    fn trap(&mut self, call: &Call, pair: &Pair) {
        let pc = word(&call.input[PC..]);
        let Some(done) = pair.book().and_then(|book| book.evaluated(call.pid, pc)) else { return };
        for letter in done.elements.iter().filter_map(|one| letter_index(one.0)) {
            self.evaluated[letter] += 1;
        }
        self.read_outside += u64::from(done.outside);
    }

    fn wrong_sizes(&mut self, call: &Call, (size, count): (u32, u32), pair: &Pair) {
        let (memory, registers) = pair.lengths();
        let area = BLOCK as u64 * u64::from(count);
        let (input, reply) = (call.input.len() as u64, call.reply as u64);
        let block = matches!(call.kind, Kind::Trap | Kind::Schedule);
        let right = |length: Option<usize>, own: u64| length.map_or(own, |length| length as u64);
        let pairs = [
            (right(call.memory, memory), u64::from(size)),
            (right(call.registers, registers), area),
            (input, if call.kind == Kind::Request { 10 } else { input }),
            (reply, right(call.kind.reply(), reply)),
            (input, if block { BLOCK as u64 } else { input }),
        ];
        for (counts, (length, right)) in self.sizes.iter_mut().zip(pairs) {
            if length != right {
                let near = [0, right.wrapping_sub(1), right.wrapping_add(1)];
                counts[near.iter().position(|&one| one == length).unwrap_or(3)] += 1;
            }
        }
    }

    // ---- As a table. ----

    fn sections(&self) -> Vec<Section> {
        let sections = self.steps.sections(&NUMBERS, true);
        let [mut by_number, by_type, by_answer, mut by_pc, mut by_letter, refused, held, by_elements] =
            sections;
        by_number.row("outside change", must(&[self.outside]));
        by_number.row("register area replaced", must(&[self.areas]));
        by_pc.row("Stopped, the pc written by R", must(&self.steps.continues.written_by_text()));
        by_pc.row("Stopped, the register area replaced", must(&self.steps.continues.replaced()));
        by_letter.row("evaluated in a trap", letters_but(b"nbd", &self.evaluated));
        by_letter.row("* outside the window", must(&[self.read_outside]));
        let mut sections =
            vec![by_number, by_type, by_answer, by_pc, by_letter, refused, held, by_elements];
        sections.push(self.steps.protection.section());
        sections.extend(self.texts.sections());
        sections.extend([self.by_window(), self.by_stretch()]);
        sections.extend([self.by_rule(), self.by_size(), self.by_sort()]);
        sections
    }

    fn by_window(&self) -> Section {
        let (mut columns, mut counts) = (Vec::new(), Vec::new());
        for ((name, _), count) in WINDOWS.iter().zip(self.windows) {
            columns.push((*name).to_string());
            counts.push(Cell::Must(count));
        }
        let rows = vec![
            ("by M".to_string(), counts),
            ("with 1 to 4 processes".to_string(), must(&self.processes)),
            ("B + M is 2^32".to_string(), must(&[self.at_top])),
        ];
        Section { title: "accepted setups", columns, rows }
    }

    fn by_stretch(&self) -> Section {
        let rows = STRETCHES.iter().zip(self.stretches);
        let rows = rows.map(|((name, _), count)| (name.to_string(), must(&[count]))).collect();
        Section { title: "accepted setups, by the protected stretch", columns: Vec::new(), rows }
    }

    fn by_rule(&self) -> Section {
        let rows = RULES.iter().zip(self.rules);
        let rows = rows.map(|(rule, count)| (rule.name.to_string(), must(&[count]))).collect();
        Section { title: "setups refused, by the rule broken", columns: Vec::new(), rows }
    }

    fn by_size(&self) -> Section {
        let rows = BUFFERS.iter().zip(&self.sizes);
        let rows = rows.map(|(name, counts)| (name.to_string(), must(counts))).collect();
        let columns = texts(["none", "one less", "one more", "another"]);
        Section { title: "buffers of wrong size (number 2)", columns, rows }
    }

    fn by_sort(&self) -> Section {
        let cells = |expect: Expect, [fit, size, unfit]: [u64; 3]| match expect {
            Expect::Fit => vec![Cell::Must(fit), Cell::None, Cell::None],
            Expect::Size => vec![Cell::None, Cell::Must(size), Cell::None],
            Expect::Unfit => vec![Cell::None, Cell::None, Cell::Must(unfit)],
            Expect::Any(reached) => [(0, fit), (2, size), (3, unfit)]
                .map(|(number, count)| match reached.contains(&number) {
                    true => Cell::Must(count),
                    false => Cell::May(count),
                })
                .into(),
        };
        let rows = SORTS.iter().zip(self.sorts);
        let rows = rows.map(|(sort, counts)| (sort.name.to_string(), cells(sort.expect, counts)));
        let columns = texts(["fit", "number 2", "number 3"]);
        Section { title: "spoiled records, by sort of damage", columns, rows: rows.collect() }
    }

    pub fn table(&self) -> String {
        table(&self.sections())
    }

    /// What had to be reached and was not.
    pub fn lacking(&self) -> Vec<String> {
        lacking(&self.sections())
    }
}
