//! How the protected stretch was met: by writes and reads, and by b.

use crate::places::Held;
use crate::step::Step;
use crate::table::{texts, Cell, Section};
use crate::tally::word;
use reference::{Protected, Reason, Stub, MESSAGE, TRAP};

/// What a request was answered.
#[derive(Debug, Clone, Copy, PartialEq, Eq)]
enum Answer {
    Served,
    Unsup,
    Inval,
    Count,
}

use Answer::{Count, Inval, Served, Unsup};

const ANSWERS: [(&str, Answer); 4] =
    [("served", Served), ("unsup", Unsup), ("inval", Inval), ("count", Count)];

/// A Tmput, a Tmget or a b, the stretch, and what there was before it.
#[derive(Debug, Clone, Copy)]
struct Met {
    /// The stretch, and the window.
    from: u64,
    to: u64,
    base: u64,
    end: u64,
    /// The bytes that the request names.
    first: u64,
    behind: u64,
    /// Whether it has a count that is too large, or an unused byte that is not zero.
    over: bool,
    unsound: bool,
    answer: Answer,
    /// The depth of the condition in hand, if there is one, and whether the site has a breakpoint.
    depth: Option<usize>,
    taken: bool,
}

impl Met {
    fn protects(&self) -> bool {
        self.from < self.to
    }

    /// Bytes that pass the tests of count and unused bytes, wherever they are.
    fn sound(&self) -> bool {
        !self.over && !self.unsound && self.first < self.behind
    }

    /// Such bytes of the window.
    fn bytes(&self) -> bool {
        self.sound() && !self.leaves_window()
    }

    fn touches(&self) -> bool {
        self.first < self.to && self.from < self.behind
    }

    fn begins_in_it(&self) -> bool {
        (self.from..self.to).contains(&self.first)
    }

    fn even(&self) -> bool {
        self.first.is_multiple_of(2)
    }

    fn leaves_window(&self) -> bool {
        self.first < self.base || self.behind > self.end
    }
}

/// What is said of a request, whether it is so, and what it must be answered.
type Row = (&'static str, fn(&Met) -> bool, Answer);

const WRITES: [Row; 14] = [
    ("write: ends just before it", |m| m.protects() && m.bytes() && m.behind == m.from, Served),
    (
        "write: reaches in by a byte",
        |m| m.protects() && m.bytes() && m.first < m.from && m.behind == m.from + 1,
        Unsup,
    ),
    (
        "write: reaches in by more",
        |m| m.protects() && m.bytes() && m.first < m.from && m.behind > m.from + 1,
        Unsup,
    ),
    ("write: within it", |m| m.bytes() && m.from <= m.first && m.behind <= m.to, Unsup),
    (
        "write: a whole stretch of four",
        |m| m.bytes() && (m.first, m.behind) == (m.from, m.to),
        Unsup,
    ),
    (
        "write: its last byte and behind it",
        |m| m.protects() && m.bytes() && m.first + 1 == m.to && m.behind > m.to,
        Unsup,
    ),
    (
        "write: more of its end and behind it",
        |m| m.bytes() && m.begins_in_it() && m.first + 1 < m.to && m.behind > m.to,
        Unsup,
    ),
    ("write: begins just behind it", |m| m.protects() && m.bytes() && m.first == m.to, Served),
    (
        "write: across an empty one",
        |m| !m.protects() && m.bytes() && m.first < m.from && m.from < m.behind,
        Served,
    ),
    (
        "write: of no byte, in it",
        |m| !m.over && !m.unsound && m.begins_in_it() && m.first == m.behind,
        Served,
    ),
    ("write: a count over 4, in it", |m| m.over && m.begins_in_it(), Count),
    ("write: an unused byte not zero, in it", |m| !m.over && m.unsound && m.begins_in_it(), Inval),
    (
        "write: over the window's end, in it",
        |m| m.sound() && m.touches() && m.protects() && m.behind > m.end,
        Inval,
    ),
    (
        "write: over the window's beginning, in it",
        |m| m.sound() && m.touches() && m.protects() && m.first < m.base,
        Inval,
    ),
];

const READS: [Row; 2] = [
    ("read: touches it", |m| m.protects() && m.bytes() && m.touches(), Served),
    (
        "read: all of it",
        |m| m.protects() && m.bytes() && m.first <= m.from && m.to <= m.behind,
        Served,
    ),
];

const BREAKS: [Row; 11] = [
    ("b: just before it", |m| m.whole() && m.protects() && m.behind == m.from, Served),
    ("b: at its first bytes", |m| m.whole() && m.begins_in_it() && m.first == m.from, Unsup),
    (
        "b: within it",
        |m| m.whole() && m.begins_in_it() && m.first > m.from && m.behind < m.to,
        Unsup,
    ),
    ("b: at its last bytes", |m| m.whole() && m.begins_in_it() && m.behind == m.to, Unsup),
    ("b: just behind it", |m| m.whole() && m.protects() && m.first == m.to, Served),
    (
        "b: beside an empty one",
        |m| m.whole() && !m.protects() && [m.first, m.behind].contains(&m.from),
        Served,
    ),
    (
        "b: in it, depth not 1",
        |m| m.depth.is_some_and(|depth| depth != 1) && m.even() && m.begins_in_it(),
        Unsup,
    ),
    ("b: in it, nothing in hand", |m| m.depth.is_none() && m.even() && m.begins_in_it(), Inval),
    ("b: in it, odd", |m| m.depth.is_some() && !m.even() && m.begins_in_it(), Inval),
    (
        "b: taken, beside it",
        |m| m.depth == Some(1) && m.even() && m.taken && m.protects() && m.is_beside(),
        Inval,
    ),
    (
        "b: outside, beside it",
        |m| m.depth == Some(1) && m.even() && m.protects() && m.leaves_window() && m.is_beside(),
        Inval,
    ),
];

impl Met {
    /// A condition in hand that b may end, at an even site of the window that is free.
    fn whole(&self) -> bool {
        self.depth == Some(1) && self.even() && !self.taken && !self.leaves_window()
    }

    /// The bytes are next to the stretch.
    fn is_beside(&self) -> bool {
        self.behind == self.from || self.first == self.to
    }
}

#[derive(Debug, Default)]
pub struct Protection {
    writes: [[u64; ANSWERS.len()]; WRITES.len()],
    reads: [[u64; ANSWERS.len()]; READS.len()],
    breaks: [[u64; ANSWERS.len()]; BREAKS.len()],
}

impl Protection {
    /// Counts a request of number 0 by its reply, what conditions held before it, and the stub that
    /// it left. No step changes the stretch.
    pub(crate) fn take(&mut self, step: &Step, reply: &[u8], before: Held, stub: &Stub) {
        let Step::Request(request) = step else { return };
        let (rows, counts): (&[Row], &mut [_]) = match (request[0], &request[5..]) {
            (4, _) => (&WRITES, &mut self.writes),
            (2, _) => (&READS, &mut self.reads),
            (16, [b'b', 0, 0, 0, 0]) => (&BREAKS, &mut self.breaks),
            _ => return,
        };
        let Some(met) = met(request, reply, before, stub) else { return };
        for ((_, holds, _), counts) in rows.iter().zip(counts) {
            if holds(&met) {
                counts[ANSWERS.iter().position(|&(_, one)| one == met.answer).unwrap_or(0)] += 1;
            }
        }
    }

    /// Each row has one answer, which must be reached, and no other can be.
    pub fn section(&self) -> Section {
        let columns = texts(ANSWERS.map(|(name, _)| name));
        let title = "requests that meet the protected stretch";
        let mut section = Section { title, columns, rows: Vec::new() };
        let rows = WRITES.iter().zip(&self.writes);
        let rows = rows.chain(READS.iter().zip(&self.reads)).chain(BREAKS.iter().zip(&self.breaks));
        for (&(name, _, answer), counts) in rows {
            let cells = ANSWERS.iter().zip(counts).map(|(&(_, one), &count)| {
                if one == answer {
                    Cell::Must(count)
                } else {
                    Cell::Never(count)
                }
            });
            section.row(name, cells.collect());
        }
        section
    }
}

/// What a request met; none where its answer is one of registers.
fn met(request: &[u8; MESSAGE], reply: &[u8], before: Held, stub: &Stub) -> Option<Met> {
    let Protected { offset, length } = stub.protected;
    let (base, first) = (u64::from(stub.base), u64::from(word(&request[1..])));
    let from = base + u64::from(offset);
    let (most, n) = match request[0] {
        2 => (9, request[5]),
        4 => (4, request[5]),
        _ => (2, TRAP.len() as u8),
    };
    let used = if request[0] == 4 { usize::from(n.min(4)) } else { 0 };
    let answer = match (reply[0], Reason::ALL.iter().find(|one| one.text() == reply[1..MESSAGE])) {
        (1, Some(Reason::Unsup)) => Unsup,
        (1, Some(Reason::Inval)) => Inval,
        (1, Some(Reason::Count)) => Count,
        (1, _) => return None,
        _ => Served,
    };
    let site = stub.at_site(first as u32);
    Some(Met {
        from,
        to: from + u64::from(length),
        base,
        end: base + u64::from(stub.size),
        first,
        behind: first + u64::from(n.min(most)),
        over: n > most,
        unsound: request[0] != 16 && request[6 + used..].iter().any(|&byte| byte != 0),
        answer,
        depth: before.depth,
        // An accepted b has just set one there.
        taken: site.is_some() && answer != Served,
    })
}
