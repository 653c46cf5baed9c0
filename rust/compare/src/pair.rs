//! The two sides, with what both are lent. After every step, not at the end of a session only,
//! these are compared, each whole and however large:
//!
//! - the number and the answer (all 32 bits of the result, of a request too) and the reply buffer;
//! - memory and register area as they were lent to that step;
//! - the record: what it shows of the window, the processes, the current one, the breakpoints and
//!   the condition in hand, both with their elements (see [`shows`]); a record that cannot be fit,
//!   field by field;
//! - the input, which is only read;
//! - after a number other than 0, that nothing changed: no byte of the record, of memory, registers
//!   or reply (a setup changes no buffer at all, and a refused one empties the record);
//! - after Rerr, that memory, registers and all of the record but the condition in hand and the
//!   places that no breakpoint holds are as before; after a text step with ERRFLG -1, that all of the
//!   record is, the condition in hand and every place too;
//! - in a session, the claims of the book of demand 3, that no step changed a protected byte among
//!   them, that the record has what the book has, and that it holds as many places as the history says.
//!
//! Windows of many bytes are rare ([`crate::make::setup`]), so comparing all of them each time is
//! cheap.

use crate::archive::{Lent, Stub};
use crate::book::{feed, feed_places, places_are_held, record_has};
use crate::difference::{lines, Difference};
use crate::independent::Held;
use crate::make::setup::RULES;
use crate::make::sorts::SORTS;
use crate::make::Scene;
use crate::op::{Call, Kind, Op, Origin};
use crate::raw::{held, shows};
use crate::record::Record;
use reference::{Book, Claim, Places};
use sanirvoq::ffi;
use steps::places::Held as HeldPlaces;

/// Memory and register area of one side.
#[derive(Debug, Clone, Default, PartialEq, Eq)]
pub struct Buffers {
    pub memory: Vec<u8>,
    pub registers: Vec<u8>,
}

impl Buffers {
    /// Copies that one step alone is lent. They have no room past their length, so that valgrind
    /// sees a read there.
    fn cut(&self, call: &Call) -> Self {
        let cut = |bytes: &[u8], length: Option<usize>| {
            let length = length.unwrap_or(bytes.len());
            let mut copy = Vec::with_capacity(length);
            copy.extend_from_slice(&bytes[..bytes.len().min(length)]);
            copy.resize(length, 0);
            copy
        };
        let memory = cut(&self.memory, call.memory);
        Self { memory, registers: cut(&self.registers, call.registers) }
    }

    /// Takes over what another holds, in the room that is there.
    fn copy(&mut self, other: &Self) {
        self.memory.clone_from(&other.memory);
        self.registers.clone_from(&other.registers);
    }
}

/// What one side gave to a step.
#[derive(Debug, Clone, Default, PartialEq, Eq)]
pub struct Answer {
    /// Number, then the three bytes of the answer.
    pub result: [u8; 4],
    pub reply: Vec<u8>,
}

impl Answer {
    pub fn number(&self) -> u8 {
        self.result[0]
    }

    /// What the program writes of it behind number 0.
    pub fn written(&self, kind: Kind) -> Vec<u8> {
        let answer = &self.result[1..];
        match kind {
            Kind::Request if answer[0] == 2 => [&self.reply, answer].concat(),
            Kind::Request | Kind::Restart => self.reply.clone(),
            _ => answer.to_vec(),
        }
    }

    /// The text that a text step of number 0 replied.
    pub fn text(&self) -> &[u8] {
        self.reply.get(..usize::from(self.result[2])).unwrap_or_default()
    }

    /// Whether a request was answered with Rerr.
    pub fn is_rerr(&self, kind: Kind) -> bool {
        kind == Kind::Request && self.number() == 0 && self.reply.first() == Some(&1)
    }

    /// Whether a text step was answered with ERRFLG -1.
    pub fn is_text_error(&self, kind: Kind) -> bool {
        kind == Kind::Text && self.number() == 0 && self.result[1] == 1
    }
}

/// What running an op showed.
pub enum Seen {
    Nothing,
    /// A damaged record, and the number that it gives to steps of right size: 0, 2 or 3.
    Judged(u8),
    /// A step, with the M and the count of processes in the record before it, and the places held
    /// then where the independent stub holds the record. Its answer is [`Pair::answer`].
    Step {
        size: u32,
        count: u32,
        places: HeldPlaces,
    },
}

/// Puts bytes into a buffer that has no room past its length, so that valgrind sees a read there.
fn refill(buffer: &mut Vec<u8>, bytes: impl ExactSizeIterator<Item = u8>) {
    if buffer.capacity() != bytes.len() {
        *buffer = Vec::with_capacity(bytes.len());
    }
    buffer.clear();
    buffer.extend(bytes);
}

pub struct Pair {
    stub: Stub,
    record: Box<Record>,
    proved: Buffers,
    held: Held,
    independent: Buffers,
    /// Kept from an accepted setup until something is done that a session has not.
    book: Option<Book>,
    /// Of the same session as the book.
    places: Places,
    /// Of the record, while no step has changed it.
    origin: Origin,
    record_before: Box<Record>,
    before: Buffers,
    /// The input that the proved side was lent.
    input: Vec<u8>,
    /// What the proved side gave to the last step.
    answer: Answer,
    /// What the independent side gave to it.
    expected: Answer,
}

impl Pair {
    pub fn new(stub: Stub) -> Self {
        let record = Box::new(Record::zeroed());
        Self {
            stub,
            held: Held::new(&record),
            record_before: record.clone(),
            record,
            proved: Buffers::default(),
            independent: Buffers::default(),
            book: None,
            places: Places::new(),
            origin: Origin::Restored,
            before: Buffers::default(),
            input: Vec::new(),
            answer: Answer::default(),
            expected: Answer::default(),
        }
    }

    pub fn book(&self) -> Option<&Book> {
        self.book.as_ref()
    }

    pub fn record(&self) -> &Record {
        &self.record
    }

    /// What both sides gave to the last step.
    pub fn answer(&self) -> &Answer {
        &self.answer
    }

    /// The lengths of memory and register area.
    pub fn lengths(&self) -> (u64, u64) {
        (self.proved.memory.len() as u64, self.proved.registers.len() as u64)
    }

    /// What there is to aim at, where the record is one that the independent stub holds.
    pub fn scene(&self) -> Option<Scene<'_>> {
        let Buffers { memory, registers } = &self.proved;
        self.held.stub().map(|stub| Scene { stub, record: &self.record, memory, registers })
    }

    pub fn run(&mut self, op: &Op) -> Result<Seen, Box<Difference>> {
        match op {
            Op::Memory(bytes) => {
                self.book = None;
                self.proved.memory = bytes.clone();
                self.independent.memory = bytes.clone();
            }
            Op::Registers(bytes) => {
                self.proved.registers = bytes.clone();
                self.independent.registers = bytes.clone();
            }
            Op::Record(record, origin) => return self.hand_over(record, *origin),
            Op::Outside { at, byte } => self.outside(*at, *byte),
            Op::Step(call) => return self.step(call),
        }
        Ok(Seen::Nothing)
    }

    fn hand_over(&mut self, record: &Record, origin: Origin) -> Result<Seen, Box<Difference>> {
        *self.record = record.clone();
        self.held = Held::new(record);
        self.book = None;
        self.origin = origin;
        let Origin::Damaged(sort) = origin else { return Ok(Seen::Nothing) };
        let number = self.held.number(&self.independent.memory, &self.independent.registers);
        if SORTS[sort].expect.allows(number) {
            Ok(Seen::Judged(number))
        } else {
            let what = format!("damage '{}' is judged {number}", SORTS[sort].name);
            Err(self.difference(what, false))
        }
    }

    /// A change under a trap spoils the record, which no session has.
    fn outside(&mut self, at: usize, byte: u8) {
        if at >= self.proved.memory.len() {
            return;
        }
        self.proved.memory[at] = byte;
        self.independent.memory[at] = byte;
        match &mut self.book {
            Some(book) if !book.under_trap(at) => book.outside(at, byte),
            _ => self.book = None,
        }
    }

    fn step(&mut self, call: &Call) -> Result<Seen, Box<Difference>> {
        if call.memory.is_none() && call.registers.is_none() {
            return self.exchange(call);
        }
        let (proved, independent) = (self.proved.cut(call), self.independent.cut(call));
        let kept = std::mem::replace(&mut self.proved, proved);
        let kept_too = std::mem::replace(&mut self.independent, independent);
        let seen = self.exchange(call);
        (self.proved, self.independent) = (kept, kept_too);
        seen
    }

    /// Runs the step on both sides and compares.
    fn exchange(&mut self, call: &Call) -> Result<Seen, Box<Difference>> {
        self.record_before.clone_from(&self.record);
        self.before.copy(&self.proved);
        let places = self.held.stub().map(HeldPlaces::of).unwrap_or_default();
        self.proved_step(call);
        self.independent_step(call);
        let fault = self
            .fault()
            .or_else(|| (self.input != call.input).then_some("the input was changed"))
            .or_else(|| self.changed(call))
            .or_else(|| self.keep_book(call).err())
            .map(str::to_string)
            .or_else(|| self.against_origin(call));
        if let Some(what) = fault {
            return Err(self.difference(what, true));
        }
        if call.kind == Kind::Setup || self.answer.number() == 0 {
            self.origin = Origin::Restored;
        }
        let &ffi::Target { size, count, .. } = self.record_before.target();
        Ok(Seen::Step { size, count, places })
    }

    fn proved_step(&mut self, call: &Call) {
        let Answer { result, reply } = &mut self.answer;
        refill(reply, std::iter::repeat_n(call.fill, call.reply));
        refill(&mut self.input, call.input.iter().copied());
        let Buffers { memory, registers } = &mut self.proved;
        let (record, input) = (&mut self.record, &mut self.input);
        let mut lent = Lent { record, memory, registers, input, reply };
        *result = (self.stub)(call, &mut lent).to_le_bytes();
        if call.kind == Kind::Setup || result[0] == 0 {
            self.record.define_padding();
        }
    }

    fn independent_step(&mut self, call: &Call) {
        let Answer { result, reply } = &mut self.expected;
        reply.clear();
        reply.resize(call.reply, call.fill);
        let Buffers { memory, registers } = &mut self.independent;
        *result = self.held.step(call, memory, registers, reply).to_le_bytes();
    }

    /// What differs between the sides.
    fn fault(&self) -> Option<&'static str> {
        if self.answer.result != self.expected.result {
            return Some("the number or the answer differs");
        }
        if self.answer.reply != self.expected.reply {
            return Some("the reply differs");
        }
        if self.proved.memory != self.independent.memory {
            return Some("memory differs");
        }
        if self.proved.registers != self.independent.registers {
            return Some("the register area differs");
        }
        let same = match &self.held {
            Held::Stub(stub) => shows(self.record.raw(), stub),
            Held::Raw(raw) => self.record.raw() == &**raw,
        };
        (!same).then_some("the record differs")
    }

    /// What the step changed that it may not.
    fn changed(&self, call: &Call) -> Option<&'static str> {
        let buffers = || self.proved == self.before;
        match (call.kind, self.answer.number()) {
            (Kind::Setup, _) if !buffers() => Some("a setup changed a lent buffer"),
            (Kind::Setup, _) => None,
            (_, 0) if self.answer.is_text_error(call.kind) => {
                let same = buffers() && self.record.raw() == self.record_before.raw();
                (!same).then_some("ERRFLG -1, but something was changed")
            }
            (_, 0) if !self.answer.is_rerr(call.kind) => None,
            (_, 0) if !buffers() => Some("Rerr, but a lent buffer was changed"),
            (_, 0) if !self.record.same_but_draft(&self.record_before) => {
                Some("Rerr, but the record was changed")
            }
            (_, 0) => None,
            _ if !buffers() => Some("refused, but a lent buffer was changed"),
            _ if self.record != self.record_before => Some("refused, but the record was changed"),
            _ if self.answer.reply.iter().any(|&byte| byte != call.fill) => {
                Some("refused, but the reply was changed")
            }
            _ => None,
        }
    }

    /// A setup has number 1 just where its arguments were made to break a rule, and a text that was
    /// damaged, past the other numbers, one that such a text can have.
    fn against_origin(&self, call: &Call) -> Option<String> {
        let number = self.answer.number();
        if let Some(damage) = call.damage.filter(|damage| !damage.can_have(number)) {
            let read = matches!(number, 0 | 10);
            return read.then(|| format!("a text with '{}' has number {number}", damage.name()));
        }
        match self.origin {
            Origin::Setup(rule) if call.kind == Kind::Setup && rule.is_some() != (number == 1) => {
                let broken = rule.map_or("no rule is broken", |rule| RULES[rule].name);
                Some(format!("a setup where {broken} has number {number}"))
            }
            _ => None,
        }
    }

    /// Feeds the book, and asks what it claims.
    fn keep_book(&mut self, call: &Call) -> Claim {
        let accepted = self.answer.number() == 0;
        if call.kind == Kind::Setup {
            // Memory that is lent to the setup alone is not that of a session.
            self.book = (accepted && call.memory.is_none()).then(|| {
                let asked = self.record_before.target();
                let pids = asked.processes.map(|process| process.pid);
                let (protected, pids) = (call.protected.clone(), &pids[..asked.count as usize]);
                Book::new(asked.base, protected, pids, &self.before.memory)
            });
            self.places = Places::new();
        }
        let Some(book) = &mut self.book else { return Ok(()) };
        book.keeps_protected(&self.before.memory, &self.proved.memory)?;
        if accepted {
            feed(book, call, &self.before.registers, &self.answer)?;
            feed_places(&mut self.places, call, &self.answer);
        }
        if call.memory.is_none() {
            book.lies_under(&self.proved.memory)?;
        }
        record_has(self.record.raw(), book)?;
        places_are_held(self.record.raw(), &self.places)
    }

    /// With what both sides gave, where a step is at fault.
    fn difference(&self, what: String, by_step: bool) -> Box<Difference> {
        let (proved, independent) = by_step.then_some((&self.answer, &self.expected)).unzip();
        let record = match held(self.record.raw()) {
            Some(stub) => format!("{stub:?}"),
            None => format!("{:?}", self.record.raw()),
        };
        let other = match &self.held {
            Held::Stub(stub) => format!("{stub:?}"),
            Held::Raw(raw) => format!("{raw:?}"),
        };
        Box::new(Difference {
            what,
            proved: lines(proved, record, &self.proved, &self.independent),
            independent: lines(independent, other, &self.independent, &self.proved),
        })
    }
}

#[cfg(test)]
mod tests {
    use super::*;
    use crate::archive::archive;
    use reference::LONGEST_TEXT;

    fn step(kind: Kind, pid: u32, input: Vec<u8>) -> Op {
        let reply = if kind == Kind::Text { LONGEST_TEXT } else { kind.reply().unwrap_or(0) };
        let (memory, registers, damage) = (None, None, None);
        let (protected, value, fill) = (4_096..4_096, 0, 0);
        let call =
            Call { kind, protected, pid, value, input, reply, fill, memory, registers, damage };
        Op::Step(call)
    }

    fn request(kind: u8, number: u32, one: u8) -> Op {
        let [a, b, c, d] = number.to_be_bytes();
        step(Kind::Request, 0, vec![kind, a, b, c, d, one, 0, 0, 0, 0])
    }

    fn trap(pid: u32, pc: u32) -> Op {
        step(Kind::Trap, pid, [&[0; 132], &pc.to_be_bytes()[..]].concat())
    }

    /// The worked setup with case 9: a breakpoint of id 4 at 4,104 that stops 7 only.
    fn worked() -> Pair {
        let mut record = Box::new(Record::zeroed());
        let target = record.target_mut();
        (target.base, target.size, target.count) = (4_096, 64, 2);
        (target.processes[0].pid, target.processes[1].pid) = (5, 7);
        let mut pair = Pair::new(archive);
        for op in [
            Op::Memory((0..64).collect()),
            Op::Registers(vec![0; 272]),
            Op::Record(record, Origin::Setup(None)),
            step(Kind::Setup, 0, Vec::new()),
            request(16, 4, b'n'),
            request(16, 7, b'k'),
            request(16, 0, b'a'),
            request(16, 4_104, b'b'),
            trap(5, 4_104),
        ] {
            assert!(pair.run(&op).is_ok());
        }
        pair
    }

    type Tell = fn(&mut Book);

    /// A book that was told something else than both sides is heard after the next step.
    #[test]
    fn the_book_is_asked_after_each_step() {
        let nothing = request(0, 0, 0);
        let text = |text: &[u8]| step(Kind::Text, 0, text.to_vec());
        let told: [(Tell, Op, &str); 8] = [
            (
                |book| book.outside(3, 0xaa),
                nothing.clone(),
                "memory is not plain memory with the traps laid over it",
            ),
            (|book| book.outside(9, 0xaa), request(2, 4_104, 2), "a read is not of plain memory"),
            (
                |book| book.outside(9, 0xaa),
                text(b"0x0 i 0x1008 0x0"),
                "a word is not that of plain memory",
            ),
            (
                |book| book.outside(9, 0xaa),
                text(b"0x0 D 0x1008 0x0"),
                "a word is not that of plain memory",
            ),
            (
                |book| book.outside(9, 0xaa),
                trap(5, 4_104),
                "a trap is not answered by its condition over plain memory",
            ),
            (|book| book.restart(), trap(7, 4_104), "a trap where no breakpoint is"),
            (
                |book| book.schedule(5, true),
                nothing,
                "the record's Stopped processes are not the book's",
            ),
            (|book| book.restart(), request(16, 4, b'd'), "an unknown breakpoint was removed"),
        ];
        for (tell, op, what) in told {
            let mut pair = worked();
            tell(pair.book.as_mut().unwrap());
            assert_eq!(pair.run(&op).err().unwrap().what, what);
        }
    }

    /// So is that no step changes a protected byte: the book protects more than both sides do.
    #[test]
    fn the_book_is_asked_for_protected_bytes() {
        let steps = [
            (step(Kind::Request, 0, [&[4, 0, 0, 0x10, 0x0c, 1, 0xaa], &[0; 3][..]].concat()), 12),
            (step(Kind::Text, 0, b"0x0 I 0x100c 0x5".to_vec()), 12),
            (request(16, 4, b'd'), 8),
            (step(Kind::Restart, 0, Vec::new()), 8),
        ];
        for (op, at) in steps {
            let mut pair = worked();
            let (from, memory) = (4_096 + at, &pair.proved.memory);
            let book = Book::new(4_096, from..from + 4, &[5, 7], memory);
            pair.book = Some(book);
            let what = "a step changed a protected byte of memory";
            assert_eq!(pair.run(&op).err().unwrap().what, what);
        }
    }

    /// So is what a continue answers beside its reply.
    #[test]
    fn the_book_is_asked_after_a_continue() {
        let mut pair = worked();
        assert!(pair.run(&trap(7, 4_104)).is_ok());
        pair.book.as_mut().unwrap().outside(9, 0xaa);
        let what = "a start is not answered by the plain memory at its saved pc";
        assert_eq!(pair.run(&request(14, 7, 0)).err().unwrap().what, what);
    }

    /// Damage that is not of its sort, and a setup that does not break its rule, are said.
    #[test]
    fn what_is_expected_of_a_record_is_asked() {
        let mut pair = worked();
        let record = Box::new(pair.record().clone());
        let unfit = SORTS.iter().position(|sort| sort.name == "pid 0").unwrap();
        let found = pair.run(&Op::Record(record.clone(), Origin::Damaged(unfit)));
        assert_eq!(found.err().unwrap().what, "damage 'pid 0' is judged 0");
        let rule = RULES.iter().position(|rule| rule.name == "a pid is 0");
        assert!(pair.run(&Op::Record(record, Origin::Setup(rule))).is_ok());
        let found = pair.run(&step(Kind::Setup, 0, Vec::new()));
        assert_eq!(found.err().unwrap().what, "a setup where a pid is 0 has number 0");
    }
}
