//! What the text steps of a run reached: numbers by buffer and by damage, errno by letter, errors
//! that have another behind them, words under traps, at the window's ends and at the protected stretch,
//! registers.

use crate::op::Call;
use crate::texts::make::{Damage, Room};
use reference::{read_text, Protected, Stub, TextPacket, BLOCK, STOPPED};
use steps::table::{must, texts, Cell, Section};

/// The numbers that a text step can have, in the order of its tests, then 0.
const NUMBERS: [u8; 5] = [2, 3, 11, 10, 0];
/// What a step of number 0 can say, after the column of those that were carried out.
const ERRNOS: [u32; 5] = [3, 13, 14, 16, 22];
/// The column of errno 22.
const EINVAL: usize = ERRNOS.len();
/// The letters that have a row of their own, with the errnos that each can get.
const LETTERS: [(u8, &[u32]); 8] = [
    (b'i', &[3, 14, 22]),
    (b'd', &[3, 14, 22]),
    (b'I', &[3, 13, 14, 22]),
    (b'D', &[3, 13, 14, 22]),
    (b'r', &[3, 16, 22]),
    (b'R', &[3, 16, 22]),
    (b'c', &[22]),
    (b's', &[22]),
];
/// The last register.
const PC: u32 = 33;

type Row<const N: usize> = [u64; N];

#[derive(Debug, Default)]
pub struct TextSteps {
    rooms: [Row<5>; Room::ALL.len()],
    damages: [Row<5>; Damage::ALL.len()],
    /// Steps of number 2, 3 and 11 whose text is no packet.
    behind: Row<3>,
    /// By letter, the last row all other letters: carried out, then by errno.
    letters: [Row<6>; LETTERS.len() + 1],
    in_hand: Row<6>,
    situations: [u64; SITUATIONS.len()],
    /// Words read and written: across 0, 1 and 2 traps, the window's first and its last.
    words: [Row<5>; 2],
    /// Words of number 0 that are aligned, by where they lie to the stretch: read and done, written and
    /// done, written and refused with errno 13.
    stretches: [Row<3>; STRETCHES.len()],
    /// `r` and `R` of number 0, 1 to 31, 32, 33, 34 and over 34, carried out and with errno 22.
    registers: [[Row<6>; 2]; 2],
}

/// A request of number 0, and what it meets.
struct Situation<'a> {
    packet: TextPacket,
    stub: &'a Stub,
}

/// What is said of a situation, and whether it is so.
type Named = (&'static str, fn(&Situation<'_>) -> bool);

/// Where a word lies to the protected stretch, and whether it may be written there.
const STRETCHES: [(Named, bool); 8] = [
    (("the last before it", |met| met.protects() && met.behind() == met.from()), true),
    (("its first", |met| met.is_protected() && met.is_at(met.from())), false),
    (
        ("within it", |met| {
            met.is_protected() && !met.is_at(met.from()) && met.behind() < met.to()
        }),
        false,
    ),
    (("its last", |met| met.is_protected() && met.behind() == met.to()), false),
    (("all of it", |met| met.is_at(met.from()) && met.behind() == met.to()), false),
    (("the first behind it", |met| met.protects() && met.is_at(met.to())), true),
    (("before an empty one", |met| !met.protects() && met.behind() == met.from()), true),
    (("behind an empty one", |met| !met.protects() && met.is_at(met.from())), true),
];

/// Mostly two faults of one request, of which the first decides.
const SITUATIONS: [Named; 22] = [
    ("letter not served, PID not 0", |met| !met.is_served() && met.packet.pid != 0),
    ("word: PID not 0, unaligned", |met| met.is_word() && met.pid() && !met.is_aligned()),
    ("word: PID not 0, outside", |met| met.is_word() && met.pid() && !met.is_inside()),
    ("word: unaligned, in the window", |met| met.word() && !met.is_aligned() && met.is_inside()),
    ("word: unaligned, outside", |met| met.word() && !met.is_aligned() && !met.is_inside()),
    ("word: the last before the window", |met| met.word() && met.is_at(met.base() - 4)),
    ("word: the first behind it", |met| met.word() && met.is_at(met.end())),
    ("word: a register's offset", |met| met.word() && met.is_aligned() && met.below(BLOCK)),
    ("word: a register's offset, Stopped", |met| {
        met.word() && met.is_aligned() && met.below(BLOCK) && met.stopped()
    }),
    ("word: PID not 0, written, protected", |met| {
        met.is_written() && met.pid() && met.is_protected()
    }),
    ("word: unaligned, written, protected", |met| {
        met.word() && met.is_written() && !met.is_aligned() && met.is_protected()
    }),
    ("word: outside beside the stretch, written", |met| {
        met.word() && met.is_written() && met.protects() && !met.is_inside() && met.is_beside()
    }),
    ("register: PID not 0, no such number", |met| met.is_register() && met.pid() && met.none()),
    ("register: PID not 0, none current", |met| met.is_register() && met.pid() && met.idle()),
    ("register: PID not 0, not Stopped", |met| met.is_register() && met.pid() && met.runs()),
    ("register: no such number, none current", |met| met.register() && met.none() && met.idle()),
    ("register: no such number, not Stopped", |met| met.register() && met.none() && met.runs()),
    ("register: no such number, Stopped", |met| met.register() && met.none() && met.stopped()),
    ("R of 0, none current", |met| met.zero_written() && met.idle()),
    ("R of 0, not Stopped", |met| met.zero_written() && met.runs()),
    ("R of 0, Stopped", |met| met.zero_written() && met.stopped()),
    ("an address in the place of a number", |met| met.register() && !met.below(4_096)),
];

impl Situation<'_> {
    fn is_word(&self) -> bool {
        b"idID".contains(&self.packet.letter)
    }

    fn is_register(&self) -> bool {
        b"rR".contains(&self.packet.letter)
    }

    fn is_served(&self) -> bool {
        self.is_word() || self.is_register()
    }

    /// Whether the PID is not 0.
    fn pid(&self) -> bool {
        self.packet.pid != 0
    }

    /// A word, and the PID is 0.
    fn word(&self) -> bool {
        self.is_word() && !self.pid()
    }

    /// A register, and the PID is 0.
    fn register(&self) -> bool {
        self.is_register() && !self.pid()
    }

    fn base(&self) -> u64 {
        self.stub.base.into()
    }

    fn end(&self) -> u64 {
        self.base() + u64::from(self.stub.size)
    }

    fn is_at(&self, address: u64) -> bool {
        u64::from(self.packet.third) == address
    }

    fn below(&self, address: usize) -> bool {
        (self.packet.third as usize) < address
    }

    fn is_aligned(&self) -> bool {
        self.packet.third.is_multiple_of(4)
    }

    fn is_inside(&self) -> bool {
        let address = u64::from(self.packet.third);
        self.base() <= address && address + 4 <= self.end()
    }

    fn from(&self) -> u64 {
        self.base() + u64::from(self.stub.protected.offset)
    }

    fn to(&self) -> u64 {
        self.from() + u64::from(self.stub.protected.length)
    }

    /// Whether anything is protected.
    fn protects(&self) -> bool {
        matches!(self.stub.protected, Protected { length: 1.., .. })
    }

    /// Whether a byte of the word is.
    fn is_protected(&self) -> bool {
        self.stub.protects(self.packet.third, 4)
    }

    /// The first address behind the word.
    fn behind(&self) -> u64 {
        u64::from(self.packet.third) + 4
    }

    fn is_beside(&self) -> bool {
        self.behind() == self.from() || self.is_at(self.to())
    }

    fn is_written(&self) -> bool {
        b"ID".contains(&self.packet.letter)
    }

    /// No register has the number.
    fn none(&self) -> bool {
        self.packet.third > PC
    }

    fn zero_written(&self) -> bool {
        self.register() && self.packet.letter == b'R' && self.packet.third == 0
    }

    /// No process is current.
    fn idle(&self) -> bool {
        self.stub.current.is_none()
    }

    fn current_is_stopped(&self) -> Option<bool> {
        let index = self.stub.current.and_then(|pid| self.stub.listed(pid))?;
        Some(self.stub.processes[index].state == STOPPED)
    }

    /// The current process is not Stopped.
    fn runs(&self) -> bool {
        self.current_is_stopped() == Some(false)
    }

    fn stopped(&self) -> bool {
        self.current_is_stopped() == Some(true)
    }

    /// How many traps a word lies across.
    fn traps(&self) -> usize {
        let halves = [self.packet.third, self.packet.third | 2];
        halves.into_iter().filter(|&site| self.stub.at_site(site).is_some()).count()
    }
}

impl TextSteps {
    /// Counts a text step by its number, the reply's bytes and the stub, of which a text step
    /// changes nothing but plain bytes.
    pub fn count(&mut self, call: &Call, number: u8, reply: &[u8], stub: Option<&Stub>) {
        let Some(column) = NUMBERS.iter().position(|&one| one == number) else { return };
        self.rooms[Room::of(call.reply) as usize][column] += 1;
        if let Some(damage) = call.damage {
            self.damages[damage as usize][column] += 1;
        }
        let packet = read_text(&call.input);
        if let (Some(count), Err(_)) = (self.behind.get_mut(column), packet) {
            *count += 1;
        }
        if let (0, Ok(packet), Ok(reply), Some(stub)) = (number, packet, read_text(reply), stub) {
            self.answered(&Situation { packet, stub }, reply);
        }
    }

    fn answered(&mut self, met: &Situation<'_>, reply: TextPacket) {
        let errno = ERRNOS.iter().position(|&one| reply.third != 0 && one == reply.fourth);
        let column = errno.map_or(0, |place| 1 + place);
        let row = LETTERS.iter().position(|&(letter, _)| letter == reply.letter);
        self.letters[row.unwrap_or(LETTERS.len())][column] += 1;
        self.in_hand[column] += u64::from(met.stub.draft.is_some());
        for (count, (_, holds)) in self.situations.iter_mut().zip(SITUATIONS) {
            *count += u64::from(holds(met));
        }
        let writes = usize::from(reply.letter.is_ascii_uppercase());
        if met.is_word() && errno.is_none() {
            let counts = &mut self.words[writes];
            counts[met.traps()] += 1;
            counts[3] += u64::from(met.is_at(met.base()));
            counts[4] += u64::from(met.is_at(met.end() - 4));
        }
        if met.word() && met.is_aligned() && met.is_inside() {
            let refused = errno.map(|place| ERRNOS[place]) == Some(13);
            let place = if refused { 2 } else { writes };
            for (counts, ((_, holds), _)) in self.stretches.iter_mut().zip(STRETCHES) {
                counts[place] += u64::from(holds(met));
            }
        }
        if met.register() && matches!(column, 0 | EINVAL) {
            let place = match met.packet.third {
                0 => 0,
                1..=31 => 1,
                number => (number - 30).min(5) as usize,
            };
            self.registers[writes][usize::from(column == EINVAL)][place] += 1;
        }
    }

    // ---- As a table. ----

    pub fn sections(&self) -> [Section; 6] {
        [
            self.by_number(),
            self.by_letter(),
            self.by_situation(),
            self.by_word(),
            self.by_stretch(),
            self.by_register(),
        ]
    }

    fn by_number(&self) -> Section {
        let title = "text steps, by number";
        let mut section = Section { title, columns: texts(NUMBERS), rows: Vec::new() };
        let all = |i: usize| self.rooms.iter().map(|counts| counts[i]).sum();
        section.row("all", must(&[0, 1, 2, 3, 4].map(all)));
        for (room, counts) in Room::ALL.iter().zip(&self.rooms) {
            let can_be = |number| matches!(number, 2 | 3) || (number == 11) == room.is_short();
            let cell = |(&number, &n)| Cell::where_possible(can_be(number), n);
            let cells = NUMBERS.iter().zip(counts).map(cell).collect();
            section.row(format!("buffer: {}", room.name()), cells);
        }
        for (damage, counts) in Damage::ALL.iter().zip(&self.damages) {
            let cell = |(&number, &n)| match number {
                2 | 3 => Cell::May(n),
                _ => Cell::where_possible(number == 11 || damage.can_have(number), n),
            };
            let cells = NUMBERS.iter().zip(counts).map(cell).collect();
            section.row(format!("text: {}", damage.name()), cells);
        }
        section.row("and the text is no packet", must(&self.behind));
        section
    }

    fn by_letter(&self) -> Section {
        let columns =
            texts(["done"]).into_iter().chain(ERRNOS.map(|errno| format!("errno {errno}")));
        let title = "text steps of number 0, by letter";
        let mut section = Section { title, columns: columns.collect(), rows: Vec::new() };
        let cells = |counts: &Row<6>, served: bool, errnos: &[u32]| -> Vec<Cell> {
            let done = Cell::where_possible(served, counts[0]);
            let pairs = ERRNOS.iter().zip(&counts[1..]);
            let errors = pairs.map(|(one, &n)| Cell::where_possible(errnos.contains(one), n));
            [done].into_iter().chain(errors).collect()
        };
        for ((letter, errnos), counts) in LETTERS.iter().zip(&self.letters) {
            section.row(char::from(*letter), cells(counts, errnos.len() > 1, errnos));
        }
        section.row("another letter", cells(&self.letters[LETTERS.len()], false, &[22]));
        section.row("with a condition in hand", must(&self.in_hand));
        section
    }

    fn by_situation(&self) -> Section {
        let rows = SITUATIONS.iter().zip(self.situations);
        let rows = rows.map(|((name, _), count)| (name.to_string(), must(&[count]))).collect();
        Section { title: "text steps, by what they meet", columns: Vec::new(), rows }
    }

    fn by_word(&self) -> Section {
        let columns = texts(["no trap", "one", "two", "first", "last"]);
        let [read, written] = &self.words;
        let rows = vec![("read".into(), must(read)), ("written".into(), must(written))];
        Section { title: "words of text steps, across traps", columns, rows }
    }

    fn by_stretch(&self) -> Section {
        let title = "words of text steps, by the protected stretch";
        let columns = texts(["read", "written", "errno 13"]);
        let mut section = Section { title, columns, rows: Vec::new() };
        for (((name, _), writable), [read, written, refused]) in
            STRETCHES.iter().zip(self.stretches)
        {
            let cell = |must, n| if must { Cell::Must(n) } else { Cell::Never(n) };
            let cells = vec![Cell::Must(read), cell(*writable, written), cell(!writable, refused)];
            section.row(name, cells);
        }
        section
    }

    fn by_register(&self) -> Section {
        let columns = texts(["0", "1 to 31", "32", "33", "34", "over 34"]);
        let title = "registers of text steps, by number";
        let mut section = Section { title, columns, rows: Vec::new() };
        for (letter, counts) in ["r", "R"].into_iter().zip(&self.registers) {
            let is_register = |place: usize| place < 4 && (place > 0 || letter == "r");
            let cells = |counts: &Row<6>, done: bool| -> Vec<Cell> {
                let cell = |(place, &n)| Cell::where_possible(is_register(place) == done, n);
                counts.iter().enumerate().map(cell).collect()
            };
            section.row(format!("{letter}, done"), cells(&counts[0], true));
            section.row(format!("{letter}, errno 22"), cells(&counts[1], false));
        }
        section
    }
}
