//! The cases: what stands before, what is timed, and the answers that both stubs must give.

use crate::proved::{Caller, Direct, Proved};
use crate::rust_stub::RustStub;
use crate::side::{protected, Event, Request, Side, BASE, LAST, PROCESSES};
use crate::work::{run, Work};

/// The breakpoints that stand, each with a condition of four elements unless the case says
/// otherwise. Tcondbreak over a full table finds seven and makes the eighth, or removes it.
#[derive(Debug, Clone, Copy, PartialEq, Eq, PartialOrd, Ord)]
pub enum Fill {
    Empty,
    One,
    Three,
    Full,
}

impl Fill {
    pub fn name(self) -> &'static str {
        match self {
            Self::Empty => "empty",
            Self::One => "one",
            Self::Three => "three",
            Self::Full => "full",
        }
    }

    /// The breakpoints.
    fn count(self) -> u32 {
        match self {
            Self::Empty => 0,
            Self::One => 1,
            Self::Three => 3,
            Self::Full => 8,
        }
    }
}

/// What the harness spoils before the timed steps.
enum Spoil {
    Nothing,
    /// The reply buffer has nine bytes.
    Reply,
    /// The current process is none that is listed.
    Current,
    /// The last trap was written over.
    Trap,
}

pub struct Case {
    pub name: &'static str,
    pub fill: Fill,
    pub window: u32,
    /// Tcondbreak requests that make the table and the condition in hand.
    before: Vec<Request>,
    spoil: Spoil,
    pub work: Work,
    /// The result of each step of a turn, and the first byte of the reply buffer after it.
    expected: Vec<(u32, u8)>,
}

/// What a turn gave and left.
#[derive(Debug, PartialEq, Eq)]
struct Seen {
    steps: Vec<(u32, Vec<u8>)>,
    memory: Vec<u8>,
    registers: Vec<u8>,
}

impl Case {
    fn of(name: &'static str, fill: Fill, window: u32, before: Vec<Request>, work: Work) -> Self {
        let expected = Vec::new();
        Self { name, fill, window, before, spoil: Spoil::Nothing, work, expected }
    }

    fn gives(mut self, expected: &[(u32, u8)]) -> Self {
        self.expected = expected.to_vec();
        self
    }

    fn spoiled(mut self, spoil: Spoil) -> Self {
        self.spoil = spoil;
        self
    }

    /// Name, table and window: no two cases have the same.
    pub fn label(&self) -> String {
        format!("{}, {}, {}", self.name, self.fill.name(), self.window)
    }

    /// A stub as it stands before the first turn.
    fn prepared<S: Side>(&self) -> S {
        let mut side = S::new(self.window);
        assert_eq!(side.setup(), 0, "{}: setup", self.name);
        for request in &self.before {
            let done = (side.request(request), side.lent().reply[0]);
            assert_eq!(done, (0, RCONDBREAK), "{}: {request:x?}", self.name);
        }
        let lent = side.lent_mut();
        lent.reply.fill(0);
        match self.spoil {
            Spoil::Nothing => {}
            Spoil::Reply => lent.reply.truncate(9),
            Spoil::Current => side.select(99),
            Spoil::Trap => lent.memory[(apart(self.window, 7) - BASE) as usize] = 0,
        }
        side.keep();
        if self.work.copies() {
            let before = side.lent().memory.clone();
            run(&mut side, &self.work, 1, |_, _| ());
            let lent = side.lent_mut();
            let pairs = before.into_iter().zip(&lent.memory).enumerate();
            lent.undo = pairs.filter(|(_, (a, b))| a != *b).map(|(at, (a, _))| (at, a)).collect();
        }
        side
    }

    /// Does one turn.
    fn seen(&self, side: &mut impl Side) -> Seen {
        let mut steps = Vec::new();
        run(side, &self.work, 1, |side, result| {
            let lent = side.lent();
            steps.push((result, [&lent.reply[..], &lent.text].concat()));
        });
        let lent = side.lent();
        Seen { steps, memory: lent.memory.clone(), registers: lent.registers.clone() }
    }

    /// A stub after two turns that gave the expected results and left the same bytes.
    fn checked<S: Side>(&self) -> (S, Seen) {
        let mut side = self.prepared();
        let seen = self.seen(&mut side);
        let results = seen.steps.iter().map(|(result, reply)| (*result, reply[0]));
        assert_eq!(results.collect::<Vec<_>>(), self.expected, "{}: results", self.name);
        assert_eq!(self.seen(&mut side), seen, "{}: the second turn differs", self.name);
        (side, seen)
    }

    /// Both stubs, seen to give the same replies and to leave the same bytes.
    pub fn agreed(&self) -> (Proved<Direct>, RustStub) {
        let ((proved, ours), (rust, theirs)) = (self.checked(), self.checked());
        assert_eq!(ours, theirs, "{}: the stubs differ", self.name);
        (proved, rust)
    }

    /// The proved stub after its steps were called in another way.
    pub fn called<C: Caller>(&self) -> Proved<C> {
        self.checked().0
    }
}

/// Every case over each window, those of one name together.
pub fn cases(windows: &[u32]) -> Vec<Case> {
    let groups = [reads, writes, texts, processes, changes, full_pool, traps, events, refusals];
    let over = |group: fn(u32) -> Vec<Case>| windows.iter().flat_map(move |&window| group(window));
    let mut list: Vec<Case> = groups.into_iter().flat_map(over).collect();
    let names: Vec<&str> = list.iter().map(|case| case.name).collect();
    list.sort_by_key(|case| (names.iter().position(|name| *name == case.name), case.fill));
    list
}

const TMGET: u8 = 2;
const TMPUT: u8 = 4;
const TPROC: u8 = 6;
const TSTATUS: u8 = 8;
const TRNOTE: u8 = 10;
const TSTOP: u8 = 12;
const TSTART: u8 = 14;
const TCONDBREAK: u8 = 16;

const RERR: u8 = 1;
const RMGET: u8 = 3;
const RMPUT: u8 = 5;
const RPROC: u8 = 7;
const RSTATUS: u8 = 9;
const RRNOTE: u8 = 11;
const RSTOP: u8 = 13;
const RSTART: u8 = 15;
const RCONDBREAK: u8 = 17;

const PID: u32 = PROCESSES[LAST].0;
/// A process that the timed steps are not about.
const OTHER: u32 = PROCESSES[0].0;
/// The id of the breakpoint that a case is about.
const ID: u32 = 200;

/// A type and a number, then these bytes, zero padded.
fn ten(kind: u8, number: u32, rest: &[u8]) -> Request {
    let mut bytes = [0; 10];
    bytes[0] = kind;
    bytes[1..5].copy_from_slice(&number.to_be_bytes());
    bytes[5..5 + rest.len()].copy_from_slice(rest);
    bytes
}

fn tmget(address: u32) -> Request {
    ten(TMGET, address, &[9])
}

fn tmput(address: u32) -> Request {
    ten(TMPUT, address, &[4, 0xaa, 0xbb, 0xcc, 0xdd])
}

fn tcondbreak(letter: u8, val: u32) -> Request {
    ten(TCONDBREAK, val, &[letter])
}

/// Sites apart from each other. The second term keeps those of a large window out of one set of
/// the cache, where 4,096 bytes between them would put them all.
pub fn apart(window: u32, i: u32) -> u32 {
    BASE + i * (window / 16 + window / 1_024)
}

/// Neighbouring sites, from the middle of the window on.
pub fn together(window: u32, i: u32) -> u32 {
    BASE + window / 2 + 2 * i
}

/// Where nine bytes meet none of these sites.
pub fn clear(window: u32) -> u32 {
    BASE + window / 4 * 3
}

/// Four elements: true of the trap of this process alone.
fn four(pid: u32) -> Vec<(u8, u32)> {
    vec![(b'k', pid), (b'p', 1), (b'=', 0), (b'a', 0)]
}

/// Five elements with a read of memory, which holds what they say.
fn five(address: u32) -> [(u8, u32); 5] {
    let plain = [0, 1, 2, 3].map(|i| (address - BASE + i) as u8);
    [(b'p', address), (b'*', 0), (b'p', u32::from_le_bytes(plain)), (b'=', 0), (b'a', 0)]
}

/// Sixteen elements with two reads of memory, one of them at the site itself: true of the trap of
/// this process alone, and evaluated to the end either way.
fn sixteen(window: u32, site: u32, pid: u32) -> Vec<(u8, u32)> {
    let own = [(b'k', pid), (b'a', 0)];
    [&five(site)[..], &five(clear(window)), &four(pid), &own].concat()
}

/// As many elements as a condition may have: the sixteen four times.
fn sixty_four(window: u32, site: u32, pid: u32) -> Vec<(u8, u32)> {
    sixteen(window, site, pid).repeat(4)
}

/// A condition begun and its elements.
fn begun(id: u32, elements: &[(u8, u32)]) -> Vec<Request> {
    let list = [&[(b'n', id)], elements].concat();
    list.into_iter().map(|(letter, val)| tcondbreak(letter, val)).collect()
}

fn planted(id: u32, elements: &[(u8, u32)], site: u32) -> Vec<Request> {
    [begun(id, elements), vec![tcondbreak(b'b', site)]].concat()
}

/// So many breakpoints of four elements at these sites.
pub fn standing(count: u32, window: u32, sites: fn(u32, u32) -> u32) -> Vec<Request> {
    (0..count).flat_map(|i| planted(i, &four(OTHER), sites(window, i))).collect()
}

/// Seven breakpoints that hold 64 places in all.
fn holding_64(window: u32) -> Vec<Request> {
    let nine = [&five(clear(window))[..], &four(OTHER)].concat();
    let ten = [five(clear(window)), five(clear(window))].concat();
    let list = |i| if i == 0 { &ten } else { &nine };
    (0..7).flat_map(|i| planted(i, list(i), apart(window, i))).collect()
}

/// Tmget of nine bytes.
fn reads(window: u32) -> Vec<Case> {
    let read = |name, fill: Fill, sites, address| {
        let before = standing(fill.count(), window, sites);
        let work = Work::Requests(vec![tmget(address)]);
        Case::of(name, fill, window, before, work).gives(&[(0, RMGET)])
    };
    let middle = together(window, 0);
    vec![
        read("Tmget 9, no site", Fill::Empty, apart, clear(window)),
        read("Tmget 9, no site", Fill::One, apart, clear(window)),
        read("Tmget 9, no site", Fill::Full, apart, clear(window)),
        read("Tmget 9, across a site", Fill::One, together, middle - 3),
        read("Tmget 9, across five sites", Fill::Full, together, middle + 1),
    ]
}

/// Tmput of four bytes; from an odd address they meet three sites.
fn writes(window: u32) -> Vec<Case> {
    let write = |name, fill: Fill, address| {
        let before = standing(fill.count(), window, together);
        let work = Work::Requests(vec![tmput(address)]);
        Case::of(name, fill, window, before, work).gives(&[(0, RMPUT)])
    };
    let odd = together(window, 0) + 1;
    vec![
        write("Tmput 4, no site", Fill::Empty, clear(window)),
        write("Tmput 4, no site", Fill::Full, clear(window)),
        write("Tmput 4, across three sites", Fill::Three, odd),
        write("Tmput 4, across three sites", Fill::Full, odd),
    ]
}

/// Words by the text dialect: one that is read, and one that is written and then written back. From
/// the middle of the window on, the four bytes of a word are those of two sites.
fn texts(window: u32) -> Vec<Case> {
    let case = |name, fill: Fill, sites, requests: &[(u8, u32, u32, u32)]| {
        let text = |&(letter, address, data, _): &(u8, u32, u32, u32)| {
            format!("0x0 {} {address:#x} {data:#x}", char::from(letter))
        };
        let filled = |(letter, .., response): &(u8, u32, u32, u32)| {
            let reply = format!("0x0 {} 0x0 {response:#x}", char::from(*letter));
            (u32::from_le_bytes([0, 0, reply.len() as u8, 0]), 0)
        };
        let work = Work::Texts(requests.iter().map(text).collect());
        let before = standing(fill.count(), window, sites);
        let expected: Vec<_> = requests.iter().map(filled).collect();
        Case::of(name, fill, window, before, work).gives(&expected)
    };
    let plain = |at: u32| u32::from_le_bytes([0, 1, 2, 3].map(|i| (at - BASE + i) as u8));
    let read = |at| [(b'i', at, 0, plain(at))];
    // A word of as many digits, so that no reply is longer than the one before it.
    let other = |at| plain(at) ^ 0x0101_0101;
    let twice = |at| [(b'I', at, other(at), plain(at)), (b'I', at, plain(at), other(at))];
    let (away, two) = (clear(window), together(window, 0));
    vec![
        case("text i, no site", Fill::Empty, apart, &read(away)),
        case("text i, no site", Fill::Full, apart, &read(away)),
        case("text i, two sites", Fill::Full, together, &read(two)),
        case("text I, I, no site", Fill::Empty, apart, &twice(away)),
        case("text I, I, no site", Fill::Full, apart, &twice(away)),
        case("text I, I, two sites", Fill::Full, together, &twice(two)),
    ]
}

/// The requests about a process. Tstatus changes nothing: timed by copying as well, it shows what
/// that way of timing is worth.
fn processes(window: u32) -> Vec<Case> {
    let both = |name, work: &dyn Fn() -> Work, replies: &[(u32, u8)]| {
        [Fill::Empty, Fill::Full].map(|fill| {
            let before = standing(fill.count(), window, apart);
            Case::of(name, fill, window, before, work()).gives(replies)
        })
    };
    let asked = |kind| ten(kind, PID, &[]);
    let one = |kind| move || Work::Requests(vec![asked(kind)]);
    let undone = || Work::Requests(vec![asked(TSTOP), asked(TSTART)]);
    let cases = [
        both("Tproc", &one(TPROC), &[(0, RPROC)]),
        both("Tstatus", &one(TSTATUS), &[(0, RSTATUS)]),
        both("Tstatus, by copying", &|| Work::Change(asked(TSTATUS)), &[(0, RSTATUS)]),
        both("Trnote", &one(TRNOTE), &[(0, RRNOTE)]),
        both("Tstop, Tstart", &undone, &[(0, RSTOP), (0, RSTART)]),
    ];
    cases.into_iter().flatten().collect()
}

/// Tcondbreak: a cycle that leaves nothing behind, then its letters one by one. The others are
/// none or seven.
fn changes(window: u32) -> Vec<Case> {
    let site = clear(window);
    let requests = |list: &[(u8, u32)]| -> Vec<Request> {
        list.iter().map(|&(letter, val)| tcondbreak(letter, val)).collect()
    };
    let change = |name, fill: Fill, own: Vec<Request>, work: Work| {
        let others = standing(fill.count().saturating_sub(1), window, apart);
        let replies = vec![(0, RCONDBREAK); work.steps()];
        Case::of(name, fill, window, [others, own].concat(), work).gives(&replies)
    };
    let cycle = [(b'n', ID), (b'p', 1), (b'a', 0), (b'b', site), (b'd', ID)];
    let one = |letter, val| Work::Change(tcondbreak(letter, val));
    let each = |fill: Fill| {
        let least = if fill == Fill::Full { fill } else { Fill::One };
        [
            change("Tcondbreak n p a b d", fill, vec![], Work::Requests(requests(&cycle))),
            change("Tcondbreak n", fill, vec![], Work::Requests(requests(&cycle[..1]))),
            change("Tcondbreak p", fill, begun(ID, &[]), one(b'p', 1)),
            change("Tcondbreak b", fill, begun(ID, &four(PID)), one(b'b', site)),
            change("Tcondbreak d", least, planted(ID, &four(PID), site), one(b'd', ID)),
        ]
    };
    [Fill::Empty, Fill::Full].into_iter().flat_map(each).collect()
}

/// b and d where all 128 places are held and all of them move: the breakpoint that is made or
/// removed is the first of the table and has 64 elements, the seven others have 64 together.
fn full_pool(window: u32) -> Vec<Case> {
    let site = apart(window, 7);
    let long = sixty_four(window, site, PID);
    let first = |elements: &[(u8, u32)]| [planted(ID, elements, site), holding_64(window)].concat();
    let change = |name, before: Vec<Request>, letter, val| {
        let work = Work::Change(tcondbreak(letter, val));
        Case::of(name, Fill::Full, window, before, work).gives(&[(0, RCONDBREAK)])
    };
    let free = [first(&[]), vec![tcondbreak(b'd', ID)], begun(ID, &long)].concat();
    vec![
        change("Tcondbreak b, all places", free, b'b', site),
        change("Tcondbreak d, all places", first(&long), b'd', ID),
    ]
}

/// Traps at the last breakpoint of the table.
fn traps(window: u32) -> Vec<Case> {
    let site = apart(window, 7);
    let [low, high] = [0, 1].map(|i| (site - BASE + i) as u8);
    let pass = (u32::from_le_bytes([0, 2, low, high]), 0);
    let stop = (u32::from_le_bytes([0, 1, ID as u8, 0]), 0);
    let trap = |name, elements: Vec<(u8, u32)>, work: fn(Event) -> Work, answer| {
        [Fill::One, Fill::Full].map(|fill| {
            let others = standing(fill.count() - 1, window, apart);
            let before = [others, planted(ID, &elements, site)].concat();
            Case::of(name, fill, window, before, work(Event::at(site))).gives(&[answer])
        })
    };
    let long = |pid| sixteen(window, site, pid);
    let longest = |pid| sixty_four(window, site, pid);
    let cases = [
        trap("trap, 0 elements, Stop", vec![], Work::Stop, stop),
        trap("trap, 4 elements, Pass", four(OTHER), Work::Pass, pass),
        trap("trap, 4 elements, Stop", four(PID), Work::Stop, stop),
        trap("trap, 16 elements, Pass", long(OTHER), Work::Pass, pass),
        trap("trap, 16 elements, Stop", long(PID), Work::Stop, stop),
        trap("trap, 64 elements, Pass", longest(OTHER), Work::Pass, pass),
        trap("trap, 64 elements, Stop", longest(PID), Work::Stop, stop),
    ];
    cases.into_iter().flatten().collect()
}

/// The other events, restart and setup.
fn events(window: u32) -> Vec<Case> {
    let yes = u32::from_le_bytes([0, 1, 0, 0]);
    let each = |fill: Fill| {
        let event =
            |name, work| Case::of(name, fill, window, standing(fill.count(), window, apart), work);
        let away = || Event::at(clear(window));
        [
            event("schedule, not wanted", Work::Schedule(away())).gives(&[(0, 0)]),
            event("Tstop, schedule", Work::Wanted(ten(TSTOP, PID, &[]), away()))
                .gives(&[(0, RSTOP), (yes, RSTOP)]),
            event("state", Work::State(PID, 4)).gives(&[(0, 0)]),
            event("restart", Work::Restart).gives(&[(0, RERR)]),
        ]
    };
    let setup = Case::of("setup", Fill::Empty, window, vec![], Work::Setup).gives(&[(0, 0)]);
    let cases = [Fill::Empty, Fill::Full].into_iter().flat_map(each);
    cases.chain([setup]).collect()
}

/// A request that gets Rerr, and two that get a number.
fn refusals(window: u32) -> Vec<Case> {
    let refused = |name, fill: Fill, request: Request, spoil, answer| {
        let before = standing(fill.count(), window, apart);
        let work = Work::Requests(vec![request]);
        Case::of(name, fill, window, before, work).spoiled(spoil).gives(&[answer])
    };
    let each = |(fill, unfit)| {
        let read = tmget(clear(window));
        let count = ten(TMGET, clear(window), &[10]);
        let protected = tmput(protected(window).start as u32);
        [
            refused("refused, count", fill, count, Spoil::Nothing, (0, RERR)),
            refused("refused, protected", fill, protected, Spoil::Nothing, (0, RERR)),
            refused("refused, number 3", fill, read, unfit, (3, 0)),
            refused("refused, number 2", fill, read, Spoil::Reply, (2, 0)),
        ]
    };
    let fills = [(Fill::Empty, Spoil::Current), (Fill::Full, Spoil::Trap)];
    fills.into_iter().flat_map(each).collect()
}

#[cfg(test)]
mod tests {
    use super::*;

    const WINDOWS: [u32; 2] = [64, 65_536];

    #[test]
    fn both_stubs_do_the_same_in_every_case() {
        cases(&WINDOWS).iter().for_each(|case| drop(case.agreed()));
    }

    #[test]
    #[should_panic(expected = "the second turn differs")]
    fn work_that_does_not_come_round_is_found() {
        // The sixty-fourth element is accepted, the sixty-fifth is not.
        let (before, work) = (begun(ID, &[(b'p', 1); 63]), vec![tcondbreak(b'p', 1)]);
        let case = Case::of("p", Fill::Empty, 64, before, Work::Requests(work));
        case.gives(&[(0, RCONDBREAK)]).agreed();
    }

    #[test]
    #[should_panic(expected = "results")]
    fn an_answer_that_is_not_expected_is_found() {
        let work = Work::Requests(vec![tmget(0)]);
        Case::of("registers", Fill::Empty, 64, vec![], work).gives(&[(0, RMGET)]).agreed();
    }

    #[test]
    fn every_case_is_over_every_window_once() {
        let list = cases(&WINDOWS);
        let labels = list.iter().map(|case| (case.name, case.fill, case.window));
        let mut labels: Vec<_> = labels.collect();
        let pairs = labels.chunks_exact(2);
        assert!(pairs.into_iter().all(|pair| (pair[0].2, pair[1].2) == (64, 65_536)));
        labels.sort();
        labels.dedup();
        assert_eq!(labels.len(), list.len());
    }

    #[test]
    fn conditions_have_their_lengths() {
        assert_eq!(sixteen(64, apart(64, 7), PID).len(), 16);
        assert_eq!(sixty_four(64, apart(64, 7), PID).len(), 64);
        // Beside the elements a breakpoint takes an n and a b.
        assert_eq!(holding_64(64).len(), 64 + 7 * 2);
    }
}
