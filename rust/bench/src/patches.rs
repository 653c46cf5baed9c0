//! Patches over a window of 65,536 bytes with eight breakpoints: the archive's planner and checker
//! beside those of the Rust stub.

use crate::cases::{apart, standing};
use crate::side::{protected, BASE, PROCESSES};
use crate::timing::{median, median_ratio};
use crate::worker::Worker;
use bench_stub::patch::{Judged, Planned, Write};
use bench_stub::{Stub, BLOCK, ENTRIES, MESSAGE};
use sanirvoq::call::{self, Kind, Lent};
use sanirvoq::ffi;
use std::cell::RefCell;
use std::hint::black_box;
use std::ops::Range;

const WINDOW: u32 = 65_536;

/// How the wanted image differs from the plain one, off the protected word.
struct Case {
    name: &'static str,
    differs: fn(usize) -> bool,
}

const CASES: [Case; 4] = [
    Case { name: "equal", differs: |_| false },
    Case { name: "all bytes", differs: |_| true },
    Case { name: "alternating", differs: |i| i % 2 == 1 },
    // By a multiplicative hash, so that no branch predictor learns the places.
    Case {
        name: "1 byte in 100",
        differs: |i| (i as u32).wrapping_mul(0x9e37_79b1) >> 8 < 167_772,
    },
];

/// One case with both records, over the same memory. The room and the lists are written in every turn.
struct Scene {
    name: &'static str,
    record: Box<ffi::Record>,
    stub: Box<Stub>,
    memory: Vec<u8>,
    registers: Vec<u8>,
    wanted: Vec<u8>,
    room: RefCell<Vec<u8>>,
    lists: RefCell<(Vec<ffi::Write>, Vec<Write>)>,
    /// The plan, on each side.
    plans: (Vec<ffi::Write>, Vec<Write>),
}

/// The proved record after a setup and eight breakpoints.
fn proved(memory: &mut [u8], registers: &mut [u8]) -> Box<ffi::Record> {
    let mut record: Box<ffi::Record> = Box::default();
    let target = &mut record.target;
    (target.base, target.size, target.count) = (BASE, WINDOW, PROCESSES.len() as u32);
    for (process, (pid, address)) in target.processes.iter_mut().zip(PROCESSES) {
        (process.pid, process.address) = (pid, address);
    }
    let Range { start: from, end: to } = protected(WINDOW);
    let mut step = |kind, input: &[u8]| {
        let (record, mut answer) = (&mut *record, [0; MESSAGE]);
        let reply: &mut [u8] = if kind == Kind::Setup { &mut [] } else { &mut answer };
        let (memory, registers) = (&mut *memory, &mut *registers);
        let lent = Lent { record, memory, registers, from, to, pid: 0, value: 0, input, reply };
        assert_eq!(lent.call(kind), 0, "{kind:?}");
    };
    step(Kind::Setup, &[]);
    standing(ENTRIES as u32, WINDOW, apart).iter().for_each(|one| step(Kind::Request, one));
    record
}

/// The same of the Rust stub.
fn plain(memory: &mut [u8], registers: &mut [u8]) -> Box<Stub> {
    let (mut stub, mut reply) = (Box::<Stub>::default(), [0; MESSAGE]);
    let done = stub.setup(BASE, WINDOW, protected(WINDOW), &PROCESSES, memory, registers);
    done.expect("a setup");
    for request in standing(ENTRIES as u32, WINDOW, apart) {
        stub.request(memory, registers, &request, &mut reply).expect("a request");
    }
    stub
}

impl Scene {
    fn new(case: &Case) -> Self {
        let plain_image: Vec<u8> = (0..WINDOW as usize).map(|i| (7 * i + i / 256) as u8).collect();
        let mut registers = vec![0; PROCESSES.len() * BLOCK];
        let (mut memory, mut other) = (plain_image.clone(), plain_image.clone());
        let record = proved(&mut memory, &mut registers);
        let stub = plain(&mut other, &mut registers);
        assert_eq!(memory, other, "{}: traps", case.name);
        let free = (protected(WINDOW).start - u64::from(BASE)) as usize;
        let changed = |(i, byte): (usize, &u8)| byte ^ u8::from(i < free && (case.differs)(i));
        let wanted = plain_image.iter().enumerate().map(changed).collect();
        let most = WINDOW as usize / 4;
        let lists = (vec![ffi::Write::default(); most], vec![Write::default(); most]);
        let (room, lists) = (RefCell::new(vec![0; WINDOW as usize]), RefCell::new(lists));
        let plans = Default::default();
        let name = case.name;
        let scene = Self { name, record, stub, memory, registers, wanted, room, lists, plans };
        scene.agreed()
    }

    /// Both sides plan the same, and each accepts its plan.
    fn agreed(mut self) -> Self {
        let (ours, theirs) = (self.plan(), self.rust_plan());
        assert_eq!(
            (ours.number, Planned::Filled(ours.writes as usize)),
            (0, theirs),
            "{}",
            self.name
        );
        let writes = ours.writes as usize;
        let (proved, rust) = self.lists.take();
        let same = |(one, other): (&ffi::Write, &Write)| {
            (one.address, one.count, one.bytes) == (other.address, other.count, other.bytes)
        };
        assert!(proved.iter().zip(&rust).all(same), "{}: the plans differ", self.name);
        self.plans = (proved[..writes].to_vec(), rust[..writes].to_vec());
        self.lists = RefCell::new((proved, rust));
        assert_eq!(
            self.check(),
            ffi::Verdict::default(),
            "{}: the plan is not accepted",
            self.name
        );
        assert_eq!(self.rust_check(), Judged::Accepted, "{}: the plan is not accepted", self.name);
        self
    }

    fn plan(&self) -> ffi::Planning {
        let Self { record, memory, registers, wanted, .. } = black_box(self);
        let (room, list) = (&mut *self.room.borrow_mut(), &mut self.lists.borrow_mut().0);
        call::patch_plan(record, memory, registers, wanted, room, list)
    }

    #[inline(never)]
    fn rust_plan(&self) -> Planned {
        let Self { stub, memory, registers, wanted, .. } = black_box(self);
        let (room, list) = (&mut *self.room.borrow_mut(), &mut self.lists.borrow_mut().1);
        stub.patch_plan(memory, registers, wanted, room, list).expect("number 0")
    }

    fn check(&self) -> ffi::Verdict {
        let Self { record, memory, registers, wanted, plans, .. } = black_box(self);
        let room = &mut *self.room.borrow_mut();
        call::patch_check(record, memory, registers, &plans.0, wanted, room)
    }

    #[inline(never)]
    fn rust_check(&self) -> Judged {
        let Self { stub, memory, registers, wanted, plans, .. } = black_box(self);
        let room = &mut *self.room.borrow_mut();
        stub.patch_check(memory, registers, &plans.1, wanted, room).expect("number 0")
    }

    /// The proved side and the Rust side of a plan, then of a check.
    fn workers(&self) -> [Worker<'_>; 4] {
        [
            self.worker("plan", "proved", |scene| _ = black_box(scene.plan())),
            self.worker("plan", "Rust", |scene| _ = black_box(scene.rust_plan())),
            self.worker("check", "proved", |scene| _ = black_box(scene.check())),
            self.worker("check", "Rust", |scene| _ = black_box(scene.rust_check())),
        ]
    }

    fn worker<'a>(&'a self, what: &str, side: &str, turn: fn(&Self)) -> Worker<'a> {
        let label = format!("patch {what}, {}, {side}", self.name);
        Worker { label, turns: Box::new(move |turns| (0..turns).for_each(|_| turn(self))) }
    }
}

pub struct Patches(Vec<Scene>);

impl Patches {
    pub fn new() -> Self {
        Self(CASES.iter().map(Scene::new).collect())
    }

    pub fn workers(&self) -> Vec<Worker<'_>> {
        self.0.iter().flat_map(Scene::workers).collect()
    }
}

pub fn heading() -> String {
    format!("{:<32}{:>10}{:>10}{:>8}", "patch of 65,536 bytes", "proved us", "Rust us", "ratio")
}

/// The call that a side is one of.
pub fn name(label: &str) -> &str {
    label.trim_end_matches(", proved").trim_end_matches(", Rust")
}

/// One line for the two sides of a call, which stand one after the other.
pub fn line(label: &str, proved: &[f64], rust: &[f64]) -> String {
    let name = name(label);
    let (ours, theirs) = (median(proved) / 1e3, median(rust) / 1e3);
    format!("{name:<32}{ours:>10.1}{theirs:>10.1}{:>8.2}", median_ratio(proved, rust))
}

#[cfg(test)]
mod tests {
    use super::*;

    #[test]
    fn the_plans_have_the_writes_that_their_names_say() {
        let writes = CASES.map(|case| Scene::new(&case).plans.0.len());
        // The last word is protected.
        assert_eq!(writes[..3], [0, 16_383, 16_383]);
        assert!((500..700).contains(&writes[3]), "{writes:?}");
    }

    #[test]
    fn both_sides_of_every_call_stand_together() {
        let patches = Patches::new();
        let labels: Vec<String> = patches.workers().into_iter().map(|one| one.label).collect();
        assert_eq!(labels.len(), 4 * CASES.len());
        for pair in labels.chunks(2) {
            let name = pair[0].strip_suffix(", proved").expect("the proved side first");
            assert_eq!(pair[1].strip_suffix(", Rust"), Some(name));
        }
    }

    #[test]
    fn a_line_has_both_sides_and_their_ratio() {
        let line = line("patch plan, equal, proved", &[6_000.0; 3], &[12_000.0; 3]);
        let words: Vec<&str> = line.split_whitespace().collect();
        assert_eq!(words, ["patch", "plan,", "equal", "6.0", "12.0", "0.50"]);
    }
}
