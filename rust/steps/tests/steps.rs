//! What is made: whole steps of the program's format, from a seed always the same, that reach
//! everything that can be reached.

use reference::{body_length, depth, Element, Session};
use std::process::{Command, Output};
use steps::program;
use steps::table::{lacking, table};
use steps::{Generator, Step, LETTERS};

fn made(seed: u64, count: u64) -> (Vec<u8>, Vec<String>) {
    let mut bytes = Vec::new();
    let sections = program::write(seed, count, &mut bytes).unwrap();
    (bytes, lacking(&sections))
}

#[test]
fn a_seed_gives_the_same_steps_and_another_gives_others() {
    let (first, other) = (made(1, 2_000).0, made(2, 2_000).0);
    assert_eq!(first, made(1, 2_000).0);
    assert_ne!(first, other);
    assert!(made(1, 3_000).0.starts_with(&first));
}

#[test]
fn there_are_as_many_whole_steps_as_asked_for() {
    for count in [0, 1, 2, 777] {
        let bytes = made(5, count).0;
        let (mut at, mut steps) = (0, 0);
        while at < bytes.len() {
            at += 1 + body_length(bytes[at]).expect("a kind of 1 to 5");
            steps += 1;
        }
        assert_eq!((at, steps), (bytes.len(), count));
    }
}

#[test]
fn a_short_run_lacks_something_and_a_long_one_nothing() {
    assert!(!made(1, 500).1.is_empty());
    for seed in 1..=20 {
        assert_eq!(made(seed, 20_000).1, Vec::<String>::new(), "seed {seed}");
    }
}

#[test]
fn the_table_has_every_number_that_the_program_can_show() {
    let text = table(&program::write(1, 20_000, Vec::new()).unwrap());
    let cells = |name: &str| {
        let line = text.lines().find(|line| line.trim_start().starts_with(name)).unwrap();
        let cells = line.split_whitespace().skip(2).map(|cell| cell != "-");
        cells.collect::<Vec<_>>()
    };
    assert_eq!(cells("request "), [true, false, false, false, false, false, false]);
    assert_eq!(cells("trap "), [true, false, false, false, true, true, true]);
    assert_eq!(cells("schedule "), [true, false, false, false, true, false, false]);
    assert_eq!(cells("state "), [true, false, false, false, true, true, false]);
    assert!(!text.contains("setup"));
}

/// The plain bytes come with each Tstart of a Stopped process whose saved pc is at a site, and with
/// no other.
#[test]
fn the_table_has_what_each_tstart_found() {
    let text = table(&program::write(1, 20_000, Vec::new()).unwrap());
    let first = |name: &str| -> u64 {
        let line = text.lines().find_map(|line| line.trim_start().strip_prefix(name)).unwrap();
        line.split_whitespace().next().unwrap().parse().unwrap()
    };
    let (by_trap, by_schedule) = (first("stopped by a trap"), first("stopped by a schedule event"));
    let written = first("Stopped, the pc written by Tmput");
    assert!(by_trap > 0 && by_schedule > 0 && written > 0 && first("not Stopped") > 0);
    let answered = first("Tstart: with the plain bytes, reply alone");
    assert_eq!(answered, by_trap + by_schedule + written);
    assert!(first("trap: a second Stop at the same breakpoint") > 0);
}

/// The letters of a burst's Tcondbreaks with their values.
fn operations(steps: &[Step]) -> Vec<(u8, u32)> {
    let operation = |step: &Step| match step {
        Step::Request([16, a, b, c, d, letter, 0, 0, 0, 0]) => {
            Some((*letter, u32::from_be_bytes([*a, *b, *c, *d])))
        }
        _ => None,
    };
    steps.iter().filter_map(operation).collect()
}

/// Conditions are mostly such that b may end them.
#[test]
fn most_conditions_are_well_formed() {
    let session = Session::worked();
    let mut generator = Generator::new(3);
    let mut whole = 0;
    for _ in 0..1_000 {
        let mut burst = generator.burst(&session.stub, &session.memory);
        burst.begin();
        let operations = operations(&burst.steps);
        assert!(operations.iter().filter(|one| LETTERS.contains(&one.0)).count() <= 65);
        let elements = operations.iter().skip(1).map(|&(letter, val)| Element::of(letter, val));
        let elements: Option<Vec<Element>> = elements.collect();
        whole += u32::from(elements.is_some_and(|list| depth(&list) == Some(1)));
    }
    assert!(whole > 800, "{whole}");
}

fn run(arguments: &[&str]) -> Output {
    Command::new(env!("CARGO_BIN_EXE_steps")).args(arguments).output().unwrap()
}

#[test]
fn the_program_writes_the_steps_and_says_what_they_came_to() {
    let plain = run(&["1", "20000"]);
    assert_eq!((plain.status.code(), &plain.stderr[..]), (Some(0), &[][..]));
    assert_eq!(plain.stdout, made(1, 20_000).0);
    let told = run(&["1", "20000", "--stats"]);
    assert_eq!((told.status.code(), &told.stdout), (Some(0), &plain.stdout));
    assert!(String::from_utf8_lossy(&told.stderr).starts_with("steps by number"));
    for wrong in [&["1"][..], &["1", "x"], &["1", "2", "--state"], &["1", "2", "3"]] {
        assert_eq!(run(wrong).status.code(), Some(2));
    }
}
