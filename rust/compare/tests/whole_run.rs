//! Runs of the archive: from a seed always the same, and long ones reach everything.

use compare::archive::archive;
use compare::run::Runner;

fn table(seed: u64, steps: u64) -> (String, Vec<String>) {
    let mut runner = Runner::new(archive, seed, steps);
    let mut left = steps;
    if let Err(failure) = runner.run(|now| left = now) {
        panic!("{failure}");
    }
    assert_eq!(left, 0);
    (runner.tally.table(), runner.tally.lacking())
}

#[test]
fn a_seed_gives_one_run() {
    assert_eq!(table(1, 20_000), table(1, 20_000));
    assert_ne!(table(1, 20_000).0, table(2, 20_000).0);
}

#[test]
fn a_short_run_lacks_something_and_a_long_one_nothing() {
    assert!(!table(1, 1_000).1.is_empty());
    for seed in [1, 2, 3] {
        assert_eq!(table(seed, 200_000).1, Vec::<String>::new());
    }
}

#[test]
fn a_run_may_end_anywhere() {
    for seed in 0..400 {
        table(seed, 300);
    }
}
