//! Image differences.

use reference::{differences, NotCompared, Run, LONGEST_IMAGE};

const OTHER: Run = Run { start: 0xeeee_eeee, length: 0xeeee_eeee };

fn run(start: u32, length: u32) -> Run {
    Run { start, length }
}

/// The answer over a list of so many places for runs, and the list.
fn compared(a: &[u8], b: &[u8], room: usize) -> (Result<usize, NotCompared>, Vec<Run>) {
    let mut list = vec![OTHER; room];
    let done = differences(a, b, &mut list);
    (done, list)
}

#[test]
fn runs_are_found_at_the_ends_and_between() {
    let (a, b) = ([1, 2, 3, 4, 5, 6], [0, 2, 9, 9, 5, 7]);
    let runs = [run(0, 1), run(2, 2), run(5, 1)];
    assert_eq!(compared(&a, &b, 3), (Ok(3), runs.to_vec()));
    assert_eq!(compared(&a, &b, 4), (Ok(3), [&runs[..], &[OTHER]].concat()));
    assert_eq!(compared(&a, &b, 2), (Err(NotCompared::List(3)), vec![OTHER; 2]));
    assert_eq!(compared(&a, &b, 0), (Err(NotCompared::List(3)), vec![]));
}

#[test]
fn equal_images_need_no_room() {
    assert_eq!(compared(&[], &[], 0), (Ok(0), vec![]));
    assert_eq!(compared(&[7; 9], &[7; 9], 1), (Ok(0), vec![OTHER]));
}

#[test]
fn one_run_may_be_all_and_runs_may_be_single_bytes() {
    let (zeros, ones) = (vec![0; LONGEST_IMAGE], vec![1; LONGEST_IMAGE]);
    assert_eq!(compared(&zeros, &ones, 1), (Ok(1), vec![run(0, 65_536)]));
    let every_other: Vec<u8> = (0..LONGEST_IMAGE).map(|i| (i % 2) as u8).collect();
    let runs: Vec<Run> = (0..32_768).map(|k| run(2 * k + 1, 1)).collect();
    assert_eq!(compared(&zeros, &every_other, 32_768), (Ok(32_768), runs));
    assert_eq!(compared(&zeros, &every_other, 32_767).0, Err(NotCompared::List(32_768)));
}

#[test]
fn other_images_are_refused_first() {
    let long = vec![0; LONGEST_IMAGE + 1];
    for (a, b) in
        [(&long[..], &long[..]), (&long[1..], &long[..]), (&[1][..], &[][..]), (&[], &[1])]
    {
        assert_eq!(compared(a, b, 0), (Err(NotCompared::Images), vec![]));
        assert_eq!(compared(a, b, 2), (Err(NotCompared::Images), vec![OTHER; 2]));
    }
    assert_eq!(NotCompared::Images.number(), 8);
    assert_eq!(NotCompared::List(1).number(), 9);
}
