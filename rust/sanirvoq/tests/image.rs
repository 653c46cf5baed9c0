//! Image differences.

use sanirvoq::call::image_differences;
use sanirvoq::{differences, NotCompared, Run, IMAGE};

const OTHER: Run = Run { start: 0xeeee_eeee, length: 0xeeee_eeee };

fn run(start: u32, length: u32) -> Run {
    Run { start, length }
}

/// The runs that are given, and the list; a refused call must leave it.
fn compared(a: &[u8], b: &[u8], room: usize) -> Result<(Vec<Run>, Vec<Run>), NotCompared> {
    let mut list = vec![OTHER; room];
    let done = differences(a, b, &mut list).map(|runs| runs.to_vec());
    if done.is_err() {
        assert_eq!(list, vec![OTHER; room]);
    }
    done.map(|runs| (runs, list))
}

#[test]
#[cfg_attr(not(archive), ignore = "needs libsanirvoq.a")]
fn the_part_that_is_filled_is_given() {
    let (a, b) = ([1, 2, 3, 4, 5, 6], [0, 2, 9, 9, 5, 7]);
    let runs = vec![run(0, 1), run(2, 2), run(5, 1)];
    assert_eq!(compared(&a, &b, 3), Ok((runs.clone(), runs.clone())));
    assert_eq!(compared(&a, &b, 5), Ok((runs.clone(), [runs, vec![OTHER; 2]].concat())));
}

#[test]
#[cfg_attr(not(archive), ignore = "needs libsanirvoq.a")]
fn equal_images_need_no_room() {
    assert_eq!(compared(&[], &[], 0), Ok((vec![], vec![])));
    assert_eq!(compared(&[7; 300], &[7; 300], 1), Ok((vec![], vec![OTHER])));
}

#[test]
#[cfg_attr(not(archive), ignore = "needs libsanirvoq.a")]
fn a_list_without_room_stays_and_the_runs_are_counted() {
    let needed = NotCompared::RunList { needed: 2 };
    assert_eq!(compared(&[1, 2, 3], &[0, 2, 0], 1), Err(needed));
    assert_eq!(compared(&[1, 2, 3], &[0, 2, 0], 0), Err(needed));
    assert_eq!(needed.number(), 9);
}

#[test]
#[cfg_attr(not(archive), ignore = "needs libsanirvoq.a")]
fn the_longest_images_are_compared_and_longer_ones_are_refused() {
    let (zeros, ones) = (vec![0; IMAGE + 1], vec![1; IMAGE + 1]);
    let all = vec![run(0, 65_536)];
    assert_eq!(compared(&zeros[..IMAGE], &ones[..IMAGE], 1), Ok((all.clone(), all)));
    assert_eq!(compared(&zeros, &zeros, 1), Err(NotCompared::Images));
    assert_eq!(compared(&zeros, &zeros[..IMAGE], 1), Err(NotCompared::Images));
    assert_eq!(compared(&[1], &[], 0), Err(NotCompared::Images));
    assert_eq!(NotCompared::Images.number(), 8);
}

#[test]
#[cfg_attr(not(archive), ignore = "needs libsanirvoq.a")]
fn every_other_byte_is_a_run() {
    let zeros = vec![0; IMAGE];
    let ones: Vec<u8> = (0..IMAGE).map(|i| (i % 2) as u8).collect();
    let runs: Vec<Run> = (0..32_768).map(|k| run(2 * k + 1, 1)).collect();
    assert_eq!(compared(&zeros, &ones, 32_768), Ok((runs.clone(), runs)));
    let needed = NotCompared::RunList { needed: 32_768 };
    assert_eq!(compared(&zeros, &ones, 32_767), Err(needed));
}

#[test]
#[cfg_attr(not(archive), ignore = "needs libsanirvoq.a")]
fn an_odd_place_is_no_room() {
    let mut list = [0xeeee_eeee; 3];
    let done = image_differences(&[1, 2, 3], &[0, 2, 0], &mut list);
    assert_eq!((done.number, done.runs, list), (9, 2, [0xeeee_eeee; 3]));
    let done = image_differences(&[1, 2, 3], &[1, 0, 0], &mut list);
    assert_eq!((done.number, done.runs, list), (0, 1, [1, 2, 0xeeee_eeee]));
}
