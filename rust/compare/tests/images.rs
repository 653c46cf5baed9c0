//! Image differences: the archive's agree, a seed gives one run, and a call with a fault is found.

use compare::images::{run, Call};
use sanirvoq::call::image_differences;

const PAIRS: u64 = 3_000;

/// What the run says of a call, if anything.
fn found(call: Call) -> Option<&'static str> {
    run(call, 1, PAIRS).err().map(|failure| failure.what)
}

/// Runs the archive, then the fault, which may change what it gave and left.
macro_rules! faulty {
    (|$a:ident, $list:ident, $done:ident| $fault:expr) => {
        |$a: &[u8], b: &[u8], $list: &mut [u32]| {
            #[allow(unused_mut)]
            let mut $done = image_differences($a, b, $list);
            $fault;
            $done
        }
    };
}

#[test]
fn the_archive_has_no_fault_and_everything_is_reached() {
    for seed in 1..=3 {
        let tally =
            run(image_differences, seed, 10_000).unwrap_or_else(|failure| panic!("{failure}"));
        assert_eq!(tally.lacking(), Vec::<String>::new());
    }
    assert!(!run(image_differences, 1, 20).unwrap().lacking().is_empty());
}

#[test]
fn a_seed_gives_one_run() {
    let table = |seed| run(image_differences, seed, 500).unwrap().table();
    assert_eq!(table(1), table(1));
    assert_ne!(table(1), table(2));
}

#[test]
fn numbers() {
    let faults: [Call; 4] = [
        // Images of 65,537 bytes are accepted, or those of 65,536 refused.
        faulty!(|a, _list, done| if a.len() == 65_537 {
            done.number = 0;
        }),
        faulty!(|a, _list, done| if a.len() == 65_536 {
            done.number = 8;
        }),
        // Room is tested with one less, or with one more.
        faulty!(|_a, list, done| if list.len() + 1 == 2 * done.runs as usize {
            done.number = 0;
        }),
        faulty!(|_a, list, done| if done.number == 0 && list.len() / 2 == done.runs as usize {
            done.number = 9;
        }),
    ];
    for fault in faults {
        assert_eq!(found(fault), Some("the number differs"));
    }
}

#[test]
fn counts() {
    let faults: [Call; 3] = [
        // The runs needed are not said, or those of unequal images are.
        faulty!(|_a, _list, done| if done.number == 9 {
            done.runs = 0;
        }),
        faulty!(|_a, _list, done| if done.number == 8 {
            done.runs = 1;
        }),
        // The last run is lost where it goes to the end.
        faulty!(|a, list, done| if done.number == 0 && done.runs > 0 {
            let last = 2 * done.runs as usize - 2;
            done.runs -= u32::from(list[last] + list[last + 1] == a.len() as u32);
        }),
    ];
    for fault in faults {
        assert_eq!(found(fault), Some("the count of runs differs"));
    }
}

#[test]
fn lists() {
    let faults: [Call; 5] = [
        // A length is one too long.
        faulty!(|_a, list, done| if done.number == 0 && done.runs > 1 {
            list[1] += 1;
        }),
        // A run is cut in two, in place of the last one.
        faulty!(|_a, list, done| if done.number == 0 && done.runs > 1 && list[1] > 2 {
            list[1] -= 2;
            list[2] = list[0] + list[1] + 1;
        }),
        // The list is touched on 9, on 8, or behind what is filled.
        faulty!(|_a, list, done| if done.number == 9 && !list.is_empty() {
            list[0] ^= 1;
        }),
        faulty!(|_a, list, done| if done.number == 8 && !list.is_empty() {
            list[0] ^= 1;
        }),
        faulty!(|_a, list, done| if done.number == 0 && list.len() > 2 * done.runs as usize {
            list[2 * done.runs as usize] ^= 1;
        }),
    ];
    for fault in faults {
        assert_eq!(found(fault), Some("the list differs"));
    }
}

#[test]
fn a_failing_pair_is_made_short() {
    let fault: Call =
        faulty!(|a, list, done| if done.number == 0 && a.contains(&7) && !list.is_empty() {
            list[0] ^= 1;
        });
    let failure = run(fault, 1, PAIRS).unwrap_err();
    assert!(failure.pair.a.len() <= 4 && failure.pair.a.contains(&7), "{failure}");
    assert!(failure.to_string().contains("the list differs"), "{failure}");
}
