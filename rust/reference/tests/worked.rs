//! The worked set of 01, case by case, with the bytes as printed there.

mod common;

use common::*;
use reference::{Reason, Session, Verdict};

#[test]
fn case_1_reads_four_bytes() {
    let mut s = Session::worked();
    let request = [2, 0, 0, 0x10, 4, 4, 0, 0, 0, 0];
    assert_eq!(ask(&mut s, request), [3, 4, 5, 6, 7, 0, 0, 0, 0, 0]);
}

#[test]
fn case_2_refuses_ten() {
    let mut s = Session::worked();
    let answer = [1, 0x63, 0x6f, 0x75, 0x6e, 0x74, 0, 0, 0, 0];
    assert_eq!(ask(&mut s, mget(0x1004, 10)), answer);
}

#[test]
fn case_3_reads_to_the_end_of_the_window() {
    let mut s = Session::worked();
    let answer = [3, 0x37, 0x38, 0x39, 0x3a, 0x3b, 0x3c, 0x3d, 0x3e, 0x3f];
    assert_eq!(ask(&mut s, mget(4_151, 9)), answer);
    assert_eq!(ask(&mut s, mget(4_152, 9)), rerr(Reason::Inval));
}

/// A breakpoint 3 at 4,104.
fn case_4() -> Session {
    let mut s = Session::worked();
    for request in [[0x10, 0, 0, 0, 3, 0x6e, 0, 0, 0, 0], [0x10, 0, 0, 0x10, 8, 0x62, 0, 0, 0, 0]] {
        assert_eq!(ask(&mut s, request), [0x11, 0, 0, 0, 0, 0, 0, 0, 0, 0]);
    }
    assert_eq!(s.memory[8..10], [0x02, 0x90]);
    assert_eq!(ask(&mut s, mget(4_104, 2)), reply(3, &[8, 9]));
    s
}

/// A write over it.
fn case_5() -> Session {
    let mut s = case_4();
    let request = [4, 0, 0, 0x10, 9, 3, 0xaa, 0xbb, 0xcc, 0];
    assert_eq!(ask(&mut s, request), [5, 0, 0, 0, 0, 0, 0, 0, 0, 0]);
    assert_eq!(s.memory[8..12], [0x02, 0x90, 0xbb, 0xcc]);
    assert_eq!(ask(&mut s, mget(4_104, 4)), reply(3, &[8, 0xaa, 0xbb, 0xcc]));
    s
}

#[test]
fn cases_4_to_6_plant_write_and_remove() {
    let mut s = case_5();
    assert_eq!(ask(&mut s, cond(b'd', 3)), reply(17, &[]));
    assert_eq!(s.memory[8..12], [8, 0xaa, 0xbb, 0xcc]);
    let mut s = case_5();
    assert_eq!(restart(&mut s), [1, 0x72, 0x65, 0x73, 0x65, 0x74, 0, 0, 0, 0]);
    assert_eq!(s.memory[8..12], [8, 0xaa, 0xbb, 0xcc]);
}

#[test]
fn case_7_names_states() {
    let mut s = Session::worked();
    assert_eq!(state(&mut s, 5, 9), Ok(()));
    let answer = [9, 0x52, 0x65, 0x6e, 0x64, 0x65, 0x7a, 0x76, 0x6f, 0x75];
    assert_eq!(ask(&mut s, ten(8, 5, &[])), answer);
    assert_eq!(state(&mut s, 5, 12), Ok(()));
    assert_eq!(ask(&mut s, ten(8, 5, &[])), [9, 0x63, 0, 0, 0, 0, 0, 0, 0, 0]);
}

#[test]
fn case_8_makes_current() {
    let mut s = Session::worked();
    let answer = [7, 0x38, 0x30, 0x30, 0x30, 0x31, 0x30, 0x30, 0x30, 0];
    assert_eq!(ask(&mut s, ten(6, 5, &[])), answer);
    assert_eq!(ask(&mut s, ten(6, 6, &[])), rerr(Reason::Pid));
    assert_eq!(s.stub.current, Some(5));
}

#[test]
fn case_9_stops_one_pid() {
    let mut s = Session::worked();
    plant(&mut s, 4, &[(b'k', 7), (b'a', 0)], 4_104);
    assert_eq!(trap(&mut s, 5, 4_104), Ok(Verdict::Pass([8, 9])));
    assert_eq!(trap(&mut s, 7, 4_104), Ok(Verdict::Stop(4)));
}

#[test]
fn case_10_reads_plain_bytes() {
    let mut s = Session::worked();
    let list = [(b'p', 0x1008), (b'*', 0), (b'p', 0x0b0a_0908), (b'=', 0), (b'a', 0)];
    plant(&mut s, 4, &list, 4_104);
    assert_eq!(trap(&mut s, 5, 4_104), Ok(Verdict::Stop(4)));
}

#[test]
fn case_11_refuses() {
    let mut s = Session::worked();
    assert_eq!(ask(&mut s, cond(b'n', 1)), reply(17, &[]));
    assert_eq!(ask(&mut s, cond(b'a', 0)), rerr(Reason::Inval));
    assert_eq!(ask(&mut s, ten(20, 0, &[])), rerr(Reason::Unk));
    assert_eq!(ask(&mut s, mget(0, 1)), rerr(Reason::Pid));
    ask(&mut s, ten(6, 5, &[]));
    assert_eq!(ask(&mut s, mget(0, 1)), rerr(Reason::Notstop));
}

/// Not in the worked set: request Two of 02.
#[test]
fn the_program_writes_the_plain_bytes_after_rstart() {
    let mut s = Session::worked();
    plant(&mut s, 4, &[], 4_104);
    let event = [&7_u32.to_be_bytes()[..], &block(0, 4_104)].concat();
    assert_eq!(s.step(2, &event)[..], [0, 1, 4]);
    let start = ten(14, 7, &[]);
    assert_eq!(s.step(1, &start)[..], [0, 15, 0, 0, 0, 0, 0, 0, 0, 0, 0, 2, 8, 9]);
    assert_eq!(s.step(1, &start)[..], [0, 15, 0, 0, 0, 0, 0, 0, 0, 0, 0]);
}

#[test]
fn the_programs_example() {
    let mut s = Session::worked();
    let mut output = s.step(1, &[2, 0, 0, 0x10, 4, 4, 0, 0, 0, 0]).to_vec();
    output.extend_from_slice(&s.step(5, &[]));
    let answer = [0, 3, 4, 5, 6, 7, 0, 0, 0, 0, 0, 0, 1, 0x72, 0x65, 0x73, 0x65, 0x74, 0, 0, 0, 0];
    assert_eq!(output, answer);
}
