//! The worked set of document 01, case by case, with the bytes as printed there.

mod common;

use common::*;
use sanirvoq::{Refusal, Served, Verdict};

#[test]
#[cfg_attr(not(archive), ignore = "needs libsanirvoq.a")]
fn case_1_reads_four_bytes() {
    let mut s = Session::worked();
    let request = [2, 0, 0, 0x10, 4, 4, 0, 0, 0, 0];
    assert_eq!(s.ask(request), [3, 4, 5, 6, 7, 0, 0, 0, 0, 0]);
}

#[test]
#[cfg_attr(not(archive), ignore = "needs libsanirvoq.a")]
fn case_2_refuses_ten() {
    let mut s = Session::worked();
    let answer = [1, 0x63, 0x6f, 0x75, 0x6e, 0x74, 0, 0, 0, 0];
    assert_eq!(s.ask(mget(0x1004, 10)), answer);
}

#[test]
#[cfg_attr(not(archive), ignore = "needs libsanirvoq.a")]
fn case_3_reads_to_the_end_of_the_window() {
    let mut s = Session::worked();
    let answer = [3, 0x37, 0x38, 0x39, 0x3a, 0x3b, 0x3c, 0x3d, 0x3e, 0x3f];
    assert_eq!(s.ask(mget(4_151, 9)), answer);
    assert_eq!(s.ask(mget(4_152, 9)), rerr("inval"));
}

/// A breakpoint 3 at 4,104.
fn case_4() -> Session {
    let mut s = Session::worked();
    for request in [[0x10, 0, 0, 0, 3, 0x6e, 0, 0, 0, 0], [0x10, 0, 0, 0x10, 8, 0x62, 0, 0, 0, 0]] {
        assert_eq!(s.ask(request), [0x11, 0, 0, 0, 0, 0, 0, 0, 0, 0]);
    }
    assert_eq!(s.memory[8..10], [0x02, 0x90]);
    assert_eq!(s.ask(mget(4_104, 2)), ten(3, &[8, 9]));
    s
}

/// A write over it.
fn case_5() -> Session {
    let mut s = case_4();
    let request = [4, 0, 0, 0x10, 9, 3, 0xaa, 0xbb, 0xcc, 0];
    assert_eq!(s.ask(request), [5, 0, 0, 0, 0, 0, 0, 0, 0, 0]);
    assert_eq!(s.memory[8..12], [0x02, 0x90, 0xbb, 0xcc]);
    assert_eq!(s.ask(mget(4_104, 4)), ten(3, &[8, 0xaa, 0xbb, 0xcc]));
    s
}

#[test]
#[cfg_attr(not(archive), ignore = "needs libsanirvoq.a")]
fn cases_4_to_6_plant_write_and_remove() {
    let mut s = case_5();
    assert_eq!(s.ask(cond(b'd', 3)), ten(17, &[]));
    assert_eq!(s.memory[8..12], [8, 0xaa, 0xbb, 0xcc]);
    let mut s = case_5();
    assert_eq!(s.restart(), [1, 0x72, 0x65, 0x73, 0x65, 0x74, 0, 0, 0, 0]);
    assert_eq!(s.memory[8..12], [8, 0xaa, 0xbb, 0xcc]);
}

#[test]
#[cfg_attr(not(archive), ignore = "needs libsanirvoq.a")]
fn case_7_names_states() {
    let mut s = Session::worked();
    assert_eq!(s.state(5, 9), Ok(()));
    let answer = [9, 0x52, 0x65, 0x6e, 0x64, 0x65, 0x7a, 0x76, 0x6f, 0x75];
    assert_eq!(s.ask(with(8, 5, &[])), answer);
    assert_eq!(s.state(5, 12), Ok(()));
    assert_eq!(s.ask(with(8, 5, &[])), [9, 0x63, 0, 0, 0, 0, 0, 0, 0, 0]);
}

#[test]
#[cfg_attr(not(archive), ignore = "needs libsanirvoq.a")]
fn case_8_makes_current() {
    let mut s = Session::worked();
    let answer = [7, 0x38, 0x30, 0x30, 0x30, 0x31, 0x30, 0x30, 0x30, 0];
    assert_eq!(s.ask(with(6, 5, &[])), answer);
    assert_eq!(s.ask(with(6, 6, &[])), rerr("pid"));
    let target = &s.stub.raw().target;
    assert_eq!((target.selected, target.current), (1, 5));
}

#[test]
#[cfg_attr(not(archive), ignore = "needs libsanirvoq.a")]
fn case_9_stops_one_pid() {
    let mut s = Session::worked();
    s.plant(4, &[(b'k', 7), (b'a', 0)], 4_104);
    assert_eq!(s.trap(5, 4_104), Ok(Verdict::Pass([8, 9])));
    assert_eq!(s.trap(7, 4_104), Ok(Verdict::Stop(4)));
    assert_eq!(s.registers[136..], block(0xab, 4_104));
    assert_eq!(s.registers[..136], [0; 136]);
}

#[test]
#[cfg_attr(not(archive), ignore = "needs libsanirvoq.a")]
fn case_10_reads_plain_bytes() {
    let mut s = Session::worked();
    let list = [(b'p', 0x1008), (b'*', 0), (b'p', 0x0b0a_0908), (b'=', 0), (b'a', 0)];
    s.plant(4, &list, 4_104);
    assert_eq!(s.trap(5, 4_104), Ok(Verdict::Stop(4)));
}

#[test]
#[cfg_attr(not(archive), ignore = "needs libsanirvoq.a")]
fn case_11_refuses() {
    let mut s = Session::worked();
    assert_eq!(s.ask(cond(b'n', 1)), ten(17, &[]));
    assert_eq!(s.ask(cond(b'a', 0)), rerr("inval"));
    assert_eq!(s.ask(ten(20, &[])), rerr("unk"));
    assert_eq!(s.ask(mget(0, 1)), rerr("pid"));
    s.ask(with(6, 5, &[]));
    assert_eq!(s.ask(mget(0, 1)), rerr("notstop"));
}

/// Not in the worked set: the mark, the event that sees it, and registers read and written.
#[test]
#[cfg_attr(not(archive), ignore = "needs libsanirvoq.a")]
fn a_marked_process_stops_when_it_is_to_run() {
    let mut s = Session::worked();
    assert_eq!(s.schedule(5, 4_100), Ok(false));
    assert_eq!(s.ask(with(12, 5, &[])), ten(13, &[]));
    assert_eq!(s.schedule(7, 4_100), Ok(false));
    assert_eq!(s.registers, [0; 272]);
    assert_eq!(s.schedule(5, 4_100), Ok(true));
    assert_eq!(s.registers[..136], block(0xcd, 4_100));
    s.ask(with(6, 5, &[]));
    assert_eq!(s.ask(mget(132, 4)), ten(3, &[0, 0, 0x10, 4]));
    assert_eq!(s.ask(with(4, 4, &[4, 1, 2, 3, 4])), ten(5, &[]));
    assert_eq!(s.registers[4..8], [1, 2, 3, 4]);
}

/// Not in the worked set: a breakpoint stops until it is removed, and what lies under its trap comes
/// with each continue.
#[test]
#[cfg_attr(not(archive), ignore = "needs libsanirvoq.a")]
fn a_continue_at_a_breakpoint_carries_its_plain_bytes() {
    let mut s = Session::worked();
    s.plant(4, &[], 4_104);
    assert_eq!(s.trap(7, 4_104), Ok(Verdict::Stop(4)));
    s.ask(with(6, 7, &[]));
    assert_eq!(s.ask(with(4, 40, &[4, 1, 2, 3, 4])), ten(5, &[]));
    assert_eq!(s.start(7), Served::ReplyAndPass([8, 9]));
    assert_eq!(s.memory[8..10], [0x02, 0x90], "the breakpoint stands");
    assert_eq!(s.start(7), Served::Reply, "7 is not Stopped any more");
    assert_eq!(s.trap(7, 4_104), Ok(Verdict::Stop(4)), "it stops again");
    assert_eq!(s.ask(with(4, 4_105, &[1, 0xa1])), ten(5, &[]));
    assert_eq!(s.start(7), Served::ReplyAndPass([8, 0xa1]), "with what was written");
    assert_eq!(s.trap(7, 4_104), Ok(Verdict::Stop(4)));
    assert_eq!(s.ask(cond(b'd', 4)), ten(17, &[]));
    assert_eq!(s.start(7), Served::Reply, "no breakpoint is there");
    assert_eq!(s.trap(7, 4_104), Err(Refusal::NoSite));
}

/// Not in the worked set: the saved pc is that of the register area as it is lent.
#[test]
#[cfg_attr(not(archive), ignore = "needs libsanirvoq.a")]
fn a_continue_goes_by_the_saved_pc() {
    let mut s = Session::worked();
    s.plant(4, &[], 4_104);
    s.ask(with(12, 5, &[]));
    assert_eq!(s.schedule(5, 4_106), Ok(true));
    assert_eq!(s.start(5), Served::Reply, "beside the site");
    s.ask(with(12, 5, &[]));
    assert_eq!(s.schedule(5, 4_104), Ok(true));
    assert_eq!(s.start(5), Served::ReplyAndPass([8, 9]), "a schedule event stopped it");
    s.ask(with(12, 5, &[]));
    assert_eq!(s.schedule(5, 4_106), Ok(true));
    s.ask(with(6, 5, &[]));
    assert_eq!(s.ask(with(4, 135, &[1, 8])), ten(5, &[]));
    assert_eq!(s.start(5), Served::ReplyAndPass([8, 9]), "Tmput wrote it");
}
