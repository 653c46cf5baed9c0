//! A protected stretch: reads are free, no request writes to it, no breakpoint stands in it.

mod common;

use common::*;
use sanirvoq::{Errno, Message, Reason, Setup, Space, TextRequest};

/// Bytes 8 to 15 of the worked window are protected.
fn protected() -> Session {
    Session::of(&Setup::new(B, 64, &TWO).protecting(4_104..4_112))
}

fn refused() -> [u8; 10] {
    Message::Rerr(Reason::Unsup).encode().expect("a message")
}

fn put(s: &mut Session, addr: u32, n: u8) -> [u8; 10] {
    let mut data = [0; 4];
    data[..usize::from(n)].fill(0xff);
    s.ask(Message::Tmput { addr, n, data }.encode().expect("a message"))
}

#[test]
#[cfg_attr(not(archive), ignore = "needs libsanirvoq.a")]
fn a_write_that_touches_it_is_unsup() {
    let mut s = protected();
    let before = s.clone();
    for (addr, n) in [(4_104, 1), (4_111, 1), (4_101, 4), (4_103, 2), (4_110, 4), (4_104, 4)] {
        assert_eq!(put(&mut s, addr, n), refused(), "{addr} {n}");
    }
    assert_eq!(s, before);
    for (addr, n) in [(4_100, 4), (4_112, 4), (4_104, 0)] {
        assert_eq!(put(&mut s, addr, n), ten(5, &[]), "{addr} {n}");
    }
    assert_eq!(s.ask(mget(4_104, 8)), ten(3, &[8, 9, 10, 11, 12, 13, 14, 15]));
}

#[test]
#[cfg_attr(not(archive), ignore = "needs libsanirvoq.a")]
fn no_breakpoint_stands_in_it() {
    let mut s = protected();
    for site in [4_104, 4_110] {
        assert_eq!(s.ask(cond(b'n', 1)), ten(17, &[]));
        assert_eq!(s.ask(cond(b'b', site)), refused(), "{site}");
        assert!(s.stub.raw().in_hand().is_none(), "the condition in hand is dropped");
    }
    s.plant(1, &[], 4_102);
    s.plant(2, &[], 4_112);
}

#[test]
#[cfg_attr(not(archive), ignore = "needs libsanirvoq.a")]
fn a_word_of_it_is_eacces() {
    let mut s = protected();
    let write = |address| TextRequest::WriteWord { space: Space::Data, address, data: 1 };
    let mut typed = |request| s.stub.text_request(&mut s.memory, &mut s.registers, request);
    assert_eq!(typed(write(4_104)), Ok(Err(Errno::Eacces)));
    assert_eq!(typed(write(4_108)), Ok(Err(Errno::Eacces)));
    assert_eq!(typed(write(4_105)), Ok(Err(Errno::Einval)), "alignment comes first");
    assert_eq!(typed(write(4_100)), Ok(Ok(0x0706_0504)));
    let read = TextRequest::ReadWord { space: Space::Instruction, address: 4_108 };
    assert_eq!(typed(read), Ok(Ok(0x0f0e_0d0c)));
}
