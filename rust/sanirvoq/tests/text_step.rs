//! Text requests over a stub.

mod common;

use common::*;
use sanirvoq::{Errno, Refusal, Space, TextReply, TextRequest, TEXT};

const OTHER: u8 = 0xee;

impl Session {
    /// The reply's text, seen to be all that was filled and to say what the answer says. An error
    /// must leave everything.
    fn text(&mut self, request: &str) -> String {
        let (before, mut buffer) = (self.clone(), [OTHER; 60]);
        let Session { stub, memory, registers } = self;
        let served = stub.text(memory, registers, request.as_bytes(), &mut buffer).unwrap();
        let (text, carried_out, reply) = (served.text(), served.is_carried_out(), served.reply());
        let text = String::from_utf8(text.to_vec()).unwrap();
        assert_eq!(carried_out, reply.is_ok());
        assert!(buffer[text.len()..].iter().all(|&byte| byte == OTHER), "{request}");
        if !carried_out {
            assert_eq!(*self, before, "{request}");
        }
        text
    }

    /// What a step of these bytes over a buffer of this length is refused with. It must leave
    /// everything.
    fn refused(&mut self, request: &[u8], length: usize) -> Option<Refusal> {
        let (before, mut buffer) = (self.clone(), vec![OTHER; length]);
        let Session { stub, memory, registers } = self;
        let refusal = stub.text(memory, registers, request, &mut buffer).err();
        if refusal.is_some() {
            assert_eq!((&*self, buffer), (&before, vec![OTHER; length]));
        }
        refusal
    }

    fn typed(&mut self, request: TextRequest) -> TextReply {
        let Session { stub, memory, registers } = self;
        stub.text_request(memory, registers, request).expect("number 0")
    }
}

/// Process 7 is current and Stopped, with registers of cd and pc 4,104.
fn stopped() -> Session {
    let mut s = Session::worked();
    s.ask(with(12, 7, &[]));
    assert_eq!(s.schedule(7, 4_104), Ok(true));
    s.ask(with(6, 7, &[]));
    s
}

#[test]
#[cfg_attr(not(archive), ignore = "needs libsanirvoq.a")]
fn the_example_of_the_papers() {
    assert_eq!(Session::worked().text("0x0 i 0x1004 0x0"), "0x0 i 0x0 0x7060504");
}

#[test]
#[cfg_attr(not(archive), ignore = "needs libsanirvoq.a")]
fn words_across_two_traps() {
    let mut s = Session::worked();
    s.plant(3, &[], 4_104);
    s.plant(4, &[], 4_106);
    assert_eq!(s.text("0x0 D 0x1008 0x44332211"), "0x0 D 0x0 0xb0a0908");
    assert_eq!(s.memory[8..12], [0x02, 0x90, 0x02, 0x90]);
    assert_eq!(s.text("0x0 d 0x1008 0x0"), "0x0 d 0x0 0x44332211");
    s.ask(cond(b'd', 3));
    assert_eq!(s.memory[8..12], [0x11, 0x22, 0x02, 0x90]);
    s.ask(cond(b'd', 4));
    assert_eq!(s.memory[8..12], [0x11, 0x22, 0x33, 0x44]);
}

#[test]
#[cfg_attr(not(archive), ignore = "needs libsanirvoq.a")]
fn registers_high_order_first() {
    let mut s = stopped();
    assert_eq!(s.text("0x0 r 0x21 0x0"), "0x0 r 0x0 0x1008");
    assert_eq!(s.text("0x0 R 0x21 0x1020304"), "0x0 R 0x0 0x1008");
    assert_eq!(s.registers[136 + 132..], [1, 2, 3, 4]);
    assert_eq!(s.text("0x0 r 0x0 0x0"), "0x0 r 0x0 0xcdcdcdcd");
    assert_eq!(s.registers[..136], [0; 136]);
}

#[test]
#[cfg_attr(not(archive), ignore = "needs libsanirvoq.a")]
fn errors_in_their_order() {
    let mut s = Session::worked();
    for (request, reply) in [
        ("0x7 c 0x1 0x0", "0x7 c 0xffffffff 0x16"),
        ("0x0 s 0x1 0x0", "0x0 s 0xffffffff 0x16"),
        ("0x7 i 0x1 0x0", "0x7 i 0xffffffff 0x3"),
        ("0x7 R 0x0 0x0", "0x7 R 0xffffffff 0x3"),
        ("0x0 I 0x2 0x0", "0x0 I 0xffffffff 0x16"),
        ("0x0 I 0x1040 0x0", "0x0 I 0xffffffff 0xe"),
        ("0x0 d 0xffc 0x0", "0x0 d 0xffffffff 0xe"),
        ("0x0 r 0x22 0x0", "0x0 r 0xffffffff 0x16"),
        ("0x0 R 0x0 0x0", "0x0 R 0xffffffff 0x16"),
        ("0x0 r 0x1 0x0", "0x0 r 0xffffffff 0x3"),
    ] {
        assert_eq!(s.text(request), reply);
    }
    s.ask(with(6, 5, &[]));
    assert_eq!(s.text("0x0 R 0x22 0x0"), "0x0 R 0xffffffff 0x16");
    assert_eq!(s.text("0x0 R 0x1 0x0"), "0x0 R 0xffffffff 0x10");
}

#[test]
#[cfg_attr(not(archive), ignore = "needs libsanirvoq.a")]
fn the_buffer_comes_after_the_record_and_before_the_text() {
    let (whole, none) = (&b"0x0 i 0x1004 0x0"[..], &b"0x0 i 0x01004 0x0"[..]);
    let mut s = Session::worked();
    for length in [0, 16, TEXT - 1] {
        assert_eq!(s.refused(whole, length), Some(Refusal::TextBuffer));
        assert_eq!(s.refused(none, length), Some(Refusal::TextBuffer));
    }
    for length in [TEXT, TEXT + 1, 200] {
        assert_eq!(s.refused(whole, length), None);
        assert_eq!(s.refused(none, length), Some(Refusal::NoPacket));
        assert_eq!(s.refused(b"", length), Some(Refusal::NoPacket));
        assert_eq!(s.refused(&[b'0'; 300], length), Some(Refusal::NoPacket));
    }
    s.plant(3, &[], 4_104);
    s.memory[8] = 0;
    assert_eq!(s.refused(none, 0), Some(Refusal::Unfit));
    s.memory.push(0);
    assert_eq!(s.refused(none, 0), Some(Refusal::Size));
}

#[test]
#[cfg_attr(not(archive), ignore = "needs libsanirvoq.a")]
fn typed_requests() {
    let mut s = stopped();
    let read = |space, address| TextRequest::ReadWord { space, address };
    let write = |space, address, data| TextRequest::WriteWord { space, address, data };
    for space in [Space::Instruction, Space::Data] {
        assert_eq!(s.typed(read(space, 0x103c)), Ok(0x3f3e_3d3c));
        assert_eq!(s.typed(write(space, 0x1000, 0x0403_0201)), Ok(0x0302_0100));
        assert_eq!(s.memory[..4], [1, 2, 3, 4]);
        assert_eq!(s.typed(write(space, 0x1000, 0x0302_0100)), Ok(0x0403_0201));
        assert_eq!(s.typed(read(space, 0x1040)), Err(Errno::Efault));
        assert_eq!(s.typed(write(space, u32::MAX, u32::MAX)), Err(Errno::Einval));
    }
    let register = |number| TextRequest::ReadRegister { number };
    assert_eq!(s.typed(TextRequest::WriteRegister { number: 1, data: 9 }), Ok(0xcdcd_cdcd));
    assert_eq!(s.typed(register(1)), Ok(9));
    assert_eq!(s.typed(TextRequest::WriteRegister { number: 0, data: 9 }), Err(Errno::Einval));
    s.ask(with(14, 7, &[]));
    assert_eq!(s.typed(register(1)), Err(Errno::Ebusy));
    s.restart();
    assert_eq!(s.typed(register(1)), Err(Errno::Esrch));
}
