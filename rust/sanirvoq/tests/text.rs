//! Packets of the text dialect.

use sanirvoq::call::{text_decode, text_encode};
use sanirvoq::ffi::{TextFound, TextWritten};
use sanirvoq::{NotText, TextPacket, TEXT};

const OTHER: u8 = 0xee;

fn packet(pid: u32, letter: u8, third: u32, fourth: u32) -> TextPacket {
    TextPacket { pid, letter, third, fourth }
}

/// The text, and what the buffer has behind it; a refused call must leave it all.
fn written(packet: TextPacket, length: usize) -> Result<(String, Vec<u8>), NotText> {
    let mut buffer = vec![OTHER; length];
    let done = packet.encode(&mut buffer).map(|text| text.to_vec());
    if done.is_err() {
        assert_eq!(buffer, vec![OTHER; length]);
    }
    done.map(|text| (String::from_utf8(text.clone()).unwrap(), buffer[text.len()..].to_vec()))
}

#[test]
#[cfg_attr(not(archive), ignore = "needs libsanirvoq.a")]
fn a_text_is_written_and_read_back() {
    for (packet, text) in [
        (packet(0, b'i', 0x1004, 0), "0x0 i 0x1004 0x0"),
        (packet(0, b'D', 0x1004, 0xdead_beef), "0x0 D 0x1004 0xdeadbeef"),
        (packet(7, b'R', u32::MAX, 22), "0x7 R 0xffffffff 0x16"),
        (packet(0x10, b'!', 1, 0x0fff_ffff), "0x10 ! 0x1 0xfffffff"),
        (packet(u32::MAX, b'~', u32::MAX, u32::MAX), "0xffffffff ~ 0xffffffff 0xffffffff"),
    ] {
        for length in [TEXT, TEXT + 1, 100] {
            let rest = vec![OTHER; length - text.len()];
            assert_eq!(written(packet, length), Ok((text.to_string(), rest)));
        }
        assert_eq!(TextPacket::decode(text.as_bytes()), Ok(packet));
    }
}

#[test]
#[cfg_attr(not(archive), ignore = "needs libsanirvoq.a")]
fn a_short_buffer_comes_before_the_letter() {
    for letter in [b'i', 0x20, 0x7f] {
        for length in [0, 1, TEXT - 1] {
            assert_eq!(written(packet(0, letter, 0, 0), length), Err(NotText::Buffer));
        }
    }
    for letter in [0, 0x20, 0x7f, 0xff] {
        assert_eq!(written(packet(0, letter, 0, 0), TEXT), Err(NotText::NoPacket));
    }
    assert_eq!((NotText::NoPacket.number(), NotText::Buffer.number()), (10, 11));
}

#[test]
#[cfg_attr(not(archive), ignore = "needs libsanirvoq.a")]
fn every_letter_of_the_range_and_no_other() {
    for letter in 0..=255 {
        let text = [b"0x0 ", &[letter][..], b" 0x0 0x0"].concat();
        let is = (0x21..=0x7e).contains(&letter);
        let wanted = if is { Ok(packet(0, letter, 0, 0)) } else { Err(NotText::NoPacket) };
        assert_eq!(TextPacket::decode(&text), wanted);
        assert_eq!(written(packet(0, letter, 0, 0), TEXT).is_ok(), is);
    }
}

#[test]
#[cfg_attr(not(archive), ignore = "needs libsanirvoq.a")]
fn other_bytes_are_no_packet() {
    let long = [b'0'; 200];
    assert_eq!(TextPacket::decode(&long), Err(NotText::NoPacket));
    for text in [
        "",
        " ",
        "0x0 i 0x0",
        "0x0 i 0x0 ",
        "0x0  i 0x0 0x0",
        "0x0 i 0x0  0x0",
        "0x0 i 0x0 0x0 ",
        "0x00 i 0x0 0x0",
        "0x0 i 0xA 0x0",
        "0X0 i 0x0 0x0",
        "0x0 i 0x100000000 0x0",
        "0x i 0x0 0x0",
    ] {
        assert_eq!(TextPacket::decode(text.as_bytes()), Err(NotText::NoPacket), "{text:?}");
    }
}

#[test]
#[cfg_attr(not(archive), ignore = "needs libsanirvoq.a")]
fn refused_calls_say_zeros() {
    let mut buffer = [OTHER; TEXT];
    assert_eq!(text_decode(b"0x1 i 0x2 0x3q"), TextFound { number: 10, ..TextFound::default() });
    let refused = TextWritten { number: 11, filled: 0 };
    assert_eq!(text_encode(packet(1, b'i', 2, 3).into(), &mut buffer[1..]), refused);
    let refused = TextWritten { number: 10, filled: 0 };
    assert_eq!(text_encode(packet(1, 0x7f, 2, 3).into(), &mut buffer), refused);
}
