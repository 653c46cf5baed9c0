//! Packets of the text dialect.

use reference::{read_text, write_text, NotText, TextPacket, LONGEST_TEXT};

fn packet(pid: u32, letter: u8, third: u32, fourth: u32) -> TextPacket {
    TextPacket { pid, letter, third, fourth }
}

/// The answer over a buffer of so many bytes, and the buffer.
fn written(packet: TextPacket, length: usize) -> (Result<usize, NotText>, Vec<u8>) {
    let mut buffer = vec![0xee; length];
    let done = write_text(packet, &mut buffer);
    (done, buffer)
}

const TEXTS: [(&str, TextPacket); 5] = [
    ("0x0 i 0x1004 0x0", TextPacket { pid: 0, letter: b'i', third: 0x1004, fourth: 0 }),
    ("0x0 i 0x0 0x7060504", TextPacket { pid: 0, letter: b'i', third: 0, fourth: 0x0706_0504 }),
    ("0x0 c 0xffffffff 0x16", TextPacket { pid: 0, letter: b'c', third: !0, fourth: 22 }),
    ("0x10 ! 0x1 0xabcdef", TextPacket { pid: 16, letter: b'!', third: 1, fourth: 0xab_cdef }),
    (
        "0xffffffff ~ 0xffffffff 0xffffffff",
        TextPacket { pid: !0, letter: b'~', third: !0, fourth: !0 },
    ),
];

#[test]
fn texts_are_written_and_read_back() {
    for (text, packet) in TEXTS {
        for length in [LONGEST_TEXT, LONGEST_TEXT + 1, 100] {
            let (done, buffer) = written(packet, length);
            assert_eq!(done, Ok(text.len()));
            assert_eq!(&buffer[..text.len()], text.as_bytes());
            assert!(buffer[text.len()..].iter().all(|&byte| byte == 0xee));
        }
        assert_eq!(read_text(text.as_bytes()), Ok(packet));
    }
    assert_eq!(TEXTS[4].0.len(), LONGEST_TEXT);
}

#[test]
fn a_short_buffer_comes_before_the_letter() {
    for letter in [b'i', 0x20, 0x7f] {
        for length in [0, 1, 33] {
            let refused = (Err(NotText::Buffer), vec![0xee; length]);
            assert_eq!(written(packet(0, letter, 0, 0), length), refused);
        }
    }
    for letter in [0, 0x20, 0x7f, 0xff] {
        let refused = (Err(NotText::NoPacket), vec![0xee; 34]);
        assert_eq!(written(packet(0, letter, 0, 0), 34), refused);
    }
    assert_eq!((NotText::NoPacket.number(), NotText::Buffer.number()), (10, 11));
}

#[test]
fn every_letter_of_the_range_and_no_other() {
    for letter in 0..=255 {
        let text = [b"0x0 ", &[letter][..], b" 0x0 0x0"].concat();
        let wanted = packet(0, letter, 0, 0);
        let is = (0x21..=0x7e).contains(&letter);
        assert_eq!(read_text(&text), if is { Ok(wanted) } else { Err(NotText::NoPacket) });
    }
}

#[test]
fn other_bytes_are_none() {
    for text in [
        "",
        " ",
        "0x0",
        "0x0 i 0x0",
        "0x0 i 0x0 ",
        "0x0 i 0x0 0x0 ",
        " 0x0 i 0x0 0x0",
        "0x0  i 0x0 0x0",
        "0x0 i  0x0 0x0",
        "0x0 i 0x0  0x0",
        "0x0 i 0x0 0x0q",
        "0x0 i 0x0 0x0\n",
        "0x0 i 0x0 0x0 0x0",
        "0x00 i 0x0 0x0",
        "0x0 i 0x01 0x0",
        "0x0 i 0x0 0x00000001",
        "0x0 i 0xA 0x0",
        "0X0 i 0x0 0x0",
        "0x0 i 0x100000000 0x0",
        "0x0 i 0x000000000 0x0",
        "0x i 0x0 0x0",
        "0 i 0x0 0x0",
        "0x0 i +0x0 0x0",
        "0x0 i 0x+1 0x0",
        "0x0 ii 0x0 0x0",
        "0x0\ti 0x0 0x0",
    ] {
        assert_eq!(read_text(text.as_bytes()), Err(NotText::NoPacket), "{text:?}");
    }
}
