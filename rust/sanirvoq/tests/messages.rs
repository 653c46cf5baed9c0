//! The message writer and reader.

mod common;

use common::*;
use sanirvoq::{Message, Reason, Refusal, MESSAGE};

/// What the writer answers; a refused one must leave the buffer.
fn written(message: Message) -> Result<[u8; MESSAGE], Refusal> {
    let mut buffer = [0xee; MESSAGE];
    let done = message.encode_to(&mut buffer);
    if done.is_err() {
        assert_eq!(buffer, [0xee; MESSAGE]);
    }
    done.map(|()| buffer)
}

/// One of every kind, with its ten bytes.
fn every_kind() -> [(Message, [u8; MESSAGE]); 17] {
    let nine = [0xf1, 2, 3, 4, 5, 6, 7, 8, 0xf9];
    [
        (Message::Rerr(Reason::Reset), [1, 0x72, 0x65, 0x73, 0x65, 0x74, 0, 0, 0, 0]),
        (Message::Tmget { addr: 0x1004, n: 4 }, [2, 0, 0, 0x10, 4, 4, 0, 0, 0, 0]),
        (Message::Rmget(nine), ten(3, &nine)),
        (
            Message::Tmput { addr: 0x1009, n: 3, data: [0xaa, 0xbb, 0xcc, 0] },
            [4, 0, 0, 0x10, 9, 3, 0xaa, 0xbb, 0xcc, 0],
        ),
        (Message::Rmput, ten(5, &[])),
        (Message::Tproc(0x0102_0304), ten(6, &[1, 2, 3, 4])),
        (Message::Rproc(0x8000_1000), [7, 0x38, 0x30, 0x30, 0x30, 0x31, 0x30, 0x30, 0x30, 0]),
        (Message::Tstatus(5), ten(8, &[0, 0, 0, 5])),
        (Message::Rstatus(9), [9, 0x52, 0x65, 0x6e, 0x64, 0x65, 0x7a, 0x76, 0x6f, 0x75]),
        (Message::Trnote(u32::MAX), ten(10, &[0xff; 4])),
        (Message::Rrnote, ten(11, &[])),
        (Message::Tstop(0), ten(12, &[])),
        (Message::Rstop, ten(13, &[])),
        (Message::Tstart(256), ten(14, &[0, 0, 1, 0])),
        (Message::Rstart, ten(15, &[])),
        (Message::Tcondbreak { val: 3, op: b'n' }, [0x10, 0, 0, 0, 3, 0x6e, 0, 0, 0, 0]),
        (Message::Rcondbreak, ten(17, &[])),
    ]
}

#[test]
#[cfg_attr(not(archive), ignore = "needs libsanirvoq.a")]
fn every_kind_has_its_bytes() {
    for (message, bytes) in every_kind() {
        assert_eq!(written(message), Ok(bytes), "{message}");
        assert_eq!(message.try_into(), Ok(bytes));
        assert_eq!(bytes.try_into(), Ok(message));
        assert_eq!(Message::decode(&bytes), Ok(message));
    }
}

#[test]
#[cfg_attr(not(archive), ignore = "needs libsanirvoq.a")]
fn reasons_and_states_have_their_texts() {
    let reasons = ["reset", "count", "unk", "inval", "pid", "unsup", "notstop"];
    for (reason, text) in Reason::ALL.into_iter().zip(reasons) {
        assert_eq!(written(Message::Rerr(reason)), Ok(rerr(text)));
        assert_eq!(Message::decode(&rerr(text)), Ok(Message::Rerr(reason)));
    }
    let names = "Dead Moribund Ready Scheding Running Queueing Wakeme Broken Stopped Rendezvou";
    let named = names.split(' ').map(str::to_owned);
    for (state, text) in (0..=255).zip(named.chain((10..=255).map(|state| format!("{state:x}")))) {
        let bytes = ten(9, text.as_bytes());
        assert_eq!(written(Message::Rstatus(state)), Ok(bytes), "{state}");
        assert_eq!(Message::decode(&bytes), Ok(Message::Rstatus(state)));
    }
}

/// Messages with numbers of every kind: counts, letters, values at the ends.
fn samples() -> Vec<Message> {
    let mut all = vec![Message::Rmget([0; 9]), Message::Rmget([0xff; 9])];
    for number in [0, 1, 5, 256, 0x1001, 0xabcd_ef09, u32::MAX] {
        let with_pid = [Message::Tproc, Message::Tstatus, Message::Trnote, Message::Tstop];
        all.extend(with_pid.map(|message| message(number)));
        all.extend([Message::Tstart(number), Message::Rproc(number)]);
        all.extend((0..=9).map(|n| Message::Tmget { addr: number, n }));
        all.extend((0..=4).map(|n| {
            let data = [0, 1, 2, 3].map(|i| if i < n { 0xf0 + i } else { 0 });
            Message::Tmput { addr: number, n, data }
        }));
        all.extend((*b"nkpbd").map(|op| Message::Tcondbreak { val: number, op }));
    }
    all.extend((*b"*&=!ao").map(|op| Message::Tcondbreak { val: 0, op }));
    all
}

#[test]
#[cfg_attr(not(archive), ignore = "needs libsanirvoq.a")]
fn reading_gives_back_what_was_written() {
    for message in samples() {
        assert_eq!(written(message).and_then(|bytes| Message::decode(&bytes)), Ok(message));
    }
}

#[test]
#[cfg_attr(not(archive), ignore = "needs libsanirvoq.a")]
fn the_writer_refuses_what_is_no_message() {
    let none = [
        Message::Tmget { addr: 0x1000, n: 10 },
        Message::Tmget { addr: 0x1000, n: 255 },
        Message::Tmput { addr: 0x1000, n: 5, data: [0; 4] },
        Message::Tmput { addr: 0x1000, n: 3, data: [1; 4] },
        Message::Tmput { addr: 0x1000, n: 0, data: [0, 0, 0, 1] },
        Message::Tcondbreak { val: 0, op: b'z' },
        Message::Tcondbreak { val: 0, op: 0 },
        Message::Tcondbreak { val: 1, op: b'*' },
        Message::Tcondbreak { val: 1 << 24, op: b'a' },
    ];
    for message in none {
        assert_eq!(written(message), Err(Refusal::NoMessage), "{message:?}");
    }
}

#[test]
#[cfg_attr(not(archive), ignore = "needs libsanirvoq.a")]
fn the_reader_refuses_what_no_message_writes() {
    let mut none: Vec<_> = [0].into_iter().chain(18..=255).map(|kind| ten(kind, &[])).collect();
    none.extend(["", "RESET", "reset!", "notstop\0x"].map(rerr));
    none.extend(
        ["", "0c", "00", "C", "Rendezvo", "Stopped\0x"].map(|text| ten(9, text.as_bytes())),
    );
    none.extend(
        ["8000100", "8000100A", "80001000x", "8000100g"].map(|text| ten(7, text.as_bytes())),
    );
    none.extend([mget(0x1000, 10), with(4, 0x1000, &[5]), with(4, 0x1000, &[3, 1, 2, 3, 4])]);
    none.extend([cond(b'z', 0), cond(b'o', 1), cond(0, 0)]);
    for kind in [2, 4, 5, 6, 8, 10, 11, 12, 13, 14, 15, 16, 17] {
        let mut last = with(kind, 0, if kind == 16 { b"n" } else { b"" });
        last[9] = 1;
        none.push(last);
    }
    for bytes in none {
        assert_eq!(Message::decode(&bytes), Err(Refusal::NoMessage), "{bytes:02x?}");
    }
}

#[test]
#[cfg_attr(not(archive), ignore = "needs libsanirvoq.a")]
fn sizes_come_before_messages() {
    for length in [0, 9, 11, 20] {
        let mut buffer = vec![0xee; length];
        let none = Message::Tmget { addr: 0, n: 10 };
        assert_eq!(Message::Rmput.encode_to(&mut buffer), Err(Refusal::Size));
        assert_eq!(none.encode_to(&mut buffer), Err(Refusal::Size));
        assert_eq!(Message::decode(&buffer), Err(Refusal::Size));
        assert_eq!(buffer, vec![0xee; length]);
    }
}
