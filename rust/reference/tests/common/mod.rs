//! Shared by the tests: the worked setup, the bytes of requests, and what is asked of them.
#![allow(dead_code)]

use reference::{Reason, Refusal, Session, Verdict, BLOCK, PC};

pub const B: u32 = 4_096;

/// A number, then zeros.
pub fn ten(kind: u8, number: u32, rest: &[u8]) -> [u8; 10] {
    let mut bytes = [0; 10];
    bytes[0] = kind;
    bytes[1..5].copy_from_slice(&number.to_be_bytes());
    bytes[5..5 + rest.len()].copy_from_slice(rest);
    bytes
}

pub fn mget(address: u32, n: u8) -> [u8; 10] {
    ten(2, address, &[n])
}

pub fn mput(address: u32, data: &[u8]) -> [u8; 10] {
    ten(4, address, &[&[data.len() as u8], data].concat())
}

pub fn cond(letter: u8, val: u32) -> [u8; 10] {
    ten(16, val, &[letter])
}

/// A reply: its type and what follows, zero padded.
pub fn reply(kind: u8, data: &[u8]) -> [u8; 10] {
    let mut bytes = [0; 10];
    bytes[0] = kind;
    bytes[1..1 + data.len()].copy_from_slice(data);
    bytes
}

pub fn rerr(reason: Reason) -> [u8; 10] {
    reply(1, &reason.text())
}

/// A request that must get number 0, with the plain bytes that the answer has beside the reply.
pub fn ask_both(session: &mut Session, request: [u8; 10]) -> ([u8; 10], Option<[u8; 2]>) {
    let mut answer = [0xee; 10];
    let Session { stub, memory, registers } = session;
    let plain = stub.request(memory, registers, &request, &mut answer);
    (answer, plain.expect("number 0"))
}

/// A request that must get number 0 and the reply alone.
pub fn ask(session: &mut Session, request: [u8; 10]) -> [u8; 10] {
    let (answer, plain) = ask_both(session, request);
    assert_eq!(plain, None, "{request:02x?}");
    answer
}

/// A Tstart that must be accepted; the plain bytes of its answer.
pub fn start(session: &mut Session, pid: u32) -> Option<[u8; 2]> {
    let (answer, plain) = ask_both(session, ten(14, pid, &[]));
    assert_eq!(answer, reply(15, &[]));
    plain
}

/// A condition and its b; all must be accepted.
pub fn plant(session: &mut Session, id: u32, list: &[(u8, u32)], site: u32) {
    for (letter, val) in [&[(b'n', id)], list, &[(b'b', site)]].concat() {
        assert_eq!(ask(session, cond(letter, val)), reply(17, &[]), "{}", char::from(letter));
    }
}

/// A block of one byte with this pc.
pub fn block(fill: u8, pc: u32) -> [u8; BLOCK] {
    let mut bytes = [fill; BLOCK];
    bytes[PC..].copy_from_slice(&pc.to_be_bytes());
    bytes
}

pub fn trap(session: &mut Session, pid: u32, pc: u32) -> Result<Verdict, Refusal> {
    let Session { stub, memory, registers } = session;
    stub.trap(memory, registers, pid, &block(0xab, pc))
}

pub fn schedule(session: &mut Session, pid: u32, pc: u32) -> Result<bool, Refusal> {
    let Session { stub, memory, registers } = session;
    stub.schedule(memory, registers, pid, &block(0xcd, pc))
}

pub fn state(session: &mut Session, pid: u32, value: u8) -> Result<(), Refusal> {
    let Session { stub, memory, registers } = session;
    stub.state(memory, registers, pid, value)
}

pub fn restart(session: &mut Session) -> [u8; 10] {
    let mut answer = [0xee; 10];
    let Session { stub, memory, registers } = session;
    assert_eq!(stub.restart(memory, registers, &mut answer), Ok(()));
    answer
}

/// splitmix64.
pub struct Rng(pub u64);

impl Rng {
    pub fn next(&mut self) -> u64 {
        self.0 = self.0.wrapping_add(0x9e37_79b9_7f4a_7c15);
        let mut z = self.0;
        z = (z ^ (z >> 30)).wrapping_mul(0xbf58_476d_1ce4_e5b9);
        z = (z ^ (z >> 27)).wrapping_mul(0x94d0_49bb_1331_11eb);
        z ^ (z >> 31)
    }

    pub fn below(&mut self, n: u64) -> u64 {
        self.next() % n
    }

    pub fn bytes(&mut self, length: usize) -> Vec<u8> {
        (0..length).map(|_| self.next() as u8).collect()
    }
}
