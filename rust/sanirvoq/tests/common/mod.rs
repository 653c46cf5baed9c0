//! Shared by the tests: the worked setup, the bytes of requests, and what is asked of the stub.
#![allow(dead_code)]

use sanirvoq::{Process, Refusal, Served, Setup, Stub, Verdict, BLOCK, MESSAGE};

pub const B: u32 = 4_096;
pub const TWO: [Process; 2] =
    [Process { pid: 5, address: 0x8000_1000 }, Process { pid: 7, address: 0x8000_2000 }];

/// A stub and what the kernel lends it.
#[derive(Debug, Clone, PartialEq, Eq)]
pub struct Session {
    pub stub: Stub,
    pub memory: Vec<u8>,
    pub registers: Vec<u8>,
}

impl Session {
    /// The worked setup: 64 bytes at 4,096, byte i is i, processes 5 and 7.
    pub fn worked() -> Self {
        Self::of(&Setup::new(B, 64, &TWO))
    }

    /// A setup of two processes over 64 bytes, byte i is i, which must be accepted.
    pub fn of(setup: &Setup<'_>) -> Self {
        let memory: Vec<u8> = (0..64).collect();
        let registers = vec![0; TWO.len() * BLOCK];
        let stub = Stub::setup(setup, &memory, &registers).unwrap();
        Self { stub, memory, registers }
    }

    /// A request that must get number 0 and the reply alone.
    pub fn ask(&mut self, request: [u8; MESSAGE]) -> [u8; MESSAGE] {
        let (reply, served) = self.served(request);
        assert_eq!(served, Served::Reply, "{request:02x?}");
        reply
    }

    /// A request that must get number 0, with what it leaves to the kernel.
    pub fn served(&mut self, request: [u8; MESSAGE]) -> ([u8; MESSAGE], Served) {
        let mut reply = [0xee; MESSAGE];
        let done = self.stub.request(&mut self.memory, &mut self.registers, &request, &mut reply);
        (reply, done.expect("number 0"))
    }

    /// A Tstart that must be accepted.
    pub fn start(&mut self, pid: u32) -> Served {
        let (reply, served) = self.served(with(14, pid, &[]));
        assert_eq!(reply, ten(15, &[]));
        served
    }

    /// A condition and its b; all must be accepted.
    pub fn plant(&mut self, id: u32, list: &[(u8, u32)], site: u32) {
        for (letter, val) in [&[(b'n', id)], list, &[(b'b', site)]].concat() {
            assert_eq!(self.ask(cond(letter, val)), ten(17, &[]), "{}", char::from(letter));
        }
    }

    pub fn trap(&mut self, pid: u32, pc: u32) -> Result<Verdict, Refusal> {
        self.stub.trap(&mut self.memory, &mut self.registers, pid, &block(0xab, pc))
    }

    pub fn schedule(&mut self, pid: u32, pc: u32) -> Result<bool, Refusal> {
        self.stub.schedule(&mut self.memory, &mut self.registers, pid, &block(0xcd, pc))
    }

    pub fn state(&mut self, pid: u32, value: u8) -> Result<(), Refusal> {
        self.stub.state(&mut self.memory, &mut self.registers, pid, value)
    }

    pub fn restart(&mut self) -> [u8; MESSAGE] {
        let mut reply = [0xee; MESSAGE];
        let done = self.stub.restart(&mut self.memory, &mut self.registers, &mut reply);
        assert_eq!(done, Ok(()));
        reply
    }
}

/// A type and at most nine bytes, zero padded.
pub fn ten(kind: u8, data: &[u8]) -> [u8; MESSAGE] {
    let mut bytes = [0; MESSAGE];
    bytes[0] = kind;
    bytes[1..1 + data.len()].copy_from_slice(data);
    bytes
}

/// A type, a number of four bytes, and what follows.
pub fn with(kind: u8, number: u32, rest: &[u8]) -> [u8; MESSAGE] {
    ten(kind, &[&number.to_be_bytes(), rest].concat())
}

pub fn mget(address: u32, n: u8) -> [u8; MESSAGE] {
    with(2, address, &[n])
}

pub fn cond(letter: u8, val: u32) -> [u8; MESSAGE] {
    with(16, val, &[letter])
}

pub fn rerr(reason: &str) -> [u8; MESSAGE] {
    ten(1, reason.as_bytes())
}

/// A block of one byte with this pc.
pub fn block(fill: u8, pc: u32) -> [u8; BLOCK] {
    let mut bytes = [fill; BLOCK];
    bytes[132..].copy_from_slice(&pc.to_be_bytes());
    bytes
}
