//! What the calls of kinds 11 and 14 of `docs/CALLS.md` have in common: how they are read, and a
//! session of ordinary steps, a text step, and ordinary steps.

use reference::{body_length, Refusal, Session};
use std::io::{self, Read, Write};

/// What the program holds.
pub const MEMORY: u32 = 64;
pub const PROCESSES: u32 = 4;
const LENGTH: usize = 1_024;
const FILL: u8 = 0xee;

/// The input, taken from its front.
pub struct Input<'a>(&'a [u8]);

impl<'a> Input<'a> {
    pub fn take(&mut self, n: usize) -> Option<&'a [u8]> {
        let (taken, rest) = self.0.split_at_checked(n)?;
        self.0 = rest;
        Some(taken)
    }

    pub fn wide(&mut self, n: usize) -> Option<u64> {
        Some(self.take(n)?.iter().fold(0, |sum, &byte| sum << 8 | u64::from(byte)))
    }

    pub fn word(&mut self) -> Option<u32> {
        Some(self.wide(4)? as u32)
    }
}

/// A length is not held.
pub struct NotHeld;

/// The end of a call.
pub struct Steps<'a> {
    room: usize,
    text: &'a [u8],
    before: &'a [u8],
    after: &'a [u8],
}

impl<'a> Steps<'a> {
    /// None where the input ends inside it.
    pub fn of(input: &mut Input<'a>) -> Option<Result<Self, NotHeld>> {
        let mut lengths = [0; 4];
        for length in &mut lengths {
            *length = input.word()? as usize;
        }
        if lengths.iter().any(|&length| length > LENGTH) {
            return Some(Err(NotHeld));
        }
        let [room, text, before, after] = lengths;
        let (text, before, after) = (input.take(text)?, input.take(before)?, input.take(after)?);
        Some(Ok(Self { room, text, before, after }))
    }

    /// What they write over a session, and its memory then. With a refusal every step is refused so.
    pub fn run(self, mut session: Session, refusal: Option<Refusal>, answer: &mut Vec<u8>) {
        steps(&mut session, refusal, self.before, answer);
        text_step(&mut session, refusal, self.text, self.room, answer);
        steps(&mut session, refusal, self.after, answer);
        answer.extend(session.memory);
    }
}

/// Steps that end inside one, or at another kind, end there.
fn steps(session: &mut Session, refusal: Option<Refusal>, bytes: &[u8], answer: &mut Vec<u8>) {
    let mut input = Input(bytes);
    while let Some(&[kind]) = input.take(1) {
        let Some(length) = body_length(kind) else { return answer.push(0xff) };
        let Some(body) = input.take(length) else { return };
        match refusal {
            Some(refusal) => answer.push(refusal.number()),
            None => answer.extend(&session.step(kind, body)[..]),
        }
    }
}

fn text_step(
    session: &mut Session,
    refusal: Option<Refusal>,
    text: &[u8],
    room: usize,
    answer: &mut Vec<u8>,
) {
    if let Some(refusal) = refusal {
        return answer.push(refusal.number());
    }
    let mut reply = vec![FILL; room];
    let Session { stub, memory, registers } = session;
    match stub.text(memory, registers, text, &mut reply) {
        Ok(served) => {
            answer.push(0);
            answer.extend(&reply);
            answer.extend([u8::from(served.done.is_err()), served.filled as u8]);
        }
        Err(refusal) => answer.push(refusal.number()),
    }
}

/// A call's answer; none where the input ends inside it.
pub type Called = Option<Result<Vec<u8>, NotHeld>>;

/// Answers calls of one kind, until the input ends; another kind, or a length that is not held, writes
/// ff and ends it.
pub fn answer_all(kind: u8, call: fn(&mut Input<'_>) -> Called) -> io::Result<()> {
    let mut bytes = Vec::new();
    io::stdin().read_to_end(&mut bytes)?;
    let (mut input, mut output) = (Input(&bytes), Vec::new());
    while let Some(&[found]) = input.take(1) {
        let answered = if found == kind { call(&mut input) } else { Some(Err(NotHeld)) };
        match answered {
            Some(Ok(answer)) => output.extend(answer),
            Some(Err(NotHeld)) => {
                output.push(0xff);
                break;
            }
            None => break,
        }
    }
    io::stdout().write_all(&output)
}
