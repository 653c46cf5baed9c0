//! `compare_frames [--seed N] [--lines N] [--damaged N]` feeds the proved reader and the independent one the
//! same random and damaged lines, cut at random, and frames the same replies. It prints how often
//! each answer came in each phase, then how many damaged packets the proved reader accepted with
//! another content; the last line is `no difference`.

#![forbid(unsafe_code)]

use reference::frame::{self, Answer, Due, FrameReader};
use sanirvoq::ffi::FrameFed;
use sanirvoq::{call, FRAMED_REPLY, FRAME_BUFFER};
use std::process::ExitCode;

/// A generator of random numbers (xorshift64*).
struct Random(u64);

impl Random {
    fn next(&mut self) -> u64 {
        self.0 ^= self.0 >> 12;
        self.0 ^= self.0 << 25;
        self.0 ^= self.0 >> 27;
        self.0.wrapping_mul(0x2545_f491_4f6c_dd1d) >> 16
    }

    fn below(&mut self, n: usize) -> usize {
        (self.next() % n as u64) as usize
    }

    fn bytes(&mut self, n: usize) -> Vec<u8> {
        (0..n).map(|_| self.next() as u8).collect()
    }

    fn id(&mut self) -> u32 {
        match self.below(3) {
            0 => self.next() as u32,
            1 => self.next() as u16 as u32,
            _ => 0x8000 | self.next() as u16 as u32,
        }
    }

    fn packet(&mut self) -> Vec<u8> {
        let length = match self.below(8) {
            0 => 0,
            1 => 1,
            2 => 532,
            3 => 533,
            4 => self.below(600),
            _ => 10,
        };
        frame::frame(self.id(), &self.bytes(length))
    }

    /// Flips, drops or doubles some bytes.
    fn damage(&mut self, line: &mut Vec<u8>) {
        for _ in 0..=self.below(3) {
            let at = self.below(line.len());
            match self.below(3) {
                0 => line[at] ^= 1 << self.below(8),
                1 => drop(line.remove(at)),
                _ => line.insert(at, line[at]),
            }
            if line.is_empty() {
                return;
            }
        }
    }

    /// A stretch of the line: a packet whole, damaged, cut, padded wrongly or with one byte set, or noise.
    fn stretch(&mut self) -> Vec<u8> {
        let mut line = self.packet();
        match self.below(6) {
            0 => {}
            1 => self.damage(&mut line),
            2 => line.truncate(self.below(line.len())),
            3 => {
                let at = self.below(line.len());
                line[at] = [0x1d, 0x1e, 0x1f, 0x7f, 0x80, 0xff][self.below(6)];
            }
            4 => {
                let last = [10, line.len() - 2][self.below(2)];
                line[last] |= 1;
            }
            _ => {
                let length = self.below(40);
                line = self.bytes(length);
            }
        }
        line
    }
}

/// What the proved reader answers, in the independent one's terms.
fn told(fed: &FrameFed) -> Option<Answer> {
    let a = fed.answer;
    match a.kind {
        1 => Some(Answer::Packet { id: a.id, length: usize::from(a.size) }),
        2 => Some(Answer::BadHeader),
        3 => Some(Answer::BadBody { index: a.index, sequence: a.sequence }),
        _ => None,
    }
}

/// How often each answer came in each phase: packet, header bad, body bad.
#[derive(Default)]
struct Reached([[u64; 3]; 4]);

impl Reached {
    fn note(&mut self, due: Due, answer: Option<Answer>) {
        let kind = match answer {
            None => return,
            Some(Answer::Packet { .. }) => 0,
            Some(Answer::BadHeader) => 1,
            Some(Answer::BadBody { .. }) => 2,
        };
        self.0[due as usize][kind] += 1;
    }

    /// In a header only a bad header; in a body both faults; before the end everything.
    fn all(&self) -> bool {
        let [_, header, body, end] = self.0;
        header[1] > 0 && body[1] > 0 && body[2] > 0 && end.iter().all(|&n| n > 0)
    }
}

fn same(ok: bool, what: &str, line: &[u8]) -> Result<(), String> {
    if ok {
        Ok(())
    } else {
        Err(format!("differ in {what}: {line:02x?}"))
    }
}

fn line(random: &mut Random, reached: &mut Reached) -> Result<u64, String> {
    let line: Vec<u8> = (0..1 + random.below(4)).flat_map(|_| random.stretch()).collect();
    let room = FRAME_BUFFER + random.below(3);
    let fill = random.next() as u8;
    let (mut left, mut right) = (vec![fill; room], vec![fill; room]);
    let (mut proved, mut other) = (call::frame_reader(), FrameReader::new());
    let mut at = 0;
    while at < line.len() {
        let size = [1, 2, 1 + random.below(30), line.len()][random.below(4)].min(line.len() - at);
        let piece = &line[at..at + size];
        let short = call::frame_feed(proved, piece, &mut left[..FRAME_BUFFER - 1]);
        same(
            short.number == 12 && short.taken == 0 && short.reader == proved,
            "a short buffer",
            &line,
        )?;
        let fed = call::frame_feed(proved, piece, &mut left);
        let mut due = other.due();
        // Byte by byte, so that the phase in which an answer comes is known.
        let (mut taken, mut answer) = (0, None);
        while taken < piece.len() && answer.is_none() {
            due = other.due();
            answer = other.feed(&piece[taken..=taken], &mut right).and_then(|(_, a)| a);
            taken += 1;
        }
        reached.note(due, answer);
        same(fed.number == 0 && fed.taken == taken as u64, "the bytes taken", &line)?;
        same(told(&fed) == answer, "the answer", &line)?;
        same(left == right, "the buffer", &line)?;
        let request = answer.is_some_and(Answer::is_request);
        same((fed.answer.request == 1) == request, "what is a request", &line)?;
        proved = fed.reader;
        at += taken;
    }
    Ok(line.len() as u64)
}

fn reply(random: &mut Random) -> Result<(), String> {
    let sequence = [random.next() as u32, random.below(260) as u32][random.below(2)];
    let length = [10, 10, 9, 11][random.below(4)];
    let message = random.bytes(length);
    let room = [FRAMED_REPLY, FRAMED_REPLY, FRAMED_REPLY - 1, FRAMED_REPLY + 1][random.below(4)];
    let (mut left, mut right) = (vec![7; room], vec![7; room]);
    let number = call::frame_reply(sequence, &message, &mut left);
    same(
        number == frame::frame_reply(sequence, &message, &mut right) && left == right,
        "a reply",
        &message,
    )
}

/// A request on a cable that flips, drops and doubles bytes: whether it was damaged, and whether a
/// packet came out of it that is not the one sent.
fn cable(random: &mut Random) -> (bool, bool) {
    let body = random.bytes(10);
    let id = 0x8000 | random.next() as u8 as u32;
    let sent = frame::frame(id, &body);
    let mut line = sent.clone();
    random.damage(&mut line);
    if line == sent {
        return (false, false);
    }
    let (mut reader, mut buffer, mut at) = (call::frame_reader(), [0; FRAME_BUFFER], 0);
    while at < line.len() {
        let fed = call::frame_feed(reader, &line[at..], &mut buffer);
        if fed.answer.kind == 1
            && (fed.answer.id != id || buffer[..usize::from(fed.answer.size)] != body)
        {
            return (true, true);
        }
        reader = fed.reader;
        at += fed.taken as usize;
    }
    (true, false)
}

fn run(seed: u64, lines: u64, damaged: u64) -> Result<(), String> {
    let (mut random, mut reached) = (Random(seed.wrapping_mul(2) + 1), Reached::default());
    let mut bytes = 0;
    for _ in 0..lines {
        bytes += line(&mut random, &mut reached)?;
        reply(&mut random)?;
    }
    println!("{lines} lines, {bytes} bytes; answers (packet, header bad, body bad)");
    for (due, counts) in
        ["skipping", "in a header", "in a body", "before the end"].iter().zip(reached.0)
    {
        println!("  {due}: {counts:?}");
    }
    if lines >= 20_000 && !reached.all() {
        return Err("some answer was not reached".into());
    }
    let (mut all, mut wrong) = (0u64, 0u64);
    while all < damaged {
        let (hit, accepted) = cable(&mut random);
        all += u64::from(hit);
        wrong += u64::from(accepted);
    }
    if damaged > 0 {
        let share = 65536.0 * wrong as f64 / all as f64;
        println!(
            "{all} damaged packets, {wrong} accepted with another content: {share:.3} in 65536"
        );
    }
    println!("no difference");
    Ok(())
}

fn main() -> ExitCode {
    let (mut seed, mut lines, mut damaged) = (1, 100_000, 0);
    let words: Vec<String> = std::env::args().skip(1).collect();
    for pair in words.chunks(2) {
        let value = pair.get(1).and_then(|v| v.parse().ok());
        match (pair[0].as_str(), value) {
            ("--seed", Some(n)) => seed = n,
            ("--lines", Some(n)) => lines = n,
            ("--damaged", Some(n)) => damaged = n,
            _ => {
                eprintln!("frames [--seed N] [--lines N] [--damaged N]");
                return ExitCode::from(2);
            }
        }
    }
    match run(seed, lines, damaged) {
        Ok(()) => ExitCode::SUCCESS,
        Err(text) => {
            println!("{text}");
            ExitCode::FAILURE
        }
    }
}
