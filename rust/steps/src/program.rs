//! Random steps in the program's format, over the worked setup.

use crate::burst::Generator;
use crate::places::Held;
use crate::step::Step;
use crate::table::Section;
use crate::tally::Tally;
use reference::Session;
use std::io::{self, Write};

/// The numbers that the program can show, by kind. It has no setup.
const NUMBERS: [&[usize]; 6] = [&[], &[0], &[0, 4, 5, 6], &[0, 4], &[0, 4, 5], &[0]];

/// Writes random steps; never a kind other than 1 to 5, never a cut step. Gives what they came to
/// in a session of the independent stub.
pub fn write(seed: u64, count: u64, output: impl Write) -> io::Result<[Section; 8]> {
    let mut tally = Tally::default();
    write_over(Session::worked(), seed, count, output, &mut tally)?;
    Ok(tally.sections(&NUMBERS, false))
}

/// The same over any session, with what they came to counted.
pub fn write_over(
    mut session: Session,
    seed: u64,
    count: u64,
    mut output: impl Write,
    tally: &mut Tally,
) -> io::Result<()> {
    let mut generator = Generator::new(seed);
    let mut left = count;
    while left > 0 {
        let mut burst = generator.burst(&session.stub, &session.memory);
        burst.act();
        for step in burst.steps {
            if left == 0 {
                break;
            }
            left -= 1;
            output.write_all(&run(&step, &mut session, tally))?;
        }
    }
    output.flush()
}

/// Runs a step in the session. Gives its bytes.
fn run(step: &Step, session: &mut Session, tally: &mut Tally) -> Vec<u8> {
    let (kind, body) = (step.kind(), step.body());
    let before = Held::of(&session.stub);
    let output = session.step(kind, &body);
    tally.number(usize::from(kind), output[0], Some(&session.stub));
    if let [0, answer @ ..] = &output[..] {
        tally.answer(step, answer, before, &session.stub);
        tally.continues.take(step, answer, &session.stub, &session.registers);
    }
    [&[kind][..], &body].concat()
}
