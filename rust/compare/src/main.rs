//! `compare [--seed N] [--steps N]` runs the proved stub and the independent one on the same steps,
//! for every twenty steps image differences of both on a pair of images and a patch, checked and
//! planned, and for every other step a text packet, written or read. It prints what was reached; its
//! last line is `N steps, no difference`. Where the sides differ it prints the shortest list of steps,
//! or a short pair of images, or the patch, or the packet, that shows it and what both have then.

#![forbid(unsafe_code)]

use compare::archive::{archive, PATCHES};
use compare::run::Runner;
use compare::texts::{self, Calls};
use compare::{images, patches};
use sanirvoq::call::{image_differences, text_decode, text_encode};
use std::process::ExitCode;
use std::time::{Duration, Instant};

/// From this many steps on, everything that can be reached must be.
const ALL_REACHED: u64 = 200_000;
/// To one pair of images, and to one patch.
const STEPS_A_PAIR: u64 = 20;
/// To one text packet.
const STEPS_A_TEXT: u64 = 2;
/// Between two lines on standard error.
const PAUSE: Duration = Duration::from_secs(3);

struct Arguments {
    seed: u64,
    steps: u64,
}

fn arguments() -> Option<Arguments> {
    let mut chosen = Arguments { seed: 1, steps: 1_000_000 };
    let mut words = std::env::args().skip(1);
    while let Some(name) = words.next() {
        let value = words.next()?.parse().ok()?;
        match name.as_str() {
            "--seed" => chosen.seed = value,
            "--steps" => chosen.steps = value,
            _ => return None,
        }
    }
    Some(chosen)
}

/// Says now and then how far a long run is.
fn progress(steps: u64) -> impl FnMut(u64) {
    let start = Instant::now();
    let mut last = start;
    move |left| {
        if last.elapsed() > PAUSE {
            last = Instant::now();
            let done = steps - left;
            let rate = done as f64 / start.elapsed().as_secs_f64();
            eprintln!("{done} of {steps} steps, {rate:.0} a second");
        }
    }
}

fn main() -> ExitCode {
    let Some(Arguments { seed, steps }) = arguments() else {
        eprintln!("usage: compare [--seed N] [--steps N]");
        return ExitCode::from(2);
    };
    let mut runner = Runner::new(archive, seed, steps);
    if let Err(failure) = runner.run(progress(steps)) {
        print!("seed {seed}: the sides differ after\n{failure}");
        return ExitCode::FAILURE;
    }
    let compared = match images::run(image_differences, seed, steps / STEPS_A_PAIR) {
        Ok(compared) => compared,
        Err(failure) => {
            print!("seed {seed}: the sides differ on\n{failure}");
            return ExitCode::FAILURE;
        }
    };
    let calls = Calls { write: text_encode, read: text_decode };
    let packets = match texts::run(calls, seed, steps / STEPS_A_TEXT) {
        Ok(packets) => packets,
        Err(failure) => {
            print!("seed {seed}: the sides differ on\n{failure}");
            return ExitCode::FAILURE;
        }
    };
    let patched = match patches::run(PATCHES, seed, steps / STEPS_A_PAIR) {
        Ok(patched) => patched,
        Err(failure) => {
            print!("seed {seed}: the sides differ on\n{failure}");
            return ExitCode::FAILURE;
        }
    };
    print!("{}\n{}\n", runner.tally.table(), compared.table());
    print!("{}\n{}", packets.table(), patched.table());
    let steps_lack = [runner.tally.lacking(), compared.lacking()].concat();
    let lacking = [steps_lack, packets.lacking(), patched.lacking()].concat();
    if steps >= ALL_REACHED && !lacking.is_empty() {
        for name in lacking {
            println!("{name}");
        }
        return ExitCode::FAILURE;
    }
    println!("{steps} steps, no difference");
    ExitCode::SUCCESS
}
