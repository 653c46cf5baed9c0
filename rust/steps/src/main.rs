//! `steps SEED COUNT [--stats]` writes COUNT random steps in the program's format to standard
//! output. With `--stats` it says on standard error what they came to, and fails where something
//! that can be reached is lacking among 20,000 steps or more.

#![forbid(unsafe_code)]

use std::io::{self, BufWriter};
use std::process::ExitCode;
use steps::table::{lacking, table};

/// From this many steps on, everything that can be reached must be.
const ALL_REACHED: u64 = 20_000;

struct Arguments {
    seed: u64,
    count: u64,
    stats: bool,
}

fn arguments() -> Option<Arguments> {
    let words: Vec<String> = std::env::args().skip(1).collect();
    let words: Vec<&str> = words.iter().map(String::as_str).collect();
    let (seed, count, stats) = match words[..] {
        [seed, count] => (seed, count, false),
        [seed, count, "--stats"] => (seed, count, true),
        _ => return None,
    };
    Some(Arguments { seed: seed.parse().ok()?, count: count.parse().ok()?, stats })
}

/// Whether nothing is lacking that was asked for.
fn run(Arguments { seed, count, stats }: &Arguments) -> io::Result<bool> {
    let sections = steps::program::write(*seed, *count, BufWriter::new(io::stdout().lock()))?;
    if !stats {
        return Ok(true);
    }
    eprint!("{}", table(&sections));
    let lacking = lacking(&sections);
    for name in &lacking {
        eprintln!("{name}");
    }
    Ok(*count < ALL_REACHED || lacking.is_empty())
}

fn main() -> ExitCode {
    let Some(arguments) = arguments() else {
        eprintln!("usage: steps SEED COUNT [--stats]");
        return ExitCode::from(2);
    };
    match run(&arguments) {
        Ok(true) => ExitCode::SUCCESS,
        Ok(false) => ExitCode::FAILURE,
        Err(error) => {
            eprintln!("steps: {error}");
            ExitCode::FAILURE
        }
    }
}
