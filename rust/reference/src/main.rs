//! The program of 01: reads steps from standard input and writes numbers and answers to standard
//! output, over the worked setup.

#![forbid(unsafe_code)]

use reference::{body_length, Session};
use std::io::{self, BufReader, BufWriter, ErrorKind, Read, Write};
use std::process::ExitCode;

const BUFFER: usize = 1 << 16;

/// Fills a buffer; `false` where the input ends before it is full.
fn filled(input: &mut impl Read, buffer: &mut [u8]) -> io::Result<bool> {
    match input.read_exact(buffer) {
        Ok(()) => Ok(true),
        Err(error) if error.kind() == ErrorKind::UnexpectedEof => Ok(false),
        Err(error) => Err(error),
    }
}

/// Input that ends inside a step ends the run; another kind writes ff and ends it.
fn run(input: impl Read, output: impl Write) -> io::Result<()> {
    let mut input = BufReader::with_capacity(BUFFER, input);
    let mut output = BufWriter::with_capacity(BUFFER, output);
    let mut session = Session::worked();
    let mut room = [0; 140];
    loop {
        // Whoever sends a step and waits for its answer gets it.
        if input.buffer().is_empty() {
            output.flush()?;
        }
        let mut kind = [0];
        if !filled(&mut input, &mut kind)? {
            break;
        }
        let length = body_length(kind[0]);
        let body = &mut room[..length.unwrap_or(0)];
        if !filled(&mut input, body)? {
            break;
        }
        output.write_all(&session.step(kind[0], body))?;
        if length.is_none() {
            break;
        }
    }
    output.flush()
}

fn main() -> ExitCode {
    match run(io::stdin().lock(), io::stdout().lock()) {
        Ok(()) => ExitCode::SUCCESS,
        Err(error) => {
            eprintln!("reference: {error}");
            ExitCode::FAILURE
        }
    }
}
