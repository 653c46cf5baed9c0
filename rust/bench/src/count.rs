//! Instructions, as valgrind counts them: the same in every run, whatever else the machine does.

use crate::cmp::Files;
use crate::images::{Case, Side, Sides};
use std::io;
use std::process::Command;

/// The instructions of a process from its start to its end. Its output goes nowhere.
fn instructions(program: &str, arguments: &[&str], files: Option<&Files>) -> io::Result<u64> {
    let mut command = Command::new("valgrind");
    command.args(["--tool=callgrind", "--callgrind-out-file=/dev/null", program]).args(arguments);
    if let Some(files) = files {
        command.current_dir(files.folder());
    }
    let output = command.output()?;
    let text = String::from_utf8_lossy(&output.stderr);
    let collected = text.lines().filter_map(|line| line.split_once("Collected : "));
    let count = collected.filter_map(|(_, count)| count.trim().parse().ok()).next();
    count.ok_or_else(|| io::Error::other(format!("valgrind: {}", text.trim_end())))
}

/// The calls of the longer of two runs: what they take more than one call, by call, is exact.
const CALLS: u64 = 11;

/// What one call of a side takes on the images of a case.
fn of_side(side: Side, case: &Case) -> io::Result<u64> {
    let this = std::env::current_exe()?;
    let this = this.to_str().ok_or_else(|| io::Error::other("a path that is no text"))?;
    let calls = |count: u64| {
        let count = count.to_string();
        instructions(this, &["--calls", side.name(), &count, "--only", case.name], None)
    };
    Ok((calls(CALLS)? - calls(1)?) / (CALLS - 1))
}

/// What `cmp -l` takes on the images of a case, more than on empty files.
fn of_cmp(case: &Case) -> io::Result<u64> {
    let sides = Sides::new(case);
    let process = |files: &Files| instructions("cmp", &["-l", "a", "b"], Some(files));
    let (files, empty) = (Files::new(&sides.a, &sides.b)?, Files::new(&[], &[])?);
    Ok(process(&files)?.saturating_sub(process(&empty)?))
}

/// One line of the table for each case.
pub fn table(cases: &[&Case]) -> io::Result<String> {
    let columns = Side::ALL.map(|side| format!("{:>12}", side.name())).concat();
    let mut text = format!("{:<24}{columns}{:>12}\n", "case", "cmp -l more");
    for case in cases {
        text += &format!("{:<24}", case.name);
        for side in Side::ALL {
            text += &format!("{:>12}", of_side(side, case)?);
        }
        text += &format!("{:>12}\n", of_cmp(case)?);
    }
    Ok(text)
}
