//! Something that is done over and over: one side of a case, or one way of a read. Its turns are
//! timed beside those of others, or its instructions are counted by callgrind.

use crate::cases::Case;
use crate::work::run;
use std::process::Command;

pub struct Worker<'a> {
    pub label: String,
    /// Does so many turns.
    pub turns: Box<dyn FnMut(u64) + 'a>,
}

/// The sides of the cases that have this in their label.
pub fn of_cases<'a>(cases: &'a [Case], only: &str) -> Vec<Worker<'a>> {
    let mut list: Vec<Worker> = Vec::new();
    for case in cases {
        let [ours, theirs] = ["proved", "Rust"].map(|side| format!("{}, {side}", case.label()));
        if !ours.contains(only) && !theirs.contains(only) {
            continue;
        }
        let (mut proved, mut rust) = case.agreed();
        let proved = move |turns| run(&mut proved, &case.work, turns, |_, _| ());
        let rust = move |turns| run(&mut rust, &case.work, turns, |_, _| ());
        list.push(Worker { label: ours, turns: Box::new(proved) });
        list.push(Worker { label: theirs, turns: Box::new(rust) });
    }
    list.retain(|worker| worker.label.contains(only));
    list
}

/// The turns of the two runs whose difference is taken.
const TURNS: [u64; 2] = [1_000, 3_000];

/// The instructions of one turn with the loop around it: this program does the turns under
/// callgrind, twice, and what else it does falls out of the difference.
pub fn instructions(label: &str) -> Result<f64, String> {
    let [few, many] = TURNS.map(|turns| collected(label, turns));
    Ok((many? - few?) as f64 / (TURNS[1] - TURNS[0]) as f64)
}

fn collected(label: &str, turns: u64) -> Result<u64, String> {
    let program = std::env::current_exe().map_err(|error| error.to_string())?;
    let output = Command::new("valgrind")
        .args(["--tool=callgrind", "--callgrind-out-file=/dev/null"])
        .arg(program)
        .args(["--turns", &turns.to_string(), "--only", label])
        .output()
        .map_err(|error| format!("valgrind: {error}"))?;
    let text = String::from_utf8_lossy(&output.stderr);
    let count = count_in(&text).filter(|_| output.status.success());
    count.ok_or_else(|| format!("valgrind: {}", text.trim_end()))
}

/// The number in callgrind's line `Collected : N`.
fn count_in(text: &str) -> Option<u64> {
    let line = text.lines().find(|line| line.contains("Collected :"))?;
    line.split_whitespace().last()?.parse().ok()
}

#[cfg(test)]
mod tests {
    use super::*;

    #[test]
    fn the_count_is_read_from_callgrinds_line() {
        let text = "==7== Events    : Ir\n==7== Collected : 123456\n==7==\n";
        assert_eq!(count_in(text), Some(123_456));
        assert_eq!(count_in("==7== Events    : Ir\n"), None);
    }
}
