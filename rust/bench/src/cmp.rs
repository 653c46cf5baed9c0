//! `cmp -l` on two files: the processor time of its process.

use sanirvoq_sys::measure::time;
use std::fs;
use std::io;
use std::path::{Path, PathBuf};
use std::process::{Command, Stdio};

/// Two files in a folder of their own, which goes when they do.
pub struct Files {
    folder: PathBuf,
}

impl Files {
    pub fn new(a: &[u8], b: &[u8]) -> io::Result<Self> {
        let name = format!("sanirvoq-bench-{}-{}", std::process::id(), a.len());
        let folder = std::env::temp_dir().join(name);
        fs::create_dir_all(&folder)?;
        let files = Self { folder };
        fs::write(files.folder.join("a"), a)?;
        fs::write(files.folder.join("b"), b)?;
        Ok(files)
    }

    pub fn folder(&self) -> &Path {
        &self.folder
    }

    /// One process, which ends with 0 where the files are equal and with 1 where they differ. It
    /// writes to a file: on the null device it would print nothing and stop at the first difference.
    fn compare(&self) -> io::Result<()> {
        let output = fs::File::create(self.folder.join("output"))?;
        let mut command = Command::new("cmp");
        let command = command.args(["-l", "a", "b"]).current_dir(&self.folder);
        let status = command.stdin(Stdio::null()).stdout(output).status()?;
        match status.code() {
            Some(0 | 1) => Ok(()),
            _ => Err(io::Error::other(format!("cmp: {status}"))),
        }
    }
}

impl Drop for Files {
    fn drop(&mut self) {
        let _ = fs::remove_dir_all(&self.folder);
    }
}

/// The processes of a round: most of what one takes is its start, which varies.
const PROCESSES: u32 = 8;

/// What a process took in each round, in nanoseconds.
pub struct Taken {
    /// On empty files: its start and end.
    pub empty: Vec<f64>,
    /// On these files, less that.
    pub more: Vec<f64>,
}

/// Times processes on these files and on empty ones, by turns.
pub fn timed(files: &Files, empty: &Files, rounds: usize) -> io::Result<Taken> {
    let mut taken = Taken { empty: Vec::new(), more: Vec::new() };
    for _ in 0..rounds {
        let mut sums = [0.0, 0.0];
        for _ in 0..PROCESSES {
            for (sum, files) in sums.iter_mut().zip([empty, files]) {
                let start = time::children();
                files.compare()?;
                *sum += (time::children() - start) / f64::from(PROCESSES);
            }
        }
        taken.empty.push(sums[0]);
        taken.more.push(sums[1] - sums[0]);
    }
    Ok(taken)
}

#[cfg(test)]
mod tests {
    use super::*;
    use crate::timing::median;

    #[test]
    fn a_process_takes_time_and_its_files_go() {
        let empty = Files::new(&[], &[]).expect("a folder for files");
        let files = Files::new(&[0; 9_999], &[1; 9_999]).expect("a folder for files");
        let folder = files.folder.clone();
        let taken = timed(&files, &empty, 5).expect("cmp runs");
        assert_eq!((taken.empty.len(), taken.more.len()), (5, 5));
        assert!(median(&taken.empty) > 0.0 && median(&taken.more) > 0.0);
        drop(files);
        assert!(!folder.exists());
    }
}
