//! The archive's size, as binutils' `size` has it.

use std::path::{Path, PathBuf};
use std::process::Command;

const ARCHIVE: &str = "libsanirvoq.a";

/// The folder of the archive that was linked: `rust/sanirvoq-sys/build.rs` chooses it in the same way.
fn folder() -> PathBuf {
    match option_env!("SANIRVOQ_LIB") {
        Some(folder) => PathBuf::from(folder),
        None => Path::new(env!("CARGO_MANIFEST_DIR")).join("../../target/staticlib"),
    }
}

/// What `size` prints of the archive, and the sum of its text column: code and read-only data.
pub fn text() -> Result<(String, u64), String> {
    let output = Command::new("size").arg(ARCHIVE).current_dir(folder()).output();
    let output = output.map_err(|error| format!("size: {error}"))?;
    if !output.status.success() {
        return Err(String::from_utf8_lossy(&output.stderr).trim_end().to_string());
    }
    let table = String::from_utf8_lossy(&output.stdout).into_owned();
    let sum = sum_of_text(&table).ok_or("size: a table of another form")?;
    Ok((table, sum))
}

/// The sum of the first column below the heading.
fn sum_of_text(table: &str) -> Option<u64> {
    let first = |line: &str| line.split_whitespace().next()?.parse::<u64>().ok();
    table.lines().skip(1).map(first).sum()
}

#[cfg(test)]
mod tests {
    use super::*;

    #[test]
    fn the_text_column_is_summed() {
        let table = "   text\t   data\n   1740\t      7\n 104156\t      9\n";
        assert_eq!(sum_of_text(table), Some(105_896));
        assert_eq!(sum_of_text("text\nnone\n"), None);
    }
}
