//! The tables that the program prints, and the aims that the ratios are held against.

use crate::cases::Fill;
use crate::stack::Depth;
use crate::timing::{median, median_ratio, Timing};

/// The largest ratio that is aimed at over a full table, over any other, and for a buffer of wrong size.
const AIM_FULL: f64 = 1.0;
const AIM_SMALL: f64 = 1.2;
const AIM_WRONG_SIZE: f64 = 2.0;
const WRONG_SIZE: &str = "refused, number 2";

pub struct Row {
    pub name: &'static str,
    pub fill: Fill,
    pub window: u32,
    pub timing: Timing,
}

impl Row {
    /// One line of the table.
    pub fn line(&self) -> String {
        let Timing { proved, rust, copying } = &self.timing;
        let (proved, rust, ratio) = (median(proved), median(rust), self.timing.ratio());
        let copied = copying.map_or(String::new(), |(a, b)| format!("  {a:.1} / {b:.1}"));
        format!("{}{proved:>10.1}{rust:>10.1}{ratio:>8.2}{copied}", self.label())
    }

    fn label(&self) -> String {
        format!("{:<28}{:<7}{:>6}", self.name, self.fill.name(), self.window)
    }

    /// The case as part of a sentence.
    fn place(&self) -> String {
        format!("{}, table {}, window {}", self.name, self.fill.name(), self.window)
    }
}

pub fn heading() -> String {
    let columns = format!("{:<28}{:<7}{:>6}", "case", "table", "window");
    format!("{columns}{:>10}{:>10}{:>8}  {}", "proved ns", "Rust ns", "ratio", "copying taken off")
}

/// The ratios of each group of cases against its aim.
pub fn aims(rows: &[Row]) -> String {
    let group = |name, aim, within: &dyn Fn(&Row) -> bool| {
        let group: Vec<&Row> = rows.iter().filter(|row| within(row)).collect();
        against(name, aim, &group)
    };
    let over = |fills: &'static [Fill]| {
        move |row: &Row| row.name != WRONG_SIZE && fills.contains(&row.fill)
    };
    group("full table", AIM_FULL, &over(&[Fill::Full]))
        + &group("empty table", AIM_SMALL, &over(&[Fill::Empty]))
        + &group("one or three breakpoints", AIM_SMALL, &over(&[Fill::One, Fill::Three]))
        + &group("a wrong size", AIM_WRONG_SIZE, &|row| row.name == WRONG_SIZE)
}

fn against(name: &str, aim: f64, rows: &[&Row]) -> String {
    let mut sorted = rows.to_vec();
    sorted.sort_by(|a, b| a.timing.ratio().total_cmp(&b.timing.ratio()));
    let (Some(least), Some(most)) = (sorted.first(), sorted.last()) else {
        return format!("{name}: no case was run\n");
    };
    let middle = sorted[sorted.len() / 2].timing.ratio();
    let above = sorted.iter().filter(|row| row.timing.ratio() > aim).count();
    let (low, high) = (least.timing.ratio(), most.timing.ratio());
    let line = format!("{name}: ratios {low:.2} to {high:.2}, in the middle {middle:.2}");
    format!(
        "{line}; aim {aim}; {above} of {} above it\n  the largest: {}\n",
        sorted.len(),
        most.place()
    )
}

/// What the proved steps cost over the largest window against the smallest, at most.
pub fn growth(rows: &[Row]) -> Option<String> {
    let windows = rows.iter().map(|row| row.window);
    let (small, large) = (windows.clone().min()?, windows.max()?);
    let grown = |row: &Row| {
        let same = |other: &&Row| (other.name, other.fill) == (row.name, row.fill);
        let before = rows.iter().filter(same).find(|other| other.window == small)?;
        Some((median_ratio(&row.timing.proved, &before.timing.proved), row.place()))
    };
    let all = rows.iter().filter(|row| row.window == large).filter_map(grown);
    let (factor, place) = all.max_by(|a, b| a.0.total_cmp(&b.0))?;
    Some(format!("window of {large} against {small} bytes: at most {factor:.2} times ({place})\n"))
}

pub fn reads_heading() -> String {
    format!("{:<44}{:>8}{:>14}", "way of reading", "ns", "of straight")
}

/// A way of reading, and the times of the straight way of its scene.
pub fn reads_line(label: &str, taken: &[f64], straight: &[f64]) -> String {
    format!("{label:<44}{:>8.1}{:>14.2}", median(taken), median_ratio(taken, straight))
}

pub fn instructions_line(label: &str, count: f64) -> String {
    format!("{label:<60}{count:>8.0}")
}

pub fn stacks(depths: &[Depth]) -> String {
    let line = |depth: &Depth| {
        let symbol = format!("sanirvoq_step_{}", depth.step.name());
        format!("{symbol:<28}{:>8}  {}\n", depth.bytes, depth.case)
    };
    let heading = format!("{:<28}{:>8}  {}\n", "step", "bytes", "deepest in the case");
    depths.iter().map(line).fold(heading, |text, line| text + &line)
}

#[cfg(test)]
mod tests {
    use super::*;
    use sanirvoq::call::Kind;

    fn row(name: &'static str, fill: Fill, window: u32, proved: f64, rust: f64) -> Row {
        let timing = Timing { proved: vec![proved], rust: vec![rust], copying: None };
        Row { name, fill, window, timing }
    }

    #[test]
    fn a_row_has_its_figures_and_what_copying_took() {
        let mut row = row("Tproc", Fill::Full, 64, 120.04, 96.0);
        let words = |row: &Row| row.line().split_whitespace().map(String::from).collect::<Vec<_>>();
        assert_eq!(words(&row), ["Tproc", "full", "64", "120.0", "96.0", "1.25"]);
        row.timing.copying = Some((8.0, 9.5));
        assert_eq!(words(&row)[6..], ["8.0", "/", "9.5"]);
    }

    #[test]
    fn each_group_is_held_to_its_aim() {
        let rows = [
            row("a", Fill::Full, 64, 99.0, 100.0),
            row("b", Fill::Full, 64, 151.0, 100.0),
            row("c", Fill::Full, 65_536, 200.0, 100.0),
            row("d", Fill::Empty, 64, 119.0, 100.0),
            row(WRONG_SIZE, Fill::Full, 64, 290.0, 100.0),
        ];
        let expected = "\
full table: ratios 0.99 to 2.00, in the middle 1.51; aim 1; 2 of 3 above it
  the largest: c, table full, window 65536
empty table: ratios 1.19 to 1.19, in the middle 1.19; aim 1.2; 0 of 1 above it
  the largest: d, table empty, window 64
one or three breakpoints: no case was run
a wrong size: ratios 2.90 to 2.90, in the middle 2.90; aim 2; 1 of 1 above it
  the largest: refused, number 2, table full, window 64
";
        assert_eq!(aims(&rows), expected);
    }

    #[test]
    fn growth_is_that_of_the_same_case() {
        let rows = [
            row("a", Fill::Full, 64, 100.0, 1.0),
            row("a", Fill::Empty, 64, 10.0, 1.0),
            row("a", Fill::Full, 65_536, 110.0, 1.0),
            row("a", Fill::Empty, 65_536, 12.0, 1.0),
        ];
        let expected =
            "window of 65536 against 64 bytes: at most 1.20 times (a, table empty, window 65536)\n";
        assert_eq!(growth(&rows).as_deref(), Some(expected));
    }

    #[test]
    fn a_step_has_its_symbol_bytes_and_case() {
        let text = stacks(&[Depth { step: Kind::Trap, bytes: 1234, case: "trap, 0 elements" }]);
        let last = text.lines().last().expect("a line for the step");
        let words: Vec<&str> = last.split_whitespace().collect();
        assert_eq!(words, ["sanirvoq_step_trap", "1234", "trap,", "0", "elements"]);
    }
}
