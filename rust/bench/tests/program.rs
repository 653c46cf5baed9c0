//! The program as it is run.

use std::process::{Command, Output};

fn bench(arguments: &[&str]) -> Output {
    Command::new(env!("CARGO_BIN_EXE_bench")).args(arguments).output().expect("bench runs")
}

fn text(bytes: &[u8]) -> &str {
    std::str::from_utf8(bytes).expect("text")
}

/// The lines from the one that begins so to the next empty one.
fn block<'a>(all: &'a str, start: &str) -> Vec<&'a str> {
    let from = all.lines().skip_while(|line| !line.starts_with(start));
    from.take_while(|line| !line.is_empty()).collect()
}

#[test]
fn a_quick_run_prints_every_table() {
    let output = bench(&["--quick", "--only", "Tmget"]);
    assert!(output.status.success(), "{}", text(&output.stderr));
    let all = text(&output.stdout);
    let rows = &block(all, "case ")[1..];
    assert_eq!(rows.len(), 10, "five cases over two windows: {rows:#?}");
    for row in rows {
        let figures: Vec<f64> = row.split_whitespace().flat_map(str::parse).collect();
        let [.., window, proved, rust, ratio] = figures[..] else { panic!("{row}") };
        assert!(window == 64.0 || window == 65_536.0, "{row}");
        assert!(proved > 0.0 && rust > 0.0 && ratio > 0.0, "{row}");
    }
    let aims = block(all, "full table: ratios");
    assert!(aims.iter().any(|line| line.starts_with("empty table: ratios")), "{aims:#?}");
    let steps = &block(all, "step ")[1..];
    let names: Vec<_> = steps.iter().flat_map(|line| line.split_whitespace().next()).collect();
    assert_eq!(names, ["sanirvoq_step_setup", "sanirvoq_step_request"]);
    assert!(all.contains("Size of the archive: "), "{all}");
}

#[test]
fn a_quick_run_of_the_reads_prints_every_way() {
    let output = bench(&["--quick", "--only", "read 9"]);
    assert!(output.status.success(), "{}", text(&output.stderr));
    let rows = &block(text(&output.stdout), "way of reading ")[1..];
    assert_eq!(rows.len(), 7, "{rows:#?}");
    for row in rows {
        let figures: Vec<f64> = row.split_whitespace().flat_map(str::parse).collect();
        let [.., ns, ratio] = figures[..] else { panic!("{row}") };
        assert!(ns > 0.0 && ratio > 0.0, "{row}");
        assert!(!row.contains("straight") || ratio == 1.0, "{row}");
    }
}

#[test]
fn turns_print_nothing() {
    for only in ["read 9, no site, straight", "Tmget 9, no site, full, 64, Rust"] {
        let output = bench(&["--turns", "10", "--only", only]);
        assert!(output.status.success() && output.stdout.is_empty(), "{output:?}");
    }
}

#[test]
fn images_have_a_table_of_their_own() {
    let output = bench(&["--quick", "--only", "images"]);
    assert!(output.status.success(), "{}", text(&output.stderr));
    let all = text(&output.stdout);
    let rows = &block(all, "case ")[1..];
    assert_eq!(rows.len(), 4, "{rows:#?}");
    for row in rows {
        let figures: Vec<f64> = row.split_whitespace().flat_map(str::parse).collect();
        let [.., proved, rust, _, same_loops, ratio, _, _, _] = figures[..] else {
            panic!("{row}")
        };
        assert!(proved > 0.0 && rust > 0.0 && same_loops > 0.0 && ratio > 0.0, "{row}");
    }
    assert!(all.contains("Size of the archive: ") && !all.contains("Deepest stack"), "{all}");
}

#[test]
fn patches_have_a_table_of_their_own() {
    let output = bench(&["--quick", "--only", "patch"]);
    assert!(output.status.success(), "{}", text(&output.stderr));
    let rows = &block(text(&output.stdout), "patch of ")[1..];
    assert_eq!(rows.len(), 8, "a plan and a check of four cases: {rows:#?}");
    for row in rows {
        let figures: Vec<f64> = row.split_whitespace().flat_map(str::parse).collect();
        let [.., proved, rust, ratio] = figures[..] else { panic!("{row}") };
        assert!(proved > 0.0 && rust > 0.0 && ratio > 0.0, "{row}");
    }
}

#[test]
fn instructions_are_the_same_in_every_run() {
    let counted = || bench(&["--instructions", "--only", "images, equal"]).stdout;
    let all = counted();
    let rows = block(text(&all), "case ");
    let figures: Vec<u64> = rows[1].split_whitespace().flat_map(str::parse).collect();
    assert!(figures.len() == 4 && figures.iter().all(|&count| count > 1_000), "{rows:#?}");
    assert_eq!(text(&counted()), text(&all));
}

#[test]
fn what_it_does_not_know_is_refused() {
    for arguments in [
        &["--slow"][..],
        &["--only"],
        &["--only", "no such case"],
        &["--turns", "1", "--only", "no such case"],
        &["--turns", "many"],
        &["--calls", "nobody", "1"],
    ] {
        let output = bench(arguments);
        assert!(!output.status.success() && output.stdout.is_empty(), "{arguments:?}");
        assert!(text(&output.stderr).starts_with("bench: "), "{arguments:?}");
    }
}
