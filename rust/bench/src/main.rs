//! Prints how fast the proved stub is beside a stub in plain Rust (`rust/bench_stub`), how deep its
//! stack is, how fast image differences and patches are and how large the code is.
//!
//!     cargo run --release --offline --manifest-path rust/bench/Cargo.toml -- [--quick] [--only TEXT]
//!
//! With `--instructions` it counts instructions in the place of times, by valgrind, which runs this
//! program with `--turns N` (so many turns of each) or `--calls SIDE N` (so many image differences).

mod cases;
mod cmp;
mod count;
mod images;
mod patches;
mod proved;
mod reads;
mod report;
mod rust_stub;
mod side;
mod size;
mod stack;
mod timing;
mod work;
mod worker;

use cases::{cases, Case};
use images::{Side, Sides};
use patches::Patches;
use reads::Reads;
use report::Row;
use std::io::{self, Write};
use std::process::ExitCode;
use timing::{Plan, Timing};
use worker::Worker;

const WINDOWS: [u32; 2] = [64, 65_536];
/// Many short rounds rather than few long ones: the two sides of a round are then close in time.
const FULL: Plan = Plan { rounds: 45, batch: 500_000 };
const QUICK: Plan = Plan { rounds: 3, batch: 50_000 };

/// What the program does with what was chosen.
enum Mode {
    Time(Plan),
    /// Counts instructions.
    Count,
    /// So many turns of each, for whoever counts.
    Turns(u64),
    /// So many calls of one side on the images of each case, for whoever counts.
    Calls(Side, u64),
}

struct Options {
    mode: Mode,
    /// Only cases and ways of reading with this in their label.
    only: String,
}

fn options(mut arguments: impl Iterator<Item = String>) -> Result<Options, String> {
    let mut options = Options { mode: Mode::Time(FULL), only: String::new() };
    while let Some(argument) = arguments.next() {
        match argument.as_str() {
            "--quick" => options.mode = Mode::Time(QUICK),
            "--instructions" => options.mode = Mode::Count,
            "--turns" => {
                let turns = arguments.next().and_then(|number| number.parse().ok());
                options.mode = Mode::Turns(turns.ok_or("--turns needs a number")?);
            }
            "--calls" => {
                let name = arguments.next().unwrap_or_default();
                let side = Side::ALL.into_iter().find(|side| side.name() == name);
                let count = arguments.next().and_then(|count| count.parse().ok());
                let (side, count) = side.zip(count).ok_or("--calls needs a side and a count")?;
                options.mode = Mode::Calls(side, count);
            }
            "--only" => options.only = arguments.next().ok_or("--only needs a text")?,
            _ => {
                let known = "--quick, --instructions, --turns N and --only TEXT";
                return Err(format!("{argument}: the options are {known}"));
            }
        }
    }
    Ok(options)
}

fn timed(cases: &[Case], plan: &Plan) -> Vec<Row> {
    let row = |(case, timing): (&Case, Timing)| Row {
        name: case.name,
        fill: case.fill,
        window: case.window,
        timing,
    };
    cases.iter().zip(timing::times(cases, plan)).map(row).collect()
}

fn speed(out: &mut impl Write, cases: &[Case], plan: &Plan) -> io::Result<()> {
    writeln!(
        out,
        "Nanoseconds a step, processor time of the thread: the median of {} rounds, in each a batch of at\n\
         least {} ms on either side, one after the other. Four processes; the buffers were made once, on\n\
         the heap, and are not cleared between steps, so the caches are warm.\n",
        plan.rounds,
        plan.batch as f64 / 1e6
    )?;
    let rows = timed(cases, plan);
    writeln!(out, "{}", report::heading())?;
    for row in &rows {
        writeln!(out, "{}", row.line())?;
    }
    writeln!(out, "\n{}", report::aims(&rows))?;
    writeln!(out, "{}", report::growth(&rows).unwrap_or_default())
}

/// The ways of reading beside each other. The first of a scene is the stub's.
fn reads(out: &mut impl Write, mut ways: Vec<Worker>, plan: &Plan) -> io::Result<()> {
    writeln!(out, "Reads of nine bytes by themselves, eight breakpoints, a window of 64 bytes:\n")?;
    let taken = timing::beside(&mut ways, plan);
    writeln!(out, "{}", report::reads_heading())?;
    let mut straight = &taken[0];
    for (way, taken) in ways.iter().zip(&taken) {
        if way.label.ends_with(reads::STRAIGHT) {
            straight = taken;
        }
        writeln!(out, "{}", report::reads_line(&way.label, taken, straight))?;
    }
    writeln!(out)
}

/// Each call of a patch on both sides, which stand one after the other.
fn patches(out: &mut impl Write, mut sides: Vec<Worker>, plan: &Plan) -> io::Result<()> {
    writeln!(
        out,
        "Patches over the plain window, eight breakpoints, microseconds a call: the median of {} rounds,\n\
         and of their ratios.\n",
        plan.rounds
    )?;
    let taken = timing::beside(&mut sides, plan);
    writeln!(out, "{}", patches::heading())?;
    for (pair, taken) in sides.chunks(2).zip(taken.chunks(2)) {
        if let [proved, rust] = taken {
            writeln!(out, "{}", patches::line(&pair[0].label, proved, rust))?;
        }
    }
    writeln!(out)
}

fn images(out: &mut impl Write, cases: &[&images::Case], plan: &Plan) -> io::Result<()> {
    writeln!(
        out,
        "Image differences of 65,536 bytes, microseconds a call: the median of {} rounds, and of their\n\
         ratios. Rust is rust/reference; same loops are the crate's own in plain Rust. cmp -l is a process:\n\
         what it takes on empty files, and what it takes more on these.\n",
        plan.rounds
    )?;
    let rows = images::timed(cases, plan)?;
    writeln!(out, "{}", images::heading())?;
    for row in &rows {
        writeln!(out, "{}", row.line())?;
    }
    writeln!(out)
}

fn output(error: io::Error) -> String {
    format!("standard output: {error}")
}

fn time(chosen: Chosen, plan: &Plan) -> Result<(), String> {
    let Chosen { steps, images: pairs, ways, sides } = chosen;
    let mut out = io::stdout().lock();
    if !ways.is_empty() {
        reads(&mut out, ways, plan).map_err(output)?;
    }
    if !steps.is_empty() {
        speed(&mut out, &steps, plan).map_err(output)?;
        let stack = "Deepest stack, in bytes from the return address down, over the cases above:";
        let depths = report::stacks(&stack::depths(&steps));
        writeln!(out, "{stack}\n\n{depths}").map_err(output)?;
    }
    if !pairs.is_empty() {
        images(&mut out, &pairs, plan).map_err(output)?;
    }
    if !sides.is_empty() {
        patches(&mut out, sides, plan).map_err(output)?;
    }
    let (table, text) = size::text()?;
    let size = format!("Size of the archive: {text} bytes of text (code and read-only data):");
    write!(out, "{size}\n\n{table}").map_err(output)
}

/// The instructions of a turn of each worker, and of a call on the images of each case.
fn count(workers: &[Worker], pairs: &[&images::Case]) -> Result<(), String> {
    if !workers.is_empty() {
        println!("Instructions of a turn with the loop around it, by callgrind:\n");
    }
    for Worker { label, .. } in workers {
        println!("{}", report::instructions_line(label, worker::instructions(label)?));
    }
    if !pairs.is_empty() {
        let table = count::table(pairs).map_err(|error| error.to_string())?;
        println!("Instructions of a call on images of 65,536 bytes:\n\n{table}");
    }
    Ok(())
}

/// The cases of steps and of images, the ways of reading and the sides of patches that are wanted.
struct Chosen<'a> {
    steps: Vec<Case>,
    images: Vec<&'static images::Case>,
    ways: Vec<Worker<'a>>,
    sides: Vec<Worker<'a>>,
}

fn run(Options { mode, only }: Options) -> Result<(), String> {
    let (reads, patches, mut steps) = (Reads::new(), Patches::new(), cases(&WINDOWS));
    let (mut ways, mut sides) = (reads.workers(), patches.workers());
    ways.retain(|way| way.label.contains(&only));
    let images: Vec<_> = images::CASES.iter().filter(|case| case.name.contains(&only)).collect();
    let none = format!("no case has '{only}' in its name");
    if let Mode::Time(plan) = mode {
        steps.retain(|case| case.label().contains(&only));
        // Both sides of a call or none: a line has both.
        sides.retain(|side| patches::name(&side.label).contains(&only));
        let nothing = steps.is_empty() && images.is_empty() && ways.is_empty() && sides.is_empty();
        let chosen = Chosen { steps, images, ways, sides };
        return if nothing { Err(none) } else { time(chosen, &plan) };
    }
    let mut workers = worker::of_cases(&steps, &only);
    sides.retain(|side| side.label.contains(&only));
    workers.append(&mut ways);
    workers.append(&mut sides);
    if workers.is_empty() && images.is_empty() {
        return Err(none);
    }
    match mode {
        Mode::Turns(turns) => workers.iter_mut().for_each(|worker| (worker.turns)(turns)),
        Mode::Calls(side, n) => images.iter().for_each(|case| Sides::new(case).calls(side, n)),
        _ => count(&workers, &images)?,
    }
    Ok(())
}

fn main() -> ExitCode {
    match options(std::env::args().skip(1)).and_then(run) {
        Ok(()) => ExitCode::SUCCESS,
        Err(message) => {
            eprintln!("bench: {message}");
            ExitCode::FAILURE
        }
    }
}
