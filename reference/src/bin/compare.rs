//! compare [PORT] [--from INDEX] [--out DIR] SEED COUNT: cases INDEX up to INDEX + COUNT of SEED, the port beside the reference.
//! compare [PORT] --case FILE: one case that was written out. PORT is `--library` (with the feature `library`), `--lister PROGRAM` or
//! `--namer PROGRAM`; without it the reference runs alone.
use pywr_reference::comparison::{self, ByPaths, ByUnions, Tally};
use pywr_reference::flow_costs::CostCounts;
use pywr_reference::generate::{self, Case};
use pywr_reference::port::Port;
use pywr_reference::reference::InBoth;
use pywr_reference::{case_file, port_lister::Lister, port_namer::Namer};
use std::panic::{AssertUnwindSafe, catch_unwind};
use std::time::{Duration, Instant};

const MOST_FAILURES: u64 = 20;
/// A run of so many networks must have tried everything that the port has to try.
const LONG_RUN: u64 = 1000;
const USAGE: &str = "compare [--library | --lister PROGRAM | --namer PROGRAM] [--from INDEX] [--out DIR] SEED COUNT
compare [--library | --lister PROGRAM | --namer PROGRAM] --case FILE";

#[derive(Default)]
struct Arguments {
    library: bool,
    lister: Option<String>,
    namer: Option<String>,
    case: Option<String>,
    out: String,
    from: u64,
    numbers: Vec<u64>,
}

fn arguments() -> Option<Arguments> {
    let mut read = Arguments { out: "failures".into(), ..Arguments::default() };
    let mut words = std::env::args().skip(1);
    while let Some(word) = words.next() {
        match word.as_str() {
            "--library" => read.library = true,
            "--lister" => read.lister = Some(words.next()?),
            "--namer" => read.namer = Some(words.next()?),
            "--case" => read.case = Some(words.next()?),
            "--out" => read.out = words.next()?,
            "--from" => read.from = words.next()?.parse().ok()?,
            number => read.numbers.push(number.parse().ok()?),
        }
    }
    let complete = if read.case.is_some() { read.numbers.is_empty() } else { read.numbers.len() == 2 };
    complete.then_some(read)
}

fn main() {
    let Some(arguments) = arguments() else {
        eprintln!("{USAGE}");
        std::process::exit(2);
    };
    let mut port = port(&arguments);
    let mut tally = Tally::default();
    let failures = match &arguments.case {
        Some(path) => replay(path, &mut port, &mut tally),
        None => run(&arguments, &mut port, &mut tally),
    };
    println!("networks {}, compared {}; {}", tally.builds.total(), tally.builds_compared, tally.builds.text());
    println!("steps {}, compared {}; {}", tally.steps.total(), tally.steps_compared, tally.steps.text());
    tell_unions(&tally);
    tell_costs(&tally);
    let compared = port.as_deref().is_none_or(|port| all_compared(port, &tally));
    let tried = port.as_deref().is_none_or(|port| tell_tried(port, tally.builds.total()));
    println!("the Rust's own 15, retired: {}", tally.retired());
    println!("differences {failures}");
    if !compared {
        println!("not everything that was run was compared, or nothing was run");
    }
    drop(port);
    std::process::exit((failures > 0 || tally.retired() > 0 || !compared || !tried) as i32);
}

fn port(arguments: &Arguments) -> Option<Box<dyn Port>> {
    match (&arguments.lister, &arguments.namer) {
        _ if arguments.library => Some(library()),
        (Some(program), _) => Some(Box::new(Lister::new(program.into()))),
        (_, Some(program)) => Some(Box::new(Namer::new(program.into()))),
        _ => None,
    }
}

/// The networks by whether columns unite, and what the unaltered Rust ran of those without.
fn tell_unions(tally: &Tally) {
    let ByUnions { with, without, under_by_unions } = tally.by_unions;
    println!("columns as in the model: networks {}", with + without);
    println!("  with a union {with} ({under_by_unions} accepted that are over a ceiling without it)");
    println!("  without a union {without}, the unaltered Rust's columns alike");
    let InBoth { builds, steps, costs, costs_unlike } = tally.in_both;
    println!("altered and unaltered Rust alike: networks {builds}, accepted steps but for costs {steps}");
    println!(
        "  costs of the unaltered Rust as in the model: accepted steps {costs}, in {costs_unlike} another bit than in the altered one"
    );
}

/// The costs of accepted steps in both orders.
fn tell_costs(tally: &Tally) {
    let CostCounts { steps, whole, small, steps_unlike, columns_unlike } = tally.costs;
    let ByPaths { closed, keyed_otherwise } = tally.by_paths;
    println!("networks with a closed ring {closed}, with a column whose flow order is not its edge order {keyed_otherwise}");
    println!("costs as in the model: accepted steps {}, with such a column {}", steps[0], steps[1]);
    println!("  all costs whole {}, with such a column {}, both orders alike", whole[0], whole[1]);
    println!("  no cost over 1,000 {}, with such a column {}, both orders within 2^-24 of the exact sum", small[0], small[1]);
    println!("  flow order and edge order unlike in a bit: steps {steps_unlike}, columns {columns_unlike}");
}

/// What the port has tried of its own; whether a long run has tried all of it.
fn tell_tried(port: &dyn Port, networks: u64) -> bool {
    if let Some(report) = port.report() {
        println!("{report}");
    }
    let untried = port.untried().filter(|_| networks >= LONG_RUN);
    if let Some(untried) = &untried {
        println!("never tried: {untried}");
    }
    untried.is_none()
}

/// With a port, a run that compares nothing has found nothing out.
fn all_compared(port: &dyn Port, tally: &Tally) -> bool {
    let steps = if port.has_steps() { tally.steps.total() } else { 0 };
    tally.builds_compared > 0 && tally.builds_compared == tally.builds.total() && tally.steps_compared == steps
}

#[cfg(feature = "library")]
fn library() -> Box<dyn Port> {
    Box::new(pywr_reference::port_library::Library::new())
}

#[cfg(not(feature = "library"))]
fn library() -> Box<dyn Port> {
    eprintln!("built without the library: `cargo build --release --features library`");
    std::process::exit(2);
}

fn replay(path: &str, port: &mut Option<Box<dyn Port>>, tally: &mut Tally) -> u64 {
    let text = std::fs::read_to_string(path).unwrap_or_else(|e| panic!("{path}: {e}"));
    let case = case_file::read(&text).unwrap_or_else(|e| panic!("{path}: {e}"));
    match comparison::compare(&case, port, tally) {
        Ok(()) => 0,
        Err(difference) => {
            println!("{difference}");
            1
        }
    }
}

fn run(arguments: &Arguments, port: &mut Option<Box<dyn Port>>, tally: &mut Tally) -> u64 {
    let (seed, count) = (arguments.numbers[0], arguments.numbers[1]);
    let start = Instant::now();
    let mut told = start;
    let mut failures = 0;
    for index in arguments.from..arguments.from + count {
        let case = generate::case(seed, index);
        // A panic of the Rust is a difference too: what passes every refusal but 11 builds there.
        let compared = catch_unwind(AssertUnwindSafe(|| comparison::compare(&case, port, tally)));
        if let Err(difference) = compared.unwrap_or_else(|_| Err("the reference panics".into())) {
            failures += 1;
            write_out(arguments, index, &case, &difference);
            if failures == MOST_FAILURES {
                println!("stopped after {failures} differences");
                break;
            }
        }
        if told.elapsed() > Duration::from_secs(5) {
            told = Instant::now();
            eprintln!("{} of {count} after {} s, {failures} differences", index + 1 - arguments.from, start.elapsed().as_secs());
        }
    }
    failures
}

fn write_out(arguments: &Arguments, index: u64, case: &Case, difference: &str) {
    let path = format!("{}/{}-{index}.case", arguments.out, arguments.numbers[0]);
    let port = match (&arguments.lister, &arguments.namer) {
        _ if arguments.library => " --library".into(),
        (Some(program), _) => format!(" --lister {program}"),
        (_, Some(program)) => format!(" --namer {program}"),
        _ => String::new(),
    };
    let replay = format!("compare{port} --case {path}");
    let text = case_file::write(case, &format!("{difference}\n{replay}"));
    std::fs::create_dir_all(&arguments.out).and_then(|()| std::fs::write(&path, text)).unwrap_or_else(|e| panic!("{path}: {e}"));
    println!("case {index} ({}): {difference}\n  {replay}", case.kind);
}
