//! The ratios over the generator's networks. A call's time is the least of a few batches in each of a few passes over all networks.
use crate::calls::{BUILDS, COUNT, Calls, STEPS};
use crate::networks::{Case, VARIANTS};
use crate::times::median;
use pywr_core::state::State;
use pywr_reference::generate::encode::Step;
use pywr_reference::{NetworkFile, Reference, Sentinel, generate, step_file};
use std::time::Instant;

const PASSES: usize = 4;
const BATCHES: usize = 5;
const CALLS: usize = 10;

/// Nanoseconds of each call.
type Measured = [f64; COUNT];

/// One network and step.
struct Ratio {
    /// To the Rust with reading, and to builder.rs alone.
    ratios: [f64; 2],
    rust: f64,
    text: String,
}

/// Nanoseconds of a call, the least of the batches.
fn least(mut call: impl FnMut()) -> f64 {
    let batch = |call: &mut dyn FnMut()| {
        let start = Instant::now();
        (0..CALLS).for_each(|_| call());
        start.elapsed().as_nanos() as f64 / CALLS as f64
    };
    (0..BATCHES).map(|_| batch(&mut call)).fold(f64::INFINITY, f64::min)
}

/// A network that is accepted, with its first step that is accepted, as generated and without subnormals.
fn cases(seed: u64, index: u64) -> Option<[Case; 2]> {
    let drawn = generate::case(seed, index);
    let mut built = Reference::build(&drawn.network, Sentinel::Infinity).ok()?;
    let step = drawn.steps.iter().find(|step| built.step(step).is_ok())?;
    let file = NetworkFile::read(&drawn.network).unwrap();
    let (timestep, State { nodes, aggregates, virtual_storages }) = step_file::read(&file, step).unwrap();
    let date = timestep.date.date();
    let [month, day] = [date.month(), date.day()].map(|number| number as u8);
    let numbers = Step { month, day, days: timestep.days(), nodes, aggregates, virtual_storages };
    let without = generate::sized::without_subnormals(&file, &numbers);
    Some([Case::new(index, VARIANTS[0], (file, numbers)), Case::new(index, VARIANTS[1], without)])
}

fn measure(case: &Case) -> Measured {
    let mut calls = Calls::new(case);
    std::array::from_fn(|k| least(|| calls.call(k)))
}

fn ratio(times: &Measured, of: [usize; 3], case: &Case) -> Ratio {
    let [port, rust, alone] = of.map(|k| times[k] / 1e3);
    let text = format!("{port:.2} us against {rust:.2} and {alone:.2}, case {}: {}", case.index, case.counts());
    Ratio { ratios: [port / rust, port / alone], rust, text }
}

/// By the Rust's time with reading, under and over the limits.
fn tell(name: &str, mut list: Vec<Ratio>, limits: [f64; 2]) {
    list.sort_by(|a, b| b.ratios[0].total_cmp(&a.ratios[0]));
    for (low, high) in [(0.0, limits[0]), (limits[0], limits[1]), (limits[1], f64::INFINITY)] {
        let part: Vec<&Ratio> = list.iter().filter(|r| low <= r.rust && r.rust < high).collect();
        let Some(worst) = part.first() else { continue };
        let over = [0, 1].map(|k| part.iter().filter(|r| r.ratios[k] > 0.5).count());
        let [with, alone] = [0, 1].map(|k| median(part.iter().map(|r| r.ratios[k]).collect()));
        print!(
            "{name} that take the Rust {low} to {high} us: {}, median ratio {with:.2} ({alone:.2} to builder.rs alone), ",
            part.len()
        );
        println!("over half {} ({})", over[0], over[1]);
        println!("  worst {:.2}: {}", worst.ratios[0], worst.text);
    }
}

pub fn run(seed: u64, count: u64) {
    let cases: Vec<Case> = (0..count).filter_map(|index| cases(seed, index)).flatten().collect();
    let mut times: Vec<Measured> = cases.iter().map(measure).collect();
    for _ in 1..PASSES {
        for (times, case) in times.iter_mut().zip(&cases) {
            let again = measure(case);
            *times = std::array::from_fn(|k| times[k].min(again[k]));
        }
    }
    for variant in VARIANTS {
        println!("{variant}:");
        for (name, of, limits) in [("builds", BUILDS, [5.0, 50.0]), ("steps", STEPS, [1.0, 5.0])] {
            let of_variant = cases.iter().zip(&times).filter(|(case, _)| case.variant == variant);
            tell(name, of_variant.map(|(case, times)| ratio(times, of, case)).collect(), limits);
        }
    }
}
