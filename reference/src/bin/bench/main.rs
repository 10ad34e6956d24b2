//! bench [ROUNDS]: the time of each build and each step, the port's, the Rust's with reading and that of builder.rs alone, of a build also the
//! unaltered Rust's: medians of interleaved rounds; and the memory that each needs.
//! bench --growth FILE [ROUNDS]: the times over networks of 8, 16, .. 256 nodes, and the exponents; FILE becomes their plot (SVG).
//! bench --write DIR: writes the networks and steps that are timed, for a profiler.
//! bench --generated SEED COUNT: the ratios over the generator's networks.
//! bench --stack SEED COUNT: the deepest stack of the port's builds and steps over them, refused ones too.
mod calls;
mod generated;
mod growth;
mod memory;
mod networks;
mod times;

use calls::{BUILDS, BUILDS_BY_UNALTERED, COUNT, Calls, STEPS};
use networks::{Case, Group, VARIANTS};
use times::{Times, batch, median};

/// Port to Rust with reading, port to builder.rs alone.
type Ratios = [f64; 2];

/// The ratios of a build or a step by the medians, and by the least times.
type Measured = [Ratios; 2];

fn ratios([port, rust, alone]: [f64; 3]) -> Ratios {
    [port / rust, port / alone]
}

/// Times a case's calls in turn.
fn measure(case: &Case, rounds: usize) -> [Times; COUNT] {
    let mut calls = Calls::new(case);
    let mut times: [Times; COUNT] = Default::default();
    let sizes: Vec<usize> = (0..COUNT).map(|k| batch(|| calls.call(k))).collect();
    for round in 0..rounds + times::WARM {
        for place in 0..COUNT {
            let k = (round + place) % COUNT;
            times[k].take(sizes[k], || calls.call(k));
        }
    }
    times
}

/// Prints the times of a case's calls: the ratios of its build and of its step.
fn run(case: &Case, rounds: usize) -> [Measured; 2] {
    let times = measure(case, rounds);
    tell("build by the unaltered Rust", case, BUILDS_BY_UNALTERED.map(|k| &times[k]));
    [("build", BUILDS), ("step", STEPS)].map(|(name, of)| tell(name, case, of.map(|k| &times[k])))
}

/// Of the port, the Rust with reading and builder.rs alone.
fn tell(name: &str, case: &Case, times: [&Times; 3]) -> Measured {
    let medians = times.map(|times| times.median() / 1e3);
    let measured = [ratios(medians), ratios(times.map(Times::least))];
    let [[with, to_alone], least] = measured;
    let [port, rust, alone] = medians;
    print!("  {name:27} {:19}port {port:7.2} us; Rust with reading {rust:8.2} us, {with:.2}; ", case.variant);
    println!("builder.rs alone {alone:8.2} us, {to_alone:.2}; by the least {:.2}, {:.2}", least[0], least[1]);
    measured
}

/// The medians over networks, of one variant.
fn tell_medians(name: &str, variant: &str, measured: &[[Measured; 2]]) {
    for (call, of) in [("build", 0), ("step", 1)] {
        let over = |by: usize, to: usize| median(measured.iter().map(|m| m[of][by][to]).collect());
        let [[with, alone], least] = [0, 1].map(|by| [over(by, 0), over(by, 1)]);
        print!("{name}, median {call} {variant}: {with:.2} of the Rust with reading, {alone:.2} of builder.rs alone; ");
        println!("by the least {:.2}, {:.2}", least[0], least[1]);
    }
}

/// The medians of each variant over a group's networks, and over those of each number of nodes where there are several.
fn tell_group(group: &Group, measured: &[[Measured; 2]]) {
    let mut sizes: Vec<usize> = group.cases.iter().map(|case| case.file.nodes.len()).collect();
    sizes.sort_unstable();
    sizes.dedup();
    for variant in VARIANTS {
        let of = |nodes: Option<usize>| -> Vec<[Measured; 2]> {
            let belongs = |case: &Case| case.variant == variant && nodes.is_none_or(|nodes| case.file.nodes.len() == nodes);
            group.cases.iter().zip(measured).filter(|(case, _)| belongs(case)).map(|(_, measured)| *measured).collect()
        };
        if sizes.len() > 1 {
            sizes.iter().for_each(|&nodes| tell_medians(&format!("{nodes} nodes"), variant, &of(Some(nodes))));
        }
        tell_medians(group.name, variant, &of(None));
    }
}

/// A supply system with its memory, or generated networks with the medians over them.
fn run_group(group: &Group, rounds: usize) {
    if let [case] = &group.cases[..] {
        println!("{}: {}", group.name, case.counts());
        run(case, rounds);
        return memory::tell(case);
    }
    let mut measured = Vec::new();
    for pair in group.cases.chunks(VARIANTS.len()) {
        println!("{}, network {}: {}", group.name, pair[0].index, pair[0].counts());
        measured.extend(pair.iter().map(|case| run(case, rounds)));
    }
    tell_group(group, &measured);
}

/// How busy the machine is, where the system tells.
fn tell_load() {
    if let Ok(load) = std::fs::read_to_string("/proc/loadavg") {
        println!("load: {}", load.trim());
    }
}

fn main() {
    let words: Vec<String> = std::env::args().skip(1).collect();
    let number = |word: &str| word.parse().expect("see the head of src/bin/bench/main.rs for what bench takes");
    if !cfg!(panic = "abort") {
        println!("compiled without the profile `timed`: the Rust is slower than it can be");
    }
    tell_load();
    match &words.iter().map(String::as_str).collect::<Vec<_>>()[..] {
        ["--generated", seed, count] => generated::run(number(seed), number(count)),
        ["--stack", seed, count] => memory::tell_deepest(number(seed), number(count)),
        ["--growth", plot] => growth::run(plot, 61),
        ["--growth", plot, rounds] => growth::run(plot, number(rounds) as usize),
        ["--write", folder] => networks::groups().iter().for_each(|group| group.write(folder)),
        rounds => {
            let rounds = rounds.first().map_or(61, |word| number(word)) as usize;
            networks::groups().iter().for_each(|group| run_group(group, rounds));
        }
    }
    tell_load();
}
