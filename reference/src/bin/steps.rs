//! steps [--finite] NETWORK STEP...: prints, after each step, `S` with its number and the listing, or the refusal.
use pywr_reference::{Reference, Sentinel};

fn main() {
    let mut paths: Vec<String> = std::env::args().skip(1).collect();
    let finite = paths.first().is_some_and(|a| a == "--finite");
    if finite {
        paths.remove(0);
    }
    if paths.is_empty() {
        eprintln!("steps [--finite] NETWORK STEP...");
        std::process::exit(2);
    }
    let read = |path: &String| std::fs::read(path).unwrap_or_else(|e| panic!("{path}: {e}"));
    let sentinel = if finite { Sentinel::LargestFinite } else { Sentinel::Infinity };
    match Reference::build(&read(&paths[0]), sentinel) {
        Err(refusal) => println!("{refusal}"),
        Ok(mut built) => {
            for (k, path) in paths[1..].iter().enumerate() {
                println!("S {k}");
                match built.step(&read(path)) {
                    Ok(()) => print!("{}", built.programme()),
                    Err(refusal) => println!("{refusal}"),
                }
            }
        }
    }
}
