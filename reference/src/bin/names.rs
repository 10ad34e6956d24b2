//! names [FILE [ROW]]: reads a network, on standard input if no file is named, and prints who made each of the Rust's rows, or one, as the namer does.
use pywr_reference::{Reference, Sentinel, naming};
use std::io::Read;

fn network(path: Option<String>) -> std::io::Result<Vec<u8>> {
    let mut file = Vec::new();
    match path {
        Some(path) => std::fs::read(path),
        None => std::io::stdin().read_to_end(&mut file).map(|_| file),
    }
}

fn main() {
    let mut words = std::env::args().skip(1);
    let file = network(words.next()).expect("the network");
    let row = words.next().map(|word| word.parse().expect("names [FILE [ROW]]"));
    match (Reference::build(&file, Sentinel::Infinity), row) {
        (Ok(built), None) => print!("{}", naming::all_rows(built.programme())),
        (Ok(built), Some(row)) => print!("{}", naming::one_row(built.programme(), row)),
        (Err(refusal), _) => println!("{refusal}"),
    }
}
