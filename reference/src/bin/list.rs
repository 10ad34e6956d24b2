//! Reads a network on standard input and prints the Rust's programme, or the refusal, as the lister does.
use pywr_reference::{Reference, Sentinel};
use std::io::Read;

fn main() {
    let mut file = Vec::new();
    std::io::stdin().read_to_end(&mut file).expect("standard input");
    match Reference::build(&file, Sentinel::Infinity) {
        Ok(built) => print!("{}", built.programme()),
        Err(refusal) => println!("{refusal}"),
    }
}
