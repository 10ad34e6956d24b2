//! Refusal 11, asked of the Rust's programme.
use crate::{Programme, Refusal};

pub const SETS: usize = 128;
pub const ROWS: usize = 1024;
pub const ELEMENTS: usize = 4096;

pub fn check(programme: &Programme) -> Result<(), Refusal> {
    let fits = programme.sets() <= SETS && programme.rows.len() <= ROWS && programme.elements() <= ELEMENTS;
    if fits { Ok(()) } else { Err(Refusal::new(11, 0)) }
}
