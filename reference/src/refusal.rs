//! Document 01's refusals: a number and a place.
use std::fmt;

/// "Retire 15": a virtual storage's lower over upper. The Rust still asks for it, and no step file that passes 12 and 13 reaches it.
pub const RETIRED: u8 = 15;

/// The answers to a network file: 0 for accepted, or the number of the refusal.
pub const OF_A_NETWORK: [usize; 14] = [0, 1, 2, 3, 4, 5, 6, 7, 8, 9, 10, 11, 19, 20];

/// The largest number of a refusal.
pub const LARGEST: usize = 21;

#[derive(Debug, Clone, Copy, PartialEq, Eq)]
pub struct Refusal {
    pub number: u8,
    pub place: usize,
}

impl Refusal {
    pub fn new(number: u8, place: usize) -> Self {
        Self { number, place }
    }
}

impl fmt::Display for Refusal {
    fn fmt(&self, f: &mut fmt::Formatter<'_>) -> fmt::Result {
        write!(f, "N {} {}", self.number, self.place)
    }
}
