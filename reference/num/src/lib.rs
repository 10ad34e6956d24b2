//! Stand-in for the crate `num`: what builder.rs and col_edge_map.rs ask of an integer type.
use std::ops::{Add, Sub};

pub trait PrimInt: Copy + Ord + Add<Output = Self> + Sub<Output = Self> {
    fn zero() -> Self;
    fn one() -> Self;
    fn from(n: usize) -> Option<Self>;
    fn to_usize(self) -> Option<usize>;
}

impl PrimInt for i32 {
    fn zero() -> Self {
        0
    }

    fn one() -> Self {
        1
    }

    fn from(n: usize) -> Option<Self> {
        n.try_into().ok()
    }

    fn to_usize(self) -> Option<usize> {
        self.try_into().ok()
    }
}
