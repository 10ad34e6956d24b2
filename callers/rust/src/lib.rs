//! Pywr networks as linear programmes: a safe face over the library `libpywr_c.a`.
//!
//! A [`Store`] holds a programme in nine runs. [`Store::build`] writes a network file's programme into it, [`Store::step`] a step file's
//! costs, bounds and coefficients; [`Store::row`] reads one row, and [`Store::maker`] says who made it. A call that is refused leaves the store as
//! it was.
mod calls;
mod maker;
mod refusal;
mod store;

pub use maker::{Maker, MakerKind};
pub use refusal::{Place, Refusal};
pub use store::{Row, Store};

/// The least lengths of the runs of a store.
pub const COLUMNS: usize = 640;
pub const ROWS: usize = 1024;
pub const ELEMENTS: usize = 4096;
pub const ROW_STARTS: usize = 1025;
pub const SHAPE: usize = 23307;

/// The least lengths of the work runs of a build and of a step.
pub const BUILD_WORDS: usize = 28428;
pub const BUILD_NUMBERS: usize = 6784;
pub const STEP_WORK: usize = 704;

/// What an upper bound has that binds nothing; its negation is the lower.
#[derive(Debug, Clone, Copy, PartialEq, Eq)]
pub enum Sentinel {
    Infinity,
    LargestFinite,
}
