//! What the program `namer` prints: who made each row of a fresh build, in words, or a refusal.
use crate::{Programme, Refusal};

/// A line for each row.
pub fn all_rows(programme: &Programme) -> String {
    (0..programme.rows.len()).map(|row| one_row(programme, row)).collect()
}

/// The line of one row: a refusal with 18 where there is no such row.
pub fn one_row(programme: &Programme, row: usize) -> String {
    match programme.makers.get(row) {
        Some(maker) => format!("row {row}: {maker}\n"),
        None => format!("{}\n", Refusal::new(18, row)),
    }
}
