//! The library's functions, and their answers.
use crate::{Refusal, Sentinel, Store};

#[repr(C)]
struct RowPart {
    number: u64,
    place: u64,
    start: u64,
    length: u64,
}

#[link(name = "pywr_c", kind = "static")]
#[rustfmt::skip]
unsafe extern "C" {
    fn pywr_build(
        file: *const u8, file_length: usize, infinite: bool,
        col_lower: *mut f64, col_lower_length: usize, col_upper: *mut f64, col_upper_length: usize,
        col_obj_coef: *mut f64, col_obj_coef_length: usize,
        row_lower: *mut f64, row_lower_length: usize, row_upper: *mut f64, row_upper_length: usize,
        elements: *mut f64, elements_length: usize, columns: *mut u16, columns_length: usize,
        row_starts: *mut u32, row_starts_length: usize, shape: *mut u16, shape_length: usize,
        words: *mut u16, words_length: usize, numbers: *mut f64, numbers_length: usize,
    ) -> Refusal;
    fn pywr_step(
        file: *const u8, file_length: usize,
        col_lower: *const f64, col_lower_length: usize, col_upper: *const f64, col_upper_length: usize,
        col_obj_coef: *mut f64, col_obj_coef_length: usize,
        row_lower: *mut f64, row_lower_length: usize, row_upper: *mut f64, row_upper_length: usize,
        elements: *mut f64, elements_length: usize, columns: *const u16, columns_length: usize,
        row_starts: *const u32, row_starts_length: usize, shape: *const u16, shape_length: usize,
        work: *mut f64, work_length: usize,
    ) -> Refusal;
    fn pywr_row(
        col_lower: *const f64, col_lower_length: usize, col_upper: *const f64, col_upper_length: usize,
        col_obj_coef: *const f64, col_obj_coef_length: usize,
        row_lower: *const f64, row_lower_length: usize, row_upper: *const f64, row_upper_length: usize,
        elements: *const f64, elements_length: usize, columns: *const u16, columns_length: usize,
        row_starts: *const u32, row_starts_length: usize, shape: *const u16, shape_length: usize,
        row: usize,
    ) -> RowPart;
}

// Safe: a run of Rust is aligned and not null, no two of these overlap, and the library keeps within each run whatever it holds.
#[rustfmt::skip]
pub fn build(file: &[u8], sentinel: Sentinel, s: &mut Store, words: &mut [u16], numbers: &mut [f64]) -> Result<(), Refusal> {
    accepted(unsafe { pywr_build(
        file.as_ptr(), file.len(), sentinel == Sentinel::Infinity,
        s.col_lower.as_mut_ptr(), s.col_lower.len(), s.col_upper.as_mut_ptr(), s.col_upper.len(),
        s.col_obj_coef.as_mut_ptr(), s.col_obj_coef.len(),
        s.row_lower.as_mut_ptr(), s.row_lower.len(), s.row_upper.as_mut_ptr(), s.row_upper.len(),
        s.elements.as_mut_ptr(), s.elements.len(), s.columns.as_mut_ptr(), s.columns.len(),
        s.row_starts.as_mut_ptr(), s.row_starts.len(), s.shape.as_mut_ptr(), s.shape.len(),
        words.as_mut_ptr(), words.len(), numbers.as_mut_ptr(), numbers.len(),
    ) })
}

#[rustfmt::skip]
pub fn step(file: &[u8], s: &mut Store, work: &mut [f64]) -> Result<(), Refusal> {
    accepted(unsafe { pywr_step(
        file.as_ptr(), file.len(),
        s.col_lower.as_ptr(), s.col_lower.len(), s.col_upper.as_ptr(), s.col_upper.len(),
        s.col_obj_coef.as_mut_ptr(), s.col_obj_coef.len(),
        s.row_lower.as_mut_ptr(), s.row_lower.len(), s.row_upper.as_mut_ptr(), s.row_upper.len(),
        s.elements.as_mut_ptr(), s.elements.len(), s.columns.as_ptr(), s.columns.len(),
        s.row_starts.as_ptr(), s.row_starts.len(), s.shape.as_ptr(), s.shape.len(),
        work.as_mut_ptr(), work.len(),
    ) })
}

/// The start and the length of a row's part of `columns`, and the answer; both are 0 where it is a refusal.
#[rustfmt::skip]
pub fn row(s: &Store, row: usize) -> (usize, usize, Result<(), Refusal>) {
    let part = unsafe { pywr_row(
        s.col_lower.as_ptr(), s.col_lower.len(), s.col_upper.as_ptr(), s.col_upper.len(),
        s.col_obj_coef.as_ptr(), s.col_obj_coef.len(),
        s.row_lower.as_ptr(), s.row_lower.len(), s.row_upper.as_ptr(), s.row_upper.len(),
        s.elements.as_ptr(), s.elements.len(), s.columns.as_ptr(), s.columns.len(),
        s.row_starts.as_ptr(), s.row_starts.len(), s.shape.as_ptr(), s.shape.len(),
        row,
    ) };
    (part.start as usize, part.length as usize, accepted(Refusal { number: part.number, place: part.place }))
}

fn accepted(answer: Refusal) -> Result<(), Refusal> {
    if answer.number == 0 { Ok(()) } else { Err(answer) }
}
