//! The buffers lent to the library: filled with a pattern before a call, and looked at after it.
use crate::random::Random;
use crate::store_shape::{Counts, TABLES};
use pywr::Store;

/// A store whose runs are up to two longer than they must be, all bits at random.
pub fn store(r: &mut Random) -> Store {
    use pywr::{COLUMNS, ELEMENTS, ROW_STARTS, ROWS, SHAPE};
    Store {
        col_lower: doubles(r, COLUMNS),
        col_upper: doubles(r, COLUMNS),
        col_obj_coef: doubles(r, COLUMNS),
        row_lower: doubles(r, ROWS),
        row_upper: doubles(r, ROWS),
        elements: doubles(r, ELEMENTS),
        columns: words(r, ELEMENTS),
        row_starts: words(r, ROW_STARTS).into_iter().map(|w| w as u32 * 65_537).collect(),
        shape: words(r, SHAPE),
    }
}

pub fn doubles(r: &mut Random, least: usize) -> Vec<f64> {
    let length = least + r.below(3);
    let mut bits = r.bits();
    let next = || {
        bits = bits.wrapping_mul(0x5851_f42d_4c95_7f2d).wrapping_add(1);
        f64::from_bits(bits)
    };
    std::iter::repeat_with(next).take(length).collect()
}

pub fn words(r: &mut Random, least: usize) -> Vec<u16> {
    let length = least + r.below(3);
    let (mut word, step) = (r.bits() as u16, r.bits() as u16 | 1);
    let next = || {
        word = word.wrapping_add(step);
        word
    };
    std::iter::repeat_with(next).take(length).collect()
}

pub fn same_doubles(a: &[f64], b: &[f64]) -> bool {
    a.len() == b.len() && a.iter().zip(b).fold(0, |d, (a, b)| d | (a.to_bits() ^ b.to_bits())) == 0
}

/// Zero throughout, with no sign.
pub fn zero_doubles(a: &[f64]) -> bool {
    a.iter().fold(0, |d, a| d | a.to_bits()) == 0
}

pub fn zero_words(a: &[u16]) -> bool {
    a.iter().fold(0, |d, a| d | a) == 0
}

/// The first run in which the two stores differ.
pub fn changed(a: &Store, b: &Store) -> Result<(), String> {
    kept_from(a, b, &Kept::default())
}

/// From where on each run must be as it was. A run that is not named here must be as it was throughout.
#[derive(Default)]
pub struct Kept {
    pub col_bounds: usize,
    pub costs: usize,
    pub row_bounds: usize,
    pub elements: usize,
    pub columns: usize,
    pub row_starts: usize,
    pub tables: Option<Counts>,
}

pub fn kept_from(old: &Store, new: &Store, from: &Kept) -> Result<(), String> {
    let doubles = [
        ("col_lower", &old.col_lower, &new.col_lower, from.col_bounds),
        ("col_upper", &old.col_upper, &new.col_upper, from.col_bounds),
        ("col_obj_coef", &old.col_obj_coef, &new.col_obj_coef, from.costs),
        ("row_lower", &old.row_lower, &new.row_lower, from.row_bounds),
        ("row_upper", &old.row_upper, &new.row_upper, from.row_bounds),
        ("elements", &old.elements, &new.elements, from.elements),
    ];
    for (name, a, b, at) in doubles {
        if !same_doubles(&a[at..], &b[at..]) {
            return Err(format!("{name} is written where it must not be"));
        }
    }
    if old.columns[from.columns..] != new.columns[from.columns..] {
        return Err("columns is written where it must not be".into());
    }
    if old.row_starts[from.row_starts..] != new.row_starts[from.row_starts..] {
        return Err("row_starts is written where it must not be".into());
    }
    let tables = from.tables.map_or([(0, 0); TABLES], |counts| counts.tables());
    let mut shape = new.shape.clone();
    for (start, length) in tables {
        shape[start..start + length].copy_from_slice(&old.shape[start..start + length]);
    }
    if shape == old.shape { Ok(()) } else { Err("shape is written where it must not be".into()) }
}

/// Makes run `k` shorter than its least length: the store's nine, then those in `work`.
pub fn shorten(r: &mut Random, k: usize, store: &mut Store, words: &mut Vec<u16>, numbers: &mut Vec<f64>, least: [usize; 2]) {
    use pywr::{COLUMNS, ELEMENTS, ROW_STARTS, ROWS, SHAPE};
    let mut length = |least: usize| if r.chance(70) { least - 1 } else { r.below(least) };
    match k {
        0 => store.col_lower.truncate(length(COLUMNS)),
        1 => store.col_upper.truncate(length(COLUMNS)),
        2 => store.col_obj_coef.truncate(length(COLUMNS)),
        3 => store.row_lower.truncate(length(ROWS)),
        4 => store.row_upper.truncate(length(ROWS)),
        5 => store.elements.truncate(length(ELEMENTS)),
        6 => store.columns.truncate(length(ELEMENTS)),
        7 => store.row_starts.truncate(length(ROW_STARTS)),
        8 => store.shape.truncate(length(SHAPE)),
        9 => numbers.truncate(length(least[0])),
        _ => words.truncate(length(least[1])),
    }
}
