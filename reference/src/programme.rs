//! A linear programme with the makers of its rows, the lister's text of it, and the comparison of two.
use crate::makers::Maker;
use std::fmt;

#[derive(Debug, Clone, Copy)]
pub struct Column {
    pub integer: bool,
    pub lower: f64,
    pub upper: f64,
    pub cost: f64,
}

#[derive(Debug, Clone)]
pub struct Row {
    pub varying: bool,
    pub lower: f64,
    pub upper: f64,
    pub elements: Vec<(usize, f64)>,
}

#[derive(Debug, Clone)]
pub struct Programme {
    pub columns: Vec<Column>,
    pub rows: Vec<Row>,
    /// One for each row; none where nobody has asked who made the rows.
    pub makers: Vec<Maker>,
}

impl Programme {
    pub fn sets(&self) -> usize {
        self.columns.iter().filter(|c| c.integer).count()
    }

    /// The columns of edges: the others are those of sets.
    pub fn edge_columns(&self) -> usize {
        self.columns.len() - self.sets()
    }

    pub fn varying_rows(&self) -> usize {
        self.rows.iter().filter(|r| r.varying).count()
    }

    pub fn elements(&self) -> usize {
        self.rows.iter().map(|r| r.elements.len()).sum()
    }

    /// The line of the `P` record.
    pub fn counts(&self) -> String {
        format!("P {} {} {} {}", self.columns.len(), self.rows.len(), self.varying_rows(), self.elements())
    }

    /// The makers are not looked at: the Rust has none.
    pub fn same_bits(&self, other: &Self) -> bool {
        self.difference_by(other, |a, b| a.to_bits() == b.to_bits()).is_none()
    }

    /// With the costs of another one.
    pub fn with_costs_of(mut self, other: &Self) -> Self {
        self.columns.iter_mut().zip(&other.columns).for_each(|(column, other)| column.cost = other.cost);
        self
    }

    /// The first place where the two differ, makers too, doubles by numeric equality: zeros of either sign are equal.
    pub fn difference(&self, other: &Self) -> Option<String> {
        self.difference_by(other, |a, b| a == b).or_else(|| self.difference_of_makers(other))
    }

    fn difference_of_makers(&self, other: &Self) -> Option<String> {
        let at = (0..self.rows.len()).find(|&i| self.makers.get(i) != other.makers.get(i))?;
        Some(format!("row {at} made by {:?} and {:?}", self.makers.get(at), other.makers.get(at)))
    }

    fn difference_by(&self, other: &Self, equal: fn(f64, f64) -> bool) -> Option<String> {
        let all = |a: &[f64], b: &[f64]| a.iter().zip(b).all(|(&a, &b)| equal(a, b));
        if self.counts() != other.counts() {
            return Some(format!("{} and {}", self.counts(), other.counts()));
        }
        for (i, (a, b)) in self.columns.iter().zip(&other.columns).enumerate() {
            if a.integer != b.integer || !all(&[a.lower, a.upper, a.cost], &[b.lower, b.upper, b.cost]) {
                return Some(format!("column {i}: {a:?} and {b:?}"));
            }
        }
        for (i, (a, b)) in self.rows.iter().zip(&other.rows).enumerate() {
            let same_elements = a.elements.len() == b.elements.len()
                && a.elements.iter().zip(&b.elements).all(|(a, b)| a.0 == b.0 && equal(a.1, b.1));
            if a.varying != b.varying || !all(&[a.lower, a.upper], &[b.lower, b.upper]) || !same_elements {
                return Some(format!("row {i}: {a:?} and {b:?}"));
            }
        }
        None
    }
}

/// The lister's text.
impl fmt::Display for Programme {
    fn fmt(&self, f: &mut fmt::Formatter<'_>) -> fmt::Result {
        writeln!(f, "{}", self.counts())?;
        for (i, c) in self.columns.iter().enumerate() {
            let kind = if c.integer { 'i' } else { 'c' };
            writeln!(f, "C {i} {kind} {:016x} {:016x} {:016x}", c.lower.to_bits(), c.upper.to_bits(), c.cost.to_bits())?;
        }
        assert_eq!(self.makers.len(), self.rows.len(), "a listing has the maker of each row");
        for (i, (r, m)) in self.rows.iter().zip(&self.makers).enumerate() {
            let [lower, upper] = [r.lower.to_bits(), r.upper.to_bits()];
            write!(f, "R {i} {} {lower:016x} {upper:016x} {}", r.varying as u8, r.elements.len())?;
            writeln!(f, " {} {} {}", m.kind, m.index, m.shared_by)?;
            for (column, value) in &r.elements {
                writeln!(f, "E {column} {:016x}", value.to_bits())?;
            }
        }
        Ok(())
    }
}
