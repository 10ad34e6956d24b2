//! A store: the nine runs that hold a programme with what its steps need.
use crate::maker::{MAKER_WIDTH, MAKERS_AT, Maker};
use crate::{COLUMNS, ELEMENTS, ROW_STARTS, ROWS, Refusal, SHAPE, Sentinel, calls};

/// Where the edges in flow order stand in `shape`, a word for each, and how many there may be.
const FLOW_ORDER_AT: usize = 22795;
const MOST_EDGES: usize = 512;

/// Each run may be longer than its least length. One that is shorter is refused with 16.
#[derive(Debug, Clone)]
pub struct Store {
    pub col_lower: Vec<f64>,
    pub col_upper: Vec<f64>,
    pub col_obj_coef: Vec<f64>,
    pub row_lower: Vec<f64>,
    pub row_upper: Vec<f64>,
    pub elements: Vec<f64>,
    pub columns: Vec<u16>,
    pub row_starts: Vec<u32>,
    pub shape: Vec<u16>,
}

/// One row: where it stands in `columns` and `elements`, and these parts.
#[derive(Debug, Clone, Copy, PartialEq)]
pub struct Row<'a> {
    pub start: usize,
    pub columns: &'a [u16],
    pub elements: &'a [f64],
}

impl Store {
    pub fn new() -> Self {
        Self {
            col_lower: vec![0.0; COLUMNS],
            col_upper: vec![0.0; COLUMNS],
            col_obj_coef: vec![0.0; COLUMNS],
            row_lower: vec![0.0; ROWS],
            row_upper: vec![0.0; ROWS],
            elements: vec![0.0; ELEMENTS],
            columns: vec![0; ELEMENTS],
            row_starts: vec![0; ROW_STARTS],
            shape: vec![0; SHAPE],
        }
    }

    /// Writes the programme of a network file, or refuses with 1 to 11, 16, 19 or 20. The work runs are all zero after it, but untouched after 16.
    pub fn build(&mut self, file: &[u8], sentinel: Sentinel, words: &mut [u16], numbers: &mut [f64]) -> Result<(), Refusal> {
        calls::build(file, sentinel, self, words, numbers)
    }

    /// Writes a step file's costs, bounds and coefficients, or refuses with 12 to 14, 16, 17 or 21. The work run is all zero after it, but untouched after 16.
    pub fn step(&mut self, file: &[u8], work: &mut [f64]) -> Result<(), Refusal> {
        calls::step(file, self, work)
    }

    /// The columns and elements of a row, or a refusal with 16 to 18.
    pub fn row(&self, row: usize) -> Result<Row<'_>, Refusal> {
        let (start, length, answer) = self.row_part(row);
        answer.map(|()| Row { start, columns: part(&self.columns, start, length), elements: part(&self.elements, start, length) })
    }

    /// The same as the start and the length of the row's part: both are 0 where it is refused.
    pub fn row_part(&self, row: usize) -> (usize, usize, Result<(), Refusal>) {
        calls::row(self, row)
    }

    /// Who made a row, and how many share it; none where the row is not under the row count.
    ///
    /// Ask after an accepted build; no step changes it. It reads three words of `shape`, as the counts below do, and does not look over the store
    /// as [`Store::row`] does: so it refuses nothing. Where something else wrote to the store it is what stands there, and none where that is no
    /// kind of maker.
    ///
    /// ```no_run
    /// # fn main() -> Result<(), Box<dyn std::error::Error>> {
    /// # let (mut words, mut numbers) = (vec![0; pywr::BUILD_WORDS], vec![0.0; pywr::BUILD_NUMBERS]);
    /// let mut store = pywr::Store::new();
    /// store.build(&std::fs::read("intake.network")?, pywr::Sentinel::Infinity, &mut words, &mut numbers)?;
    /// if let Some(maker) = store.maker(7) {
    ///     println!("row 7: {maker}"); // row 7: virtual storage 0, shared by 2
    /// }
    /// # Ok(())
    /// # }
    /// ```
    pub fn maker(&self, row: usize) -> Option<Maker> {
        if row >= self.row_count().min(ROWS) {
            return None;
        }
        let words = part(&self.shape, MAKERS_AT + MAKER_WIDTH * row, MAKER_WIDTH);
        Maker::of_words(words.try_into().ok()?)
    }

    /// The edges' numbers in the order in which a step adds their costs: each column's from source to sink, a closed ring's from its lowest edge.
    ///
    /// Ask after an accepted build; no step changes it. It is what stands in `shape`, as with [`Store::maker`].
    pub fn flow_order(&self) -> &[u16] {
        part(&self.shape, FLOW_ORDER_AT, self.count(2).min(MOST_EDGES))
    }

    /// How many columns are for edges; those behind them are the sets' integer columns.
    pub fn edge_column_count(&self) -> usize {
        self.count(3)
    }

    pub fn column_count(&self) -> usize {
        self.count(3) + self.count(4)
    }

    /// How many rows a step writes; those behind them are fixed.
    pub fn varying_row_count(&self) -> usize {
        self.count(5)
    }

    pub fn row_count(&self) -> usize {
        self.count(5) + self.count(6)
    }

    pub fn element_count(&self) -> usize {
        self.count(7)
    }

    /// A count as `shape` holds it, whatever that is; 0 where `shape` ends before it.
    fn count(&self, at: usize) -> usize {
        self.shape.get(at).map_or(0, |&count| count as usize)
    }
}

/// The part of a run from a start; empty where the run ends inside it.
fn part<T>(run: &[T], start: usize, length: usize) -> &[T] {
    run.get(start..).and_then(|rest| rest.get(..length)).unwrap_or_default()
}

impl Default for Store {
    fn default() -> Self {
        Self::new()
    }
}
