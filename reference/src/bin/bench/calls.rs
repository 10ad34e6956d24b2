//! The calls that are timed: the port, the Rust with reading, builder.rs alone, each for a build and for a step; the unaltered Rust for a build.
use crate::networks::Case;
use pywr::{BUILD_NUMBERS, BUILD_WORDS, STEP_WORK, Store};
use pywr_core::network::Network;
use pywr_core::state::State;
use pywr_core::timestep::Timestep;
use pywr_reference::solver::{Altered, Solver, Unaltered};
use pywr_reference::timed::{network_reader, step_reader::StepReader};
use pywr_reference::{Reference, Sentinel, step_file};
use std::hint::black_box;

/// The port's buffers, lent anew for each call.
pub struct Port {
    pub store: Store,
    pub words: Vec<u16>,
    pub numbers: Vec<f64>,
    pub work: Vec<f64>,
}

impl Port {
    pub fn new() -> Self {
        Self { store: Store::new(), words: vec![0; BUILD_WORDS], numbers: vec![0.0; BUILD_NUMBERS], work: vec![0.0; STEP_WORK] }
    }

    #[inline(never)]
    pub fn build(&mut self, network: &[u8]) {
        self.store.build(network, pywr::Sentinel::Infinity, &mut self.words, &mut self.numbers).unwrap();
    }

    #[inline(never)]
    pub fn step(&mut self, step: &[u8]) {
        self.store.step(step, &mut self.work).unwrap();
    }
}

#[inline(never)]
pub fn rust_build<S: Solver>(network: &[u8]) -> (Network, S) {
    let network = network_reader::read(network).unwrap();
    let solver = rust_create(&network);
    (network, solver)
}

#[inline(never)]
pub fn rust_create<S: Solver>(network: &Network) -> S {
    S::create(network, f64::INFINITY).unwrap()
}

#[inline(never)]
pub fn rust_step(network: &Network, solver: &mut Altered, reader: &mut StepReader, step: &[u8]) {
    let (timestep, state) = reader.read(step).unwrap();
    solver.step(network, &timestep, state).unwrap();
}

#[inline(never)]
fn rust_update(network: &Network, solver: &mut Altered, (timestep, state): &(Timestep, State)) {
    solver.step(network, timestep, state).unwrap();
}

/// One network and step with what each call needs.
pub struct Calls<'a> {
    case: &'a Case,
    pub port: Port,
    network: Network,
    solver: Altered,
    reader: StepReader<'a>,
    read: (Timestep, State),
}

/// The builds and the steps among the calls: port, Rust with reading, builder.rs alone.
pub const BUILDS: [usize; 3] = [0, 1, 2];
pub const STEPS: [usize; 3] = [3, 4, 5];
/// The port's build, and those of the unaltered Rust, which unites no columns.
pub const BUILDS_BY_UNALTERED: [usize; 3] = [0, 6, 7];
pub const COUNT: usize = 8;

impl<'a> Calls<'a> {
    /// Both sides' answers are compared here; the readers that are timed are held to the ordinary ones.
    pub fn new(case: &'a Case) -> Self {
        let (network, solver) = rust_build(&case.network);
        let read = step_file::read(&case.file, &case.step).unwrap();
        let mut calls = Self { case, port: Port::new(), network, solver, reader: StepReader::new(&case.file), read };
        calls.require_equal_answers();
        calls
    }

    fn require_equal_answers(&mut self) {
        let mut reference = Reference::build(&self.case.network, Sentinel::Infinity).unwrap();
        reference.step(&self.case.step).unwrap();
        let programme = reference.programme();
        for k in 0..COUNT {
            self.call(k);
            assert!(k < STEPS[1] || self.solver.programme().same_bits(programme));
        }
        let store = &self.port.store;
        let bounds = |i| (store.row_lower[i], store.row_upper[i]);
        assert_eq!((store.column_count(), store.row_count()), (programme.columns.len(), programme.rows.len()));
        assert!(programme.rows.iter().enumerate().all(|(i, row)| (row.lower, row.upper) == bounds(i)));
        assert!(programme.columns.iter().enumerate().all(|(i, column)| column.cost == store.col_obj_coef[i]));
    }

    pub fn call(&mut self, k: usize) {
        let case = self.case;
        match k {
            0 => self.port.build(black_box(&case.network)),
            1 => drop(black_box(rust_build::<Altered>(black_box(&case.network)))),
            2 => drop(black_box(rust_create::<Altered>(black_box(&self.network)))),
            3 => self.port.step(black_box(&case.step)),
            4 => rust_step(&self.network, &mut self.solver, &mut self.reader, black_box(&case.step)),
            5 => rust_update(&self.network, &mut self.solver, black_box(&self.read)),
            6 => drop(black_box(rust_build::<Unaltered>(black_box(&case.network)))),
            _ => drop(black_box(rust_create::<Unaltered>(black_box(&self.network)))),
        }
    }
}
