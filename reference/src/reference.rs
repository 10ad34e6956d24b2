//! The reference's answers: the Rust's programme for a network file, and what each step file makes of it.
use crate::ceilings;
use crate::columns::{self, Columns, Path};
use crate::flow_costs::{CostCounts, Costs};
use crate::makers::MASS;
use crate::programme::{Column, Programme};
use crate::solver::{Altered, Solver, Unaltered};
use crate::{NetworkFile, RETIRED, Refusal, Sentinel, makers, step_checks, step_file};
use pywr_core::network::Network;
use pywr_core::solvers::SolverSolveError;
use pywr_core::state::State;
use pywr_core::timestep::Timestep;

pub struct Reference {
    file: NetworkFile,
    network: Network,
    sentinel: Sentinel,
    /// Takes every step first: a refused `update` stops half way.
    trial: Option<Altered>,
    /// Takes accepted steps only.
    kept: Altered,
    /// The source as it is, where no union arises.
    unaltered: Option<Unaltered>,
    in_both: InBoth,
    unions: Unions,
    /// The columns of the model, in flow order.
    paths: Vec<Path>,
    cost_counts: CostCounts,
    programme: Programme,
}

/// What document 02's L2 makes of a network.
#[derive(Debug, Clone, Copy, Default, PartialEq, Eq)]
pub struct Unions {
    /// How many columns the unaltered Rust has more: each union makes it one less.
    pub count: usize,
    /// The unaltered Rust's programme is over a ceiling.
    pub over_without: bool,
}

/// How many builds and accepted steps the altered and the unaltered Rust both ran, and agreed on: the steps but for costs.
#[derive(Debug, Clone, Copy, Default, PartialEq, Eq)]
pub struct InBoth {
    pub builds: u64,
    pub steps: u64,
    /// Accepted steps whose costs were compared, those of `steps` and others.
    pub costs: u64,
    /// Of these, steps in which a cost has other bits.
    pub costs_unlike: u64,
}

impl Reference {
    pub fn build(file: &[u8], sentinel: Sentinel) -> Result<Self, Refusal> {
        Self::build_of_any_size(file, sentinel)?.within_ceilings()
    }

    /// By every refusal but 11.
    pub fn build_of_any_size(file: &[u8], sentinel: Sentinel) -> Result<Self, Refusal> {
        let file = NetworkFile::read(file)?;
        file.check()?;
        let network = file.network();
        let kept = Altered::create(&network, sentinel.high()).expect("the Rust builds what passes every refusal but 11");
        let mut programme = kept.programme();
        let found = makers::of(&file, &kept.columns_of_edges(&network), &programme);
        programme.makers = found.unwrap_or_else(|e| panic!("the makers of the Rust's rows: {e}"));
        let (in_both, unions, cost_counts) = (InBoth::default(), Unions::default(), CostCounts::default());
        let (paths, trial, unaltered) = (columns::paths(&file), None, None);
        let mut built = Self { file, network, sentinel, trial, kept, unaltered, in_both, unions, paths, cost_counts, programme };
        built.require_columns();
        built.build_unaltered();
        Ok(built)
    }

    pub fn within_ceilings(self) -> Result<Self, Refusal> {
        ceilings::check(&self.programme).map(|()| self)
    }

    /// The columns, and the links with a mass row, are those of the model.
    fn require_columns(&self) {
        let of_edges = self.columns_of_edges();
        let mass_rows = self.programme.makers.iter().filter(|maker| maker.kind == MASS).map(|maker| maker.index as usize);
        let found = Columns { of_edges, count: self.programme.edge_columns(), mass_rows: mass_rows.collect() };
        assert_eq!(found, Columns::of(&self.file), "the Rust's columns and the model's");
    }

    /// Where no union arises, the columns are those of the source as it is; with at most one distinct set the programme is too.
    fn build_unaltered(&mut self) {
        let unaltered = Unaltered::create(&self.network, self.sentinel.high()).unwrap();
        let fresh = unaltered.programme();
        let fewer = fresh.edge_columns().checked_sub(self.programme.edge_columns());
        self.unions.count = fewer.expect("as many columns as the source has, or fewer");
        self.unions.over_without = ceilings::check(&fresh).is_err();
        if self.unions.count > 0 {
            return;
        }
        assert_eq!(unaltered.columns_of_edges(&self.network), self.columns_of_edges(), "columns where no union arises");
        if self.file.distinct_sets() <= 1 {
            assert!(fresh.same_bits(&self.programme), "{UNLIKE}");
            self.in_both.builds += 1;
        }
        self.unaltered = Some(unaltered);
    }

    /// Refusals 12 and 13 by the file, 14 by the Rust, 21 by the numbers. A refused step leaves the programme as it was.
    pub fn step(&mut self, file: &[u8]) -> Result<(), Refusal> {
        let (timestep, state) = step_file::read(&self.file, file)?;
        let trial = self.trial.get_or_insert_with(|| Altered::create(&self.network, self.sentinel.high()).unwrap());
        let rust = trial.step(&self.network, &timestep, &state).map_err(refusal);
        let at_sentinel = step_checks::first_at_sentinel(&self.file, self.sentinel, timestep.days(), &state);
        step_checks::in_one_pass(rust, at_sentinel)?;
        self.kept.step(&self.network, &timestep, &state).expect("the trial accepted this step");
        let makers = std::mem::take(&mut self.programme.makers);
        self.programme = Programme { makers, ..self.kept.programme() };
        assert!(trial.programme().same_bits(&self.programme), "a step after a refused one differs");
        let costs = Costs { file: &self.file, state: &state };
        self.cost_counts += costs.check(&self.paths, &self.programme).unwrap_or_else(|e| panic!("the costs: {e}"));
        self.step_unaltered(&timestep, &state);
        Ok(())
    }

    /// An accepted step in the source as it is: its costs, and with at most one distinct set and no varying exclusive node all else too.
    fn step_unaltered(&mut self, timestep: &Timestep, state: &State) {
        let Some(unaltered) = &mut self.unaltered else { return };
        unaltered.step(&self.network, timestep, state).expect("the trial accepted this step");
        let (programme, costs) = (unaltered.programme(), Costs { file: &self.file, state });
        costs.check_unaltered(&self.paths, &programme).unwrap_or_else(|e| panic!("the costs: {e}"));
        self.in_both.costs += 1;
        let alike = |(one, other): (&Column, &Column)| one.cost.to_bits() == other.cost.to_bits();
        self.in_both.costs_unlike += !self.programme.columns.iter().zip(&programme.columns).all(alike) as u64;
        if self.file.distinct_sets() <= 1 && self.file.varying_exclusive_nodes().is_empty() {
            assert!(programme.with_costs_of(&self.programme).same_bits(&self.programme), "{UNLIKE}");
            self.in_both.steps += 1;
        }
    }

    /// With the makers of its rows, which no step changes.
    pub fn programme(&self) -> &Programme {
        &self.programme
    }

    pub fn columns_of_edges(&self) -> Vec<usize> {
        self.kept.columns_of_edges(&self.network)
    }

    pub fn unions(&self) -> Unions {
        self.unions
    }

    pub fn in_both(&self) -> InBoth {
        self.in_both
    }

    /// By the model.
    pub fn paths(&self) -> &[Path] {
        &self.paths
    }

    pub fn cost_counts(&self) -> CostCounts {
        self.cost_counts
    }
}

const UNLIKE: &str = "the altered and the unaltered Rust differ";

/// The Rust's refusal of a step, `RETIRED` with the others. Names are numbers.
pub fn refusal(error: SolverSolveError) -> Refusal {
    match error {
        SolverSolveError::NodeBoundsInfeasible { name, .. } => Refusal::new(14, name.parse().unwrap()),
        SolverSolveError::VirtualStorageBoundsInfeasible { name, .. } => Refusal::new(RETIRED, name.parse().unwrap()),
        other => panic!("the Rust refuses a step for another reason: {other}"),
    }
}
