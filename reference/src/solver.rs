//! The Rust's `SolverBuilder` and `BuiltSolver`, altered and unaltered, behind one trait.
use crate::programme::{Column, Programme, Row};
use pywr_core::network::Network;
use pywr_core::solvers::{SolverSetupError, SolverSolveError, SolverTimings};
use pywr_core::state::{ConstParameterValues, State};
use pywr_core::timestep::Timestep;

pub trait Solver: Sized {
    fn create(network: &Network, high: f64) -> Result<Self, SolverSetupError>;
    fn step(&mut self, network: &Network, timestep: &Timestep, state: &State) -> Result<(), SolverSolveError>;
    fn programme(&self) -> Programme;
    fn columns_of_edges(&self, network: &Network) -> Vec<usize>;
}

macro_rules! solver {
    ($(#[$doc:meta])* $name:ident, $module:ident) => {
        $(#[$doc])*
        pub struct $name(pywr_core::solvers::$module::BuiltSolver<i32>);

        impl Solver for $name {
            fn create(network: &Network, high: f64) -> Result<Self, SolverSetupError> {
                let builder = pywr_core::solvers::$module::SolverBuilder::new(high, -high);
                builder.create(network, &ConstParameterValues).map(Self)
            }

            fn step(&mut self, network: &Network, timestep: &Timestep, state: &State) -> Result<(), SolverSolveError> {
                self.0.update(network, timestep, state, &mut SolverTimings::default())?;
                self.0.apply_updated_coefficients();
                Ok(())
            }

            fn programme(&self) -> Programme {
                use pywr_core::solvers::$module::ColType;
                let s = &self.0;
                let columns = (0..s.col_lower().len()).map(|i| Column {
                    integer: matches!(s.col_type()[i], ColType::Integer),
                    lower: s.col_lower()[i],
                    upper: s.col_upper()[i],
                    cost: s.col_obj_coef()[i],
                });
                let rows = (0..s.row_lower().len()).map(|i| {
                    let part = s.row_starts()[i] as usize..s.row_starts()[i + 1] as usize;
                    let columns = s.columns()[part.clone()].iter().map(|&c| c as usize);
                    Row {
                        varying: s.row_mask()[i] == 1,
                        lower: s.row_lower()[i],
                        upper: s.row_upper()[i],
                        elements: columns.zip(s.elements()[part].iter().copied()).collect(),
                    }
                });
                Programme { columns: columns.collect(), rows: rows.collect(), makers: Vec::new() }
            }

            fn columns_of_edges(&self, network: &Network) -> Vec<usize> {
                network.edges().iter().map(|edge| self.0.col_for_edge(&edge.index()) as usize).collect()
            }
        }
    };
}

solver!(
    /// With the alterations that README.md names.
    Altered,
    builder
);
solver!(
    /// The source as it is.
    Unaltered,
    builder_unaltered
);
