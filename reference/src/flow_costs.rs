//! What a column costs in a step, by documents 01 and 02, from the records of both files alone: summed in flow order, in edge order, and without
//! rounding. What is required of the Rust's costs.
use crate::columns::Path;
use crate::exact::{BITS_OF_ONE, Whole};
use crate::{NetworkFile, Programme};
use pywr_core::node::NodeType;
use pywr_core::state::State;
use std::ops::AddAssign;

/// "Where no cost exceeds 1,000 in magnitude, either order is within 2^-24 of the exact sum".
pub const MOST: f64 = 1000.0;
const NEAR: usize = 24;
/// Exact sums are in units of 2^-1075, so that half of a double is whole.
const BITS_OF_ONE_HALVED: usize = BITS_OF_ONE + 1;

/// The costs of a step.
pub struct Costs<'a> {
    pub file: &'a NetworkFile,
    pub state: &'a State,
}

type Checked<T> = Result<T, String>;

fn require(holds: bool, what: impl FnOnce() -> String) -> Checked<()> {
    if holds { Ok(()) } else { Err(what()) }
}

fn same_bits(a: f64, b: f64) -> bool {
    a.to_bits() == b.to_bits()
}

impl Costs<'_> {
    fn of_node(&self, node: usize) -> f64 {
        self.state.nodes[node].cost
    }

    /// "from's outgoing plus to's incoming": half of a link's cost, minus a storage's where it is left.
    pub fn of_edge(&self, edge: usize) -> f64 {
        let part = |node: usize, of_storage: f64| match self.file.nodes[node].kind {
            NodeType::Link => self.of_node(node) / 2.0,
            NodeType::Storage => of_storage * self.of_node(node),
            NodeType::Input | NodeType::Output => self.of_node(node),
        };
        let (from, to) = self.file.edges[edge];
        part(from, -1.0) + part(to, 1.0)
    }

    /// The same without rounding, in units of 2^-1075.
    fn of_edge_exactly(&self, edge: usize) -> Whole {
        let part = |node: usize, is_left: bool| {
            let cost = Whole::of_double(self.of_node(node));
            match self.file.nodes[node].kind {
                NodeType::Link => cost,
                NodeType::Storage if is_left => -&cost.shifted(1),
                _ => cost.shifted(1),
            }
        };
        let (from, to) = self.file.edges[edge];
        &part(from, true) + &part(to, false)
    }

    /// From 0.0, as document 01 has it.
    pub fn sum(&self, edges: &[usize]) -> f64 {
        edges.iter().fold(0.0, |sum, &edge| sum + self.of_edge(edge))
    }

    pub fn in_flow_order(&self, path: &Path) -> f64 {
        self.sum(&path.edges)
    }

    pub fn in_edge_order(&self, path: &Path) -> f64 {
        let mut edges = path.edges.clone();
        edges.sort();
        self.sum(&edges)
    }

    /// In units of 2^-1075.
    pub fn exact_sum(&self, path: &Path) -> Whole {
        path.edges.iter().map(|&edge| self.of_edge_exactly(edge)).sum()
    }

    /// Whether every node's cost is a whole number.
    pub fn all_whole(&self) -> bool {
        self.state.nodes.iter().all(|node| node.cost.fract() == 0.0)
    }

    /// Whether no node's cost exceeds 1,000 in magnitude.
    pub fn none_over(&self) -> bool {
        self.state.nodes.iter().all(|node| node.cost.abs() <= MOST)
    }

    /// The programme's costs are the sums in flow order, bit for bit, and the sets' are 0.0; both orders are alike or near as the request says.
    pub fn check(&self, paths: &[Path], programme: &Programme) -> Checked<CostCounts> {
        let [whole, small] = [self.all_whole(), self.none_over()];
        let mut columns = 0;
        for (k, (path, column)) in paths.iter().zip(&programme.columns).enumerate() {
            let [flow, edge] = [self.in_flow_order(path), self.in_edge_order(path)];
            require(same_bits(column.cost, flow), || format!("column {k} costs {:e}, {flow:e} in flow order", column.cost))?;
            require(!whole || same_bits(flow, edge), || format!("column {k}: whole costs add to {flow:e} and {edge:e}"))?;
            if small {
                let exact = self.exact_sum(path);
                require(is_near(flow, &exact) && is_near(edge, &exact), || {
                    format!("column {k}: {flow:e}, {edge:e}, exactly {exact}")
                })?;
            }
            columns += !same_bits(flow, edge) as u64;
        }
        let free = programme.columns[paths.len()..].iter().all(|column| same_bits(column.cost, 0.0));
        require(free, || "an exclusive set costs something".into())?;
        let keyed_otherwise = !paths.iter().all(Path::is_in_edge_order);
        let of_step = |counted: bool| [counted as u64, (counted && keyed_otherwise) as u64];
        Ok(CostCounts {
            steps: of_step(true),
            whole: of_step(whole),
            small: of_step(small),
            steps_unlike: (columns > 0) as u64,
            columns_unlike: columns,
        })
    }

    /// The unaltered Rust's costs, where it has the same columns, are the sums in edge order bit for bit; so they are the altered one's, or as near to
    /// the exact sum, as the request says.
    pub fn check_unaltered(&self, paths: &[Path], unaltered: &Programme) -> Checked<()> {
        let [whole, small] = [self.all_whole(), self.none_over()];
        for (k, (path, column)) in paths.iter().zip(&unaltered.columns).enumerate() {
            let text = || format!("column {k} costs {:e} in the unaltered Rust", column.cost);
            require(same_bits(column.cost, self.in_edge_order(path)), text)?;
            if whole || path.is_in_edge_order() {
                require(same_bits(column.cost, self.in_flow_order(path)), text)?;
            } else if small {
                require(is_near(column.cost, &self.exact_sum(path)), text)?;
            }
        }
        Ok(())
    }
}

/// Whether a cost is within 2^-24 of a sum in units of 2^-1075.
pub fn is_near(cost: f64, exact: &Whole) -> bool {
    let (off, most) = (&Whole::of_double(cost).shifted(1) - exact, Whole::from(1).shifted(BITS_OF_ONE_HALVED - NEAR));
    -&most <= off && off <= most
}

/// Accepted steps whose costs were looked at; of each kind all, then those with a column whose flow order is not its edge order.
#[derive(Debug, Clone, Copy, Default, PartialEq, Eq)]
pub struct CostCounts {
    pub steps: [u64; 2],
    /// Every cost is whole.
    pub whole: [u64; 2],
    /// No cost is over 1,000.
    pub small: [u64; 2],
    /// In how many steps the two orders differ in a bit, and in how many columns of these.
    pub steps_unlike: u64,
    pub columns_unlike: u64,
}

impl AddAssign for CostCounts {
    fn add_assign(&mut self, other: Self) {
        for (count, other) in [(&mut self.steps, other.steps), (&mut self.whole, other.whole), (&mut self.small, other.small)] {
            count.iter_mut().zip(other).for_each(|(count, other)| *count += other);
        }
        self.steps_unlike += other.steps_unlike;
        self.columns_unlike += other.columns_unlike;
    }
}
