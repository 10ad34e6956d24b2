//! Document 02's L3: refusal 21, asked of a step file that has been read, and its place beside the Rust's 14.
use crate::{NetworkFile, Refusal, Sentinel};
use pywr_core::network::NodeParts;
use pywr_core::node::NodeType;
use pywr_core::state::{NodeNumbers, State};

/// "a constant node's min and max; the step file's pair for any other node but storage"; a storage's by its volumes.
pub fn node_interval(node: &NodeParts, numbers: &NodeNumbers, days: f64) -> (f64, f64) {
    match node.constant {
        Some(bounds) => bounds,
        None if node.kind == NodeType::Storage => {
            let (available, missing) = (numbers.volume - numbers.min, numbers.max - numbers.volume);
            (-available / days, missing / days)
        }
        None => (numbers.min, numbers.max),
    }
}

/// The first varying exclusive node with "a bound at or beyond either sentinel".
pub fn first_at_sentinel(file: &NetworkFile, sentinel: Sentinel, days: f64, state: &State) -> Option<usize> {
    let is_at_sentinel = |&n: &usize| {
        let (lower, upper) = node_interval(&file.nodes[n], &state.nodes[n], days);
        sentinel.is_reached_by(lower) || sentinel.is_reached_by(upper)
    };
    file.varying_exclusive_nodes().into_iter().find(is_at_sentinel)
}

/// "after 14 in the same pass": of the Rust's answer and the first node with 21 what comes first by node, 14 before 21 of one node.
pub fn in_one_pass(rust: Result<(), Refusal>, at_sentinel: Option<usize>) -> Result<(), Refusal> {
    match (rust, at_sentinel) {
        (Err(refusal), Some(node)) if refusal.number == 14 && refusal.place > node => Err(Refusal::new(21, node)),
        (Ok(()), Some(node)) => Err(Refusal::new(21, node)),
        _ => rust,
    }
}
