//! Refusals 7 to 10, asked of a network file that has been read.
use crate::{NetworkFile, Refusal};
use pywr_core::node::NodeType;

impl NetworkFile {
    pub fn check(&self) -> Result<(), Refusal> {
        if self.edges.is_empty() {
            return Err(Refusal::new(7, 0));
        }
        for (i, node) in self.nodes.iter().enumerate() {
            let has_incoming = self.edges.iter().any(|e| e.1 == i);
            let has_outgoing = self.edges.iter().any(|e| e.0 == i);
            if node.kind == NodeType::Link && !(has_incoming && has_outgoing) {
                return Err(Refusal::new(8, i));
            }
        }
        for (i, node) in self.nodes.iter().enumerate() {
            if let Some((min, max)) = node.constant {
                if min > max {
                    return Err(Refusal::new(9, i));
                }
                if self.is_exclusive(i) && (max == f64::NEG_INFINITY || min == f64::INFINITY) {
                    return Err(Refusal::new(10, i));
                }
            }
        }
        Ok(())
    }

    /// "A node is exclusive if an exclusive aggregate lists it."
    pub fn is_exclusive(&self, node: usize) -> bool {
        self.aggregates.iter().any(|a| a.exclusive.is_some() && a.sets.iter().any(|set| set.contains(&node)))
    }

    pub fn varying_exclusive_nodes(&self) -> Vec<usize> {
        (0..self.nodes.len()).filter(|&n| self.nodes[n].constant.is_none() && self.is_exclusive(n)).collect()
    }

    /// How many sets the exclusive aggregates list, equal ordered lists counted once.
    pub fn distinct_sets(&self) -> usize {
        let exclusive = self.aggregates.iter().filter(|a| a.exclusive.is_some());
        exclusive.flat_map(|a| &a.sets).collect::<std::collections::BTreeSet<_>>().len()
    }
}
