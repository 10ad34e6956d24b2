//! aggregated_node.rs: the sets, exclusivity and bounds of the source, and how an aggregate is made.
use crate::NodeIndex;
use crate::metric::{ConstantMetricF64Error, MetricF64, MetricF64Error};
use crate::network::{AggregatedNodeIndex, Network};
use crate::node::{FlowConstraints, NodeMeta, UnresolvedNode};
use crate::state::{ConstParameterValues, State};
use thiserror::Error;

include!(concat!(env!("OUT_DIR"), "/aggregated_node.rs"));

impl AggregatedNode {
    /// Stands for `AggregatedNodeBuilder::build`. An exclusive aggregate has min_active and max_active.
    pub fn new(index: AggregatedNodeIndex, name: &str, nodes: Vec<Vec<NodeIndex>>, exclusive: Option<(u32, u32)>) -> Self {
        Self {
            meta: NodeMeta::from_unresolved_name(UnresolvedNode::new(name, None), index),
            flow_constraints: FlowConstraints::new(
                Some(MetricF64::AggregateLower(index)),
                Some(MetricF64::AggregateUpper(index)),
            ),
            nodes,
            relationship: exclusive.map(|(min_active, max_active)| {
                Relationship::Exclusive(Exclusivity { min_active: min_active.into(), max_active: max_active.into() })
            }),
        }
    }
}
