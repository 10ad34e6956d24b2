//! node.rs: the kinds, bounds and costs of the source, and how a node is made.
use crate::metric::{ConstantMetricF64Error, MetricF64, MetricF64Error, SimpleMetricF64, SimpleMetricF64Error};
use crate::network::{EdgeIndex, Network, NodeIndex, NodeParts, VirtualStorageIndex};
use crate::state::{ConstParameterValues, NetworkStateError, SimpleParameterValues, State, StateError};
use std::fmt::{Display, Formatter};
use thiserror::Error;

include!(concat!(env!("OUT_DIR"), "/node.rs"));

impl Node {
    /// Stands for `NodeBuilder::build`.
    pub fn new(
        index: NodeIndex,
        name: &str,
        parts: &NodeParts,
        incoming_edges: Vec<EdgeIndex>,
        outgoing_edges: Vec<EdgeIndex>,
    ) -> Self {
        let meta = NodeMeta::from_unresolved_name(UnresolvedNode::new(name, None), index);
        let cost = NodeCost { local: Some(MetricF64::NodeCost(index)), virtual_storage_nodes: Vec::new(), agg_func: None };
        let flow_constraints = match parts.constant {
            Some((min, max)) => FlowConstraints::new(Some(MetricF64::Constant(min)), Some(MetricF64::Constant(max))),
            None => FlowConstraints::new(Some(MetricF64::NodeMin(index)), Some(MetricF64::NodeMax(index))),
        };
        match parts.kind {
            NodeType::Input => Self::Input(InputNode { meta, cost, flow_constraints, outgoing_edges }),
            NodeType::Output => Self::Output(OutputNode { meta, cost, flow_constraints, incoming_edges }),
            NodeType::Link => Self::Link(LinkNode { meta, cost, flow_constraints, incoming_edges, outgoing_edges }),
            NodeType::Storage => Self::Storage(StorageNode {
                meta,
                cost,
                initial_volume: StorageInitialVolume::Absolute(0.0), // not read: volumes come with each step
                storage_constraints: StorageConstraints::new(
                    Some(SimpleMetricF64::NodeMin(index)),
                    Some(SimpleMetricF64::NodeMax(index)),
                ),
                incoming_edges,
                outgoing_edges,
            }),
        }
    }
}
