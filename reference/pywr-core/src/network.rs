//! network.rs: the index types and accessors of the source over a stand-in for the network, and how one is made.
use crate::aggregated_node::AggregatedNode;
use crate::edge::Edge;
use crate::flow_order::flow_order;
use crate::node::{Node, NodeType};
use crate::virtual_storage::VirtualStorageNode;
use std::fmt::{self, Display, Formatter};
use std::ops::Deref;
use std::sync::OnceLock;

include!(concat!(env!("OUT_DIR"), "/network.rs"));

#[derive(Debug, Default)]
pub struct Network {
    nodes: Vec<Node>,
    edges: Vec<Edge>,
    aggregated_nodes: Vec<AggregatedNode>,
    virtual_storage_nodes: Vec<VirtualStorageNode>,
    /// Found by the first step that asks for it, and kept.
    flow_order: OnceLock<Vec<usize>>,
}

/// A node of the network file: its kind and, if constant, its min and max.
#[derive(Debug, Clone, Copy, PartialEq)]
pub struct NodeParts {
    pub kind: NodeType,
    pub constant: Option<(f64, f64)>,
}

/// An aggregate of the network file: its sets and, if exclusive, min_active and max_active.
#[derive(Debug, Clone, PartialEq)]
pub struct AggregateParts {
    pub sets: Vec<Vec<usize>>,
    pub exclusive: Option<(u32, u32)>,
}

/// A virtual storage of the network file: its period (start month, start day, end month, end day) if it has one, its nodes and factors.
#[derive(Debug, Clone, PartialEq)]
pub struct VirtualStorageParts {
    pub period: Option<[u8; 4]>,
    pub nodes: Vec<(usize, f64)>,
}

pub(crate) fn indices(numbers: &[usize]) -> Vec<NodeIndex> {
    numbers.iter().map(|&n| NodeIndex(n)).collect()
}

macro_rules! from_number {
    ($($index:ident),*) => {$(
        impl From<usize> for $index {
            fn from(number: usize) -> Self {
                Self(number)
            }
        }
    )*};
}

from_number!(NodeIndex, EdgeIndex, AggregatedNodeIndex, VirtualStorageIndex);

impl Network {
    /// Stands for `NetworkBuilder`, which refuses more than document 01 does. Nodes list their edges in edge order, as there.
    pub fn new(
        nodes: Vec<Node>,
        edges: Vec<Edge>,
        aggregated_nodes: Vec<AggregatedNode>,
        virtual_storage_nodes: Vec<VirtualStorageNode>,
    ) -> Self {
        Self { nodes, edges, aggregated_nodes, virtual_storage_nodes, flow_order: OnceLock::new() }
    }

    /// For the altered builder.rs.
    pub fn edges_in_flow_order(&self) -> impl Iterator<Item = &Edge> {
        self.flow_order.get_or_init(|| flow_order(self)).iter().map(|&edge| &self.edges[edge])
    }

    /// The network of a file that has been read. Names are numbers.
    pub fn from_parts(
        nodes: &[NodeParts],
        edges: &[(usize, usize)],
        aggregates: &[AggregateParts],
        virtual_storages: &[VirtualStorageParts],
    ) -> Self {
        let mut incoming = vec![Vec::new(); nodes.len()];
        let mut outgoing = vec![Vec::new(); nodes.len()];
        for (i, &(from, to)) in edges.iter().enumerate() {
            outgoing[from].push(EdgeIndex(i));
            incoming[to].push(EdgeIndex(i));
        }
        let edge_lists = incoming.into_iter().zip(outgoing);
        Self::new(
            (nodes.iter().zip(edge_lists).enumerate())
                .map(|(i, (node, (incoming, outgoing)))| Node::new(i.into(), &i.to_string(), node, incoming, outgoing))
                .collect(),
            (edges.iter().enumerate()).map(|(i, &(from, to))| Edge::new(i.into(), from.into(), to.into())).collect(),
            (aggregates.iter().enumerate())
                .map(|(i, parts)| {
                    let sets = parts.sets.iter().map(|set| indices(set)).collect();
                    AggregatedNode::new(i.into(), &i.to_string(), sets, parts.exclusive)
                })
                .collect(),
            (virtual_storages.iter().enumerate())
                .map(|(i, parts)| {
                    let (nodes, factors): (Vec<usize>, _) = parts.nodes.iter().copied().unzip();
                    VirtualStorageNode::new(i.into(), &i.to_string(), indices(&nodes), factors, parts.period)
                })
                .collect(),
        )
    }
}
