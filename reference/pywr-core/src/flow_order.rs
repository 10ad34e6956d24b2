//! Document 02's L10, for the altered builder.rs: the edges in the order in which their costs are added.
use crate::edge::Edge;
use crate::network::Network;
use crate::node::NodeType;

/// The edge after an edge: the one edge out of the link that it enters, if that link has one edge in and one out.
fn after(network: &Network, edge: &Edge) -> Option<usize> {
    let node = network.get_node(&edge.to_node_index())?;
    if node.node_type() != NodeType::Link {
        return None;
    }
    match (&node.get_incoming_edges().ok()?[..], &node.get_outgoing_edges().ok()?[..]) {
        ([_], [out]) => Some(**out),
        _ => None,
    }
}

/// The edges' numbers: each path from the edge that is after none, then the closed rings, each from its lowest edge.
pub fn flow_order(network: &Network) -> Vec<usize> {
    let after: Vec<Option<usize>> = network.edges().iter().map(|edge| after(network, edge)).collect();
    let mut is_first = vec![true; after.len()];
    after.iter().flatten().for_each(|&edge| is_first[edge] = false);
    let (mut order, mut is_left) = (Vec::with_capacity(after.len()), vec![true; after.len()]);
    let firsts = (0..after.len()).filter(|&edge| is_first[edge]);
    // The lowest edge that no path has is the lowest of its ring.
    for start in firsts.chain(0..after.len()) {
        let mut next = Some(start);
        while let Some(edge) = next.filter(|&edge| is_left[edge]) {
            is_left[edge] = false;
            order.push(edge);
            next = after[edge];
        }
    }
    order
}
