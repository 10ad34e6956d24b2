//! Small networks of every kind of node, with aggregates and virtual storages.
use super::numbers::{amount, in_1024ths, interval};
use crate::NetworkFile;
use crate::network_file::KINDS;
use crate::random::Random;
use pywr_core::network::{AggregateParts, NodeParts, VirtualStorageParts};
use pywr_core::node::NodeType;

pub fn network(r: &mut Random) -> NetworkFile {
    let count = r.between(2, 12);
    let mut network = NetworkFile { nodes: nodes(r, count), ..NetworkFile::default() };
    add_edges(r, &mut network, 2 * count);
    add_aggregates(r, &mut network, 4);
    add_virtual_storages(r, &mut network, 3);
    network
}

/// Nodes of which at least one is an input and one an output.
pub fn nodes(r: &mut Random, count: usize) -> Vec<NodeParts> {
    let mut kinds = vec![NodeType::Input, NodeType::Output];
    kinds.extend((2..count).map(|_| *r.pick(&KINDS)));
    r.shuffle(&mut kinds);
    kinds.into_iter().map(|kind| node(r, kind)).collect()
}

pub fn node(r: &mut Random, kind: NodeType) -> NodeParts {
    let constant = kind != NodeType::Storage && r.chance(50);
    NodeParts { kind, constant: constant.then(|| interval(r)) }
}

/// At most `tries` edges, and those that links need, in random order.
pub fn add_edges(r: &mut Random, network: &mut NetworkFile, tries: usize) {
    let count = network.nodes.len();
    for _ in 0..r.between(1, tries) {
        let (from, to) = (r.below(count), r.below(count));
        add_edge(network, from, to);
    }
    for i in 0..count {
        if network.nodes[i].kind == NodeType::Link {
            for _ in 0..20 {
                let other = r.below(count);
                if !network.edges.iter().any(|e| e.1 == i) {
                    add_edge(network, other, i);
                }
                if !network.edges.iter().any(|e| e.0 == i) {
                    add_edge(network, i, other);
                }
            }
        }
    }
    if network.edges.is_empty() {
        let of = |kind| network.nodes.iter().position(|n| n.kind == kind).unwrap();
        network.edges.push((of(NodeType::Input), of(NodeType::Output)));
    }
    r.shuffle(&mut network.edges);
}

/// Adds an edge that refusals 5, 19 and 20 let pass.
pub fn add_edge(network: &mut NetworkFile, from: usize, to: usize) {
    let kind = |i: usize| network.nodes[i].kind;
    if from != to && kind(from) != NodeType::Output && kind(to) != NodeType::Input && !network.edges.contains(&(from, to)) {
        network.edges.push((from, to));
    }
}

pub fn add_aggregates(r: &mut Random, network: &mut NetworkFile, most: usize) {
    for _ in 0..r.below(most + 1) {
        let sets = (0..r.between(1, 3)).map(|_| set(r, network.nodes.len())).collect();
        let exclusive = r.chance(50).then(|| active(r));
        network.aggregates.push(AggregateParts { sets, exclusive });
    }
}

pub fn set(r: &mut Random, count: usize) -> Vec<usize> {
    let size = if r.chance(5) { 16 } else { r.between(1, 3) };
    (0..size).map(|_| r.below(count)).collect()
}

pub fn active(r: &mut Random) -> (u32, u32) {
    match r.below(6) {
        0 => (u32::MAX, u32::MAX),
        1 => (0, r.bits() as u32),
        2 => (1, 1),
        _ => {
            let least = r.below(3) as u32;
            (least, least + r.below(3) as u32)
        }
    }
}

pub fn add_virtual_storages(r: &mut Random, network: &mut NetworkFile, most: usize) {
    for _ in 0..r.below(most + 1) {
        let size = if r.chance(5) { 64 } else { r.between(1, 4) };
        let storage = virtual_storage(r, network.nodes.len(), size);
        network.virtual_storages.push(storage);
    }
}

/// Its factors are small whole numbers, or multiples of 1/1024, or any.
pub fn virtual_storage(r: &mut Random, count: usize, size: usize) -> VirtualStorageParts {
    let factor: fn(&mut Random) -> f64 = match r.below(10) {
        0..3 => |r| r.below(7) as f64 - 3.0,
        3..6 => in_1024ths,
        _ => amount,
    };
    VirtualStorageParts {
        period: r.chance(60).then(|| period(r)),
        nodes: (0..size).map(|_| (r.below(count), factor(r))).collect(),
    }
}

/// Days that no month has are periods too.
fn period(r: &mut Random) -> [u8; 4] {
    let month = r.between(1, 12) as u8;
    let end = if r.chance(40) { month } else { r.between(1, 12) as u8 };
    let mut day = || if r.chance(30) { *r.pick(&[1, 29, 30, 31]) } else { r.between(1, 31) as u8 };
    [month, day(), end, day()]
}
