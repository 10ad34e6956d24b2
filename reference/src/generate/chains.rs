//! Chains and rings of links, keyed in random edge order and others.
use super::small;
use crate::NetworkFile;
use crate::random::Random;
use pywr_core::node::NodeType;

pub fn network(r: &mut Random) -> NetworkFile {
    let mut network = NetworkFile::default();
    for _ in 0..r.between(1, 4) {
        add_chain(r, &mut network);
    }
    for _ in 0..r.below(4) {
        let count = network.nodes.len();
        let (from, to) = (r.below(count), r.below(count));
        small::add_edge(&mut network, from, to);
    }
    match r.below(4) {
        0 => {}
        1 => network.edges.reverse(),
        _ => r.shuffle(&mut network.edges),
    }
    small::add_aggregates(r, &mut network, 2);
    small::add_virtual_storages(r, &mut network, 2);
    network
}

/// One chain of so many nodes, keyed in random order or every other edge first.
pub fn single(r: &mut Random, nodes: usize) -> NetworkFile {
    let mut network = NetworkFile::default();
    add_links(r, &mut network, nodes - 2, Form::Line);
    if r.chance(50) {
        r.shuffle(&mut network.edges);
    } else {
        key_every_other_first(&mut network.edges);
    }
    network
}

/// In a chain in flow order nearly every edge of the second half then unites two columns.
fn key_every_other_first(edges: &mut Vec<(usize, usize)>) {
    let (first, second): (Vec<_>, Vec<_>) = edges.drain(..).enumerate().partition(|(k, _)| k % 2 == 0);
    edges.extend(first.into_iter().chain(second).map(|(_, edge)| edge));
}

/// What stands before a chain's links, and behind them.
#[derive(Clone, Copy)]
enum Form {
    /// A source, and a sink.
    Line,
    /// One link more, before them and behind them.
    ClosedRing,
    /// One storage, before them and behind them.
    LoopThroughStorage,
}

pub fn add_chain(r: &mut Random, network: &mut NetworkFile) {
    let links = if r.chance(10) { r.between(20, 60) } else { r.between(1, 8) };
    let form = match r.below(100) {
        0..20 => Form::ClosedRing,
        20..35 => Form::LoopThroughStorage,
        _ => Form::Line,
    };
    add_links(r, network, links, form);
}

/// Links one behind the other.
fn add_links(r: &mut Random, network: &mut NetworkFile, links: usize, form: Form) {
    let mut order: Vec<usize> = Vec::new();
    let mut add = |r: &mut Random, kind: NodeType| {
        order.push(network.nodes.len());
        let node = small::node(r, kind);
        network.nodes.push(node);
    };
    let first = match form {
        Form::Line => *r.pick(&[NodeType::Input, NodeType::Storage]),
        Form::ClosedRing => NodeType::Link,
        Form::LoopThroughStorage => NodeType::Storage,
    };
    add(r, first);
    for _ in 0..links {
        add(r, NodeType::Link);
    }
    match form {
        Form::Line => {
            let sink = *r.pick(&[NodeType::Output, NodeType::Storage]);
            add(r, sink);
        }
        Form::ClosedRing | Form::LoopThroughStorage => order.push(order[0]),
    }
    for pair in order.windows(2) {
        small::add_edge(network, pair[0], pair[1]);
    }
}
