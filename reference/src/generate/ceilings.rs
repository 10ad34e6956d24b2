//! Networks at each ceiling, up to two under or over it.
use super::encode::network_records;
use super::{chains, damage, small};
use crate::ceilings::{ELEMENTS, ROWS, SETS};
use crate::network_file::MOST;
use crate::random::Random;
use crate::solver::{Altered, Solver};
use crate::{NetworkFile, Programme};
use pywr_core::network::{AggregateParts, NodeParts, VirtualStorageParts};
use pywr_core::node::NodeType;

pub fn network(r: &mut Random) -> NetworkFile {
    match r.below(10) {
        0 => nodes(r),
        1 => edges(r),
        2 => aggregates(r),
        3 => virtual_storages(r),
        4 => sets_of_an_aggregate(r),
        5 => nodes_of_a_set(r),
        6 => nodes_of_a_virtual_storage(r),
        7 => sets(r),
        8 => rows(r),
        _ => elements(r),
    }
}

fn near(r: &mut Random, ceiling: usize) -> usize {
    ceiling + r.below(5) - 2
}

fn nodes(r: &mut Random) -> NetworkFile {
    let count = near(r, MOST[0]);
    if r.chance(30) {
        return chains::single(r, count);
    }
    let mut network = small::network(r);
    while network.nodes.len() < count {
        let kind = *r.pick(&[NodeType::Input, NodeType::Output, NodeType::Storage]);
        let node = small::node(r, kind);
        network.nodes.push(node);
    }
    network
}

fn edges(r: &mut Random) -> NetworkFile {
    let mut network = NetworkFile { nodes: small::nodes(r, 60), ..NetworkFile::default() };
    for node in &mut network.nodes[..20] {
        *node = small::node(r, NodeType::Storage);
    }
    small::add_edges(r, &mut network, 100);
    let count = near(r, MOST[1]);
    while network.edges.len() < count {
        let (from, to) = (r.below(60), r.below(60));
        small::add_edge(&mut network, from, to);
    }
    network
}

fn aggregates(r: &mut Random) -> NetworkFile {
    let mut network = small::network(r);
    let count = near(r, MOST[2]);
    while network.aggregates.len() < count {
        small::add_aggregates(r, &mut network, 1);
    }
    network
}

fn virtual_storages(r: &mut Random) -> NetworkFile {
    let mut network = small::network(r);
    let count = near(r, MOST[3]);
    while network.virtual_storages.len() < count {
        small::add_virtual_storages(r, &mut network, 1);
    }
    network
}

fn sets_of_an_aggregate(r: &mut Random) -> NetworkFile {
    let mut network = small::network(r);
    let sets = (0..near(r, 16)).map(|_| small::set(r, network.nodes.len())).collect();
    let exclusive = r.chance(50).then(|| small::active(r));
    network.aggregates.push(AggregateParts { sets, exclusive });
    network
}

fn nodes_of_a_set(r: &mut Random) -> NetworkFile {
    let mut network = small::network(r);
    let set = (0..near(r, 16)).map(|_| r.below(network.nodes.len())).collect();
    let exclusive = r.chance(50).then(|| small::active(r));
    network.aggregates.push(AggregateParts { sets: vec![set], exclusive });
    network
}

fn nodes_of_a_virtual_storage(r: &mut Random) -> NetworkFile {
    let mut network = small::network(r);
    let size = near(r, 64);
    let storage = small::virtual_storage(r, network.nodes.len(), size);
    network.virtual_storages.push(storage);
    network
}

/// Distinct exclusive sets of one node each, some listed again.
fn sets(r: &mut Random) -> NetworkFile {
    let count = near(r, SETS);
    let mut network = NetworkFile { nodes: small::nodes(r, count), ..NetworkFile::default() };
    small::add_edges(r, &mut network, 60);
    let mut listed: Vec<Vec<usize>> = (0..count).map(|n| vec![n]).collect();
    r.shuffle(&mut listed);
    let again = r.below(count);
    listed.push(listed[again].clone());
    for sets in listed.chunks(16) {
        network.aggregates.push(AggregateParts { sets: sets.to_vec(), exclusive: Some(small::active(r)) });
    }
    network
}

/// Sets that list a constant node 14 to 16 times, with a row or two for each; then a row for each constant node without an edge.
fn rows(r: &mut Random) -> NetworkFile {
    let mut network = NetworkFile { nodes: small::nodes(r, 20), ..NetworkFile::default() };
    small::add_edges(r, &mut network, 20);
    add_keyed_chain(r, &mut network);
    for node in network.nodes.iter_mut().filter(|node| node.kind != NodeType::Storage) {
        node.constant = Some(if r.chance(20) { (0.0, 3.0) } else { (1.0, 2.0) });
    }
    let constant: Vec<usize> = (0..20).filter(|&n| network.nodes[n].constant.is_some()).collect();
    while rows_of(&network) < ROWS - 40 && network.aggregates.len() < MOST[2] {
        let again = vec![*r.pick(&constant); r.between(14, 16)];
        network.aggregates.push(AggregateParts { sets: vec![again], exclusive: Some(small::active(r)) });
    }
    let missing = near(r, ROWS).saturating_sub(rows_of(&network));
    network.nodes.extend(vec![NodeParts { kind: NodeType::Output, constant: Some((0.0, 1.0)) }; missing]);
    network.nodes.truncate(MOST[0]);
    network
}

/// An input with edges to outputs, in sets that list it again and again; then virtual storages of as many columns as are missing.
fn elements(r: &mut Random) -> NetworkFile {
    let outputs = r.between(11, 13);
    let mut network = NetworkFile::default();
    network.nodes.push(NodeParts { kind: NodeType::Input, constant: r.chance(80).then_some((1.0, 2.0)) });
    network.nodes.extend(vec![NodeParts { kind: NodeType::Output, constant: None }; outputs]);
    network.edges.extend((1..=outputs).map(|o| (0, o)));
    r.shuffle(&mut network.edges);
    add_keyed_chain(r, &mut network);
    let sets = (1..=16).map(|k| vec![0; k]).collect();
    network.aggregates.push(AggregateParts { sets, exclusive: Some((0, 16)) });
    let target = near(r, ELEMENTS);
    let mut factor = 2.0;
    while elements_of(&network) < target && network.virtual_storages.len() < MOST[3] {
        let missing = (target - elements_of(&network)).min(outputs);
        factor += 0.5;
        let nodes = (1..=missing).map(|o| (o, factor)).collect();
        network.virtual_storages.push(VirtualStorageParts { period: None, nodes });
    }
    while elements_of(&network) < target && network.aggregates.len() < MOST[2] {
        let missing = (target - elements_of(&network)).min(outputs);
        let mut set: Vec<usize> = (1..=missing).collect();
        set.extend((0..r.below(17 - missing)).map(|_| 1 + r.below(missing)));
        network.aggregates.push(AggregateParts { sets: vec![set], exclusive: None });
    }
    network
}

/// In half of the cases a chain, with all edges in random order. Where its columns unite, the programme may be under a ceiling that it would be over.
fn add_keyed_chain(r: &mut Random, network: &mut NetworkFile) {
    if r.chance(50) {
        chains::add_chain(r, network);
        r.shuffle(&mut network.edges);
    }
}

fn programme_of(network: &NetworkFile) -> Programme {
    Altered::create(&network.network(), f64::INFINITY).expect("a network that passes 7 to 10").programme()
}

fn rows_of(network: &NetworkFile) -> usize {
    programme_of(network).rows.len()
}

fn elements_of(network: &NetworkFile) -> usize {
    programme_of(network).elements()
}

/// A file with as many records as may be, nearly as long as any accepted one; sometimes damaged, or with more behind it.
pub fn full(r: &mut Random) -> Vec<u8> {
    let count = MOST[0];
    let mut network = NetworkFile { nodes: small::nodes(r, count), ..NetworkFile::default() };
    small::add_edges(r, &mut network, 2 * count);
    while network.edges.len() < MOST[1] {
        let (from, to) = (r.below(count), r.below(count));
        small::add_edge(&mut network, from, to);
    }
    network.edges.truncate(MOST[1]);
    for _ in 0..MOST[2] {
        let sets = (0..16).map(|_| (0..16).map(|_| r.below(count)).collect()).collect();
        network.aggregates.push(AggregateParts { sets, exclusive: None });
    }
    for _ in 0..MOST[3] {
        network.virtual_storages.push(small::virtual_storage(r, count, 64));
    }
    let records = network_records(&network);
    match r.below(4) {
        0 => damage::damaged(r, records),
        1 => damage::cut(r, records),
        2 => {
            let more = r.below(3000);
            [records.concat(), vec![b'V'; more]].concat()
        }
        _ => records.concat(),
    }
}
