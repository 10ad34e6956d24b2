//! Aggregates, most of them exclusive, whose sets repeat: the same set, its nodes in another order, a node twice in a set. Some sets are of a line's nodes,
//! whose rows are equal.
use super::small;
use crate::NetworkFile;
use crate::random::Random;
use pywr_core::network::{AggregateParts, NodeParts};
use pywr_core::node::NodeType;

pub fn network(r: &mut Random) -> NetworkFile {
    let count = if r.chance(20) { r.between(10, 60) } else { r.between(2, 10) };
    let mut network = NetworkFile { nodes: small::nodes(r, count), ..NetworkFile::default() };
    small::add_edges(r, &mut network, 2 * count);
    let mut pool = pool(r, count);
    for _ in 0..r.below(4) {
        let line = add_line(r, &mut network);
        pool.extend((0..r.between(1, 2)).map(|_| set_of_line(r, &line)));
    }
    let most = if r.chance(10) { 64 } else { 6 };
    for _ in 0..r.between(1, most) {
        let most = if r.chance(10) { 16 } else { 4 };
        let sets = (0..r.between(1, most)).map(|_| r.pick(&pool).clone()).collect();
        let exclusive = r.chance(85).then(|| small::active(r));
        network.aggregates.push(AggregateParts { sets, exclusive });
    }
    small::add_virtual_storages(r, &mut network, 2);
    network
}

/// A source, up to two links and a sink, one behind the other and joined to nothing else: they have one column, and equal rows, but for a storage as the
/// source, whose row has the other sign. Their indices.
fn add_line(r: &mut Random, network: &mut NetworkFile) -> Vec<usize> {
    let mut kinds = vec![*r.pick(&[NodeType::Input, NodeType::Input, NodeType::Storage])];
    kinds.extend(vec![NodeType::Link; r.below(3)]);
    kinds.push(*r.pick(&[NodeType::Output, NodeType::Output, NodeType::Storage]));
    let first = network.nodes.len();
    for kind in kinds {
        let varies = r.chance(70);
        let node = if varies { NodeParts { kind, constant: None } } else { small::node(r, kind) };
        network.nodes.push(node);
    }
    let line: Vec<usize> = (first..network.nodes.len()).collect();
    network.edges.extend(line.windows(2).map(|pair| (pair[0], pair[1])));
    line
}

/// Some of its nodes, in any order, one of them twice in some cases.
fn set_of_line(r: &mut Random, line: &[usize]) -> Vec<usize> {
    let mut set = line.to_vec();
    r.shuffle(&mut set);
    set.truncate(r.between(1, line.len()));
    if r.chance(20) {
        set.push(set[0]);
    }
    set
}

fn pool(r: &mut Random, count: usize) -> Vec<Vec<usize>> {
    let most = if r.chance(10) { 140 } else { 12 };
    let mut pool = vec![small::set(r, count)];
    for _ in 1..r.between(1, most) {
        let mut set = if r.chance(30) { r.pick(&pool).clone() } else { small::set(r, count) };
        match r.below(5) {
            0 => set.reverse(),
            1 if set.len() < 16 => set.push(set[0]),
            2 => set.truncate(1),
            _ => {}
        }
        pool.push(set);
    }
    pool
}
