//! Well-formed files that break one rule of the network: refusals 3, 4, 5, 7 to 10, 19 and 20, and their nearest neighbours that pass.
use super::small;
use crate::NetworkFile;
use crate::random::Random;
use pywr_core::network::AggregateParts;
use pywr_core::node::NodeType;

pub fn network(r: &mut Random) -> NetworkFile {
    let mut network = super::base(r);
    let count = network.nodes.len();
    let node = r.below(count);
    match r.below(10) {
        0 => network.edges.clear(),
        1 => network.edges.retain(|e| e.1 != node),
        2 => network.edges.retain(|e| e.0 != node),
        3 => set_constant(r, &mut network, node),
        4 => exclude_infinite(r, &mut network, node),
        5 => {
            let edge = (r.below(count), r.below(count));
            insert_edge(r, &mut network, edge);
        }
        6 => {
            let again = *r.pick(&network.edges);
            let edge = if r.chance(30) { (again.1, again.0) } else { again };
            insert_edge(r, &mut network, edge);
        }
        7 => {
            let beyond = *r.pick(&[count, count - 1, 255, 256, 65535]);
            let edge = *r.pick(&[(beyond, node), (node, beyond)]);
            insert_edge(r, &mut network, edge);
        }
        8 => insert_edge(r, &mut network, (node, node)),
        _ => break_list(r, &mut network),
    }
    network
}

fn insert_edge(r: &mut Random, network: &mut NetworkFile, edge: (usize, usize)) {
    let at = r.below(network.edges.len() + 1);
    network.edges.insert(at, edge);
}

/// Bounds crossed, or as near to it as can be.
fn set_constant(r: &mut Random, network: &mut NetworkFile, node: usize) {
    let (x, inf) = (r.below(9) as f64, f64::INFINITY);
    let bounds = [(x, x), (x.next_up(), x), (0.0, -0.0), (-0.0, 0.0), (inf, inf), (-inf, -inf), (inf, -inf), (3.0, 2.0)];
    if network.nodes[node].kind != NodeType::Storage {
        network.nodes[node].constant = Some(*r.pick(&bounds));
    }
}

fn exclude_infinite(r: &mut Random, network: &mut NetworkFile, node: usize) {
    let inf = f64::INFINITY;
    let bounds = [(-inf, -inf), (inf, inf), (-inf, inf), (inf, -inf), (0.0, inf), (-inf, 0.0), (f64::MAX, inf), (-inf, f64::MIN)];
    if network.nodes[node].kind != NodeType::Storage {
        network.nodes[node].constant = Some(*r.pick(&bounds));
        let exclusive = r.chance(85).then(|| small::active(r));
        network.aggregates.push(AggregateParts { sets: vec![vec![node]], exclusive });
        network.aggregates.truncate(64);
    }
}

/// A node number, a count or min_active that an aggregate or a virtual storage may not have.
fn break_list(r: &mut Random, network: &mut NetworkFile) {
    let beyond = network.nodes.len() + if r.chance(50) { 0 } else { 1000 };
    if r.chance(50) && !network.virtual_storages.is_empty() {
        let at = r.below(network.virtual_storages.len());
        let storage = &mut network.virtual_storages[at];
        match r.below(4) {
            0 => storage.nodes.clear(),
            1 => storage.nodes = vec![storage.nodes[0]; r.between(64, 66)],
            2 => storage.period = Some([r.below(14) as u8, r.below(33) as u8, r.below(14) as u8, r.below(33) as u8]),
            _ => storage.nodes.last_mut().unwrap().0 = beyond,
        }
    } else if !network.aggregates.is_empty() {
        let at = r.below(network.aggregates.len());
        let aggregate = &mut network.aggregates[at];
        match r.below(5) {
            0 => aggregate.sets.clear(),
            1 => aggregate.sets.last_mut().unwrap().clear(),
            2 => aggregate.sets[0] = vec![0; r.between(15, 18)],
            3 => aggregate.exclusive = Some(*r.pick(&[(1, 0), (2, 1), (u32::MAX, 0), (0x100, 0xff), (0xff, 0x100)])),
            _ => *aggregate.sets.last_mut().unwrap().last_mut().unwrap() = beyond,
        }
    }
}
