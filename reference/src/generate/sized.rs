//! A network of a given size that the Rust builds within the ceilings, and a step that it accepts: for the benchmark.
use super::encode::{self, Step};
use super::{small, steps};
use crate::network_file::MOST;
use crate::random::Random;
use crate::{NetworkFile, Reference, Sentinel};

/// How many records of each kind: nodes, edges, aggregates, virtual storages.
pub type Size = [usize; 4];

pub const MEDIUM: Size = [50, 90, 10, 6];
pub const CEILING: Size = MOST;

pub fn case(seed: u64, index: u64, size: Size) -> (NetworkFile, Step) {
    accepted(seed, index, |r| network(r, size))
}

/// One of the small networks, with so many nodes, of 2 to 12.
pub fn small_case(seed: u64, index: u64, nodes: usize) -> (NetworkFile, Step) {
    accepted(seed, index, |r| Some(small::network(r)).filter(|network| network.nodes.len() == nodes))
}

/// The first network drawn that the Rust builds within the ceilings, with a step that it accepts.
fn accepted(seed: u64, index: u64, draw: impl Fn(&mut Random) -> Option<NetworkFile>) -> (NetworkFile, Step) {
    let r = &mut Random::of_case(seed, index);
    loop {
        let Some(network) = draw(r) else { continue };
        let Ok(mut built) = Reference::build(&encode::network_records(&network).concat(), Sentinel::Infinity) else { continue };
        let step = steps::step(r, &network);
        if built.step(&encode::step_records(&step).concat()).is_ok() {
            return (network, step);
        }
    }
}

/// None where the nodes that were drawn do not seem to have room for so many edges.
fn network(r: &mut Random, [nodes, edges, aggregates, virtual_storages]: Size) -> Option<NetworkFile> {
    const TRIES: usize = 100_000;
    let mut network = NetworkFile { nodes: small::nodes(r, nodes), ..NetworkFile::default() };
    small::add_edges(r, &mut network, edges);
    let mut tries = 0;
    while network.edges.len() < edges {
        tries += 1;
        if tries > TRIES {
            return None;
        }
        let (from, to) = (r.below(nodes), r.below(nodes));
        small::add_edge(&mut network, from, to);
    }
    while network.aggregates.len() < aggregates {
        small::add_aggregates(r, &mut network, 1);
    }
    while network.virtual_storages.len() < virtual_storages {
        small::add_virtual_storages(r, &mut network, 1);
    }
    Some(network)
}

/// The same with each subnormal double set to zero.
pub fn without_subnormals(network: &NetworkFile, step: &Step) -> (NetworkFile, Step) {
    let (mut network, mut step) = (network.clone(), step.clone());
    let bounds = network.nodes.iter_mut().filter_map(|n| n.constant.as_mut()).flat_map(|(min, max)| [min, max]);
    let factors = network.virtual_storages.iter_mut().flat_map(|v| &mut v.nodes).map(|(_, factor)| factor);
    let nodes = step.nodes.iter_mut().flat_map(|n| [&mut n.cost, &mut n.min, &mut n.max, &mut n.volume]);
    let aggregates = step.aggregates.iter_mut().flat_map(|a| [&mut a.lower, &mut a.upper]);
    let virtual_storages = step.virtual_storages.iter_mut().flat_map(|v| [&mut v.min, &mut v.max, &mut v.volume]);
    for x in bounds.chain(factors).chain(nodes).chain(aggregates).chain(virtual_storages) {
        if x.is_subnormal() {
            *x = 0.0;
        }
    }
    (network, step)
}
