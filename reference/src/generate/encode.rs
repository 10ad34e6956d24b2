//! Writes network and step files, record by record.
use crate::NetworkFile;
use crate::network_file::KINDS;
use pywr_core::network::{AggregateParts, NodeParts, VirtualStorageParts};
use pywr_core::state::{AggregateNumbers, NodeNumbers, VirtualStorageNumbers};

pub fn network_records(network: &NetworkFile) -> Vec<Vec<u8>> {
    let nodes = network.nodes.iter().map(node);
    let edges = network.edges.iter().map(|&(from, to)| edge(from, to));
    let aggregates = network.aggregates.iter().map(aggregate);
    nodes.chain(edges).chain(aggregates).chain(network.virtual_storages.iter().map(virtual_storage)).collect()
}

pub fn node(parts: &NodeParts) -> Vec<u8> {
    let kind = KINDS.iter().position(|k| *k == parts.kind).unwrap() as u8;
    let (min, max) = parts.constant.unwrap_or((0.0, 0.0));
    let mut bytes = b"ND".to_vec();
    bytes.extend([kind, parts.constant.is_some() as u8]);
    doubles(bytes, &[min, max])
}

pub fn edge(from: usize, to: usize) -> Vec<u8> {
    let mut bytes = b"ED".to_vec();
    bytes.extend((from as u16).to_le_bytes());
    bytes.extend((to as u16).to_le_bytes());
    bytes
}

pub fn aggregate(parts: &AggregateParts) -> Vec<u8> {
    let (min_active, max_active) = parts.exclusive.unwrap_or((0, 0));
    let mut bytes = b"AG".to_vec();
    bytes.extend([parts.exclusive.is_some() as u8, parts.sets.len() as u8]);
    bytes.extend(min_active.to_le_bytes());
    bytes.extend(max_active.to_le_bytes());
    for set in &parts.sets {
        bytes.push(set.len() as u8);
        bytes.extend(set.iter().flat_map(|&n| (n as u16).to_le_bytes()));
    }
    bytes
}

pub fn virtual_storage(parts: &VirtualStorageParts) -> Vec<u8> {
    let mut bytes = b"VS".to_vec();
    bytes.push(parts.period.is_some() as u8);
    bytes.extend(parts.period.unwrap_or([0; 4]));
    bytes.push(parts.nodes.len() as u8);
    for &(node, factor) in &parts.nodes {
        bytes.extend((node as u16).to_le_bytes());
        bytes.extend(factor.to_le_bytes());
    }
    bytes
}

/// What a step file holds.
#[derive(Debug, Clone)]
pub struct Step {
    pub month: u8,
    pub day: u8,
    pub days: f64,
    pub nodes: Vec<NodeNumbers>,
    pub aggregates: Vec<AggregateNumbers>,
    pub virtual_storages: Vec<VirtualStorageNumbers>,
}

pub fn step_records(step: &Step) -> Vec<Vec<u8>> {
    let mut first = b"ST".to_vec();
    first.extend([step.month, step.day]);
    let mut records = vec![doubles(first, &[step.days])];
    let of = |mark: &[u8; 2], numbers: &[f64]| doubles(mark.to_vec(), numbers);
    records.extend(step.nodes.iter().map(|n| of(b"NB", &[n.cost, n.min, n.max, n.volume])));
    records.extend(step.aggregates.iter().map(|a| of(b"GB", &[a.lower, a.upper])));
    records.extend(step.virtual_storages.iter().map(|v| of(b"VB", &[v.min, v.max, v.volume])));
    records
}

fn doubles(mut bytes: Vec<u8>, numbers: &[f64]) -> Vec<u8> {
    bytes.extend(numbers.iter().flat_map(|x| x.to_le_bytes()));
    bytes
}
