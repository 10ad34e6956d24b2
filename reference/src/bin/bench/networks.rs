//! What is timed: supply systems made of equal units with a day's step, a long chain keyed in two orders, and generated networks: small ones, of two
//! sizes, and of sizes that double.
use pywr_core::network::{AggregateParts, NodeParts, VirtualStorageParts};
use pywr_core::node::NodeType::{self, Input, Link, Output, Storage};
use pywr_core::state::{AggregateNumbers, NodeNumbers, VirtualStorageNumbers};
use pywr_reference::generate::encode::{self, Step};
use pywr_reference::generate::sized;
use pywr_reference::{NetworkFile, Reference, Sentinel, random::Random};
use std::ops::Range;

pub struct Case {
    pub index: u64,
    /// Which of the VARIANTS it is.
    pub variant: &'static str,
    pub file: NetworkFile,
    pub network: Vec<u8>,
    pub step: Vec<u8>,
}

pub struct Group {
    pub name: &'static str,
    pub cases: Vec<Case>,
}

/// A subnormal number takes the processor far longer than another.
pub const VARIANTS: [&str; 2] = ["as generated", "without subnormals"];
const SEED: u64 = 77;
const NETWORKS: u64 = 7;

pub fn groups() -> Vec<Group> {
    let system = |name, file: NetworkFile| {
        let step = day(&file);
        Group { name, cases: vec![Case::new(0, "", (file, step))] }
    };
    vec![
        system("small", system_of(1)),
        system("medium", system_of(5)),
        system("ceiling", at_the_ceiling()),
        system("chain, in flow order", long_chain(true)),
        system("chain, every other edge first", long_chain(false)),
        generated("generated, 2 to 9 nodes", 0..8 * NETWORKS, |index| sized::small_case(SEED, index, 2 + index as usize % 8)),
        generated("generated, 50 nodes", 0..NETWORKS, |index| sized::case(SEED, index, sized::MEDIUM)),
        generated("generated, ceilings", 0..NETWORKS, |index| sized::case(SEED, index, sized::CEILING)),
    ]
}

fn generated(name: &'static str, indices: Range<u64>, draw: impl Fn(u64) -> (NetworkFile, Step)) -> Group {
    let variants = |index| {
        let (file, step) = draw(index);
        let without = sized::without_subnormals(&file, &step);
        [Case::new(index, VARIANTS[0], (file, step)), Case::new(index, VARIANTS[1], without)]
    };
    Group { name, cases: indices.flat_map(variants).collect() }
}

/// Networks of 8, 16, .. 256 nodes, with edges, aggregates and virtual storages in the proportion of the ceilings.
pub fn doubling() -> Vec<(usize, Vec<Case>)> {
    let size = |nodes: usize| sized::CEILING.map(|most| most * nodes / sized::CEILING[0]);
    let case = |nodes, index| Case::new(index, VARIANTS[0], sized::case(SEED, index, size(nodes)));
    (3..=8).map(|k| 1 << k).map(|nodes| (nodes, (0..NETWORKS).map(|index| case(nodes, index)).collect())).collect()
}

impl Group {
    /// Each case as a network file and a step file in a folder, named after the group and the case's place in it.
    pub fn write(&self, folder: &str) {
        let name = self.name.replace(", ", "_").replace(' ', "_");
        for (k, case) in self.cases.iter().enumerate() {
            for (kind, bytes) in [("network", &case.network), ("step", &case.step)] {
                let path = format!("{folder}/{name}_{k}.{kind}");
                std::fs::write(&path, bytes).unwrap_or_else(|error| panic!("{path}: {error}"));
            }
        }
    }
}

impl Case {
    pub fn new(index: u64, variant: &'static str, (file, step): (NetworkFile, Step)) -> Self {
        let network = encode::network_records(&file).concat();
        Self { index, variant, file, network, step: encode::step_records(&step).concat() }
    }

    pub fn counts(&self) -> String {
        let NetworkFile { nodes, edges, aggregates, virtual_storages } = &self.file;
        let built = Reference::build(&self.network, Sentinel::Infinity).unwrap();
        let [nodes, edges, aggregates] = [nodes.len(), edges.len(), aggregates.len()];
        let storages = virtual_storages.len();
        let (counts, unions) = (built.programme().counts(), built.unions().count);
        format!("{nodes} nodes, {edges} edges, {aggregates} aggregates, {storages} virtual storages; {counts}; unions {unions}")
    }
}

const UNIT: [(NodeType, Option<(f64, f64)>); 10] = [
    (Input, Some((0.0, 48.5))),           // 0 intake
    (Input, None),                        // 1 catchment
    (Storage, None),                      // 2 reservoir
    (Link, Some((0.0, 30.0))),            // 3 pump 1
    (Link, Some((4.0, 20.0))),            // 4 pump 2
    (Link, None),                         // 5 treatment works
    (Link, Some((0.0, 60.0))),            // 6 trunk main
    (Storage, None),                      // 7 service reservoir
    (Output, None),                       // 8 demand
    (Output, Some((2.0, f64::INFINITY))), // 9 spill
];
const EDGES: [(usize, usize); 11] = [(0, 3), (0, 4), (3, 5), (4, 5), (1, 2), (2, 5), (5, 6), (6, 7), (7, 8), (2, 9), (7, 9)];

/// Units, each joined to the next by an edge between their service reservoirs. At most one pump of a unit runs; its intake has two licences.
fn system_of(units: usize) -> NetworkFile {
    let mut file = NetworkFile::default();
    for u in 0..units {
        let at = 10 * u;
        file.nodes.extend(UNIT.map(|(kind, constant)| NodeParts { kind, constant }));
        file.edges.extend(EDGES.map(|(from, to)| (at + from, at + to)));
        if u > 0 {
            file.edges.push((at - 3, at + 7));
        }
        file.aggregates.push(AggregateParts { sets: vec![vec![at + 3], vec![at + 4]], exclusive: Some((0, 1)) });
        file.aggregates.push(AggregateParts { sets: vec![vec![at, at + 1]], exclusive: None });
        file.virtual_storages.push(licence(&[at, at + 1], Some([4, 1, 3, 31])));
    }
    file
}

fn licence(nodes: &[usize], period: Option<[u8; 4]>) -> VirtualStorageParts {
    VirtualStorageParts { period, nodes: nodes.iter().map(|&n| (n, 1.0)).collect() }
}

/// 256 nodes, 512 edges, 64 aggregates, 32 virtual storages.
fn at_the_ceiling() -> NetworkFile {
    let mut file = system_of(25);
    file.nodes.extend([NodeParts { kind: Storage, constant: None }; 6]);
    let r = &mut Random::new(1);
    while file.edges.len() < 512 {
        let (from, to) = (r.below(256), r.below(256));
        let fits =
            from != to && file.nodes[to].kind != Input && file.nodes[from].kind != Output && !file.edges.contains(&(from, to));
        if fits {
            file.edges.push((from, to));
        }
    }
    while file.aggregates.len() < 64 {
        let sets = (0..2).map(|_| (0..8).map(|_| r.below(256)).collect()).collect();
        file.aggregates.push(AggregateParts { sets, exclusive: None });
    }
    while file.virtual_storages.len() < 32 {
        let nodes: Vec<usize> = (0..32).map(|_| r.below(256)).collect();
        file.virtual_storages.push(licence(&nodes, None));
    }
    file
}

/// 17 storages with an edge from each to each other, and 239 links in a chain from the first to the second: 256 nodes, 512 edges. In flow order no
/// columns unite. With every other edge of the chain before the storages' edges and the rest behind them 119 pairs do, and each moves nearly every
/// number.
fn long_chain(in_flow_order: bool) -> NetworkFile {
    const STORAGES: usize = 17;
    let mut nodes = vec![NodeParts { kind: Storage, constant: None }; STORAGES];
    nodes.resize(256, NodeParts { kind: Link, constant: None });
    let order: Vec<usize> = [0].into_iter().chain(STORAGES..256).chain([1]).collect();
    let chain = |first: bool| {
        let comes_first = move |k: usize| in_flow_order || k.is_multiple_of(2);
        order.windows(2).enumerate().filter(move |(k, _)| comes_first(*k) == first).map(|(_, pair)| (pair[0], pair[1]))
    };
    let pairs = (0..STORAGES).flat_map(|from| (0..STORAGES).map(move |to| (from, to)));
    let edges = chain(true).chain(pairs.filter(|(from, to)| from != to)).chain(chain(false)).collect();
    NetworkFile { nodes, edges, ..NetworkFile::default() }
}

fn day(file: &NetworkFile) -> Step {
    let node = |n: &NodeParts| match n.kind {
        Storage => NodeNumbers { cost: -0.25, min: 10.0, max: 100.0, volume: 80.0 },
        _ => NodeNumbers { cost: 1.5, min: 0.0, max: 40.0, volume: 0.0 },
    };
    Step {
        month: 7,
        day: 15,
        days: 1.0,
        nodes: file.nodes.iter().map(node).collect(),
        aggregates: file.aggregates.iter().map(|_| AggregateNumbers { lower: 0.0, upper: 60.0 }).collect(),
        virtual_storages: file
            .virtual_storages
            .iter()
            .map(|_| VirtualStorageNumbers { min: 0.0, max: 9000.0, volume: 7500.0 })
            .collect(),
    }
}
