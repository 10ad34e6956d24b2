//! Network files straight into the Rust's network. Nodes have no names, which builder.rs asks for in errors alone.
use super::{AMOUNT, f64_at, is_mark, u16_at, within};
use crate::network_file::{KINDS, MOST};
use crate::{NetworkFile, Refusal};
use pywr_core::NodeIndex;
use pywr_core::aggregated_node::AggregatedNode;
use pywr_core::edge::Edge;
use pywr_core::network::{EdgeIndex, Network, NodeParts};
use pywr_core::node::Node;
use pywr_core::virtual_storage::VirtualStorageNode;

const INPUT: u8 = 0;
const OUTPUT: u8 = 1;
const LINK: u8 = 2;
const STORAGE: u8 = 3;

/// The network of a file that passes refusals 1 to 10, 19 and 20.
pub fn read(file: &[u8]) -> Result<Network, Refusal> {
    read_good(file).ok_or_else(|| refusal(file))
}

#[cold]
fn refusal(file: &[u8]) -> Refusal {
    NetworkFile::read(file).and_then(|read| read.check()).expect_err("this file is refused")
}

fn read_good(file: &[u8]) -> Option<Network> {
    let (nodes, rest) = records::<20>(file, b"ND");
    let (edges, rest) = records::<6>(rest, b"ED");
    if nodes.len() > MOST[0] || edges.len() > MOST[1] || edges.is_empty() || !nodes.iter().all(node_is_good) {
        return None;
    }
    let (edges, lists) = read_edges(nodes, edges)?;
    let (aggregates, rest) = read_aggregates(nodes, rest)?;
    let virtual_storages = read_virtual_storages(nodes, rest)?;
    let node = |(i, record): (usize, &[u8; 20])| {
        let constant = (record[3] == 1).then(|| (f64_at(record, 4), f64_at(record, 12)));
        let parts = NodeParts { kind: KINDS[record[2] as usize], constant };
        Node::new(i.into(), "", &parts, lists.incoming.of(i), lists.outgoing.of(i))
    };
    Some(Network::new(nodes.iter().enumerate().map(node).collect(), edges, aggregates, virtual_storages))
}

/// The records of one length that the file starts with, and what is behind them.
fn records<'a, const N: usize>(file: &'a [u8], mark: &[u8; 2]) -> (&'a [[u8; N]], &'a [u8]) {
    let records = file.as_chunks::<N>().0;
    let count = records.iter().take_while(|record| is_mark(&record[..], mark)).count();
    (&records[..count], &file[N * count..])
}

/// 3 and 9.
fn node_is_good(record: &[u8; 20]) -> bool {
    let [kind, constant] = [record[2], record[3]];
    let [min, max] = [4, 12].map(|at| f64_at(record, at));
    match constant {
        0 => kind <= STORAGE && (min.to_bits() | max.to_bits()) == 0,
        1 => kind < STORAGE && min <= max,
        _ => false,
    }
}

/// The edges of each node, in edge order: those of node i from `ends[i - 1]` up to `ends[i]`.
struct Lists {
    ends: [u16; MOST[0]],
    edges: [u16; MOST[1]],
}

struct EdgeLists {
    incoming: Lists,
    outgoing: Lists,
}

impl Lists {
    /// From how many edges each node has, and each edge's node.
    fn new(mut counts: [u16; MOST[0]], nodes: impl Iterator<Item = usize>) -> Self {
        let mut start = 0;
        for count in &mut counts {
            start += std::mem::replace(count, start);
        }
        let mut edges = [0; MOST[1]];
        for (edge, node) in nodes.enumerate() {
            edges[counts[node] as usize] = edge as u16;
            counts[node] += 1;
        }
        Self { ends: counts, edges }
    }

    fn of(&self, node: usize) -> Vec<EdgeIndex> {
        let start = if node == 0 { 0 } else { self.ends[node - 1] };
        self.edges[start as usize..self.ends[node] as usize].iter().map(|&edge| EdgeIndex::from(edge as usize)).collect()
    }
}

/// 4, 5, 19, 20 and 8.
fn read_edges(nodes: &[[u8; 20]], records: &[[u8; 6]]) -> Option<(Vec<Edge>, EdgeLists)> {
    let ends = |record: &[u8; 6]| (u16_at(record, 2), u16_at(record, 4));
    let mut seen = [[0u64; MOST[0] / 64]; MOST[0]];
    let [mut incoming, mut outgoing] = [[0; MOST[0]]; 2];
    let mut edges = Vec::with_capacity(records.len());
    for (i, record) in records.iter().enumerate() {
        let (from, to) = ends(record);
        let [from_kind, to_kind] = [nodes.get(from)?[2], nodes.get(to)?[2]];
        let (word, bit) = (&mut seen[from][to / 64], 1 << (to % 64));
        if to_kind == INPUT || from_kind == OUTPUT || from == to || *word & bit != 0 {
            return None;
        }
        *word |= bit;
        outgoing[from] += 1;
        incoming[to] += 1;
        edges.push(Edge::new(i.into(), from.into(), to.into()));
    }
    if (0..nodes.len()).any(|i| nodes[i][2] == LINK && (incoming[i] == 0 || outgoing[i] == 0)) {
        return None;
    }
    let lists = EdgeLists {
        incoming: Lists::new(incoming, records.iter().map(|record| ends(record).1)),
        outgoing: Lists::new(outgoing, records.iter().map(|record| ends(record).0)),
    };
    Some((edges, lists))
}

/// 10, if the node is exclusive.
fn is_refused_if_exclusive(node: &[u8; 20]) -> bool {
    node[3] == 1 && (f64_at(node, 12) == f64::NEG_INFINITY || f64_at(node, 4) == f64::INFINITY)
}

fn read_aggregates<'a>(nodes: &[[u8; 20]], mut rest: &'a [u8]) -> Option<(Vec<AggregatedNode>, &'a [u8])> {
    let mut aggregates = Vec::new();
    while let Some((first, mut sets)) = rest.split_first_chunk::<12>()
        && is_mark(first, b"AG")
    {
        let [exclusive, count] = [first[2], first[3]];
        let [min_active, max_active] = [4, 8].map(|at| u32::from_le_bytes(first[at..at + 4].try_into().unwrap()));
        let active_is_good = if exclusive == 1 { min_active <= max_active } else { min_active | max_active == 0 };
        if aggregates.len() == MOST[2] || exclusive > 1 || !(1..=16).contains(&count) || !active_is_good {
            return None;
        }
        let mut read = Vec::with_capacity(count as usize);
        for _ in 0..count {
            let (&size, from) = sets.split_first()?;
            let (members, behind) = from.split_at_checked(2 * size as usize)?;
            if !(1..=16).contains(&size) {
                return None;
            }
            read.push(read_set(nodes, members.as_chunks().0, exclusive == 1)?);
            sets = behind;
        }
        let active = (exclusive == 1).then_some((min_active, max_active));
        aggregates.push(AggregatedNode::new(aggregates.len().into(), "", read, active));
        rest = sets;
    }
    Some((aggregates, rest))
}

/// 4 and 10.
fn read_set(nodes: &[[u8; 20]], members: &[[u8; 2]], exclusive: bool) -> Option<Vec<NodeIndex>> {
    let mut set = Vec::with_capacity(members.len());
    for &member in members {
        let node = u16::from_le_bytes(member) as usize;
        if exclusive & is_refused_if_exclusive(nodes.get(node)?) {
            return None;
        }
        set.push(node.into());
    }
    Some(set)
}

/// What stands behind the aggregates, to the end of the file.
fn read_virtual_storages(nodes: &[[u8; 20]], mut rest: &[u8]) -> Option<Vec<VirtualStorageNode>> {
    let mut virtual_storages = Vec::new();
    while let Some((first, behind)) = rest.split_first_chunk::<8>() {
        let &[_, _, period, start_month, start_day, end_month, end_day, count] = first;
        let dates = [start_month, start_day, end_month, end_day];
        let dates_are_good = match period {
            0 => dates == [0; 4],
            1 => dates.iter().zip([12, 31, 12, 31]).all(|(&date, most)| (1..=most).contains(&date)),
            _ => false,
        };
        if !is_mark(first, b"VS") || virtual_storages.len() == MOST[3] || !dates_are_good || !(1..=64).contains(&count) {
            return None;
        }
        let (parts, behind) = behind.split_at_checked(10 * count as usize)?;
        let (mut listed, mut factors) = (Vec::with_capacity(count as usize), Vec::with_capacity(count as usize));
        for part in parts.as_chunks::<10>().0 {
            let (node, factor) = (u16_at(part, 0), f64_at(part, 2));
            if node >= nodes.len() || !within(factor, AMOUNT) {
                return None;
            }
            listed.push(NodeIndex::from(node));
            factors.push(factor);
        }
        let active_period = (period == 1).then_some(dates);
        virtual_storages.push(VirtualStorageNode::new(virtual_storages.len().into(), "", listed, factors, active_period));
        rest = behind;
    }
    rest.is_empty().then_some(virtual_storages)
}
