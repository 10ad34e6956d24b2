//! Lists of steps for a network: good ones, crossed limits, damaged and cut files between them.
use super::damage;
use super::encode::{Step, step_records};
use super::numbers::{DrawCost, amount, at_sentinel, days, draw_cost, flow, interval, interval_within, unread, volumes};
use crate::NetworkFile;
use crate::random::Random;
use pywr_core::node::NodeType;
use pywr_core::state::{AggregateNumbers, NodeNumbers, VirtualStorageNumbers};

const LAST: [u8; 12] = [31, 29, 31, 30, 31, 30, 31, 31, 30, 31, 30, 31];

pub fn steps(r: &mut Random, network: &NetworkFile) -> Vec<Vec<u8>> {
    (0..r.between(1, 9)).map(|_| file(r, network)).collect()
}

fn file(r: &mut Random, network: &NetworkFile) -> Vec<u8> {
    let mut step = step(r, network);
    let reaches = r.chance(15) && reach_sentinel(r, network, &mut step);
    if r.chance(if reaches { 40 } else { 15 }) {
        cross(r, network, &mut step);
    }
    let records = step_records(&step);
    match r.below(100) {
        0..15 => damage::damaged(r, records),
        15..22 => damage::cut(r, records),
        _ => records.concat(),
    }
}

pub fn step(r: &mut Random, network: &NetworkFile) -> Step {
    let (month, day) = date(r, network);
    let cost = draw_cost(r);
    Step {
        month,
        day,
        days: days(r),
        nodes: (0..network.nodes.len()).map(|n| node(r, network, n, cost)).collect(),
        aggregates: network.aggregates.iter().map(|_| aggregate(r)).collect(),
        virtual_storages: network.virtual_storages.iter().map(|_| virtual_storage(r)).collect(),
    }
}

fn node(r: &mut Random, network: &NetworkFile, index: usize, cost: DrawCost) -> NodeNumbers {
    let node = network.nodes[index];
    let cost = cost(r);
    if node.kind == NodeType::Storage {
        let (min, max) = volumes(r);
        return NodeNumbers { cost, min, max, volume: amount(r) };
    }
    let (min, max) = match node.constant {
        Some(_) => (unread(r), unread(r)),
        None if network.is_exclusive(index) => interval_within(r),
        None => interval(r),
    };
    NodeNumbers { cost, min, max, volume: unread(r) }
}

/// An aggregate's lower may be over its upper.
fn aggregate(r: &mut Random) -> AggregateNumbers {
    let (lower, upper) = if r.chance(60) { interval(r) } else { (flow(r), flow(r)) };
    AggregateNumbers { lower, upper }
}

/// A virtual storage's least volume may be over its greatest.
fn virtual_storage(r: &mut Random) -> VirtualStorageNumbers {
    VirtualStorageNumbers { min: amount(r), max: amount(r), volume: amount(r) }
}

/// Puts a bound of one or two varying exclusive nodes at a sentinel or next to it, and lets it cross the other in some cases; says whether there is such
/// a node.
fn reach_sentinel(r: &mut Random, network: &NetworkFile, step: &mut Step) -> bool {
    let exclusive = network.varying_exclusive_nodes().into_iter();
    let with_flow: Vec<usize> = exclusive.filter(|&n| network.nodes[n].kind != NodeType::Storage).collect();
    for _ in 0..if with_flow.is_empty() { 0 } else { r.between(1, 2) } {
        let numbers = &mut step.nodes[*r.pick(&with_flow)];
        let bound = at_sentinel(r);
        match r.below(8) {
            0 => (numbers.min, numbers.max) = (bound, bound),
            1 => numbers.min = bound,
            2 => numbers.max = bound,
            _ if bound < 0.0 => numbers.min = bound,
            _ => numbers.max = bound,
        }
    }
    !with_flow.is_empty()
}

/// Lets a node's lower pass its upper, by as little as can be in half of the cases.
fn cross(r: &mut Random, network: &NetworkFile, step: &mut Step) {
    let at = r.below(network.nodes.len());
    let numbers = &mut step.nodes[at];
    if network.nodes[at].constant.is_none() {
        if r.chance(50) {
            numbers.min = numbers.max.next_up().min(1e12);
        } else {
            std::mem::swap(&mut numbers.min, &mut numbers.max);
        }
    }
}

/// Any date, or one at the ends of a period.
fn date(r: &mut Random, network: &NetworkFile) -> (u8, u8) {
    let periods: Vec<[u8; 4]> = network.virtual_storages.iter().filter_map(|v| v.period).collect();
    let month = r.between(1, 12) as u8;
    if periods.is_empty() || r.chance(30) {
        let last = LAST[month as usize - 1];
        return (month, if r.chance(20) { last } else { r.between(1, last.into()) as u8 });
    }
    let period = *r.pick(&periods);
    let (month, day) = if r.chance(50) { (period[0], period[1]) } else { (period[2], period[3]) };
    let last = LAST[month as usize - 1];
    match r.below(3) {
        0 if day > 1 => (month, (day - 1).min(last)),
        1 if day >= last => (month % 12 + 1, 1),
        1 => (month, day + 1),
        _ => (month, day.min(last)),
    }
}
