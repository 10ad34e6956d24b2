//! A network and a step made to fit a plan: the premise of the correspondence holds, the plan is allowed or nearly so, and it stands on bounds.
use super::encode::Step;
use super::numbers::in_1024ths;
use super::plans::Walks;
use super::steps;
use crate::NetworkFile;
use crate::plans::{Plan, is_in_1024ths};
use crate::random::Random;
use pywr_core::node::NodeType;
use pywr_core::state::VirtualStorageNumbers;

pub struct Fitted {
    pub network: NetworkFile,
    pub step: Step,
    pub plan: Plan,
}

/// Puts other numbers into a network and a generated step where theirs forbid the plan, and in some places where they allow it.
pub fn fitted(r: &mut Random, mut network: NetworkFile) -> Fitted {
    keep_premise(r, &mut network);
    let amounts = amounts(r, &network);
    let nodes: Vec<f64> = (0..network.nodes.len()).map(|n| node_amount(&network, n, &amounts)).collect();
    let sets = fit_sets(r, &mut network, &nodes);
    let mut step = steps::step(r, &network);
    if r.chance(70) {
        step.days = *r.pick(&[1.0, 2.0, 0.25, 7.0, 1.0 / 1024.0]);
    }
    let tight = r.chance(30);
    fit_nodes(r, &mut network, &mut step, &nodes, &sets, tight);
    for (aggregate, numbers) in network.aggregates.iter().zip(&mut step.aggregates) {
        let amount = aggregate.sets.iter().flatten().map(|&n| nodes[n]).sum();
        (numbers.lower, numbers.upper) = fit(r, (numbers.lower, numbers.upper), amount, tight, &ANY_SLACK);
    }
    for (storage, numbers) in network.virtual_storages.iter().zip(&mut step.virtual_storages) {
        let amount = -storage.nodes.iter().map(|&(n, factor)| factor * nodes[n]).sum::<f64>();
        *numbers = virtual_storage(r, *numbers, amount, step.days);
    }
    let on: Vec<bool> = sets.into_iter().map(|(_, on)| on).collect();
    Fitted { step, plan: Plan::of_doubles(&amounts, &on), network }
}

/// Factors that are no multiples of 1/1024 become such.
fn keep_premise(r: &mut Random, network: &mut NetworkFile) {
    let factors = network.virtual_storages.iter_mut().flat_map(|v| &mut v.nodes).map(|part| &mut part.1);
    factors.filter(|factor| !is_in_1024ths(**factor)).for_each(|factor| *factor = in_1024ths(r));
}

/// Eighths of a power of two along a few walks: doubles, and their sums too.
fn amounts(r: &mut Random, network: &NetworkFile) -> Vec<f64> {
    let walks = Walks::new(network);
    let scale = *r.pick(&[1.0, 1.0, 1.0, 1.0, 1024.0, 1.0 / 1024.0, f64::from_bits(8)]);
    let mut amounts = vec![0.0; network.edges.len()];
    for _ in 0..r.between(1, 5) {
        let amount = scale * r.between(1, 800) as f64 / *r.pick(&[1.0, 8.0]);
        walks.any(r).into_iter().for_each(|edge| amounts[edge] += amount);
    }
    amounts
}

fn node_amount(network: &NetworkFile, node: usize, amounts: &[f64]) -> f64 {
    let edges = || network.edges.iter().zip(amounts);
    let incoming: f64 = edges().filter(|(e, _)| e.1 == node).map(|(_, amount)| amount).sum();
    let outgoing: f64 = edges().filter(|(e, _)| e.0 == node).map(|(_, amount)| amount).sum();
    match network.nodes[node].kind {
        NodeType::Input | NodeType::Link => outgoing,
        NodeType::Output => incoming,
        NodeType::Storage => incoming - outgoing,
    }
}

/// How far a bound may be from an amount.
const ANY_SLACK: [f64; 4] = [1e3, 1e6, f64::MAX, f64::INFINITY];

/// The same within both sentinels: a lower bound is 0, or half of the amount, in some cases.
fn slack_within(x: f64) -> [f64; 5] {
    [1e3, 1e6, 1e300, x.abs(), x.abs() / 2.0]
}

/// The bounds, if `x` lies between them, or others around it or on it.
fn fit(r: &mut Random, (lower, upper): (f64, f64), x: f64, tight: bool, slacks: &[f64]) -> (f64, f64) {
    if lower <= x && x <= upper && r.chance(50) {
        return (lower, upper);
    }
    let mut slack = || if tight && r.chance(40) { 0.0 } else { *r.pick(slacks) };
    (x - slack(), x + slack())
}

/// An exclusive set, and whether it is on.
type Set = (Vec<usize>, bool);

/// A varying node whose sets are all off mostly keeps its numbers: its amount is 0 whatever they are.
fn fit_nodes(r: &mut Random, network: &mut NetworkFile, step: &mut Step, amounts: &[f64], sets: &[Set], tight: bool) {
    for (n, &x) in amounts.iter().enumerate() {
        let (node, numbers) = (&mut network.nodes[n], &mut step.nodes[n]);
        let mut listing = sets.iter().filter(|(set, _)| set.contains(&n)).peekable();
        let is_exclusive = listing.peek().is_some();
        let is_off = is_exclusive && listing.all(|&(_, on)| !on);
        match (&mut node.constant, node.kind) {
            (Some(bounds), _) if is_exclusive => *bounds = exclusive_bounds(r, x),
            (Some(bounds), _) => *bounds = fit(r, *bounds, x, tight, &ANY_SLACK),
            (None, _) if is_off && r.chance(70) => {}
            (None, NodeType::Storage) => {
                let [least, most] = [numbers.min, numbers.max].map(|volume| (volume - numbers.volume) / step.days);
                let (lower, upper) = fit(r, (least, most), x, tight, &ANY_SLACK);
                if (lower, upper) != (least, most) {
                    numbers.volume = 0.0;
                    (numbers.min, numbers.max) = ((lower * step.days).max(-1e12), (upper * step.days).min(1e12));
                }
            }
            (None, _) => {
                let slacks = if is_exclusive { &slack_within(x)[..] } else { &ANY_SLACK };
                (numbers.min, numbers.max) = fit(r, (numbers.min, numbers.max), x, tight, slacks);
            }
        }
    }
}

/// Bounds of a constant exclusive node that has the amount in each set that is on.
fn exclusive_bounds(r: &mut Random, amount: f64) -> (f64, f64) {
    let least = if amount < 1e-6 { 0.0 } else { *r.pick(&[0.0, amount, amount / 2.0, 1e-7, -3.0]) };
    (least, *r.pick(&[amount, amount + 1e3, 1e6, 2e6, f64::INFINITY]))
}

/// Sets in order of first appearance, on as they must be; each aggregate's min_active and max_active become numbers around how many of its sets are.
fn fit_sets(r: &mut Random, network: &mut NetworkFile, amounts: &[f64]) -> Vec<Set> {
    let mut sets: Vec<Set> = Vec::new();
    for aggregate in &mut network.aggregates {
        let Some(active) = &mut aggregate.exclusive else { continue };
        let mut count = 0;
        for set in &aggregate.sets {
            let at = sets.iter().position(|known| known.0 == *set).unwrap_or_else(|| {
                sets.push((set.clone(), set.iter().any(|&n| amounts[n] != 0.0) || r.chance(30)));
                sets.len() - 1
            });
            count += sets[at].1 as u32;
        }
        *active = (count.saturating_sub(r.below(2) as u32), count + r.below(2) as u32);
    }
    sets
}

/// The numbers, if the amount lies between their bounds, or mostly others with the amount on the bound that is on its side of 0.
fn virtual_storage(r: &mut Random, numbers: VirtualStorageNumbers, amount: f64, days: f64) -> VirtualStorageNumbers {
    let fits = |amount: f64, volume: f64| amount <= volume.max(0.0) / days;
    if fits(-amount, numbers.volume - numbers.min) && fits(amount, numbers.max - numbers.volume) && r.chance(20) {
        return numbers;
    }
    let slack = if r.chance(70) { 0.0 } else { 1e3 };
    let [available, missing] = [-amount, amount].map(|x| if x > 0.0 { (x + slack) * days } else { 1e10 });
    let volume = if r.chance(50) { 0.0 } else { r.below(100) as f64 };
    VirtualStorageNumbers { min: (volume - available).max(-1e12), max: (volume + missing).min(1e12), volume }
}
