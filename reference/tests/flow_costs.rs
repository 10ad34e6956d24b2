//! What columns cost, by document 02's L10: hand-made chains, rings and loops, and that a wrong cost is found.
mod records;

use pywr_reference::columns::{Path, flow_order, paths};
use pywr_reference::exact::Whole;
use pywr_reference::flow_costs::{CostCounts, Costs, is_near};
use pywr_reference::{NetworkFile, Reference, Sentinel, step_file};
use records::*;

const TWO_TO_MINUS_24: f64 = 1.0 / (1 << 24) as f64;

fn network(kinds: &[u8], edges: &[(u16, u16)]) -> Vec<u8> {
    let edges = edges.iter().flat_map(|&(from, to)| ed(from, to));
    kinds.iter().flat_map(|&kind| nd(kind)).chain(edges).collect()
}

fn step(costs: &[f64]) -> Vec<u8> {
    costs.iter().fold(st(6, 1, 1.0), |file, &cost| [file, nb(cost, 0.0, 0.0, 0.0)].concat())
}

fn stepped(network: &[u8], costs: &[f64]) -> Reference {
    let mut reference = Reference::build(network, Sentinel::Infinity).unwrap();
    assert_eq!(reference.step(&step(costs)), Ok(()));
    reference
}

/// The bits of the first column's cost after a step of the altered Rust, which the reference holds to the model.
fn cost(network: &[u8], costs: &[f64]) -> u64 {
    stepped(network, costs).programme().columns[0].cost.to_bits()
}

/// The model's sum of the first column in edge order.
fn cost_in_edge_order(network: &[u8], costs: &[f64]) -> u64 {
    let file = NetworkFile::read(network).unwrap();
    let (_, state) = step_file::read(&file, &step(costs)).unwrap();
    Costs { file: &file, state: &state }.in_edge_order(&paths(&file)[0]).to_bits()
}

/// The first column's edges in flow order, and whether it is a closed ring.
fn first_path(network: &[u8]) -> (Vec<usize>, bool) {
    let Path { edges, closed } = paths(&NetworkFile::read(network).unwrap()).swap_remove(0);
    (edges, closed)
}

fn power(bits: u32) -> f64 {
    1.0 / (1_u64 << bits) as f64
}

/// Edge costs 1e12, 2^-13, 3 * 2^-14 and 2^-14 from source to sink. Doubles at 1e12 are 2^-13 apart, so downstream the third is rounded to 2^-13, the last is
/// lost, and the cost is 1e12 and 2^-12, however the edges are keyed. In edge order it was 2, 3, 3 and 4 of these parts over 1e12; exactly it is 3.
#[test]
fn a_chain_has_one_cost_in_each_edge_order() {
    let kinds = [INPUT, LINK, LINK, LINK, OUTPUT];
    let costs = [1e12, 0.0, power(12), power(13), 0.0];
    let orders = [
        ([(0, 1), (1, 2), (2, 3), (3, 4)], [0, 1, 2, 3], 2),
        ([(3, 4), (2, 3), (1, 2), (0, 1)], [3, 2, 1, 0], 3),
        ([(1, 2), (3, 4), (2, 3), (0, 1)], [3, 0, 2, 1], 3),
        ([(0, 1), (2, 3), (1, 2), (3, 4)], [0, 2, 1, 3], 4),
    ];
    for (edges, flow, in_edge_order) in orders {
        let network = network(&kinds, &edges);
        assert_eq!(first_path(&network), (flow.to_vec(), false));
        assert_eq!(cost(&network, &costs), 1e12_f64.to_bits() + 2);
        assert_eq!(cost_in_edge_order(&network, &costs), 1e12_f64.to_bits() + in_edge_order, "{edges:?}");
    }
}

/// From the edge out of node 1 the ring's costs add to 1, from either other one to 1 and 2^-52, and in edge order too.
#[test]
fn a_closed_ring_starts_at_its_lowest_edge() {
    let costs = [0.0, power(52), 1.0];
    let (one, more) = (1_f64.to_bits(), 1_f64.next_up().to_bits());
    let ring = |edges: [(u16, u16); 3]| network(&[LINK; 3], &edges);
    let from_1 = ring([(1, 2), (0, 1), (2, 0)]);
    assert_eq!(first_path(&from_1), (vec![0, 2, 1], true));
    assert_eq!([cost(&from_1, &costs), cost_in_edge_order(&from_1, &costs)], [one, more]);
    for (edges, order) in [([(2, 0), (1, 2), (0, 1)], vec![0, 2, 1]), ([(0, 1), (1, 2), (2, 0)], vec![0, 1, 2])] {
        assert_eq!(first_path(&ring(edges)), (order, true));
        assert_eq!(cost(&ring(edges), &costs), more);
    }
}

/// A column that comes back to its start through a storage, or through a link with other edges, starts there, whatever its lowest edge is.
#[test]
fn a_loop_through_a_storage_starts_there() {
    let through_storage = network(&[STORAGE, LINK, LINK], &[(1, 2), (2, 0), (0, 1)]);
    assert_eq!(first_path(&through_storage), (vec![2, 0, 1], false));
    let costs = [0.0, power(52), 1.0];
    assert_eq!(cost(&through_storage, &costs), 1_f64.next_up().to_bits());
    assert_eq!(cost_in_edge_order(&through_storage, &costs), 1_f64.to_bits());
    let through_link = network(&[LINK, LINK, LINK, INPUT, OUTPUT], &[(1, 2), (3, 0), (2, 0), (0, 4), (0, 1)]);
    assert_eq!(first_path(&through_link), (vec![4, 0, 2], false));
    let costs = [0.0, power(52), 1.0, 0.0, 0.0];
    assert_eq!(cost(&through_link, &costs), 1_f64.next_up().to_bits());
    assert_eq!(cost_in_edge_order(&through_link, &costs), 1_f64.to_bits());
}

/// Paths by their first edges, then rings by their lowest, whatever the columns' numbers are.
#[test]
fn the_order_of_the_columns() {
    let kinds = [LINK, LINK, INPUT, LINK, OUTPUT, STORAGE, OUTPUT];
    let edges = [(0, 1), (3, 4), (5, 6), (2, 3), (1, 0)];
    let file = NetworkFile::read(&network(&kinds, &edges)).unwrap();
    let path = |edges: &[usize], closed: bool| Path { edges: edges.to_vec(), closed };
    let paths = paths(&file);
    assert_eq!(paths, [path(&[0, 4], true), path(&[3, 1], false), path(&[2], false)]);
    assert_eq!(flow_order(&paths), [2, 3, 1, 0, 4]);
}

/// The smallest step in which both orders differ, with another cost of the column, or of an exclusive set.
#[test]
fn wrong_costs_are_found() {
    let ring = network(&[STORAGE, LINK, LINK], &[(1, 2), (2, 0), (0, 1)]);
    let network = [ring, exclusive(&[&[1]], 0, 1)].concat();
    let costs = step(&[0.0, power(52), 1.0]);
    let file = NetworkFile::read(&network).unwrap();
    let mut reference = Reference::build(&network, Sentinel::Infinity).unwrap();
    let step = [costs, gb(0.0, 0.0)].concat();
    assert_eq!(reference.step(&step), Ok(()));
    let (_, state) = step_file::read(&file, &step).unwrap();
    let (costs, paths) = (Costs { file: &file, state: &state }, paths(&file));
    let found = |column: usize, cost: f64| {
        let mut programme = reference.programme().clone();
        programme.columns[column].cost = cost;
        [costs.check(&paths, &programme).is_err(), costs.check_unaltered(&paths, &programme).is_err()]
    };
    // In flow order; in edge order; neither. A set costs 0.0, which is not -0.0.
    assert_eq!(found(0, 1_f64.next_up()), [false, true]);
    assert_eq!(found(0, 1.0), [true, false]);
    assert_eq!(found(0, 1_f64.next_down()), [true, true]);
    assert_eq!([found(1, 1.0)[0], found(1, -0.0)[0]], [true; 2]);
}

#[test]
fn near_is_within_two_to_minus_24() {
    // In units of 2^-1075: 0, and half of the least double.
    let half = Whole::from(1);
    assert!(is_near(TWO_TO_MINUS_24, &Whole::zero()) && is_near(-TWO_TO_MINUS_24, &Whole::zero()));
    assert!(is_near(TWO_TO_MINUS_24, &half) && !is_near(-TWO_TO_MINUS_24, &half));
    assert!(!is_near(TWO_TO_MINUS_24, &-&half) && is_near(-TWO_TO_MINUS_24, &-&half));
    assert!(!is_near(TWO_TO_MINUS_24.next_up(), &Whole::zero()) && !is_near(-TWO_TO_MINUS_24.next_up(), &Whole::zero()));
}

/// Without rounding: half of a subnormal, and what the edges' own sums lose.
#[test]
fn exact_sums() {
    let exact = |network: &[u8], costs: &[f64]| {
        let file = NetworkFile::read(network).unwrap();
        let (_, state) = step_file::read(&file, &step(costs)).unwrap();
        Costs { file: &file, state: &state }.exact_sum(&paths(&file)[0])
    };
    let chain = network(&[INPUT, LINK, OUTPUT], &[(1, 2), (0, 1)]);
    let least = f64::from_bits(1);
    assert_eq!(exact(&chain, &[0.0, least, 0.0]), Whole::from(2));
    assert_eq!(exact(&chain, &[1.0, least, -1.0]), Whole::from(2));
    let to_storage = network(&[STORAGE, LINK, STORAGE], &[(0, 1), (1, 2)]);
    assert_eq!(exact(&to_storage, &[3.0 * least, least, 4.0 * least]), Whole::from(4));
    assert_eq!(exact(&to_storage, &[1.0, least, 1.0]), Whole::from(2));
}

/// Both premises at their limits, counted over all nodes of the step file, those without an edge too.
#[test]
fn whole_and_small_costs_are_counted() {
    let keyed = network(&[INPUT, LINK, OUTPUT, OUTPUT], &[(1, 2), (0, 1)]);
    let counts = |costs: [f64; 4]| {
        let CostCounts { steps, whole, small, .. } = stepped(&keyed, &costs).cost_counts();
        assert_eq!(steps, [1, 1]);
        assert!(whole[0] == whole[1] && small[0] == small[1]);
        [whole[0], small[0]]
    };
    assert_eq!(counts([1000.0, -1000.0, -0.0, 7.0]), [1, 1]);
    assert_eq!(counts([1.0, 1e12, 3.0, -1e12]), [1, 0]);
    assert_eq!(counts([1.0, 2.0, 3.0, 0.5]), [0, 1]);
    assert_eq!(counts([0.5, 2.0, 3.0, 1000_f64.next_up()]), [0, 0]);
    let in_flow_order = network(&[INPUT, LINK, OUTPUT], &[(0, 1), (1, 2)]);
    assert_eq!(stepped(&in_flow_order, &[1.0, 2.0, 0.5]).cost_counts().steps, [1, 0]);
}
