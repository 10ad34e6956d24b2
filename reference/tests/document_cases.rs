//! Document 01's worked example, its cases marked with a dot, and document 02's L2 and L3.
mod records;

use pywr_reference::makers::MASS;
use pywr_reference::programme::Row;
use pywr_reference::{Reference, Sentinel};
use records::*;

fn built(records: &[Vec<u8>]) -> Reference {
    Reference::build(&records.concat(), Sentinel::Infinity).unwrap_or_else(|r| panic!("refused: {r}"))
}

fn stepped(records: &[Vec<u8>], step: &[Vec<u8>]) -> Reference {
    let mut reference = built(records);
    reference.step(&step.concat()).unwrap_or_else(|r| panic!("refused: {r}"));
    reference
}

fn interval(reference: &Reference, row: usize) -> (f64, f64) {
    let row = &reference.programme().rows[row];
    (row.lower, row.upper)
}

const INF: f64 = f64::INFINITY;

#[test]
fn worked_example() {
    let listing = "P 1 2 1 2\n\
        C 0 c 0000000000000000 7ff0000000000000 0000000000000000\n\
        R 0 1 0000000000000000 7ff0000000000000 1 1 0 1\n\
        E 0 3ff0000000000000\n\
        R 1 0 0000000000000000 4048400000000000 1 1 1 1\n\
        E 0 3ff0000000000000\n";
    assert_eq!(built(&[nd(INPUT), constant(OUTPUT, 0.0, 48.5), ed(0, 1)]).programme().to_string(), listing);
}

/// The links with a mass row, and its elements.
fn mass_rows(reference: &Reference) -> Vec<(u16, Vec<(usize, f64)>)> {
    let programme = reference.programme();
    let rows = programme.makers.iter().zip(&programme.rows).filter(|(maker, _)| maker.kind == MASS);
    rows.map(|(maker, row)| (maker.index, row.elements.clone())).collect()
}

type Edge = (u16, u16);

fn orders(edges: &[Edge]) -> Vec<Vec<Edge>> {
    let Some((&first, rest)) = edges.split_first() else { return vec![Vec::new()] };
    let insert = |order: Vec<Edge>| (0..=order.len()).map(move |at| [&order[..at], &[first], &order[at..]].concat());
    orders(rest).into_iter().flat_map(insert).collect()
}

/// Builds nodes with edges in an order.
fn keyed(nodes: &[u8], edges: &[Edge]) -> Reference {
    let nodes = nodes.iter().map(|&kind| nd(kind));
    built(&nodes.chain(edges.iter().map(|&(from, to)| ed(from, to))).collect::<Vec<_>>())
}

const CHAIN: [u8; 5] = [INPUT, LINK, LINK, LINK, OUTPUT];

/// "Document 01's first chain becomes one column with no mass row", as it is keyed there and in every other order.
#[test]
fn a_chain_in_every_order() {
    let first = [(1, 2), (3, 4), (2, 3), (0, 1)];
    let orders = orders(&first);
    assert!(orders.len() == 24 && orders.contains(&first.to_vec()));
    for order in orders {
        let reference = keyed(&CHAIN, &order);
        assert_eq!(reference.columns_of_edges(), [0, 0, 0, 0], "{order:?}");
        assert_eq!((reference.programme().edge_columns(), mass_rows(&reference)), (1, Vec::new()), "{order:?}");
    }
}

/// "later numbers close up": the edge from 5 to 6 is behind two columns of the chain when it comes.
#[test]
fn a_later_number_closes_up() {
    let nodes = [&CHAIN[..], &[INPUT, OUTPUT]].concat();
    let reference = keyed(&nodes, &[(1, 2), (3, 4), (5, 6), (2, 3), (0, 1)]);
    assert_eq!(reference.columns_of_edges(), [0, 0, 1, 0, 0]);
    assert_eq!((reference.programme().edge_columns(), mass_rows(&reference)), (2, Vec::new()));
}

/// "A zero element stays": link 1 has an edge in and a ring's edges in and out.
#[test]
fn a_fed_ring_in_every_order() {
    let feed = (0, 1);
    for order in orders(&[feed, (1, 2), (2, 1)]) {
        let reference = keyed(&[INPUT, LINK, LINK], &order);
        let of_feed = if order[0] == feed { 0 } else { 1 };
        let columns = order.iter().map(|&edge| if edge == feed { of_feed } else { 1 - of_feed });
        assert_eq!(reference.columns_of_edges(), columns.collect::<Vec<usize>>(), "{order:?}");
        let row = if of_feed == 0 { [(0, 1.0), (1, 0.0)] } else { [(0, 0.0), (1, 1.0)] };
        assert_eq!(mass_rows(&reference), [(1, row.to_vec())], "{order:?}");
    }
}

/// A ring that nothing feeds closes on one column; of four links two columns can unite before.
#[test]
fn a_closed_ring_in_every_order() {
    let rings: [&[Edge]; 3] = [&[(0, 1), (1, 0)], &[(0, 1), (1, 2), (2, 0)], &[(0, 1), (1, 2), (2, 3), (3, 0)]];
    for ring in rings {
        for order in orders(ring) {
            let reference = keyed(&vec![LINK; ring.len()], &order);
            assert_eq!(reference.columns_of_edges(), vec![0; ring.len()], "{order:?}");
            assert_eq!((reference.programme().edge_columns(), mass_rows(&reference)), (1, Vec::new()), "{order:?}");
        }
    }
}

/// Chains from 0 and 3 over links 1 and 4 meet at link 2, which gives to 6 over link 5.
#[test]
fn chains_that_meet_at_three_edges_stay_apart() {
    let chains: [[Edge; 2]; 3] = [[(0, 1), (1, 2)], [(3, 4), (4, 2)], [(2, 5), (5, 6)]];
    for order in orders(chains.as_flattened()) {
        let reference = keyed(&[INPUT, LINK, LINK, INPUT, LINK, LINK, OUTPUT], &order);
        let columns = reference.columns_of_edges();
        let column = |edge: Edge| columns[order.iter().position(|&at| at == edge).unwrap()];
        let [one, other, below] = chains.map(|[first, second]| {
            assert_eq!(column(first), column(second), "{order:?}");
            column(first)
        });
        let mut row = vec![(one, 1.0), (other, 1.0), (below, -1.0)];
        row.sort_by_key(|element| element.0);
        assert_eq!(reference.programme().edge_columns(), 3, "{order:?}");
        assert_eq!(mass_rows(&reference), [(2, row)], "{order:?}");
    }
}

#[test]
fn empty_rows_join() {
    let reference = built(&[nd(INPUT), nd(INPUT), constant(INPUT, 0.0, 1.0), constant(OUTPUT, 0.0, 1.0), ed(2, 3)]);
    assert_eq!(reference.programme().varying_rows(), 1);
    assert!(reference.programme().rows[0].elements.is_empty());
}

#[test]
fn constant_exclusive_coefficients() {
    let coefficients = |min: f64, max: f64| {
        let reference = built(&[constant(INPUT, min, max), nd(OUTPUT), ed(0, 1), exclusive(&[&[0]], 0, 1)]);
        let rows = reference.programme().rows.iter().filter(|row| !row.varying);
        let last = |row: &pywr_reference::programme::Row| row.elements.last().unwrap().1;
        let exclusive: Vec<_> = rows.filter(|row| row.elements.len() == 2).collect();
        assert!(exclusive.iter().all(|row| (row.lower, row.upper) == (0.0, INF)));
        exclusive.into_iter().map(last).collect::<Vec<_>>()
    };
    assert_eq!(coefficients(0.0, 5.0), [5.0]);
    assert_eq!(coefficients(0.0, 2_000_000.0), [1e6]);
    assert_eq!(coefficients(-3.0, 5.0), [5.0, -1e-6]);
    assert_eq!(coefficients(2.0, 5.0), [5.0, -2.0]);
}

#[test]
fn intervals_on_a_shared_row() {
    let both = |a: (f64, f64), b: (f64, f64)| {
        let step = [st(1, 1, 1.0), nb(0.0, a.0, a.1, 0.0), nb(0.0, b.0, b.1, 0.0)];
        interval(&stepped(&[pair()], &step), 0)
    };
    assert_eq!(both((2.0, 9.0), (4.0, 12.0)), (4.0, 9.0));
    assert_eq!(both((0.0, 1.0), (2.0, 3.0)), (2.0, 1.0));
}

#[test]
fn storage_interval() {
    let network = [nd(STORAGE), constant(OUTPUT, 0.0, 1.0), ed(0, 1)];
    let step = [st(1, 1, 2.0), nb(0.0, 10.0, 100.0, 30.0), nb(0.0, 0.0, 0.0, 0.0)];
    assert_eq!(interval(&stepped(&network, &step), 0), (-10.0, 35.0));
}

#[test]
fn costs() {
    let network = [nd(LINK), nd(STORAGE), nd(INPUT), nd(OUTPUT), ed(0, 1), ed(1, 0), ed(2, 0), ed(0, 3)];
    let free = nb(0.0, 0.0, INF, 0.0);
    let step = [st(1, 1, 1.0), nb(3.0, 0.0, 1.0, 0.0), nb(4.0, 0.0, 1.0, 0.0), free.clone(), free];
    let reference = stepped(&network, &step);
    assert_eq!(reference.columns_of_edges(), [0, 1, 2, 3]);
    assert_eq!(reference.programme().columns[0].cost, 5.5);
    assert_eq!(reference.programme().columns[1].cost, -2.5);
}

#[test]
fn periods() {
    let active = |period: [u8; 4], month: u8, day: u8| {
        let network = [pair(), vs(Some(period), &[(0, 1.0)])];
        let free = nb(0.0, 0.0, INF, 0.0);
        let reference = stepped(&network, &[st(month, day, 1.0), free.clone(), free, vb(0.0, 10.0, 4.0)]);
        match interval(&reference, 1) {
            (-4.0, 6.0) => true,
            (lower, upper) => {
                assert_eq!((lower, upper), (-INF, INF));
                false
            }
        }
    };
    let winter = [11, 1, 2, 15];
    assert!(active(winter, 12, 31) && active(winter, 2, 15) && active(winter, 11, 1));
    assert!(!active(winter, 2, 16) && !active(winter, 10, 31));
    let nearly_all = [3, 10, 3, 5];
    assert!(active(nearly_all, 3, 5) && !active(nearly_all, 3, 7) && active(nearly_all, 3, 10));
}

/// Their bounds and elements.
fn rows_of_varying_exclusive_nodes(reference: &Reference) -> Vec<((f64, f64), Vec<(usize, f64)>)> {
    let programme = reference.programme();
    let has_set = |row: &&Row| row.varying && row.elements.iter().any(|e| programme.columns[e.0].integer);
    programme.rows.iter().filter(has_set).map(|row| ((row.lower, row.upper), row.elements.clone())).collect()
}

/// Two pumps with limits by the step: 1 and -1 as built, then the upper and minus the lower, bounds 0 and the high sentinel.
#[test]
fn varying_exclusive_rows() {
    let network = [nd(INPUT), nd(INPUT), nd(OUTPUT), ed(0, 2), ed(1, 2), exclusive(&[&[0], &[1]], 0, 1)].concat();
    for (sentinel, high) in [(Sentinel::Infinity, INF), (Sentinel::LargestFinite, f64::MAX)] {
        let mut reference = Reference::build(&network, sentinel).unwrap();
        let rows = |coefficients: [f64; 4]| {
            let flows = [(0, -1.0, 2), (0, 1.0, 2), (1, -1.0, 3), (1, 1.0, 3)];
            let row = |((edge, flow, set), x): ((usize, f64, usize), f64)| ((0.0, high), vec![(edge, flow), (set, x)]);
            flows.into_iter().zip(coefficients).map(row).collect::<Vec<_>>()
        };
        assert_eq!(rows_of_varying_exclusive_nodes(&reference), rows([1.0, -1.0, 1.0, -1.0]));
        for limits in [[(2.0, 2e6), (-1.0, 3.0)], [(0.0, 0.0), (1e-9, 1.0)]] {
            let nodes = limits.map(|(lower, upper)| nb(0.0, lower, upper, 0.0)).concat();
            reference.step(&[st(1, 1, 1.0), nodes, nb(0.0, 0.0, INF, 0.0), gb(-INF, INF)].concat()).unwrap();
            let [first, second] = limits;
            assert_eq!(rows_of_varying_exclusive_nodes(&reference), rows([first.1, -first.0, second.1, -second.0]));
        }
    }
}

/// "on a shared row the smallest of that step's coefficients stands": [0, 5] and [1, 3] in either order, and nothing of the step before.
#[test]
fn the_smallest_coefficient_of_a_step() {
    let mut reference = built(&[pair(), exclusive(&[&[0, 1]], 0, 1)]);
    let mut coefficients = |limits: [(f64, f64); 2]| {
        let nodes = limits.map(|(lower, upper)| nb(0.0, lower, upper, 0.0)).concat();
        reference.step(&[st(1, 1, 1.0), nodes, gb(-INF, INF)].concat()).unwrap();
        let rows = rows_of_varying_exclusive_nodes(&reference);
        assert!(rows.iter().all(|(bounds, _)| *bounds == (0.0, INF)));
        rows.into_iter().map(|(_, elements)| elements[1].1).collect::<Vec<f64>>()
    };
    assert_eq!(coefficients([(0.0, 5.0), (1.0, 3.0)]), [3.0, -1.0]);
    assert_eq!(coefficients([(1.0, 3.0), (0.0, 5.0)]), [3.0, -1.0]);
    assert_eq!(coefficients([(-4.0, 90.0), (-2.0, 80.0)]), [80.0, 2.0]);
    // Of equal ones the first.
    for upper in [0.0, -0.0] {
        assert_eq!(coefficients([(-1.0, upper), (-1.0, -upper)])[0].to_bits(), upper.to_bits());
    }
}
