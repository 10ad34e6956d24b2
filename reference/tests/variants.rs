//! The altered and the unaltered Rust, and the Rust's own refusals, on generated networks and on inputs of docs/DIFFERENCES.md.
mod records;

use pywr_core::network::NodeParts;
use pywr_core::node::NodeType;
use pywr_core::solvers::SolverSetupError;
use pywr_reference::columns::{Columns, Path, paths};
use pywr_reference::generate::Case;
use pywr_reference::generate::encode::network_records;
use pywr_reference::makers::{self, MASS};
use pywr_reference::network_file::KINDS;
use pywr_reference::reference::refusal;
use pywr_reference::solver::{Altered, Solver, Unaltered};
use pywr_reference::{NetworkFile, Programme, Reference, Refusal, Sentinel, generate, step_file};
use records::*;
use std::collections::BTreeSet;
use std::iter::successors;
use std::panic::catch_unwind;

const CASES: u64 = 3000;

fn cases() -> impl Iterator<Item = (NetworkFile, Case)> {
    let case = |i| generate::case(2, i);
    (0..CASES).map(case).filter_map(|case| NetworkFile::read(&case.network).ok().map(|file| (file, case)))
}

fn networks() -> impl Iterator<Item = NetworkFile> {
    cases().map(|(file, _)| file)
}

fn columns<S: Solver>(file: &NetworkFile) -> Vec<usize> {
    let network = file.network();
    S::create(&network, f64::INFINITY).unwrap().columns_of_edges(&network)
}

fn has_union(file: &NetworkFile) -> bool {
    columns::<Altered>(file) != columns::<Unaltered>(file)
}

/// Builds without a union: with at most one distinct set both are the same bit for bit; with more, the counts are.
#[test]
fn both_variants_agree() {
    let mut counts = [0; 2];
    for file in networks().filter(|file| file.check().is_ok() && !has_union(file)) {
        let network = file.network();
        for sentinel in [Sentinel::Infinity, Sentinel::LargestFinite] {
            let altered = Altered::create(&network, sentinel.high()).unwrap().programme();
            let unaltered = Unaltered::create(&network, sentinel.high()).unwrap().programme();
            let few = file.distinct_sets() <= 1;
            counts[few as usize] += 1;
            assert!(if few { altered.same_bits(&unaltered) } else { altered.counts() == unaltered.counts() });
        }
    }
    assert!(counts.iter().all(|&n| n > 500), "{counts:?}");
}

/// The links with a mass row.
fn mass_rows<S: Solver>(file: &NetworkFile) -> Vec<u16> {
    let fresh = S::create(&file.network(), f64::INFINITY).unwrap().programme();
    let makers = makers::of(file, &columns::<S>(file), &fresh).unwrap();
    makers.iter().filter(|maker| maker.kind == MASS).map(|maker| maker.index).collect()
}

/// A column of the source lies whole in one. Each union spares a column, and a mass row at least: a ring that closes on several columns has a row more.
#[test]
fn unions_spare_columns_and_mass_rows() {
    let (mut unions, mut rings) = (0, 0);
    for file in networks().filter(|file| file.check().is_ok() && file.distinct_sets() <= 1) {
        let [altered, unaltered] = [columns::<Altered>(&file), columns::<Unaltered>(&file)];
        let count = |columns: &[usize]| columns.iter().collect::<BTreeSet<_>>().len();
        let pairs: BTreeSet<_> = unaltered.iter().zip(&altered).collect();
        assert_eq!(pairs.len(), count(&unaltered));
        let columns_spared = count(&unaltered) - count(&altered);
        let (kept, before) = (mass_rows::<Altered>(&file), mass_rows::<Unaltered>(&file));
        assert!(kept.iter().all(|link| before.contains(link)));
        let rows_spared = before.len() - kept.len();
        assert!(rows_spared >= columns_spared && (rows_spared > 0) == (columns_spared > 0));
        unions += columns_spared;
        rings += rows_spared - columns_spared;
    }
    assert!(unions > 500 && rings > 10, "{unions}, {rings}");
}

/// The places of the edges column by column, each column in flow order.
fn in_flow_order(file: &NetworkFile) -> Vec<usize> {
    let Columns { of_edges, count, mass_rows } = Columns::of(file);
    let is_joint = |node: usize| file.nodes[node].kind == NodeType::Link && !mass_rows.contains(&node);
    let mut order = Vec::new();
    for column in 0..count {
        let edges: Vec<usize> = (0..of_edges.len()).filter(|&e| of_edges[e] == column).collect();
        // A ring has no first edge.
        let first = edges.iter().copied().find(|&e| !is_joint(file.edges[e].0)).unwrap_or(edges[0]);
        let next = |&e: &usize| edges.iter().copied().find(|&below| file.edges[below].0 == file.edges[e].1);
        order.extend(successors(Some(first), next).take(edges.len()));
    }
    order
}

/// Where columns unite, the altered Rust makes what the unaltered one makes of the same edges in flow order, where none do: a programme equal bit for
/// bit, costs too, also of closed rings, which stand there from their lowest edge on.
#[test]
fn unions_make_what_flow_order_makes() {
    let [mut builds, mut steps, mut rings] = [0; 3];
    let is_meant = |file: &NetworkFile| file.check().is_ok() && has_union(file) && file.distinct_sets() <= 1;
    for (file, case) in cases().filter(|(file, _)| is_meant(file)) {
        let order = in_flow_order(&file);
        let flowing = NetworkFile { edges: order.iter().map(|&e| file.edges[e]).collect(), ..file.clone() };
        let (network, flowing_network, high) = (file.network(), flowing.network(), case.sentinel.high());
        let mut altered = Altered::create(&network, high).unwrap();
        let mut unaltered = Unaltered::create(&flowing_network, high).unwrap();
        let columns = altered.columns_of_edges(&network);
        assert_eq!(unaltered.columns_of_edges(&flowing_network), order.iter().map(|&e| columns[e]).collect::<Vec<_>>());
        assert!(altered.programme().same_bits(&unaltered.programme()));
        builds += 1;
        let ring = paths(&file).iter().any(|path| path.closed && path.edges.len() > 2);
        if !file.varying_exclusive_nodes().is_empty() {
            continue;
        }
        for (timestep, state) in case.steps.iter().filter_map(|step| step_file::read(&file, step).ok()) {
            let answers = [altered.step(&network, &timestep, &state), unaltered.step(&flowing_network, &timestep, &state)];
            let [one, other] = answers.map(|answer| answer.map_err(refusal));
            assert_eq!(one, other);
            if one.is_ok() {
                assert!(altered.programme().same_bits(&unaltered.programme()));
                steps += 1;
                rings += ring as usize;
            }
        }
    }
    assert!(builds > 100 && steps > 300 && rings > 50, "{builds}, {steps}, {rings}");
}

/// The altered programme with what the alterations of a step change put back: the costs of columns whose flow order is not their edge order; in the
/// rows of varying exclusive nodes the bounds, and the coefficient, which is the last of the step's in place of the smallest. The second number is how many
/// coefficients were another.
fn put_back(altered: &Programme, unaltered: &Programme, paths: &[Path], high: f64) -> (Programme, usize) {
    let (mut programme, mut others) = (altered.clone(), 0);
    for (k, _) in paths.iter().enumerate().filter(|(_, path)| !path.is_in_edge_order()) {
        programme.columns[k].cost = unaltered.columns[k].cost;
    }
    for (row, other) in programme.rows.iter_mut().zip(&unaltered.rows).filter(|(row, _)| row.varying) {
        let Some(at) = row.elements.iter().position(|e| altered.columns[e.0].integer) else { continue };
        assert_eq!((row.lower, row.upper, other.lower, other.upper), (0.0, high, -high, high));
        assert!(row.elements[at].1 <= other.elements[at].1);
        others += (row.elements[at].1 < other.elements[at].1) as usize;
        (row.lower, row.upper, row.elements[at].1) = (other.lower, other.upper, other.elements[at].1);
    }
    (programme, others)
}

/// Without a union and with at most one distinct set a step makes the same programme bit for bit, but for the rows of varying exclusive nodes and the costs of
/// columns whose flow order is not their edge order; refusals are alike.
#[test]
fn steps_differ_in_costs_and_in_rows_of_varying_exclusive_nodes_alone() {
    let [mut same, mut with_varying_exclusive, mut coefficients, mut costs] = [0; 4];
    let is_meant = |file: &NetworkFile| file.check().is_ok() && file.distinct_sets() <= 1 && !has_union(file);
    for (file, case) in cases().filter(|(file, _)| is_meant(file)) {
        let (network, high) = (file.network(), case.sentinel.high());
        let mut altered = Altered::create(&network, high).unwrap();
        let mut unaltered = Unaltered::create(&network, high).unwrap();
        for (timestep, state) in case.steps.iter().filter_map(|step| step_file::read(&file, step).ok()) {
            let answers = [altered.step(&network, &timestep, &state), unaltered.step(&network, &timestep, &state)];
            let [one, other] = answers.map(|answer| answer.map_err(refusal));
            assert_eq!(one, other);
            if one.is_ok() {
                let (here, there) = (altered.programme(), unaltered.programme());
                let (programme, others) = put_back(&here, &there, &paths(&file), high);
                assert!(programme.same_bits(&there));
                let costs_put = here.clone().with_costs_of(&there);
                let differs = !costs_put.same_bits(&there);
                assert_eq!(differs, !file.varying_exclusive_nodes().is_empty());
                (same, with_varying_exclusive) = (same + !differs as usize, with_varying_exclusive + differs as usize);
                coefficients += others;
                costs += !costs_put.same_bits(&here) as usize;
            }
        }
    }
    assert!(same > 2000 && with_varying_exclusive > 500, "{same}, {with_varying_exclusive}");
    assert!(coefficients > 50 && costs > 50, "{coefficients}, {costs}");
}

/// A row's lower, upper and elements by their bits, so with the signs of zeros.
type Bits = (u64, u64, Vec<(usize, u64)>);

fn bits((lower, upper, elements): (f64, f64, &[(usize, f64)])) -> Bits {
    (lower.to_bits(), upper.to_bits(), elements.iter().map(|&(column, x)| (column, x.to_bits())).collect())
}

/// The rows with an exclusive set's column that vary, after a step that the Rust accepts.
fn rows_after<S: Solver>(network: &[u8], step: &[u8]) -> Vec<Bits> {
    let file = NetworkFile::read(network).unwrap();
    let mut solver = S::create(&file.network(), f64::INFINITY).unwrap();
    let (timestep, state) = step_file::read(&file, step).unwrap();
    solver.step(&file.network(), &timestep, &state).unwrap();
    let programme = solver.programme();
    let of_sets = programme.rows.iter().filter(|row| row.varying && row.elements.iter().any(|e| programme.columns[e.0].integer));
    of_sets.map(|row| bits((row.lower, row.upper, &row.elements))).collect()
}

/// What docs/DIFFERENCES.md has in its rows 23 to 25 under "there" and "here": an upper row and a lower row with the set's column.
#[test]
fn rows_of_varying_exclusive_nodes_in_both_variants() {
    let rows = |lower: f64, coefficients: [f64; 2]| {
        let row = |(flow, x)| bits((lower, f64::INFINITY, &[(0, flow), (1, x)]));
        [-1.0, 1.0].into_iter().zip(coefficients).map(row).collect::<Vec<Bits>>()
    };
    let (there, here) = (|coefficients| rows(f64::NEG_INFINITY, coefficients), |coefficients| rows(0.0, coefficients));
    let step = |nodes: [(f64, f64); 2]| {
        let [first, second] = nodes.map(|(lower, upper)| nb(0.0, lower, upper, 0.0));
        [st(6, 1, 1.0), first, second, gb(0.0, 9.0)].concat()
    };
    let pump = [pair(), exclusive(&[&[0]], 0, 1)].concat();
    // 24: the bounds.
    let limited = step([(1.0, 5.0), (0.0, 1.0)]);
    assert_eq!(rows_after::<Unaltered>(&pump, &limited), there([5.0, -1.0]));
    assert_eq!(rows_after::<Altered>(&pump, &limited), here([5.0, -1.0]));
    // 25: of the coefficients the last, and the smallest.
    let sharing = [pair(), exclusive(&[&[0, 1]], 0, 1)].concat();
    let narrow_then_wide = step([(1.0, 3.0), (0.0, 5.0)]);
    assert_eq!(rows_after::<Unaltered>(&sharing, &narrow_then_wide), there([5.0, -0.0]));
    assert_eq!(rows_after::<Altered>(&sharing, &narrow_then_wide), here([3.0, -1.0]));
    // 23: neither text refuses; the reference does.
    let unlimited = step([(0.0, f64::INFINITY), (0.0, 1.0)]);
    assert_eq!(rows_after::<Unaltered>(&pump, &unlimited), there([f64::INFINITY, -0.0]));
    assert_eq!(rows_after::<Altered>(&pump, &unlimited), here([f64::INFINITY, -0.0]));
    let mut reference = Reference::build(&pump, Sentinel::Infinity).unwrap();
    assert_eq!(reference.step(&unlimited), Err(Refusal::new(21, 0)));
}

/// The counts, the columns of the edges and the links with a mass row.
fn shape<S: Solver>(network: &[u8]) -> (String, Vec<usize>, Vec<u16>) {
    let file = NetworkFile::read(network).unwrap();
    let fresh = S::create(&file.network(), f64::INFINITY).unwrap().programme();
    (fresh.counts(), columns::<S>(&file), mass_rows::<S>(&file))
}

/// Row 26 of docs/DIFFERENCES.md: a storage that gives to itself over two links is the smallest network whose columns unite. Then the shortest chain
/// from an input to an output, and document 01's first.
#[test]
fn columns_unite_in_one_variant() {
    let ring = [nd(STORAGE), nd(LINK), nd(LINK), ed(0, 1), ed(2, 0), ed(1, 2)].concat();
    assert_eq!(shape::<Unaltered>(&ring), ("P 2 3 2 5".into(), vec![0, 1, 1], vec![1]));
    assert_eq!(shape::<Altered>(&ring), ("P 1 2 2 2".into(), vec![0, 0, 0], vec![]));
    let short = [nd(INPUT), nd(LINK), nd(LINK), nd(OUTPUT), ed(0, 1), ed(2, 3), ed(1, 2)].concat();
    assert_eq!(shape::<Unaltered>(&short), ("P 2 3 2 4".into(), vec![0, 1, 1], vec![1]));
    assert_eq!(shape::<Altered>(&short), ("P 1 1 1 1".into(), vec![0, 0, 0], vec![]));
    let nodes = [nd(INPUT), nd(LINK), nd(LINK), nd(LINK), nd(OUTPUT)].concat();
    let first = [nodes, ed(1, 2), ed(3, 4), ed(2, 3), ed(0, 1)].concat();
    assert_eq!(shape::<Unaltered>(&first), ("P 2 3 2 4".into(), vec![0, 1, 1, 0], vec![2]));
    assert_eq!(shape::<Altered>(&first), ("P 1 1 1 1".into(), vec![0, 0, 0, 0], vec![]));
}

/// The bits of the costs after a step with these costs of nodes.
fn costs_after<S: Solver>(network: &[u8], costs: &[f64]) -> Vec<u64> {
    let file = NetworkFile::read(network).unwrap();
    let mut solver = S::create(&file.network(), f64::INFINITY).unwrap();
    let step = costs.iter().fold(st(6, 1, 1.0), |step, &cost| [step, nb(cost, 0.0, 0.0, 0.0)].concat());
    let (timestep, state) = step_file::read(&file, &step).unwrap();
    solver.step(&file.network(), &timestep, &state).unwrap();
    solver.programme().columns.iter().map(|column| column.cost.to_bits()).collect()
}

/// Row 27 of docs/DIFFERENCES.md: a storage that gives to itself over two links, with the edge out of it keyed last; edge costs downstream 2^-53, 1/2 and
/// 2^-53, 1/2. Then the shortest chain from an input to an output that does so.
#[test]
fn costs_add_downstream_in_one_variant() {
    let small = 1.0 / (1_u64 << 52) as f64;
    let [one, more] = [1_f64.to_bits(), 1_f64.next_up().to_bits()];
    let ring = [nd(STORAGE), nd(LINK), nd(LINK), ed(1, 2), ed(2, 0), ed(0, 1)].concat();
    assert_eq!(costs_after::<Unaltered>(&ring, &[0.0, small, 1.0]), [one]);
    assert_eq!(costs_after::<Altered>(&ring, &[0.0, small, 1.0]), [more]);
    let chain = [nd(INPUT), nd(LINK), nd(LINK), nd(OUTPUT), ed(1, 2), ed(2, 3), ed(0, 1)].concat();
    assert_eq!(costs_after::<Unaltered>(&chain, &[0.0, small, 1.0, 0.0]), [one]);
    assert_eq!(costs_after::<Altered>(&chain, &[0.0, small, 1.0, 0.0]), [more]);
}

/// The networks of so many nodes and edges, in each order of the edges, that are read, pass 7 to 10 and have no union.
fn all_networks(nodes: usize, edges: usize) -> Vec<NetworkFile> {
    let ends = (0..nodes * nodes).map(|k| (k / nodes, k % nodes)).filter(|(from, to)| from != to);
    let ends: Vec<(usize, usize)> = ends.collect();
    let mut all = Vec::new();
    for kinds in 0..KINDS.len().pow(nodes as u32) {
        let kind = |node: usize| KINDS[kinds / KINDS.len().pow(node as u32) % KINDS.len()];
        let nodes: Vec<_> = (0..nodes).map(|node| NodeParts { kind: kind(node), constant: None }).collect();
        for order in 0..ends.len().pow(edges as u32) {
            let edge = |at: usize| ends[order / ends.len().pow(at as u32) % ends.len()];
            all.push(NetworkFile { nodes: nodes.clone(), edges: (0..edges).map(edge).collect(), ..NetworkFile::default() });
        }
    }
    // Refusals 5 and 20, then the others.
    let is_read = |file: &NetworkFile| NetworkFile::read(&network_records(file).concat()).is_ok();
    all.retain(|file| is_read(file) && file.check().is_ok() && !has_union(file));
    all
}

/// No network with fewer nodes or fewer edges than row 27's has such a step: with each of these costs at each node. With as many, some do.
#[test]
fn no_smaller_network_tells_the_orders_apart() {
    let costs = [0.0, 1.0, 1.0 / (1_u64 << 52) as f64, -1.0];
    let differs = |file: &NetworkFile, k: usize| {
        let drawn: Vec<f64> = (0..file.nodes.len()).map(|n| costs[k / costs.len().pow(n as u32) % costs.len()]).collect();
        let network = network_records(file).concat();
        costs_after::<Altered>(&network, &drawn) != costs_after::<Unaltered>(&network, &drawn)
    };
    for (nodes, edges, due) in [(2, 1, false), (2, 2, false), (3, 1, false), (3, 2, false), (3, 3, true)] {
        let networks = all_networks(nodes, edges);
        let found = networks.iter().any(|file| (0..costs.len().pow(nodes as u32)).any(|k| differs(file, k)));
        assert!(found == due && !networks.is_empty(), "{nodes} nodes, {edges} edges");
    }
}

/// 7 and 9 are errors of the Rust, 8 and 10 panics; what passes them builds.
#[test]
fn the_rust_refuses_alike() {
    let mut reached = [0; 11];
    for file in networks() {
        let expected = file.check().err();
        let network = file.network();
        let answer = catch_unwind(|| Altered::create(&network, f64::INFINITY).map(|_| ()));
        let found = match answer {
            Ok(Ok(())) => None,
            Ok(Err(SolverSetupError::NoEdgesDefined)) => Some((7, 0)),
            Ok(Err(SolverSetupError::NodeBoundsInfeasible { name, .. })) => Some((9, name.parse().unwrap())),
            Ok(Err(other)) => panic!("{other}"),
            Err(panic) => {
                Some(panicked(panic.downcast::<String>().map_or_else(|p| p.downcast_ref::<&str>().unwrap().to_string(), |s| *s)))
            }
        };
        match (expected, found) {
            (Some(refusal), Some((10, _))) => assert_eq!(refusal.number, 10),
            (expected, found) => assert_eq!(expected.map(|r| (r.number, r.place)), found),
        }
        reached[expected.map_or(0, |r| r.number as usize)] += 1;
    }
    assert!(reached[7..].iter().all(|&n| n > 5), "{reached:?}");
}

/// The panic of 8 names its node: `Node ("3", None) contains ..`; that of 10 does not.
fn panicked(message: String) -> (u8, usize) {
    match message.split('"').nth(1) {
        Some(name) => (8, name.parse().unwrap()),
        None => {
            assert_eq!(message, "Row factor is non-finite.");
            (10, 0)
        }
    }
}
