//! The generator: the same cases from the same seed, files that are read back, every refusal and both sides of each ceiling reached; columns that unite;
//! rings, loops and costs that tell in which order they were added; varying exclusive nodes, their bounds at the sentinels, and 21 beside 14.
use pywr_core::node::NodeType;
use pywr_core::state::State;
use pywr_reference::columns::{Columns, Path};
use pywr_reference::comparison::{ByPaths, ByUnions, Tally, compare};
use pywr_reference::flow_costs::{CostCounts, Costs};
use pywr_reference::generate::Case;
use pywr_reference::generate::encode::network_records;
use pywr_reference::makers::have_equal_rows;
use pywr_reference::solver::{Solver, Unaltered};
use pywr_reference::{NetworkFile, OF_A_NETWORK, Reference, Refusal, Sentinel, case_file, generate, step_file};
use std::collections::BTreeSet;

#[test]
fn a_seed_gives_its_cases() {
    for i in 0..300 {
        assert_eq!(generate::case(5, i), generate::case(5, i));
    }
    assert_ne!(generate::case(5, 1), generate::case(6, 1));
}

#[test]
fn files_are_read_back() {
    for i in 0..500 {
        let case = generate::case(7, i);
        if let Ok(network) = NetworkFile::read(&case.network) {
            assert_eq!(network_records(&network).concat(), case.network);
        }
        let read = case_file::read(&case_file::write(&case, "a comment")).unwrap();
        assert_eq!((read.network, read.sentinel, read.steps), (case.network, case.sentinel, case.steps));
    }
}

#[test]
fn refusals_and_ceilings_are_reached() {
    let mut tally = Tally::default();
    let mut most = [0; 3];
    for i in 0..6000 {
        let case = generate::case(3, i);
        compare(&case, &mut None, &mut tally).unwrap();
        if case.kind == "ceiling"
            && let Ok(built) = Reference::build(&case.network, case.sentinel)
        {
            let programme = built.programme();
            most = [most[0].max(programme.sets()), most[1].max(programme.rows.len()), most[2].max(programme.elements())];
        }
    }
    assert_eq!(most, [128, 1024, 4096]);
    for number in OF_A_NETWORK {
        assert!(tally.builds.of(number) >= 10, "{}", tally.builds.text());
    }
    for number in [0, 12, 13, 14, 21] {
        assert!(tally.steps.of(number) >= 10, "{}", tally.steps.text());
    }
    assert!(tally.steps.of(21) > 400, "{}", tally.steps.text());
    assert!(tally.in_both.builds > 1300 && tally.in_both.steps > 4000, "{:?}", tally.in_both);
    let ByUnions { with, without, under_by_unions } = tally.by_unions;
    assert!(with > 500 && without > 3200 && under_by_unions > 8, "{:?}", tally.by_unions);
    assert!(tally.in_both.costs > 9000 && tally.in_both.costs_unlike > 200, "{:?}", tally.in_both);
    let ByPaths { closed, keyed_otherwise } = tally.by_paths;
    assert!(closed > 200 && keyed_otherwise > 1500, "{:?}", tally.by_paths);
    let CostCounts { steps, whole, small, steps_unlike, columns_unlike } = tally.costs;
    assert!(steps[1] > 5000 && whole[1] > 1000 && small[1] > 1500, "{:?}", tally.costs);
    assert!(steps_unlike > 800 && columns_unlike > 1200, "{:?}", tally.costs);
}

/// Accepted networks of 1,500 cases. README has the counts that the tests find in them.
fn accepted() -> impl Iterator<Item = (NetworkFile, Case, Reference)> {
    (0..1500).map(|i| generate::case(8, i)).filter_map(|case| {
        let reference = Reference::build(&case.network, case.sentinel).ok()?;
        Some((NetworkFile::read(&case.network).unwrap(), case, reference))
    })
}

/// Networks with a union; with several; with three of the source's columns or more under one number; with a ring of such; with a later number that closes
/// up; with an exclusive set, whose column does.
#[test]
fn unions_are_reached() {
    let mut counts = [0; 6];
    for (file, _, reference) in accepted() {
        let (network, unions) = (file.network(), reference.unions().count);
        let Columns { of_edges, count, mass_rows } = Columns::of(&file);
        let mut before = vec![BTreeSet::new(); count];
        let unaltered = Unaltered::create(&network, f64::INFINITY).unwrap().columns_of_edges(&network);
        of_edges.iter().zip(unaltered).for_each(|(&column, there)| _ = before[column].insert(there));
        let is_joint = |node: usize| file.nodes[node].kind == NodeType::Link && !mass_rows.contains(&node);
        let is_ring = |column| file.edges.iter().zip(&of_edges).all(|(edge, &c)| c != column || is_joint(edge.0));
        let found = [
            unions > 0,
            unions > 1,
            before.iter().any(|there| there.len() > 2),
            (0..count).any(|column| before[column].len() > 1 && is_ring(column)),
            (0..count).any(|column| before[column].len() == 1 && !before[column].contains(&column)),
            unions > 0 && file.distinct_sets() > 0,
        ];
        counts.iter_mut().zip(found).for_each(|(count, found)| *count += found as usize);
    }
    assert_eq!(counts, [121, 82, 62, 16, 90, 57]);
}

/// Networks with a column of three edges or more that is not keyed in flow order; with such a closed ring; with such a loop, which comes back to a storage;
/// with such a one to a link with other edges.
#[test]
fn columns_keyed_in_another_order_are_reached() {
    let mut counts = [0; 4];
    for (file, _, reference) in accepted() {
        let long = reference.paths().iter().filter(|path| path.edges.len() > 2 && !path.is_in_edge_order());
        let ends = |path: &Path| [file.edges[path.edges[0]].0, file.edges[*path.edges.last().unwrap()].1];
        let comes_back_to = |path: &Path, kind: NodeType| {
            let [first, last] = ends(path);
            !path.closed && first == last && file.nodes[first].kind == kind
        };
        let has = |is: &dyn Fn(&Path) -> bool| long.clone().any(is);
        let found = [
            has(&|_| true),
            has(&|path| path.closed),
            has(&|path| comes_back_to(path, NodeType::Storage)),
            has(&|path| comes_back_to(path, NodeType::Link)),
        ];
        counts.iter_mut().zip(found).for_each(|(count, found)| *count += found as usize);
    }
    assert_eq!(counts, [189, 31, 30, 25]);
}

/// A column's edges in three other orders: by number, upstream, and a closed ring from its second edge on.
fn other_orders(path: &Path) -> [Vec<usize>; 3] {
    let mut orders = [(); 3].map(|()| path.edges.clone());
    orders[0].sort();
    orders[1].reverse();
    orders[2].rotate_left(path.closed as usize);
    orders
}

/// Steps in which a column's cost has another bit in each of these orders: of all accepted ones, of those with no cost over 1,000, and of those with every
/// cost whole, in which none has.
#[test]
fn costs_that_tell_the_order_are_reached() {
    let mut counts = [[0; 3]; 3];
    for (file, case, mut reference) in accepted() {
        for step in &case.steps {
            if reference.step(step).is_err() {
                continue;
            }
            let (_, state) = step_file::read(&file, step).unwrap();
            let costs = Costs { file: &file, state: &state };
            let mut found = [false; 3];
            for path in reference.paths() {
                let cost = costs.in_flow_order(path).to_bits();
                found.iter_mut().zip(other_orders(path)).for_each(|(found, order)| *found |= costs.sum(&order).to_bits() != cost);
            }
            let premises = [true, costs.none_over(), costs.all_whole()];
            for (counts, _) in counts.iter_mut().zip(premises).filter(|(_, holds)| *holds) {
                counts.iter_mut().zip(found).for_each(|(count, found)| *count += found as usize);
            }
        }
    }
    assert_eq!(counts, [[257, 412, 29], [115, 186, 10], [0; 3]]);
}

/// Networks with a varying exclusive node; a storage among them; one twice in a set; one in two sets; two of a set with equal rows.
#[test]
fn varying_exclusive_nodes_are_reached() {
    let mut counts = [0; 5];
    for (file, _, reference) in accepted() {
        let nodes = file.varying_exclusive_nodes();
        let columns = reference.columns_of_edges();
        let exclusive = file.aggregates.iter().filter(|a| a.exclusive.is_some());
        let sets: BTreeSet<&Vec<usize>> = exclusive.flat_map(|a| &a.sets).collect();
        let listings = |set: &Vec<usize>, node: usize| set.iter().filter(|&&n| n == node).count();
        let share = |set: &Vec<usize>, one: usize, other: usize| {
            set.contains(&one) && set.contains(&other) && have_equal_rows(&file, &columns, one, other)
        };
        let pairs =
            || nodes.iter().flat_map(|&one| nodes.iter().map(move |&other| (one, other))).filter(|(one, other)| one < other);
        let found = [
            !nodes.is_empty(),
            nodes.iter().any(|&n| file.nodes[n].kind == NodeType::Storage),
            nodes.iter().any(|&n| sets.iter().any(|set| listings(set, n) > 1)),
            nodes.iter().any(|&n| sets.iter().filter(|set| set.contains(&n)).count() > 1),
            sets.iter().any(|set| pairs().any(|(one, other)| share(set, one, other))),
        ];
        counts.iter_mut().zip(found).for_each(|(count, found)| *count += found as usize);
    }
    assert_eq!(counts, [571, 331, 288, 325, 190]);
}

/// Of bounds of varying exclusive nodes: under 0, and at each sentinel and next to it, of either sign.
#[test]
fn bounds_of_varying_exclusive_nodes_are_reached() {
    let next = f64::MAX.next_down();
    let watched = [f64::INFINITY, f64::MAX, next, f64::NEG_INFINITY, f64::MIN, -next];
    let (mut negative, mut counts) = (0, [[0; 6]; 2]);
    for (file, case, _) in accepted() {
        for (_, state) in case.steps.iter().filter_map(|step| step_file::read(&file, step).ok()) {
            for n in file.varying_exclusive_nodes().into_iter().filter(|&n| file.nodes[n].kind != NodeType::Storage) {
                let bounds = [state.nodes[n].min, state.nodes[n].max];
                negative += (bounds[1] < 0.0) as usize;
                let counts = &mut counts[(case.sentinel == Sentinel::LargestFinite) as usize];
                counts.iter_mut().zip(watched).for_each(|(count, x)| *count += bounds.contains(&x) as usize);
            }
        }
    }
    assert!(negative > 250 && counts.iter().flatten().all(|&count| count > 20), "{negative}, {counts:?}");
}

/// By node, from the file's numbers: is the lower over the upper; is the node varying exclusive, with a bound at or beyond a sentinel?
fn slips(file: &NetworkFile, high: f64, days: f64, state: &State) -> Vec<[bool; 2]> {
    let slips_of = |n: usize| {
        let (node, numbers) = (&file.nodes[n], &state.nodes[n]);
        let (lower, upper) = match node.kind {
            _ if node.constant.is_some() => return [false; 2],
            NodeType::Storage => (-(numbers.volume - numbers.min) / days, (numbers.max - numbers.volume) / days),
            _ => (numbers.min, numbers.max),
        };
        let at_sentinel = lower <= -high || lower >= high || upper <= -high || upper >= high;
        [lower > upper, file.is_exclusive(n) && at_sentinel]
    };
    (0..file.nodes.len()).map(slips_of).collect()
}

/// Every step that is read is answered by one pass over the nodes, of each 14 and then 21. Counted: 21 without 14; a node with 14 before the first with 21,
/// that node itself, and one behind it.
#[test]
fn both_refusals_of_a_nodes_bounds_meet() {
    let mut counts = [0; 4];
    for (file, case, mut reference) in accepted() {
        for step in &case.steps {
            let answer = reference.step(step);
            let Ok((timestep, state)) = step_file::read(&file, step) else { continue };
            let slips = slips(&file, case.sentinel.high(), timestep.days(), &state);
            let due = slips.iter().enumerate().find_map(|(n, slips)| match slips {
                [true, _] => Some(Refusal::new(14, n)),
                [_, true] => Some(Refusal::new(21, n)),
                _ => None,
            });
            assert_eq!(answer.err(), due);
            let first = |slip: usize| slips.iter().position(|slips| slips[slip]);
            if let Some(node) = first(1) {
                let at = match first(0) {
                    None => 0,
                    Some(crossed) if crossed < node => 1,
                    Some(crossed) if crossed == node => 2,
                    Some(_) => 3,
                };
                counts[at] += 1;
            }
        }
    }
    assert_eq!(counts, [142, 20, 26, 21]);
}
