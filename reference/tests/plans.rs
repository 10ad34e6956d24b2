//! Plans correspond on generated networks where the premise on factors holds, and faults of a programme are found by the same plans; beyond it the two
//! sides can differ. Rows of virtual storages are exact sums within it.
mod records;
mod sides;

use pywr_reference::correspondence::{self, FittedCase, Tried, has_fractions, parts_by_column, try_generated};
use pywr_reference::exact::Whole;
use pywr_reference::generate::plans::pushed;
use pywr_reference::makers::{AGGREGATE, EXCLUSIVITY, MASS, NODE, VIRTUAL_STORAGE};
use pywr_reference::plans::{Plan, is_in_1024ths};
use pywr_reference::programme::Row;
use pywr_reference::solver::{Solver, Unaltered};
use pywr_reference::{Maker, NetworkFile, Programme, Reference, Sentinel};
use records::*;
use sides::answers;
use std::collections::BTreeMap;

/// Cases as generated. Only few of the plans that are tried are allowed.
#[test]
fn generated_cases_correspond() {
    let mut tried = Tried::default();
    for index in 0..3000 {
        try_generated(14, index, &mut tried).unwrap_or_else(|e| panic!("{e}"));
    }
    assert!(tried.networks > 1100 && tried.with_fractions > 400 && tried.with_several_parts > 340, "{tried}");
    assert!(tried.with_varying_exclusive > 680 && tried.with_unions > 140, "{tried}");
    assert!(tried.programmes > 4200 && tried.plans > 85_000 && tried.allowed > 350, "{tried}");
    assert!(tried.forbidden_by_one.least() > 10, "{tried}");
}

/// Cases made to fit a plan. About a seventh of the plans are allowed, and many are on a virtual storage's bound.
#[test]
fn fitted_cases_correspond() {
    let mut tried = Tried::default();
    for case in (0..5000).filter_map(|index| FittedCase::new(15, index)) {
        case.try_plans(&mut tried).unwrap_or_else(|e| panic!("{e}"));
    }
    assert!(tried.networks > 2900 && tried.with_fractions > 1550 && tried.with_several_parts > 1200, "{tried}");
    assert!(tried.with_varying_exclusive > 1700 && tried.with_unions > 400, "{tried}");
    assert!(tried.fitted == tried.networks && tried.fitted_allowed > 2700, "{tried}");
    assert!(tried.plans > 70_000 && tried.allowed > 10_000 && tried.forbidden() > 60_000, "{tried}");
    assert!(tried.forbidden_by_one.least() > 400, "{tried}");
    assert!(tried.on_an_exclusive_bound.least() > 340 && tried.a_unit_beyond.least() > 45 && tried.off.least() > 370, "{tried}");
    assert!(tried.on_a_bound.least() > 700 && tried.a_unit_beside.least() > 300 && tried.one_beside.least() > 270, "{tried}");
}

/// The rows of a kind of makers.
fn rows_of(programme: &mut Programme, kind: u16) -> impl Iterator<Item = &mut Row> {
    programme.rows.iter_mut().zip(&programme.makers).filter(move |(_, maker)| maker.kind == kind).map(|(row, _)| row)
}

fn integer_columns(programme: &Programme) -> Vec<bool> {
    programme.columns.iter().map(|column| column.integer).collect()
}

fn free(programme: &mut Programme, kind: u16) {
    rows_of(programme, kind).for_each(|row| (row.lower, row.upper) = (f64::NEG_INFINITY, f64::INFINITY));
}

fn change_factors(programme: &mut Programme, change: fn(f64) -> f64) {
    rows_of(programme, VIRTUAL_STORAGE).flat_map(|row| &mut row.elements).for_each(|(_, element)| *element = change(*element));
}

/// A fault's name, and what it does to a network's programme and to the columns of its edges.
type Fault = (String, Box<dyn Fn(&NetworkFile, &mut Programme, &mut [usize])>);

fn fault(name: &str, change: impl Fn(&mut Programme) + 'static) -> Fault {
    (name.into(), Box::new(move |_, programme, _| change(programme)))
}

/// The columns of the source that a union moves stay apart from the one with the lowest edge, and no row has them.
fn leave_behind(file: &NetworkFile, programme: &mut Programme, columns_of_edges: &mut [usize]) {
    let network = file.network();
    let there = Unaltered::create(&network, f64::INFINITY).unwrap().columns_of_edges(&network);
    let (mut first, mut apart) = (BTreeMap::new(), BTreeMap::new());
    for (column, there) in columns_of_edges.iter_mut().zip(there) {
        if *first.entry(*column).or_insert(there) != there {
            *column = *apart.entry(there).or_insert_with(|| {
                programme.columns.push(programme.columns[*column]);
                programme.columns.len() - 1
            });
        }
    }
}

/// A change of a row and its name.
type Change = (&'static str, fn(&mut Row));

/// Of the rows of one kind, but those of exclusive nodes, one bound is the next double up or down.
fn faults_of_bounds() -> Vec<Fault> {
    let kinds = [("virtual storages", VIRTUAL_STORAGE), ("aggregates", AGGREGATE), ("nodes", NODE)];
    let changes: [Change; 4] = [
        ("lower bounds one double up", |row| row.lower = row.lower.next_up()),
        ("lower bounds one double down", |row| row.lower = row.lower.next_down()),
        ("upper bounds one double up", |row| row.upper = row.upper.next_up()),
        ("upper bounds one double down", |row| row.upper = row.upper.next_down()),
    ];
    let of = |(kind_name, kind), (name, change): Change| {
        fault(&format!("{kind_name}: {name}"), move |p| {
            let integer = integer_columns(p);
            rows_of(p, kind).filter(|row| !row.elements.iter().any(|e| integer[e.0])).for_each(change);
        })
    };
    kinds.into_iter().flat_map(|kind| changes.map(|change| of(kind, change))).collect()
}

/// Changes what node rows have on a set's column.
fn change_coefficients(programme: &mut Programme, is_meant: fn(&Row, &Maker) -> bool, change: fn(f64) -> f64) {
    let integer = integer_columns(programme);
    let rows = programme.rows.iter_mut().zip(&programme.makers).filter(|(row, maker)| maker.kind == NODE && is_meant(row, maker));
    let coefficients = rows.flat_map(|(row, _)| &mut row.elements).filter(|(column, _)| integer[*column]);
    coefficients.for_each(|(_, coefficient)| *coefficient = change(*coefficient));
}

/// Frees the rows of varying exclusive nodes that have the flow with a sign: the upper rows have it with minus, but of a storage that gives.
fn free_varying_exclusive(programme: &mut Programme, sign: f64) {
    let integer = integer_columns(programme);
    let is_meant = |row: &&mut Row| {
        let has_set = row.elements.iter().any(|e| integer[e.0]);
        row.varying && has_set && row.elements.iter().all(|e| integer[e.0] || e.1 * sign > 0.0)
    };
    rows_of(programme, NODE).filter(is_meant).for_each(|row| (row.lower, row.upper) = (f64::NEG_INFINITY, f64::INFINITY));
}

/// Of rows with a varying exclusive node: bounds as the Rust without the alteration leaves them, and coefficients of another size than the step's.
fn faults_of_varying_exclusive_nodes() -> Vec<Fault> {
    let own = |row: &Row, maker: &Maker| row.varying && maker.shared_by == 1;
    let shared = |row: &Row, maker: &Maker| row.varying && maker.shared_by > 1;
    vec![
        fault("no rows with minus the flow", |p| free_varying_exclusive(p, -1.0)),
        fault("no rows with the flow", |p| free_varying_exclusive(p, 1.0)),
        fault("own coefficients one double up", move |p| change_coefficients(p, own, f64::next_up)),
        fault("own coefficients one double down", move |p| change_coefficients(p, own, f64::next_down)),
        fault("shared coefficients one double up", move |p| change_coefficients(p, shared, f64::next_up)),
        fault("shared coefficients one double down", move |p| change_coefficients(p, shared, f64::next_down)),
        fault("own coefficients as built", move |p| change_coefficients(p, own, f64::signum)),
        fault("shared coefficients as built", move |p| change_coefficients(p, shared, f64::signum)),
    ]
}

/// Each by the plans of the first 600 fitted cases.
#[test]
fn faults_of_a_programme_are_found() {
    let mut faults = vec![
        fault("no balances", |p| free(p, MASS)),
        fault("no nodes", |p| free(p, NODE)),
        fault("no aggregates", |p| free(p, AGGREGATE)),
        fault("no virtual storages", |p| free(p, VIRTUAL_STORAGE)),
        fault("no exclusivity", |p| free(p, EXCLUSIVITY)),
        fault("limits of constant exclusive nodes doubled", |p| change_coefficients(p, |row, _| !row.varying, |x| x * 2.0)),
        fault("limits of exclusive nodes halved", |p| change_coefficients(p, |_, _| true, |x| x / 2.0)),
        fault("factors one double up", |p| change_factors(p, f64::next_up)),
        fault("factors rounded", |p| change_factors(p, f64::round)),
        fault("columns at most 10", |p| p.columns.iter_mut().for_each(|column| column.upper = column.upper.min(10.0))),
        ("columns that a union moves left behind".into(), Box::new(leave_behind)),
    ];
    faults.extend(faults_of_bounds());
    faults.extend(faults_of_varying_exclusive_nodes());
    let cases: Vec<FittedCase> = (0..).filter_map(|index| FittedCase::new(15, index)).take(600).collect();
    for (name, fault) in faults {
        let found = cases.iter().filter(|case| case.finds(&fault)).count();
        assert!(found > 24, "{name}: {found}");
    }
}

/// Whether the network allows and the programme admits an amount from an input to an output, whose virtual storage has the input with each factor.
fn answers_to(factors: &[f64], volume: f64, amount: f64) -> (bool, bool) {
    let parts: Vec<(u16, f64)> = factors.iter().map(|&factor| (0, factor)).collect();
    let free = nb(0.0, 0.0, f64::INFINITY, 0.0);
    let (network, step) = ([pair(), vs(None, &parts)], [st(6, 1, 1.0), free.clone(), free, vb(0.0, 1e12, volume)]);
    answers(&network.concat(), Sentinel::Infinity, &step.concat(), &Plan::of_doubles(&[amount], &[]))
}

/// With these factors the elements of the Rust's row are rounded sums.
#[test]
fn sides_can_differ_beyond_the_premise_on_factors() {
    assert_eq!(answers_to(&[0.1, 0.2, 0.3], 3.6, 6.0), (true, false));
    assert_eq!(answers_to(&[0.3, 0.2, 0.1], 0.6, 1.0), (false, true));
    assert_eq!(answers_to(&[1e12 - 1.0 / 1024.0; 13], 812_500_000_000.0 - 3.0 / 4096.0, 1.0 / 16.0), (true, false));
}

#[test]
fn sides_agree_at_the_ends_of_the_premise() {
    assert_eq!(answers_to(&[0.75, 0.25, 0.5], 9.0, 6.0), (true, true));
    assert_eq!(answers_to(&[0.75, 0.25, 0.5], 9.0, 6.0_f64.next_up()), (false, false));
    let (factors, volume) = ([1e6 - 1.0 / 1024.0; 64], 64e6 - 1.0 / 16.0);
    assert_eq!(answers_to(&factors, volume, 1.0), (true, true));
    assert_eq!(answers_to(&factors, volume.next_down(), 1.0), (false, false));
    assert_eq!(answers_to(&[1e6, -1e6, 1.0 / 1024.0], 1.0 / 1024.0, 1.0), (true, true));
    assert_eq!(answers_to(&[1e6, -1e6, 1.0 / 1024.0], (1.0_f64 / 1024.0).next_down(), 1.0), (false, false));
}

/// A returned litre counts as three quarters: amounts taken, returned and kept.
#[test]
fn the_worked_licence() {
    let example = |name: &str| std::fs::read(format!("{}/../examples/{name}", env!("CARGO_MANIFEST_DIR"))).unwrap();
    let (network, step) = (example("returns.network"), example("returns.step"));
    let sides = |plan: &Plan| answers(&network, Sentinel::Infinity, &step, plan);
    let on_the_bound = Plan::of_doubles(&[100.0, 80.0, 20.0], &[]);
    assert_eq!(sides(&on_the_bound), (true, true));
    assert_eq!(sides(&Plan::of_doubles(&[100.0, 79.0, 21.0], &[])), (false, false));
    assert_eq!(sides(&Plan::of_doubles(&[100.0, 81.0, 19.0], &[])), (true, true));
    assert_eq!(sides(&pushed(&on_the_bound, &[0, 2], &Whole::from(1)).unwrap()), (false, false));
}

/// How many rows of virtual storages were looked at.
#[derive(Debug, Default)]
struct Looked {
    /// Within the premise on factors: a row that several virtual storages share is counted for each.
    exact: usize,
    with_fractions: usize,
    with_several_parts: usize,
    /// Beyond it, of virtual storages that have made a row; those with an element that is rounded.
    beyond: usize,
    rounded: usize,
}

/// A row in whole numbers of 1/1024; none if an element is no such number.
fn in_1024ths(row: &Row) -> Option<Vec<(usize, i128)>> {
    let whole = |&(column, x): &(usize, f64)| ((x * 1024.0).fract() == 0.0).then_some((column, (x * 1024.0) as i128));
    row.elements.iter().map(whole).collect()
}

/// Whether each element is the exact sum of its parts.
fn is_exact(row: &Row, parts: &[&Vec<f64>]) -> bool {
    let sum = |parts: &[f64]| parts.iter().map(|&part| Whole::of_double(part)).sum::<Whole>();
    row.elements.iter().zip(parts).all(|(element, parts)| Whole::of_double(element.1) == sum(parts))
}

/// The row of a virtual storage is the one that it made, or another varying row where another made it.
fn look_at(file: &NetworkFile, reference: &Reference, v: usize, looked: &mut Looked) {
    let (storage, programme) = (&file.virtual_storages[v], reference.programme());
    let parts = parts_by_column(file, &reference.columns_of_edges(), storage);
    let is_its = |maker: &Maker| maker.kind == VIRTUAL_STORAGE && maker.index as usize == v;
    let made = programme.makers.iter().position(is_its).map(|at| &programme.rows[at]);
    if storage.nodes.iter().all(|part| is_in_1024ths(part.1)) {
        let sum = |parts: &[f64]| parts.iter().map(|part| (part * 1024.0) as i128).sum::<i128>();
        let sums: Vec<(usize, i128)> = parts.iter().map(|(&column, parts)| (column, sum(parts))).collect();
        let is_sum = |row: &Row| in_1024ths(row).is_some_and(|row| row == sums);
        let among_varying = || programme.rows.iter().any(|row| row.varying && is_sum(row));
        assert!(made.map_or_else(among_varying, is_sum), "virtual storage {v}: {sums:?}");
        looked.exact += 1;
        looked.with_fractions += has_fractions(storage) as usize;
        looked.with_several_parts += parts.values().any(|parts| parts.len() > 1) as usize;
    } else if let Some(row) = made {
        looked.beyond += 1;
        looked.rounded += !is_exact(row, &parts.values().collect::<Vec<_>>()) as usize;
    }
}

#[test]
fn rows_of_virtual_storages_are_exact_sums() {
    let mut looked = Looked::default();
    for index in 0..8000 {
        let Some(case) = correspondence::case(16, index) else { continue };
        let Ok(reference) = Reference::build(&case.network, Sentinel::Infinity) else { continue };
        let file = NetworkFile::read(&case.network).unwrap();
        (0..file.virtual_storages.len()).for_each(|v| look_at(&file, &reference, v, &mut looked));
    }
    assert!(looked.exact > 4300 && looked.with_fractions > 2000 && looked.with_several_parts > 1800, "{looked:?}");
    assert!(looked.beyond > 1500 && looked.rounded > 560, "{looked:?}");
}
