//! Who made each row: the hand-made situations, each listing's three last fields, and the walk beside rows that do not fit.
mod records;

use pywr_reference::makers::{self, AGGREGATE, EXCLUSIVITY, MASS, NODE, VIRTUAL_STORAGE};
use pywr_reference::{Maker, NetworkFile, Reference, Sentinel, generate, listing, naming};
use records::*;

fn built(records: &[Vec<u8>]) -> Reference {
    Reference::build(&records.concat(), Sentinel::Infinity).unwrap_or_else(|r| panic!("refused: {r}"))
}

/// Kind, index and count of each row.
fn makers_of(records: &[Vec<u8>]) -> Vec<(u16, u16, u16)> {
    built(records).programme().makers.iter().map(|m| (m.kind, m.index, m.shared_by)).collect()
}

#[test]
fn the_worked_example() {
    assert_eq!(makers_of(&[nd(INPUT), constant(OUTPUT, 0.0, 48.5), ed(0, 1)]), [(NODE, 0, 1), (NODE, 1, 1)]);
}

#[test]
fn a_row_shared_by_an_input_a_link_and_a_plain_aggregate() {
    let line = [nd(INPUT), nd(LINK), constant(OUTPUT, 0.0, 1.0), ed(0, 1), ed(1, 2)].concat();
    // The link has one column, so no mass row.
    assert_eq!(makers_of(&[line.clone(), plain(&[&[0]])]), [(NODE, 0, 3), (NODE, 2, 1)]);
    assert_eq!(makers_of(&[line, plain(&[&[0], &[1]])]), [(NODE, 0, 2), (AGGREGATE, 0, 1), (NODE, 2, 1)]);
}

#[test]
fn a_node_twice_in_a_set_asks_twice() {
    let network = [nd(INPUT), constant(OUTPUT, 0.0, 1.0), ed(0, 1), exclusive(&[&[0, 0]], 0, 1)];
    let due = [(NODE, 0, 2), (NODE, 0, 2), (AGGREGATE, 0, 1), (NODE, 1, 1), (EXCLUSIVITY, 0, 1)];
    assert_eq!(makers_of(&network), due);
    // Nodes of one set with equal rows share them; in a set of its own each has its own.
    let due = [(NODE, 0, 2), (NODE, 0, 2), (AGGREGATE, 0, 1), (EXCLUSIVITY, 0, 1)];
    assert_eq!(makers_of(&[pair(), exclusive(&[&[0, 1]], 0, 1)]), due);
    let due = [(NODE, 0, 1), (NODE, 0, 1), (NODE, 1, 1), (NODE, 1, 1), (AGGREGATE, 0, 1), (EXCLUSIVITY, 0, 1)];
    assert_eq!(makers_of(&[pair(), exclusive(&[&[0], &[1]], 0, 1)]), due);
}

#[test]
fn the_empty_row() {
    let network = [nd(INPUT), nd(INPUT), constant(INPUT, 0.0, 1.0), constant(OUTPUT, 0.0, 1.0), ed(2, 3)];
    assert_eq!(makers_of(&network), [(NODE, 0, 2), (NODE, 2, 1), (NODE, 3, 1)]);
    // An aggregate of one and a virtual storage of the other ask for it too.
    let more = [network.concat(), plain(&[&[1]]), vs(None, &[(0, 1.0)])];
    assert_eq!(makers_of(&more), [(NODE, 0, 4), (NODE, 2, 1), (NODE, 3, 1)]);
}

#[test]
fn mass_rows_kept_and_dropped() {
    // Link 1 has one column, so no mass row; link 2 has two edges out.
    let nodes = [nd(INPUT), nd(LINK), nd(LINK), nd(OUTPUT), nd(OUTPUT)].concat();
    let edges = [ed(0, 1), ed(1, 2), ed(2, 3), ed(2, 4)].concat();
    let due = [(NODE, 0, 2), (NODE, 2, 1), (NODE, 3, 1), (NODE, 4, 1), (MASS, 2, 1)];
    assert_eq!(makers_of(&[nodes, edges]), due);
}

#[test]
fn an_exclusivity_row_whose_aggregate_is_not_the_first() {
    let network = [pair(), plain(&[&[0]]), exclusive(&[&[1]], 0, 1)];
    let due = [(NODE, 0, 3), (NODE, 1, 1), (NODE, 1, 1), (EXCLUSIVITY, 1, 1)];
    assert_eq!(makers_of(&network), due);
}

#[test]
fn constant_exclusive_nodes() {
    let rows = |min: f64, sets: &[&[u16]]| {
        makers_of(&[constant(INPUT, min, 5.0), constant(OUTPUT, 0.0, 9.0), ed(0, 1), exclusive(sets, 0, 1)])
    };
    assert_eq!(rows(2.0, &[&[0]]), [(AGGREGATE, 0, 1), (NODE, 0, 1), (NODE, 0, 1), (NODE, 1, 1), (EXCLUSIVITY, 0, 1)]);
    assert_eq!(rows(0.0, &[&[0]]), [(AGGREGATE, 0, 1), (NODE, 0, 1), (NODE, 1, 1), (EXCLUSIVITY, 0, 1)]);
    // Listed twice, it has its rows twice: fixed rows never join.
    let twice = [(AGGREGATE, 0, 1), (NODE, 0, 1), (NODE, 0, 1), (NODE, 1, 1), (EXCLUSIVITY, 0, 1)];
    assert_eq!(rows(0.0, &[&[0, 0]]), twice);
}

#[test]
fn virtual_storages_share_a_row() {
    let network = [pair(), vs(None, &[(0, 1.0)]), vs(None, &[(1, 2.0)]), vs(Some([4, 1, 9, 30]), &[(1, 1.0)])];
    assert_eq!(makers_of(&network), [(NODE, 0, 2), (VIRTUAL_STORAGE, 0, 2), (VIRTUAL_STORAGE, 1, 1)]);
}

/// A step sets the coefficients of exclusive nodes, and the makers stay those of the build.
#[test]
fn steps_leave_the_makers() {
    let mut reference = built(&[pair(), exclusive(&[&[0], &[1]], 0, 1)]);
    let before = reference.programme().makers.clone();
    let step = |upper| [st(1, 1, 1.0), nb(0.0, 2.0, upper, 0.0), nb(0.0, 2.0, 3.0, 0.0), gb(0.0, 9.0)].concat();
    assert_eq!(reference.step(&step(7.0)), Ok(()));
    assert_eq!(reference.programme().makers, before);
    assert!(reference.step(&step(1.0)).is_err());
    assert_eq!(reference.programme().makers, before);
}

#[test]
fn names() {
    let network = [nd(INPUT), nd(LINK), nd(OUTPUT), nd(OUTPUT), ed(0, 1), ed(1, 2), ed(1, 3), exclusive(&[&[2]], 0, 1)];
    let reference = built(&[network.concat(), vs(None, &[(0, 1.0)]), vs(None, &[(0, 1.0)])]);
    let text = "row 0: node 0\nrow 1: node 1\nrow 2: node 2\nrow 3: node 2\nrow 4: node 3\nrow 5: aggregate 0\n\
        row 6: virtual storage 0, shared by 2\nrow 7: mass balance of node 1\nrow 8: exclusivity of aggregate 0\n";
    assert_eq!(naming::all_rows(reference.programme()), text);
    assert_eq!(naming::one_row(reference.programme(), 6), "row 6: virtual storage 0, shared by 2\n");
    assert_eq!(naming::one_row(reference.programme(), 9), "N 18 9\n");
}

/// Each row is made; what its maker is, and by how many it is shared, is in range.
#[test]
fn every_row_of_generated_networks_has_a_maker() {
    let (mut kinds, mut shared) = ([0; makers::KINDS], 0);
    for index in 0..2000 {
        let case = generate::case(8, index);
        let Ok(reference) = Reference::build(&case.network, Sentinel::Infinity) else { continue };
        let file = NetworkFile::read(&case.network).unwrap();
        let counts =
            [file.nodes.len(), file.nodes.len(), file.aggregates.len(), file.virtual_storages.len(), file.aggregates.len()];
        let programme = reference.programme();
        assert_eq!(programme.makers.len(), programme.rows.len());
        for (maker, row) in programme.makers.iter().zip(&programme.rows) {
            assert!((maker.index as usize) < counts[maker.kind as usize]);
            assert!(maker.shared_by == 1 || maker.shared_by > 1 && row.varying);
            kinds[maker.kind as usize] += 1;
            shared += (maker.shared_by > 1) as usize;
        }
        let read = listing::read(&programme.to_string()).unwrap().unwrap();
        assert_eq!(read.difference(programme), None);
    }
    assert!(kinds.iter().all(|&count| count > 500) && shared > 500, "{kinds:?}, {shared} shared");
}

/// The walk is refused beside rows that are not those of the file.
#[test]
fn rows_that_do_not_fit() {
    let records = [nd(INPUT), nd(LINK), nd(OUTPUT), nd(OUTPUT), ed(0, 1), ed(1, 2), ed(1, 3)].concat();
    let file = NetworkFile::read(&records).unwrap();
    let reference = built(&[records]);
    let (columns, fresh) = (reference.columns_of_edges(), reference.programme());
    assert_eq!(makers::of(&file, &columns, fresh).as_ref(), Ok(&fresh.makers));
    let refused = |change: fn(&mut pywr_reference::Programme)| {
        let mut other = fresh.clone();
        change(&mut other);
        makers::of(&file, &columns, &other).is_err()
    };
    assert!(refused(|p| p.rows[0].elements[0].1 = 2.0), "a varying row that nobody asks for");
    assert!(refused(|p| p.rows.insert(0, p.rows[0].clone())), "a varying row twice");
    assert!(refused(|p| p.rows.last_mut().unwrap().elements[0].1 = 2.0), "another fixed row");
    assert!(refused(|p| _ = p.rows.pop()), "a fixed row too few");
    assert!(refused(|p| p.rows.push(p.rows[4].clone())), "a fixed row too many");
}

/// Programmes that differ in a maker alone differ; a listing that lacks the three fields is not read.
#[test]
fn a_listing_with_other_makers_differs() {
    let reference = built(&[pair()]);
    let text = reference.programme().to_string();
    assert!(text.ends_with("R 0 1 0000000000000000 7ff0000000000000 1 1 0 2\nE 0 3ff0000000000000\n"), "{text}");
    for maker in [" 1 0 1\n", " 1 1 2\n", " 2 0 2\n"] {
        let other = listing::read(&text.replace(" 1 0 2\n", maker)).unwrap().unwrap();
        assert!(reference.programme().difference(&other).is_some_and(|d| d.starts_with("row 0 made by")));
    }
    assert!(listing::read(&text.replace(" 1 0 2\n", "\n")).is_err());
    assert!(listing::read(&text.replace(" 1 0 2\n", " 1 0 65536\n")).is_err());
    assert_eq!(Maker { kind: 3, index: 0, shared_by: 2 }.to_string(), "virtual storage 0, shared by 2");
}
