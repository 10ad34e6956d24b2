//! Refusals 1 to 11, 19 and 20 of a network file, and their order.
mod records;

use pywr_reference::{Reference, Refusal, Sentinel};
use records::*;

fn answer(records: &[Vec<u8>]) -> Result<String, Refusal> {
    Reference::build(&records.concat(), Sentinel::Infinity).map(|built| built.programme().counts())
}

fn refused(records: &[Vec<u8>], number: u8, place: usize) {
    assert_eq!(answer(records), Err(Refusal::new(number, place)));
}

fn accepted(records: &[Vec<u8>]) {
    answer(records).expect("accepted");
}

fn cut(mut record: Vec<u8>, length: usize) -> Vec<u8> {
    record.truncate(length);
    record
}

#[test]
fn ends_inside_a_mark_or_field() {
    refused(&[b"N".to_vec()], 1, 0);
    refused(&[pair(), b"E".to_vec()], 1, 46);
    for length in 1..20 {
        refused(&[nd(INPUT), cut(nd(OUTPUT), length)], 1, 20);
    }
    for length in 1..6 {
        refused(&[nd(INPUT), nd(OUTPUT), cut(ed(0, 1), length)], 1, 40);
    }
    for length in 1..17 {
        refused(&[pair(), cut(exclusive(&[&[0, 1]], 0, 1), length)], 1, 46);
    }
    for length in 1..28 {
        refused(&[pair(), cut(vs(Some([1, 1, 12, 31]), &[(0, 1.0), (1, 2.0)]), length)], 1, 46);
    }
}

#[test]
fn unknown_or_out_of_order_mark() {
    refused(&[b"XX".to_vec()], 2, 0);
    refused(&[st(1, 1, 1.0)], 2, 0);
    refused(&[pair(), nd(INPUT)], 2, 46);
    refused(&[pair(), vs(None, &[(0, 1.0)]), plain(&[&[0]])], 2, 64);
    // Out of order comes before one too many.
    let many = vec![nd(INPUT); 256].concat();
    refused(&[many, nd(OUTPUT)], 6, 5120);
    refused(&[vec![nd(INPUT); 255].concat(), nd(OUTPUT), ed(0, 255), nd(OUTPUT)], 2, 5126);
}

#[test]
fn values_of_nodes() {
    refused(&[b"ND\x04".to_vec()], 3, 0);
    refused(&[b"ND\x00\x02".to_vec()], 3, 0);
    refused(&[b"ND\x03\x01".to_vec()], 3, 0);
    refused(&[constant(INPUT, f64::NAN, 0.0)], 3, 0);
    refused(&[constant(INPUT, 0.0, f64::NAN)], 3, 0);
    let mut minus_zero = nd(INPUT);
    minus_zero[11] = 0x80;
    refused(&[minus_zero], 3, 0);
    accepted(&[constant(INPUT, f64::NEG_INFINITY, f64::INFINITY), nd(OUTPUT), ed(0, 1)]);
}

#[test]
fn values_of_aggregates() {
    refused(&[pair(), b"AG\x02".to_vec()], 3, 46);
    refused(&[pair(), b"AG\x00\x00".to_vec()], 3, 46);
    refused(&[pair(), b"AG\x00\x11".to_vec()], 3, 46);
    refused(&[pair(), b"AG\x00\x01\x01\0\0\0".to_vec()], 3, 46);
    refused(&[pair(), b"AG\x00\x01\0\0\0\0\x01\0\0\0".to_vec()], 3, 46);
    refused(&[pair(), b"AG\x01\x01\x02\0\0\0\x01\0\0\0".to_vec()], 3, 46);
    refused(&[pair(), plain(&[&[]])], 3, 46);
    refused(&[pair(), plain(&[&[0; 17]])], 3, 46);
    refused(&[pair(), plain(&[&[0, 2]])], 4, 46);
    accepted(&[pair(), exclusive(&[&[0; 16][..]; 16], 7, u32::MAX)]);
}

#[test]
fn values_of_virtual_storages() {
    refused(&[pair(), b"VS\x02".to_vec()], 3, 46);
    refused(&[pair(), b"VS\x00\x01".to_vec()], 3, 46);
    for (i, value) in [(0, 0), (0, 13), (1, 0), (1, 32), (2, 0), (2, 13), (3, 0), (3, 32)] {
        let mut period = [1, 1, 12, 31];
        period[i] = value;
        refused(&[pair(), vs(Some(period), &[(0, 1.0)])], 3, 46);
    }
    accepted(&[pair(), vs(Some([2, 30, 4, 31]), &[(0, 1.0)])]);
    refused(&[pair(), vs(None, &[])], 3, 46);
    refused(&[pair(), vs(None, &[(0, 1.0); 65])], 3, 46);
    refused(&[pair(), vs(None, &[(0, 1.0), (2, f64::NAN)])], 4, 46);
    for factor in [f64::NAN, f64::INFINITY, 1e12_f64.next_up(), -1e12_f64.next_up()] {
        refused(&[pair(), vs(None, &[(0, factor)])], 3, 46);
    }
    accepted(&[pair(), vs(None, &[(0, 1e12), (1, -1e12), (0, -0.0)])]);
}

#[test]
fn edges() {
    refused(&[b"ED\0\0".to_vec()], 4, 0);
    refused(&[nd(INPUT), ed(1, 0)], 4, 20);
    refused(&[nd(INPUT), ed(0, 1)], 4, 20);
    // Into an input, out of an output; to itself; a repeated pair: each at the `from` field.
    refused(&[nd(LINK), nd(INPUT), ed(0, 1)], 5, 42);
    refused(&[nd(LINK), nd(OUTPUT), ed(1, 0)], 5, 42);
    refused(&[nd(LINK), ed(0, 0)], 19, 22);
    refused(&[nd(STORAGE), ed(0, 0)], 19, 22);
    refused(&[pair(), ed(0, 1)], 20, 48);
    // The pair is compared with every edge before it, the first and the last.
    let line = [nd(INPUT), nd(LINK), nd(LINK), nd(OUTPUT), ed(0, 1), ed(1, 2), ed(2, 3)].concat();
    for (from, to) in [(0, 1), (1, 2), (2, 3)] {
        refused(&[line.clone(), ed(from, to)], 20, 100);
    }
    // A pair has a direction.
    accepted(&[nd(INPUT), nd(LINK), nd(LINK), ed(0, 1), ed(1, 2), ed(2, 1)]);
}

#[test]
fn the_order_of_an_edges_refusals() {
    // Out of order (2) and one too many (6) by its mark alone, a cut record (1) and a node that is not there (4): before the rest, at the record.
    refused(&[nd(LINK), cut(ed(0, 0), 5)], 1, 20);
    refused(&[nd(OUTPUT), nd(INPUT), cut(ed(0, 1), 4)], 1, 40);
    refused(&[pair(), vs(None, &[(0, 1.0)]), ed(0, 1)], 2, 64);
    refused(&[nd(OUTPUT), ed(0, 1)], 4, 20);
    refused(&[nd(LINK), ed(1, 1)], 4, 20);
    let edges: Vec<Vec<u8>> = (0..512).map(|i| ed(i / 32, 16 + i % 32)).collect();
    refused(&[nd(INPUT).repeat(16), nd(OUTPUT).repeat(32), edges.concat(), ed(0, 0)], 6, 48 * 20 + 512 * 6);
    // 5 before 19: an input's or an output's edge to itself.
    refused(&[nd(INPUT), ed(0, 0)], 5, 22);
    refused(&[nd(OUTPUT), ed(0, 0)], 5, 22);
    // All three of a record before anything of the next: 19 here, though the next is 5.
    refused(&[nd(LINK), nd(INPUT), ed(0, 0), ed(0, 1)], 19, 42);
    refused(&[pair(), ed(0, 1), ed(1, 0)], 20, 48);
    refused(&[pair(), ed(1, 0), ed(0, 1)], 5, 48);
    refused(&[nd(LINK), ed(0, 0), b"XX".to_vec()], 19, 22);
}

#[test]
fn beyond_the_maximum() {
    let nodes = |n: usize| [nd(INPUT), nd(OUTPUT).repeat(n - 1)].concat();
    accepted(&[nodes(256), ed(0, 1)]);
    refused(&[nodes(257), ed(0, 1)], 6, 5120);
    refused(&[pair(), plain(&[&[0]]).repeat(64), b"AG".to_vec()], 6, 46 + 64 * 15);
    refused(&[pair(), vs(None, &[(0, 1.0)]).repeat(32), b"VS".to_vec()], 6, 46 + 32 * 18);
    accepted(&[pair(), plain(&[&[0]]).repeat(64), vs(None, &[(0, 1.0)]).repeat(32)]);
    let edges: Vec<Vec<u8>> = (0..513).map(|i| ed(i / 33, 16 + i % 33)).collect();
    accepted(&[nd(INPUT).repeat(16), nd(OUTPUT).repeat(33), edges[..512].concat()]);
    refused(&[nd(INPUT).repeat(16), nd(OUTPUT).repeat(33), edges.concat()], 6, 49 * 20 + 512 * 6);
}

#[test]
fn rules_of_the_network() {
    refused(&[], 7, 0);
    refused(&[nd(LINK)], 7, 0);
    refused(&[nd(INPUT), nd(LINK), ed(0, 1)], 8, 1);
    refused(&[nd(LINK), nd(OUTPUT), ed(0, 1)], 8, 0);
    // 8 of a later node comes before 9 of an earlier one.
    refused(&[constant(INPUT, 2.0, 1.0), nd(LINK), ed(0, 1)], 8, 1);
    refused(&[constant(INPUT, 2.0, 1.0), nd(OUTPUT), ed(0, 1)], 9, 0);
    accepted(&[constant(INPUT, 0.0, -0.0), nd(OUTPUT), ed(0, 1)]);
    let infinite = |min, max| [constant(INPUT, min, max), constant(OUTPUT, 2.0, 1.0), ed(0, 1)].concat();
    let inf = f64::INFINITY;
    refused(&[infinite(-inf, -inf), exclusive(&[&[0]], 0, 1)], 10, 0);
    refused(&[infinite(inf, inf), exclusive(&[&[0]], 0, 1)], 10, 0);
    refused(&[infinite(inf, -inf), exclusive(&[&[0]], 0, 1)], 9, 0);
    refused(&[infinite(-inf, -inf), plain(&[&[0]])], 9, 1);
}

#[test]
fn ceilings_count_after_equal_rows_join() {
    let sets = |count: u16| {
        let listed: Vec<Vec<u8>> = (0..count).map(|n| exclusive(&[&[n], &[n]], 0, 1)).collect();
        [nd(INPUT), nd(OUTPUT).repeat(199), ed(0, 1), listed[..64.min(listed.len())].concat()].concat()
    };
    accepted(&[sets(64)]);
    let many: Vec<u16> = (0..129).collect();
    let lists = |count: usize| {
        let aggregates = many[..count].chunks(16).map(|c| exclusive(&c.chunks(1).collect::<Vec<_>>(), 0, 1));
        [nd(INPUT), nd(OUTPUT).repeat(199), ed(0, 1), aggregates.collect::<Vec<_>>().concat()].concat()
    };
    accepted(&[lists(128)]);
    refused(&[lists(129)], 11, 0);
    // 2 rows for each of 16 listings of each of 32 sets are 1,024; varying ones join.
    let again: Vec<Vec<u16>> = (0..32).map(|n| vec![n; 16]).collect();
    let rows = |node: Vec<u8>| {
        let aggregates = again.chunks(16).map(|c| exclusive(&c.iter().map(Vec::as_slice).collect::<Vec<_>>(), 0, 1));
        [node.repeat(32), nd(OUTPUT), ed(0, 32), aggregates.collect::<Vec<_>>().concat()].concat()
    };
    refused(&[rows(constant(INPUT, 1.0, 2.0))], 11, 0);
    accepted(&[rows(nd(INPUT))]);
}
