//! The edges in the order in which a step adds their costs.
use pywr::{BUILD_NUMBERS, BUILD_WORDS, STEP_WORK, Sentinel, Store};

const LINK: u8 = 2;

/// A network of varying nodes of these kinds, with edges between them.
fn network(kinds: &[u8], edges: &[[u16; 2]]) -> Vec<u8> {
    let nodes = kinds.iter().flat_map(|&kind| [&[b'N', b'D', kind, 0][..], &[0; 16]].concat());
    let edges = edges.iter().flat_map(|ends| [&b"ED"[..], ends.map(u16::to_le_bytes).as_flattened()].concat());
    nodes.chain(edges).collect()
}

fn built(network: &[u8]) -> Store {
    let mut store = Store::new();
    let (mut words, mut numbers) = (vec![7; BUILD_WORDS], vec![7.0; BUILD_NUMBERS]);
    assert_eq!(store.build(network, Sentinel::Infinity, &mut words, &mut numbers), Ok(()));
    store
}

/// An input, three links and an output; a closed ring of three links, which follows.
#[test]
fn a_chain_and_a_ring() {
    let kinds = [0, LINK, LINK, LINK, 1, LINK, LINK, LINK];
    let edges = [[6, 7], [1, 2], [5, 6], [3, 4], [7, 5], [2, 3], [0, 1]];
    let mut store = built(&network(&kinds, &edges));
    assert_eq!(store.flow_order(), [6, 1, 5, 3, 0, 4, 2]);
    // A refused build and a refused step leave it.
    let (mut words, mut numbers) = (vec![7; BUILD_WORDS], vec![7.0; BUILD_NUMBERS]);
    assert!(store.build(b"ND", Sentinel::Infinity, &mut words, &mut numbers).is_err());
    assert!(store.step(b"ST", &mut [0.0; STEP_WORK]).is_err());
    assert_eq!(store.flow_order(), [6, 1, 5, 3, 0, 4, 2]);
}

/// 17 for an entry that is no edge; the accessor says what stands there.
#[test]
fn entries_out_of_range() {
    let mut store = built(&network(&[0, 1], &[[0, 1]]));
    let number = |store: &Store| store.row(0).map(|_| ()).map_err(|refusal| refusal.number);
    assert_eq!((store.flow_order(), number(&store)), (&[0][..], Ok(())));
    store.shape[22795] = 1;
    assert_eq!((store.flow_order(), number(&store)), (&[1][..], Err(17)));
    (store.shape[22795], store.shape[22796]) = (0, 1);
    assert_eq!((store.flow_order(), number(&store)), (&[0][..], Ok(())));
}

/// As many as the edge count says, at most as many as there may be; none where `shape` ends before the last.
#[test]
fn stores_that_no_build_made() {
    assert_eq!(Store::new().flow_order(), []);
    let mut store = Store::new();
    store.shape = (0..=u16::MAX).collect();
    assert_eq!(store.flow_order(), [22795, 22796]);
    store.shape[2] = u16::MAX;
    assert_eq!((store.flow_order().len(), store.flow_order()[511]), (512, 23306));
    store.shape.truncate(23306);
    assert_eq!(store.flow_order(), []);
}
