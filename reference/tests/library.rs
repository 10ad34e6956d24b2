//! The port through its static library, and what the comparison looks at there.
#![cfg(feature = "library")]
use pywr::Store;
use pywr_reference::comparison::{Tally, compare};
use pywr_reference::lent::{Kept, changed, kept_from, store};
use pywr_reference::port::Port;
use pywr_reference::port_library::Library;
use pywr_reference::random::Random;
use pywr_reference::store_shape::misshapen;
use pywr_reference::{Sentinel, generate};

#[test]
fn no_difference() {
    let mut tally = Tally::default();
    let mut port: Option<Box<dyn Port>> = Some(Box::new(Library::new()));
    for index in 0..500 {
        let case = generate::case(3, index);
        compare(&case, &mut port, &mut tally).unwrap_or_else(|e| panic!("case {index}: {e}"));
    }
    assert!(tally.steps_compared > 1000);
    assert_eq!(port.unwrap().untried(), None);
}

/// A bit of each run, and one that a run may have changed.
#[test]
fn written_bytes_are_seen() {
    let old = store(&mut Random::new(1));
    let faults: [fn(&mut Store); 9] = [
        |s| s.col_lower[639] = -s.col_lower[639],
        |s| s.col_upper[0] = -s.col_upper[0],
        |s| s.col_obj_coef[7] = f64::from_bits(s.col_obj_coef[7].to_bits() ^ 1),
        |s| s.row_lower[1023] = -s.row_lower[1023],
        |s| s.row_upper[5] = -s.row_upper[5],
        |s| s.elements[4095] = -s.elements[4095],
        |s| s.columns[4095] ^= 1,
        |s| s.row_starts[1024] ^= 1,
        |s| s.shape[23306] ^= 1,
    ];
    assert_eq!(changed(&old, &old.clone()), Ok(()));
    for fault in faults {
        let mut new = old.clone();
        fault(&mut new);
        assert!(changed(&old, &new).is_err());
        assert_eq!(changed(&old, &new).is_ok(), kept_from(&old, &new, &Kept::default()).is_ok());
    }
    let mut new = old.clone();
    new.col_obj_coef[7] = 1.0;
    assert_eq!(kept_from(&old, &new, &Kept { costs: 8, ..Kept::default() }), Ok(()));
    assert!(kept_from(&old, &new, &Kept { costs: 7, ..Kept::default() }).is_err());
}

#[test]
fn misshapen_stores() {
    let network = std::fs::read(concat!(env!("CARGO_MANIFEST_DIR"), "/../examples/intake.network")).unwrap();
    let mut built = Library::new();
    assert_eq!(built.build(&network, Sentinel::Infinity), Ok(Ok(())));
    let store = built.store();
    assert!(!misshapen(store));
    // The sentinel kept; a count; a start that falls; the last start; a column that does not rise; a kind; an edge's column; a row; and of the makers
    // of the first and the last row the kind, the index and how many share the row; the first and the last edge in flow order.
    let faults: [fn(&mut Store); 16] = [
        |s| s.shape[0] = 2,
        |s| s.shape[9] = 65,
        |s| s.row_starts[2] = 0,
        |s| s.row_starts[20] += 1,
        |s| s.columns[2] = s.columns[1],
        |s| s.shape[11] = 4,
        |s| s.shape[525] = 9,
        |s| s.shape[19467] = 8,
        |s| s.shape[19723] = 5,
        |s| s.shape[19724] = 13,
        |s| s.shape[19725] = 0,
        |s| s.shape[19780] = 5,
        |s| s.shape[19781] = 2,
        |s| s.shape[19782] = 0,
        |s| s.shape[22795] = 13,
        |s| s.shape[22807] = 65535,
    ];
    for (k, fault) in faults.iter().enumerate() {
        let mut damaged = store.clone();
        fault(&mut damaged);
        assert!(misshapen(&damaged), "fault {k}");
        assert_eq!(damaged.row(0).unwrap_err(), pywr::Refusal { number: 17, place: 0 });
    }
}

/// Each kind of maker at its last index and behind it. Nothing asks that the count fit the tables, and no maker behind the last row is read.
#[test]
fn makers_at_their_limits() {
    let network = std::fs::read(concat!(env!("CARGO_MANIFEST_DIR"), "/../examples/intake.network")).unwrap();
    let mut built = Library::new();
    assert_eq!(built.build(&network, Sentinel::Infinity), Ok(Ok(())));
    let answer = |at: usize, words: [u16; 3]| {
        let mut store = built.store().clone();
        store.shape[19723 + 3 * at..][..3].copy_from_slice(&words);
        assert_eq!(store.row(0).is_err(), misshapen(&store), "row {at}, {words:?}");
        misshapen(&store)
    };
    for (kind, count) in [13, 13, 2, 2, 2].into_iter().enumerate() {
        let kind = kind as u16;
        for row in [0, 10, 19] {
            assert!(!answer(row, [kind, 0, 1]) && !answer(row, [kind, count - 1, 65535]));
            assert!(answer(row, [kind, count, 1]) && answer(row, [kind, count - 1, 0]) && answer(row, [5, count - 1, 1]));
        }
        assert!(!answer(20, [5, count, 0]));
    }
}

/// An entry of the edges in flow order may be any edge, also twice; none behind the last is read.
#[test]
fn flow_order_at_its_limits() {
    let network = std::fs::read(concat!(env!("CARGO_MANIFEST_DIR"), "/../examples/intake.network")).unwrap();
    let mut built = Library::new();
    assert_eq!(built.build(&network, Sentinel::Infinity), Ok(Ok(())));
    assert_eq!(built.flow_order(), Some(vec![0, 2, 1, 3, 4, 5, 6, 7, 8, 9, 10, 11, 12]));
    let answer = |at: usize, edge: u16| {
        let mut store = built.store().clone();
        store.shape[22795 + at] = edge;
        assert_eq!(store.row(0).is_err(), misshapen(&store), "entry {at}, {edge}");
        misshapen(&store)
    };
    for at in [0, 6, 12] {
        assert!(!answer(at, 0) && !answer(at, 12) && answer(at, 13) && answer(at, 65535));
    }
    assert!(!answer(13, 13) && !answer(511, 65535));
}
