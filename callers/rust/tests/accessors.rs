//! No accessor of a store panics, whatever its runs hold and however short they are.
use pywr::{Refusal, STEP_WORK, Store};

/// Stores with each run cut to each of a few lengths, alone and all together.
fn short_stores() -> Vec<Store> {
    let mut stores = Vec::new();
    for length in [0, 1, 2, 3, 4, 5, 6, 7, 8, 639] {
        for run in 0..=9 {
            let mut s = Store::new();
            s.shape.fill(3);
            s.row_starts.fill(2);
            let doubles =
                [&mut s.col_lower, &mut s.col_upper, &mut s.col_obj_coef, &mut s.row_lower, &mut s.row_upper, &mut s.elements];
            for (k, doubles) in doubles.into_iter().enumerate() {
                doubles.truncate(if [k, 9].contains(&run) { length } else { usize::MAX });
            }
            s.columns.truncate(if [6, 9].contains(&run) { length } else { usize::MAX });
            s.row_starts.truncate(if [7, 9].contains(&run) { length } else { usize::MAX });
            s.shape.truncate(if [8, 9].contains(&run) { length } else { usize::MAX });
            stores.push(s);
        }
    }
    stores
}

/// Every accessor; the answers of the calls.
fn touch(store: &mut Store) -> [Result<(), Refusal>; 2] {
    let counts = [store.edge_column_count(), store.varying_row_count(), store.element_count()];
    assert!(counts[0] <= store.column_count() && counts[1] <= store.row_count());
    let edges = store.shape.get(2).map_or(0, |&count| count.min(512) as usize);
    assert_eq!(store.flow_order().len(), if store.shape.len() < 22795 + edges { 0 } else { edges });
    for row in [0, 1, 1023, 1024, 65535, usize::MAX] {
        assert!(store.maker(row).is_none() || row < store.row_count().min(1024) && store.shape.len() > 19725 + 3 * row);
        let (start, length, answer) = store.row_part(row);
        match store.row(row) {
            Ok(part) => assert_eq!((part.start, part.columns.len(), part.elements.len()), (start, length, length)),
            Err(refusal) => assert_eq!((start, length, answer), (0, 0, Err(refusal))),
        }
    }
    [store.row(0).map(|_| ()), store.step(b"ST", &mut [0.0; STEP_WORK])]
}

#[test]
fn runs_too_short() {
    let short = Err(Refusal { number: 16, place: 0 });
    for mut store in short_stores() {
        assert_eq!(touch(&mut store), [short; 2]);
    }
    let mut store = Store::new();
    store.shape.truncate(4);
    store.shape.fill(9);
    let counts = [store.edge_column_count(), store.column_count(), store.varying_row_count(), store.row_count()];
    assert_eq!((counts, store.element_count()), ([9, 9, 0, 0], 0));
}

#[test]
fn garbage_in_the_store() {
    let mut state = 1u64;
    let mut word = || {
        state = state.wrapping_mul(6364136223846793005).wrapping_add(1442695040888963407);
        (state >> 33) as u32
    };
    let misshapen = Err(Refusal { number: 17, place: 0 });
    for round in 0..2000 {
        let mut store = Store::new();
        let most = [2, 16, 600, 65536][round % 4];
        store.shape.iter_mut().for_each(|w| *w = (word() % most) as u16);
        store.columns.iter_mut().for_each(|w| *w = (word() % most) as u16);
        store.row_starts.iter_mut().for_each(|w| *w = word() % [most, u32::MAX][round % 2]);
        let _ = touch(&mut store);
        store.shape[0] = 2;
        assert_eq!(touch(&mut store), [misshapen; 2]);
    }
    let mut store = Store::new();
    store.shape.fill(u16::MAX);
    assert_eq!((store.column_count(), store.row_count()), (131070, 131070));
    assert_eq!(touch(&mut store), [misshapen; 2]);
}

/// A store that no build has written to is well shaped, with no columns and no rows.
#[test]
fn a_store_that_was_never_built() {
    let mut store = Store::new();
    let date = |bytes: &[u8]| [b"ST\x06\x01", &1f64.to_le_bytes()[..], bytes].concat();
    let mut step = |file: &[u8]| store.step(file, &mut [7.0; STEP_WORK]).map_err(|r| (r.number, r.place));
    assert_eq!(step(&date(b"")), Ok(()));
    assert_eq!(step(&date(b"N")), Err((12, 12)));
    assert_eq!(step(&date(b"NB")), Err((12, 12)));
    assert_eq!(step(&date(&[0; 34])), Err((12, 12)));
    assert_eq!(step(b""), Err((12, 0)));
    assert_eq!(step(b"ST\x06\x01"), Err((12, 0)));
    assert_eq!(step(b"ST\x0d"), Err((13, 0)));
    assert_eq!(format!("{store:?}"), format!("{:?}", Store::new()));
    assert_eq!(store.row(0), Err(Refusal { number: 18, place: 0 }));
}
