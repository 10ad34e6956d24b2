//! Builds examples/intake.network and runs steps on it, with each caller's fault: what the C example does.
use pywr::{BUILD_NUMBERS, BUILD_WORDS, Refusal, STEP_WORK, Sentinel, Store};

fn refused(number: u64, place: u64) -> Result<(), Refusal> {
    Err(Refusal { number, place })
}

fn built() -> Store {
    let network = std::fs::read(concat!(env!("CARGO_MANIFEST_DIR"), "/../../examples/intake.network")).unwrap();
    let mut store = Store::new();
    let (mut words, mut numbers) = (vec![7; BUILD_WORDS], vec![7.0; BUILD_NUMBERS]);
    assert_eq!(store.build(&network, Sentinel::Infinity, &mut words, &mut numbers), Ok(()));
    assert!(words.iter().all(|&w| w == 0) && numbers.iter().all(|&x| x == 0.0));
    store
}

fn record(mark: &str, fields: &[f64]) -> Vec<u8> {
    mark.bytes().chain(fields.iter().flat_map(|x| x.to_le_bytes())).collect()
}

/// A day: what the catchment brings, the volume in the reservoir, what the town needs at least.
fn day(month: u8, day: u8, inflow: f64, volume: f64, demand: f64) -> Vec<u8> {
    let mut file = [b'S', b'T', month, day].to_vec();
    file.extend(1f64.to_le_bytes());
    let mut nodes = [[0.0; 4]; 13];
    for (node, cost) in [(0, 1.5), (3, 2.0), (4, 3.0), (6, 0.5), (11, -10.0)] {
        nodes[node][0] = cost;
    }
    nodes[1] = [0.0, 0.0, inflow, 0.0];
    nodes[2] = [-0.25, 10.0, 100.0, volume];
    nodes[7] = [1.0, 0.0, 50.0, 0.0];
    nodes[9] = [-0.125, 1.0, 8.0, 5.0];
    nodes[10] = [-20.0, demand, 30.0, 0.0];
    file.extend(nodes.iter().flat_map(|n| record("NB", n)));
    file.extend([[0.0, 25.0], [0.0, 60.0]].iter().flat_map(|a| record("GB", a)));
    file.extend([[0.0, 9000.0, 7500.0], [0.0, 1200.0, 300.0]].iter().flat_map(|v| record("VB", v)));
    file
}

#[test]
fn rows_of_the_build() {
    let store = built();
    assert_eq!((store.column_count(), store.edge_column_count(), store.row_count(), store.varying_row_count()), (11, 9, 20, 8));
    let pump = store.row(13).unwrap();
    assert_eq!((pump.columns, pump.elements), (&[1, 10][..], &[1.0, -4.0][..]));
    assert_eq!((store.row_lower[13], store.row_upper[13]), (0.0, f64::INFINITY));
    assert_eq!(store.row(20), Err(Refusal { number: 18, place: 20 }));
    assert_eq!(store.row(usize::MAX), Err(Refusal { number: 18, place: u64::MAX }));
}

#[test]
fn steps() {
    let mut store = built();
    let mut work = vec![7.0; STEP_WORK];
    let bounds = |store: &Store, row: usize| [store.row_lower[row], store.row_upper[row]];
    assert_eq!(store.step(&day(1, 15, 40.0, 80.0, 20.0), &mut work), Ok(()));
    assert!(work.iter().all(|&x| x == 0.0));
    assert_eq!(store.col_obj_coef[..11], [3.5, 4.5, 0.5, -0.25, 1.25, 0.25, 0.375, -19.875, -9.875, 0.0, 0.0]);
    assert_eq!([bounds(&store, 0), bounds(&store, 1), bounds(&store, 7)], [[0.0, 40.0], [-70.0, 20.0], [-7500.0, 1500.0]]);
    // Refused steps change nothing.
    let before = format!("{store:?}");
    assert_eq!(store.step(&day(1, 16, 40.0, 80.0, 31.0), &mut work), refused(14, 10));
    let cut = day(1, 16, 40.0, 80.0, 20.0);
    assert_eq!(store.step(&cut[..cut.len() - 1], &mut work), refused(12, 516));
    assert_eq!(before, format!("{store:?}"));
    // In summer both licences bind.
    assert_eq!(store.step(&day(7, 15, 5.0, 30.0, 20.0), &mut work), Ok(()));
    assert_eq!([bounds(&store, 0), bounds(&store, 1), bounds(&store, 7)], [[0.0, 5.0], [-20.0, 70.0], [-300.0, 900.0]]);
}

#[test]
fn faults_of_the_caller() {
    let mut store = built();
    let file = day(1, 15, 40.0, 80.0, 20.0);
    let mut short = vec![7.0; STEP_WORK - 1];
    assert_eq!(store.step(&file, &mut short), refused(16, 0));
    assert!(short.iter().all(|&x| x == 7.0));
    store.shape[0] = 2;
    assert_eq!(store.step(&file, &mut [7.0; STEP_WORK]), refused(17, 0));
    assert_eq!(store.row(0), Err(Refusal { number: 17, place: 0 }));
    store.elements.truncate(100);
    assert_eq!(store.row(0), Err(Refusal { number: 16, place: 0 }));
}
