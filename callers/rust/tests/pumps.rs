//! Two pumps of which one may run, with limits that each step brings: examples/pumps.network and months of examples/pumps.
use pywr::{BUILD_NUMBERS, BUILD_WORDS, Refusal, STEP_WORK, Sentinel, Store};

/// Where pump 1's limits stand in a step file, the lower and then the upper: its record is the fourth of 34 bytes, behind the date's 12.
const LIMITS_AT: usize = 12 + 3 * 34 + 2 + 8;

fn example(name: &str) -> Vec<u8> {
    std::fs::read(format!("{}/../../examples/{name}", env!("CARGO_MANIFEST_DIR"))).unwrap()
}

fn month(number: usize) -> Vec<u8> {
    example(&format!("pumps/{number:02}.step"))
}

/// January with other limits for pump 1.
fn limited(lower: f64, upper: f64) -> Vec<u8> {
    let mut file = month(1);
    file[LIMITS_AT..LIMITS_AT + 8].copy_from_slice(&lower.to_le_bytes());
    file[LIMITS_AT + 8..LIMITS_AT + 16].copy_from_slice(&upper.to_le_bytes());
    file
}

fn built(sentinel: Sentinel) -> Store {
    let mut store = Store::new();
    let (mut words, mut numbers) = (vec![7; BUILD_WORDS], vec![7.0; BUILD_NUMBERS]);
    assert_eq!(store.build(&example("pumps.network"), sentinel, &mut words, &mut numbers), Ok(()));
    store
}

fn step(store: &mut Store, file: &[u8]) -> Result<(), Refusal> {
    let mut work = vec![7.0; STEP_WORK];
    let answer = store.step(file, &mut work);
    assert!(work.iter().all(|&x| x == 0.0));
    answer
}

/// What stands on the sets' columns in rows 2 to 5: pump 1's upper limit and minus its lower, then pump 2's. The rest of these rows never changes.
fn coefficients(store: &Store, high: f64) -> [f64; 4] {
    [(2, 0, -1.0), (3, 0, 1.0), (4, 1, -1.0), (5, 1, 1.0)].map(|(row, water, sign)| {
        assert_eq!((store.row_lower[row], store.row_upper[row]), (0.0, high));
        let part = store.row(row).unwrap();
        assert_eq!((part.columns, part.elements[0]), (&[water, water + 9][..], sign));
        part.elements[1]
    })
}

#[test]
fn rows_have_the_limits_of_the_month() {
    let mut store = built(Sentinel::Infinity);
    assert_eq!(coefficients(&store, f64::INFINITY), [1.0, -1.0, 1.0, -1.0]);
    let makers = [2, 3, 4, 5].map(|row| store.maker(row).unwrap().to_string());
    assert_eq!(makers, ["node 3", "node 3", "node 4", "node 4"]);
    for (number, due) in [(1, [30.0, -0.0, 20.0, -4.0]), (2, [0.0, -0.0, 20.0, -4.0]), (7, [30.0, -0.0, 12.0, -4.0])] {
        assert_eq!(step(&mut store, &month(number)), Ok(()));
        assert_eq!(coefficients(&store, f64::INFINITY).map(f64::to_bits), due.map(f64::to_bits), "{number}");
    }
}

#[test]
fn a_pump_without_a_limit_is_refused() {
    for sentinel in [Sentinel::Infinity, Sentinel::LargestFinite] {
        let mut store = built(sentinel);
        assert_eq!(step(&mut store, &month(1)), Ok(()));
        let before = format!("{store:?}");
        let refusal = step(&mut store, &month(5)).unwrap_err();
        assert_eq!(refusal, Refusal { number: 21, place: 3 });
        assert_eq!(refusal.to_string(), "21 at 3: varying exclusive node's bound at or beyond a sentinel, node 3");
        assert_eq!(before, format!("{store:?}"));
    }
}

/// Under the finite sentinel an upper of the largest double is at it, a lower of minus that at the low one, and either is refused; the next doubles within
/// pass. Under the infinite one all pass.
#[test]
fn limits_at_the_finite_sentinels_and_within() {
    let within = f64::from_bits(f64::MAX.to_bits() - 1);
    let mut store = built(Sentinel::LargestFinite);
    for (lower, upper) in [(0.0, f64::MAX), (-f64::MAX, 30.0), (-f64::MAX, f64::MAX)] {
        assert_eq!(step(&mut store, &limited(lower, upper)), Err(Refusal { number: 21, place: 3 }));
        assert_eq!(coefficients(&store, f64::MAX), [1.0, -1.0, 1.0, -1.0]);
    }
    assert_eq!(step(&mut store, &limited(-within, within)), Ok(()));
    assert_eq!(coefficients(&store, f64::MAX), [within, within, 20.0, -4.0]);
    let mut store = built(Sentinel::Infinity);
    assert_eq!(step(&mut store, &limited(-f64::MAX, f64::MAX)), Ok(()));
    assert_eq!(coefficients(&store, f64::INFINITY), [f64::MAX, f64::MAX, 20.0, -4.0]);
}
