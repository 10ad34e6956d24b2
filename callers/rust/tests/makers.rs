//! Who made each row, and the words of the kinds, which the C header has too.
use pywr::{BUILD_NUMBERS, BUILD_WORDS, Maker, MakerKind, ROWS, SHAPE, STEP_WORK, Sentinel, Store};

/// What the C program `makers` prints; callers/c/Makefile holds it to this.
const TABLE: &str = include_str!("../../c/makers.out");

const KINDS: [MakerKind; 5] =
    [MakerKind::Mass, MakerKind::Node, MakerKind::Aggregate, MakerKind::VirtualStorage, MakerKind::Exclusivity];

fn network() -> Vec<u8> {
    std::fs::read(concat!(env!("CARGO_MANIFEST_DIR"), "/../../examples/intake.network")).unwrap()
}

fn built() -> Store {
    let mut store = Store::new();
    let (mut words, mut numbers) = (vec![7; BUILD_WORDS], vec![7.0; BUILD_NUMBERS]);
    assert_eq!(store.build(&network(), Sentinel::Infinity, &mut words, &mut numbers), Ok(()));
    store
}

/// A store of two rows whose makers are these words, and no library's.
fn store_of(words: [[u16; 3]; 2]) -> Store {
    let mut store = Store::new();
    (store.shape[5], store.shape[6]) = (1, 1);
    store.shape[19723..19729].copy_from_slice(words.as_flattened());
    store
}

#[test]
fn the_header_has_the_same_words() {
    let table: String = KINDS.iter().map(|&kind| format!("{}|{kind}\n", kind as u16)).collect();
    assert!(TABLE.starts_with(&table), "{table}");
}

#[test]
fn a_maker_is_shown_as_the_namer_prints_it() {
    let shown = |kind, index, shared_by| Maker { kind, index, shared_by }.to_string();
    assert_eq!(shown(MakerKind::Mass, 4, 1), "mass balance of node 4");
    assert_eq!(shown(MakerKind::Node, 1, 1), "node 1");
    assert_eq!(shown(MakerKind::Aggregate, 0, 1), "aggregate 0");
    assert_eq!(shown(MakerKind::VirtualStorage, 0, 2), "virtual storage 0, shared by 2");
    assert_eq!(shown(MakerKind::Exclusivity, 1, 1), "exclusivity of aggregate 1");
}

#[test]
fn makers_of_the_build() {
    let store = built();
    let shown: Vec<String> = (0..store.row_count()).map(|row| store.maker(row).unwrap().to_string()).collect();
    let due = ["node 1", "node 2", "node 7", "node 9", "node 10", "aggregate 0", "aggregate 1", "virtual storage 0, shared by 2"];
    assert_eq!(shown[..8], due);
    let due = ["mass balance of node 5", "mass balance of node 7", "node 0", "node 3", "node 4", "node 4", "node 5", "node 6"];
    assert_eq!(shown[8..16], due);
    assert_eq!(shown[16..], ["node 8", "node 11", "node 12", "exclusivity of aggregate 0"]);
    assert_eq!(store.maker(7), Some(Maker { kind: MakerKind::VirtualStorage, index: 0, shared_by: 2 }));
    assert_eq!([store.maker(20), store.maker(usize::MAX)], [None; 2]);
}

/// A refused build and a refused step leave the makers.
#[test]
fn refused_calls_leave_the_makers() {
    let mut store = built();
    let before = store.shape.clone();
    let (mut words, mut numbers) = (vec![7; BUILD_WORDS], vec![7.0; BUILD_NUMBERS]);
    assert!(store.build(&network()[..300], Sentinel::Infinity, &mut words, &mut numbers).is_err());
    assert!(store.step(b"ST", &mut [0.0; STEP_WORK]).is_err());
    assert_eq!(store.shape, before);
}

/// 17 for each of the three words out of range; the accessor says what stands there.
#[test]
fn makers_out_of_range() {
    let number_and_place = |store: &Store| store.row(0).map(|_| ()).map_err(|refusal| (refusal.number, refusal.place));
    for (word, value) in [(0, 5), (1, 13), (2, 0)] {
        let mut store = built();
        assert_eq!(number_and_place(&store), Ok(()));
        store.shape[19723 + word] = value;
        assert_eq!(number_and_place(&store), Err((17, 0)));
        assert_eq!(store.maker(0).is_none(), word == 0);
    }
}

/// None where the row is not under the count, where `shape` ends before it, and where what stands there is no kind.
#[test]
fn what_is_no_maker() {
    assert_eq!(Store::new().maker(0), None);
    let mut store = store_of([[4, 9, 0], [5, 0, 1]]);
    assert_eq!(store.maker(0), Some(Maker { kind: MakerKind::Exclusivity, index: 9, shared_by: 0 }));
    assert_eq!([store.maker(1), store.maker(2), store.maker(usize::MAX)], [None; 3]);
    store.shape.truncate(19725);
    assert_eq!(store.maker(0), None);
}

/// A run may be longer than it must be: what lies behind the table of makers is none, whatever the counts say.
#[test]
fn no_maker_behind_the_table() {
    let mut store = Store::new();
    store.shape = vec![1; SHAPE + 3];
    (store.shape[5], store.shape[6]) = (u16::MAX, u16::MAX);
    assert_eq!(store.maker(ROWS - 1), Some(Maker { kind: MakerKind::Node, index: 1, shared_by: 1 }));
    assert_eq!(store.maker(ROWS), None);
}
