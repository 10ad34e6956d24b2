//! The words of the refusals, which the C header has too, and the place of a refused edge.
use pywr::{BUILD_NUMBERS, BUILD_WORDS, Place, Refusal, Sentinel, Store};

/// What the C program `refusals` prints; callers/c/Makefile holds it to this.
const TABLE: &str = include_str!("../../c/refusals.out");

#[test]
fn the_header_has_the_same_words() {
    let line = |number| {
        let refusal = Refusal { number, place: 0 };
        format!("{number}|{}|{}\n", refusal.text(), refusal.place_kind().map_or("", Place::text))
    };
    assert_eq!((0..=22).map(line).collect::<String>(), TABLE);
}

#[test]
fn each_number_is_shown_with_its_words_and_place() {
    let shown = [
        "0 at 0: accepted",
        "1 at 5: file ends inside a mark or field, byte 5",
        "2 at 5: unknown or out-of-order mark, byte 5",
        "3 at 5: value outside its range, NaN, or min_active over max_active, byte 5",
        "4 at 5: node index not under the node count, byte 5",
        "5 at 5: edge into an input or out of an output, byte 5",
        "6 at 5: a record beyond its maximum, byte 5",
        "7 at 0: no edges",
        "8 at 5: link without incoming or outgoing edge, node 5",
        "9 at 5: constant min over max, node 5",
        "10 at 5: exclusive constant max -infinity or min +infinity, node 5",
        "11 at 0: programme over its ceilings",
        "12 at 5: step file short, wrongly marked, or with bytes left over, byte 5",
        "13 at 5: value outside its range, or NaN, byte 5",
        "14 at 5: varying node's lower over upper, node 5",
        "15 at 0: retired, never answered",
        "16 at 0: a buffer of store, work or output under the length its ceilings need",
        "17 at 0: store misshapen",
        "18 at 5: row not under the count, row 5",
        "19 at 5: edge from a node to itself, byte 5",
        "20 at 5: edge repeating the pair of an earlier edge, byte 5",
        "21 at 5: varying exclusive node's bound at or beyond a sentinel, node 5",
    ];
    for (text, number) in shown.iter().zip(0..) {
        let place = if [0, 7, 11, 15, 16, 17].contains(&number) { 0 } else { 5 };
        assert_eq!(Refusal { number, place }.to_string(), *text);
    }
    for number in [22, u64::MAX] {
        assert_eq!(Refusal { number, place: 3 }.to_string(), format!("{number} at 3: unknown refusal"));
    }
}

/// The place of 5, 19 and 20 is the `from` field of the edge, and its `to` field follows: an error message can name the nodes.
#[test]
fn a_refused_edge_is_found_by_its_place() {
    for (slip, number, place, ends) in [
        ("into_input", 5, 292, [2, 1]),
        ("out_of_output", 5, 328, [10, 9]),
        ("to_itself", 19, 274, [3, 3]),
        ("repeated_pair", 20, 268, [0, 3]),
    ] {
        let name = format!("{}/../../examples/refused/{slip}.network", env!("CARGO_MANIFEST_DIR"));
        let network = std::fs::read(name).unwrap();
        let (mut words, mut numbers) = (vec![7; BUILD_WORDS], vec![7.0; BUILD_NUMBERS]);
        let answer = Store::new().build(&network, Sentinel::Infinity, &mut words, &mut numbers);
        assert_eq!(answer, Err(Refusal { number, place }), "{slip}");
        let at = place as usize;
        assert_eq!([at, at + 2].map(|at| u16::from_le_bytes([network[at], network[at + 1]])), ends, "{slip}");
    }
}
