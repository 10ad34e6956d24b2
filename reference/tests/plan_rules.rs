//! Document 01's rules for plans by hand, both sides: what each bound, sentinel, set and period lets pass.
mod records;
mod sides;

use pywr_reference::Sentinel;
use pywr_reference::exact::Whole;
use pywr_reference::plans::Plan;
use records::*;
use sides::answers;

const INF: f64 = f64::INFINITY;

fn units(x: f64) -> Whole {
    Whole::of_double(x)
}

/// The smallest unit more.
fn over(x: f64) -> Whole {
    &units(x) + &Whole::from(1)
}

fn under(x: f64) -> Whole {
    &units(x) - &Whole::from(1)
}

/// Both sides' answer to a plan, which must be one.
fn allowed(network: &[Vec<u8>], sentinel: Sentinel, step: &[Vec<u8>], amounts: &[Whole], on: &[bool]) -> bool {
    let plan = Plan { amounts: amounts.to_vec(), on: on.to_vec() };
    let (allowed, admitted) = answers(&network.concat(), sentinel, &step.concat(), &plan);
    assert_eq!(allowed, admitted, "{plan}");
    allowed
}

fn free() -> Vec<u8> {
    nb(0.0, -INF, INF, 0.0)
}

/// A storage that gives up to 1e15 a day, to an output.
fn giving() -> [Vec<u8>; 3] {
    [nd(STORAGE), nd(OUTPUT), ed(0, 1)]
}

fn day(days: f64) -> Vec<u8> {
    st(6, 1, days)
}

/// Of the pair's amount, by the interval of an aggregate.
#[test]
fn sentinels_and_infinities() {
    let max = f64::MAX;
    let beyond = units(max).shifted(1);
    let cases = [
        ((-INF, INF), beyond.clone(), [true, true]),
        ((INF, INF), beyond.clone(), [false, false]),
        ((-INF, -INF), units(0.0), [false, false]),
        ((0.0, max), units(max), [true, true]),
        ((0.0, max), over(max), [false, true]),
        ((0.0, max.next_down()), over(max.next_down()), [false, false]),
        ((max, INF), units(max), [true, true]),
        ((max, INF), under(max), [false, false]),
        ((3.0, 2.0), units(2.5), [false, false]),
        ((-0.0, 0.0), units(0.0), [true, true]),
        ((0.0, 0.1), units(0.1), [true, true]),
        ((0.0, 0.1), over(0.1), [false, false]),
        ((0.1, 1.0), under(0.1), [false, false]),
    ];
    for ((lower, upper), amount, due) in cases {
        for (sentinel, due) in [Sentinel::Infinity, Sentinel::LargestFinite].into_iter().zip(due) {
            let step = [day(1.0), free(), free(), gb(lower, upper)];
            let answer = allowed(&[pair(), plain(&[&[0]])], sentinel, &step, std::slice::from_ref(&amount), &[]);
            assert_eq!(answer, due, "{lower} to {upper}, {sentinel:?}, {amount}");
        }
    }
}

/// An aggregate of a storage three times, whose amount is -3e15.
#[test]
fn lower_bounds_of_an_amount_under_0() {
    let network = [&giving()[..], &[plain(&[&[0, 0], &[0]])]].concat();
    let of = |lower: f64, sentinel| {
        let step = [day(1.0 / 1024.0), nb(0.0, -1e12, 1e12, 1e12), free(), gb(lower, INF)];
        allowed(&network, sentinel, &step, &[units(1e15)], &[])
    };
    assert!(of(-3e15, Sentinel::Infinity) && !of(-3e15 + 1.0, Sentinel::Infinity));
    assert!(of(-INF, Sentinel::LargestFinite) && of(f64::MIN, Sentinel::LargestFinite) && of(f64::MIN, Sentinel::Infinity));
}

/// An inactive virtual storage has the sentinels: an amount under -f64::MAX passes, and one over f64::MAX.
#[test]
fn sentinels_bind_nothing_beyond_the_largest_double() {
    for (sentinel, factor) in [Sentinel::Infinity, Sentinel::LargestFinite].into_iter().flat_map(|s| [(s, 1.0), (s, -1.0)]) {
        let network = [pair(), vs(Some([1, 1, 1, 1]), &[(0, factor)])];
        let step = [day(1.0), free(), free(), vb(0.0, 1.0, 0.0)];
        assert!(allowed(&network, sentinel, &step, &[units(f64::MAX).shifted(1)], &[]), "{sentinel:?}, {factor}");
    }
}

#[test]
fn links_balance() {
    let network = [nd(INPUT), nd(LINK), nd(OUTPUT), nd(OUTPUT), ed(0, 1), ed(1, 2), ed(1, 3)];
    let step = [day(1.0), free(), free(), free(), free()];
    let of = |amounts: [Whole; 3]| allowed(&network, Sentinel::Infinity, &step, &amounts, &[]);
    assert!(of([units(5.0), units(2.0), units(3.0)]));
    assert!(!of([units(5.0), units(2.0), over(3.0)]) && !of([under(5.0), units(2.0), units(3.0)]));
    // One column for both edges of a link with one edge in and one out.
    let chain = [nd(INPUT), nd(LINK), nd(OUTPUT), ed(0, 1), ed(1, 2)];
    let of = |amounts: [Whole; 2]| allowed(&chain, Sentinel::Infinity, &step[..4], &amounts, &[]);
    assert!(of([over(1.0), over(1.0)]) && !of([units(1.0), over(1.0)]));
}

/// Document 01's first chain, whose columns unite: link 2 has no mass row, and all four edges must carry the same.
#[test]
fn links_balance_where_columns_unite() {
    let nodes = [nd(INPUT), nd(LINK), nd(LINK), nd(LINK), nd(OUTPUT)];
    let network = [&nodes[..], &[ed(1, 2), ed(3, 4), ed(2, 3), ed(0, 1)]].concat();
    let step = [day(1.0), free(), free(), nb(0.0, 2.0, 5.0, 0.0), free(), free()];
    let of = |amounts: [Whole; 4]| allowed(&network, Sentinel::Infinity, &step, &amounts, &[]);
    assert!(of([(); 4].map(|()| units(2.0))) && of([(); 4].map(|()| units(5.0))));
    assert!(!of([(); 4].map(|()| under(2.0))) && !of([(); 4].map(|()| over(5.0))));
    // At link 2 alone, where the Rust's two columns meet, and on each edge alone.
    assert!(!of([units(3.0), over(3.0), over(3.0), units(3.0)]) && !of([over(3.0), units(3.0), units(3.0), over(3.0)]));
    assert!((0..4).all(|e| !of(std::array::from_fn(|at| if at == e { over(3.0) } else { units(3.0) }))));
}

/// An input's constant 1 to 4, an output's 2 to 3 by the step.
#[test]
fn inputs_and_outputs_by_their_own_bounds() {
    let of = |network: &[Vec<u8>], output: Vec<u8>, amount: Whole| {
        allowed(network, Sentinel::Infinity, &[day(1.0), free(), output], &[amount], &[])
    };
    let input = |amount| of(&[constant(INPUT, 1.0, 4.0), nd(OUTPUT), ed(0, 1)], free(), amount);
    assert!(input(units(1.0)) && !input(under(1.0)) && input(units(4.0)) && !input(over(4.0)));
    let output = |amount| of(&[pair()], nb(0.0, 2.0, 3.0, 0.0), amount);
    assert!(output(units(2.0)) && !output(under(2.0)) && output(units(3.0)) && !output(over(3.0)));
}

/// A link of 5 to 7, constant or by the step, has the sum of its two outgoing edges.
#[test]
fn links_by_their_own_bounds() {
    let edges = [ed(0, 1), ed(1, 2), ed(1, 3)];
    for (link, bounds) in [(constant(LINK, 5.0, 7.0), free()), (nd(LINK), nb(0.0, 5.0, 7.0, 0.0))] {
        let network = [&[nd(INPUT), link, nd(OUTPUT), nd(OUTPUT)][..], &edges].concat();
        let step = [day(1.0), free(), bounds, free(), free()];
        let of = |sum: Whole, rest: Whole| allowed(&network, Sentinel::Infinity, &step, &[sum, units(2.0), rest], &[]);
        assert!(of(units(5.0), units(3.0)) && !of(under(5.0), under(3.0)) && !of(units(2.0), units(0.0)));
        assert!(of(units(7.0), units(5.0)) && !of(over(7.0), over(5.0)));
    }
}

/// The amount of a node without edges is 0: bounds without 0 between them allow no plan, others forbid none.
#[test]
fn nodes_without_edges() {
    let of = |(min, max): (f64, f64), amount: f64| {
        [(constant(INPUT, min, max), free()), (nd(OUTPUT), nb(0.0, min, max, 0.0))].map(|(node, bounds)| {
            let (network, step) = ([nd(INPUT), nd(OUTPUT), node, ed(0, 1)], [day(1.0), free(), free(), bounds]);
            allowed(&network, Sentinel::Infinity, &step, &[units(amount)], &[])
        })
    };
    for amount in [0.0, 1.0, 1.5] {
        assert_eq!([(1.0, 2.0), (f64::from_bits(1), INF), (-2.0, -1.0)].map(|bounds| of(bounds, amount)), [[false; 2]; 3]);
        assert_eq!([(-1.0, 1.0), (0.0, 2.0), (0.0, 0.0)].map(|bounds| of(bounds, amount)), [[true; 2]; 3]);
    }
}

/// A constant exclusive input, with its set on and off.
#[test]
fn exclusive_nodes() {
    let of = |(min, max): (f64, f64), amount: Whole, on: bool| {
        let network = [constant(INPUT, min, max), nd(OUTPUT), ed(0, 1), exclusive(&[&[0]], 0, 1)];
        let step = [day(1.0), free(), free(), gb(-INF, INF)];
        allowed(&network, Sentinel::Infinity, &step, &[amount], &[on])
    };
    assert!(of((0.0, 5.0), units(5.0), true) && !of((0.0, 5.0), over(5.0), true));
    assert!(of((0.0, 5.0), units(0.0), true) && of((0.0, 5.0), units(0.0), false) && !of((0.0, 5.0), over(0.0), false));
    assert!(of((0.0, 2e6), units(1e6), true) && !of((0.0, INF), over(1e6), true));
    assert!(of((-3.0, 5.0), units(1e-6), true) && !of((-3.0, 5.0), under(1e-6), true) && of((-3.0, 5.0), units(0.0), false));
    assert!(of((2.0, 5.0), units(2.0), true) && !of((2.0, 5.0), under(2.0), true) && of((2.0, 5.0), units(0.0), false));
    assert!(of((1e-7, 5.0), units(1e-6), true) && !of((-INF, 5.0), units(1e-7), true));
    assert!(!of((2e6, 3e6), units(2e6), true) && !of((-2.0, -1.0), units(0.0), true) && of((-2.0, -1.0), units(0.0), false));
}

/// A max at the finite sentinel still means at most 1e6.
#[test]
fn exclusive_nodes_under_the_finite_sentinel() {
    let network = [constant(INPUT, 0.0, f64::MAX), nd(OUTPUT), ed(0, 1), exclusive(&[&[0]], 0, 1)];
    let step = [day(1.0), free(), free(), gb(-INF, INF)];
    let of = |amount, on| allowed(&network, Sentinel::LargestFinite, &step, &[amount], &[on]);
    assert!(of(units(1e6), true) && !of(over(1e6), true) && of(units(0.0), false) && !of(over(0.0), false));
}

/// Of an input up to 9 in a set that is on: the aggregate's 2 to 3 bind too.
#[test]
fn exclusive_aggregates_by_their_own_bounds() {
    let network = [constant(INPUT, 0.0, 9.0), nd(OUTPUT), ed(0, 1), exclusive(&[&[0]], 0, 1)];
    let step = [day(1.0), free(), free(), gb(2.0, 3.0)];
    let of = |amount| allowed(&network, Sentinel::Infinity, &step, &[amount], &[true]);
    assert!(of(units(3.0)) && !of(over(3.0)) && !of(units(4.0)) && of(units(2.0)) && !of(under(2.0)));
}

/// Repeats count; sets in another order are other sets, and a node obeys each of its sets.
#[test]
fn sets_that_are_on() {
    let of = |sets: &[&[u16]], min_active: u32, max_active: u32, amount: f64, on: &[bool]| {
        let node = |kind| constant(kind, 0.0, 9.0);
        let network = [node(INPUT), node(OUTPUT), ed(0, 1), exclusive(sets, min_active, max_active)];
        allowed(&network, Sentinel::Infinity, &[day(1.0), free(), free(), gb(-INF, INF)], &[units(amount)], on)
    };
    assert!(of(&[&[0], &[0]], 2, 2, 4.0, &[true]) && !of(&[&[0], &[0]], 1, 1, 4.0, &[true]));
    assert!(of(&[&[0], &[0]], 0, 1, 0.0, &[false]) && !of(&[&[0], &[0]], 1, 2, 0.0, &[false]));
    assert!(of(&[&[0, 1], &[1, 0]], 2, 2, 4.0, &[true, true]) && !of(&[&[0, 1], &[1, 0]], 1, 1, 4.0, &[true, false]));
    assert!(!of(&[&[0], &[1]], 1, 1, 4.0, &[true, false]) && of(&[&[0], &[1]], 1, 1, 0.0, &[false, true]));
    assert!(!of(&[&[0]], u32::MAX, u32::MAX, 0.0, &[true]) && of(&[&[0]], 0, u32::MAX, 9.0, &[true]));
}

/// Two pumps into one main, of which one may run, with 2 to 5 and 1 to 3 today.
#[test]
fn pumps_with_daily_limits() {
    let network = [nd(INPUT), nd(INPUT), nd(OUTPUT), ed(0, 2), ed(1, 2), exclusive(&[&[0], &[1]], 0, 1)];
    let step = [day(1.0), nb(0.0, 2.0, 5.0, 0.0), nb(0.0, 1.0, 3.0, 0.0), free(), gb(-INF, INF)];
    for sentinel in [Sentinel::Infinity, Sentinel::LargestFinite] {
        let of = |amounts: [Whole; 2], on: [bool; 2]| allowed(&network, sentinel, &step, &amounts, &on);
        let none = || units(0.0);
        assert!(of([none(), none()], [false, false]) && !of([units(4.0), units(2.0)], [true, true]));
        assert!(!of([units(4.0), units(2.0)], [true, false]) && !of([units(4.0), units(2.0)], [false, false]));
        assert!(of([units(5.0), none()], [true, false]) && !of([over(5.0), none()], [true, false]));
        assert!(of([units(2.0), none()], [true, false]) && !of([under(2.0), none()], [true, false]));
        assert!(of([none(), units(3.0)], [false, true]) && !of([none(), over(3.0)], [false, true]));
        assert!(of([none(), units(1.0)], [false, true]) && !of([none(), under(1.0)], [false, true]));
        assert!(!of([units(4.0), none()], [false, false]) && !of([over(0.0), none()], [false, true]));
        assert!(!of([none(), none()], [true, false]) && !of([units(4.0), none()], [false, true]));
    }
}

/// Whether an input with an interval of today may give an amount, its set being on or off.
fn varying_exclusive((lower, upper): (f64, f64), amount: Whole, on: bool) -> bool {
    let network = [pair(), exclusive(&[&[0]], 0, 1)];
    let step = [day(1.0), nb(0.0, lower, upper, 0.0), free(), gb(-INF, INF)];
    allowed(&network, Sentinel::Infinity, &step, &[amount], &[on])
}

/// No cap at 1e6, no floor at 1e-6, and 0 is a lower bound as any other.
#[test]
fn varying_exclusive_nodes_are_not_capped() {
    assert!(varying_exclusive((0.0, 2e6), units(2e6), true) && !varying_exclusive((0.0, 2e6), over(2e6), true));
    assert!(
        varying_exclusive((0.0, f64::MAX), units(f64::MAX), true) && !varying_exclusive((0.0, f64::MAX), over(f64::MAX), true)
    );
    assert!(varying_exclusive((1e-9, 5.0), units(1e-9), true) && !varying_exclusive((1e-9, 5.0), under(1e-9), true));
    assert!(
        varying_exclusive((0.0, 5.0), units(0.0), true)
            && varying_exclusive((0.0, 5.0), units(0.0), false)
            && !varying_exclusive((0.0, 5.0), over(0.0), false)
    );
    assert!(varying_exclusive((-3.0, 5.0), units(0.0), true) && !varying_exclusive((-3.0, 5.0), over(0.0), false));
    assert!(!varying_exclusive((-3.0, -1.0), units(0.0), true) && varying_exclusive((-3.0, -1.0), units(0.0), false));
    assert!(
        varying_exclusive((3.0, 3.0), units(3.0), true)
            && !varying_exclusive((3.0, 3.0), under(3.0), true)
            && !varying_exclusive((3.0, 3.0), over(3.0), true)
    );
}

/// An input and an output of one edge in one set have one row: the smaller upper and the larger lower decide, in either order.
#[test]
fn shared_rows_of_varying_exclusive_nodes() {
    let wide = nb(0.0, 0.0, 5.0, 0.0);
    let narrow = nb(0.0, 1.0, 3.0, 0.0);
    for bounds in [[&wide, &narrow], [&narrow, &wide]] {
        for set in [&[0, 1][..], &[1, 0], &[0, 1, 0]] {
            let network = [pair(), exclusive(&[set], 0, 1)];
            let step = [day(1.0), bounds[0].clone(), bounds[1].clone(), gb(-INF, INF)];
            let of = |amount: Whole, on: bool| allowed(&network, Sentinel::Infinity, &step, &[amount], &[on]);
            assert!(of(units(3.0), true) && !of(over(3.0), true) && of(units(1.0), true) && !of(under(1.0), true));
            assert!(of(units(0.0), false) && !of(over(0.0), false) && !of(units(0.0), true));
        }
    }
}

/// A storage of -10 to 35 in a set: what it gives is under 0.
#[test]
fn exclusive_storages() {
    let numbers = nb(0.0, 10.0, 100.0, 30.0);
    let gives = |numbers: &[u8], amount, on: bool| {
        let network = [&giving()[..], &[exclusive(&[&[0]], 0, 1)]].concat();
        let step = [day(2.0), numbers.to_vec(), free(), gb(-INF, INF)];
        allowed(&network, Sentinel::Infinity, &step, &[amount], &[on])
    };
    assert!(gives(&numbers, units(10.0), true) && !gives(&numbers, over(10.0), true) && gives(&numbers, units(0.0), true));
    assert!(gives(&numbers, units(0.0), false) && !gives(&numbers, over(0.0), false));
    // An empty one gives nothing: its lower is 0, which a constant node's rule would leave out.
    let empty = nb(0.0, 30.0, 100.0, 30.0);
    assert!(gives(&empty, units(0.0), true) && !gives(&empty, over(0.0), true) && !gives(&empty, over(0.0), false));
    let takes = |amount, on: bool| {
        let network = [nd(INPUT), nd(STORAGE), ed(0, 1), exclusive(&[&[1]], 0, 1)];
        let step = [day(2.0), free(), numbers.clone(), gb(-INF, INF)];
        allowed(&network, Sentinel::Infinity, &step, &[amount], &[on])
    };
    assert!(takes(units(35.0), true) && !takes(over(35.0), true) && !takes(over(0.0), false));
}

/// A storage that must take 2 to 4 and has an edge in and one out.
#[test]
fn exclusive_storages_by_their_difference() {
    let network = [nd(INPUT), nd(STORAGE), nd(OUTPUT), ed(0, 1), ed(1, 2), exclusive(&[&[1]], 0, 1)];
    let step = [day(1.0), free(), nb(0.0, 2.0, 4.0, 0.0), free(), gb(-INF, INF)];
    let of = |amounts: [Whole; 2], on: bool| allowed(&network, Sentinel::Infinity, &step, &amounts, &[on]);
    assert!(of([units(7.0), units(3.0)], true) && !of([over(7.0), units(3.0)], true) && !of([units(7.0), units(3.0)], false));
    assert!(of([units(5.0), units(3.0)], true) && !of([units(5.0), over(3.0)], true));
    assert!(of([units(5.0), units(5.0)], false) && !of([units(5.0), over(5.0)], false) && !of([units(5.0), units(5.0)], true));
}

/// A node obeys each of its sets: one that is off leaves 0. Listed twice in a set it obeys it as listed once.
#[test]
fn varying_nodes_in_several_sets() {
    let of = |sets: &[&[u16]], (lower, upper): (f64, f64), amount: Whole, on: &[bool]| {
        let network = [pair(), exclusive(sets, 0, 2)];
        let step = [day(1.0), nb(0.0, lower, upper, 0.0), nb(0.0, -9.0, 9.0, 0.0), gb(-INF, INF)];
        allowed(&network, Sentinel::Infinity, &step, &[amount], on)
    };
    let sets: [&[u16]; 2] = [&[0], &[0, 1]];
    assert!(of(&sets, (2.0, 5.0), units(4.0), &[true, true]) && !of(&sets, (2.0, 5.0), units(4.0), &[true, false]));
    assert!(!of(&sets, (2.0, 5.0), units(0.0), &[false, true]) && of(&sets, (2.0, 5.0), units(0.0), &[false, false]));
    assert!(of(&sets, (0.0, 5.0), units(0.0), &[false, true]) && !of(&sets, (0.0, 5.0), over(0.0), &[false, true]));
    let twice: [&[u16]; 1] = [&[0, 0]];
    assert!(of(&twice, (2.0, 5.0), units(5.0), &[true]) && !of(&twice, (2.0, 5.0), over(5.0), &[true]));
    assert!(of(&twice, (2.0, 5.0), units(2.0), &[true]) && !of(&twice, (2.0, 5.0), under(2.0), &[true]));
    assert!(of(&twice, (2.0, 5.0), units(0.0), &[false]) && !of(&twice, (2.0, 5.0), over(0.0), &[false]));
}

/// Volume 30 in a range of 10 to 100, 2 days: from -10 to 35.
#[test]
fn storages() {
    let gives = |amount| {
        let step = [day(2.0), nb(0.0, 10.0, 100.0, 30.0), free()];
        allowed(&giving(), Sentinel::Infinity, &step, &[amount], &[])
    };
    assert!(gives(units(10.0)) && !gives(over(10.0)));
    let takes = |amount| {
        let step = [day(2.0), free(), nb(0.0, 10.0, 100.0, 30.0)];
        allowed(&[nd(INPUT), nd(STORAGE), ed(0, 1)], Sentinel::Infinity, &step, &[amount], &[])
    };
    assert!(takes(units(35.0)) && !takes(over(35.0)));
    // A third of a day's worth is the nearest double's.
    let third = |amount| {
        let step = [day(3.0), nb(0.0, 0.0, 1.0, 1.0), free()];
        allowed(&giving(), Sentinel::Infinity, &step, &[amount], &[])
    };
    assert!(third(units(1.0 / 3.0)) && !third(over(1.0 / 3.0)));
}

/// 4 left of 10, from November to mid-February.
#[test]
fn virtual_storages_and_their_periods() {
    let of = |(month, date): (u8, u8), factor: f64, amount: Whole| {
        let network = [pair(), vs(Some([11, 1, 2, 15]), &[(0, factor)])];
        let step = [st(month, date, 1.0), free(), free(), vb(0.0, 10.0, 4.0)];
        allowed(&network, Sentinel::Infinity, &step, &[amount], &[])
    };
    assert!(of((12, 31), 1.0, units(4.0)) && !of((12, 31), 1.0, over(4.0)) && !of((2, 15), 1.0, over(4.0)));
    assert!(of((2, 16), 1.0, over(4.0)) && of((10, 31), 1.0, units(1e300)) && !of((11, 1), 1.0, over(4.0)));
    assert!(of((1, 1), -1.0, units(6.0)) && !of((1, 1), -1.0, over(6.0)));
    assert!(of((1, 1), 0.75, units(5.25)) && !of((1, 1), 0.75, units(5.5)));
    // Overdrawn or overfull, it lets nothing pass on that side.
    let full = |min: f64, max: f64, factor: f64, amount: Whole| {
        let step = [day(1.0), free(), free(), vb(min, max, 4.0)];
        allowed(&[pair(), vs(None, &[(0, factor)])], Sentinel::Infinity, &step, &[amount], &[])
    };
    assert!(full(5.0, 10.0, 1.0, units(0.0)) && !full(5.0, 10.0, 1.0, over(0.0)) && full(5.0, 10.0, -1.0, units(6.0)));
    assert!(full(0.0, 3.0, -1.0, units(0.0)) && !full(0.0, 3.0, -1.0, over(0.0)));
}
