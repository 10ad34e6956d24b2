//! Doubles: everyday ones, those at each limit of document 01, infinities and subnormals.
use crate::flow_costs::MOST;
use crate::random::Random;

const LEAST: f64 = f64::from_bits(1);
const LARGEST_SUBNORMAL: f64 = f64::from_bits(0x000f_ffff_ffff_ffff);
const MOST_1024THS: usize = 1_024_000_000;

/// A flow bound: anything but NaN.
pub fn flow(r: &mut Random) -> f64 {
    let limits = [
        0.0,
        -0.0,
        1.0,
        5.0,
        48.5,
        0.1,
        1e-6,
        1e-6_f64.next_up(),
        1e-6_f64.next_down(),
        1e-7,
        1e6,
        1e6_f64.next_up(),
        1e6_f64.next_down(),
        2e6,
        1e300,
        -1.0,
        -3.0,
        -1e-6,
        LEAST,
        -LEAST,
        LARGEST_SUBNORMAL,
        f64::MIN_POSITIVE,
        f64::MAX,
        f64::MIN,
        f64::MAX.next_down(),
        f64::INFINITY,
        f64::NEG_INFINITY,
    ];
    match r.below(10) {
        0..5 => everyday(r),
        5..9 => *r.pick(&limits),
        _ => Some(f64::from_bits(r.bits())).filter(|x| !x.is_nan()).unwrap_or(0.0),
    }
}

/// A lower and an upper bound, in order.
pub fn interval(r: &mut Random) -> (f64, f64) {
    let (a, b) = match r.below(10) {
        0 => (0.0, f64::INFINITY),
        1..4 => (0.0, everyday(r).abs()),
        4 => {
            let x = flow(r);
            (x, x)
        }
        _ => (flow(r), flow(r)),
    };
    if a > b { (b, a) } else { (a, b) }
}

/// A lower and an upper bound, in order and within both sentinels.
pub fn interval_within(r: &mut Random) -> (f64, f64) {
    loop {
        let (lower, upper) = interval(r);
        if lower.abs() < f64::MAX && upper.abs() < f64::MAX {
            return (lower, upper);
        }
    }
}

/// At a sentinel, or the next double within it.
pub fn at_sentinel(r: &mut Random) -> f64 {
    let high = [f64::INFINITY, f64::MAX, f64::MAX.next_down()];
    let bound = *r.pick(&high);
    if r.chance(50) { bound } else { -bound }
}

/// A volume or a factor, and a cost in some steps: magnitude at most 1e12.
pub fn amount(r: &mut Random) -> f64 {
    let limits = [
        0.0,
        -0.0,
        1.0,
        -1.0,
        3.0,
        4.0,
        0.75,
        0.1,
        1.0 / 3.0,
        1e12,
        -1e12,
        1e12_f64.next_down(),
        LEAST,
        -LEAST,
        LARGEST_SUBNORMAL,
        f64::MIN_POSITIVE,
        1e-300,
        4503599627370497.0 / 8192.0,
    ];
    match r.below(10) {
        0..5 => everyday(r),
        5..9 => *r.pick(&limits),
        _ => Some(f64::from_bits(r.bits())).filter(|x| x.abs() <= 1e12).unwrap_or(2.0),
    }
}

/// How a step's costs are drawn, all of them in one way.
pub type DrawCost = fn(&mut Random) -> f64;

pub fn draw_cost(r: &mut Random) -> DrawCost {
    match r.below(100) {
        0..25 => whole_cost,
        25..55 => rounding_cost,
        55..80 => small_cost,
        _ => amount,
    }
}

fn of_either_sign(r: &mut Random, x: f64) -> f64 {
    if r.chance(50) { x } else { -x }
}

/// A whole number: few digits, or any up to 1e12.
fn whole_cost(r: &mut Random) -> f64 {
    let limits = [0.0, 1.0, 3.0, 1000.0, 1001.0, (1_u64 << 38) as f64, ((1_u64 << 39) - 1) as f64, 1e12 - 1.0, 1e12];
    let cost = match r.below(10) {
        0..4 => r.below(2001) as f64,
        4..7 => *r.pick(&limits),
        _ => (r.bits() % 1_000_000_000_001) as f64,
    };
    of_either_sign(r, cost)
}

/// Numbers that are lost in one another's sums: a sum shows in which order it was made.
fn rounding_cost(r: &mut Random) -> f64 {
    let (large, small) = ((1_u64 << 38) as f64, |bits: u32| 1.0 / (1_u64 << bits) as f64);
    let limits = [large, small(30), 1e12, small(12), small(13), small(11), 1.0, 1.0 / 3.0, 2e11 / 3.0, small(52), MOST.next_up()];
    let cost = if r.chance(70) { *r.pick(&limits) } else { r.below(3000) as f64 / 3.0 };
    if r.chance(15) { 0.0 } else { of_either_sign(r, cost) }
}

/// At most 1,000, with a fraction mostly.
fn small_cost(r: &mut Random) -> f64 {
    let least = 1.0 / (1 << 30) as f64;
    let limits = [MOST, MOST.next_down(), MOST - least, 1.0 / 3.0, 2000.0 / 3.0, least, 512.0, 0.1, LEAST, LARGEST_SUBNORMAL];
    let cost = match r.below(10) {
        0..4 => *r.pick(&limits),
        4..7 => r.below(3000) as f64 / 3.0,
        _ => r.below(1 << 31) as f64 / (1_u64 << 31) as f64 * MOST,
    };
    of_either_sign(r, cost)
}

/// A factor that is a whole multiple of 1/1024, at most 1,000,000 in magnitude.
pub fn in_1024ths(r: &mut Random) -> f64 {
    let least = 1.0 / 1024.0;
    let limits = [0.75, -0.75, 0.25, -0.5, 1.5, least, -least, 1.0 - least, 1e6, -1e6, 1e6 - least, least - 1e6];
    match r.below(10) {
        0..5 => *r.pick(&limits),
        5..7 => (r.below(8193) as f64 - 4096.0) / 1024.0,
        _ => (r.below(2 * MOST_1024THS + 1) as f64 - MOST_1024THS as f64) / 1024.0,
    }
}

/// A least and a greatest volume, in order.
pub fn volumes(r: &mut Random) -> (f64, f64) {
    let (a, b) = (amount(r), amount(r));
    if r.chance(10) {
        (a, a)
    } else if a > b {
        (b, a)
    } else {
        (a, b)
    }
}

pub fn days(r: &mut Random) -> f64 {
    let limits = [1.0 / 1024.0, (1.0_f64 / 1024.0).next_up(), 366.0, 366.0_f64.next_down(), 1.0, 2.0, 7.0, 0.1, 30.5, 1.0 / 3.0];
    if r.chance(70) { *r.pick(&limits) } else { 1.0 + r.below(365_000) as f64 / 1000.0 }
}

/// Any bits at all, NaN often: for numbers that are not read.
pub fn unread(r: &mut Random) -> f64 {
    match r.below(4) {
        0 => f64::NAN,
        1 => f64::from_bits(0xfff0_0000_0000_0001),
        2 => f64::NEG_INFINITY,
        _ => f64::from_bits(r.bits()),
    }
}

fn everyday(r: &mut Random) -> f64 {
    match r.below(4) {
        0 => r.below(10) as f64,
        1 => r.below(2000) as f64 - 1000.0,
        2 => r.below(100_000) as f64 / 1000.0,
        _ => r.below(1000) as f64 / 8.0,
    }
}
