//! Exact arithmetic: beside i128, beside what doubles tell of their own rounding, and the laws that it must have.
use pywr_reference::exact::{BITS_OF_ONE, Whole};
use pywr_reference::random::Random;

fn whole(n: i128) -> Whole {
    Whole::from(n)
}

/// Numbers of every length up to 61 bits, both signs.
fn short(r: &mut Random) -> i128 {
    let n = (r.bits() >> r.between(3, 63)) as i128;
    if r.chance(50) { -n } else { n }
}

/// Finite doubles of every exponent.
fn double(r: &mut Random) -> f64 {
    Some(f64::from_bits(r.bits())).filter(|x| x.is_finite()).unwrap_or(0.0)
}

/// Doubles whose sums and products neither overflow nor underflow.
fn middling(r: &mut Random) -> f64 {
    let exponent = 1023 - 150 + r.below(300) as u64;
    f64::from_bits(r.bits() & !(0x7ff << 52) | exponent << 52)
}

fn units(x: f64) -> Whole {
    Whole::of_double(x)
}

fn magnitude(a: &Whole) -> Whole {
    if a.is_negative() { -a } else { a.clone() }
}

#[test]
fn as_i128_has_it() {
    let r = &mut Random::new(1);
    for _ in 0..20_000 {
        let (a, b) = (short(r), short(r));
        assert_eq!(&whole(a) + &whole(b), whole(a + b));
        assert_eq!(&whole(a) - &whole(b), whole(a - b));
        assert_eq!(&whole(a) * &whole(b), whole(a * b));
        assert_eq!(-&whole(a), whole(-a));
        assert_eq!(whole(a).cmp(&whole(b)), a.cmp(&b));
        assert_eq!(whole(a).is_negative(), a < 0);
        let bits = r.below(60);
        assert_eq!(whole(a).shifted(bits), whole(a << bits));
        assert_eq!(whole(a).is_multiple_of_power(bits), a % (1 << bits) == 0);
        assert_eq!(whole(a * b).divided_by(&whole(b)), (b != 0).then(|| whole(a)));
        assert_eq!(whole(a).divided_by(&whole(b)), (b != 0).then(|| whole(a / b)));
    }
    assert!(whole(0).is_zero() && !(-&whole(0)).is_negative() && (&whole(7) - &whole(7)).is_zero());
}

#[test]
fn units_of_doubles() {
    assert_eq!(units(f64::from_bits(1)), whole(1));
    assert_eq!(units(f64::MIN_POSITIVE), whole(1 << 52));
    assert_eq!(units(-1.0), whole(-1).shifted(BITS_OF_ONE));
    assert_eq!(units(0.75), whole(3).shifted(BITS_OF_ONE - 2));
    assert_eq!(units(f64::MAX), whole((1 << 53) - 1).shifted(2045));
    assert!(units(0.0).is_zero() && units(-0.0).is_zero());
    assert!(std::panic::catch_unwind(|| units(f64::INFINITY)).is_err() && std::panic::catch_unwind(|| units(f64::NAN)).is_err());
    let r = &mut Random::new(2);
    for _ in 0..20_000 {
        let (a, b) = (double(r), double(r));
        assert_eq!(units(a).partial_cmp(&units(b)), a.partial_cmp(&b));
        assert!(a == f64::MAX || units(a) < units(a.next_up()));
    }
}

/// A sum of two doubles is its rounding and a rest that is a double too; so is a product.
#[test]
fn sums_and_products_with_the_rests_of_their_roundings() {
    let r = &mut Random::new(3);
    for _ in 0..20_000 {
        let a = middling(r);
        let b = if r.chance(50) { middling(r) } else { a * (r.below(64) as f64 - 32.0) };
        let sum = a + b;
        let of_b = sum - a;
        let rest = (a - (sum - of_b)) + (b - of_b);
        assert_eq!(&units(a) + &units(b), &units(sum) + &units(rest));
        let product = a * b;
        let rest = a.mul_add(b, -product);
        assert_eq!(&units(a) * &units(b), (&units(product) + &units(rest)).shifted(BITS_OF_ONE));
    }
}

#[test]
fn laws_over_the_whole_range() {
    let r = &mut Random::new(4);
    for _ in 0..5000 {
        let [a, b, c] = std::array::from_fn(|_| &units(double(r)) + &units(double(r)));
        assert_eq!(&(&a + &b) - &b, a);
        assert_eq!(&(&a + &b) + &c, &a + &(&b + &c));
        assert_eq!(&(&a + &b) * &c, &(&a * &c) + &(&b * &c));
        assert_eq!(&a * &b, &b * &a);
        assert_eq!(a < b, (&a - &b).is_negative());
        let divisor = whole(short(r)).shifted(r.below(2000));
        assert_eq!((&a * &divisor).divided_by(&divisor), (!divisor.is_zero()).then_some(a));
    }
    assert_eq!(whole(1).divided_by(&whole(1 << 64 | 1)), None);
}

/// The quotient of numbers of several limbs is towards 0: the rest is under the divisor in magnitude and has not the other sign.
#[test]
fn quotients_with_a_rest() {
    let r = &mut Random::new(5);
    let mut rests = 0;
    for _ in 0..20_000 {
        let a = &(&units(double(r)) * &units(double(r))) + &units(double(r));
        let limb = whole((r.bits() >> r.below(64)) as i128).shifted(r.below(2000));
        let divisor = if r.chance(50) { -&limb } else { limb };
        let Some(quotient) = a.divided_by(&divisor) else {
            assert!(divisor.is_zero());
            continue;
        };
        let rest = &a - &(&quotient * &divisor);
        assert!(magnitude(&rest) < magnitude(&divisor), "{a} by {divisor}: {quotient}");
        assert!(rest.is_zero() || rest.is_negative() == a.is_negative(), "{a} by {divisor}: {quotient}");
        rests += (!rest.is_zero() && magnitude(&quotient) > whole(1).shifted(128)) as usize;
    }
    assert!(rests > 10_000, "{rests}");
}

#[test]
fn text() {
    assert_eq!([0, 12, -5, 1 << 70 | 1].map(|n| whole(n).to_string()), ["0", "0x3p2", "-0x5p0", "0x400000000000000001p0"]);
}
