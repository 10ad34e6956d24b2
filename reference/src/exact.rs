//! Whole numbers of any size, with a sign. A finite double is a whole number of units of 2^-1074, and a product of two doubles is a whole number
//! of units of 2^-2148, so sums of doubles and sums of products are exact.
use std::cmp::Ordering;
use std::fmt;
use std::iter::Sum;
use std::ops::{Add, Mul, Neg, Sub};

/// 1 is 2^BITS_OF_ONE units of 2^-1074.
pub const BITS_OF_ONE: usize = 1074;

#[derive(Debug, Clone, Default, PartialEq, Eq, Hash)]
pub struct Whole {
    negative: bool,
    /// The magnitude, lowest limb first. The last limb is not 0; zero has no limb and no sign.
    limbs: Vec<u64>,
}

impl Whole {
    pub fn zero() -> Self {
        Self::default()
    }

    fn new(negative: bool, mut limbs: Vec<u64>) -> Self {
        while limbs.last() == Some(&0) {
            limbs.pop();
        }
        Self { negative: negative && !limbs.is_empty(), limbs }
    }

    /// A finite double in units of 2^-1074.
    pub fn of_double(x: f64) -> Self {
        assert!(x.is_finite(), "{x} is no number of units");
        let exponent = (x.to_bits() >> 52 & 0x7ff) as usize;
        let fraction = (x.to_bits() & ((1 << 52) - 1)) as i128;
        let magnitude = if exponent == 0 { Self::from(fraction) } else { Self::from(fraction | 1 << 52).shifted(exponent - 1) };
        if x < 0.0 { -&magnitude } else { magnitude }
    }

    pub fn is_zero(&self) -> bool {
        self.limbs.is_empty()
    }

    pub fn is_negative(&self) -> bool {
        self.negative
    }

    /// Times 2^bits.
    pub fn shifted(&self, bits: usize) -> Self {
        let (limbs, bits) = (bits / 64, bits % 64);
        let mut shifted = vec![0; limbs + self.limbs.len() + 1];
        for (i, &limb) in self.limbs.iter().enumerate() {
            let wide = (limb as u128) << bits;
            shifted[limbs + i] |= wide as u64;
            shifted[limbs + i + 1] = (wide >> 64) as u64;
        }
        Self::new(self.negative, shifted)
    }

    /// Whether it is a whole multiple of 2^bits.
    pub fn is_multiple_of_power(&self, bits: usize) -> bool {
        self.is_zero() || self.trailing_zeros() >= bits
    }

    /// Of a number that is not 0.
    fn trailing_zeros(&self) -> usize {
        let limb = self.limbs.iter().position(|&limb| limb != 0).unwrap();
        64 * limb + self.limbs[limb].trailing_zeros() as usize
    }

    /// Divided by 2^bits, towards 0.
    fn shifted_back(&self, bits: usize) -> Self {
        let (limbs, bits) = (bits / 64, bits % 64);
        let kept = self.limbs.get(limbs..).unwrap_or(&[]);
        let next = |i: usize| *kept.get(i + 1).unwrap_or(&0) as u128;
        let shifted = kept.iter().enumerate().map(|(i, &limb)| ((next(i) << 64 | limb as u128) >> bits) as u64);
        Self::new(self.negative, shifted.collect())
    }

    /// The quotient towards 0, for a divisor that has one limb if its trailing zero bits are left out.
    pub fn divided_by(&self, divisor: &Self) -> Option<Self> {
        if divisor.is_zero() {
            return None;
        }
        let zeros = divisor.trailing_zeros();
        let [odd] = divisor.shifted_back(zeros).limbs[..] else { return None };
        let mut quotient = self.shifted_back(zeros).limbs;
        let mut rest = 0;
        for limb in quotient.iter_mut().rev() {
            let wide = rest << 64 | *limb as u128;
            *limb = (wide / odd as u128) as u64;
            rest = wide % odd as u128;
        }
        Some(Self::new(self.negative != divisor.negative, quotient))
    }
}

impl From<i128> for Whole {
    fn from(number: i128) -> Self {
        let magnitude = number.unsigned_abs();
        Self::new(number < 0, vec![magnitude as u64, (magnitude >> 64) as u64])
    }
}

fn compare(a: &[u64], b: &[u64]) -> Ordering {
    a.len().cmp(&b.len()).then_with(|| a.iter().rev().cmp(b.iter().rev()))
}

fn sum(a: &[u64], b: &[u64]) -> Vec<u64> {
    let (long, short) = if a.len() < b.len() { (b, a) } else { (a, b) };
    let mut limbs = Vec::with_capacity(long.len() + 1);
    let mut carry = false;
    for (i, &limb) in long.iter().enumerate() {
        let (with_short, over) = limb.overflowing_add(*short.get(i).unwrap_or(&0));
        let (with_carry, over_again) = with_short.overflowing_add(carry as u64);
        limbs.push(with_carry);
        carry = over || over_again;
    }
    limbs.push(carry as u64);
    limbs
}

/// Of a number and one that is not over it.
fn difference(large: &[u64], small: &[u64]) -> Vec<u64> {
    let mut limbs = large.to_vec();
    let mut borrow = false;
    for (i, limb) in limbs.iter_mut().enumerate() {
        let (less_small, under) = limb.overflowing_sub(*small.get(i).unwrap_or(&0));
        let (less_borrow, under_again) = less_small.overflowing_sub(borrow as u64);
        (*limb, borrow) = (less_borrow, under || under_again);
    }
    limbs
}

/// Limbs of 0 are passed over: a double has at most two others.
fn product(a: &[u64], b: &[u64]) -> Vec<u64> {
    if a.is_empty() || b.is_empty() {
        return Vec::new();
    }
    let mut limbs = vec![0; a.len() + b.len()];
    for (i, &x) in a.iter().enumerate().filter(|(_, x)| **x != 0) {
        let mut carry = 0;
        for (j, &y) in b.iter().enumerate() {
            let wide = x as u128 * y as u128 + limbs[i + j] as u128 + carry;
            limbs[i + j] = wide as u64;
            carry = wide >> 64;
        }
        limbs[i + b.len()] = carry as u64;
    }
    limbs
}

impl Neg for &Whole {
    type Output = Whole;

    fn neg(self) -> Whole {
        Whole::new(!self.negative, self.limbs.clone())
    }
}

impl Add for &Whole {
    type Output = Whole;

    fn add(self, other: &Whole) -> Whole {
        if self.negative == other.negative {
            return Whole::new(self.negative, sum(&self.limbs, &other.limbs));
        }
        match compare(&self.limbs, &other.limbs) {
            Ordering::Less => Whole::new(other.negative, difference(&other.limbs, &self.limbs)),
            _ => Whole::new(self.negative, difference(&self.limbs, &other.limbs)),
        }
    }
}

impl Sub for &Whole {
    type Output = Whole;

    fn sub(self, other: &Whole) -> Whole {
        self + &-other
    }
}

impl Mul for &Whole {
    type Output = Whole;

    fn mul(self, other: &Whole) -> Whole {
        Whole::new(self.negative != other.negative, product(&self.limbs, &other.limbs))
    }
}

impl Sum for Whole {
    fn sum<I: Iterator<Item = Whole>>(parts: I) -> Whole {
        parts.fold(Whole::zero(), |sum, part| &sum + &part)
    }
}

impl<'a> Sum<&'a Whole> for Whole {
    fn sum<I: Iterator<Item = &'a Whole>>(parts: I) -> Whole {
        parts.fold(Whole::zero(), |sum, part| &sum + part)
    }
}

impl Ord for Whole {
    fn cmp(&self, other: &Self) -> Ordering {
        match (self.negative, other.negative) {
            (false, false) => compare(&self.limbs, &other.limbs),
            (true, true) => compare(&other.limbs, &self.limbs),
            (negative, _) => {
                if negative {
                    Ordering::Less
                } else {
                    Ordering::Greater
                }
            }
        }
    }
}

impl PartialOrd for Whole {
    fn partial_cmp(&self, other: &Self) -> Option<Ordering> {
        Some(self.cmp(other))
    }
}

/// In hexadecimal, times a power of two: 12 is `0x3p2`.
impl fmt::Display for Whole {
    fn fmt(&self, f: &mut fmt::Formatter<'_>) -> fmt::Result {
        if self.is_zero() {
            return write!(f, "0");
        }
        let zeros = self.trailing_zeros();
        let odd = self.shifted_back(zeros).limbs;
        let (last, lower) = odd.split_last().unwrap();
        let digits: String = lower.iter().rev().map(|limb| format!("{limb:016x}")).collect();
        write!(f, "{}0x{last:x}{digits}p{zeros}", if self.negative { "-" } else { "" })
    }
}
