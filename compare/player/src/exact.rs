//! Numbers without rounding: a finite f32 is a whole number of 2^-149.
use crate::float::parts;
use std::ops::{Add, Sub};

/// Three digits in base 2^100, the highest first, in units of 2^-149. The last
/// two are at least 0 and below 2^100, so that the digits are ordered as the
/// numbers are; the first has the sign.
#[derive(Clone, Copy, Debug, PartialEq, Eq, PartialOrd, Ord)]
pub struct Exact([i128; 3]);

const DIGIT: u32 = 100;

impl Exact {
    pub const ZERO: Self = Self([0; 3]);
    pub const HALF: Self = Self([0, 1 << (148 - DIGIT), 0]);

    /// Carries to the next digit what is more than one holds, or less than 0.
    fn new([high, middle, low]: [i128; 3]) -> Self {
        const MOST: i128 = (1 << DIGIT) - 1;
        let middle = middle + (low >> DIGIT);
        let high = high + (middle >> DIGIT);
        Self([high, middle & MOST, low & MOST])
    }
    /// The number that a finite f32 is. Below 2^277 units, its highest digit is
    /// below 2^77: sums of a few, times a few thousand, have room.
    pub fn of(x: f32) -> Option<Self> {
        let (m, e) = parts(x);
        let shift = (e + 149) as u32;
        let mut digits = [0; 3];
        digits[2 - (shift / DIGIT) as usize] = m << (shift % DIGIT);
        x.is_finite().then(|| Self::new(digits))
    }
    /// Times a whole number below 2^20 in size.
    pub fn times(self, k: i128) -> Self {
        Self::new(self.0.map(|digit| digit * k))
    }
    /// The greatest whole number not above it. It panics if an i128 does not
    /// hold that.
    pub fn floor(self) -> i128 {
        let [high, middle, _] = self.0;
        // 1 is 2^149: of the middle digit's units 2^49, and the high one's is 2^51.
        high.checked_mul(1 << 51).expect("below 2^127") + (middle >> 49)
    }
    /// About how much it is, for printing.
    pub fn about(self) -> f64 {
        if self < Self::ZERO {
            return -(Self::ZERO - self).about();
        }
        let [high, middle, low] = self.0.map(|digit| digit as f64);
        high * 2f64.powi(51) + middle * 2f64.powi(-49) + low * 2f64.powi(-149)
    }
}

impl Add for Exact {
    type Output = Self;
    fn add(self, other: Self) -> Self {
        let ([a, b, c], [d, e, f]) = (self.0, other.0);
        Self::new([a + d, b + e, c + f])
    }
}

impl Sub for Exact {
    type Output = Self;
    fn sub(self, other: Self) -> Self {
        let ([a, b, c], [d, e, f]) = (self.0, other.0);
        Self::new([a - d, b - e, c - f])
    }
}

#[cfg(test)]
mod tests {
    use super::*;

    fn exact(x: f32) -> Exact {
        Exact::of(x).expect("a finite number")
    }

    /// Bit patterns that are spread over all.
    fn patterns() -> impl Iterator<Item = u32> {
        (0..100_000u32).map(|i| i.wrapping_mul(0x9E37_79B9))
    }

    /// Whole numbers of 2^-20 below 2^20 are exact in f64, and so are their
    /// sums, differences and products with small numbers.
    #[test]
    fn calculates_as_f64_does_where_that_is_exact() {
        let some = |n: u32, by: f32| ((n >> 8) as f32 - 8388608.) / by;
        for n in patterns() {
            let by = if n & 1 == 0 { 1048576. } else { 8. };
            let (a, b) = (some(n, by), some(n.reverse_bits(), 1048576.));
            let k = i32::from(n as i8);
            let (x, y) = (f64::from(a), f64::from(b));
            assert_eq!((exact(a) + exact(b)).about(), x + y);
            assert_eq!((exact(a) - exact(b)).about(), x - y);
            assert_eq!(exact(a).times(k.into()).about(), x * f64::from(k));
            assert_eq!(exact(a).cmp(&exact(b)), (a + 0.).total_cmp(&(b + 0.)));
            assert_eq!((exact(a) + exact(b)).floor(), (x + y).floor() as i128);
        }
    }

    /// Of every size that an f32 has.
    #[test]
    fn keeps_every_bit() {
        let least = f32::from_bits(1);
        for n in patterns() {
            let x = f32::from_bits(n);
            if !x.is_finite() {
                assert_eq!(Exact::of(x), None);
                continue;
            }
            assert_eq!(exact(x / 2.).times(2), exact(x / 2. * 2.));
            assert!(exact(x) + exact(least) > exact(x));
            assert_eq!(exact(x) + exact(least) - exact(x), exact(least));
            assert_eq!(exact(x) - exact(x), Exact::ZERO);
            assert!(exact(x) > exact(x.next_down().max(f32::MIN)) || x == f32::MIN);
            assert_eq!(exact(x).about(), f64::from(x));
        }
        assert_eq!(exact(0.5), Exact::HALF);
    }
}
