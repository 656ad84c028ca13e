//! hypot as document 01 defines it: the f32 nearest the exact root of the sum
//! of squares, ties to even, by whole numbers.
use player::float;

/// The parts of a number without its sign.
fn parts(x: f32) -> (u128, i32) {
    let (m, e) = float::parts(x);
    (m.unsigned_abs(), e)
}

pub fn nearest_hypot(a: f32, b: f32) -> f32 {
    if a.is_infinite() || b.is_infinite() {
        return f32::INFINITY;
    }
    if a.is_nan() || b.is_nan() {
        return f32::NAN;
    }
    let (a, b) = (a.abs(), b.abs());
    let (great, small) = (a.max(b), a.min(b));
    let ((m, e), (n, f)) = (parts(great), parts(small));
    let apart = e - f;
    if apart >= 13 {
        // Here e > -149, so that m >= 2^23. The root is above m * 2^e by less than
        // small^2 / (2 * great) < 2^(48 + 2 * f) / 2^(24 + e) = 2^(24 - 2 * apart + e),
        // which is less than half a step of 2^e.
        return great;
    }
    // The root is that of `sum` in units of 2^f: at most 73 bits.
    let sum = (m << apart).pow(2) + n * n;
    // 26 binary places more, so that the bits past an f32's tell where the
    // root lies: 125 bits at most.
    let scaled = sum << 52;
    let root = scaled.isqrt();
    rounded(root, root * root != scaled, f - 26)
}

/// The f32 nearest q * 2^e, or a number just above it if `more`; q is 0 or
/// has more than 25 bits.
fn rounded(q: u128, more: bool, e: i32) -> f32 {
    if q == 0 {
        return 0.;
    }
    let length = 128 - q.leading_zeros() as i32;
    // The exponent of the last bit kept.
    let last = (e + length - 24).max(-149);
    let cut = (last - e) as u32;
    let (kept, past) = (q >> cut, q & ((1 << cut) - 1));
    let half = 1 << (cut - 1);
    let up = past > half || past == half && (more || kept % 2 == 1);
    // The exponent's field is one more than last + 149 because of kept's own
    // leading bit, which also carries into it.
    let bits = (kept as u32 + up as u32) + (((last + 149) as u32) << 23);
    f32::from_bits(bits.min(f32::INFINITY.to_bits()))
}

#[cfg(test)]
mod tests {
    use super::*;
    use crate::{hypot, random::Random};

    #[test]
    fn known_values() {
        let bits = |a, b| nearest_hypot(f32::from_bits(a), f32::from_bits(b)).to_bits();
        assert_eq!(bits(0x43A0_612B, 0x3DCA_A02D), 0x43A0_612B);
        assert_eq!(nearest_hypot(3., -4.), 5.);
        assert_eq!(nearest_hypot(-0., 0.), 0.);
        assert_eq!(nearest_hypot(f32::MAX, f32::MAX), f32::INFINITY);
        assert_eq!(nearest_hypot(f32::MAX, 1.), f32::MAX);
        assert_eq!(nearest_hypot(f32::NAN, f32::NEG_INFINITY), f32::INFINITY);
        assert!(nearest_hypot(f32::NAN, 1.).is_nan());
        // 3 and 4 steps of the least number, and 1 and 1: the root of 2 is nearest 1.
        assert_eq!(bits(3, 4), 5);
        assert_eq!(bits(1, 1), 1);
    }

    /// The answer against the definition: no f32 is nearer the root, and at a
    /// tie it is even. In units of half a step of the smaller side, squared.
    fn is_nearest(a: f32, b: f32) {
        let (great, small) = (a.abs().max(b.abs()), a.abs().min(b.abs()));
        let ((m, e), (n, f)) = (parts(great), parts(small));
        let answer = nearest_hypot(a, b);
        if e - f > 36 || answer.is_infinite() {
            return;
        }
        let sum = 4 * ((m << (e - f)).pow(2) + n * n);
        let (k, g) = parts(answer);
        // The midpoints with the next f32 up and down; down, it may be half as far.
        let step = 1 << (g - f);
        let twice = 2 * (k << (g - f));
        let above = twice + step;
        assert!(
            sum < above * above || sum == above * above && k % 2 == 0,
            "{a:e} {b:e}"
        );
        if k > 0 {
            let (j, d) = parts(answer.next_down());
            let below = if d < f {
                twice
            } else {
                (k << (g - f)) + (j << (d - f))
            };
            assert!(
                sum > below * below || sum == below * below && k % 2 == 0,
                "{a:e} {b:e}"
            );
        }
    }

    #[test]
    fn answers_are_nearest() {
        let r = &mut Random::new(1);
        for (_, pair) in hypot::KINDS {
            for _ in 0..200_000 {
                let (a, b) = pair(r);
                if a.is_finite() && b.is_finite() {
                    is_nearest(a, b);
                }
            }
        }
    }
}
