//! The correctly rounded norm (document 01, "Arithmetic under everything"): the binary64 nearest to the root of re² + im², ties to the even
//! significand, found in integers of 256 bits.

/// 256 bits, the high half first, so that the derived order is the order of numbers.
#[derive(Debug, Clone, Copy, PartialEq, Eq, PartialOrd, Ord)]
struct Wide(u128, u128);

const LOW: u128 = u64::MAX as u128;

impl Wide {
    fn square(x: u128) -> Self {
        let (high, low) = (x >> 64, x & LOW);
        let cross = high * low;
        let (sum, first) = (low * low).overflowing_add(cross << 64);
        let (sum, second) = sum.overflowing_add(cross << 64);
        Self(high * high + 2 * (cross >> 64) + first as u128 + second as u128, sum)
    }

    fn plus(self, o: Self) -> Self {
        let (low, carry) = self.1.overflowing_add(o.1);
        Self(self.0 + o.0 + carry as u128, low)
    }

    fn leading_zeros(self) -> u32 {
        if self.0 > 0 {
            self.0.leading_zeros()
        } else {
            128 + self.1.leading_zeros()
        }
    }

    fn shifted(self, count: u32) -> Self {
        match count {
            0 => self,
            1..=127 => Self(self.0 << count | self.1 >> (128 - count), self.1 << count),
            _ => Self(self.1 << (count - 128), 0),
        }
    }

    /// The root, rounded down.
    fn root(self) -> u128 {
        (0..128).rev().fold(0, |root, bit| {
            let more = root | 1 << bit;
            if Self::square(more) <= self {
                more
            } else {
                root
            }
        })
    }
}

/// x = significand · 2^exponent, for finite x of no sign.
fn split(x: f64) -> (u128, i32) {
    let bits = x.to_bits();
    let fraction = (bits & ((1 << 52) - 1)) as u128;
    match (bits >> 52) as i32 {
        0 => (fraction, -1074),
        field => (fraction | 1 << 52, field - 1075),
    }
}

/// significand · 2^exponent, where the significand has at most 53 bits or is 2^53, and fewer than 53 only at the least exponent.
fn join(significand: u64, exponent: i32) -> f64 {
    let (significand, exponent) = if significand == 1 << 53 { (1 << 52, exponent + 1) } else { (significand, exponent) };
    if exponent > 971 {
        return f64::INFINITY;
    }
    let field = if significand < 1 << 52 { 0 } else { (exponent + 1075) as u64 };
    f64::from_bits(field << 52 | significand & ((1 << 52) - 1))
}

pub fn norm(re: f64, im: f64) -> f64 {
    if re.is_infinite() || im.is_infinite() {
        return f64::INFINITY;
    }
    if re.is_nan() || im.is_nan() {
        return f64::NAN;
    }
    let (re, im) = (re.abs(), im.abs());
    let (more, less) = if re < im { (im, re) } else { (re, im) };
    let ((a, high), (b, low)) = (split(more), split(less));
    // The root is within less²/2·more of the larger part: not half a unit of its last place.
    if b == 0 || high - low > 64 {
        return more;
    }
    let sum = Wide::square(a << (high - low)).plus(Wide::square(b));
    // A root of 128 bits, and whether something is left below it.
    let shift = sum.leading_zeros() & !1;
    let wide = sum.shifted(shift);
    let root = wide.root();
    let rest = Wide::square(root) < wide;
    // 53 bits stay, fewer where the least exponent is reached.
    let exponent = low - shift as i32 / 2;
    let drop = (-1074 - exponent).max(75);
    let (kept, tail, half) = (root >> drop, root & ((1 << drop) - 1), 1 << (drop - 1));
    let up = tail > half || tail == half && (rest || kept & 1 == 1);
    join(kept as u64 + up as u64, exponent + drop)
}

#[cfg(test)]
mod tests {
    use super::norm;

    const U: f64 = f64::from_bits(1);

    fn is(re: f64, im: f64, expected: f64) {
        for (re, im) in [(re, im), (im, re), (-re, im), (re, -im)] {
            assert_eq!(norm(re, im).to_bits(), expected.to_bits(), "norm of {re:e}, {im:e}");
        }
    }

    fn power(n: i32) -> f64 {
        2f64.powi(n)
    }

    #[test]
    fn bench_cases() {
        is(3.0, 4.0, 5.0);
        is(-0.0, 0.0, 0.0);
        is(2.0 * U, 2.0 * U, 3.0 * U);
        is(f64::MAX, f64::MAX, f64::INFINITY);
        let (re, im) = (power(53) - power(26) - 1.0, 6.0 * power(50) + 6.0 * power(25));
        is(re, im, 10.0 * power(50) + power(26));
    }

    #[test]
    fn ends() {
        is(U, 0.0, U);
        is(U, U, U);
        is(f64::MAX, 0.0, f64::MAX);
        is(f64::MAX, U, f64::MAX);
        is(f64::MAX, power(997), f64::MAX);
        is(f64::MAX, power(998), f64::INFINITY);
        is(3.0 * power(-1074), 4.0 * power(-1074), 5.0 * power(-1074));
        is(3.0 * power(1000), 4.0 * power(1000), 5.0 * power(1000));
        is(f64::INFINITY, f64::NAN, f64::INFINITY);
        assert!(norm(f64::NAN, 1.0).is_nan());
    }

    /// The platform's hypot is at most one unit of the last place away.
    #[test]
    fn near_hypot() {
        let mut n = 0x9e37_79b9_7f4a_7c15_u64;
        let mut next = || {
            n ^= n << 13;
            n ^= n >> 7;
            n ^= n << 17;
            n
        };
        for _ in 0..20_000 {
            let re = f64::from_bits(next() >> 1);
            let im = f64::from_bits((re.to_bits() & 0x7ff << 52).wrapping_add((next() % 80) << 52) & (u64::MAX >> 1) | next() >> 12);
            let (here, there) = (norm(re, im), re.hypot(im));
            let far = here.to_bits().abs_diff(there.to_bits());
            assert!(far <= 1 || here.is_nan() && there.is_nan(), "norm of {re:e}, {im:e}: {here:e}, {there:e}");
        }
    }
}
