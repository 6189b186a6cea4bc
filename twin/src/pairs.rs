//! Working numbers and pairs.
//!
//! Every operation here takes operands that are pairs and leaves the exponent's reach to `calls`: the equations of `page`
//! stay far inside it, and an `i32` holds what 256 terms of any series can reach.

use std::ops::{Add, Div, Mul};

/// Exponents run from −REACH to REACH.
pub const REACH: i32 = 99_999;
/// The least significand that is not 0.
pub const LEAST: u32 = 100_000_000;
/// The largest significand.
pub const MOST: u32 = 999_999_999;
/// The largest whole number of an entry: twelve digits, as many as a field has columns.
pub const MOST_PRINTED: u64 = 999_999_999_999;
/// The largest count in units: nineteen figures.
pub const MOST_UNITS: u64 = 9_999_999_999_999_999_999;

const TEN: [u64; 20] = {
    let mut t = [1; 20];
    let mut i = 1;
    while i < 20 {
        t[i] = t[i - 1] * 10;
        i += 1;
    }
    t
};

/// 0 (significand 0, exponent 0) or m × 10^e with nine figures in m.
#[derive(Clone, Copy, PartialEq, Eq, Debug)]
pub struct Working {
    pub m: u32,
    pub e: i32,
}

impl Working {
    pub const ZERO: Working = Working { m: 0, e: 0 };
    pub const ONE: Working = Working::entry(1, 0);

    /// The working number equal to digits × 10^power; digits at most MOST.
    pub const fn entry(digits: u32, power: i32) -> Working {
        cut(digits as u64, power).down()
    }

    pub const fn at_most(self, bound: Working) -> bool {
        if self.m == 0 || bound.m == 0 {
            return self.m == 0;
        }
        self.e < bound.e || (self.e == bound.e && self.m <= bound.m)
    }

    pub const fn in_reach(self) -> bool {
        -REACH <= self.e && self.e <= REACH
    }
}

/// An exact result cut to nine figures, and whether anything was cut off: both roundings follow from it.
#[derive(Clone, Copy)]
struct Cut {
    m: u32,
    e: i32,
    off: bool,
}

impl Cut {
    #[inline]
    const fn exact(w: Working) -> Cut {
        Cut { m: w.m, e: w.e, off: false }
    }

    #[inline]
    const fn down(self) -> Working {
        Working { m: self.m, e: self.e }
    }

    #[inline]
    const fn up(self) -> Working {
        let m = self.m + self.off as u32;
        if m > MOST {
            Working { m: LEAST, e: self.e + 1 }
        } else {
            Working { m, e: self.e }
        }
    }
}

/// n × 10^e.
#[inline]
const fn cut(n: u64, e: i32) -> Cut {
    if n == 0 {
        return Cut::exact(Working::ZERO);
    }
    let last = n.ilog10();
    if last <= 8 {
        let short = 8 - last;
        Cut { m: (n * TEN[short as usize]) as u32, e: e - short as i32, off: false }
    } else {
        let over = last - 8;
        let ten = TEN[over as usize];
        Cut { m: (n / ten) as u32, e: e + over as i32, off: n % ten != 0 }
    }
}

/// n × 10^e, for n of more figures than a `u64` holds too.
fn cut_long(n: u128, e: i32) -> Cut {
    if let Ok(n) = u64::try_from(n) {
        return cut(n, e);
    }
    let over = n.ilog10() - 8;
    let ten = 10u128.pow(over);
    let m = n / ten;
    Cut { m: m as u32, e: e + over as i32, off: m * ten != n }
}

#[inline]
fn add(a: Working, b: Working) -> Cut {
    if a.m == 0 {
        return Cut::exact(b);
    }
    if b.m == 0 {
        return Cut::exact(a);
    }
    let (a, b) = if a.e >= b.e { (a, b) } else { (b, a) };
    let gap = a.e - b.e;
    if gap >= 9 {
        // b is less than one of a's last place.
        return Cut { m: a.m, e: a.e, off: true };
    }
    let ten = TEN[gap as usize] as u32;
    let m = a.m + b.m / ten;
    let off = b.m % ten != 0;
    if m > MOST {
        Cut { m: m / 10, e: a.e + 1, off: off | (m % 10 != 0) }
    } else {
        Cut { m, e: a.e, off }
    }
}

#[inline]
fn mul(a: Working, b: Working) -> Cut {
    if a.m == 0 || b.m == 0 {
        return Cut::exact(Working::ZERO);
    }
    let p = a.m as u64 * b.m as u64;
    let e = a.e + b.e;
    // p has 17 or 18 figures.
    if p < TEN[17] {
        Cut { m: (p / TEN[8]) as u32, e: e + 8, off: p % TEN[8] != 0 }
    } else {
        Cut { m: (p / TEN[9]) as u32, e: e + 9, off: p % TEN[9] != 0 }
    }
}

/// b is not 0.
#[inline]
fn div(a: Working, b: Working) -> Cut {
    if a.m == 0 {
        return Cut::exact(Working::ZERO);
    }
    // Scaled so that the whole part has nine figures.
    let scale = if a.m >= b.m { 8 } else { 9 };
    let n = a.m as u64 * TEN[scale];
    let d = b.m as u64;
    Cut { m: (n / d) as u32, e: a.e - b.e - scale as i32, off: n % d != 0 }
}

/// 1 − digits × 10^power, which is at most 1; digits at most MOST_PRINTED.
#[inline]
fn rest(digits: u64, power: i32) -> Cut {
    if digits == 0 {
        return Cut::exact(Working::ONE);
    }
    if power >= -19 {
        return cut(TEN[-power as usize] - digits, power);
    }
    // Less than 1E-8 is taken from 1, so the ninth figure counts 1E-9: at 10^-20 that is 10^11 of the digits, further down
    // more than all of them.
    let ninth = TEN[if power == -20 { 11 } else { 12 }];
    Cut { m: MOST + 1 - digits.div_ceil(ninth) as u32, e: -9, off: digits % ninth != 0 }
}

/// Low end and high end, low ≤ high.
#[derive(Clone, Copy, PartialEq, Eq, Debug)]
pub struct Pair {
    pub low: Working,
    pub high: Working,
}

impl Pair {
    pub const ZERO: Pair = Pair::of(Working::ZERO);
    pub const ONE: Pair = Pair::of(Working::ONE);

    /// Equal ends.
    pub const fn of(w: Working) -> Pair {
        Pair { low: w, high: w }
    }

    /// The working numbers next to digits × 10^power, equal where it is one.
    #[inline]
    pub const fn entry(digits: u64, power: i32) -> Pair {
        let c = cut(digits, power);
        Pair { low: c.down(), high: c.up() }
    }

    /// The same of a number of up to 39 figures.
    pub fn long_entry(digits: u128, power: i32) -> Pair {
        let c = cut_long(digits, power);
        Pair { low: c.down(), high: c.up() }
    }

    /// 1 − f; the high end of f is at most 1.
    #[inline]
    pub fn one_minus(self) -> Pair {
        Pair { low: rest(self.high.m as u64, self.high.e).down(), high: rest(self.low.m as u64, self.low.e).up() }
    }

    /// 1 − digits × 10^power, which is at most 1; digits at most MOST_PRINTED.
    #[inline]
    pub fn one_minus_entry(digits: u64, power: i32) -> Pair {
        let c = rest(digits, power);
        Pair { low: c.down(), high: c.up() }
    }

    /// Counted in units of 10^unit, low end down and high end up; `None` above nineteen figures.
    #[inline]
    pub fn in_units(self, unit: i32) -> Option<(u64, u64)> {
        let (low, _) = count(self.low, unit)?;
        let (high, off) = count(self.high, unit)?;
        // A count with something cut off has at most nine figures, so one more fits.
        Some((low, high + off as u64))
    }

    pub const fn in_reach(self) -> bool {
        self.low.in_reach() && self.high.in_reach()
    }
}

#[inline]
fn count(w: Working, unit: i32) -> Option<(u64, bool)> {
    if w.m == 0 {
        return Some((0, false));
    }
    let m = w.m as u64;
    match w.e - unit {
        // Nine figures and up to ten zeros are at most MOST_UNITS.
        s @ 0..=10 => Some((m * TEN[s as usize], false)),
        s @ -8..=-1 => {
            let ten = TEN[-s as usize];
            Some((m / ten, m % ten != 0))
        }
        s if s < 0 => Some((0, true)),
        _ => None,
    }
}

impl Add for Pair {
    type Output = Pair;
    #[inline]
    fn add(self, b: Pair) -> Pair {
        Pair { low: add(self.low, b.low).down(), high: add(self.high, b.high).up() }
    }
}

impl Mul for Pair {
    type Output = Pair;
    #[inline]
    fn mul(self, b: Pair) -> Pair {
        Pair { low: mul(self.low, b.low).down(), high: mul(self.high, b.high).up() }
    }
}

/// The divisor's low end is not 0.
impl Div for Pair {
    type Output = Pair;
    #[inline]
    fn div(self, b: Pair) -> Pair {
        Pair { low: div(self.low, b.high).down(), high: div(self.high, b.low).up() }
    }
}

/// Terms of a series.
pub const TERMS: usize = 256;

/// The whole numbers of the series, n + 1 at place n.
static WHOLE: [Pair; TERMS + 1] = {
    let mut w = [Pair::ONE; TERMS + 1];
    let mut n = 0;
    while n <= TERMS {
        w[n] = Pair::entry(n as u64 + 1, 0);
        n += 1;
    }
    w
};

/// A series' terms added up, and its last term's high end once more: what the terms left out can come to is at most that.
#[inline]
fn closed(sum: Pair, last: Pair) -> Pair {
    Pair { low: sum.low, high: add(sum.high, last.high).up() }
}

/// φ at x, and whether every step stayed in the exponent's reach.
pub fn series(x: Pair) -> (Pair, bool) {
    let mut near = true;
    let mut t = Pair::ONE;
    let mut phi = t;
    for divisor in &WHOLE[1..TERMS] {
        let tx = t * x;
        t = tx / *divisor;
        phi = phi + t;
        near &= tx.in_reach() & t.in_reach() & phi.in_reach();
    }
    let phi = closed(phi, t);
    (phi, near && phi.in_reach())
}

/// ψ at x, and whether every step stayed in the exponent's reach.
pub fn mean_series(x: Pair) -> (Pair, bool) {
    let mut near = true;
    let mut s = Pair::entry(5, -1);
    let mut psi = s;
    // n, n + 1 and n + 2, for n from 1 to 255.
    for whole in WHOLE.windows(3) {
        let sx = s * x;
        let more = sx * whole[1];
        let less = more / whole[0];
        s = less / whole[2];
        psi = psi + s;
        near &= sx.in_reach() & more.in_reach() & less.in_reach() & s.in_reach() & psi.in_reach();
    }
    let psi = closed(psi, s);
    (psi, near && psi.in_reach())
}

/// φ and ψ at an x whose steps all stay in reach. Neither's step waits for the other's, so that the two take less time
/// together than one after the other.
pub fn both_series(x: Pair) -> (Pair, Pair) {
    let (mut t, mut s) = (Pair::ONE, Pair::entry(5, -1));
    let (mut phi, mut psi) = (t, s);
    for whole in WHOLE.windows(3) {
        t = t * x / whole[1];
        phi = phi + t;
        s = s * x * whole[1] / whole[0] / whole[2];
        psi = psi + s;
    }
    (closed(phi, t), closed(psi, s))
}

#[cfg(test)]
mod tests {
    use super::*;

    fn pair(lm: u32, le: i32, hm: u32, he: i32) -> Pair {
        Pair { low: Working { m: lm, e: le }, high: Working { m: hm, e: he } }
    }

    #[test]
    fn two_thirds() {
        let q = Pair::entry(2, 0) / Pair::entry(3, 0);
        assert_eq!(q, pair(666_666_666, -9, 666_666_667, -9));
    }

    #[test]
    fn one_minus_a_crumb() {
        let r = Pair::entry(1, -20).one_minus();
        assert_eq!(r, pair(999_999_999, -9, 100_000_000, -8));
        assert_eq!(Pair::ZERO.one_minus(), Pair::ONE);
        assert_eq!(Pair::ONE.one_minus(), Pair::ZERO);
        assert_eq!(Pair::entry(999_999_999, -9).one_minus(), Pair::entry(1, -9));
        // 1 − 1.00000001E-9 lies below 0.999999999.
        assert_eq!(Pair::entry(100_000_001, -17).one_minus(), pair(999_999_998, -9, 999_999_999, -9));
    }

    #[test]
    fn entries_of_more_than_nine_figures() {
        // 999999999.5
        assert_eq!(Pair::entry(9_999_999_995, -1), pair(999_999_999, 0, 100_000_000, 1));
        assert_eq!(Pair::entry(12_345_678_912, -10), pair(123_456_789, -8, 123_456_790, -8));
        assert_eq!(Pair::entry(999_999_999_500, -3), pair(999_999_999, 0, 100_000_000, 1));
        assert_eq!(Pair::entry(999_999_999_000, -3), pair(999_999_999, 0, 999_999_999, 0));
        assert_eq!(Pair::entry(MOST_PRINTED, 0), pair(999_999_999, 3, 100_000_000, 4));
        assert_eq!(Pair::entry(100_000_000_000, -11), Pair::ONE);
        assert_eq!(Pair::entry(0, 99), Pair::ZERO);
    }

    #[test]
    fn one_minus_printed_digits() {
        assert_eq!(Pair::one_minus_entry(99_999_999_999, -11), Pair::entry(1, -11));
        assert_eq!(Pair::one_minus_entry(MOST_PRINTED, -12), Pair::entry(1, -12));
        assert_eq!(Pair::one_minus_entry(1, -11), pair(999_999_999, -9, 100_000_000, -8));
        assert_eq!(Pair::one_minus_entry(10, -1), Pair::ZERO);
        assert_eq!(Pair::one_minus_entry(0, 99), Pair::ONE);
        assert_eq!(Pair::one_minus_entry(1, -REACH), pair(999_999_999, -9, 100_000_000, -8));
        // 1E-9 and 9E-9, all of twelve digits used.
        assert_eq!(Pair::one_minus_entry(100_000_000_000, -20), Pair::entry(999_999_999, -9));
        assert_eq!(Pair::one_minus_entry(900_000_000_000, -20), Pair::entry(999_999_991, -9));
        assert_eq!(Pair::one_minus_entry(900_000_000_001, -20), pair(999_999_990, -9, 999_999_991, -9));
    }

    /// n × 10^e cut figure by figure, without the table.
    fn slowly(mut n: u128, mut e: i32) -> Pair {
        if n == 0 {
            return Pair::ZERO;
        }
        let mut off = false;
        while n < LEAST as u128 {
            (n, e) = (10 * n, e - 1);
        }
        while n > MOST as u128 {
            (n, e, off) = (n / 10, e + 1, off | (n % 10 != 0));
        }
        let c = Cut { m: n as u32, e, off };
        Pair { low: c.down(), high: c.up() }
    }

    #[test]
    fn entries_and_what_they_leave_of_1() {
        let rng = &mut crate::rng::Rng::new(1);
        for _ in 0..200_000 {
            let digits = rng.figures(1, 12) as u64;
            assert_eq!(Pair::entry(digits, -7), slowly(digits as u128, -7), "{digits}");
            let power = -rng.between(digits.ilog10() as i64 + 1, 26) as i32;
            let left = 10u128.pow(-power as u32) - digits as u128;
            assert_eq!(Pair::one_minus_entry(digits, power), slowly(left, power), "{digits} {power}");
        }
    }

    #[test]
    fn long_entries() {
        let rng = &mut crate::rng::Rng::new(3);
        for _ in 0..100_000 {
            let digits = (rng.word() as u128) << rng.below(65) | rng.word() as u128 & 1;
            assert_eq!(Pair::long_entry(digits, -27), slowly(digits, -27), "{digits}");
        }
        let crumb = 10u128.pow(36) + 1;
        assert_eq!(Pair::long_entry(crumb, -27), pair(100_000_000, 1, 100_000_001, 1));
        assert_eq!(Pair::long_entry(crumb - 1, -27), Pair::entry(1, 9));
        assert_eq!(Pair::long_entry(crumb - 2, -27), pair(999_999_999, 0, 100_000_000, 1));
        assert_eq!(Pair::long_entry(0, -27), Pair::ZERO);
    }

    #[test]
    fn series_at_0() {
        assert_eq!(series(Pair::ZERO), (Pair::ONE, true));
        assert_eq!(mean_series(Pair::ZERO), (Pair::entry(5, -1), true));
    }

    /// φ is (e^x − 1) / x and ψ is (e^x × (x − 1) + 1) / x²: at 1 e − 1 and 1, at 2 (e² − 1) / 2 and (e² + 1) / 4.
    #[test]
    fn series_at_1_and_2() {
        let near = |p: Pair, v: f64| {
            let real = |w: Working| w.m as f64 * 10f64.powi(w.e);
            let (low, high) = (real(p.low), real(p.high));
            assert!(low <= v * (1.0 + 1e-15) && high >= v * (1.0 - 1e-15) && high - low < 3e-6 * v, "{p:?} {v}");
        };
        let (one, two) = (Pair::ONE, Pair::entry(2, 0));
        near(series(one).0, 1f64.exp() - 1.0);
        near(mean_series(one).0, 1.0);
        near(series(two).0, (2f64.exp() - 1.0) / 2.0);
        near(mean_series(two).0, (2f64.exp() + 1.0) / 4.0);
    }

    #[test]
    fn both_series_are_the_two() {
        let rng = &mut crate::rng::Rng::new(5);
        for _ in 0..2_000 {
            let low = Working { m: rng.between(LEAST as i64, MOST as i64) as u32, e: rng.between(-150, -8) as i32 };
            let x = Pair { low, high: rng.one_of(&[low, add(low, Working::entry(1, low.e)).up()]) };
            assert_eq!((both_series(x).0, true), series(x), "{x:?}");
            assert_eq!((both_series(x).1, true), mean_series(x), "{x:?}");
        }
        assert_eq!(both_series(Pair::ZERO), (Pair::ONE, Pair::entry(5, -1)));
    }

    #[test]
    fn carries() {
        let s = Pair::entry(999_999_999, 0) + Pair::entry(1, -30);
        assert_eq!(s, pair(999_999_999, 0, 100_000_000, 1));
        let p = Pair::entry(999_999_999, 0) * Pair::entry(999_999_999, 0);
        assert_eq!(p, pair(999_999_998, 9, 999_999_999, 9));
    }

    #[test]
    fn units() {
        assert_eq!(pair(123_456_789, -10, 123_456_789, -10).in_units(-3), Some((12, 13)));
        assert_eq!(Pair::entry(1, -40).in_units(-12), Some((0, 1)));
        assert_eq!(
            Pair::entry(MOST as u64, 10).in_units(0),
            Some((9_999_999_990_000_000_000, 9_999_999_990_000_000_000))
        );
        assert_eq!(Pair::entry(LEAST as u64, 11).in_units(0), None);
        assert_eq!(Pair::ZERO.in_units(-12), Some((0, 0)));
    }
}
