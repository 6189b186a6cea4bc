//! The pair calls as a caller sees them: any numbers in, a pair or 53 out.
//!
//! A pair travels as low significand, low exponent, high significand, high exponent.

use crate::pairs::{self, Pair, Working, LEAST, MOST, MOST_PRINTED, REACH};

/// A pair call's refusal.
pub const REFUSED: u32 = 53;

pub type Raw = [i64; 4];
pub type Answer<T> = Result<T, u32>;

fn in_reach(e: i64) -> bool {
    (-(REACH as i64)..=REACH as i64).contains(&e)
}

fn working(m: i64, e: i64) -> Answer<Working> {
    let nine_figures = (LEAST as i64..=MOST as i64).contains(&m);
    if (m == 0 && e == 0) || (nine_figures && in_reach(e)) {
        Ok(Working { m: m as u32, e: e as i32 })
    } else {
        Err(REFUSED)
    }
}

fn operand(raw: &Raw) -> Answer<Pair> {
    let p = Pair { low: working(raw[0], raw[1])?, high: working(raw[2], raw[3])? };
    if p.low.at_most(p.high) {
        Ok(p)
    } else {
        Err(REFUSED)
    }
}

fn result(p: Pair) -> Answer<Raw> {
    if p.in_reach() {
        Ok([p.low.m as i64, p.low.e as i64, p.high.m as i64, p.high.e as i64])
    } else {
        Err(REFUSED)
    }
}

/// Document 01 says of an entry only "e out of reach in operand or result": both are tested, for 0 too.
fn printed(digits: u64, power: i32) -> Answer<Pair> {
    if digits > MOST_PRINTED || !in_reach(power as i64) {
        return Err(REFUSED);
    }
    Ok(Pair::entry(digits, power))
}

pub fn entry(digits: u64, power: i32) -> Answer<Raw> {
    result(printed(digits, power)?)
}

pub fn sum(a: &Raw, b: &Raw) -> Answer<Raw> {
    result(operand(a)? + operand(b)?)
}

pub fn product(a: &Raw, b: &Raw) -> Answer<Raw> {
    result(operand(a)? * operand(b)?)
}

pub fn quotient(a: &Raw, b: &Raw) -> Answer<Raw> {
    let (a, b) = (operand(a)?, operand(b)?);
    if b.low.m == 0 {
        return Err(REFUSED);
    }
    result(a / b)
}

pub fn one_minus(f: &Raw) -> Answer<Raw> {
    let f = operand(f)?;
    if !f.high.at_most(Working::ONE) {
        return Err(REFUSED);
    }
    result(f.one_minus())
}

/// The entry's own pair may be out of reach: only 1 − the printed number is handed back.
pub fn one_minus_entry(digits: u64, power: i32) -> Answer<Raw> {
    // 1 is a working number, so the printed number is above it exactly where its high end is.
    if !printed(digits, power)?.high.at_most(Working::ONE) {
        return Err(REFUSED);
    }
    result(Pair::one_minus_entry(digits, power))
}

/// A series, unless a step of it left the exponent's reach.
fn summed((sum, near): (Pair, bool)) -> Answer<Raw> {
    if near {
        result(sum)
    } else {
        Err(REFUSED)
    }
}

pub fn series(x: &Raw) -> Answer<Raw> {
    summed(pairs::series(operand(x)?))
}

pub fn mean_series(x: &Raw) -> Answer<Raw> {
    summed(pairs::mean_series(operand(x)?))
}

/// Whether an end is at most a bound.
pub fn compare(end: &[i64; 2], bound: &[i64; 2]) -> Answer<bool> {
    Ok(working(end[0], end[1])?.at_most(working(bound[0], bound[1])?))
}

/// Low end down, high end up, in units of 10^unit.
pub fn in_units(p: &Raw, unit: i32) -> Answer<(u64, u64)> {
    let p = operand(p)?;
    if !in_reach(unit as i64) {
        return Err(REFUSED);
    }
    p.in_units(unit).ok_or(REFUSED)
}

#[cfg(test)]
mod tests {
    use super::*;

    const ONE: Raw = [100_000_000, -8, 100_000_000, -8];

    #[test]
    fn refusals() {
        assert_eq!(entry(1_000_000_000_000, 0), Err(53));
        assert_eq!(entry(999_999_999_999, 0), Ok([999_999_999, 3, 100_000_000, 4]));
        // The low end alone is in reach.
        assert_eq!(entry(999_999_999_500, 99_996), Err(53));
        assert_eq!(entry(999_999_999_000, 99_996), Ok([999_999_999, 99_999, 999_999_999, 99_999]));
        assert_eq!(entry(0, 100_000), Err(53));
        assert_eq!(entry(0, 99_999), Ok([0; 4]));
        assert_eq!(entry(1, -99_992), Err(53));
        assert_eq!(entry(1, -99_991), Ok([100_000_000, -99_999, 100_000_000, -99_999]));
        assert_eq!(sum(&ONE, &[0, 1, 0, 1]), Err(53));
        assert_eq!(sum(&ONE, &[100_000_001, 0, 100_000_000, 0]), Err(53));
        assert_eq!(sum(&ONE, &[99_999_999, 0, 100_000_000, 0]), Err(53));
        assert_eq!(quotient(&ONE, &[0, 0, 100_000_000, 0]), Err(53));
        assert_eq!(one_minus(&[100_000_000, -8, 100_000_001, -8]), Err(53));
        assert_eq!(one_minus(&ONE), Ok([0; 4]));
        assert_eq!(one_minus_entry(1_000_000_000_000, -12), Err(53));
        assert_eq!(one_minus_entry(100_000_000_001, -11), Err(53));
        assert_eq!(one_minus_entry(1, 1), Err(53));
        assert_eq!(one_minus_entry(1, -100_000), Err(53));
        assert_eq!(one_minus_entry(0, 100_000), Err(53));
        assert_eq!(one_minus_entry(0, 99_999), Ok(ONE));
        assert_eq!(one_minus_entry(10, -1), Ok([0; 4]));
        assert_eq!(one_minus_entry(1, -99_999), Ok([999_999_999, -9, 100_000_000, -8]));
        assert_eq!(one_minus_entry(99_999_999_999, -11), Ok([100_000_000, -19, 100_000_000, -19]));
        let top = [999_999_999, 99_999, 999_999_999, 99_999];
        assert_eq!(sum(&top, &ONE), Err(53));
        assert_eq!(sum(&top, &[0; 4]), Ok(top));
        assert_eq!(compare(&[100_000_000, -8], &[0, 7]), Err(53));
        assert_eq!(compare(&[0, 0], &[0, 0]), Ok(true));
        assert_eq!(in_units(&[0; 4], 100_000), Err(53));
    }

    #[test]
    fn refusals_of_the_series() {
        let like = |e| [500_000_000, e, 500_000_000, e];
        for call in [series, mean_series] {
            assert_eq!(call(&[100_000_000, 0, 0, 0]), Err(53));
            // The last term of either leaves the reach downwards or upwards.
            for (within, without) in [(-390, -400), (370, 390)] {
                assert!(call(&like(within)).is_ok() && call(&like(without)) == Err(53), "{within} {without}");
            }
            // 0 has no terms that could.
            assert!(call(&[0; 4]).is_ok() && call(&[0, 0, 100_000_000, -8]).is_ok());
        }
        let half = [500_000_000, -9, 500_000_000, -9];
        assert_eq!((series(&[0; 4]), mean_series(&[0; 4])), (Ok(ONE), Ok(half)));
    }
}
