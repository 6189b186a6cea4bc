//! Times as they are printed or add up, with no rounding.

use crate::deck::Printed;
use crate::pairs::Pair;
use std::iter::Sum;

/// A whole number of 10^FINEST years: eight times 1E+9 years come to 37 figures.
#[derive(Clone, Copy, PartialEq, Eq, PartialOrd, Ord, Debug)]
pub struct Years(pub u128);

/// The finest last digit of a field from 1E-20 up: so small a number has an exponent, which leaves room for eight digits.
pub const FINEST: i32 = -27;

/// 1E+9 in units of 10^FINEST is the largest power needed.
static TEN: [u128; 37] = {
    let mut t = [1; 37];
    let mut i = 1;
    while i < 37 {
        t[i] = t[i - 1] * 10;
        i += 1;
    }
    t
};

impl Years {
    pub const NONE: Years = Years(0);

    /// From a field with a number from 1E-20 to 1E+9.
    pub fn printed((digits, power): Printed) -> Years {
        Years(digits as u128 * TEN[(power - FINEST) as usize])
    }

    /// How much longer this is than another time; `None` where it is not.
    pub fn beyond(self, other: Years) -> Option<Years> {
        (self > other).then(|| Years(self.0 - other.0))
    }

    /// The working numbers next to it.
    pub fn pair(self) -> Pair {
        Pair::long_entry(self.0, FINEST)
    }
}

impl Sum for Years {
    fn sum<I: Iterator<Item = Years>>(all: I) -> Years {
        Years(all.map(|years| years.0).sum())
    }
}

#[cfg(test)]
mod tests {
    use super::*;

    #[test]
    fn the_last_digit_counts() {
        let (a, b) = (Years::printed((30_000_000_000, -9)), Years::printed((30_000_000_001, -9)));
        assert_eq!(a, Years::printed((3, 1)));
        assert_eq!((a.beyond(b), a.beyond(a)), (None, None));
        assert_eq!(b.beyond(a).map(Years::pair), Some(Pair::entry(1, -9)));
        // 12345679E-27 and 12345678E-27.
        let (a, b) = (Years::printed((12_345_678, FINEST)), Years::printed((12_345_679, FINEST)));
        assert_eq!(b.beyond(a).map(Years::pair), Some(Pair::entry(1, -27)));
    }

    #[test]
    fn long_lives() {
        let all: Years = [Years::printed((1, 9)); 8].into_iter().sum();
        assert_eq!(all.pair(), Pair::entry(8, 9));
        let more: Years = [all, Years::printed((10_000_000, FINEST))].into_iter().sum();
        assert_eq!(more.beyond(all).map(Years::pair), Some(Pair::entry(1, -20)));
        assert_eq!(more.pair().low, Pair::entry(8, 9).low);
        assert_eq!(more.pair().high, Pair::entry(800_000_001, 1).high);
    }
}
