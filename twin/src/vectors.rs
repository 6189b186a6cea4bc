//! Operands for the pair calls and the totals call, from a seed.

use crate::calls::Raw;
use crate::deck::Printed;
use crate::pairs::{LEAST, MOST, MOST_PRINTED, REACH};
use crate::rng::Rng;

/// One call and what it is given.
#[derive(Clone, Debug)]
pub enum Call {
    Entry(u64, i32),
    Sum(Raw, Raw),
    Product(Raw, Raw),
    Quotient(Raw, Raw),
    OneMinus(Raw),
    OneMinusEntry(u64, i32),
    Series(Raw),
    MeanSeries(Raw),
    Compare([i64; 2], [i64; 2]),
    InUnits(Raw, i32),
    Total(Vec<u64>),
}

pub const NAMES: [&str; 11] = [
    "entry",
    "sum",
    "product",
    "quotient",
    "one_minus",
    "one_minus_entry",
    "series",
    "mean_series",
    "compare",
    "in_units",
    "total",
];

impl Call {
    pub fn place(&self) -> usize {
        match self {
            Call::Entry(..) => 0,
            Call::Sum(..) => 1,
            Call::Product(..) => 2,
            Call::Quotient(..) => 3,
            Call::OneMinus(..) => 4,
            Call::OneMinusEntry(..) => 5,
            Call::Series(..) => 6,
            Call::MeanSeries(..) => 7,
            Call::Compare(..) => 8,
            Call::InUnits(..) => 9,
            Call::Total(..) => 10,
        }
    }
}

/// Call number `place` of a run.
pub fn call(seed: u64, place: u64) -> Call {
    let rng = &mut Rng::new(Rng::new(!seed).word() ^ Rng::new(place).word());
    match rng.below(100) {
        0..=13 => {
            // Where an end's exponent leaves its reach: with few digits by a low power, with many by a high one.
            let (least, most) = (rng.between(0, 12) as i32 - REACH, REACH - rng.between(0, 5) as i32);
            let any = power(rng);
            Call::Entry(digits(rng), rng.one_of(&[any, any, least, most]))
        }
        14..=28 => two(rng, Call::Sum),
        29..=42 => two(rng, Call::Product),
        43..=56 => two(rng, Call::Quotient),
        57..=65 => Call::OneMinus(if rng.chance(75) { share(rng) } else { operand(rng) }),
        66..=74 => {
            let (digits, power) = printed_share(rng);
            Call::OneMinusEntry(digits, power)
        }
        75..=78 => Call::Series(if rng.chance(75) { loss(rng) } else { operand(rng) }),
        79..=82 => Call::MeanSeries(if rng.chance(75) { loss(rng) } else { operand(rng) }),
        83..=88 => {
            let a = end(rng);
            let b = if rng.chance(50) { beside(rng, a) } else { end(rng) };
            Call::Compare(a, b)
        }
        89..=96 => {
            let p = operand(rng);
            let unit =
                if rng.chance(75) { (p[1] as i32).wrapping_sub(rng.between(-12, 13) as i32) } else { power(rng) };
            Call::InUnits(p, unit)
        }
        _ => Call::Total(list(rng)),
    }
}

fn two(rng: &mut Rng, call: fn(Raw, Raw) -> Call) -> Call {
    let a = operand(rng);
    let mut b = operand(rng);
    if rng.chance(30) {
        // Near a, so that sums carry and quotients lie near 1.
        let shift = rng.between(-10, 10);
        b = a;
        for e in [1, 3] {
            if b[e - 1] != 0 {
                b[e] = (b[e] + shift).clamp(-(REACH as i64), REACH as i64);
            }
        }
    }
    call(a, b)
}

/// The whole number of an entry: one to thirteen digits, most of them ten to twelve.
fn digits(rng: &mut Rng) -> u64 {
    let some = rng.figures(1, 13);
    let longer = 10i64.pow(rng.between(9, 11) as u32);
    let long = rng.between(longer, 10 * longer - 1);
    // Nine figures, and behind them nothing, a little, half or all but a little of the last place.
    let ten = rng.one_of(&[10, 100, 1000]);
    let nine = rng.between(LEAST as i64, MOST as i64);
    let nine = rng.one_of(&[LEAST as i64, MOST as i64, MOST as i64 - 1, nine, nine]);
    let behind = nine * ten + rng.one_of(&[0, 0, 1, ten / 2 - 1, ten / 2, ten / 2 + 1, ten - 1]);
    let any = rng.word() as i64;
    let most = MOST_PRINTED as i64;
    let edge = rng.one_of(&[0, 1, LEAST as i64, MOST as i64, MOST as i64 + 1, most, most, most + 1, any]);
    rng.one_of(&[some, some, long, long, long, behind, behind, behind, edge, edge]) as u64
}

/// A printed number about at most 1.
fn printed_share(rng: &mut Rng) -> Printed {
    let places = rng.between(0, 12);
    let ten = 10i64.pow(places as u32);
    let little = rng.figures(1, 3);
    match rng.below(10) {
        // Next to 1 on either side; 1 itself, also as 10 × 10^-1.
        0..=2 => {
            let beside = rng.one_of(&[0, 0, -1, 1, -2, 2, -little, -little, little]);
            ((ten + beside).max(0) as u64, -places as i32)
        }
        // All places filled: from 0.1 up.
        3 | 4 => (rng.between(ten / 10, ten - 1) as u64, -places as i32),
        // Further below, past what is left of nine figures.
        5 | 6 => (digits(rng), rng.between(-26, -12) as i32),
        7 => (rng.one_of(&[1, 5, 9, 10]) * 10u64.pow(rng.between(8, 11) as u32), rng.between(-22, -9) as i32),
        8 => (digits(rng), rng.one_of(&[-REACH, -REACH + 1, -REACH - 1, -REACH / 2, -100, -30, -20, -19, -21])),
        _ => (if rng.chance(30) { 0 } else { digits(rng) }, power(rng)),
    }
}

fn power(rng: &mut Rng) -> i32 {
    let reach = REACH as i64;
    let near = rng.between(-30, 30);
    let far = rng.between(-reach, reach);
    rng.one_of(&[
        0,
        near,
        near,
        far,
        reach,
        -reach,
        reach + 1,
        -reach - 1,
        -reach + 8,
        i32::MAX as i64,
        i32::MIN as i64,
    ]) as i32
}

/// A working number as document 01 has it.
fn number(rng: &mut Rng) -> [i64; 2] {
    if rng.chance(6) {
        return [0, 0];
    }
    let (least, most, reach) = (LEAST as i64, MOST as i64, REACH as i64);
    let any = rng.between(least, most);
    let round = rng.between(1, 9) * least;
    let m = rng.one_of(&[least, most, least + 1, most - 1, 333_333_333, 666_666_667, round, any, any, any]);
    let near = rng.between(-30, 30);
    let half = rng.between(-reach / 2 - 9, reach / 2 + 9);
    let far = rng.between(-reach, reach);
    let edge = reach - rng.between(0, 20);
    let e = rng.one_of(&[-8, -9, 0, near, near, near, near, half, far, edge, -edge]);
    [m, e]
}

/// The same number or one next to it.
fn beside(rng: &mut Rng, [m, e]: [i64; 2]) -> [i64; 2] {
    match rng.below(4) {
        0 => [m, e],
        1 if m != 0 => [m, e.saturating_add(1)],
        2 if m == MOST as i64 => [LEAST as i64, e.saturating_add(1)],
        _ if m != 0 => [m.saturating_add(1), e],
        _ => [m, e],
    }
}

fn at_most(a: [i64; 2], b: [i64; 2]) -> bool {
    a[0] == 0 || (b[0] != 0 && (a[1], a[0]) <= (b[1], b[0]))
}

fn pair(rng: &mut Rng) -> Raw {
    let a = number(rng);
    let b = match rng.below(10) {
        0..=3 => a,
        4..=7 => beside(rng, a),
        _ => number(rng),
    };
    let (low, high) = if at_most(a, b) { (a, b) } else { (b, a) };
    [low[0], low[1], high[0], high[1]]
}

/// Mostly a pair, else something near one.
fn operand(rng: &mut Rng) -> Raw {
    let mut p = pair(rng);
    if rng.chance(94) {
        return p;
    }
    let end = 2 * rng.below(2);
    match rng.below(4) {
        0 => p.rotate_left(2),
        1 => p[end] = odd_significand(rng),
        2 => p[end + 1] = odd_exponent(rng),
        _ => (p[end], p[end + 1]) = (0, rng.one_of(&[1, -1, -8, 99_999])),
    }
    p
}

fn odd_significand(rng: &mut Rng) -> i64 {
    let (least, most) = (LEAST as i64, MOST as i64);
    let any = rng.word() as i64;
    // Above 32 bits, with nine figures below.
    let high_bits = (1 << 32) + least;
    rng.one_of(&[1, -1, least - 1, most + 1, -least, -most, i64::MAX, i64::MIN, any, high_bits])
}

fn odd_exponent(rng: &mut Rng) -> i64 {
    let reach = REACH as i64;
    let any = rng.word() as i64;
    rng.one_of(&[reach + 1, -reach - 1, i64::MAX, i64::MIN, 1 << 32, -(1 << 32), any, i32::MAX as i64, i32::MIN as i64])
}

fn end(rng: &mut Rng) -> [i64; 2] {
    let mut w = number(rng);
    if rng.chance(8) {
        match rng.below(3) {
            0 => w[0] = odd_significand(rng),
            1 => w[1] = odd_exponent(rng),
            _ => w = [0, 3],
        }
    }
    w
}

/// A pair about at most 1.
fn share(rng: &mut Rng) -> Raw {
    let (least, most) = (LEAST as i64, MOST as i64);
    let any = rng.between(least, most);
    let a = [
        rng.one_of(&[least, most, any, any, any]),
        rng.one_of(&[-8, -9, -9, -9, -10, -11, -16, -17, -18, -19, -25, -99_999]),
    ];
    let b = beside(rng, a);
    let (low, high) = if at_most(a, b) { (a, b) } else { (b, a) };
    if rng.chance(5) {
        return [0, 0, high[0], high[1]];
    }
    [low[0], low[1], high[0], high[1]]
}

/// A pair as x has it, some of it where the series leaves the exponent's reach.
fn loss(rng: &mut Rng) -> Raw {
    // The last term of either series leaves it at some 10^-390 and 10^394.
    let (lower, upper) = (rng.between(-400, -396), rng.between(383, 387));
    let a = [
        rng.between(LEAST as i64, MOST as i64),
        rng.one_of(&[-7, -8, -9, -10, -12, -20, -40, -370, -380, -390, lower, lower, 370, 380, upper, upper, 400]),
    ];
    let b = beside(rng, a);
    let (low, high) = if at_most(a, b) { (a, b) } else { (b, a) };
    match rng.below(20) {
        0 => [0, 0, high[0], high[1]],
        1 => [640_000_000, -7, 640_000_000, -7],
        _ => [low[0], low[1], high[0], high[1]],
    }
}

const MOST_LISTED: i64 = 10_000_000_000_000_000;

fn list(rng: &mut Rng) -> Vec<u64> {
    let any = rng.below(110);
    let n = rng.one_of(&[0, 1, 6, 95, 96, 96, 96, 97, any]);
    let top = rng.chance(20);
    let mut list: Vec<u64> =
        (0..n).map(|_| if top { MOST_LISTED } else { rng.between(0, MOST_LISTED) } as u64).collect();
    if n > 0 && rng.chance(15) {
        let over = MOST_LISTED as u64 + 1;
        list[rng.below(n)] = rng.one_of(&[over, over, u64::MAX, 1 << 63]);
    }
    list
}
