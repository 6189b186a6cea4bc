//! The library under trial, through its C interface; all that is known of it stands in this file.

use crate::calls::Raw;
use crate::{Outcome, Sort};

mod c {
    #[link(name = "zilmorga", kind = "static", modifiers = "-bundle")]
    extern "C" {
        pub fn zilmorga_report(
            deck: *const u8,
            n: usize,
            report: *mut u8,
            room: usize,
            line: *mut usize,
            field: *mut usize,
        ) -> u32;
        pub fn zilmorga_read(deck: *const u8, n: usize, line: *mut usize, field: *mut usize) -> u32;
        pub fn zilmorga_composite_report(
            deck: *const u8,
            n: usize,
            report: *mut u8,
            room: usize,
            line: *mut usize,
            field: *mut usize,
        ) -> u32;
        pub fn zilmorga_composite_read(deck: *const u8, n: usize, line: *mut usize, field: *mut usize) -> u32;
        pub fn zilmorga_total(list: *const u64, n: usize, sum: *mut u64) -> u32;
        // A pair is low significand, low exponent, high significand, high exponent.
        pub fn zilmorga_entry(digits: u64, power: i32, out: *mut i64) -> u32;
        pub fn zilmorga_sum(a: *const i64, b: *const i64, out: *mut i64) -> u32;
        pub fn zilmorga_product(a: *const i64, b: *const i64, out: *mut i64) -> u32;
        pub fn zilmorga_quotient(a: *const i64, b: *const i64, out: *mut i64) -> u32;
        pub fn zilmorga_one_minus(f: *const i64, out: *mut i64) -> u32;
        pub fn zilmorga_one_minus_entry(digits: u64, power: i32, out: *mut i64) -> u32;
        pub fn zilmorga_series(x: *const i64, out: *mut i64) -> u32;
        pub fn zilmorga_mean_series(x: *const i64, out: *mut i64) -> u32;
        pub fn zilmorga_compare(end: *const i64, bound: *const i64, at_most: *mut u32) -> u32;
        pub fn zilmorga_in_units(p: *const i64, unit: i32, low: *mut u64, high: *mut u64) -> u32;
    }
}

/// What `line` and `field` hold before a call, so that a call that does not set them is seen.
const UNSET: usize = usize::MAX;

/// On success 0, the report's length and 0.
pub fn report(sort: Sort, deck: &[u8], out: &mut [u8]) -> Outcome {
    let (mut line, mut field) = (UNSET, UNSET);
    let call = match sort {
        Sort::Ordinary => c::zilmorga_report,
        Sort::Composite => c::zilmorga_composite_report,
    };
    // SAFETY: each pointer comes with the length of what it points to.
    let number = unsafe { call(deck.as_ptr(), deck.len(), out.as_mut_ptr(), out.len(), &mut line, &mut field) };
    (number, line, field)
}

/// Reading alone. On success 0, 0, 0: there is no report, so no length.
pub fn read(sort: Sort, deck: &[u8]) -> Outcome {
    let (mut line, mut field) = (UNSET, UNSET);
    let call = match sort {
        Sort::Ordinary => c::zilmorga_read,
        Sort::Composite => c::zilmorga_composite_read,
    };
    // SAFETY: as above.
    let number = unsafe { call(deck.as_ptr(), deck.len(), &mut line, &mut field) };
    (number, line, field)
}

/// 0 and the sum, or 52 and `sum` as it was.
pub fn total(list: &[u64], sum: &mut u64) -> u32 {
    // SAFETY: as above.
    unsafe { c::zilmorga_total(list.as_ptr(), list.len(), sum) }
}

// The pair calls: 0, or 53 and the results as they were.

pub fn entry(digits: u64, power: i32, out: &mut Raw) -> u32 {
    // SAFETY: pairs are arrays of four, here and below.
    unsafe { c::zilmorga_entry(digits, power, out.as_mut_ptr()) }
}

pub fn sum(a: &Raw, b: &Raw, out: &mut Raw) -> u32 {
    unsafe { c::zilmorga_sum(a.as_ptr(), b.as_ptr(), out.as_mut_ptr()) }
}

pub fn product(a: &Raw, b: &Raw, out: &mut Raw) -> u32 {
    unsafe { c::zilmorga_product(a.as_ptr(), b.as_ptr(), out.as_mut_ptr()) }
}

pub fn quotient(a: &Raw, b: &Raw, out: &mut Raw) -> u32 {
    unsafe { c::zilmorga_quotient(a.as_ptr(), b.as_ptr(), out.as_mut_ptr()) }
}

pub fn one_minus(f: &Raw, out: &mut Raw) -> u32 {
    unsafe { c::zilmorga_one_minus(f.as_ptr(), out.as_mut_ptr()) }
}

pub fn one_minus_entry(digits: u64, power: i32, out: &mut Raw) -> u32 {
    unsafe { c::zilmorga_one_minus_entry(digits, power, out.as_mut_ptr()) }
}

pub fn series(x: &Raw, out: &mut Raw) -> u32 {
    unsafe { c::zilmorga_series(x.as_ptr(), out.as_mut_ptr()) }
}

pub fn mean_series(x: &Raw, out: &mut Raw) -> u32 {
    unsafe { c::zilmorga_mean_series(x.as_ptr(), out.as_mut_ptr()) }
}

pub fn compare(end: &[i64; 2], bound: &[i64; 2], at_most: &mut u32) -> u32 {
    // SAFETY: working numbers are arrays of two.
    unsafe { c::zilmorga_compare(end.as_ptr(), bound.as_ptr(), at_most) }
}

pub fn in_units(p: &Raw, unit: i32, low: &mut u64, high: &mut u64) -> u32 {
    unsafe { c::zilmorga_in_units(p.as_ptr(), unit, low, high) }
}
