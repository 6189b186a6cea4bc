//! Reads a deck from standard input and writes its report to standard output, or the number, line and field of what stops it. With the
//! argument `composite` the deck is a composite's. Then works 2 / 3 and 1 − 0.99999999999 as pairs, on standard error.
use std::io::{Read, Write};

/// The declarations of include/zilmorga.h that are used here. Nothing checks them against the library.
mod c {
    unsafe extern "C" {
        pub fn zilmorga_report(deck: *const u8, n: usize, report: *mut u8, room: usize, line: *mut usize, field: *mut usize) -> u32;
        pub fn zilmorga_composite_report(deck: *const u8, n: usize, report: *mut u8, room: usize, line: *mut usize, field: *mut usize) -> u32;
        pub fn zilmorga_entry(digits: u64, power: i32, out: *mut [i64; 4]) -> u32;
        pub fn zilmorga_one_minus_entry(digits: u64, power: i32, out: *mut [i64; 4]) -> u32;
        pub fn zilmorga_quotient(a: *const [i64; 4], b: *const [i64; 4], out: *mut [i64; 4]) -> u32;
    }
}

const LONGEST_REPORT: usize = 36_860;

/// A report, or number, line and field.
fn report(deck: &[u8], composite: bool) -> Result<Vec<u8>, (u32, usize, usize)> {
    let call = if composite { c::zilmorga_composite_report } else { c::zilmorga_report };
    let mut out = vec![0; LONGEST_REPORT];
    let (mut line, mut field) = (0, 0);
    // Safe: the lengths are those of the slices, and nothing that is written overlaps anything else.
    let number = unsafe { call(deck.as_ptr(), deck.len(), out.as_mut_ptr(), out.len(), &mut line, &mut field) };
    if number != 0 {
        return Err((number, line, field));
    }
    out.truncate(line);
    Ok(out)
}

/// A call's answer, or the number of its refusal.
fn answer(call: impl FnOnce(&mut [i64; 4]) -> u32) -> Result<[i64; 4], u32> {
    let mut out = [0; 4];
    match call(&mut out) {
        0 => Ok(out),
        number => Err(number),
    }
}

fn entry(digits: u64, power: i32) -> Result<[i64; 4], u32> {
    answer(|out| unsafe { c::zilmorga_entry(digits, power, out) })
}

fn one_minus_entry(digits: u64, power: i32) -> Result<[i64; 4], u32> {
    answer(|out| unsafe { c::zilmorga_one_minus_entry(digits, power, out) })
}

fn quotient(a: &[i64; 4], b: &[i64; 4]) -> Result<[i64; 4], u32> {
    answer(|out| unsafe { c::zilmorga_quotient(a, b, out) })
}

fn say(what: &str, told: Result<[i64; 4], u32>) {
    match told {
        Ok([low, low_power, high, high_power]) => eprintln!("{what} is from {low}E{low_power} to {high}E{high_power}"),
        Err(number) => eprintln!("{what} is refused by {number}"),
    }
}

fn main() -> std::io::Result<()> {
    let mut deck = Vec::new();
    std::io::stdin().read_to_end(&mut deck)?;
    let told = report(&deck, std::env::args().nth(1).as_deref() == Some("composite"));
    match &told {
        Ok(text) => std::io::stdout().write_all(text)?,
        Err((number, line, field)) => println!("{number:6}{line:6}{field:6}"),
    }
    say("2 / 3", entry(2, 0).and_then(|two| quotient(&two, &entry(3, 0)?)));
    say("1 - 0.99999999999", one_minus_entry(99_999_999_999, -11));
    std::process::exit(told.is_err() as i32)
}
