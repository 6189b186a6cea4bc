//! Library and twin side by side on the same decks, lists and pairs.
//!
//!     compare [SEED [DECKS [VECTORS]]]              1, 200,000 and 1,000,000 if left out
//!     compare deck FILE ROOM BEFORE [composite]     one deck again: buffer length, seed of the buffer's earlier content
//!     compare vector SEED PLACE                     one call again
//!
//! DECKS are ordinary ones; a third as many decks of composites come on top. One in eight of either is also handed to the
//! other's call. Status 1 if anything differs, if any call of either side returned 41 or, in a run of at least 200,000 decks, if
//! an outcome came up too seldom.

use std::process::ExitCode;
use twin::calls::{self, Answer, Raw};
use twin::decks::{trial, Trial};
use twin::rng::Rng;
use twin::vectors::{self, Call, NAMES};
use twin::{ffi, Outcome, Sort, LONGEST_REPORT};

const FULL: u64 = 200_000;
/// Ordinary decks to each one of a composite.
const ORDINARY: u64 = 3;
/// Decks to each one that is also handed to the other call.
const CROSSED: u64 = 8;
const NUMBERS: [u32; 10] = [0, 11, 12, 21, 22, 31, 32, 33, 51, 42];
/// Left the table with P5: no call of either side may return it.
const GONE: u32 = 41;

/// Bytes on either side of a lent buffer that no call may touch.
const GUARD: usize = 256;

/// Memory around the lent buffers, kept from deck to deck.
struct Bench {
    before: Vec<u8>,
    library: Vec<u8>,
    twin: Vec<u8>,
}

impl Bench {
    fn new() -> Bench {
        let bytes = vec![0; 2 * LONGEST_REPORT + 2 * GUARD];
        Bench { before: bytes.clone(), library: bytes.clone(), twin: bytes }
    }

    /// The twin's outcome, how often 41 was returned by either side, and what differs.
    fn deck(&mut self, sort: Sort, t: &Trial) -> (Outcome, u64, Option<String>) {
        let all = t.room + 2 * GUARD;
        let rng = &mut Rng::new(t.before);
        self.before[..all].chunks_mut(8).for_each(|c| c.copy_from_slice(&rng.word().to_le_bytes()[..c.len()]));
        self.library[..all].copy_from_slice(&self.before[..all]);
        self.twin[..all].copy_from_slice(&self.before[..all]);
        let lent = GUARD..GUARD + t.room;

        let deck = t.deck.clone();
        let library = ffi::report(sort, &deck, &mut self.library[lent.clone()]);
        let library_read = ffi::read(sort, &deck);
        let twin = twin::report(sort, &t.deck, &mut self.twin[lent]);
        let twin_read = twin::read(sort, &t.deck);

        let gone = [library, library_read, twin, twin_read].iter().filter(|told| told.0 == GONE).count();

        // The bytes a report covers; none after a refusal.
        let length = if twin.0 == 0 { twin.1 } else { 0 };
        let kept = |now: &[u8]| {
            now[..GUARD] == self.before[..GUARD] && now[GUARD + length..all] == self.before[GUARD + length..all]
        };
        let differs = if library != twin {
            Some(format!("report: library {library:?}, twin {twin:?}"))
        } else if library_read != twin_read {
            Some(format!("read: library {library_read:?}, twin {twin_read:?}"))
        } else if deck != t.deck {
            Some("the library changed the deck".to_string())
        } else if !kept(&self.library) {
            Some("the library changed a byte outside the report".to_string())
        } else if !kept(&self.twin) {
            Some("the twin changed a byte outside the report".to_string())
        } else {
            let reports = self.library[..all].iter().zip(&self.twin[..all]);
            let at = reports.clone().position(|(l, t)| l != t);
            at.map(|at| format!("report byte {} (line {})", at - GUARD + 1, (at - GUARD) / 95 + 1))
        };
        (twin, gone as u64, differs)
    }
}

/// What a call leaves behind: its number and its results, these as they were after a refusal.
type Left = (u32, [i64; 4]);

/// What results hold before a call.
const BEFORE: Raw = [-0x0123_4567_89AB_CDEF, 0x7654_3210, -77, 0x5A5A_5A5A_5A5A];

fn library(call: &Call) -> Left {
    let mut out = BEFORE;
    let number = match call {
        Call::Entry(digits, power) => ffi::entry(*digits, *power, &mut out),
        Call::Sum(a, b) => ffi::sum(a, b, &mut out),
        Call::Product(a, b) => ffi::product(a, b, &mut out),
        Call::Quotient(a, b) => ffi::quotient(a, b, &mut out),
        Call::OneMinus(f) => ffi::one_minus(f, &mut out),
        Call::OneMinusEntry(digits, power) => ffi::one_minus_entry(*digits, *power, &mut out),
        Call::Series(x) => ffi::series(x, &mut out),
        Call::MeanSeries(x) => ffi::mean_series(x, &mut out),
        Call::Compare(end, bound) => {
            let mut at_most = BEFORE[0] as u32;
            let number = ffi::compare(end, bound, &mut at_most);
            out[0] = at_most as i64;
            number
        }
        Call::InUnits(p, unit) => {
            let (mut low, mut high) = (BEFORE[0] as u64, BEFORE[1] as u64);
            let number = ffi::in_units(p, *unit, &mut low, &mut high);
            (out[0], out[1]) = (low as i64, high as i64);
            number
        }
        Call::Total(list) => {
            let mut sum = BEFORE[0] as u64;
            let number = ffi::total(list, &mut sum);
            out[0] = sum as i64;
            number
        }
    };
    (number, out)
}

fn twin_left(call: &Call) -> Left {
    let mut out = BEFORE;
    let pair = |answer: Answer<Raw>| match answer {
        Ok(p) => (0, p),
        Err(number) => (number, out),
    };
    match call {
        Call::Entry(digits, power) => pair(calls::entry(*digits, *power)),
        Call::Sum(a, b) => pair(calls::sum(a, b)),
        Call::Product(a, b) => pair(calls::product(a, b)),
        Call::Quotient(a, b) => pair(calls::quotient(a, b)),
        Call::OneMinus(f) => pair(calls::one_minus(f)),
        Call::OneMinusEntry(digits, power) => pair(calls::one_minus_entry(*digits, *power)),
        Call::Series(x) => pair(calls::series(x)),
        Call::MeanSeries(x) => pair(calls::mean_series(x)),
        Call::Compare(end, bound) => {
            let answer = calls::compare(end, bound);
            out[0] = answer.map_or(BEFORE[0] as u32, u32::from) as i64;
            (answer.err().unwrap_or(0), out)
        }
        Call::InUnits(p, unit) => {
            let answer = calls::in_units(p, *unit);
            if let Ok((low, high)) = answer {
                (out[0], out[1]) = (low as i64, high as i64);
            }
            (answer.err().unwrap_or(0), out)
        }
        Call::Total(list) => {
            let answer = twin::total(list);
            if let Ok(sum) = answer {
                out[0] = sum as i64;
            }
            (answer.err().unwrap_or(0), out)
        }
    }
}

/// Differences shown in full; the rest are only counted.
const SHOWN: u64 = 10;

/// How often each outcome came up.
type Outcomes = [u64; 64];

/// The decks of one sort; `full` if each outcome has to come up often enough.
fn decks(sort: Sort, seed: u64, count: u64, full: bool) -> bool {
    let (what_deck, file_name, other) = match sort {
        Sort::Ordinary => ("deck", "difference", Sort::Composite),
        Sort::Composite => ("composite deck", "difference-composite", Sort::Ordinary),
    };
    let name = |call: Sort| match call {
        Sort::Ordinary => "ordinary",
        Sort::Composite => "composite",
    };
    let mut bench = Bench::new();
    // By this sort's own call, and by the other.
    let (mut own, mut crossed): (Outcomes, Outcomes) = ([0; 64], [0; 64]);
    let (mut different, mut gone) = (0, 0);
    for place in 0..count {
        let t = trial(sort, seed, place);
        let mut hand = |call: Sort, outcomes: &mut Outcomes| {
            let (outcome, returned, differs) = bench.deck(call, &t);
            outcomes[outcome.0 as usize] += 1;
            gone += returned;
            different += u64::from(differs.is_some());
            let what = match differs {
                Some(what) if different <= SHOWN => what,
                None if returned > 0 && gone <= SHOWN => format!("{GONE} from both"),
                _ => return,
            };
            let file = format!("{file_name}-{seed}-{place}.deck");
            println!("{what_deck} {place}, {} call: {what}", name(call));
            let composite = if call == Sort::Composite { " composite" } else { "" };
            match std::fs::write(&file, &t.deck) {
                Ok(()) => println!("  again: compare deck {file} {} {}{composite}", t.room, t.before),
                Err(e) => println!("  {file} could not be written: {e}"),
            }
        };
        hand(sort, &mut own);
        if place % CROSSED == 0 {
            hand(other, &mut crossed);
        }
    }
    println!("{what_deck}s, seed {seed}: {count}");
    let shown = |number: u32| if number == 0 { "accepted".to_string() } else { number.to_string() };
    for number in NUMBERS {
        println!("  {:>8}  {}", own[number as usize], shown(number));
    }
    let all_crossed = crossed.iter().sum::<u64>();
    println!("  {all_crossed:>8}  of these also to the {} call:", name(other));
    let counts: Vec<String> = NUMBERS.map(|n| format!("{} {}", crossed[n as usize], shown(n))).into();
    println!("            {}", counts.join(", "));
    println!("  {gone:>8}  times {GONE}, from either side");
    println!("  {different:>8}  different");
    let mut right = different == 0 && gone == 0;
    if full {
        let seldom: Vec<u32> = NUMBERS.into_iter().filter(|&n| n != 0 && 1000 * own[n as usize] < count).collect();
        let accepted = own[0];
        if !seldom.is_empty() || accepted * 100 < 30 * count || (count - accepted) * 100 < 40 * count {
            println!("  too seldom: {seldom:?}, or the accepted not within 30 and 60 in 100");
            right = false;
        }
        // Slots 22 and 23 have to stop most of these; but a few of the composites' decks are ordinary ones.
        if 2 * crossed[32] < all_crossed || (sort == Sort::Composite && 1000 * crossed[0] < all_crossed) {
            println!("  the {} call refused too few with 32, or accepted too few", name(other));
            right = false;
        }
    }
    right
}

fn pair_calls(seed: u64, count: u64) -> bool {
    let mut counts = [(0u64, 0u64); NAMES.len()];
    let (mut different, mut gone) = (0, 0);
    for place in 0..count {
        let call = vectors::call(seed, place);
        let (library, twin) = (library(&call), twin_left(&call));
        let (all, refused) = &mut counts[call.place()];
        *all += 1;
        *refused += u64::from(twin.0 != 0);
        gone += u64::from(library.0 == GONE) + u64::from(twin.0 == GONE);
        if library != twin {
            different += 1;
            if different <= SHOWN {
                println!("call {place} differs: {call:?}\n  library {library:?}\n  twin    {twin:?}");
                println!("  again: compare vector {seed} {place}");
            }
        }
    }
    println!("calls, seed {seed}: {count}");
    for (name, (all, refused)) in NAMES.iter().zip(counts) {
        println!("  {all:>8}  {name}, of these refused {refused}");
    }
    println!("  {gone:>8}  times {GONE}, from either side");
    println!("  {different:>8}  different");
    let mut right = different == 0 && gone == 0;
    if count >= FULL && counts.iter().any(|&(all, refused)| refused == 0 || refused == all) {
        println!("  a call that was never refused, or always");
        right = false;
    }
    right
}

fn whole(text: &str) -> u64 {
    text.replace([',', '_'], "").parse().unwrap_or_else(|_| {
        eprintln!("no whole number: {text}");
        std::process::exit(2)
    })
}

fn main() -> ExitCode {
    let args: Vec<String> = std::env::args().skip(1).collect();
    let args: Vec<&str> = args.iter().map(String::as_str).collect();
    let right = match args[..] {
        ["deck", file, room, before] | ["deck", file, room, before, "composite"] => {
            let sort = if args.len() == 5 { Sort::Composite } else { Sort::Ordinary };
            let deck = std::fs::read(file).unwrap_or_else(|e| {
                eprintln!("{file}: {e}");
                std::process::exit(2)
            });
            let room = (whole(room) as usize).min(2 * LONGEST_REPORT);
            let (outcome, gone, differs) = Bench::new().deck(sort, &Trial { deck, room, before: whole(before) });
            println!("twin {outcome:?}; {gone} times {GONE}; {}", differs.as_deref().unwrap_or("the same"));
            differs.is_none() && gone == 0
        }
        ["vector", seed, place] => {
            let call = vectors::call(whole(seed), whole(place));
            let (library, twin) = (library(&call), twin_left(&call));
            println!("{call:?}\n  library {library:?}\n  twin    {twin:?}");
            library == twin && twin.0 != GONE
        }
        _ if args.len() <= 3 => {
            let or = |i: usize, usual: u64| args.get(i).map_or(usual, |a| whole(a));
            let seed = or(0, 1);
            let count = or(1, FULL);
            let ordinary = decks(Sort::Ordinary, seed, count, count >= FULL);
            let composite = decks(Sort::Composite, seed, count / ORDINARY, count >= FULL);
            let calls = pair_calls(seed, or(2, 1_000_000));
            ordinary && composite && calls
        }
        _ => {
            eprintln!("compare [SEED [DECKS [VECTORS]]] | deck FILE ROOM BEFORE [composite] | vector SEED PLACE");
            return ExitCode::from(2);
        }
    };
    if right {
        ExitCode::SUCCESS
    } else {
        ExitCode::FAILURE
    }
}
