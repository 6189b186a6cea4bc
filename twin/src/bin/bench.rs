//! Library and twin timed in one run on the same inputs.
//!
//!     bench TABLE.md FIGURE.svg [ROUNDS]    101 rounds if left out
//!
//! The two take turns within each round, so that whatever else the machine does falls on both; medians over the rounds are
//! told, and of the ratio the median of the rounds' own ratios. Buffers are not cleared between calls.

use std::fmt::Write;
use std::hint::black_box;
use std::time::Instant;
use twin::calls::{self, Answer, Raw};
use twin::deck::Printed;
use twin::decks::{batch, everyday, everyday_2009, everyday_eleven};
use twin::rng::Rng;
use twin::{ffi, Sort, LONGEST_REPORT};

/// The twin's calls in the shape of the library's, not inlined, as the library's cannot be.
mod own {
    use super::*;

    fn put(answer: Answer<Raw>, out: &mut Raw) -> u32 {
        match answer {
            Ok(p) => {
                *out = p;
                0
            }
            Err(number) => number,
        }
    }

    #[inline(never)]
    pub fn entry(digits: u64, power: i32, out: &mut Raw) -> u32 {
        put(calls::entry(digits, power), out)
    }
    #[inline(never)]
    pub fn sum(a: &Raw, b: &Raw, out: &mut Raw) -> u32 {
        put(calls::sum(a, b), out)
    }
    #[inline(never)]
    pub fn product(a: &Raw, b: &Raw, out: &mut Raw) -> u32 {
        put(calls::product(a, b), out)
    }
    #[inline(never)]
    pub fn quotient(a: &Raw, b: &Raw, out: &mut Raw) -> u32 {
        put(calls::quotient(a, b), out)
    }
    #[inline(never)]
    pub fn one_minus(f: &Raw, out: &mut Raw) -> u32 {
        put(calls::one_minus(f), out)
    }
    #[inline(never)]
    pub fn one_minus_entry(digits: u64, power: i32, out: &mut Raw) -> u32 {
        put(calls::one_minus_entry(digits, power), out)
    }
    #[inline(never)]
    pub fn series(x: &Raw, out: &mut Raw) -> u32 {
        put(calls::series(x), out)
    }
    #[inline(never)]
    pub fn mean_series(x: &Raw, out: &mut Raw) -> u32 {
        put(calls::mean_series(x), out)
    }
    #[inline(never)]
    pub fn compare(end: &[i64; 2], bound: &[i64; 2], at_most: &mut u32) -> u32 {
        match calls::compare(end, bound) {
            Ok(answer) => {
                *at_most = answer as u32;
                0
            }
            Err(number) => number,
        }
    }
    #[inline(never)]
    pub fn in_units(p: &Raw, unit: i32, low: &mut u64, high: &mut u64) -> u32 {
        match calls::in_units(p, unit) {
            Ok(counts) => {
                (*low, *high) = counts;
                0
            }
            Err(number) => number,
        }
    }
}

/// One thing timed: a pass over the same inputs by either side, and the calls in a pass.
struct Item<'a> {
    name: String,
    calls: usize,
    library: Box<dyn FnMut() + 'a>,
    twin: Box<dyn FnMut() + 'a>,
}

struct Timed {
    name: String,
    library: f64,
    twin: f64,
    ratio: f64,
}

fn median(mut values: Vec<f64>) -> f64 {
    values.sort_by(f64::total_cmp);
    let n = values.len();
    (values[(n - 1) / 2] + values[n / 2]) / 2.0
}

/// Nanoseconds of one call, from `passes` passes.
fn time(pass: &mut dyn FnMut(), passes: usize, calls: usize) -> f64 {
    let start = Instant::now();
    for _ in 0..passes {
        pass();
    }
    start.elapsed().as_nanos() as f64 / (passes * calls) as f64
}

/// How long a side's turn should take, so that the clock's own grain does not matter.
const TURN_NS: f64 = 1_500_000.0;

fn run(mut items: Vec<Item>, rounds: usize) -> Vec<Timed> {
    // A first pass of each warms up and sets how many passes make a turn.
    let passes: Vec<usize> = items
        .iter_mut()
        .map(|item| {
            time(&mut item.library, 2, item.calls);
            let slow = time(&mut item.library, 3, item.calls).max(time(&mut item.twin, 3, item.calls));
            (TURN_NS / (slow * item.calls as f64)).ceil().max(1.0) as usize
        })
        .collect();
    let mut times = vec![Vec::new(); items.len()];
    for round in 0..rounds {
        for (i, item) in items.iter_mut().enumerate() {
            // Either goes first in half of the rounds.
            let pair = if round % 2 == 0 {
                let library = time(&mut item.library, passes[i], item.calls);
                (library, time(&mut item.twin, passes[i], item.calls))
            } else {
                let twin = time(&mut item.twin, passes[i], item.calls);
                (time(&mut item.library, passes[i], item.calls), twin)
            };
            times[i].push(pair);
        }
    }
    let side = |times: &[(f64, f64)], pick: fn(&(f64, f64)) -> f64| median(times.iter().map(pick).collect());
    items
        .into_iter()
        .zip(times)
        .map(|(item, times)| Timed {
            name: item.name,
            library: side(&times, |t| t.0),
            twin: side(&times, |t| t.1),
            ratio: side(&times, |t| t.0 / t.1),
        })
        .collect()
}

const INPUTS: usize = 512;

/// Pairs as a case has them: most ends apart by one, exponents near 0.
fn pairs(rng: &mut Rng, least: i64, most: i64) -> Vec<Raw> {
    (0..INPUTS)
        .map(|_| {
            let m = rng.between(100_000_000, 999_999_990);
            let e = rng.between(least, most);
            [m, e, m + rng.between(0, 3), e]
        })
        .collect()
}

/// Stops the benchmark unless both sides answer alike: times of different answers say nothing.
fn alike<T: PartialEq + std::fmt::Debug>(name: &str, library: T, twin: T) {
    assert_eq!(library, twin, "{name}: library and twin differ");
}

type OnTwo = fn(&Raw, &Raw, &mut Raw) -> u32;
type OnOne = fn(&Raw, &mut Raw) -> u32;
type OnPrinted = fn(u64, i32, &mut Raw) -> u32;

fn on_two<'a>(name: &str, a: &'a [Raw], b: &'a [Raw], library: OnTwo, twin: OnTwo) -> Item<'a> {
    for (a, b) in a.iter().zip(b) {
        let (mut l, mut t) = ([0; 4], [0; 4]);
        alike(name, (library(a, b, &mut l), l), (twin(a, b, &mut t), t));
    }
    let pass = move |call: OnTwo| {
        let mut out = [0; 4];
        move || {
            for (a, b) in a.iter().zip(b) {
                black_box(call(black_box(a), black_box(b), &mut out));
                black_box(&out);
            }
        }
    };
    Item { name: name.to_string(), calls: a.len(), library: Box::new(pass(library)), twin: Box::new(pass(twin)) }
}

fn on_one<'a>(name: &str, a: &'a [Raw], library: OnOne, twin: OnOne) -> Item<'a> {
    for a in a {
        let (mut l, mut t) = ([0; 4], [0; 4]);
        alike(name, (library(a, &mut l), l), (twin(a, &mut t), t));
    }
    let pass = move |call: OnOne| {
        let mut out = [0; 4];
        move || {
            for a in a {
                black_box(call(black_box(a), &mut out));
                black_box(&out);
            }
        }
    };
    Item { name: name.to_string(), calls: a.len(), library: Box::new(pass(library)), twin: Box::new(pass(twin)) }
}

fn on_printed<'a>(name: &str, inputs: &'a [Printed], library: OnPrinted, twin: OnPrinted) -> Item<'a> {
    for &(digits, power) in inputs {
        let (mut l, mut t) = ([0; 4], [0; 4]);
        alike(name, (library(digits, power, &mut l), l), (twin(digits, power, &mut t), t));
    }
    let pass = move |call: OnPrinted| {
        let mut out = [0; 4];
        move || {
            for &(digits, power) in inputs {
                black_box(call(black_box(digits), black_box(power), &mut out));
                black_box(&out);
            }
        }
    };
    Item { name: name.to_string(), calls: inputs.len(), library: Box::new(pass(library)), twin: Box::new(pass(twin)) }
}

fn comparisons<'a>(inputs: &'a [([i64; 2], [i64; 2])]) -> Item<'a> {
    type Call = fn(&[i64; 2], &[i64; 2], &mut u32) -> u32;
    for (end, bound) in inputs {
        let (mut l, mut t) = (9, 9);
        alike("compare", (ffi::compare(end, bound, &mut l), l), (own::compare(end, bound, &mut t), t));
    }
    let pass = move |call: Call| {
        let mut out = 0;
        move || {
            for (end, bound) in inputs {
                black_box(call(black_box(end), black_box(bound), &mut out));
                black_box(&out);
            }
        }
    };
    let (library, twin) = (Box::new(pass(ffi::compare)), Box::new(pass(own::compare)));
    Item { name: "compare".to_string(), calls: inputs.len(), library, twin }
}

fn counts<'a>(inputs: &'a [Raw], unit: i32) -> Item<'a> {
    type Call = fn(&Raw, i32, &mut u64, &mut u64) -> u32;
    for p in inputs {
        let (mut l, mut t) = ((0, 0), (0, 0));
        let library = ffi::in_units(p, unit, &mut l.0, &mut l.1);
        let twin = own::in_units(p, unit, &mut t.0, &mut t.1);
        alike("in units", (library, l), (twin, t));
    }
    let pass = move |call: Call| {
        let (mut low, mut high) = (0, 0);
        move || {
            for p in inputs {
                black_box(call(black_box(p), black_box(unit), &mut low, &mut high));
                black_box((&low, &high));
            }
        }
    };
    let (library, twin) = (Box::new(pass(ffi::in_units)), Box::new(pass(own::in_units)));
    Item { name: "in units".to_string(), calls: inputs.len(), library, twin }
}

/// Decks, each beside the call it is for.
type Decks = Vec<(Sort, Vec<u8>)>;

/// Reading alone and the whole report of some decks, of one size or mixed.
fn deck_items<'a>(size: &str, decks: &'a Decks) -> [Item<'a>; 2] {
    for &(sort, ref deck) in decks {
        let (mut l, mut t) = (vec![0; LONGEST_REPORT], vec![0; LONGEST_REPORT]);
        alike(size, ffi::read(sort, deck), twin::read(sort, deck));
        alike(size, ffi::report(sort, deck, &mut l), twin::report(sort, deck, &mut t));
        alike(size, l, t);
    }
    let read = |call: fn(Sort, &[u8]) -> twin::Outcome| {
        move || {
            for &(sort, ref deck) in decks {
                black_box(call(black_box(sort), black_box(deck)));
            }
        }
    };
    let report = |call: fn(Sort, &[u8], &mut [u8]) -> twin::Outcome| {
        let mut out = vec![0; LONGEST_REPORT];
        move || {
            for &(sort, ref deck) in decks {
                black_box(call(black_box(sort), black_box(deck), &mut out));
                black_box(&out);
            }
        }
    };
    [
        Item {
            name: format!("{size} reading"),
            calls: decks.len(),
            library: Box::new(read(ffi::read)),
            twin: Box::new(read(twin::read)),
        },
        Item {
            name: format!("{size} report"),
            calls: decks.len(),
            library: Box::new(report(ffi::report)),
            twin: Box::new(report(twin::report)),
        },
    ]
}

/// Chemicals and receptors of the decks.
const SIZES: [(usize, usize); 3] = [(1, 1), (4, 2), (16, 4)];
/// Of those of the year 2009.
const SIZE_2009: (usize, usize) = (16, 4);
/// Chemicals and stages of a composite's.
const COMPOSITE_SIZES: [(usize, usize); 2] = [(1, 8), (16, 8)];

type Make = fn(Sort, u64, usize, usize) -> Vec<u8>;

fn main() {
    let args: Vec<String> = std::env::args().skip(1).collect();
    let (page_path, figure) = match &args[..] {
        [page, figure] | [page, figure, _] => (page, figure),
        _ => {
            eprintln!("bench PAGE.md FIGURE.svg [ROUNDS]");
            std::process::exit(2)
        }
    };
    let rounds = args.get(2).map_or(101, |r| r.parse().expect("rounds: a whole number")).max(1);

    let rng = &mut Rng::new(2005);
    let (a, b) = (pairs(rng, -16, 0), pairs(rng, -16, 0));
    let shares = pairs(rng, -14, -9);
    let quotients = pairs(rng, -18, -6);
    let xs: Vec<Raw> = pairs(rng, -9, -8).into_iter().step_by(16).collect();
    let printed: Vec<Printed> = (0..INPUTS).map(|_| (rng.figures(1, 9) as u64, rng.between(-20, 3) as i32)).collect();
    let ends: Vec<_> =
        pairs(rng, -9, -7).iter().zip(pairs(rng, -9, -7)).map(|(a, b)| ([a[0], a[1]], [b[2], b[3]])).collect();
    let twelve_digits: Vec<Printed> = (0..INPUTS)
        .map(|_| (rng.between(100_000_000_000, 999_999_999_999) as u64, rng.between(-20, 0) as i32))
        .collect();
    let printed_shares: Vec<Printed> = (0..INPUTS)
        .map(|_| {
            let decimals = rng.between(10, 12);
            (rng.between(0, 10i64.pow(decimals as u32) - 1) as u64, -decimals as i32)
        })
        .collect();
    let four = |make: Make, sort, (c, r)| (0..4).map(|seed| (sort, make(sort, seed, c, r))).collect();
    let (ordinary, composite) = (Sort::Ordinary, Sort::Composite);
    let mut decks: Vec<(String, Decks)> = Vec::new();
    decks.extend(SIZES.map(|(c, r)| (format!("{c} × {r}"), four(everyday, ordinary, (c, r)))));
    decks.extend(SIZES.map(|(c, r)| (format!("{c} × {r} (11 digits)"), four(everyday_eleven, ordinary, (c, r)))));
    let (c, r) = SIZE_2009;
    decks.push((format!("{c} × {r} (2009)"), four(everyday_2009, ordinary, SIZE_2009)));
    decks.extend(COMPOSITE_SIZES.map(|(c, r)| (format!("{c} × {r} stages"), four(everyday, composite, (c, r)))));
    // One pass takes longer than a turn should, and is one; rounds are as many as for the others.
    let mixed = batch(2006, 1_000);
    let mixture = made_of(&mixed);
    decks.push(("batch of 1,000 mixed decks,".to_string(), mixed));

    let mut items = vec![
        on_printed("entry", &printed, ffi::entry, own::entry),
        on_printed("entry, 12 digits", &twelve_digits, ffi::entry, own::entry),
        on_two("sum", &a, &b, ffi::sum, own::sum),
        on_two("product", &a, &b, ffi::product, own::product),
        on_two("quotient", &a, &b, ffi::quotient, own::quotient),
        on_one("1 − f", &shares, ffi::one_minus, own::one_minus),
        on_printed("1 − printed number", &printed_shares, ffi::one_minus_entry, own::one_minus_entry),
        comparisons(&ends),
        counts(&quotients, -12),
        on_one("series, 256 terms", &xs, ffi::series, own::series),
        on_one("mean series, 256 terms", &xs, ffi::mean_series, own::mean_series),
    ];
    for (size, decks) in &decks {
        items.extend(deck_items(size, decks));
    }
    let timed = run(items, rounds);
    let sizes: Vec<&str> = decks.iter().map(|(size, _)| size.trim_end_matches(',')).collect();
    let text = markdown(&timed, &sizes, &mixture, rounds);
    print!("{text}");
    let page = std::fs::read_to_string(page_path).unwrap_or_default();
    std::fs::write(page_path, with_table(&page, &text)).unwrap_or_else(|e| panic!("{page_path}: {e}"));
    std::fs::write(figure, svg(&timed, rounds)).unwrap_or_else(|e| panic!("{figure}: {e}"));
}

/// What a batch is made of.
fn made_of(batch: &Decks) -> String {
    let (mut ordinary, mut composites, mut refused, mut unread) = (0, 0, 0, 0);
    for &(sort, ref deck) in batch {
        match (twin::report(sort, deck, &mut [0; LONGEST_REPORT]).0, sort) {
            (0, Sort::Ordinary) => ordinary += 1,
            (0, Sort::Composite) => composites += 1,
            _ => refused += 1,
        }
        unread += usize::from(twin::read(sort, deck).0 != 0);
    }
    format!(
        "The batch: {ordinary} ordinary decks of 1 to 16 chemicals and 1 to 4 receptors, {composites} composites of 1 to 16\n\
         chemicals and 1 to 8 stages, some half of either with 11 digits, and {refused} refused decks, {unread} of them in reading."
    )
}

/// The page with its tables made anew: what stands between the two marks, or the tables alone where there are none.
fn with_table(page: &str, tables: &str) -> String {
    const BEGIN: &str = "<!-- tables, written by the benchmark -->\n";
    const END: &str = "<!-- end of the tables -->\n";
    match (page.split_once(BEGIN), page.split_once(END)) {
        (Some((before, _)), Some((_, after))) => format!("{before}{BEGIN}{tables}{END}{after}"),
        _ => tables.to_string(),
    }
}

/// Three figures, thousands apart.
fn nanoseconds(ns: f64) -> String {
    if ns < 100.0 {
        return format!("{ns:.1}");
    }
    let digits = format!("{ns:.0}");
    let mut text = String::new();
    for (i, c) in digits.chars().enumerate() {
        if i > 0 && (digits.len() - i) % 3 == 0 {
            text.push(',');
        }
        text.push(c);
    }
    text
}

/// The rows of decks stand last, reading and report of each size.
fn markdown(timed: &[Timed], sizes: &[&str], mixture: &str, rounds: usize) -> String {
    let mut text = String::new();
    let _ = writeln!(
        text,
        "Nanoseconds of one call, medians of {rounds} rounds in which library and twin took turns on the same inputs;"
    );
    let _ = writeln!(
        text,
        "decks are chemicals × receptors, those of 11 digits the same with each number moved by less than its last place;"
    );
    let _ = writeln!(text, "those of 2009 the first with that year written in, where all others have none;");
    let _ = writeln!(text, "decks of stages go to the composite call, which reports one receptor;");
    let _ = writeln!(text, "of a batch, what one deck takes on average.");
    let _ = writeln!(text, "Ratio: library by twin, median of the rounds' own ratios.\n");
    let _ = writeln!(text, "| Call | Library, ns | Twin, ns | Library / twin |\n|---|---:|---:|---:|");
    for t in timed {
        let _ =
            writeln!(text, "| {} | {} | {} | {:.2} |", t.name, nanoseconds(t.library), nanoseconds(t.twin), t.ratio);
    }
    let _ = writeln!(text, "\n| Reading as a share of the whole report | Library | Twin |\n|---|---:|---:|");
    let decks = &timed[timed.len() - 2 * sizes.len()..];
    for (size, two) in sizes.iter().zip(decks.chunks(2)) {
        let share = |pick: fn(&Timed) -> f64| 100.0 * pick(&two[0]) / pick(&two[1]);
        let _ = writeln!(text, "| {size} | {:.1} % | {:.1} % |", share(|t| t.library), share(|t| t.twin));
    }
    let _ = writeln!(text, "\n{mixture}");
    text
}

/// Two bars for each call, on a log scale.
fn svg(timed: &[Timed], rounds: usize) -> String {
    const LEFT: f64 = 260.0;
    const RIGHT: f64 = 780.0;
    const TOP: f64 = 92.0;
    const GROUP: f64 = 38.0;
    let all = || timed.iter().flat_map(|t| [t.library, t.twin]);
    let low = all().fold(f64::MAX, f64::min).log10().floor().min(0.0);
    let high = all().fold(0.0, f64::max).log10().ceil();
    let at = |ns: f64| LEFT + (ns.log10() - low).max(0.0) / (high - low) * (RIGHT - LEFT);
    let bottom = TOP + GROUP * timed.len() as f64;
    let height = bottom + 48.0;
    let mut s = String::new();
    let _ = writeln!(
        s,
        r##"<svg xmlns="http://www.w3.org/2000/svg" viewBox="0 0 940 {height:.0}" width="940" height="{height:.0}" role="img" aria-labelledby="t d" font-family="system-ui, sans-serif" font-size="13">
<title id="t">Library and twin: nanoseconds of one call</title>
<desc id="d">Two bars for each call, library and twin, on a logarithmic scale of nanoseconds, and their ratio.</desc>
<style>
  .back {{ fill: #ffffff }} .text {{ fill: #1f2328 }} .soft {{ fill: #59636e }} .grid {{ stroke: #d1d9e0 }}
  .library {{ fill: #0b6bcb }} .twin {{ fill: #c2571a }}
  @media (prefers-color-scheme: dark) {{
    .back {{ fill: #0d1117 }} .text {{ fill: #f0f6fc }} .soft {{ fill: #9198a1 }} .grid {{ stroke: #3d444d }}
    .library {{ fill: #58a6ff }} .twin {{ fill: #f0883e }}
  }}
</style>
<rect class="back" width="940" height="{height:.0}"/>
<text class="text" x="20" y="28" font-size="17" font-weight="600">Library and twin: nanoseconds of one call</text>
<text class="soft" x="20" y="48">Medians of {rounds} rounds in turn on the same inputs; decks are chemicals × receptors or stages. Shorter is faster.</text>
<rect class="library" x="20" y="60" width="12" height="12"/><text class="text" x="38" y="71">library</text>
<rect class="twin" x="100" y="60" width="12" height="12"/><text class="text" x="118" y="71">twin</text>
<text class="soft" x="920" y="{:.0}" text-anchor="end">library / twin</text>"##,
        TOP - 8.0
    );
    for power in low as i32..=high as i32 {
        let x = at(10f64.powi(power));
        let label =
            if power < 0 { format!("{}", 10f64.powi(power)) } else { nanoseconds(10f64.powi(power)).replace(".0", "") };
        let _ = writeln!(s, r#"<line class="grid" x1="{x:.1}" x2="{x:.1}" y1="{TOP:.0}" y2="{bottom:.0}"/>"#);
        let _ = writeln!(
            s,
            r#"<text class="soft" x="{x:.1}" y="{:.0}" text-anchor="middle">{label}</text>"#,
            bottom + 17.0
        );
    }
    let middle = (LEFT + RIGHT) / 2.0;
    let _ = writeln!(
        s,
        r#"<text class="soft" x="{middle:.0}" y="{:.0}" text-anchor="middle">nanoseconds, log scale</text>"#,
        bottom + 37.0
    );
    for (i, t) in timed.iter().enumerate() {
        let y = TOP + GROUP * i as f64 + 5.0;
        let _ = writeln!(
            s,
            r#"<text class="text" x="{:.0}" y="{:.0}" text-anchor="end">{}</text>"#,
            LEFT - 10.0,
            y + 18.0,
            t.name
        );
        for (class, ns, y) in [("library", t.library, y), ("twin", t.twin, y + 14.0)] {
            let end = at(ns);
            let _ = writeln!(
                s,
                r#"<rect class="{class}" x="{LEFT:.0}" y="{y:.0}" width="{:.1}" height="13"/>"#,
                (end - LEFT).max(1.0)
            );
            let _ = writeln!(
                s,
                r#"<text class="text" x="{:.1}" y="{:.0}" font-size="11">{}</text>"#,
                end + 5.0,
                y + 10.5,
                nanoseconds(ns)
            );
        }
        let _ =
            writeln!(s, r#"<text class="text" x="920" y="{:.0}" text-anchor="end">{:.2}</text>"#, y + 18.0, t.ratio);
    }
    s.push_str("</svg>\n");
    s
}
