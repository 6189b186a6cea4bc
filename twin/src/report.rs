//! The report of a deck, and totals.

use crate::deck::{read_case, Case, Sort, MOST_CHEMICALS, MOST_RECEPTORS};
use crate::page::{composite, pathways, Body, Media, Site, MOST_QUOTIENT, MOST_RISK};
use crate::pairs::Pair;
use crate::Outcome;

/// Bytes of a report line.
pub const LINE: usize = 95;

const QUOTIENT_UNIT: i32 = -12;
const RISK_UNIT: i32 = -15;

/// Low and high count; `None` without a reference value.
type Units = Option<(u64, u64)>;

/// Hazard and risk of a pathway line.
type Line = [Units; 2];

const MOST_LINES: usize = MOST_RECEPTORS * MOST_CHEMICALS * 6;

/// The report into `out`, or where the deck stops and `out` as it was.
pub fn report(sort: Sort, deck: &[u8], out: &mut [u8]) -> Outcome {
    let mut case = Case::empty();
    let mut lines = [[None; 2]; MOST_LINES];
    match work(sort, deck, out.len(), &mut case, &mut lines) {
        Ok(()) => {
            let length = case.report_length();
            write(&case, &lines, &mut out[..length]);
            (0, length, 0)
        }
        Err(stop) => stop,
    }
}

/// The length of the report that a deck would have, or where its reading stops.
pub fn report_length(sort: Sort, deck: &[u8]) -> Result<usize, Outcome> {
    let mut case = Case::empty();
    read_reported(sort, deck, &mut case)?;
    Ok(case.report_length())
}

/// Reads into an empty case, its receptors those that are reported: from here on a composite is a receptor like any other.
pub fn read_reported(sort: Sort, deck: &[u8], case: &mut Case) -> Result<(), Outcome> {
    read_case(sort, deck, case)?;
    if sort == Sort::Composite {
        case.set_only_receptor(composite(case.receptors()));
    }
    Ok(())
}

/// Everything but writing, since a refusal leaves the buffer alone.
fn work(sort: Sort, deck: &[u8], room: usize, case: &mut Case, lines: &mut [Line; MOST_LINES]) -> Result<(), Outcome> {
    read_reported(sort, deck, case)?;
    if room < case.report_length() {
        return Err((51, 0, 0));
    }
    let site = Site::new(&case.site, case.td);
    let mut media = [Media::NONE; MOST_CHEMICALS];
    for (media, chemical) in media.iter_mut().zip(case.chemicals()) {
        *media = Media::new(&site, chemical);
    }
    let mut at = 0;
    for (r, receptor) in case.receptors().iter().enumerate() {
        let (body, exposure) = (Body::new(receptor, case.guidance), site.exposure(receptor));
        for (chemical, media) in case.chemicals().iter().zip(&media) {
            for figures in pathways(&site, chemical, media, &exposure, &body) {
                // Each receptor before this one has a total line too.
                let stop = (42, at + r + 1, 0);
                lines[at] = [
                    units(figures.quotient, MOST_QUOTIENT, QUOTIENT_UNIT).ok_or(stop)?,
                    units(figures.risk, MOST_RISK, RISK_UNIT).ok_or(stop)?,
                ];
                at += 1;
            }
        }
    }
    Ok(())
}

/// The count of a figure that may be lacking, or `None` above its cap.
fn units(figure: Option<Pair>, cap: crate::pairs::Working, unit: i32) -> Option<Units> {
    match figure {
        None => Some(None),
        Some(p) if p.high.at_most(cap) => p.in_units(unit).map(Some),
        Some(_) => None,
    }
}

fn write(case: &Case, lines: &[Line; MOST_LINES], out: &mut [u8]) {
    let mut parts = out.chunks_exact_mut(LINE);
    let mut lines = lines.iter();
    for receptor in case.receptors() {
        let mut totals: Line = [None; 2];
        for chemical in case.chemicals() {
            for (pathway, line) in (1..=6).zip(&mut lines) {
                for (total, units) in totals.iter_mut().zip(line) {
                    // At most 96 counts of at most 1E+16: no overflow.
                    if let Some((low, high)) = units {
                        let (l, h) = total.unwrap_or((0, 0));
                        *total = Some((l + low, h + high));
                    }
                }
                if let Some(part) = parts.next() {
                    write_line(part, receptor.id, chemical.id, pathway, line);
                }
            }
        }
        if let Some(part) = parts.next() {
            write_line(part, receptor.id, 0, 0, &totals);
        }
    }
}

fn write_line(part: &mut [u8], receptor: u32, chemical: u32, pathway: u32, line: &Line) {
    part[..LINE - 1].fill(b' ');
    part[LINE - 1] = b'\n';
    put(&mut part[..6], receptor as u64);
    put(&mut part[6..12], chemical as u64);
    put(&mut part[12..14], pathway as u64);
    for (columns, units) in part[14..94].chunks_exact_mut(40).zip(line) {
        let (low, high) = columns.split_at_mut(20);
        match *units {
            Some((l, h)) => {
                put(low, l);
                put(high, h);
            }
            None => {
                low[19] = b'-';
                high[19] = b'-';
            }
        }
    }
}

static HUNDREDS: [[u8; 2]; 100] = {
    let mut t = [[0; 2]; 100];
    let mut i = 0;
    while i < 100 {
        t[i] = [b'0' + (i / 10) as u8, b'0' + (i % 10) as u8];
        i += 1;
    }
    t
};

/// Digits at the right end of columns that hold spaces; two at a time, as most of a report is digits.
fn put(columns: &mut [u8], mut n: u64) {
    let mut end = columns.len();
    while n >= 10 {
        columns[end - 2..end].copy_from_slice(&HUNDREDS[(n % 100) as usize]);
        n /= 100;
        end -= 2;
        if n == 0 {
            return;
        }
    }
    columns[end - 1] = b'0' + n as u8;
}

/// The sum of at most 96 numbers of at most 1E+16 each, or 52.
pub fn total(list: &[u64]) -> Result<u64, u32> {
    if list.len() > 96 || list.iter().any(|&n| n > 10_000_000_000_000_000) {
        return Err(52);
    }
    Ok(list.iter().sum())
}

/// What `tally` prints of an outcome: three numbers, 6 columns each, and a line feed.
pub fn refusal_line(stop: Outcome) -> [u8; 19] {
    let mut text = [b' '; 19];
    put(&mut text[..6], stop.0 as u64);
    put(&mut text[6..12], stop.1 as u64);
    put(&mut text[12..18], stop.2 as u64);
    text[18] = b'\n';
    text
}

#[cfg(test)]
mod tests {
    use super::*;

    fn record(deck: &mut Vec<u8>, kind: char, id: usize, fields: &str) {
        let mut fields: Vec<&str> = fields.split(' ').collect();
        while fields.len() % 6 != 0 {
            fields.push("");
        }
        for (k, six) in fields.chunks(6).enumerate() {
            deck.extend(format!("{kind}{}{id:>6}", k + 1).bytes());
            six.iter().for_each(|f| deck.extend(format!("{f:>12}").bytes()));
            deck.push(b'\n');
        }
    }

    const SITE: &str = "10 2 30 0.2 0 0 0 0 0 0.01 0.5";
    const CHEMICAL: &str = "1 1 1 0 0 1 0 0 0.001 0 100 0 0 0.1 10 1 1 0.1 0.001 0.001 1 -";
    const RECEPTOR: &str = "20 5 27375 10 1 365 80 1 73 146 1000 0.02 400 0.1 1 0.1 0.5 0.2 0.5 1 365";

    /// Receptors from id 1 on.
    fn deck_of(chemicals: &[&str], receptors: &[String]) -> Vec<u8> {
        let mut deck = Vec::new();
        record(&mut deck, 'S', 1, SITE);
        chemicals.iter().enumerate().for_each(|(i, c)| record(&mut deck, 'C', i + 1, c));
        receptors.iter().enumerate().for_each(|(i, r)| record(&mut deck, 'R', i + 1, r));
        deck.extend(format!("EN{:78}\n", "").bytes());
        deck
    }

    fn deck(chemicals: &[&str], receptors: usize) -> Vec<u8> {
        deck_of(chemicals, &vec![exposed(RECEPTOR, "1"); receptors])
    }

    /// A receptor with this T2 in slot 22.
    fn exposed(receptor: &str, t2: &str) -> String {
        format!("{receptor} {t2}")
    }

    fn report(deck: &[u8], out: &mut [u8]) -> Outcome {
        super::report(Sort::Ordinary, deck, out)
    }

    fn composite_report(deck: &[u8], out: &mut [u8]) -> Outcome {
        super::report(Sort::Composite, deck, out)
    }

    /// A life stage: slot 22 blank, these years in slot 23.
    fn stage(receptor: &str, years: &str) -> String {
        format!("{receptor}  {years}")
    }

    #[test]
    fn example_deck() {
        let want = "\
1 1 1 500000000000 500000000000 - -
1 1 2 120000000 120000000 3999999 4000001
1 1 3 120000000 120000000 3999999 4000001
1 1 4 9000000 9000000 300000 300000
1 1 5 37500000000 37500000000 1249999990 1250000010
1 1 6 750000000 750000000 24999999 25000001
1 0 0 538499000000 538499000000 1283299987 1283300013
";
        let mut padded = Vec::new();
        for line in want.lines() {
            for (word, width) in line.split(' ').zip([6, 6, 2, 20, 20, 20, 20]) {
                padded.extend(format!("{word:>width$}").bytes());
            }
            padded.push(b'\n');
        }
        let deck = deck(&[CHEMICAL], 1);
        let mut out = [b'#'; 7 * LINE + 3];
        assert_eq!(report(&deck, &mut out), (0, 7 * LINE, 0));
        assert_eq!(out[..7 * LINE], padded);
        assert_eq!(out[7 * LINE..], *b"###");
        let mut short = [b'#'; 7 * LINE - 1];
        assert_eq!(report(&deck, &mut short), (51, 0, 0));
        assert_eq!(short, [b'#'; 7 * LINE - 1]);
    }

    #[test]
    fn lengths() {
        let full = deck(&[CHEMICAL; 16], 4);
        assert_eq!(full.len(), 6_723);
        let mut out = vec![0; crate::LONGEST_REPORT];
        assert_eq!(report(&full, &mut out), (0, crate::LONGEST_REPORT, 0));
        let over = deck(&[CHEMICAL; 16], 5);
        assert_eq!(report(&over[..6_804], &mut out), (11, 0, 0));
        assert_eq!(report(&[], &mut out), (11, 0, 0));
        assert_eq!(report(&deck(&[CHEMICAL; 17], 1), &mut out), (21, 67, 0));
        assert_eq!(report(&deck(&[CHEMICAL], 5), &mut out), (21, 23, 0));
        let whole = deck(&[CHEMICAL], 1);
        assert_eq!(report(&whole[..whole.len() - 81], &mut out), (21, 11, 0));
    }

    /// A chemical with this Fv.
    fn vapour(fv: &str) -> String {
        CHEMICAL.replacen("1 1 1 0 ", &format!("1 1 1 {fv} "), 1)
    }

    #[test]
    fn what_eleven_digits_leave_of_1() {
        let mut out = [0; 7 * LINE];
        assert_eq!(report(&deck(&[&vapour("0.9999999999")], 1), &mut out), (0, 7 * LINE, 0));
        // 1E-10 of the example's 500000000000 at both ends.
        assert_eq!(out[14..54], *b"                  50                  50");
        assert_eq!(report(&deck(&[&vapour("1.0000000000")], 1), &mut out), (0, 7 * LINE, 0));
        assert_eq!(out[14..54], *b"                   0                   0");
        let before = out;
        assert_eq!(report(&deck(&[&vapour("1.0000000001")], 1), &mut out), (33, 3, 4));
        assert_eq!(out, before);
    }

    #[test]
    fn more_than_nine_digits_are_read() {
        let with = |bw: &str| {
            let mut deck = deck(&[CHEMICAL], 1);
            let at = 6 * crate::deck::LINE + 8;
            deck[at..at + 12].copy_from_slice(format!("{bw:>12}").as_bytes());
            deck
        };
        let mut out = [0; 7 * LINE];
        let mut other = [0; 7 * LINE];
        report(&with("20"), &mut other);
        for same in ["20.00000000", "20.000000000", "000000000020", "0000000020"] {
            assert_eq!(report(&with(same), &mut out), (0, 7 * LINE, 0), "{same}");
            assert_eq!(out, other, "{same}");
        }
        // BW is 20 to 20.0000001 and B 36500 to 36500.0002; 18250 / 36500.0002 is 0.499999997 and something.
        assert_eq!(report(&with("20.000000001"), &mut out), (0, 7 * LINE, 0));
        assert_eq!(out[14..54], *b"        499999997000        500000000000");
        assert_eq!(report(&with("1000000000.1"), &mut out), (33, 7, 1));
        assert_eq!(report(&with("999999999999"), &mut out), (33, 7, 1));
        assert_eq!(report(&with("999999999.5"), &mut out), (0, 7 * LINE, 0));
        // What was 31 in a later slot for its digits is 32 like any other number there.
        let mut deck = with("20");
        let at = 6 * crate::deck::LINE - 1 - 12;
        deck[at..at + 12].copy_from_slice(b"  1234567890");
        assert_eq!(report(&deck, &mut out), (32, 6, 6));
    }

    /// Without loss, of 30 years' deposition half of the highest year's soil is the mean of 30 years or less; of 60 years it is
    /// (30 × half + 30 × whole) / 60. Hazard keeps the whole.
    #[test]
    fn cancer_takes_the_mean_soil() {
        let mut one = [0; 7 * LINE];
        assert_eq!(report(&deck(&[CHEMICAL], 1), &mut one), (0, 7 * LINE, 0));
        let mut out = [0; 7 * LINE];
        for t2 in ["1E-20", "0.0000000001", "29.999999999", "30", "30.000000000", "3E+01"] {
            assert_eq!(report(&deck_of(&[CHEMICAL], &[exposed(RECEPTOR, t2)]), &mut out), (0, 7 * LINE, 0));
            assert_eq!(out, one, "{t2}");
        }
        let receptor = RECEPTOR.replacen("27375", "36500", 1);
        for (t2, eaten, above, below) in [
            ("30", 3_000_000u64, 937_500_000u64, 18_750_000u64),
            ("60", 4_500_000, 1_406_250_000, 28_125_000),
            ("120", 5_250_000, 1_640_625_000, 32_812_500),
        ] {
            assert_eq!(report(&deck_of(&[CHEMICAL], &[exposed(&receptor, t2)]), &mut out), (0, 7 * LINE, 0));
            for (pathway, units) in [(2, eaten), (3, eaten), (5, above), (6, below)] {
                let line = &out[(pathway - 1) * LINE..pathway * LINE];
                assert_eq!(line[54..94], *format!("{units:>20}{units:>20}").as_bytes(), "{t2} {pathway}");
                assert_eq!(line[14..54], one[(pathway - 1) * LINE..][14..54]);
            }
        }
        // The last digit beyond tD, at both ends of a pair: next to the half, and some roundings wider.
        assert_eq!(report(&deck_of(&[CHEMICAL], &[exposed(&receptor, "30.000000001")]), &mut out), (0, 7 * LINE, 0));
        assert_eq!(out[LINE + 54..LINE + 94], *b"             2999999             3000001");
    }

    #[test]
    fn t2_is_needed_in_an_ordinary_deck_alone() {
        let mut out = [b'#'; 14 * LINE];
        let mut refused = |t2: &str, number: u32| {
            let deck = deck_of(&[CHEMICAL], &[exposed(RECEPTOR, "2"), exposed(RECEPTOR, t2)]);
            assert_eq!(report(&deck, &mut out), (number, 14, 4), "{t2}");
            assert_eq!(crate::read(Sort::Ordinary, &deck), (number, 14, 4), "{t2}");
            assert_eq!(out, [b'#'; 14 * LINE]);
        };
        for t2 in ["", "-"] {
            refused(t2, 32);
        }
        for t2 in ["0", "0.0", "0E+99", "000000000000", "9.999999E-21", "1E-21", "1000000000.1", "1E+10"] {
            refused(t2, 33);
        }
        for t2 in ["-1", "4,5", ".5", "--"] {
            refused(t2, 31);
        }
        for t2 in ["1E-20", "10000000E-27", "0.0000000001", "1E+09", "1000000000.0", "001000000000"] {
            let deck = deck_of(&[CHEMICAL], &[exposed(RECEPTOR, "2"), exposed(RECEPTOR, t2)]);
            assert_eq!(report(&deck, &mut out), (0, 14 * LINE, 0), "{t2}");
        }
    }

    /// The example with this tD and these chemicals and receptors.
    fn deposited(td: &str, chemicals: &[&str], receptors: &[String]) -> Vec<u8> {
        let deck = String::from_utf8(deck_of(chemicals, receptors)).unwrap();
        deck.replacen("          30", &format!("{td:>12}"), 1).into_bytes()
    }

    /// A chemical with this ksg: x is ksg × tD.
    fn decaying(ksg: &str) -> String {
        CHEMICAL.replacen("100 0 0 ", &format!("100 {ksg} 0 "), 1)
    }

    /// Low and high of hazard and of risk on a line.
    fn units_of(line: &[u8]) -> [u64; 4] {
        let text = std::str::from_utf8(line).unwrap();
        [14, 34, 54, 74].map(|at| text[at..at + 20].trim().parse().unwrap())
    }

    /// Soil eaten and above-ground produce of one receptor, B of cancer 20 × 36500 days, by hand.
    #[test]
    fn fast_losses() {
        let receptor = RECEPTOR.replacen("27375", "36500", 1);
        let figures = |td: &str, ksg: &str, t2: &str| {
            let mut out = [0; 7 * LINE];
            let deck = deposited(td, &[&decaying(ksg)], &[exposed(&receptor, t2)]);
            assert_eq!(report(&deck, &mut out), (0, 7 * LINE, 0), "{td} {ksg} {t2}");
            (units_of(&out[LINE..2 * LINE]), units_of(&out[4 * LINE..5 * LINE]))
        };
        // tD 1, D × tD 0.005, x 100: g is 9.99999990E-3 to 0.01, h 9.9E-3 to 9.90000001E-3. Soil eaten is C × 8E-7 / 0.001 and
        // C × 4E-8, produce C × 2.5E-4 / 0.001 and C × 1.25E-5, but that the mean is for cancer.
        let want = ([39_999, 40_000, 1_980, 1_981], [12_499_999, 12_500_000, 618_750, 618_751]);
        assert_eq!(figures("1", "100", "1"), want);
        // T2 101: (D × tD × tD × h + C × 100 × g at 10000) / 101, with C × 100 × g 5E-7: 4.95E-5 + 5E-7 is 5E-5.
        let long = figures("1", "100", "101");
        assert_eq!((long.0[..2].to_vec(), long.1[..2].to_vec()), (vec![39_999, 40_000], vec![12_499_999, 12_500_000]));
        assert_eq!((long.0[2..].to_vec(), long.1[2..].to_vec()), (vec![19, 20], vec![6_188, 6_189]));
    }

    /// At 64 the series are worked and above it they are not; no deck stops for it, whatever x and k × (T2 − tD) are.
    #[test]
    fn no_loss_is_too_fast() {
        let mut out = [b'#'; 26 * LINE];
        let answered = (0, 26 * LINE, 0);
        let two = |t2: [&str; 2]| t2.map(|t2| exposed(RECEPTOR, t2));
        for (td, ksg) in [("1", "64"), ("1", "64.0000001"), ("1", "64.000000001"), ("30", "3"), ("1E+09", "1E+09")] {
            for t2 in [["1", "1E-20"], ["1E+09", "30.000000001"], ["1.00000001", "2"], ["2", "1000000000"]] {
                let deck = deposited(td, &[&decaying(ksg), &decaying("1E+09")], &two(t2));
                assert_eq!(report(&deck, &mut out), answered, "{td} {ksg} {t2:?}");
            }
        }
        // tD 1 or 100; decay 0.5: k × (T2 − tD) at 64, one unit above, and far above.
        for (td, at, above) in [("1", "129", "129.00000013"), ("100", "228", "228.0000002")] {
            for t2 in [["1", at], [at, at], ["1", above], [above, at], [above, "1E+09"]] {
                let deck = deposited(td, &[CHEMICAL, &decaying("0.5")], &two(t2));
                assert_eq!(report(&deck, &mut out), answered, "{td} {t2:?}");
                let before = out;
                assert_eq!(report(&deck, &mut out[..26 * LINE - 1]), (51, 0, 0));
                assert_eq!(out, before);
            }
        }
        // A fast loss after a figure over its cap.
        let over = CHEMICAL.replacen("0.001 0.001 1", "0.001 4E-08 1", 1);
        assert_eq!(report(&deck_of(&[&over, &decaying("1E+09")], &two(["1", "1E+09"])), &mut out), (42, 1, 0));
        assert_eq!(report(&deck_of(&[&decaying("1E+09"), &over], &two(["1", "1E+09"])), &mut out), (42, 7, 0));
        // A composite's, by the sum of its years: 128, a unit more, and far more than tD.
        for last in ["58", "58.0000002", "1E+09"] {
            let stages = [stage(RECEPTOR, "100"), stage(RECEPTOR, last)];
            for ksg in ["0.5", "3", "1E+09"] {
                let deck = deck_of(&[CHEMICAL, &decaying(ksg)], &stages);
                assert_eq!(composite_report(&deck, &mut out), (0, 13 * LINE, 0), "{last} {ksg}");
            }
        }
    }

    #[test]
    fn caps() {
        let mut out = [0; 14 * LINE];
        // The first quotient is 5E-4 / RfDi.
        let at = |rfdi: &str| deck(&[&CHEMICAL.replacen("0.001 0.001 1", &format!("0.001 {rfdi} 1"), 1)], 2);
        assert_eq!(report(&at("5E-08"), &mut out), (0, 14 * LINE, 0));
        assert_eq!(report(&at("4.999999E-08"), &mut out), (42, 1, 0));
    }

    /// The deck with this in the year's slot.
    fn dated(mut deck: Vec<u8>, year: &str) -> Vec<u8> {
        let at = 2 * crate::deck::LINE - 1 - 12;
        deck[at..at + 12].copy_from_slice(format!("{year:>12}").as_bytes());
        deck
    }

    /// A chemical with these in the slots of RfDi and CSFi.
    fn inhaled(reference: &str, unit_risk: &str) -> String {
        CHEMICAL.replacen("0.001 0.001 1 -", &format!("0.001 {reference} 1 {unit_risk}"), 1)
    }

    /// The example's air has 0.001 mg/m³; of 1825 days 365 × 5 are all and of 36500 the twentieth part.
    #[test]
    fn air_by_the_year() {
        let receptor = |from: &str, to: &str| {
            let cancer = RECEPTOR.replacen("27375", "36500", 1);
            assert!(cancer.contains(from));
            exposed(&cancer.replacen(from, to, 1), "1")
        };
        let with = |chemical: &str, receptor: String, year: &str| {
            let mut out = [0; 7 * LINE];
            assert_eq!(report(&dated(deck_of(&[chemical], &[receptor]), year), &mut out), (0, 7 * LINE, 0), "{year}");
            out
        };
        let same = || receptor("", "");
        let blank = with(&inhaled("0.001", "2"), same(), "");
        assert_eq!(units_of(&blank[..LINE]), [500_000_000_000, 500_000_000_000, 50_000_000_000, 50_000_000_000]);
        for year in ["2005", "2005.0", "2.005E+03", "000000002005", "20050E-01"] {
            assert_eq!(with(&inhaled("0.001", "2"), same(), year), blank, "{year}");
        }
        // A whole for hazard; for cancer 0.00005 × 1000 × 2.
        let air = [1_000_000_000_000, 1_000_000_000_000, 100_000_000_000_000, 100_000_000_000_000];
        let other = with(&inhaled("0.001", "2"), same(), "2009");
        assert_eq!(units_of(&other[..LINE]), air);
        assert_eq!(other[LINE..6 * LINE], blank[LINE..6 * LINE]);
        for year in ["2009.0", "2.009E+03", "000000002009", "20090E-01"] {
            assert_eq!(with(&inhaled("0.001", "2"), same(), year), other, "{year}");
        }
        // Neither weight, breath nor absorption counts; the share of a day and the days of a year do.
        for (from, to) in [("20 5", "70 5"), (" 10 1 365", " 0 1 365"), (" 10 1 365", " 23 1 365")] {
            let out = with(&inhaled("0.001", "2"), receptor(from, to), "2009");
            assert_eq!(units_of(&out[..LINE]), air, "{to}");
        }
        let unabsorbed = inhaled("0.001", "2").replacen("10 1 1 0.1 0.001", "10 0 1 0.1 0.001", 1);
        assert_eq!(with(&unabsorbed, same(), "2009"), other);
        assert_eq!(units_of(&with(&unabsorbed, same(), "")[..LINE]), [0; 4]);
        for to in [" 10 0.5 365", " 10 1 182.5"] {
            let out = with(&inhaled("0.001", "2"), receptor(" 10 1 365", to), "2009");
            assert_eq!(units_of(&out[..LINE]), air.map(|n| n / 2), "{to}");
        }
        // Either reference may lack, and then no line but the oral ones is added up.
        let lacking = with(&inhaled("-", "-"), same(), "2009");
        assert_eq!(lacking[14..94], *format!("{0:>20}{0:>20}{0:>20}{0:>20}", "-").as_bytes());
        assert_eq!(lacking, with(&inhaled("-", "-"), same(), ""));
        let half = with(&inhaled("-", "2"), same(), "2009");
        assert_eq!((&half[14..54], &half[54..94]), (&lacking[14..54], &other[54..94]));
    }

    #[test]
    fn caps_by_2009() {
        let mut out = [0; 14 * LINE];
        let receptor = exposed(&RECEPTOR.replacen("27375", "36500", 1), "1");
        let mut told = |chemical: &str, year: &str| {
            let chemicals = [CHEMICAL, chemical];
            report(&dated(deck_of(&chemicals, std::slice::from_ref(&receptor)), year), &mut out)
        };
        let answered = (0, 13 * LINE, 0);
        // 0.001 / 1E-7 and 0.00005 × 1000 × 20 meet their caps.
        assert_eq!(told(&inhaled("1E-07", "20"), "2009"), answered);
        assert_eq!(told(&inhaled("9.999999E-08", "-"), "2009"), (42, 7, 0));
        assert_eq!(told(&inhaled("-", "20.0000001"), "2009"), (42, 7, 0));
        assert_eq!(told(&inhaled("-", "20.0000001"), "2005"), answered);
        assert_eq!(told(&inhaled("9.999999E-08", "-"), "2005"), answered);
    }

    #[test]
    fn no_other_year() {
        let ordinary = deck(&[CHEMICAL], 1);
        let composite = deck_of(&[CHEMICAL], &[stage(RECEPTOR, "2"), stage(RECEPTOR, "3")]);
        for (sort, deck) in [(Sort::Ordinary, ordinary), (Sort::Composite, composite)] {
            let mut out = [b'#'; 7 * LINE];
            for (year, number) in [
                ("-", 32),
                ("2004", 33),
                ("2010", 33),
                ("2009.0000001", 33),
                ("2008.9999999", 33),
                ("0", 33),
                ("2009E+01", 33),
                ("2009E", 31),
                ("MMIX", 31),
                ("+2009", 31),
            ] {
                let deck = dated(deck.clone(), year);
                assert_eq!(super::report(sort, &deck, &mut out), (number, 2, 6), "{sort:?} {year}");
                assert_eq!(crate::read(sort, &deck), (number, 2, 6), "{sort:?} {year}");
                assert_eq!(out, [b'#'; 7 * LINE]);
            }
            // In its turn: behind FRsnow, before the chemical.
            let mut deck = dated(deck.clone(), "2004");
            let next = 2 * crate::deck::LINE;
            deck[next] = b'X';
            assert_eq!(crate::read(sort, &deck), (33, 2, 6));
            deck[next - 1 - 24..next - 1 - 12].copy_from_slice(b"           -");
            assert_eq!(crate::read(sort, &deck), (32, 2, 5));
        }
    }

    /// ETinh and EFinh are the stages' means, ED the years: 0.5 × 365 × 4 of 365 × 4 days, for hazard and cancer alike.
    #[test]
    fn a_composites_air_by_2009() {
        let less = RECEPTOR.replacen("20 5 27375 10 1 365", "60 5 27375 40 0 365", 1);
        let mut deck = deck_of(&[&inhaled("0.001", "0.2")], &[stage(RECEPTOR, "2"), stage(&less, "2")]);
        let mut out = [0; 7 * LINE];
        assert_eq!(composite_report(&deck, &mut out), (0, 7 * LINE, 0));
        // BW 40, IRinh 25: 0.5 × 25 / 40 of the air.
        assert_eq!(units_of(&out[..LINE]), [312_500_000_000, 312_500_000_000, 62_500_000_000, 62_500_000_000]);
        deck = dated(deck, "2009");
        let before = out;
        assert_eq!(composite_report(&deck, &mut out), (0, 7 * LINE, 0));
        assert_eq!(
            units_of(&out[..LINE]),
            [500_000_000_000, 500_000_000_000, 100_000_000_000_000, 100_000_000_000_000]
        );
        assert_eq!(out[LINE..6 * LINE], before[LINE..6 * LINE]);
    }

    #[test]
    fn composite_lengths() {
        let stages = |n| vec![stage(RECEPTOR, "7"); n];
        let mut out = vec![b'#'; crate::LONGEST_REPORT];
        let full = deck_of(&[CHEMICAL; 16], &stages(8));
        assert_eq!(full.len(), 8_019);
        assert_eq!(crate::read(Sort::Composite, &full), (0, 0, 0));
        assert_eq!(crate::read(Sort::Ordinary, &full), (11, 0, 0));
        // One receptor's report: 16 × 6 lines and a total line.
        assert_eq!(composite_report(&full, &mut out[..9_214]), (51, 0, 0));
        assert!(out.iter().all(|&b| b == b'#'));
        assert_eq!(composite_report(&full, &mut out), (0, 9_215, 0));
        assert!(out[9_215..].iter().all(|&b| b == b'#'));
        let over = deck_of(&[CHEMICAL; 16], &stages(9));
        for n in [0, 8_018, 8_020, 8_100, over.len()] {
            assert_eq!(composite_report(&over[..n], &mut out), (11, 0, 0), "{n}");
        }
        // A ninth receptor, on line 2 + 4 + 32 + 1; a fifth in an ordinary deck.
        assert_eq!(composite_report(&deck_of(&[CHEMICAL], &stages(9)), &mut out), (21, 39, 0));
        assert_eq!(report(&deck(&[CHEMICAL], 5), &mut out), (21, 23, 0));
        assert_eq!(composite_report(&deck_of(&[CHEMICAL; 17], &stages(1)), &mut out), (21, 67, 0));
        assert_eq!(composite_report(&deck_of(&[CHEMICAL], &[]), &mut out), (21, 7, 0));
    }

    #[test]
    fn years_are_needed_in_a_composites_deck_alone() {
        let mut out = [b'#'; 7 * LINE];
        // The second stage's; line 14 is its R4.
        let mut refused = |years: &str, number: u32| {
            let deck = deck_of(&[CHEMICAL], &[stage(RECEPTOR, "2"), stage(RECEPTOR, years)]);
            assert_eq!(composite_report(&deck, &mut out), (number, 14, 5), "{years}");
            assert_eq!(crate::read(Sort::Composite, &deck), (number, 14, 5), "{years}");
            assert_eq!(out, [b'#'; 7 * LINE]);
        };
        for years in ["", "-"] {
            refused(years, 32);
        }
        for years in ["0", "0.0", "0E+99", "000000000000", "9.999999E-21", "1E-21", "1000000000.1", "1E+10"] {
            refused(years, 33);
        }
        for years in ["-1", "4,5", ".5", "--"] {
            refused(years, 31);
        }
        for years in ["1E-20", "0.0000000001", "1E+09", "1000000000.0"] {
            let deck = deck_of(&[CHEMICAL], &[stage(RECEPTOR, "2"), stage(RECEPTOR, years)]);
            assert_eq!(composite_report(&deck, &mut out), (0, 7 * LINE, 0), "{years}");
        }
        // The slots around them stay blank; so do the years of an ordinary deck, whatever they say.
        let (before, after) = (format!("{RECEPTOR} 1 2"), format!("{RECEPTOR}  2 1"));
        assert_eq!(composite_report(&deck_of(&[CHEMICAL], &[before]), &mut out), (32, 10, 4));
        assert_eq!(composite_report(&deck_of(&[CHEMICAL], &[after]), &mut out), (32, 10, 6));
        assert_eq!(composite_report(&deck(&[CHEMICAL], 1), &mut out), (32, 10, 4));
        for years in ["2", "0", "-", "1E+99"] {
            let deck = deck_of(&[CHEMICAL], &[format!("{RECEPTOR} 1 {years}")]);
            assert_eq!(report(&deck, &mut out), (32, 10, 5), "{years}");
        }
        assert_eq!(report(&deck_of(&[CHEMICAL], &[format!("{RECEPTOR} 1 x")]), &mut out), (31, 10, 5));
        // A stage's deck has no T2.
        assert_eq!(report(&deck_of(&[CHEMICAL], &[stage(RECEPTOR, "2")]), &mut out), (32, 10, 4));
    }

    #[test]
    fn a_stages_own_ed_and_atc_are_needed_and_not_used() {
        let with = |ed: &str, atc: &str| {
            let odd = RECEPTOR.replacen("20 5 27375", &format!("20 {ed} {atc}"), 1);
            deck_of(&[CHEMICAL], &[stage(RECEPTOR, "2.5"), stage(&odd, "2.5")])
        };
        let (mut out, mut other) = ([0; 7 * LINE], [0; 7 * LINE]);
        assert_eq!(composite_report(&with("5", "27375"), &mut out), (0, 7 * LINE, 0));
        assert_eq!(composite_report(&with("1E-20", "1E+09"), &mut other), (0, 7 * LINE, 0));
        assert_eq!(out, other);
        assert_eq!(composite_report(&with("", "27375"), &mut out), (32, 11, 2));
        assert_eq!(composite_report(&with("5", "-"), &mut out), (32, 11, 3));
        assert_eq!(composite_report(&with("0", "27375"), &mut out), (33, 11, 2));
        assert_eq!(composite_report(&with("5", "1E+10"), &mut out), (33, 11, 3));
    }

    #[test]
    fn a_composite_of_one_stage() {
        // Short numbers: years × value is a working number, and so is what it leaves when divided again.
        for (years, days) in
            [("5", "1825"), ("0.5", "182.5"), ("75", "27375"), ("4.5", "1642.5"), ("1E+09", "3.65E+11")]
        {
            let composite = deck_of(&[CHEMICAL, CHEMICAL], &[stage(RECEPTOR, years)]);
            let mut out = [b'#'; 13 * LINE + 3];
            assert_eq!(composite_report(&composite, &mut out), (0, 13 * LINE, 0));
            assert_eq!(out[13 * LINE..], *b"###");
            let plain = exposed(&RECEPTOR.replacen("20 5 27375", &format!("20 {years} {days}"), 1), years);
            let mut other = [b'#'; 13 * LINE + 3];
            let told = report(&deck_of(&[CHEMICAL, CHEMICAL], &[plain]), &mut other);
            if years == "1E+09" {
                // A composite's own ATc may be out of a field's range.
                assert_eq!(told, (33, 11, 3));
            } else {
                assert_eq!(told, (0, 13 * LINE, 0));
                assert_eq!(out, other, "{years}");
            }
        }
        // Risk is worked with the years' own days: 20 × 1825 instead of 20 × 27375. The soil is half of the highest year's.
        let mut out = [0; 7 * LINE];
        assert_eq!(composite_report(&deck_of(&[CHEMICAL], &[stage(RECEPTOR, "5")]), &mut out), (0, 7 * LINE, 0));
        assert_eq!(out[LINE + 54..LINE + 94], *b"            60000000            60000000");
    }

    #[test]
    fn a_composite_is_reported_under_the_first_id() {
        let other = RECEPTOR.replacen("20 5", "60 5", 1);
        let mut deck = deck_of(&[CHEMICAL], &[stage(RECEPTOR, "1"), stage(&other, "3")]);
        // Ids 41 and 999999; the deck's ids are of one figure.
        for line in deck.chunks_exact_mut(crate::deck::LINE).filter(|l| l[0] == b'R') {
            let id: &[u8; 6] = if line[7] == b'1' { b"    41" } else { b"999999" };
            line[2..8].copy_from_slice(id);
        }
        let mut out = [0; 7 * LINE];
        assert_eq!(composite_report(&deck, &mut out), (0, 7 * LINE, 0));
        assert!(out.chunks(LINE).all(|line| line.starts_with(b"    41")));
        // BW (20 + 180) / 4 = 50, so 0.2 where the example's 20 kg gives 0.5.
        assert_eq!(out[14..54], *b"        200000000000        200000000000");
    }

    #[test]
    fn a_composites_own_refusals_are_told_of_its_one_receptor() {
        let stages = |first: &str| vec![stage(first, "1"), stage(RECEPTOR, "1"), stage(RECEPTOR, "2")];
        let mut out = [0; 13 * LINE];
        // The first quotient is 5E-4 / RfDi, in the second chemical at the cap and above.
        let at = |rfdi: &str| {
            let second = CHEMICAL.replacen("0.001 0.001 1", &format!("0.001 {rfdi} 1"), 1);
            deck_of(&[CHEMICAL, &second], &stages(RECEPTOR))
        };
        assert_eq!(composite_report(&at("5E-08"), &mut out), (0, 13 * LINE, 0));
        assert_eq!(composite_report(&at("4.999999E-08"), &mut out), (42, 7, 0));
        assert_eq!(composite_report(&at("4.999999E-08"), &mut out[..13 * LINE - 1]), (51, 0, 0));
        // No stage's own figures are judged: the first alone would stop with 42, the mean does not.
        let light = RECEPTOR.replacen("20 5", "0.0004 5", 1);
        let alone = deck_of(&[CHEMICAL], &[exposed(&light, "1")]);
        assert_eq!(report(&alone, &mut out), (42, 1, 0));
        assert_eq!(composite_report(&deck_of(&[CHEMICAL], &stages(&light)), &mut out), (0, 7 * LINE, 0));
    }

    #[test]
    fn totals() {
        assert_eq!(total(&[]), Ok(0));
        assert_eq!(total(&[10_000_000_000_000_000; 96]), Ok(960_000_000_000_000_000));
        assert_eq!(total(&[0; 97]), Err(52));
        assert_eq!(total(&[1, 10_000_000_000_000_001]), Err(52));
    }
}
