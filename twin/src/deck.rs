//! A deck read into a case, or where it stops.

use crate::pairs::{Pair, Working};
use crate::years::Years;
use crate::Outcome;

pub const LINE: usize = 81;
pub const MOST_CHEMICALS: usize = 16;
/// Receptors of an ordinary deck: as many as a report can have.
pub const MOST_RECEPTORS: usize = 4;
/// Receptors of a composite's deck.
pub const MOST_STAGES: usize = 8;

/// What a deck is read for.
#[derive(Clone, Copy, PartialEq, Eq, Debug)]
pub enum Sort {
    /// Each receptor is reported.
    Ordinary,
    /// The receptors are life stages of the one that is reported, each with its years.
    Composite,
}

impl Sort {
    pub const fn most_receptors(self) -> usize {
        match self {
            Sort::Ordinary => MOST_RECEPTORS,
            Sort::Composite => MOST_STAGES,
        }
    }

    /// A site, 16 chemicals, all receptors and EN.
    pub const fn longest_deck(self) -> usize {
        LINE * (2 + 4 * MOST_CHEMICALS + 4 * self.most_receptors() + 1)
    }

    /// The place of a receptor's years: T2 in slot 22, or those of a life stage in slot 23. The other one stays blank.
    pub const fn years_at(self) -> usize {
        match self {
            Sort::Ordinary => 21,
            Sort::Composite => 22,
        }
    }

    /// What a receptor's slot takes; `None` for one that stays blank.
    pub fn receptor_slot(self, at: usize) -> Option<&'static Slot> {
        if at == self.years_at() {
            Some(&YEARS)
        } else {
            RECEPTOR.get(at)
        }
    }
}

/// The guidance that air is worked by, named by its year.
#[derive(Clone, Copy, PartialEq, Eq, Debug)]
pub enum Guidance {
    /// Inhaled doses.
    Of2005,
    /// Concentrations in air, over a share of time.
    Of2009,
}

impl Guidance {
    pub const fn year(self) -> Printed {
        match self {
            Guidance::Of2005 => (2005, 0),
            Guidance::Of2009 => (2009, 0),
        }
    }

    /// By a year's value, however it is spelled. A year is a working number, so that the pair around a printed number is the
    /// year's exactly where the number is: its last digit still decides.
    fn of((digits, power): Printed) -> Option<Guidance> {
        let value = Pair::entry(digits, power);
        let is_its_year = |guidance: &Guidance| {
            let (year, ones) = guidance.year();
            value == Pair::entry(year, ones)
        };
        [Guidance::Of2005, Guidance::Of2009].into_iter().find(is_its_year)
    }

    /// What the year's field says, or the refusal's number.
    fn told(mark: Mark) -> Result<Guidance, u32> {
        match mark {
            Mark::Blank => Ok(Guidance::Of2005),
            Mark::Dash => Err(32),
            Mark::Number(printed) => Guidance::of(printed).ok_or(33),
            Mark::Misspelled => Err(31),
        }
    }
}

/// What a slot takes besides a number from 1E-20 to `cap` or 0.
#[derive(Clone, Copy, PartialEq, Eq, Debug)]
pub struct Slot {
    pub cap: Working,
    pub never_0: bool,
    /// A lone - is allowed.
    pub may_lack: bool,
}

impl Slot {
    /// Whether a printed number is in range, by the pair around it. Both ends of the range are working numbers, so the
    /// number is beyond one of them exactly where the pair's end on that side is: its last digit still decides.
    pub fn takes(&self, value: Pair) -> bool {
        if value.high.m == 0 {
            !self.never_0
        } else {
            LEAST_VALUE.at_most(value.low) && value.high.at_most(self.cap)
        }
    }
}

const LEAST_VALUE: Working = Working::entry(1, -20);

/// Any number in range.
const ANY: Slot = Slot { cap: Working::entry(1, 9), never_0: false, may_lack: false };
/// Never 0.
const POS: Slot = Slot { never_0: true, ..ANY };
/// At most 1.
const SHARE: Slot = Slot { cap: Working::ONE, ..ANY };
/// At most 366 days a year.
const DAYS: Slot = Slot { cap: Working::entry(366, 0), ..ANY };
const RFD: Slot = Slot { may_lack: true, ..POS };
const CSF: Slot = Slot { may_lack: true, ..ANY };

/// Zs BD tD θ Xe SD | ER RO R VG FRsnow; the year comes behind.
pub const SITE: [Slot; 11] = [POS, POS, POS, POS, ANY, ANY, ANY, ANY, ANY, SHARE, SHARE];
/// Q HgA HgD Fv Cyv Cyp | Dydv Dywv Dydp Dywp Kds ksg | ksv Br RCF AFinh AForal AFderm | RfDo RfDi CSFo CSFi
pub const CHEMICAL: [Slot; 22] = [
    ANY, SHARE, SHARE, SHARE, ANY, ANY, //
    ANY, ANY, ANY, ANY, POS, ANY, //
    ANY, ANY, ANY, SHARE, SHARE, SHARE, //
    RFD, RFD, CSF, CSF,
];
/// BW ED ATc IRinh ETinh EFinh | IRsoil ETsoil EFs EFw SAb SAFb | SAh SAFh ETderm IRag Fag IRbg | Fbg WP EFp
pub const RECEPTOR: [Slot; 21] = [
    POS, POS, POS, ANY, SHARE, DAYS, //
    ANY, SHARE, DAYS, DAYS, ANY, ANY, //
    ANY, ANY, SHARE, ANY, SHARE, ANY, //
    SHARE, SHARE, DAYS,
];
/// T2, or the years of a life stage.
pub const YEARS: Slot = POS;

/// The place of tD among the site's slots.
pub const TD: usize = 2;
/// The year's, behind those with values.
pub const YEAR: usize = SITE.len();

/// A chemical's slots before its reference values.
pub const CHEMICAL_VALUES: usize = 18;
/// The place of Fv among them.
pub const FV: usize = 3;

/// A number as a field prints it: digits × 10^power.
pub type Printed = (u64, i32);

#[derive(Clone, Copy, Debug)]
pub struct Chemical {
    pub id: u32,
    pub value: [Pair; CHEMICAL_VALUES],
    /// Fv once more, for 1 − Fv.
    pub fv: Printed,
    /// RfDo, RfDi, CSFo, CSFi.
    pub reference: [Option<Pair>; 4],
}

#[derive(Clone, Copy, Debug)]
pub struct Receptor {
    pub id: u32,
    pub value: [Pair; 21],
    /// T2, or the years of a life stage.
    pub years: Pair,
    /// The same as printed.
    pub exact_years: Years,
}

/// What an accepted deck says.
#[derive(Clone, Debug)]
pub struct Case {
    pub site: [Pair; 11],
    /// tD once more, as printed.
    pub td: Years,
    pub guidance: Guidance,
    pub chemicals: usize,
    pub receptors: usize,
    chemical: [Chemical; MOST_CHEMICALS],
    receptor: [Receptor; MOST_STAGES],
}

impl Chemical {
    pub const EMPTY: Chemical =
        Chemical { id: 0, value: [Pair::ZERO; CHEMICAL_VALUES], fv: (0, 0), reference: [None; 4] };
}

impl Receptor {
    pub const EMPTY: Receptor =
        Receptor { id: 0, value: [Pair::ZERO; 21], years: Pair::ZERO, exact_years: Years::NONE };
}

impl Case {
    pub fn empty() -> Case {
        Case {
            site: [Pair::ZERO; 11],
            td: Years::NONE,
            guidance: Guidance::Of2005,
            chemicals: 0,
            receptors: 0,
            chemical: [Chemical::EMPTY; MOST_CHEMICALS],
            receptor: [Receptor::EMPTY; MOST_STAGES],
        }
    }

    pub fn chemicals(&self) -> &[Chemical] {
        &self.chemical[..self.chemicals]
    }

    pub fn receptors(&self) -> &[Receptor] {
        &self.receptor[..self.receptors]
    }

    /// One receptor in place of all.
    pub fn set_only_receptor(&mut self, receptor: Receptor) {
        self.receptor[0] = receptor;
        self.receptors = 1;
    }

    pub fn report_lines(&self) -> usize {
        self.receptors * (6 * self.chemicals + 1)
    }

    pub fn report_length(&self) -> usize {
        self.report_lines() * crate::report::LINE
    }
}

/// Reading alone: 0, 0, 0 where no condition up to 33 holds. There is no report, so no length.
pub fn read(sort: Sort, deck: &[u8]) -> Outcome {
    let mut case = Case::empty();
    match read_case(sort, deck, &mut case) {
        Ok(()) => (0, 0, 0),
        Err(stop) => stop,
    }
}

/// The lines of a record, and the line at either end.
#[derive(Clone, Copy, PartialEq)]
enum Kind {
    Start,
    Site(usize),
    Chemical(usize),
    Receptor(usize),
    End,
}

/// Reads into an empty case. A composite's holds its stages.
pub fn read_case(sort: Sort, deck: &[u8], case: &mut Case) -> Result<(), Outcome> {
    if deck.is_empty() || deck.len() > sort.longest_deck() || deck.len() % LINE != 0 {
        return Err((11, 0, 0));
    }
    let mut before = Kind::Start;
    let mut site_id = 0;
    for (i, line) in deck.chunks_exact(LINE).enumerate() {
        let stop = |number, field| (number, i + 1, field);
        let (text, feed) = line.split_at(LINE - 1);
        if feed[0] != b'\n' || !text.iter().all(|b| (32..=126).contains(b)) {
            return Err(stop(12, 0));
        }
        let kind = next(sort, before, [text[0], text[1]], case).ok_or(stop(21, 0))?;
        if kind == Kind::End {
            if !blank(&text[2..]) {
                return Err(stop(22, 0));
            }
            before = kind;
            continue;
        }
        let id = id(&text[2..8]).ok_or(stop(22, 0))?;
        // A first line's id is above that of the record before; the others repeat it.
        let right = match kind {
            Kind::Site(0) => true,
            Kind::Site(_) => id == site_id,
            Kind::Chemical(0) => case.chemicals == 0 || id > case.chemical[case.chemicals - 1].id,
            Kind::Chemical(_) => id == case.chemical[case.chemicals - 1].id,
            Kind::Receptor(0) => case.receptors == 0 || id > case.receptor[case.receptors - 1].id,
            Kind::Receptor(_) => id == case.receptor[case.receptors - 1].id,
            Kind::Start | Kind::End => true,
        };
        if !right {
            return Err(stop(22, 0));
        }
        match kind {
            Kind::Site(0) => site_id = id,
            Kind::Chemical(0) => {
                case.chemical[case.chemicals].id = id;
                case.chemicals += 1;
            }
            Kind::Receptor(0) => {
                case.receptor[case.receptors].id = id;
                case.receptors += 1;
            }
            _ => {}
        }
        for f in 0..6 {
            let (at, slot) = match kind {
                Kind::Site(k) => (6 * k + f, SITE.get(6 * k + f)),
                Kind::Chemical(k) => (6 * k + f, CHEMICAL.get(6 * k + f)),
                Kind::Receptor(k) => (6 * k + f, sort.receptor_slot(6 * k + f)),
                Kind::Start | Kind::End => (f, None),
            };
            let mark = mark(field(text, f));
            if let (Kind::Site(_), YEAR) = (kind, at) {
                case.guidance = Guidance::told(mark).map_err(|number| stop(number, f + 1))?;
                continue;
            }
            let value = fill(slot, mark).map_err(|number| stop(number, f + 1))?;
            if slot.is_none() {
                continue;
            }
            match kind {
                Kind::Site(_) => {
                    case.site[at] = value.unwrap_or(Pair::ZERO);
                    if let (TD, Mark::Number(printed)) = (at, mark) {
                        case.td = Years::printed(printed);
                    }
                }
                Kind::Chemical(_) => {
                    let c = &mut case.chemical[case.chemicals - 1];
                    if at < CHEMICAL_VALUES {
                        c.value[at] = value.unwrap_or(Pair::ZERO);
                    } else {
                        c.reference[at - CHEMICAL_VALUES] = value;
                    }
                    if let (FV, Mark::Number(printed)) = (at, mark) {
                        c.fv = printed;
                    }
                }
                _ => {
                    let r = &mut case.receptor[case.receptors - 1];
                    let value = value.unwrap_or(Pair::ZERO);
                    if at != sort.years_at() {
                        r.value[at] = value;
                    } else if let Mark::Number(printed) = mark {
                        r.years = value;
                        r.exact_years = Years::printed(printed);
                    }
                }
            }
        }
        before = kind;
    }
    if before == Kind::End {
        Ok(())
    } else {
        Err((21, deck.len() / LINE + 1, 0))
    }
}

/// The kind these two columns name, if it can come next.
fn next(sort: Sort, before: Kind, columns: [u8; 2], case: &Case) -> Option<Kind> {
    let k = columns[1].wrapping_sub(b'1') as usize;
    let kind = match columns[0] {
        b'S' if k < 2 => Kind::Site(k),
        b'C' if k < 4 => Kind::Chemical(k),
        b'R' if k < 4 => Kind::Receptor(k),
        b'E' if columns[1] == b'N' => Kind::End,
        _ => return None,
    };
    let fits = match (before, kind) {
        (Kind::Start, Kind::Site(0)) => true,
        (Kind::Site(0), Kind::Site(1)) => true,
        (Kind::Site(1), Kind::Chemical(0)) => true,
        (Kind::Chemical(3), Kind::Chemical(0)) => case.chemicals < MOST_CHEMICALS,
        (Kind::Chemical(3), Kind::Receptor(0)) => true,
        (Kind::Chemical(a), Kind::Chemical(b)) => b == a + 1,
        (Kind::Receptor(3), Kind::Receptor(0)) => case.receptors < sort.most_receptors(),
        (Kind::Receptor(3), Kind::End) => true,
        (Kind::Receptor(a), Kind::Receptor(b)) => b == a + 1,
        _ => false,
    };
    fits.then_some(kind)
}

fn blank(part: &[u8]) -> bool {
    part.iter().all(|&b| b == b' ')
}

/// What stands right-justified after spaces.
fn after_spaces(part: &[u8]) -> &[u8] {
    let spaces = part.iter().take_while(|&&b| b == b' ').count();
    &part[spaces..]
}

/// 1 to 999999, no leading zero.
fn id(columns: &[u8]) -> Option<u32> {
    let digits = after_spaces(columns);
    if *digits.first()? == b'0' {
        return None;
    }
    digits.iter().try_fold(0, |n, b| b.is_ascii_digit().then(|| 10 * n + (b - b'0') as u32))
}

/// The twelve bytes of field f, from 0.
fn field(text: &[u8], f: usize) -> &[u8] {
    &text[8 + 12 * f..20 + 12 * f]
}

/// What a field says by itself.
#[derive(Clone, Copy, PartialEq, Debug)]
enum Mark {
    Blank,
    Dash,
    Number(Printed),
    Misspelled,
}

fn mark(field: &[u8]) -> Mark {
    match after_spaces(field) {
        [] => Mark::Blank,
        [b'-'] => Mark::Dash,
        text => number(text).map_or(Mark::Misspelled, Mark::Number),
    }
}

/// Digits, or digits point digits; optionally E, a sign, two digits. Twelve columns hold at most twelve digits.
fn number(text: &[u8]) -> Option<Printed> {
    let (mut digits, mut power) = (0u64, 0);
    let mut at = 0;
    let run = |at: &mut usize, digits: &mut u64| -> Option<i32> {
        let from = *at;
        while *at < text.len() && text[*at].is_ascii_digit() {
            *digits = *digits * 10 + (text[*at] - b'0') as u64;
            *at += 1;
        }
        (*at > from).then_some((*at - from) as i32)
    };
    run(&mut at, &mut digits)?;
    if text.get(at) == Some(&b'.') {
        at += 1;
        power = -run(&mut at, &mut digits)?;
    }
    match text[at..] {
        [] => {}
        [b'E', sign, tens, ones] if tens.is_ascii_digit() && ones.is_ascii_digit() => {
            let n = (tens - b'0') as i32 * 10 + (ones - b'0') as i32;
            power += match sign {
                b'+' => n,
                b'-' => -n,
                _ => return None,
            };
        }
        _ => return None,
    }
    Some((digits, power))
}

/// What a slot takes from a field (`None`: no value), or the refusal's number. A later slot has no `slot`.
fn fill(slot: Option<&Slot>, mark: Mark) -> Result<Option<Pair>, u32> {
    let (digits, power) = match (slot, mark) {
        (_, Mark::Misspelled) => return Err(31),
        (None, Mark::Blank) => return Ok(None),
        (Some(slot), Mark::Dash) if slot.may_lack => return Ok(None),
        (None, _) | (_, Mark::Blank | Mark::Dash) => return Err(32),
        (Some(_), Mark::Number(printed)) => printed,
    };
    let slot = slot.ok_or(32u32)?;
    let value = Pair::entry(digits, power);
    if slot.takes(value) {
        Ok(Some(value))
    } else {
        Err(33)
    }
}

#[cfg(test)]
mod tests {
    use super::*;

    fn m(s: &str) -> Mark {
        mark(format!("{s:>12}").as_bytes())
    }

    #[test]
    fn spellings() {
        assert_eq!(m(""), Mark::Blank);
        assert_eq!(m("-"), Mark::Dash);
        assert_eq!(m("0.2"), Mark::Number((2, -1)));
        assert_eq!(m("000000001"), Mark::Number((1, 0)));
        assert_eq!(m("12345678E-05"), Mark::Number((12_345_678, -5)));
        assert_eq!(m("1.2345678E+0"), Mark::Misspelled);
        assert_eq!(m("0.12345678"), Mark::Number((12_345_678, -8)));
        assert_eq!(m("0.123456789"), Mark::Number((123_456_789, -9)));
        assert_eq!(m("1.2345678912"), Mark::Number((12_345_678_912, -10)));
        assert_eq!(m("1234567890"), Mark::Number((1_234_567_890, 0)));
        assert_eq!(m("999999999999"), Mark::Number((999_999_999_999, 0)));
        assert_eq!(m("000000000001"), Mark::Number((1, 0)));
        for bad in ["+1", "-1", ".5", "5.", "1E5", "1e+05", "1E+005", "1 2", "1 ", "- ", "--", "E+01", "1.E+01", "1..2"]
        {
            assert_eq!(m(bad), Mark::Misspelled, "{bad}");
        }
    }

    #[test]
    fn ranges_go_by_the_printed_digits() {
        let fits = |slot: &Slot, s: &str| match fill(Some(slot), m(s)) {
            Ok(value) => value.is_some(),
            Err(number) => {
                assert_eq!(number, 33, "{s}");
                false
            }
        };
        for s in ["1", "1.0000000000", "0.9999999999", "0.0000000001", "1E-20", "0", "000000000001"] {
            assert!(fits(&SHARE, s), "{s}");
        }
        for s in ["1.0000000001", "1.00000001", "9.99999E-21", "000000000002", "123456789012"] {
            assert!(!fits(&SHARE, s), "{s}");
        }
        assert!(fits(&DAYS, "366.00000000") && fits(&DAYS, "365.99999999") && !fits(&DAYS, "366.00000001"));
        assert!(fits(&ANY, "999999999.5") && fits(&ANY, "1000000000.0") && fits(&ANY, "001000000000"));
        assert!(!fits(&ANY, "1000000000.1") && !fits(&ANY, "1000000001"));
        assert!(!fits(&POS, "0.0000000000") && fits(&POS, "0.0000000001"));
        // By multiplying across.
        let rng = &mut crate::rng::Rng::new(2);
        for _ in 0..100_000 {
            let caps = [(SHARE, 1), (DAYS, 366), (ANY, 1_000_000_000)];
            let ((slot, cap), (_, other)) = (rng.one_of(&caps), rng.one_of(&caps));
            let decimals = rng.between(0, 10) as u32;
            let ten = 10u64.pow(decimals);
            let digits = (rng.one_of(&[cap, other]) * ten).saturating_add_signed(rng.between(-3, 3));
            let value = Pair::entry(digits, -(decimals as i32));
            assert_eq!(slot.takes(value), digits <= cap * ten, "{digits} {decimals}");
        }
    }

    #[test]
    fn years_go_by_their_value() {
        let told = |s: &str| Guidance::told(m(s));
        let (of_2005, of_2009) = (Ok(Guidance::Of2005), Ok(Guidance::Of2009));
        for s in ["", "2005", "2005.0", "2.005E+03", "000000002005", "20050E-01", "2005.0000000", "0.2005E+04"] {
            assert_eq!(told(s), of_2005, "{s}");
        }
        for s in
            ["2009", "2009.0", "2.009E+03", "000000002009", "20090E-01", "2009.0000000", "200900.0E-02", "2009E-00"]
        {
            assert_eq!(told(s), of_2009, "{s}");
        }
        assert_eq!(told("-"), Err(32));
        for s in
            ["2004", "2006", "2010", "2009.0000001", "2008.9999999", "2005.0000001", "2004.9999999", "0", "0E+03", "1"]
        {
            assert_eq!(told(s), Err(33), "{s}");
        }
        for s in ["2009E+01", "20.09E+01", "2009E-01", "20050", "200.5", "1E+99", "1E-99", "20092009", "9002", "1E-20"]
        {
            assert_eq!(told(s), Err(33), "{s}");
        }
        for s in ["2009E", "MMIX", "+2009", "-2009", "2009.", "2 009", "2009 ", "2,009", "2009E+0", "2009AD", "- "] {
            assert_eq!(told(s), Err(31), "{s}");
        }
        // By multiplying across.
        let rng = &mut crate::rng::Rng::new(6);
        let mut years = 0;
        for _ in 0..100_000 {
            let year = rng.one_of(&[2005u64, 2009]);
            let zeros = rng.between(0, 8) as u32;
            let digits = (year * 10u64.pow(zeros)).saturating_add_signed(rng.one_of(&[0, 0, 1, -1, 4, -4]));
            let power = -(zeros as i32) + rng.one_of(&[0, 0, 0, 1, -1]);
            // In units of 1E-9.
            let value = digits as u128 * 10u128.pow((9 + power) as u32);
            let want =
                [Guidance::Of2005, Guidance::Of2009].into_iter().find(|g| value == g.year().0 as u128 * 10u128.pow(9));
            assert_eq!(Guidance::of((digits, power)), want, "{digits} {power}");
            years += usize::from(want.is_some());
        }
        assert!((10_000..90_000).contains(&years), "{years}");
    }

    /// A number in range has no digit below 1E-27 and no power above 9, whichever way twelve columns spell it.
    #[test]
    fn times_in_range_are_whole_numbers_of_the_finest_digit() {
        let rng = &mut crate::rng::Rng::new(4);
        let mut finest = 0;
        for _ in 0..300_000 {
            let n = rng.between(1, 12) as usize;
            let digits: String = (0..n).map(|_| rng.one_of(b"00019") as char).collect();
            let point = rng.below(n + 1);
            let point = if rng.chance(50) { "" } else { &format!(".{}", &digits[..point]) };
            let exponent = rng.between(-30, 10);
            let text = format!("{digits}{point}E{exponent:+03}");
            let Mark::Number(printed) = m(&text[..text.len().min(12)]) else { continue };
            if POS.takes(Pair::entry(printed.0, printed.1)) {
                assert_eq!(Years::printed(printed).pair(), Pair::entry(printed.0, printed.1), "{text}");
                finest += usize::from(printed.1 == crate::years::FINEST);
            }
        }
        assert!(finest > 100, "{finest}");
    }

    #[test]
    fn slots_of_a_receptor() {
        assert_eq!((Sort::Ordinary.longest_deck(), Sort::Composite.longest_deck()), (6_723, 8_019));
        for at in 0..24 {
            let (ordinary, composite) = (Sort::Ordinary.receptor_slot(at), Sort::Composite.receptor_slot(at));
            assert_eq!(ordinary.is_some(), at < 22);
            match at {
                21 => assert_eq!((ordinary, composite), (Some(&POS), None)),
                22 => assert_eq!((ordinary, composite), (None, Some(&POS))),
                _ => assert_eq!(composite, ordinary),
            }
        }
    }

    #[test]
    fn ids() {
        assert_eq!(id(b"     1"), Some(1));
        assert_eq!(id(b"999999"), Some(999_999));
        for bad in [b"      ", b"     0", b"000001", b"1     ", b" 1   2", b"    -1"] {
            assert_eq!(id(bad), None);
        }
    }
}
