//! Trial decks from a seed: realistic, extreme and damaged, each with a report buffer of its own length and earlier content.
//! Either call has its own.

use crate::deck::{
    Case, Chemical, Guidance, Printed, Receptor, Slot, Sort, CHEMICAL, CHEMICAL_VALUES, FV, LINE, MOST_CHEMICALS,
    RECEPTOR, SITE, TD, YEAR, YEARS,
};
use crate::page::{composite, has_series, pathways, Body, Exposure, Figures, Loss, Media, Site};
use crate::pairs::{Pair, Working};
use crate::rng::Rng;
use crate::years::{Years, FINEST};
use crate::LONGEST_REPORT;

/// A deck, the length of the report buffer lent with it, and the seed of what that buffer holds before.
pub struct Trial {
    pub deck: Vec<u8>,
    pub room: usize,
    pub before: u64,
}

/// Trial number `place` of a run, for the call of this sort; each can be made again by itself.
pub fn trial(sort: Sort, seed: u64, place: u64) -> Trial {
    let own_seed = mixed(sort, seed, place);
    trial_of(sort, own_seed, drawn_year(&mut Rng::new(own_seed.rotate_left(32))))
}

fn mixed(sort: Sort, seed: u64, place: u64) -> u64 {
    let mixed = Rng::new(seed).word() ^ Rng::new(!place).word();
    match sort {
        Sort::Ordinary => mixed,
        Sort::Composite => !mixed,
    }
}

/// What a deck says of the year: the guidance as this spelling, or nothing.
type Year = Option<(Guidance, String)>;

/// The year has draws of its own, so that a deck without one is what it was before there were years.
fn drawn_year(rng: &mut Rng) -> Year {
    let guidance = match rng.below(100) {
        0..=19 => return None,
        20..=44 => Guidance::Of2005,
        _ => Guidance::Of2009,
    };
    let year = plain(guidance.year());
    let text = match rng.below(10) {
        0..=3 => year,
        4 => format!("{year:0>12}"),
        5 => format!("{year}.{}", "0".repeat(1 + rng.below(7))),
        _ => spelled(rng, guidance.year(), 12),
    };
    Some((guidance, text))
}

/// The trial with this seed of its own and this year, if the deck is to have one.
fn trial_of(sort: Sort, own_seed: u64, year: Year) -> Trial {
    let rng = &mut Rng::new(own_seed);
    let share = rng.below(100);
    // A few decks for the composite call are ordinary ones, if of too many receptors at times.
    let made_as = if sort == Sort::Composite && (51..=52).contains(&share) { Sort::Ordinary } else { sort };
    let deck = match share {
        0..=55 => sound(rng, made_as, sort.most_receptors(), year),
        56..=95 => damaged(rng, sort, year),
        96..=97 => crowded(rng, sort, year),
        _ => noise(rng, sort),
    };
    let room = room(rng, made_as, &deck);
    Trial { deck, room, before: rng.word() }
}

/// A sound deck of this many chemicals and receptors with everyday values, for timing: at every exponent a series is worked. It
/// has no year.
pub fn everyday(sort: Sort, seed: u64, chemicals: usize, receptors: usize) -> Vec<u8> {
    everyday_draft(&mut Rng::new(seed), sort, chemicals, receptors).1
}

/// The same deck with eleven digits and a point in every field that has a number, each moved by less than its last place.
pub fn everyday_eleven(sort: Sort, seed: u64, chemicals: usize, receptors: usize) -> Vec<u8> {
    let rng = &mut Rng::new(seed);
    let (draft, _) = everyday_draft(rng, sort, chemicals, receptors);
    loop {
        let mut draft = draft.clone();
        draft.each(|slot, v| lengthened(rng, slot, v, 11));
        let deck = draft.written(plain);
        if accepted(sort, &deck) && slow(sort, &deck) {
            return deck;
        }
    }
}

/// The first of these decks with the year 2009 written in.
pub fn everyday_2009(sort: Sort, seed: u64, chemicals: usize, receptors: usize) -> Vec<u8> {
    let mut deck = everyday(sort, seed, chemicals, receptors);
    place_field(&mut deck, YEAR_AT.0, YEAR_AT.1, &plain(Guidance::Of2009.year()));
    deck
}

/// Decks as a batch mixes them, each beside the call it is for: one in eight a composite's, one in ten refused, whatever for.
/// Those accepted are everyday decks of any size, half of them with eleven digits. None has a year.
pub fn batch(seed: u64, decks: u64) -> Vec<(Sort, Vec<u8>)> {
    let rng = &mut Rng::new(seed);
    let one = |own_seed| {
        let sort = if rng.below(8) == 0 { Sort::Composite } else { Sort::Ordinary };
        let deck = if rng.chance(10) {
            let undated = |place| trial_of(sort, mixed(sort, own_seed, place), None).deck;
            (0..).map(undated).find(|deck| !accepted(sort, deck)).unwrap()
        } else {
            let make = if rng.chance(50) { everyday } else { everyday_eleven };
            make(sort, own_seed, 1 + rng.below(MOST_CHEMICALS), 1 + rng.below(sort.most_receptors()))
        };
        (sort, deck)
    };
    (0..decks).map(one).collect()
}

fn everyday_draft(rng: &mut Rng, sort: Sort, chemicals: usize, receptors: usize) -> (Draft, Vec<u8>) {
    loop {
        let draft = Draft::new(rng, sort, chemicals, receptors, 0);
        let deck = draft.deck(rng);
        if accepted(sort, &deck) && slow(sort, &deck) {
            return (draft, deck);
        }
    }
}

fn accepted(sort: Sort, deck: &[u8]) -> bool {
    crate::report(sort, deck, &mut [0; LONGEST_REPORT]).0 == 0
}

/// Whether no exponent of a deck that is read is above 64.
fn slow(sort: Sort, deck: &[u8]) -> bool {
    let mut case = Case::empty();
    crate::report::read_reported(sort, deck, &mut case).is_ok() && {
        let site = Site::new(&case.site, case.td);
        let exposures: Vec<Exposure> = case.receptors().iter().map(|r| site.exposure(r)).collect();
        case.chemicals().iter().map(|c| site.loss(c)).all(|l| has_series(l.x) && !fast_beyond(&l, &exposures))
    }
}

/// k × (T2 − tD), where T2 is above tD.
fn beyond(loss: &Loss, exposure: &Exposure) -> Option<Pair> {
    match *exposure {
        Exposure::Within => None,
        Exposure::Beyond { rest, .. } => Some(loss.k * rest),
    }
}

/// Whether k × (T2 − tD) of any of these is above 64.
fn fast_beyond(loss: &Loss, exposures: &[Exposure]) -> bool {
    exposures.iter().filter_map(|exposure| beyond(loss, exposure)).any(|x| !has_series(x))
}

fn room(rng: &mut Rng, sort: Sort, deck: &[u8]) -> usize {
    match crate::report::report_length(sort, deck) {
        Ok(length) => match rng.below(100) {
            0..=54 => length,
            55..=59 => length + 1,
            60..=76 => length + rng.below(400),
            77..=86 => LONGEST_REPORT,
            87..=91 => length - 1,
            92..=93 => 0,
            94..=95 => length - crate::report::LINE,
            _ => rng.below(length),
        },
        _ => match rng.below(4) {
            0 => 0,
            1 => LONGEST_REPORT,
            _ => rng.below(2_000),
        },
    }
}

/// What a slot is to say: a number, or - for `None`.
type Value = Option<Printed>;

fn pair(v: Value) -> Pair {
    v.map_or(Pair::ZERO, |(digits, power)| Pair::entry(digits, power))
}

/// A time in range, without digits that no field could print.
fn years(v: Value) -> Years {
    let (mut digits, mut power) = v.unwrap_or((0, 0));
    while power < FINEST {
        (digits, power) = (digits / 10, power + 1);
    }
    Years::printed((digits, power))
}

fn in_range(slot: &Slot, v: Printed) -> bool {
    slot.takes(pair(Some(v)))
}

/// Everyday values of a slot: whole numbers of 10^power between two ends.
type Usual = (i64, i64, i32);

#[rustfmt::skip]
const SITE_USUAL: [Usual; 11] = [
    (1, 20, 0), (80, 200, -2), (1, 100, 0), (5, 40, -2), (0, 300, -2), (0, 100, -2),
    (0, 30, -1), (0, 60, 0), (0, 60, 0), (0, 100, -2), (0, 100, -2),
];
#[rustfmt::skip]
const CHEMICAL_USUAL: [Usual; 22] = [
    (1, 999, -5), (0, 100, -2), (0, 100, -2), (0, 100, -2), (0, 999, -3), (0, 999, -3),
    (0, 99, -3), (0, 99, -3), (0, 99, -3), (0, 99, -3), (1, 999, 2), (0, 300, -3),
    (0, 99, -3), (0, 999, -3), (0, 999, -1), (0, 100, -2), (0, 100, -2), (0, 100, -2),
    (1, 99, -3), (1, 99, -3), (1, 99, -2), (1, 99, -2),
];
#[rustfmt::skip]
const RECEPTOR_USUAL: [Usual; 21] = [
    (8, 80, 0), (5, 75, 0), (25_000, 28_000, 0), (1, 25, 0), (0, 100, -2), (0, 366, 0),
    (10, 200, 0), (0, 100, -2), (0, 366, 0), (0, 366, 0), (100, 20_000, 0), (0, 99, -3),
    (100, 1_000, 0), (0, 99, -2), (0, 100, -2), (0, 500, -3), (0, 100, -2), (0, 500, -3),
    (0, 100, -2), (0, 100, -2), (0, 366, 0),
];
/// T2, about tD.
const T2_USUAL: Usual = (1, 100, 0);
/// The years of a life stage.
const STAGE_USUAL: Usual = (2, 200, -1);

/// The slots that a receptor of either sort fills, its years last; a draft has a value for each.
fn receptor_slots() -> impl Iterator<Item = &'static Slot> {
    RECEPTOR.iter().chain([&YEARS])
}

/// A value inside the slot's range, as it might stand in a real deck.
fn usual(rng: &mut Rng, slot: &Slot, (low, high, power): Usual) -> Value {
    if slot.may_lack && rng.chance(25) {
        return None;
    }
    if !slot.never_0 && rng.chance(5) {
        return Some((0, 0));
    }
    if slot.cap == Working::ONE && rng.chance(25) {
        return Some((1, 0));
    }
    let more = rng.one_of(&[0, 0, 0, 1, 2, 3, 4]);
    let scale = 10i64.pow(more);
    let n = rng.between(low * scale, high * scale).min(999_999_999);
    let v = (n as u64, power - more as i32);
    Some(if in_range(slot, v) { v } else { (1, 0) })
}

/// Digits before the point.
fn whole_digits((digits, power): Printed) -> i32 {
    (digits.to_string().len() as i32 + power).max(1)
}

/// The number with decimals added at random until it has so many digits, zeros counted: up to eleven fit beside a point.
/// Where that would leave the slot's range they are subtracted, and where this would too they are zeros. 0 stays 0.
fn lengthened(rng: &mut Rng, slot: &Slot, v: Printed, most: i32) -> Printed {
    let decimals = most - whole_digits(v);
    let added = decimals + v.1;
    if decimals < 1 || added < 1 {
        return v;
    }
    let ten = 10u64.pow(added as u32);
    let same = v.0 * ten;
    let more = if v.0 == 0 { 0 } else { rng.below(ten as usize) as u64 };
    let all = [same + more, same.saturating_sub(more), same];
    (all.into_iter().find(|&n| in_range(slot, (n, -decimals))).unwrap_or(same), -decimals)
}

/// A number just below the slot's cap, by a little of the last decimal that fits.
fn below_cap(rng: &mut Rng, slot: &Slot) -> Printed {
    // 0.9999999999, 365.99999999 or 999999999.99.
    let decimals = match slot.cap {
        Working::ONE => 10,
        Working { e: -6, .. } => 8,
        _ => 2,
    };
    let cap = slot.cap.m as u64 * 10u64.pow((slot.cap.e + decimals) as u32);
    (cap - rng.between(1, 20) as u64, -decimals)
}

/// A value anywhere in the slot's range, its ends above all.
fn far(rng: &mut Rng, slot: &Slot) -> Value {
    if slot.may_lack && rng.chance(15) {
        return None;
    }
    let cap = (slot.cap.m as u64, slot.cap.e);
    for _ in 0..20 {
        let v = match rng.below(11) {
            0 => (0, rng.between(-99, 99) as i32),
            1 => (1, -20),
            2 => (rng.between(100_000, 100_009) as u64, -25),
            3 => cap,
            4 => (rng.between(99_999_990, 99_999_999) as u64, rng.between(-10, 1) as i32),
            5 => (cap.0 / 10 - rng.below(3) as u64, cap.1 + 1),
            6 => (rng.between(1, 999_999) as u64, rng.between(-8, 0) as i32),
            7 => (rng.figures(1, 9) as u64, rng.between(-28, 8) as i32),
            8 => below_cap(rng, slot),
            9 => (rng.between(1, 20) as u64, -10),
            _ => (rng.figures(9, 11) as u64, rng.between(-10, -1) as i32),
        };
        if in_range(slot, v) {
            return Some(v);
        }
    }
    Some((1, 0))
}

/// What a sound deck is to say.
#[derive(Clone)]
struct Draft {
    sort: Sort,
    /// Digits of a number at most, zeros counted.
    most: usize,
    site_id: u32,
    site: Vec<Value>,
    year: Year,
    chemicals: Vec<(u32, Vec<Value>)>,
    receptors: Vec<(u32, Vec<Value>)>,
}

// Places of slots that a style sets.
const XE: usize = 4;
const SD: usize = 5;
const ER: usize = 6;
const RO: usize = 7;
const R: usize = 8;
const FRSNOW: usize = 10;
const KDS: usize = 10;
const KSG: usize = 11;
const KSV: usize = 12;
const RFDO: usize = 18;
/// The years in a draft, which leaves out a blank slot before them.
const DRAFT_YEARS: usize = RECEPTOR.len();

fn ids(rng: &mut Rng, n: usize) -> Vec<u32> {
    let mut ids: Vec<u32> = match rng.below(4) {
        0 => (1..=n as u32).collect(),
        1 => (0..n as u32).map(|i| 999_999 - i).collect(),
        _ => (0..n).map(|_| rng.figures(2, 6) as u32).collect(),
    };
    ids.sort();
    ids.dedup();
    while ids.len() < n {
        let extra = rng.between(1, 999_999) as u32;
        if let Err(at) = ids.binary_search(&extra) {
            ids.insert(at, extra);
        }
    }
    ids
}

impl Draft {
    /// Everyday values, `odd` in 100 of them far ones.
    fn new(rng: &mut Rng, sort: Sort, chemicals: usize, receptors: usize, odd: usize) -> Draft {
        fn values(
            rng: &mut Rng,
            slots: impl IntoIterator<Item = &'static Slot>,
            usuals: &[Usual],
            odd: usize,
        ) -> Vec<Value> {
            let each = slots.into_iter().zip(usuals);
            each.map(|(slot, &u)| if rng.chance(odd) { far(rng, slot) } else { usual(rng, slot, u) }).collect()
        }
        let years_usual = match sort {
            Sort::Ordinary => T2_USUAL,
            Sort::Composite => STAGE_USUAL,
        };
        let receptor_usual = [&RECEPTOR_USUAL[..], &[years_usual]].concat();
        Draft {
            sort,
            most: 9,
            site_id: rng.between(1, 999_999) as u32,
            site: values(rng, &SITE, &SITE_USUAL, odd),
            year: None,
            chemicals: ids(rng, chemicals)
                .into_iter()
                .map(|id| (id, values(rng, &CHEMICAL, &CHEMICAL_USUAL, odd)))
                .collect(),
            receptors: ids(rng, receptors)
                .into_iter()
                .map(|id| (id, values(rng, receptor_slots(), &receptor_usual, odd)))
                .collect(),
        }
    }

    /// Document 01's deck with a few values changed: exact decimals, so that figures can meet a cap exactly.
    fn round_figures(rng: &mut Rng, sort: Sort, chemicals: usize, receptors: usize) -> Draft {
        #[rustfmt::skip]
        let site = [(10, 0), (2, 0), (30, 0), (2, -1), (0, 0), (0, 0), (0, 0), (0, 0), (0, 0), (1, -2), (5, -1)];
        #[rustfmt::skip]
        let chemical = [
            (1, 0), (1, 0), (1, 0), (0, 0), (0, 0), (1, 0), (0, 0), (0, 0), (1, -3), (0, 0), (100, 0), (0, 0),
            (0, 0), (1, -1), (10, 0), (1, 0), (1, 0), (1, -1), (1, -3), (1, -3), (1, 0), (1, 0),
        ];
        #[rustfmt::skip]
        let receptor = [
            (20, 0), (5, 0), (27_375, 0), (10, 0), (1, 0), (365, 0), (80, 0), (1, 0), (73, 0), (146, 0), (1000, 0),
            (2, -2), (400, 0), (1, -1), (1, 0), (1, -1), (5, -1), (2, -1), (5, -1), (1, 0), (365, 0), (5, 0),
        ];
        fn varied(rng: &mut Rng, values: &[Printed], slots: impl IntoIterator<Item = &'static Slot>) -> Vec<Value> {
            let each = values.iter().zip(slots);
            each.map(|(&(digits, power), slot)| {
                let other = (digits, power - rng.one_of(&[1, 2, -1]));
                Some(if rng.chance(8) && in_range(slot, other) { other } else { (digits, power) })
            })
            .collect()
        }
        let mut draft = Draft {
            sort,
            most: 9,
            site_id: 1,
            site: varied(rng, &site, &SITE),
            year: None,
            chemicals: ids(rng, chemicals).into_iter().map(|id| (id, varied(rng, &chemical, &CHEMICAL))).collect(),
            receptors: ids(rng, receptors)
                .into_iter()
                .map(|id| (id, varied(rng, &receptor, receptor_slots())))
                .collect(),
        };
        for (_, r) in &mut draft.receptors {
            // 27375 has a factor 3, which no decimal divides by exactly.
            r[2] = Some((rng.one_of(&[27_375, 36_500, 29_200, 36_500]), 0));
            // T2 against a tD of 30: what comes to 60, 120 or 240 divides exactly.
            if sort == Sort::Ordinary && rng.chance(70) {
                r[DRAFT_YEARS] = Some((rng.one_of(&[1, 30, 30, 31, 60, 60, 120, 240, 75]), 0));
            }
        }
        // Stages alike but for their years: a composite's fields are theirs, exactly.
        if sort == Sort::Composite && rng.chance(60) {
            let like = draft.receptors[0].1.clone();
            for (_, r) in &mut draft.receptors {
                r.clone_from(&like);
                r[DRAFT_YEARS] = Some((rng.between(1, 160) as u64, rng.one_of(&[0, -1])));
            }
        }
        draft
    }

    /// The same figure on all six pathways of every chemical, so that totals can come near 96 times a cap.
    fn level(rng: &mut Rng, sort: Sort, chemicals: usize, receptors: usize) -> Draft {
        let mut d = Draft::round_figures(rng, sort, chemicals, receptors);
        d.site[9] = Some((1, 0));
        d.site[FRSNOW] = Some((1, 0));
        let soil = rng.between(1, 99_999) as u64;
        for (_, c) in &mut d.chemicals {
            #[rustfmt::skip]
            let same = [
                (4, (1, -3)), (5, (1, -3)), (8, (1, -3)), (9, (0, 0)), (KDS, (7, 1)), (13, (1, 0)), (14, (7, 1)), (17, (1, 0)),
            ];
            for (at, v) in same {
                c[at] = Some(v);
            }
        }
        let days = Some((rng.between(1, 366) as u64, 0));
        for (_, r) in &mut d.receptors {
            for at in [5, 8, 9, 20] {
                r[at] = days;
            }
            for at in [4, 7, 14, 16, 18, 19] {
                r[at] = Some((1, 0));
            }
            r[3] = Some((soil, -6));
            r[6] = Some((soil, 0));
            r[10] = Some((soil, 0));
            r[11] = Some((1, 0));
            r[12] = Some((0, 0));
            r[15] = Some((soil, -6));
            r[17] = Some((soil, -6));
        }
        d
    }

    /// Changes every number.
    fn each(&mut self, mut change: impl FnMut(&Slot, Printed) -> Printed) {
        let mut record = |values: &mut [Value], slots: &mut dyn Iterator<Item = &'static Slot>| {
            values.iter_mut().zip(slots).for_each(|(value, slot)| *value = value.map(|v| change(slot, v)));
        };
        record(&mut self.site, &mut SITE.iter());
        self.chemicals.iter_mut().for_each(|(_, c)| record(c, &mut CHEMICAL.iter()));
        self.receptors.iter_mut().for_each(|(_, r)| record(r, &mut receptor_slots()));
    }

    /// Years as no life has them: of any size in range, some next to others of which they are less than a last place, or
    /// alike, or as in document 002.
    fn odd_years(&mut self, rng: &mut Rng) {
        let style = rng.below(5);
        let alike = far(rng, &YEARS);
        for (i, (_, r)) in self.receptors.iter_mut().enumerate() {
            r[DRAFT_YEARS] = match style {
                0 | 1 => far(rng, &YEARS),
                2 => Some(rng.one_of(&[(1, -20), (1, 9), (99_999_999_999, -2), (1, -10), (1, 0), (3, 0)])),
                3 => alike,
                _ => Some([(5, -1), (45, -1), (7, 0), (8, 0), (56, 0)][i % 5]),
            };
        }
    }

    /// As many digits as twelve columns hold, `percent` in 100 numbers lengthened, and Fv often next to 1 or 0.
    fn lengthen(&mut self, rng: &mut Rng, percent: usize) {
        self.most = 12;
        self.each(|slot, v| {
            let most = rng.one_of(&[10, 11, 11]);
            if rng.chance(percent) {
                lengthened(rng, slot, v, most)
            } else {
                v
            }
        });
        for (_, c) in &mut self.chemicals {
            match rng.below(10) {
                0..=2 => c[FV] = Some(below_cap(rng, &CHEMICAL[FV])),
                3 => c[FV] = Some((rng.between(1, 99) as u64, -10)),
                _ => {}
            }
        }
    }

    fn site(&self) -> Site {
        let mut value = [Pair::ZERO; 11];
        value.iter_mut().zip(&self.site).for_each(|(p, &v)| *p = pair(v));
        Site::new(&value, years(self.site[TD]))
    }

    fn guidance(&self) -> Guidance {
        self.year.as_ref().map_or(Guidance::Of2005, |year| year.0)
    }

    fn chemical(&self, i: usize) -> Chemical {
        let (id, values) = &self.chemicals[i];
        let mut c = Chemical { id: *id, fv: values[FV].unwrap_or((0, 0)), ..Chemical::EMPTY };
        for (at, &v) in values.iter().enumerate() {
            if at < CHEMICAL_VALUES {
                c.value[at] = pair(v);
            } else {
                c.reference[at - CHEMICAL_VALUES] = v.map(|_| pair(v));
            }
        }
        c
    }

    fn receptor(&self, i: usize) -> Receptor {
        let (id, values) = &self.receptors[i];
        let own = values[DRAFT_YEARS];
        let mut r = Receptor { id: *id, years: pair(own), exact_years: years(own), ..Receptor::EMPTY };
        r.value.iter_mut().zip(values).for_each(|(p, &v)| *p = pair(v));
        r
    }

    /// The person that is reported: this receptor, or the composite of all.
    fn person(&self, i: usize) -> Receptor {
        match self.sort {
            Sort::Ordinary => self.receptor(i),
            Sort::Composite => {
                composite(&(0..self.receptors.len()).map(|i| self.receptor(i)).collect::<Vec<Receptor>>())
            }
        }
    }

    /// The persons that are reported.
    fn persons(&self) -> usize {
        match self.sort {
            Sort::Ordinary => self.receptors.len(),
            Sort::Composite => 1,
        }
    }

    /// The figures of one chemical and receptor.
    fn figures(&self, chemical: usize, receptor: usize) -> [Figures; 6] {
        let (site, chemical, person) = (self.site(), self.chemical(chemical), self.person(receptor));
        let media = Media::new(&site, &chemical);
        pathways(&site, &chemical, &media, &site.exposure(&person), &Body::new(&person, self.guidance()))
    }

    fn loss(&self, i: usize) -> Loss {
        self.site().loss(&self.chemical(i))
    }

    /// No loss but by decay.
    fn decay_alone(&mut self, i: usize) {
        for at in [XE, RO, R] {
            self.site[at] = Some((0, 0));
        }
        self.chemicals[i].1[KSV] = Some((0, 0));
    }

    /// Slower decay, if any, and no other loss, where T2 − tD is too long for a chemical that tD is not too long for.
    fn slow_down(&mut self, rng: &mut Rng) {
        let site = self.site();
        let exposures: Vec<Exposure> = (0..self.persons()).map(|r| site.exposure(&self.person(r))).collect();
        let fast = |i: usize| {
            let loss = site.loss(&self.chemical(i));
            has_series(loss.x) && fast_beyond(&loss, &exposures)
        };
        if !(0..self.chemicals.len()).any(fast) {
            return;
        }
        let rest = |exposure: &Exposure| match exposure {
            Exposure::Within => 0.0,
            Exposure::Beyond { rest, .. } => real(rest.high),
        };
        let longest = exposures.iter().map(rest).fold(real(pair(self.site[TD]).high), f64::max);
        for i in 0..self.chemicals.len() {
            self.decay_alone(i);
            let decay = decimal(64.0 / longest * rng.between(0, 999) as f64 / 1000.0, 8);
            let none = rng.chance(25) || !in_range(&CHEMICAL[KSG], decay);
            self.chemicals[i].1[KSG] = Some(if none { (0, 0) } else { decay });
        }
    }

    /// The years of all receptors but one where they add up, as a composite's do.
    fn other_years(&self, r: usize) -> u128 {
        match self.sort {
            Sort::Ordinary => 0,
            Sort::Composite => {
                let all = self.receptors.iter().enumerate();
                all.filter(|&(i, _)| i != r).map(|(_, (_, values))| years(values[DRAFT_YEARS]).0).sum()
            }
        }
    }

    /// A time as a field can print it, the last of its digits dropped where they do not fit; if it is in range.
    fn near_years(&self, mut n: u128) -> Value {
        let mut power = FINEST;
        while n >= 100_000_000_000 || (n != 0 && n % 10 == 0) {
            (n, power) = (n / 10, power + 1);
        }
        // A whole number of more than eight figures is spelled without a power.
        while power > 0 && n >= 100_000_000 {
            (n, power) = (n * 10, power - 1);
        }
        let v = self.fitted((n as u64, power));
        in_range(&YEARS, v).then_some(v)
    }

    /// Sets one receptor's T2, or one stage's years and so the composite's T2, against tD; or tD against it: equal, different
    /// in the last place that twelve columns hold, in a place before, or far above.
    fn bring_t2_to_td(&mut self, rng: &mut Rng, r: usize) {
        self.most = 12;
        let (td, others) = (years(self.site[TD]).0, self.other_years(r));
        let own = years(self.receptors[r].1[DRAFT_YEARS]).0;
        // With an exponent eight figures fit, without one eleven digits beside the point.
        let place = if td < 10u128.pow((-9 - FINEST) as u32) {
            10u128.pow(td.ilog10().saturating_sub(7))
        } else {
            let whole = (td / 10u128.pow(-FINEST as u32)).checked_ilog10().map_or(1, |last| last + 1);
            10u128.pow((-FINEST) as u32 + whole - 11)
        };
        let few = place * rng.between(1, 9) as u128;
        let more = few * 10u128.pow(rng.between(0, 5) as u32);
        let of_td = rng.chance(if self.sort == Sort::Composite { 50 } else { 10 });
        // What the other of the two is now.
        let from = if of_td { others + own } else { td };
        let wanted = match rng.below(10) {
            0..=2 => Some(from),
            3 | 4 => Some(from + few),
            5 => from.checked_sub(few),
            6 => Some(from + more),
            7 => from.checked_sub(more),
            8 => from.checked_mul(rng.one_of(&[2, 3, 10, 1_000, 1_000_000])),
            _ => far(rng, &YEARS).map(|v| years(Some(v)).0),
        };
        if of_td {
            if let Some(v) = wanted.and_then(|n| self.near_years(n)) {
                self.site[TD] = Some(v);
            }
        } else if let Some(v) = wanted.and_then(|n| n.checked_sub(others)).and_then(|n| self.near_years(n)) {
            self.receptors[r].1[DRAFT_YEARS] = Some(v);
        }
    }

    /// Sets one receptor's T2, or one stage's years, so that k × (T2 − tD) of the most quickly lost chemical comes to about 64.
    fn bring_rest_to_64(&mut self, rng: &mut Rng, r: usize) {
        self.most = 12;
        let nine = rng.chance(30);
        if nine || rng.chance(50) {
            // Loss that divides 64.
            for i in 0..self.chemicals.len() {
                self.decay_alone(i);
                let round = rng.one_of(&[(64, -2), (5, -1), (1, 0), (16, -1), (2, 0), (8, -1), (1, -1), (128, -3)]);
                self.chemicals[i].1[KSG] = Some(if nine { (1, 0) } else { round });
            }
        }
        if nine {
            // Loss of 1, and 64 years but for some of the ninth figure.
            let rest = (640_000_000 + rng.one_of(&[0, 1, 1, 2, -1])) as u128 * 10u128.pow((-7 - FINEST) as u32);
            let own = (years(self.site[TD]).0 + rest).checked_sub(self.other_years(r));
            if let Some(v) = own.and_then(|n| self.near_years(n)) {
                self.receptors[r].1[DRAFT_YEARS] = Some(v);
                return;
            }
        }
        let k = (0..self.chemicals.len()).map(|i| real(self.loss(i).k.high)).fold(0.0, f64::max);
        let mut td = real(pair(self.site[TD]).high);
        if k * td > 64.0 {
            let v = decimal(64.0 / k * rng.between(1, 99) as f64 / 100.0, 8);
            if in_range(&YEARS, v) {
                self.site[TD] = Some(v);
                td = real(pair(Some(v)).high);
            }
        }
        let others = real(Years(self.other_years(r)).pair().high);
        let wanted = td - others + 64.0 / k;
        if !(1e-20..=1e9).contains(&wanted) {
            return;
        }
        let (digits, power) = decimal(wanted, 11);
        let near = self.fitted((digits.saturating_add_signed(rng.between(-3, 3)), power));
        if in_range(&YEARS, near) {
            self.receptors[r].1[DRAFT_YEARS] = Some(near);
        }
    }

    /// Sets one chemical's decay so that its x comes to about 64; in half of them at a tD that leaves the decay's own digits.
    fn bring_x_to_64(&mut self, rng: &mut Rng, i: usize) {
        self.chemicals[i].1[KSG] = Some((0, 0));
        if rng.chance(50) {
            self.decay_alone(i);
            self.site[TD] = Some(rng.one_of(&[(1, 0), (1, 0), (10, 0), (100, 0), (1, -1), (1, 9), (2, 0), (5, -1)]));
        }
        let others = real(self.loss(i).x.high);
        let wanted = if others < 64.0 {
            64.0 - others
        } else {
            self.decay_alone(i);
            64.0
        };
        let figures = self.most.min(11);
        let (digits, power) = decimal(wanted / real(pair(self.site[TD]).high), figures);
        // In the last place, or in the ninth.
        let place = if figures == 11 { rng.one_of(&[1, 100]) } else { 1 };
        let near = digits.saturating_add_signed(place * rng.one_of(&[0, 0, 1, 1, 1, -1, 2, -2]));
        let near = self.fitted((near.clamp(1, 10u64.pow(figures as u32) - 1), power));
        if in_range(&CHEMICAL[KSG], near) {
            self.chemicals[i].1[KSG] = Some(near);
        }
    }

    /// Sets one chemical's x by one of the five losses alone, as near as its field goes.
    fn bring_x_by_one_loss(&mut self, rng: &mut Rng, i: usize, wanted: f64) {
        self.decay_alone(i);
        self.chemicals[i].1[KSG] = Some((0, 0));
        let way = rng.below(7);
        for at in [SD, ER] {
            if way == 2 && pair(self.site[at]) == Pair::ZERO {
                self.site[at] = Some((1, 0));
            }
        }
        let set = |draft: &mut Draft, v: Printed| match way {
            0 => draft.chemicals[i].1[KSV] = Some(v),
            1 => draft.site[RO] = Some(v),
            2 => draft.site[XE] = Some(v),
            3 => draft.site[R] = Some(v),
            _ => draft.chemicals[i].1[KSG] = Some(v),
        };
        // At 1, and so in proportion; all five have the general range.
        set(self, (1, 0));
        let at_1 = real(self.loss(i).x.high);
        let v = self.fitted(decimal(wanted / at_1, self.most.min(11)));
        set(self, if in_range(&CHEMICAL[KSG], v) { v } else { (1, 9) });
    }

    /// Brings one chemical's x above 64, by little, by much or as far as decay and tD go; or takes all of its loss.
    fn hasten(&mut self, rng: &mut Rng, i: usize) {
        match rng.below(8) {
            0 => {
                self.chemicals[i].1[KSG] = Some((1, 9));
                self.site[TD] = Some((1, 9));
            }
            1 => {
                self.decay_alone(i);
                self.chemicals[i].1[KSG] = Some((0, 0));
            }
            _ => {
                let wanted = rng.between(64_000_001, 999_999_999) as f64;
                let scale = rng.one_of(&[1e-6, 1e-6, 1e-5, 1e-4, 1e-2, 1.0, 1e3, 1e9]);
                self.bring_x_by_one_loss(rng, i, wanted * scale);
            }
        }
    }

    /// Sets T2, or a composite's years in sum, above tD, and one chemical's loss so that of its x and its k × (T2 − tD) one is
    /// above 64 and the other is not.
    fn bring_across_64(&mut self, rng: &mut Rng, i: usize, r: usize) {
        self.most = 12;
        let by = rng.one_of(&[1, 1_000, 100_000, 500_000, 900_000, 1_100_000, 3_000_000, 50_000_000, 1_000_000_000]);
        let (td, others) = (years(self.site[TD]).0, self.other_years(r));
        // T2 is tD and so many millionths of it.
        let t2 = (td / 1_000_000).checked_mul(by).map(|rest| td + rest);
        if let Some(v) = t2.and_then(|t2| t2.checked_sub(others)).and_then(|own| self.near_years(own)) {
            self.receptors[r].1[DRAFT_YEARS] = Some(v);
        } else {
            let t2 = others + years(self.receptors[r].1[DRAFT_YEARS]).0;
            match self.near_years(t2 / (1_000_000 + by) * 1_000_000) {
                Some(v) => self.site[TD] = Some(v),
                None => return,
            }
        }
        let part = by as f64 / 1e6;
        let (low, high) = (64.0 * f64::min(1.0, 1.0 / part), 64.0 * f64::max(1.0, 1.0 / part));
        let wanted = rng.one_of(&[low * 1.01, low * (high / low).sqrt(), low * (high / low).sqrt(), high * 0.99]);
        self.bring_x_by_one_loss(rng, i, wanted);
    }

    /// Sets one of a chemical's reference values so that one figure comes to about its cap, or to so many times less.
    fn bring_to_cap(&mut self, rng: &mut Rng, i: usize, less: f64) {
        let r = rng.below(self.receptors.len());
        let figures = self.figures(i, r);
        let hazard = rng.chance(50);
        // The largest of those that share a reference value, so that no other line stops first; or any line.
        let line = match rng.below(4) {
            0 => 0,
            1 => 1 + rng.below(5),
            _ => (1..6)
                .max_by(|&a, &b| real_figure(&figures[a], hazard).total_cmp(&real_figure(&figures[b], hazard)))
                .unwrap_or(1),
        };
        self.bring_line_to_cap(rng, i, line, hazard, real_figure(&figures[line], hazard), less);
    }

    /// The same for pathway 1 of every chemical, quotient, risk or both.
    fn bring_air_to_cap(&mut self, rng: &mut Rng) {
        let r = rng.below(self.persons());
        let effects: &[bool] = rng.one_of(&[&[true], &[false], &[true, false]]);
        for i in 0..self.chemicals.len() {
            let less = rng.one_of(&[1.0, 1.0, 1.0, 2.0]);
            let air = self.figures(i, r)[0];
            for &hazard in effects {
                self.bring_line_to_cap(rng, i, 0, hazard, real_figure(&air, hazard), less);
            }
        }
    }

    /// Sets the reference value of one line, which has this figure by it now.
    fn bring_line_to_cap(&mut self, rng: &mut Rng, i: usize, line: usize, hazard: bool, figure: f64, less: f64) {
        let at = RFDO + if hazard { 0 } else { 2 } + usize::from(line == 0);
        let Some(now) = self.chemicals[i].1[at] else { return };
        let now = real(pair(Some(now)).high);
        let wanted = if hazard { now * figure / 10_000.0 * less } else { now / figure / less };
        if !(1e-20..=1e9).contains(&wanted) {
            return;
        }
        let figures = if self.most == 9 { 8 } else { 11 };
        let (digits, power) = decimal(wanted, figures);
        let near = digits.saturating_add_signed(rng.one_of(&[0, 0, 0, 1, -1, 2, -2])).max(1);
        let near = self.fitted((near, power));
        if in_range(&CHEMICAL[at], near) {
            self.chemicals[i].1[at] = Some(near);
        }
    }

    /// The number, without the last of its digits where it has more than fit: more than eight do without an exponent only.
    fn fitted(&self, (mut digits, mut power): Printed) -> Printed {
        loop {
            let figures = digits.to_string().len();
            let fits = match power {
                -10..=0 => figures.max((1 - power) as usize) <= self.most.min(11),
                _ => figures <= 8,
            };
            if fits {
                return (digits, power);
            }
            digits /= 10;
            power += 1;
        }
    }

    /// The deck, its numbers spelled at random.
    fn deck(&self, rng: &mut Rng) -> Vec<u8> {
        self.written(|v| spelled(rng, v, self.most))
    }

    fn written(&self, mut spell: impl FnMut(Printed) -> String) -> Vec<u8> {
        let mut deck = Vec::new();
        let mut record = |kind: u8, id: u32, values: &[Value]| {
            let lines = values.len().div_ceil(6);
            for k in 0..lines {
                deck.extend([kind, b'1' + k as u8]);
                deck.extend(format!("{id:>6}").bytes());
                for at in 6 * k..6 * k + 6 {
                    // A draft leaves out a blank slot before the years.
                    let value = match kind {
                        b'R' if at == self.sort.years_at() => values.get(DRAFT_YEARS),
                        b'R' if at == DRAFT_YEARS => None,
                        _ => values.get(at),
                    };
                    let text = match value {
                        None if kind == b'S' && at == YEAR => {
                            self.year.as_ref().map_or(String::new(), |year| year.1.clone())
                        }
                        None => String::new(),
                        Some(None) => "-".to_string(),
                        Some(Some(v)) => spell(*v),
                    };
                    deck.extend(format!("{text:>12}").bytes());
                }
                deck.push(b'\n');
            }
        };
        record(b'S', self.site_id, &self.site);
        self.chemicals.iter().for_each(|(id, c)| record(b'C', *id, c));
        self.receptors.iter().for_each(|(id, r)| record(b'R', *id, r));
        deck.extend(END);
        deck
    }
}

const END: &[u8; LINE] = b"EN                                                                              \n";

/// A quotient's or a risk's high end; 0 without the reference value.
fn real_figure(f: &Figures, hazard: bool) -> f64 {
    (if hazard { f.quotient } else { f.risk }).map_or(0.0, |p: Pair| real(p.high))
}

/// Through the decimal spelling: the same double on every machine.
fn real(w: Working) -> f64 {
    format!("{}e{}", w.m, w.e).parse().unwrap_or(0.0)
}

/// About v, in so many figures.
fn decimal(v: f64, figures: usize) -> Printed {
    let text = format!("{v:.*e}", figures - 1);
    let (digits, power) = text.split_once('e').unwrap_or(("1", "0"));
    let digits: u64 = digits.replace('.', "").parse().unwrap_or(1);
    (digits, power.parse::<i32>().unwrap_or(0) - (figures as i32 - 1))
}

/// Without an exponent, every digit and decimal as given; the power is not above 0.
fn plain((digits, power): Printed) -> String {
    let decimals = -power as usize;
    let mut text = format!("{digits:0>0$}", decimals + 1);
    if decimals > 0 {
        text.insert(text.len() - decimals, '.');
    }
    text
}

/// One of the allowed spellings, with at most so many digits; 0 takes any power.
fn spelled(rng: &mut Rng, (mut digits, mut power): Printed, most: usize) -> String {
    while digits != 0 && digits % 10 == 0 {
        digits /= 10;
        power += 1;
    }
    loop {
        let figures = digits.to_string();
        for _ in 0..12 {
            if digits == 0 {
                power = if rng.chance(50) { 0 } else { rng.between(-99, 99) as i32 };
            }
            let plain = rng.chance(60);
            // Decimals, zeros behind, zeros before.
            let (decimals, behind) = if plain {
                let decimals = (-power).max(0) as usize + if rng.chance(25) { rng.below(3) } else { 0 };
                (decimals, (decimals as i32 + power).max(0) as usize)
            } else {
                let behind = if rng.chance(20) { rng.below(4) } else { 0 };
                (rng.below(figures.len() + behind), behind)
            };
            let before =
                (decimals + 1).saturating_sub(figures.len() + behind) + if rng.chance(12) { rng.below(4) } else { 0 };
            let n = before + figures.len() + behind;
            if n > most {
                continue;
            }
            let mut text = "0".repeat(before) + &figures + &"0".repeat(behind);
            if decimals > 0 {
                text.insert(n - decimals, '.');
            }
            let left = power - behind as i32 + decimals as i32;
            if left != 0 || !plain || rng.chance(5) {
                if left.abs() > 99 {
                    continue;
                }
                let sign = if left > 0 || (left == 0 && rng.chance(50)) { '+' } else { '-' };
                text += &format!("E{sign}{:02}", left.abs());
            }
            if text.len() <= 12 {
                // Zeros before, up to the field's own left end.
                return if most == 12 && rng.chance(6) { format!("{text:0>12}") } else { text };
            }
        }
        let tight = format!("{digits}E{}{:02}", if power < 0 { '-' } else { '+' }, power.abs());
        if tight.len() <= 12 {
            return tight;
        }
        // More than eight figures that need an exponent do not fit.
        digits /= 10;
        power += 1;
    }
}

fn size(rng: &mut Rng, most_receptors: usize) -> (usize, usize) {
    let chemicals = rng.one_of(&[1, 1, 1, 1, 1, 2, 2, 2, 3, 3, 4, 5, 6, 8, 11, 16]);
    let receptors: &[usize] = match most_receptors {
        crate::deck::MOST_RECEPTORS => &[1, 1, 1, 2, 2, 3, 4],
        _ => &[1, 1, 2, 2, 3, 3, 4, 5, 5, 6, 7, 8, 8],
    };
    (chemicals, rng.one_of(receptors))
}

/// A sound deck of one to so many receptors, of this year; what it works out to may still be too high.
fn sound(rng: &mut Rng, sort: Sort, most_receptors: usize, year: Year) -> Vec<u8> {
    let (chemicals, receptors) = size(rng, most_receptors);
    let long = rng.chance(50);
    let mut draft = match rng.below(100) {
        0..=54 => Draft::new(rng, sort, chemicals, receptors, 0),
        55..=66 => Draft::new(rng, sort, chemicals, receptors, 5),
        67..=72 => Draft::new(rng, sort, chemicals, receptors, 100),
        73..=96 => Draft::round_figures(rng, sort, chemicals, receptors),
        _ => {
            let mut draft = Draft { year, ..Draft::level(rng, sort, chemicals, receptors) };
            for _ in 0..3 {
                draft.bring_to_cap(rng, 0, 1.0);
            }
            if draft.guidance() == Guidance::Of2009 {
                draft.bring_air_to_cap(rng);
            }
            // All chemicals alike: every line of a receptor at the cap.
            let like = draft.chemicals[0].1.clone();
            draft.chemicals.iter_mut().for_each(|c| c.1 = like.clone());
            return draft.deck(rng);
        }
    };
    draft.year = year;
    if sort == Sort::Composite && rng.chance(25) {
        draft.odd_years(rng);
    }
    if long {
        let percent = rng.one_of(&[10, 50, 100]);
        draft.lengthen(rng, percent);
    }
    if rng.chance(40) {
        let tries = if sort == Sort::Composite { 1 } else { receptors };
        for _ in 0..tries {
            let r = rng.below(receptors);
            draft.bring_t2_to_td(rng, r);
        }
    }
    if rng.chance(60) {
        draft.slow_down(rng);
    }
    let (i, r) = (rng.below(chemicals), rng.below(receptors));
    let about_64 = rng.below(100);
    match about_64 {
        0..=9 => draft.bring_x_to_64(rng, i),
        10..=19 => draft.bring_rest_to_64(rng, r),
        20..=29 => draft.hasten(rng, i),
        30..=39 => draft.bring_across_64(rng, i, r),
        _ => {}
    }
    if about_64 < 40 {
        // What is lost quickly would count few units: references that leave all of its figures to be seen.
        for _ in 0..rng.below(4) {
            let less = rng.one_of(&[2.0, 3.0, 30.0]);
            draft.bring_to_cap(rng, i, less);
        }
    } else if about_64 < 60 {
        draft.bring_to_cap(rng, i, 1.0);
    }
    if draft.guidance() == Guidance::Of2009 && rng.chance(15) {
        draft.bring_air_to_cap(rng);
    }
    draft.deck(rng)
}

/// One chemical or receptor too many, the rest sound.
fn crowded(rng: &mut Rng, sort: Sort, year: Year) -> Vec<u8> {
    let most = sort.most_receptors();
    let (chemicals, receptors) = if rng.chance(50) {
        (17, rng.between(1, most as i64) as usize)
    } else {
        (rng.between(1, 15) as usize, most + 1)
    };
    Draft { year, ..Draft::new(rng, sort, chemicals, receptors, 0) }.deck(rng)
}

/// Bytes without a deck's form.
fn noise(rng: &mut Rng, sort: Sort) -> Vec<u8> {
    let longest = sort.longest_deck();
    let n = match rng.below(5) {
        0 => 0,
        1 => LINE * (1 + rng.below(longest / LINE)),
        2 => LINE * (longest / LINE + 1 + rng.below(20)),
        _ => rng.below(longest + 277),
    };
    let mut deck: Vec<u8> = match rng.below(3) {
        0 => (0..n).map(|_| rng.byte()).collect(),
        1 => (0..n).map(|_| rng.between(32, 126) as u8).collect(),
        _ => (0..n).map(|_| rng.one_of(b" 0123456789.E+-SCRN")).collect(),
    };
    if rng.chance(70) {
        deck.iter_mut().skip(LINE - 1).step_by(LINE).for_each(|b| *b = b'\n');
    }
    deck
}

fn damaged(rng: &mut Rng, sort: Sort, year: Year) -> Vec<u8> {
    let dated = year.is_some();
    let mut deck = sound(rng, sort, sort.most_receptors(), year);
    // Of those with a year, some are hurt by the year alone.
    if dated && rng.chance(15) {
        damage_year(rng, sort, &mut deck);
        return deck;
    }
    for _ in 0..rng.one_of(&[1, 1, 1, 1, 2, 3]) {
        damage(rng, sort, &mut deck);
    }
    deck
}

fn place_line(deck: &mut Vec<u8>, at: usize, line: &[u8]) {
    deck.splice(at * LINE..at * LINE, line.iter().copied());
}

/// Twelve bytes in place of a field; text longer than that is cut.
fn place_field(deck: &mut [u8], line: usize, f: usize, text: &str) {
    let from = line * LINE + 8 + 12 * f;
    let padded = format!("{text:>12}");
    deck[from..from + 12].copy_from_slice(&padded.as_bytes()[..12]);
}

#[rustfmt::skip]
const IDS: &[&[u8; 6]] = &[
    b"     0", b"000001", b"    01", b"1     ", b" 1   2", b"      ", b"999999", b"     1", b"    -1", b"    +1", b"     x",
    b"    1 ", b"   1.0", b"  1E+0", b"     -", b"000000", b"99999 ", b"     2",
];
#[rustfmt::skip]
const KINDS: &[&[u8; 2]] = &[
    b"S1", b"S2", b"S3", b"C1", b"C2", b"C3", b"C4", b"C5", b"R1", b"R2", b"R3", b"R4", b"R5", b"EN", b"  ", b"c1", b"en", b"S0",
    b"C0", b"E1", b"1C", b"X1", b"S ",
];
#[rustfmt::skip]
const MISSPELLED: &[&str] = &[
    "--", "+1", "-1", "1E5", "1E+5", "1E+005", "1e+05", ".5", "5.", "1.2.3", "1 2", "123456789 0", "0.123456789.", "E+01", "1E++1",
    "1E+0", "1E", "NaN", "0x1", "1,5", "1 ", "- ", "~", "1E 05", "1.E+01", ".E+01", "00000000-1", "1E+1.", "1-", ".", "E", "+", "1E-",
    "1E+0A", "1E+ 1", "12345678901.", ".12345678901", "1.2345678E+0", "1.23456789E1", "1E+011", "-  ", "-0", "1F+01", "1E*01",
    "123456789E+0", "1.23456789E+", "00000000001-", "12345.67890 ", "-0.123456789", "12345678901E", "1.0.00000001", "1 000000000",
];
#[rustfmt::skip]
const OUT_OF_RANGE: &[&str] = &[
    "1E-21", "9.999999E-21", "1.000001E+09", "1000000.01E3", "1E+10", "1E+99", "1E-99", "9.99E-21", "10000001E+02", "99999999E+02",
    "0.1E-20", "0.0000001E-13", "99999999E-28", "1000000001", "1.00000001", "366.000001", "367", "2", "1.0000001", "0", "0.0",
    "0E+99", "0E-99", "000000000", "999999999", "1E+09", "100000000", "0.99999999", "366", "365.999999", "1", "1.00000000",
    "1.0000000001", "1.000000001", "1.0000000000", "0.9999999999", "0.999999999", "366.00000001", "366.00000000", "365.99999999",
    "1000000000.1", "1000000000.0", "1000000000", "001000000000", "001000000001", "999999999.5", "999999999.99", "999999999.49",
    "999999999999", "100000000000", "1234567890", "12345678901", "123456789012", "0.123456789", "1.2345678912", "0000000001",
    "000000000000", "0.0000000000", "00000000.000", "0.0000000001", "0000000000.1", "00000001E-20", "00000001E-21", "99999999E-28",
    "1.000000E-20", "00000.1E-20", "10000000E+02", "10000001E+02", "000000367.00",
];
#[rustfmt::skip]
const SHARE_ENDS: &[&str] = &[
    "1.0000000001", "1.000000001", "1.0000000000", "0.9999999999", "0.9999999998", "0.9999999995", "0.999999999", "0.9999999985",
    "0.0000000001", "0.0000000009", "0.000000001", "1.0000000099", "1.00000001", "10.00000E-01", "10000001E-07", "9999999.9E-07",
    "99999999E-08", "00000001E-20", "12345678E-20", "000000000001", "0.1000000001", "0.0999999999", "0.8999999999", "0.9000000001",
];

/// For T2 or a stage's years: none, not above 0, beyond the range and at its ends, misspelled.
#[rustfmt::skip]
const BAD_YEARS: &[&str] = &[
    "", "", "", "-", "-", "0", "0", "0.0", "0E+99", "0.0000000000", "000000000000", "1E-21", "9.999999E-21", "1E-20", "99999999E-28",
    "1E+09", "1000000000.0", "1000000000.1", "1.000001E+09", "1E+10", "999999999999", "1E+99", "1E-99", "-1", "+1", ".5", "5.", "x",
    "1E5", "4,5", "4.5.0", "-0", "0.0000000001", "12345678901",
];

/// For the year: next to one by its last digit, by a power of ten or by the digits' order, any other number, none, misspelled.
#[rustfmt::skip]
const BAD_YEAR: &[&str] = &[
    "2004", "2006", "2008", "2010", "2007", "2009.0000001", "2008.9999999", "2005.0000001", "2004.9999999", "2009.00001",
    "2005.01", "0", "0.0", "0E+03", "0E+99", "000000000000", "2009E+01", "20.09E+01", "2009E-01", "20.05E+01", "20050", "200.9",
    "20090E-02", "2.009E+02", "2.005E+04", "2.009", "9", "5", "09", "9002", "20052009", "20092009", "002009002009", "1E+09",
    "1E+99", "1E-99", "1E-20", "1", "1999", "-", "-", "-", "-", "-", "-", "-", "2009E", "MMIX", "MMV", "+2009", "-2009",
    "2009.", "2 009", "2,009", "2009 ", "2005 ", "2009E+0", "2009E3", "2.009e+03", "AD2009", "2009-", "'09", "2005/2009", "--",
    "20O9", ".2009E+04", "2.009E+003", "2005-01-01",
];

/// Line and field of the year, from 0.
const YEAR_AT: (usize, usize) = (YEAR / 6, YEAR % 6);

/// A bad year, or one written in vain: in a later slot, neither the year's nor that of T2 or a stage's years.
fn damage_year(rng: &mut Rng, sort: Sort, deck: &mut [u8]) {
    if rng.chance(75) {
        place_field(deck, YEAR_AT.0, YEAR_AT.1, rng.one_of(BAD_YEAR));
        return;
    }
    let in_vain = |&(l, f): &(usize, usize)| match deck[l * LINE] {
        b'R' => f != sort.years_at() % 6,
        kind => kind != b'S',
    };
    let later: Vec<(usize, usize)> = later_slots(deck).into_iter().filter(in_vain).collect();
    let (line, f) = rng.one_of(&later);
    if rng.chance(50) {
        place_field(deck, YEAR_AT.0, YEAR_AT.1, "");
    }
    place_field(deck, line, f, rng.one_of(&["2005", "2009", "2009", "2.009E+03", "2005.0", "000000002009"]));
}

/// Line and field of the slots behind a record's values: S2 6, which has the year, C4 5 and 6, R4 4 to 6, of which one has the
/// years.
fn later_slots(deck: &[u8]) -> Vec<(usize, usize)> {
    let slots = |(l, line): (usize, &[u8])| match &line[..2] {
        b"S2" => vec![(l, 5)],
        b"C4" => vec![(l, 4), (l, 5)],
        b"R4" => vec![(l, 3), (l, 4), (l, 5)],
        _ => vec![],
    };
    deck.chunks_exact(LINE).enumerate().flat_map(slots).collect()
}

fn damage(rng: &mut Rng, sort: Sort, deck: &mut Vec<u8>) {
    let n = deck.len() / LINE;
    // A heavier damage before may have left nothing to hurt.
    if n == 0 || deck.len() % LINE != 0 {
        return;
    }
    let line = rng.below(n);
    let from = line * LINE;
    match rng.below(34) {
        0 => {
            let at = rng.below(deck.len());
            deck[at] = rng.byte();
        }
        1 => deck[from + LINE - 1] = rng.one_of(&[b' ', b'\r', 0, b'0', 11]),
        2 => deck[from + rng.below(LINE - 1)] = rng.one_of(&[b'\n', 31, 127, 128, 255, 0, 9]),
        3 => {
            deck.drain(from..from + LINE);
        }
        4 => {
            let copy = deck[from..from + LINE].to_vec();
            let at = if rng.chance(50) { line } else { rng.below(n + 1) };
            place_line(deck, at, &copy);
        }
        5 => {
            let other = rng.below(n);
            for i in 0..LINE {
                deck.swap(from + i, other * LINE + i);
            }
        }
        6 => deck.truncate(rng.below(n * LINE)),
        7 => {
            let more = 1 + rng.below(200);
            deck.extend((0..more).map(|_| b' '));
        }
        8 => deck.truncate(from),
        9 | 10 => deck[from + 2..from + 8].copy_from_slice(&rng.one_of(IDS)[..]),
        11 => {
            // Ids spelled well, but a whole record's is not above the one before.
            let later: Vec<usize> = (4..n.saturating_sub(3))
                .filter(|l| [b"C1", b"R1"].contains(&&[deck[l * LINE], deck[l * LINE + 1]]))
                .filter(|l| deck[l * LINE] == deck[(l - 4) * LINE])
                .collect();
            let id = |n: i64| format!("{:>6}", n.max(1)).into_bytes();
            if later.is_empty() || rng.chance(30) {
                deck[from + 2..from + 8].copy_from_slice(&id(rng.figures(1, 6)));
            } else {
                let first = rng.one_of(&later);
                let before = &deck[(first - 4) * LINE + 2..(first - 4) * LINE + 8];
                let before: i64 = String::from_utf8_lossy(before).trim().parse().unwrap_or(1);
                let text = id(before - rng.one_of(&[0, 0, 1]));
                for l in first..first + 4 {
                    deck[l * LINE + 2..l * LINE + 8].copy_from_slice(&text);
                }
            }
        }
        12 | 13 => deck[from..from + 2].copy_from_slice(&rng.one_of(KINDS)[..]),
        14 | 15 => place_field(deck, line, rng.below(6), rng.one_of(MISSPELLED)),
        16 => {
            // One byte of a field.
            let at = from + 8 + rng.below(72);
            deck[at] = rng.one_of(b" 0123456789.E+-e,");
        }
        17 => place_field(deck, line, rng.below(6), ""),
        18 => place_field(deck, line, rng.below(6), "-"),
        19..=22 => place_field(deck, line, rng.below(6), rng.one_of(OUT_OF_RANGE)),
        23 | 24 => {
            let later = later_slots(deck);
            if !later.is_empty() {
                let (l, f) = rng.one_of(&later);
                place_field(deck, l, f, rng.one_of(&["0", "-", "1", "x", "1E+99", "0.5", ".", "-1"]));
            }
        }
        25 => {
            // EN not blank.
            let at = (n - 1) * LINE + 2 + rng.below(78);
            deck[at] = rng.one_of(b"0-1.x~");
        }
        26 => deck.truncate((n - 1) * LINE),
        27 => {
            // Lines after EN.
            for _ in 0..1 + rng.below(3) {
                let copy = deck[from..from + LINE].to_vec();
                deck.extend(if rng.chance(40) { END.to_vec() } else { copy });
            }
        }
        28 => {
            // Too long, and by one line if need be.
            let longest = sort.longest_deck() / LINE;
            let lines = if rng.chance(50) { longest + 1 } else { longest - 1 + rng.below(39) };
            while deck.len() < lines * LINE {
                deck.extend(END);
            }
        }
        29 => {
            // Fv next to an end of its range.
            let first: Vec<usize> = (0..n).filter(|l| deck[l * LINE..].starts_with(b"C1")).collect();
            if !first.is_empty() {
                place_field(deck, rng.one_of(&first), FV, rng.one_of(SHARE_ENDS));
            }
        }
        30 => {
            // A field moved to the left within its columns.
            let f = rng.below(6);
            let at = from + 8 + 12 * f;
            let by = rng.below(4);
            deck[at..at + 12].rotate_left(by);
        }
        _ => {
            let last: Vec<usize> = (0..n).filter(|l| deck[l * LINE..].starts_with(b"R4")).collect();
            if !last.is_empty() {
                place_field(deck, rng.one_of(&last), sort.years_at() % 6, rng.one_of(BAD_YEARS));
            }
        }
    }
}

#[cfg(test)]
mod tests {
    use super::*;

    #[test]
    fn the_same_from_the_same_seed() {
        for place in 0..50 {
            for sort in [Sort::Ordinary, Sort::Composite] {
                let (a, b) = (trial(sort, 3, place), trial(sort, 3, place));
                assert_eq!((a.deck, a.room, a.before), (b.deck, b.room, b.before));
            }
        }
    }

    #[test]
    fn shares_of_outcomes() {
        for sort in [Sort::Ordinary, Sort::Composite] {
            let mut count = [0; 54];
            let decks = 4_000;
            let mut out = vec![0; 2 * LONGEST_REPORT];
            for place in 0..decks {
                let t = trial(sort, 1, place);
                count[crate::report(sort, &t.deck, &mut out[..t.room]).0 as usize] += 1;
            }
            // 200 of 200,000 is 1 in 1,000.
            for number in [11, 12, 21, 22, 31, 32, 33, 51, 42] {
                assert!(count[number] >= 4, "{sort:?}, {number}: {}", count[number]);
            }
            assert!(count[0] >= decks * 30 / 100 && count[0] <= decks * 60 / 100, "{sort:?}: {}", count[0]);
            assert_eq!(count[41], 0, "{sort:?}");
        }
    }

    #[test]
    fn shares_of_a_batch() {
        let decks = batch(1, 400);
        assert_eq!(decks[..40], batch(1, 40));
        let composites = decks.iter().filter(|(sort, _)| *sort == Sort::Composite).count();
        let refused = decks.iter().filter(|(sort, deck)| !accepted(*sort, deck)).count();
        assert!((30..=70).contains(&composites) && (25..=55).contains(&refused), "{composites} {refused}");
    }

    /// What a run of composites' decks holds: every number of stages, years at both ends of their range, refusals of the years
    /// themselves, decks of the other sort.
    #[test]
    fn kinds_of_composite_decks() {
        let sort = Sort::Composite;
        let mut stages = [0; 10];
        let (mut small, mut large, mut long, mut ordinary) = (0, 0, 0, 0);
        for place in 0..4_000 {
            let t = trial(sort, 1, place);
            ordinary += usize::from(crate::read(Sort::Ordinary, &t.deck).0 == 0);
            if crate::read(sort, &t.deck).0 != 0 {
                continue;
            }
            let text = String::from_utf8_lossy(&t.deck).into_owned();
            let last: Vec<&str> = text.lines().filter(|l| l.starts_with("R4")).collect();
            stages[last.len()] += 1;
            for years in last.iter().map(|l| l[56..68].trim()) {
                let real: f64 = years.parse().unwrap();
                small += usize::from(real < 1e-15);
                large += usize::from(real > 1e8);
                long += usize::from(years.bytes().filter(u8::is_ascii_digit).count() > 9);
            }
        }
        assert!(stages[1..=8].iter().all(|&n| n > 50), "{stages:?}");
        assert!(small > 50 && large > 50 && long > 500 && ordinary > 10, "{small} {large} {long} {ordinary}");
    }

    /// How T2 lies to tD in the decks that are answered, receptor by receptor; and what stops T2 or the years themselves.
    #[test]
    fn kinds_of_exposures() {
        for sort in [Sort::Ordinary, Sort::Composite] {
            let (mut refused, mut out) = ([0; 40], vec![0; LONGEST_REPORT]);
            // Below, equal, above in the last four places that twelve columns have beside tD, above, more than a thousand times.
            let mut lies = [0; 5];
            let mut same_pair = 0;
            for place in 0..6_000 {
                let t = trial(sort, 1, place);
                let told = crate::report(sort, &t.deck, &mut out);
                if told.0 > 22 && told.2 == sort.years_at() % 6 + 1 && t.deck[(told.1 - 1) * LINE..].starts_with(b"R4")
                {
                    refused[told.0 as usize] += 1;
                }
                if told.0 != 0 {
                    continue;
                }
                let mut case = Case::empty();
                crate::report::read_reported(sort, &t.deck, &mut case).unwrap();
                for r in case.receptors() {
                    let (t2, td) = (r.exact_years.0, case.td.0);
                    let kind = match t2.checked_sub(td) {
                        None => 0,
                        Some(0) => 1,
                        Some(rest) if rest < td / 1_000_000 => 2,
                        Some(rest) if rest / 1_000 < td => 3,
                        _ => 4,
                    };
                    lies[kind] += 1;
                    same_pair += usize::from(kind == 2 && r.years == case.site[TD]);
                }
            }
            let told = format!("{sort:?}: {refused:?} {lies:?} {same_pair}");
            assert!([31, 32, 33].iter().all(|&n| refused[n] > 10), "{told}");
            assert!(lies.iter().all(|&n| n > 60) && same_pair > 10, "{told}");
        }
    }

    /// Where x and k × (T2 − tD) lie to 64 in the decks that are answered, chemical by chemical and receptor by receptor, and
    /// by what x comes above it.
    #[test]
    fn kinds_of_losses() {
        let at = Working::entry(64, 0);
        let above = Working::entry(640_000_001, -7);
        for sort in [Sort::Ordinary, Sort::Composite] {
            let mut out = vec![0; LONGEST_REPORT];
            // High end at 64; one unit above, with a low end at 64 or below, and with no lower end.
            let (mut near, mut near_beyond) = ([0; 3], [0; 3]);
            // x above 64: at most 1,000, at most 1E+9, more; ksg and tD both 1E+9.
            let mut far = [0; 4];
            // Rows: x at most 64, above. Columns: T2 ≤ tD, k × (T2 − tD) at most 64, above.
            let mut sides = [[0; 3]; 2];
            // k 0: T2 ≤ tD, above.
            let mut none = [0; 2];
            // x above 64 by decay alone, volatilization, erosion, runoff, leaching, or by several.
            let mut ways = [0; 6];
            // Of the lines with x or k × (T2 − tD) above 64, those that tell nine figures of a quotient, or of a risk.
            let mut told = [0; 2];
            for place in 0..6_000 {
                let t = trial(sort, 1, place);
                if crate::report(sort, &t.deck, &mut out).0 != 0 {
                    continue;
                }
                let mut case = Case::empty();
                crate::report::read_reported(sort, &t.deck, &mut case).unwrap();
                let site = Site::new(&case.site, case.td);
                let mut lines = out.chunks(crate::report::LINE);
                let losses: Vec<Loss> = case.chemicals().iter().map(|c| site.loss(c)).collect();
                let count_near = |x: Pair, near: &mut [usize; 3]| {
                    near[0] += usize::from(x.high == at);
                    near[1] += usize::from(x.high == above && x.low.at_most(at));
                    near[2] += usize::from(x == Pair::of(above));
                };
                for (chemical, loss) in case.chemicals().iter().zip(&losses) {
                    count_near(loss.x, &mut near);
                    if has_series(loss.x) {
                        continue;
                    }
                    far[[3, 9, 99].iter().position(|&e| loss.x.high.at_most(Working::entry(1, e))).unwrap()] += 1;
                    let billion = Pair::entry(1, 9);
                    far[3] += usize::from(chemical.value[KSG] == billion && case.site[TD] == billion);
                    let erosion = case.site[XE] * case.site[SD] * case.site[ER];
                    let by = [chemical.value[KSG], chemical.value[KSV], erosion, case.site[RO], case.site[R]];
                    let all: Vec<usize> = (0..5).filter(|&way| by[way] != Pair::ZERO).collect();
                    ways[if all.len() == 1 { all[0] } else { 5 }] += 1;
                }
                for r in case.receptors() {
                    let exposure = site.exposure(r);
                    for loss in &losses {
                        let rest = beyond(loss, &exposure);
                        rest.into_iter().for_each(|x| count_near(x, &mut near_beyond));
                        let slow = [has_series(loss.x), rest.is_none_or(has_series)];
                        sides[usize::from(!slow[0])][rest.map_or(0, |_| 1 + usize::from(!slow[1]))] += 1;
                        none[usize::from(rest.is_some())] += usize::from(loss.k == Pair::ZERO);
                        for line in lines.by_ref().take(6) {
                            let nine = |at: usize| line[at..at + 12].iter().any(|&b| b != b' ');
                            told[0] += usize::from(slow != [true; 2] && line[13] != b'1' && nine(34));
                            told[1] += usize::from(slow != [true; 2] && line[13] != b'1' && nine(74));
                        }
                    }
                    lines.next();
                }
            }
            let all = format!("{sort:?}: {near:?} {near_beyond:?} {far:?} {sides:?} {none:?} {ways:?} {told:?}");
            assert!(near.iter().chain(&near_beyond).all(|&n| n > 10), "{all}");
            assert!(far.iter().all(|&n| n > 20) && ways.iter().all(|&n| n > 15), "{all}");
            assert!(sides.iter().flatten().all(|&n| n > 60) && none.iter().all(|&n| n > 60), "{all}");
            assert!(told.iter().all(|&n| n > 200), "{all}");
        }
    }

    /// What decks say of the year, those answered and those that stop for it; and where the air of 2009 comes to.
    #[test]
    fn kinds_of_years() {
        use std::collections::HashSet;
        for sort in [Sort::Ordinary, Sort::Composite] {
            let mut out = vec![0; LONGEST_REPORT];
            // Decks answered: without a year, of 2005, of 2009; and the spellings.
            let mut answered = [0; 3];
            let mut spellings = [HashSet::new(), HashSet::new()];
            // What stops the year's field, the texts that do, and a year in a later slot.
            let (mut refused, mut texts, mut in_vain) = ([0; 40], HashSet::new(), 0);
            // Pathway 1 of 2009, quotient and risk: above the cap by less than a millionth, at the cap, below by less than a
            // millionth; nine figures told; no reference value.
            let (mut above, mut at, mut below, mut nine, mut lacking) = ([0; 2], [0; 2], [0; 2], [0; 2], [0; 2]);
            let near = Pair::entry(1_000_001, -6);
            for place in 0..6_000 {
                let t = trial(sort, 1, place);
                let field = |line: usize, f: usize| {
                    let from = (line - 1) * LINE + 8 + 12 * (f - 1);
                    String::from_utf8_lossy(&t.deck[from..from + 12]).trim_start().to_string()
                };
                let told = crate::report(sort, &t.deck, &mut out);
                match told {
                    (number @ 31..=33, 2, 6) => {
                        refused[number as usize] += 1;
                        texts.insert(field(2, 6));
                    }
                    (32, line, f) => in_vain += usize::from([Ok(2005.0), Ok(2009.0)].contains(&field(line, f).parse())),
                    _ => {}
                }
                if ![0, 42].contains(&told.0) {
                    continue;
                }
                let mut case = Case::empty();
                crate::report::read_reported(sort, &t.deck, &mut case).unwrap();
                let (is_answered, of_2009) = (told.0 == 0, case.guidance == Guidance::Of2009);
                if is_answered {
                    let text = field(2, 6);
                    answered[if text.is_empty() { 0 } else { 1 + usize::from(of_2009) }] += 1;
                    spellings[usize::from(of_2009)].insert(text);
                }
                if !of_2009 {
                    continue;
                }
                let site = Site::new(&case.site, case.td);
                let media: Vec<Media> = case.chemicals().iter().map(|c| Media::new(&site, c)).collect();
                let mut line = 1;
                for r in case.receptors() {
                    let (body, exposure) = (Body::new(r, case.guidance), site.exposure(r));
                    for (c, media) in case.chemicals().iter().zip(&media) {
                        let air = pathways(&site, c, media, &exposure, &body)[0];
                        let caps = [crate::page::MOST_QUOTIENT, crate::page::MOST_RISK];
                        for (effect, (figure, cap)) in [air.quotient, air.risk].into_iter().zip(caps).enumerate() {
                            let Some(p) = figure else {
                                lacking[effect] += usize::from(is_answered);
                                continue;
                            };
                            let close = cap.at_most((p * near).low) && p.high.at_most((Pair::of(cap) * near).high);
                            let stops = told.1 == line && !p.high.at_most(cap);
                            above[effect] += usize::from(!is_answered && stops && close);
                            at[effect] += usize::from(is_answered && p.high == cap);
                            below[effect] += usize::from(is_answered && close && p.high != cap);
                            // The last of nine figures is a unit or more.
                            nine[effect] += usize::from(is_answered && p.low.e >= [-12, -15][effect]);
                        }
                        line += 6;
                    }
                    line += 1;
                }
            }
            let spelled = [spellings[0].len(), spellings[1].len()];
            let all = format!(
                "{sort:?}: {answered:?} {spelled:?} {:?} {} {in_vain} {above:?} {at:?} {below:?} {nine:?} {lacking:?}",
                &refused[31..=33],
                texts.len()
            );
            let (sum, of_2009) = (answered.iter().sum::<usize>(), answered[2]);
            assert!(answered.iter().all(|&n| n > 300) && (45..=55).contains(&(100 * of_2009 / sum)), "{all}");
            assert!(spelled.iter().all(|&n| n > 20) && in_vain > 20, "{all}");
            assert!(refused[31..=33].iter().all(|&n| n > 15) && texts.len() > 40, "{all}");
            assert!(above.iter().all(|&n| n > 40) && [at, below].iter().flatten().all(|&n| n > 5), "{all}");
            assert!(nine.iter().chain(&lacking).all(|&n| n > 500), "{all}");
        }
    }

    /// The same deck but for the year, and accepted too.
    #[test]
    fn everyday_decks_of_2009() {
        for (sort, chemicals, receptors) in [(Sort::Ordinary, 1, 1), (Sort::Ordinary, 16, 4), (Sort::Composite, 16, 8)]
        {
            for seed in 0..4 {
                let (of_2005, of_2009) =
                    (everyday(sort, seed, chemicals, receptors), everyday_2009(sort, seed, chemicals, receptors));
                let at = 2 * LINE - 1 - 12;
                assert_eq!(
                    (&of_2005[at..at + 12], &of_2009[at..at + 12]),
                    (&b"            "[..], &b"        2009"[..])
                );
                assert_eq!((&of_2005[..at], &of_2005[at + 12..]), (&of_2009[..at], &of_2009[at + 12..]));
                let told = [of_2005, of_2009].map(|deck| {
                    let mut out = vec![0; LONGEST_REPORT];
                    let told = crate::report(sort, &deck, &mut out);
                    assert_eq!(told.0, 0);
                    out.truncate(told.1);
                    out
                });
                // Pathway 1 and the total lines differ, no other.
                let lines = told[0].chunks(crate::report::LINE).zip(told[1].chunks(crate::report::LINE));
                assert!(lines.clone().all(|(a, b)| a == b || [&b" 1"[..], b" 0"].contains(&&a[12..14])));
                assert!(lines.filter(|(a, b)| a != b).count() > 1);
            }
        }
    }

    #[test]
    fn spellings_keep_the_value() {
        let mut rng = Rng::new(7);
        for _ in 0..20_000 {
            let digits = rng.figures(1, 8) as u64 - 1;
            let power = rng.between(-20, 9) as i32;
            let most = rng.one_of(&[9, 12]);
            let text = spelled(&mut rng, (digits, power), most);
            let before_e = text.split('E').next().unwrap();
            assert!(text.len() <= 12 && before_e.bytes().filter(u8::is_ascii_digit).count() <= most, "{text}");
            let want: f64 = format!("{digits}e{power}").parse().unwrap();
            assert_eq!(text.replace('E', "e").parse::<f64>().unwrap(), want, "{text}");
        }
        assert_eq!(plain((12_345_678_912, -10)), "1.2345678912");
        assert_eq!(plain((5, -10)), "0.0000000005");
        assert_eq!(plain((366, 0)), "366");
    }

    #[test]
    fn eleven_digits_in_every_field() {
        for seed in 0..4 {
            let deck = String::from_utf8(everyday_eleven(Sort::Ordinary, seed, 4, 2)).unwrap();
            let mut longer_pairs = 0;
            for line in deck.lines().filter(|l| !l.starts_with("EN")) {
                for f in 0..6 {
                    let field = &line[8 + 12 * f..20 + 12 * f];
                    if field.trim().is_empty() || field.trim() == "-" {
                        continue;
                    }
                    assert!(field.contains('.') && !field.contains([' ', 'E']), "{field}");
                    let digits: String = field.chars().filter(char::is_ascii_digit).collect();
                    longer_pairs += usize::from(digits.trim_start_matches('0').trim_end_matches('0').len() > 9);
                }
            }
            assert!(longer_pairs > 60, "{longer_pairs}");
        }
    }
}
