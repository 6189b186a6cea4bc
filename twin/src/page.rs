//! The page of equations, written as the documents write them: the operators of pairs keep their order of operations
//! (brackets, then × and / from the left, then + from the left), one rounding each.
//!
//! Fields lie between 1E-20 and 1E+9 or are 0, a composite's but for a rounding too and its years below 1E+10, and T2 − tD is
//! 1E-27 at least, so every exponent here stays within a few hundred, those of the series (worked at 64 at most) within some
//! tens of thousands; and no divisor is 0, since its factors are never 0, and x divides only where it is about 64 or more.

use crate::deck::{Chemical, Guidance, Receptor};
use crate::pairs::{self, Pair, Working};
use crate::years::Years;

const TENTH: Pair = Pair::entry(1, -1);
const MILLIONTH: Pair = Pair::entry(1, -6);
const HUNDRED: Pair = Pair::entry(100, 0);
const THOUSAND: Pair = Pair::entry(1000, 0);
const DAYS_A_YEAR: Pair = Pair::entry(365, 0);

/// Where the high end of x, or of k × (T2 − tD), is above it, no series is worked.
const MOST_X: Working = Working::entry(64, 0);
/// 1 / φ there.
const BY_PHI_ABOVE: Pair = Pair { low: Working::ZERO, high: Working::entry(1, -25) };
pub const MOST_QUOTIENT: Working = Working::entry(10_000, 0);
pub const MOST_RISK: Working = Working::ONE;

/// The site's own values, as pairs.
#[derive(Clone, Copy)]
pub struct Site {
    zs: Pair,
    bd: Pair,
    td: Pair,
    exact_td: Years,
    theta: Pair,
    xe: Pair,
    sd: Pair,
    er: Pair,
    ro: Pair,
    r: Pair,
    vg: Pair,
    frsnow: Pair,
}

impl Site {
    pub fn new(value: &[Pair; 11], exact_td: Years) -> Site {
        let [zs, bd, td, theta, xe, sd, er, ro, r, vg, frsnow] = *value;
        Site { zs, bd, td, exact_td, theta, xe, sd, er, ro, r, vg, frsnow }
    }

    /// How a chemical is lost from the soil.
    pub fn loss(&self, chemical: &Chemical) -> Loss {
        let Site { zs, bd, td, theta, xe, sd, er, ro, r, .. } = *self;
        let [_, _, _, _, _, _, _, _, _, _, kds, ksg, ksv, ..] = chemical.value;
        let u = kds * bd;
        let kse = TENTH * xe * sd * er / (bd * zs) * u / (theta + u);
        let (water, held) = (theta * zs, Pair::ONE + u / theta);
        let ksr = ro / water / held;
        let ksl = r / water / held;
        let k = ksg + kse + ksr + ksl + ksv;
        Loss { k, x: k * td }
    }

    /// A receptor's exposure, against the deposition.
    pub fn exposure(&self, receptor: &Receptor) -> Exposure {
        match receptor.exact_years.beyond(self.exact_td) {
            None => Exposure::Within,
            Some(rest) => Exposure::Beyond { t2: receptor.years, rest: rest.pair() },
        }
    }
}

/// How long a receptor is exposed, by the printed digits.
#[derive(Clone, Copy, PartialEq, Eq, Debug)]
pub enum Exposure {
    /// T2 ≤ tD.
    Within,
    /// T2 > tD, and T2 − tD.
    Beyond { t2: Pair, rest: Pair },
}

/// A chemical's loss from the site's soil.
#[derive(Clone, Copy)]
pub struct Loss {
    pub k: Pair,
    /// k × tD.
    pub x: Pair,
}

/// Whether the series are worked at this exponent, x or k × (T2 − tD).
#[inline]
pub fn has_series(x: Pair) -> bool {
    x.high.at_most(MOST_X)
}

/// Stands for (1 − exp(−x)) / x.
fn g_by(by_phi: Pair, x: Pair) -> Pair {
    Pair::ONE / (by_phi + x)
}

/// g alone.
fn g(x: Pair) -> Pair {
    let by_phi = if has_series(x) { Pair::ONE / pairs::series(x).0 } else { BY_PHI_ABOVE };
    g_by(by_phi, x)
}

/// g, and h, which stands for (1 − g) / x.
fn g_and_h(x: Pair) -> (Pair, Pair) {
    if has_series(x) {
        let (phi, psi) = pairs::both_series(x);
        (g_by(Pair::ONE / phi, x), psi / (Pair::ONE + x * phi))
    } else {
        let g = g_by(BY_PHI_ABOVE, x);
        (g, g.one_minus() / x)
    }
}

/// A soil's concentration and those of what grows in it.
#[derive(Clone, Copy)]
struct Ground {
    soil: Pair,
    above_ground: Pair,
    below_ground: Pair,
}

impl Ground {
    const NONE: Ground = Ground { soil: Pair::ZERO, above_ground: Pair::ZERO, below_ground: Pair::ZERO };

    fn new(site: &Site, chemical: &Chemical, soil: Pair) -> Ground {
        let [_, _, _, _, _, _, _, _, _, _, kds, _, _, br, rcf, ..] = chemical.value;
        Ground { soil, above_ground: soil * br, below_ground: soil * rcf * site.vg / kds }
    }
}

/// A chemical's concentrations at the site, all that no receptor changes.
#[derive(Clone, Copy)]
pub struct Media {
    air: Pair,
    /// The highest year's, C: for hazard.
    highest: Ground,
    /// The mean while there is deposition: for cancer, where T2 ≤ tD.
    mean: Ground,
    /// D × tD × tD × h.
    mean_by_td: Pair,
    k: Pair,
}

impl Media {
    pub const NONE: Media =
        Media { air: Pair::ZERO, highest: Ground::NONE, mean: Ground::NONE, mean_by_td: Pair::ZERO, k: Pair::ZERO };

    pub fn new(site: &Site, chemical: &Chemical) -> Media {
        let Site { zs, bd, td, .. } = *site;
        let [q, hga, hgd, fv, cyv, cyp, dydv, dywv, dydp, dywp, ..] = chemical.value;
        // From the printed digits: the pair may have lost what they leave of 1.
        let (digits, power) = chemical.fv;
        let one_minus_fv = Pair::one_minus_entry(digits, power);
        let air = q * hga * (fv * cyv + one_minus_fv * cyp) / THOUSAND;
        let d = HUNDRED * hgd * q / (zs * bd) * (fv * (dydv + dywv) + (dydp + dywp) * one_minus_fv);
        let Loss { k, x } = site.loss(chemical);
        let (g, h) = g_and_h(x);
        let deposited = d * td;
        Media {
            air,
            highest: Ground::new(site, chemical, deposited * g),
            mean: Ground::new(site, chemical, deposited * h),
            mean_by_td: deposited * td * h,
            k,
        }
    }

    /// The soil's mean over an exposure: for cancer.
    fn mean(&self, site: &Site, chemical: &Chemical, exposure: &Exposure) -> Ground {
        match *exposure {
            Exposure::Within => self.mean,
            Exposure::Beyond { t2, rest } => {
                let beyond = self.highest.soil * rest * g(self.k * rest);
                Ground::new(site, chemical, (self.mean_by_td + beyond) / t2)
            }
        }
    }
}

/// Averaging time for hazard, days.
pub fn averaging_time(ed: Pair) -> Pair {
    DAYS_A_YEAR * ed
}

// Places of the two fields that a composite does not take from its stages.
const ED: usize = 1;
const ATC: usize = 2;

/// The person made of life stages, one at least: each field is its mean over the years, ED all of the years, ATc their days;
/// T2 all of them too, but added as printed.
pub fn composite(stages: &[Receptor]) -> Receptor {
    let t2: Years = stages.iter().map(|stage| stage.exact_years).sum();
    // Sums in deck order; 0 + the first is the first, unrounded.
    let years = stages.iter().fold(Pair::ZERO, |sum, stage| sum + stage.years);
    let mut person = Receptor { years: t2.pair(), exact_years: t2, ..stages[0] };
    for (at, value) in person.value.iter_mut().enumerate() {
        *value = match at {
            ED => years,
            ATC => DAYS_A_YEAR * years,
            _ => stages.iter().fold(Pair::ZERO, |sum, stage| sum + stage.years * stage.value[at]) / years,
        };
    }
    person
}

/// The share of an averaging time that a receptor spends in the air, ETinh × EFinh × ED / AT. No body weight divides it, so it
/// is no intake's factor.
#[derive(Clone, Copy, PartialEq, Eq, Debug)]
struct TimeShare(Pair);

/// A concentration in air over a share of time, mg/m³: no dose.
#[derive(Clone, Copy, PartialEq, Eq, Debug)]
struct AirOverTime(Pair);

impl TimeShare {
    /// Spent in air of this concentration, mg/m³.
    fn in_air(self, air: Pair) -> AirOverTime {
        AirOverTime(self.0 * air)
    }
}

impl AirOverTime {
    /// By a reference concentration, mg/m³.
    fn quotient(self, reference: Pair) -> Pair {
        self.0 / reference
    }

    /// By a unit risk per µg/m³.
    fn risk(self, unit_risk: Pair) -> Pair {
        self.0 * THOUSAND * unit_risk
    }
}

/// How a receptor takes the air.
#[derive(Clone, Copy, PartialEq, Eq, Debug)]
enum Inhaled {
    /// As a dose, 2005.
    Dose,
    /// For a share of its time, 2009.
    Time { hazard: TimeShare, cancer: TimeShare },
}

/// What the pathways take from a receptor alone.
pub struct Body {
    value: [Pair; 21],
    inhaled: Inhaled,
    /// SAb × SAFb + SAh × SAFh.
    adhering: Pair,
    /// B for hazard.
    b_hazard: Pair,
    /// B for cancer.
    b_cancer: Pair,
}

impl Body {
    pub fn new(receptor: &Receptor, guidance: Guidance) -> Body {
        let value = receptor.value;
        let [bw, ed, atc, _, etinh, efinh, _, _, _, _, sab, safb, sah, safh, ..] = value;
        let at = averaging_time(ed);
        let inhaled = match guidance {
            Guidance::Of2005 => Inhaled::Dose,
            Guidance::Of2009 => {
                let days = etinh * efinh * ed;
                Inhaled::Time { hazard: TimeShare(days / at), cancer: TimeShare(days / atc) }
            }
        };
        Body { value, inhaled, adhering: sab * safb + sah * safh, b_hazard: bw * at, b_cancer: bw * atc }
    }
}

/// Quotient and risk of a report line; `None` without the reference value.
#[derive(Clone, Copy, Debug)]
pub struct Figures {
    pub quotient: Option<Pair>,
    pub risk: Option<Pair>,
}

/// Pathways 1 to 6 of one receptor and chemical.
pub fn pathways(site: &Site, chemical: &Chemical, media: &Media, exposure: &Exposure, body: &Body) -> [Figures; 6] {
    let [_, ed, _, irinh, etinh, efinh, irsoil, etsoil, efs, efw, _, _, _, _, etderm, irag, fag, irbg, fbg, wp, efp] =
        body.value;
    let [.., afinh, aforal, afderm] = chemical.value;
    let [rfdo, rfdi, csfo, csfi] = chemical.reference;
    // The intake factor's dividend; its medium and the reference value, for hazard and for cancer.
    let figures = |dividend: Pair, hazard: (Pair, Option<Pair>), cancer: (Pair, Option<Pair>)| Figures {
        quotient: hazard.1.map(|rfd| dividend / body.b_hazard * hazard.0 / rfd),
        risk: cancer.1.map(|csf| dividend / body.b_cancer * cancer.0 * csf),
    };
    let (highest, mean) = (&media.highest, media.mean(site, chemical, exposure));
    let soil = ((highest.soil, rfdo), (mean.soil, csfo));
    let in_soil = |dividend: Pair| figures(dividend, soil.0, soil.1);
    let air = match body.inhaled {
        Inhaled::Dose => figures(irinh * afinh * etinh * efinh * ed, (media.air, rfdi), (media.air, csfi)),
        // The slots of RfDi and CSFi hold a reference concentration and a unit risk.
        Inhaled::Time { hazard, cancer } => Figures {
            quotient: rfdi.map(|reference| hazard.in_air(media.air).quotient(reference)),
            risk: csfi.map(|unit_risk| cancer.in_air(media.air).risk(unit_risk)),
        },
    };
    [
        air,
        in_soil(irsoil * aforal * etsoil * efs * ed * MILLIONTH),
        in_soil(irsoil * aforal * site.frsnow * etsoil * efw * ed * MILLIONTH),
        in_soil(body.adhering * afderm * etderm * efs * ed * MILLIONTH),
        figures(irag * fag * wp * aforal * efp * ed, (highest.above_ground, rfdo), (mean.above_ground, csfo)),
        figures(irbg * fbg * wp * aforal * efp * ed, (highest.below_ground, rfdo), (mean.below_ground, csfo)),
    ]
}

#[cfg(test)]
mod tests {
    use super::*;

    #[test]
    fn no_loss() {
        let half = Pair::entry(5, -1);
        assert_eq!(g_and_h(Pair::ZERO), (Pair::ONE, half));
        assert_eq!(g(Pair::ZERO), Pair::ONE);
    }

    /// g and h about 64, by the series and above: 1 / x and (1 − 1 / x) / x, but for some 1E-28.
    #[test]
    fn either_side_of_64() {
        let held = |p: Pair, exact: Pair| {
            let width = Pair::entry(100_007, -5);
            assert!(p.low.at_most(exact.low) && exact.high.at_most(p.high), "{p:?}");
            assert!(p.high.at_most((p * width).low), "{p:?}");
        };
        let (at, above) = (Pair::entry(64, 0), Pair::entry(640_000_001, -7));
        assert!(has_series(at) && !has_series(above));
        // The high end decides.
        assert!(!has_series(Pair { low: at.low, high: above.high }));
        assert!(has_series(Pair { low: Working::entry(639_999_999, -7), high: at.high }));
        let (g_at, h_at) = g_and_h(at);
        held(g_at, Pair::entry(15_625, -6));
        held(h_at, Pair::entry(15_380_859_375, -12));
        // 1 / 64.0000001 is 0.01562499997558.., (1 − that) / 64.0000001 is 0.01538085935109..
        let (g_above, h_above) = g_and_h(above);
        held(g_above, Pair::entry(156_249_999_755, -13));
        held(h_above, Pair::entry(153_808_593_509, -13));
        assert_eq!((g(at), g(above)), (g_at, g_above));
    }

    /// x with 1E-25 added is one unit higher at its high end; all else follows by hand.
    #[test]
    fn fast_loss() {
        let ends = |low: (u32, i32), high: (u32, i32)| Pair {
            low: Working { m: low.0, e: low.1 },
            high: Working { m: high.0, e: high.1 },
        };
        // 1 / 100.000001 is 0.00999999990.., 1 − 0.0099999999 is 0.9900000001.
        let hundred = g_and_h(Pair::entry(100, 0));
        assert_eq!(hundred.0, ends((999_999_990, -11), (100_000_000, -10)));
        assert_eq!(hundred.1, ends((990_000_000, -11), (990_000_001, -11)));
        // ksg and tD both 1E+9: what 1 − g leaves of 1 is less than a unit.
        let far = g_and_h(Pair::entry(1, 18));
        assert_eq!(far.0, ends((999_999_990, -27), (100_000_000, -26)));
        assert_eq!(far.1, ends((999_999_999, -27), (100_000_000, -26)));
        // Some of the largest x that fields come to, by erosion.
        let farthest = g_and_h(Pair::entry(1, 75));
        assert_eq!(farthest.0, ends((999_999_990, -84), (100_000_000, -83)));
        assert_eq!(farthest.1, ends((999_999_999, -84), (100_000_000, -83)));
        for x in [Pair::entry(100, 0), Pair::entry(1, 18), Pair::entry(1, 75)] {
            assert_eq!(g(x), g_and_h(x).0);
        }
    }

    /// A site with this tD, each other value 1.
    fn site(td: (u64, i32)) -> Site {
        let mut value = [Pair::ONE; 11];
        value[crate::deck::TD] = Pair::entry(td.0, td.1);
        Site::new(&value, Years::printed(td))
    }

    #[test]
    fn exposures_go_by_the_printed_digits() {
        let exposed = |td, t2: (u64, i32)| site(td).exposure(&stage(t2, Pair::ONE));
        let beyond = |t2: Pair, rest: Pair| Exposure::Beyond { t2, rest };
        assert_eq!(exposed((30, 0), (30_000_000_000, -9)), Exposure::Within);
        assert_eq!(exposed((30_000_000_000, -9), (3, 1)), Exposure::Within);
        assert_eq!(exposed((30_000_000_001, -9), (3, 1)), Exposure::Within);
        let above = Pair::entry(30_000_000_001, -9);
        assert_eq!(exposed((30, 0), (30_000_000_001, -9)), beyond(above, Pair::entry(1, -9)));
        // Both in the same pair.
        assert_eq!(exposed((30_000_000_001, -9), (30_000_000_004, -9)), beyond(above, Pair::entry(3, -9)));
        assert_eq!(exposed((1, -20), (1, 9)), beyond(Pair::entry(1, 9), Pair::entry(999_999_999_999, -3)));
    }

    /// Years that add to more than tD by the last digit of one: their pairs' sum would not tell.
    #[test]
    fn a_composites_t2_is_added_as_printed() {
        let stages = |last| [(10, 0), (5, 0), last].map(|years| stage(years, Pair::ONE));
        let exposed = |last| site((30, 0)).exposure(&composite(&stages(last)));
        assert_eq!(exposed((15, 0)), Exposure::Within);
        assert_eq!(exposed((14_999_999_999, -9)), Exposure::Within);
        let t2 = Pair::entry(30_000_000_001, -9);
        assert_eq!(exposed((15_000_000_001, -9)), Exposure::Beyond { t2, rest: Pair::entry(1, -9) });
        // ED is the sum of pairs, T2 that of the years: rounded once, whatever the order.
        let crumb = stage((6, -9), Pair::ONE);
        let person = composite(&[stage((1, 0), Pair::ONE), crumb, crumb]);
        let last = |m: u32| Working { m, e: -8 };
        assert_eq!(person.value[ED], Pair { low: last(100_000_000), high: last(100_000_002) });
        assert_eq!(person.years, Pair { low: last(100_000_001), high: last(100_000_002) });
    }

    /// 0.5 × 180 × 30 = 2700 days: of 365 × 30 they are 0.246575342.., of 25550 0.105675146.. Nothing of the body counts.
    #[test]
    fn shares_of_time() {
        let e = Pair::entry;
        let ends = |m: u32, e: i32| Pair { low: Working { m, e }, high: Working { m: m + 1, e } };
        let mut receptor = stage((1, 0), e(7, 0));
        for (at, v) in [(ED, e(30, 0)), (ATC, e(25_550, 0)), (4, e(5, -1)), (5, e(180, 0))] {
            receptor.value[at] = v;
        }
        let (hazard, cancer) = (TimeShare(ends(246_575_342, -9)), TimeShare(ends(105_675_146, -9)));
        assert_eq!(Body::new(&receptor, Guidance::Of2009).inhaled, Inhaled::Time { hazard, cancer });
        assert_eq!(Body::new(&receptor, Guidance::Of2005).inhaled, Inhaled::Dose);
        // In 0.002 mg/m³: 0.000493150684 to 0.000493150686, by 0.001; and 2.11350292E-4 to 2.11350294E-4, a thousandfold and
        // by 3 per µg/m³. Each is a working number.
        let two = |low: u32, high: u32, e: i32| Pair { low: Working { m: low, e }, high: Working { m: high, e } };
        let air = e(2, -3);
        assert_eq!(hazard.in_air(air), AirOverTime(two(493_150_684, 493_150_686, -12)));
        assert_eq!(hazard.in_air(air).quotient(e(1, -3)), two(493_150_684, 493_150_686, -9));
        assert_eq!(cancer.in_air(air), AirOverTime(two(211_350_292, 211_350_294, -12)));
        assert_eq!(cancer.in_air(air).risk(e(3, 0)), two(634_050_876, 634_050_882, -9));
    }

    #[test]
    fn averaging_time_is_not_rounded_to_days() {
        assert_eq!(averaging_time(Pair::entry(45, -1)), Pair::entry(16_425, -1));
    }

    fn stage(years: (u64, i32), value: Pair) -> Receptor {
        Receptor { id: 7, value: [value; 21], years: Pair::entry(years.0, years.1), exact_years: Years::printed(years) }
    }

    /// Document 002's body weights and years; it divides by 75, though the years add to 76.
    #[test]
    fn five_stages_of_002() {
        let e = Pair::entry;
        let stages = [(5, 82), (45, 165), (70, 329), (80, 597), (560, 707)].map(|(y, bw)| stage((y, -1), e(bw, -1)));
        let person = composite(&stages);
        assert_eq!((person.id, person.years), (7, e(76, 0)));
        // 4745.45 / 76 = 62.44013157..
        let weight = Pair { low: Working { m: 624_401_315, e: -7 }, high: Working { m: 624_401_316, e: -7 } };
        for (at, value) in person.value.into_iter().enumerate() {
            let want = match at {
                ED => e(76, 0),
                ATC => e(27_740, 0),
                _ => weight,
            };
            assert_eq!(value, want, "{at}");
        }
    }

    #[test]
    fn a_composite_rounds_in_deck_order() {
        let ends = |low: u32, high: u32| Pair { low: Working { m: low, e: -8 }, high: Working { m: high, e: -8 } };
        // Two crumbs after 1 are rounded one by one; before it they are added first.
        let crumb = stage((6, -9), Pair::ONE);
        let year = stage((1, 0), Pair::ONE);
        let late = composite(&[year, crumb, crumb]).value;
        assert_eq!(late[ED], ends(100_000_000, 100_000_002));
        let early = composite(&[crumb, crumb, year]).value;
        assert_eq!(early[ED], ends(100_000_001, 100_000_002));
        // A share of 1 throughout may come to more than 1, and to less: no range holds it.
        assert_eq!(late[0], Pair { low: Working { m: 999_999_980, e: -9 }, high: Working { m: 100_000_002, e: -8 } });
        // The years times 0 are 0.
        assert_eq!(composite(&[stage((1, -20), Pair::ZERO), stage((1, 9), Pair::ZERO)]).value[0], Pair::ZERO);
    }

    #[test]
    fn winter_factor_of_002() {
        let e = Pair::entry;
        let f =
            e(25, 0) * e(1, 0) * e(61, -2) * e(1, 0) * e(151, 0) * e(75, 0) * MILLIONTH / (e(633, -1) * e(27_375, 0));
        assert_eq!(f.low, Working { m: 996_667_315, e: -16 });
        assert_eq!(f.high, Working { m: 996_667_316, e: -16 });
    }
}
