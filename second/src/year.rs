//! The year's credit: Equation 5.1 with the metered comparison of 5.10.

use std::fmt;

use crate::book::Book;
use crate::lagoon::{self, Solids};
use crate::needed::{Needed, YearMonths};
use crate::record::{Line, ProjectMonth, System, CATEGORIES, DEVICES};
use crate::refusal::{Reason, Refusal};

const METHANE_POTENTIAL: u128 = 21;
const GRAMS_PER_KILOGRAM: u128 = 1_000;
const GRAMS_PER_TONNE: i128 = 1_000_000;
const WHOLE_SHARE: u32 = 10_000;

/// All figures of one year. Displayed as the four lines of the year program.
#[derive(Clone, Copy, Debug, PartialEq, Eq)]
pub struct YearFigures {
    pub number: u32,
    /// Over the anaerobic lines, for the year.
    pub solids: Solids,
    /// The remaining figures up to `total` are in grams CO2e.
    pub baseline: u64,
    pub project_methane: u64,
    pub metered: u64,
    /// Baseline less project methane.
    pub modelled: i128,
    /// The lesser of modelled and metered.
    pub methane_reduction: i128,
    pub baseline_co2: u64,
    pub project_co2: u64,
    pub total: i128,
    /// Tonnes.
    pub net: i128,
    /// Tonnes.
    pub credited: u128,
}

/// Year `number` of the book, or its refusal: 9, 8, 7 and 12, in this order.
pub fn year(book: &Book, number: u32) -> Result<YearFigures, Refusal> {
    let months = YearMonths::of(number)?;
    let needed = Needed::gather(book, months)?;
    check_shares(book)?;

    let (solids, baseline) = all_lines(book, &needed);
    let solids = solids.bounded()?;
    let baseline = bounded(baseline)?;
    let project_methane = bounded(project_grams(&needed, |month| month.project_methane))?;
    let baseline_co2 = bounded(project_grams(&needed, |month| month.baseline_co2))?;
    let project_co2 = bounded(project_grams(&needed, |month| month.project_co2))?;
    let metered = bounded(METHANE_POTENTIAL * destroyed_grams(book, months))?;

    let modelled = i128::from(baseline) - i128::from(project_methane);
    let methane_reduction = modelled.min(metered.into());
    let total = methane_reduction + i128::from(baseline_co2) - i128::from(project_co2);
    bounded(total.unsigned_abs())?;
    let net = nearest_tonnes(total);
    Ok(YearFigures {
        number,
        solids,
        baseline,
        project_methane,
        metered,
        modelled,
        methane_reduction,
        baseline_co2,
        project_co2,
        total,
        net,
        credited: net.max(0).unsigned_abs(),
    })
}

/// The anaerobic lines' solids, and every line's grams CO2e.
fn all_lines(book: &Book, needed: &Needed) -> (SolidSums, u128) {
    let mut solids = SolidSums::default();
    let mut baseline = 0;
    for (line_number, line) in book.lines() {
        let methane_source = match line.system {
            System::Anaerobic => {
                let line_solids = anaerobic_year(book, needed, line_number, line);
                solids.add(line_solids);
                line_solids.degraded.into()
            }
            System::Other { conversion_factor } => {
                other_year(line, conversion_factor, needed.year_heads(line.category))
            }
        };
        baseline += emissions(methane_source, line.b0);
    }
    (solids, baseline)
}

/// Grams CO2e of grams of solids degraded or converted: the B0 rule, in which
/// 1428 is 0.68 x 21 in hundredths.
pub fn emissions(solids: u128, b0: u8) -> u128 {
    solids * u128::from(b0) * 1428 / 10_000
}

/// Total grams to tonnes, the nearest; an exact half goes to the lower number.
pub fn nearest_tonnes(grams: i128) -> i128 {
    (grams + GRAMS_PER_TONNE / 2 - 1).div_euclid(GRAMS_PER_TONNE)
}

/// Equation 5.3 from month 1, each month with its own year's heads: of the years
/// before the one asked for the carry counts, and no other sum.
fn anaerobic_year(book: &Book, needed: &Needed, line_number: u8, line: &Line) -> Solids {
    let mut sums = Solids::default();
    for (year_heads, months) in needed.years(line.category) {
        sums = Solids {
            carried: sums.carried,
            ..Solids::default()
        };
        for month in months {
            let entered = lagoon::entered(line, year_heads, month.days);
            let drained = book.drain(line_number, month.number).is_some();
            let solids = lagoon::month(sums.carried, entered, month.factor, drained);
            sums.entered += solids.entered;
            sums.degraded += solids.degraded;
            sums.removed += solids.removed;
            sums.carried = solids.carried;
        }
    }
    sums
}

/// Equation 5.4 up to the conversion factor, in grams of solids; 365 days in
/// leap years too.
fn other_year(line: &Line, conversion_factor: u16, year_heads: u32) -> u128 {
    let grams_a_day = u128::from(year_heads)
        * u128::from(line.table_solids)
        * u128::from(line.mass)
        * u128::from(line.share)
        / 120_000_000;
    grams_a_day * 365 * u128::from(conversion_factor) / 10_000
}

/// The year's sum of one figure of PE, whose kilograms count 1,000 each.
fn project_grams(needed: &Needed, kilograms: fn(&ProjectMonth) -> u32) -> u128 {
    let sum: u128 = needed
        .projects
        .iter()
        .map(|month| u128::from(kilograms(month)))
        .sum();
    sum * GRAMS_PER_KILOGRAM
}

/// A device without MT counts 0.
fn destroyed_grams(book: &Book, months: YearMonths) -> u128 {
    let mut grams = 0;
    for device in 1..=DEVICES as u8 {
        for month in months.first..=months.last {
            grams += u128::from(book.destroyed(device, month).unwrap_or(0));
        }
    }
    grams
}

/// Refusal 7, over the lines of both systems.
fn check_shares(book: &Book) -> Result<(), Refusal> {
    let mut sums = [0; CATEGORIES];
    for (_, line) in book.lines() {
        sums[usize::from(line.category) - 1] += u32::from(line.share);
    }
    match (1..).zip(sums).find(|(_, sum)| *sum > WHOLE_SHARE) {
        Some((category, _)) => Err(Refusal::at(Reason::SharesAboveWhole, category)),
        None => Ok(()),
    }
}

/// Refusal 12. No book reaches it: 16 whole categories of 100,000 head at
/// every highest value stay below 3 x 10^15 grams CO2e.
fn bounded(sum: u128) -> Result<u64, Refusal> {
    match u64::try_from(sum) {
        Ok(sum) if sum <= 1 << 63 => Ok(sum),
        _ => Err(Refusal::of(Reason::SumTooLarge)),
    }
}

/// Solids over the lines, wide until they are known to be bounded.
#[derive(Default)]
struct SolidSums {
    entered: u128,
    degraded: u128,
    removed: u128,
    carried: u128,
}

impl SolidSums {
    fn add(&mut self, line: Solids) {
        self.entered += u128::from(line.entered);
        self.degraded += u128::from(line.degraded);
        self.removed += u128::from(line.removed);
        self.carried += u128::from(line.carried);
    }

    fn bounded(&self) -> Result<Solids, Refusal> {
        Ok(Solids {
            entered: bounded(self.entered)?,
            degraded: bounded(self.degraded)?,
            removed: bounded(self.removed)?,
            carried: bounded(self.carried)?,
        })
    }
}

impl fmt::Display for YearFigures {
    fn fmt(&self, f: &mut fmt::Formatter<'_>) -> fmt::Result {
        let Solids {
            entered,
            degraded,
            removed,
            carried,
        } = self.solids;
        writeln!(f, "year {}", self.number)?;
        writeln!(
            f,
            "entered {entered} degraded {degraded} removed {removed} carried {carried}"
        )?;
        writeln!(
            f,
            "baseline {} project {} metered {}",
            self.baseline, self.project_methane, self.metered
        )?;
        write!(f, "net {} credited {}", self.net, self.credited)
    }
}

#[cfg(test)]
mod tests {
    use super::*;

    #[test]
    fn a_sum_is_refused_only_past_2_to_the_63() {
        assert_eq!(bounded(1 << 63), Ok(1 << 63));
        assert_eq!(
            bounded((1 << 63) + 1),
            Err(Refusal::of(Reason::SumTooLarge))
        );
        assert_eq!(bounded(1 << 64), Err(Refusal::of(Reason::SumTooLarge)));
    }
}
