//! The lagoon month of Equation 5.3, in whole grams of volatile solids.

use crate::record::Line;

/// One month of one anaerobic line, or sums of such months; `carried` is then
/// what the last of them hands on.
#[derive(Clone, Copy, Debug, Default, PartialEq, Eq)]
pub struct Solids {
    pub entered: u64,
    pub degraded: u64,
    pub removed: u64,
    pub carried: u64,
}

/// What enters a line in a month of `days` days, with the annual average
/// population: the sum of its year's twelve heads, over 12. That division is
/// one with the others, so that nothing is rounded twice (paper 02, (ii)). Box
/// 5.1 turns the table value into solids per animal, and the 8 (of 10) is the
/// protocol's calibration.
pub fn entered(line: &Line, year_heads: u32, days: u8) -> u64 {
    let per_share = u64::from(year_heads) * u64::from(line.table_solids) * u64::from(line.mass);
    let share_days = u64::from(line.share) * u64::from(days) * 8;
    product_over(per_share, share_days, 12 * 100_000_000)
}

/// The month that starts from `carried_in`, with `factor` in millionths.
pub fn month(carried_in: u64, entered: u64, factor: u32, drained: bool) -> Solids {
    let available = carried_in + entered;
    let degraded = product_over(available, u64::from(factor), 1_000_000);
    let left = available - degraded;
    let (removed, carried) = if drained { (left, 0) } else { (0, left) };
    Solids {
        entered,
        degraded,
        removed,
        carried,
    }
}

/// `a x b / divisor` rounded down. What large herds enter passes 64 bits in the
/// product; no quotient does, since `b` is at most `divisor`.
fn product_over(a: u64, b: u64, divisor: u64) -> u64 {
    match a.checked_mul(b) {
        Some(product) => product / divisor,
        None => (u128::from(a) * u128::from(b) / u128::from(divisor)) as u64,
    }
}
