//! The Gregorian calendar, counted from the YR record's month.

use crate::record::FirstMonth;

pub const fn is_leap(year: u16) -> bool {
    year.is_multiple_of(4) && (!year.is_multiple_of(100) || year.is_multiple_of(400))
}

pub const fn days_in(year: u16, month: u8) -> u8 {
    match month {
        2 if is_leap(year) => 29,
        2 => 28,
        4 | 6 | 9 | 11 => 30,
        _ => 31,
    }
}

/// The days of month `month`, where month 1 is `first` itself.
pub const fn days_of_month(first: FirstMonth, month: u8) -> u8 {
    let since_january = first.month as u16 + month as u16 - 2;
    days_in(
        first.year + since_january / 12,
        (since_january % 12 + 1) as u8,
    )
}
