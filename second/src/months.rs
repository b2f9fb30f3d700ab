//! The lagoons month by month: for a picture, or to look into a year.

use std::fmt;

use crate::book::Book;
use crate::lagoon::{self, Solids};
use crate::needed::{Needed, YearMonths};
use crate::record::System;
use crate::year::year;

const LAST_YEAR: u32 = 10;

/// One month of one anaerobic line.
#[derive(Clone, Copy, Debug, PartialEq, Eq)]
pub struct LagoonMonth {
    pub month: u8,
    /// Tenths of a degree C.
    pub temperature: i16,
    pub line: u8,
    pub solids: Solids,
}

/// The names of what `LagoonMonth` displays, in its order.
pub const COLUMNS: &str = "month temperature line entered degraded removed carried";

/// All months of the years that the book can state, line by line.
pub fn lagoon_months(book: &Book) -> Vec<LagoonMonth> {
    let stated = (1..=LAST_YEAR).take_while(|&number| year(book, number).is_ok());
    let Some(Ok(months)) = stated.last().map(YearMonths::of) else {
        return Vec::new();
    };
    let Ok(needed) = Needed::gather(book, months) else {
        return Vec::new();
    };
    let anaerobic = book
        .lines()
        .filter(|(_, line)| line.system == System::Anaerobic);
    let mut rows = Vec::new();
    for (line_number, line) in anaerobic {
        let mut carried = 0;
        for (year_heads, months) in needed.years(line.category) {
            for month in months {
                let entered = lagoon::entered(line, year_heads, month.days);
                let drained = book.drain(line_number, month.number).is_some();
                let solids = lagoon::month(carried, entered, month.factor, drained);
                carried = solids.carried;
                rows.push(LagoonMonth {
                    month: month.number,
                    temperature: book.temperature(month.number).unwrap_or_default(),
                    line: line_number,
                    solids,
                });
            }
        }
    }
    rows
}

impl fmt::Display for LagoonMonth {
    fn fmt(&self, f: &mut fmt::Formatter<'_>) -> fmt::Result {
        let LagoonMonth {
            month,
            temperature,
            line,
            solids,
        } = self;
        write!(
            f,
            "{month} {temperature} {line} {} {} {} {}",
            solids.entered, solids.degraded, solids.removed, solids.carried
        )
    }
}
