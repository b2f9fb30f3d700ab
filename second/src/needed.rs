//! The records that a year needs, gathered before any sum is taken.

use crate::book::Book;
use crate::calendar::days_of_month;
use crate::factor::factor;
use crate::record::{FirstMonth, ProjectMonth, CATEGORIES, MONTHS, YEARS};
use crate::refusal::{Reason, Refusal};

/// The months that a year's own figures are taken over.
#[derive(Clone, Copy)]
pub struct YearMonths {
    pub first: u8,
    pub last: u8,
}

impl YearMonths {
    pub fn of(year: u32) -> Result<YearMonths, Refusal> {
        match u8::try_from(year) {
            Ok(year @ 1..=10) => Ok(YearMonths {
                first: 12 * year - 11,
                last: 12 * year,
            }),
            _ => Err(Refusal::of(Reason::NoSuchYear)),
        }
    }

    pub fn contain(self, month: u8) -> bool {
        (self.first..=self.last).contains(&month)
    }
}

/// What a month is for all lines.
#[derive(Clone, Copy, Default)]
pub struct Month {
    pub number: u8,
    pub days: u8,
    pub factor: u32,
}

/// Everything from month 1 to the last month of the year asked for that a
/// missing record could have kept away; entries past that month are not used.
pub struct Needed {
    asked: YearMonths,
    months: [Month; MONTHS],
    /// By category and year, the sum of the year's twelve heads.
    heads: [[u32; YEARS]; CATEGORIES],
    pub projects: [ProjectMonth; 12],
}

impl Needed {
    /// Refusal 8, at the lowest month that lacks a record, or at 0.
    pub fn gather(book: &Book, asked: YearMonths) -> Result<Needed, Refusal> {
        let first_month = book.first_month().ok_or(lacking(0))?;
        let has_line = categories_with_a_line(book);
        if !has_line.contains(&true) {
            return Err(lacking(0));
        }
        let mut needed = Needed {
            asked,
            months: [Month::default(); MONTHS],
            heads: [[0; YEARS]; CATEGORIES],
            projects: [ProjectMonth::default(); 12],
        };
        for month in 1..=asked.last {
            needed
                .gather_month(book, first_month, &has_line, month)
                .ok_or(lacking(month))?;
        }
        Ok(needed)
    }

    fn gather_month(
        &mut self,
        book: &Book,
        first_month: FirstMonth,
        has_line: &[bool; CATEGORIES],
        month: u8,
    ) -> Option<()> {
        let index = usize::from(month) - 1;
        self.months[index] = Month {
            number: month,
            days: days_of_month(first_month, month),
            factor: factor(book.temperature(month)?),
        };
        for (category, _) in (1..).zip(has_line).filter(|(_, has_line)| **has_line) {
            self.heads[usize::from(category) - 1][year_index(month)] +=
                book.head(category, month)?;
        }
        if self.asked.contain(month) {
            self.projects[index % 12] = book.project(month)?;
        }
        Some(())
    }

    /// The years from the first to the one asked for: the sum of the category's
    /// heads in each, and its months.
    pub fn years(&self, category: u8) -> impl Iterator<Item = (u32, &[Month])> {
        let heads = self.heads[usize::from(category) - 1];
        let months = &self.months[..usize::from(self.asked.last)];
        heads.into_iter().zip(months.chunks(12))
    }

    /// The sum of the category's heads in the year asked for.
    pub fn year_heads(&self, category: u8) -> u32 {
        self.heads[usize::from(category) - 1][year_index(self.asked.last)]
    }
}

/// Years are the book's own: the first has months 1 to 12, whatever month of
/// the calendar YR starts with.
fn year_index(month: u8) -> usize {
    usize::from(month - 1) / 12
}

fn lacking(place: u8) -> Refusal {
    Refusal::at(Reason::RecordLacking, place.into())
}

fn categories_with_a_line(book: &Book) -> [bool; CATEGORIES] {
    let mut has_line = [false; CATEGORIES];
    for (_, line) in book.lines() {
        has_line[usize::from(line.category) - 1] = true;
    }
    has_line
}
