//! The book: what postings make from the empty one.

use crate::record::{FirstMonth, Line, ProjectMonth, Record, CATEGORIES, DEVICES, LINES, MONTHS};
use crate::refusal::{Reason, Refusal};

/// One slot per key. A slot never filled is `None`; a head or a temperature
/// of 0 is a value.
#[derive(Clone, Debug, PartialEq, Eq)]
pub struct Book {
    first: Option<FirstMonth>,
    lines: [Option<Line>; LINES],
    heads: [[Option<u32>; MONTHS]; CATEGORIES],
    temperatures: [Option<i16>; MONTHS],
    drains: [[Option<()>; MONTHS]; LINES],
    projects: [Option<ProjectMonth>; MONTHS],
    destroyed: [[Option<u64>; MONTHS]; DEVICES],
}

impl Default for Book {
    fn default() -> Book {
        Book::empty()
    }
}

impl Book {
    pub const fn empty() -> Book {
        Book {
            first: None,
            lines: [None; LINES],
            heads: [[None; MONTHS]; CATEGORIES],
            temperatures: [None; MONTHS],
            drains: [[None; MONTHS]; LINES],
            projects: [None; MONTHS],
            destroyed: [[None; MONTHS]; DEVICES],
        }
    }

    /// Posts one record. A refusal leaves the book as it was; a record taken
    /// fills its own slot and changes no other.
    pub fn post(&mut self, bytes: &[u8]) -> Result<(), Refusal> {
        match Record::read(bytes)? {
            Record::First(first) => fill(&mut self.first, first),
            Record::Line { line, fields } => fill(&mut self.lines[index(line)], fields),
            Record::Head {
                category,
                month,
                head,
            } => fill(&mut self.heads[index(category)][index(month)], head),
            Record::Temperature { month, tenths } => {
                fill(&mut self.temperatures[index(month)], tenths)
            }
            Record::Drain { line, month } => fill(&mut self.drains[index(line)][index(month)], ()),
            Record::Project { month, figures } => fill(&mut self.projects[index(month)], figures),
            Record::Destroyed {
                month,
                device,
                grams,
            } => fill(&mut self.destroyed[index(device)][index(month)], grams),
        }
    }

    pub fn first_month(&self) -> Option<FirstMonth> {
        self.first
    }

    pub fn line(&self, line: u8) -> Option<Line> {
        *slot(&self.lines, line)?
    }

    /// The lines that have an LN, with their numbers, lowest first.
    pub fn lines(&self) -> impl Iterator<Item = (u8, &Line)> {
        (1..)
            .zip(&self.lines)
            .filter_map(|(number, line)| Some((number, line.as_ref()?)))
    }

    pub fn head(&self, category: u8, month: u8) -> Option<u32> {
        *slot(slot(&self.heads, category)?, month)?
    }

    pub fn temperature(&self, month: u8) -> Option<i16> {
        *slot(&self.temperatures, month)?
    }

    pub fn drain(&self, line: u8, month: u8) -> Option<()> {
        *slot(slot(&self.drains, line)?, month)?
    }

    pub fn project(&self, month: u8) -> Option<ProjectMonth> {
        *slot(&self.projects, month)?
    }

    pub fn destroyed(&self, device: u8, month: u8) -> Option<u64> {
        *slot(slot(&self.destroyed, device)?, month)?
    }
}

fn index(counted_from_1: u8) -> usize {
    usize::from(counted_from_1) - 1
}

fn slot<T>(slots: &[T], counted_from_1: u8) -> Option<&T> {
    slots.get(usize::from(counted_from_1).checked_sub(1)?)
}

fn fill<T>(slot: &mut Option<T>, value: T) -> Result<(), Refusal> {
    if slot.is_some() {
        return Err(Refusal::of(Reason::AlreadyFilled));
    }
    *slot = Some(value);
    Ok(())
}
