//! The records of papers 01 and 02: 16 bytes, a mark and its fields.

use std::ops::RangeInclusive;

use crate::livestock::Livestock;
use crate::refusal::{Reason, Refusal};

pub const RECORD_BYTES: usize = 16;
pub const LINES: usize = 32;
pub const CATEGORIES: usize = 16;
pub const DEVICES: usize = 4;
/// The protocol's ten-year crediting period.
pub const MONTHS: usize = 120;
pub const YEARS: usize = MONTHS / 12;

/// YR: the month that the book's months count from.
#[derive(Clone, Copy, Debug, PartialEq, Eq)]
pub struct FirstMonth {
    pub year: u16,
    pub month: u8,
}

#[derive(Clone, Copy, Debug, PartialEq, Eq)]
pub enum System {
    Anaerobic,
    /// Any other system, with its conversion factor in ten-thousandths.
    Other {
        conversion_factor: u16,
    },
}

/// LN, or the LN that an LD stands for: one category's manure in one system.
#[derive(Clone, Copy, Debug, PartialEq, Eq)]
pub struct Line {
    pub system: System,
    pub category: u8,
    /// Hundredths of kg/day/1000 kg.
    pub table_solids: u16,
    /// Tenths of kg.
    pub mass: u16,
    /// Ten-thousandths of the category's manure.
    pub share: u16,
    /// Hundredths of cubic metres of methane per kg of solids.
    pub b0: u8,
}

/// PE: one month's figures from the operator, in kg CO2e.
#[derive(Clone, Copy, Debug, Default, PartialEq, Eq)]
pub struct ProjectMonth {
    pub project_methane: u32,
    pub baseline_co2: u32,
    pub project_co2: u32,
}

/// A record that is right in itself; whether its slot is free is the book's
/// to say.
#[derive(Clone, Copy, Debug, PartialEq, Eq)]
pub enum Record {
    First(FirstMonth),
    Line { line: u8, fields: Line },
    Head { category: u8, month: u8, head: u32 },
    Temperature { month: u8, tenths: i16 },
    Drain { line: u8, month: u8 },
    Project { month: u8, figures: ProjectMonth },
    Destroyed { month: u8, device: u8, grams: u64 },
}

const LINE: RangeInclusive<u8> = 1..=LINES as u8;
const CATEGORY: RangeInclusive<u8> = 1..=CATEGORIES as u8;
const MONTH: RangeInclusive<u8> = 1..=MONTHS as u8;
const DEVICE: RangeInclusive<u8> = 1..=DEVICES as u8;

impl Record {
    /// Checks 1, 2, 3 and 4 of a posting, in this order.
    pub fn read(bytes: &[u8]) -> Result<Record, Refusal> {
        let bytes: &[u8; RECORD_BYTES] = bytes
            .try_into()
            .map_err(|_| Refusal::of(Reason::NotSixteenBytes))?;
        let fields = Fields(bytes);
        match &bytes[..2] {
            b"YR" => fields.first_month(),
            b"LN" => fields.line(),
            b"HD" => fields.head(),
            b"TP" => fields.temperature(),
            b"DR" => fields.drain(),
            b"PE" => fields.project(),
            b"MT" => fields.destroyed(),
            b"LD" => fields.line_by_livestock(),
            _ => Err(Refusal::of(Reason::UnknownMark)),
        }
    }
}

/// The bytes of one record. In each reader the zero bytes come before any
/// field (3 before 4), and fields go by rising offset, so that the place is
/// that of the first one out of range.
struct Fields<'a>(&'a [u8; RECORD_BYTES]);

impl Fields<'_> {
    fn first_month(&self) -> Result<Record, Refusal> {
        self.zero(5..=15)?;
        Ok(Record::First(FirstMonth {
            year: in_range(self.u16(2), 2000..=2089, 2)?,
            month: in_range(self.u8(4), 1..=12, 4)?,
        }))
    }

    fn line(&self) -> Result<Record, Refusal> {
        self.zero(5..=5)?;
        self.zero(13..=13)?;
        let (line, anaerobic, category) = self.line_system_category()?;
        let table_solids = in_range(self.u16(6), 0..=2_000, 6)?;
        let mass = in_range(self.u16(8), 0..=20_000, 8)?;
        let share = self.share(10)?;
        let b0 = in_range(self.u8(12), 0..=100, 12)?;
        let system = self.system(anaerobic, 14)?;
        Ok(Record::Line {
            line,
            fields: Line {
                system,
                category,
                table_solids,
                mass,
                share,
                b0,
            },
        })
    }

    /// LD: the LN with the protocol's values, and nothing else from then on
    /// (paper 02, (i)).
    fn line_by_livestock(&self) -> Result<Record, Refusal> {
        self.zero(7..=7)?;
        self.zero(12..=15)?;
        let (line, anaerobic, category) = self.line_system_category()?;
        let livestock = in_table(Livestock::of_row(self.u8(5)), 5)?;
        let table_solids = in_table(livestock.table_solids(self.u8(6)), 6)?;
        let share = self.share(8)?;
        let system = self.system(anaerobic, 10)?;
        Ok(Record::Line {
            line,
            fields: Line {
                system,
                category,
                table_solids,
                mass: livestock.mass,
                share,
                b0: livestock.b0,
            },
        })
    }

    /// What LN and LD start with: the line, whether its system is anaerobic,
    /// and the category.
    fn line_system_category(&self) -> Result<(u8, bool, u8), Refusal> {
        let line = in_range(self.u8(2), LINE, 2)?;
        let anaerobic = in_range(self.u8(3), 0..=1, 3)? == 0;
        let category = in_range(self.u8(4), CATEGORY, 4)?;
        Ok((line, anaerobic, category))
    }

    fn share(&self, offset: u16) -> Result<u16, Refusal> {
        in_range(self.u16(offset.into()), 0..=10_000, offset)
    }

    /// The system with its conversion factor, which may only be 0 where the
    /// system is anaerobic.
    fn system(&self, anaerobic: bool, offset: u16) -> Result<System, Refusal> {
        let most = if anaerobic { 0 } else { 10_000 };
        let conversion_factor = in_range(self.u16(offset.into()), 0..=most, offset)?;
        Ok(if anaerobic {
            System::Anaerobic
        } else {
            System::Other { conversion_factor }
        })
    }

    fn head(&self) -> Result<Record, Refusal> {
        self.zero(8..=15)?;
        Ok(Record::Head {
            category: in_range(self.u8(2), CATEGORY, 2)?,
            month: in_range(self.u8(3), MONTH, 3)?,
            head: in_range(self.u32(4), 0..=100_000, 4)?,
        })
    }

    fn temperature(&self) -> Result<Record, Refusal> {
        self.zero(3..=3)?;
        self.zero(6..=15)?;
        Ok(Record::Temperature {
            month: in_range(self.u8(2), MONTH, 2)?,
            tenths: in_range(self.u16(4) as i16, -500..=600, 4)?,
        })
    }

    fn drain(&self) -> Result<Record, Refusal> {
        self.zero(4..=15)?;
        Ok(Record::Drain {
            line: in_range(self.u8(2), LINE, 2)?,
            month: in_range(self.u8(3), MONTH, 3)?,
        })
    }

    fn project(&self) -> Result<Record, Refusal> {
        self.zero(3..=3)?;
        Ok(Record::Project {
            month: in_range(self.u8(2), MONTH, 2)?,
            figures: ProjectMonth {
                project_methane: self.u32(4),
                baseline_co2: self.u32(8),
                project_co2: self.u32(12),
            },
        })
    }

    fn destroyed(&self) -> Result<Record, Refusal> {
        self.zero(12..=15)?;
        Ok(Record::Destroyed {
            month: in_range(self.u8(2), MONTH, 2)?,
            device: in_range(self.u8(3), DEVICE, 3)?,
            grams: in_range(self.u64(4), 0..=1_000_000_000_000, 4)?,
        })
    }

    fn zero(&self, offsets: RangeInclusive<usize>) -> Result<(), Refusal> {
        for offset in offsets {
            if self.0[offset] != 0 {
                return Err(Refusal::at(Reason::ZeroByteNotZero, offset as u16));
            }
        }
        Ok(())
    }

    fn bytes<const N: usize>(&self, offset: usize) -> [u8; N] {
        std::array::from_fn(|i| self.0[offset + i])
    }

    fn u8(&self, offset: usize) -> u8 {
        self.0[offset]
    }

    fn u16(&self, offset: usize) -> u16 {
        u16::from_le_bytes(self.bytes(offset))
    }

    fn u32(&self, offset: usize) -> u32 {
        u32::from_le_bytes(self.bytes(offset))
    }

    fn u64(&self, offset: usize) -> u64 {
        u64::from_le_bytes(self.bytes(offset))
    }
}

fn in_range<T: PartialOrd>(value: T, range: RangeInclusive<T>, offset: u16) -> Result<T, Refusal> {
    if range.contains(&value) {
        Ok(value)
    } else {
        Err(Refusal::at(Reason::OutsideRange, offset))
    }
}

fn in_table<T>(found: Option<T>, offset: u16) -> Result<T, Refusal> {
    found.ok_or(Refusal::at(Reason::OutsideRange, offset))
}
