//! Both sides on one input: what they answer where they agree, else what differs.

use second::book::Book as PlainBook;
use second::record::{Line, System};
use second::refusal::Refusal;
use second::year::YearFigures;

use crate::book::{record, Record, LN, RECORD_BYTES};
use crate::cabinet::{self, BOOK_BYTES};
use crate::digest;
use crate::driver::{Changed, Delivered, Delivery, Driver, Patterns, Told, HOURS_OF_A_PATTERN};
use crate::feet::{FeetHours, LEAST_TEMPERATURE, MOST_FEET, MOST_PRESSURE};
use crate::hours::{Hours, NO_CONTENT};
use crate::slots::Slots;

/// What differs, and an input that shows it to the programs.
pub struct Difference {
    pub what: String,
    pub input: Vec<u8>,
}

/// The memory that bench/driver.c lends: what it holds before, and how much is
/// around a book and in all.
const UNTOUCHED: u8 = 0xa5;
const AROUND_A_BOOK: usize = BOOK_BYTES + 2 * RECORD_BYTES;
const LENT_BYTES: usize = 2 * AROUND_A_BOOK;

/// The proved library by its driver; the second program's book, and the bytes
/// that the proved one should then have.
pub struct Sides<'a> {
    driver: Driver,
    slots: &'a Slots,
    plain: Box<PlainBook>,
    lent: Vec<u8>,
}

impl Sides<'_> {
    pub fn new(driver: Driver, slots: &Slots) -> Sides<'_> {
        Sides {
            driver,
            slots,
            plain: Box::new(PlainBook::empty()),
            lent: vec![UNTOUCHED; AROUND_A_BOOK],
        }
    }

    /// Posts a delivery on both sides, and asks both for its years. The input
    /// of a difference has the records taken before, so that reading gets to it.
    pub fn deliver(&mut self, delivery: &Delivery) -> Result<Delivered, Difference> {
        let mut taken = Vec::new();
        let delivered = self.driver.deliver(delivery).map_err(|what| Difference {
            what,
            input: delivery.pieces.concat(),
        })?;
        self.clear(delivery.offset);
        for (piece, proved) in delivery.pieces.iter().zip(&delivered.records) {
            let plain = self.post(delivery, piece);
            if *proved != plain {
                return Err(Difference {
                    what: format!("posting {piece:02x?}: proved {proved:?}, second {plain:?}"),
                    input: [&taken[..], piece].concat(),
                });
            }
            if plain.posted.number == 0 {
                taken.extend(*piece);
            }
        }
        match self.after(delivery, &delivered) {
            Some(what) => Err(Difference { what, input: taken }),
            None => Ok(delivered),
        }
    }

    fn clear(&mut self, offset: usize) {
        *self.plain = PlainBook::empty();
        self.lent.fill(UNTOUCHED);
        self.lent[offset..offset + BOOK_BYTES].fill(0);
    }

    /// Posts a record to the second program's book, and to the bytes where it is taken.
    fn post(&mut self, delivery: &Delivery, piece: &[u8]) -> Told {
        let (posted, changed) = match self.plain.post(piece) {
            Ok(()) => {
                let slot = self.slots.of(piece);
                let at = delivery.offset + RECORD_BYTES * slot;
                let kept = self.kept(piece);
                self.lent[at..at + RECORD_BYTES].copy_from_slice(&kept);
                (
                    cabinet::Posted {
                        number: 0,
                        place: 0,
                    },
                    Changed {
                        slots: 1,
                        first: slot as u64,
                    },
                )
            }
            Err(refusal) => (
                cabinet::Posted {
                    number: refusal.number().into(),
                    place: refusal.place.into(),
                },
                Changed { slots: 0, first: 0 },
            ),
        };
        Told {
            posted,
            changed: delivery.watched.then_some(changed),
        }
    }

    /// What a record that was taken leaves in its slot: its own bytes, and
    /// those of the LN that it stands for where it is an LD.
    fn kept(&self, piece: &[u8]) -> Vec<u8> {
        if !piece.starts_with(b"LD") {
            return piece.to_vec();
        }
        let number = piece[2];
        let line = self.plain.line(number).expect("the line was taken");
        ln_of(number, &line).to_vec()
    }

    /// What differs after the records: in a year, or in the bytes of the book
    /// and around it.
    fn after(&self, delivery: &Delivery, delivered: &Delivered) -> Option<String> {
        for (&year, proved) in delivery.years.iter().zip(&delivered.years) {
            let plain = year_of(plain_year(&self.plain, year));
            if *proved != plain {
                return Some(format!("year {year}: proved {proved:?}, second {plain:?}"));
            }
        }
        if delivered.digest != digest::of_memory(&self.lent) {
            return Some("the book has other bytes than these records make".to_string());
        }
        None
    }

    /// A meter month on both sides.
    pub fn month(&mut self, hours: &Hours, efficiency: u32) -> Result<cabinet::Month, String> {
        let Hours {
            flows,
            contents,
            states,
            ..
        } = hours;
        let proved = self.driver.month(flows, contents, states, efficiency)?;
        same_month(proved, plain_month(hours, efficiency), efficiency)
    }

    /// A month of a meter in cubic feet on both sides.
    pub fn feet_month(
        &mut self,
        hours: &FeetHours,
        efficiency: u32,
    ) -> Result<cabinet::Month, String> {
        let proved = self
            .driver
            .feet_month(hours.lists(), &hours.states, efficiency)?;
        same_month(proved, plain_feet_month(hours, efficiency), efficiency)
    }

    /// Readings on both sides, as flows and as contents: by their digests, and
    /// one by one where those differ.
    pub fn readings(&mut self, patterns: Patterns) -> Result<(), String> {
        let mut digest = 0u64;
        for pattern in patterns.each() {
            for (place, reading) in (2 * u64::from(pattern)..).zip(plain_reading(pattern)) {
                let word = 2 * reading.whole + u64::from(reading.taken);
                digest = digest.wrapping_add(digest::mixed(place, word));
            }
        }
        if self.driver.readings(patterns)? == digest {
            return Ok(());
        }
        let each = self.driver.each_reading(patterns)?;
        for (pattern, proved) in patterns.each().zip(each) {
            let plain = plain_reading(pattern);
            if proved != plain {
                return Err(format!(
                    "pattern {pattern:#010x} as flow and content: proved {proved:?}, second {plain:?}"
                ));
            }
        }
        Err(only_digests_differ(patterns))
    }

    /// Hours in cubic feet on both sides, in which the patterns are tried: by
    /// their digests, and one by one where those differ.
    pub fn feet_hours(&mut self, patterns: Patterns) -> Result<(), String> {
        let mut digest = 0u64;
        for pattern in patterns.each() {
            let places = HOURS_OF_A_PATTERN as u64 * u64::from(pattern)..;
            for (place, hour) in places.zip(plain_feet_hours(pattern)) {
                digest = digest.wrapping_add(digest::mixed(place, word_of(hour)));
            }
        }
        if self.driver.feet_hours(patterns)? == digest {
            return Ok(());
        }
        let each = self.driver.each_feet_hour(patterns)?;
        for (pattern, proved) in patterns.each().zip(each) {
            let plain = plain_feet_hours(pattern);
            if proved != plain {
                return Err(format!(
                    "pattern {pattern:#010x} as flow, temperature and pressure in cubic feet: proved {proved:?}, second {plain:?}"
                ));
            }
        }
        Err(only_digests_differ(patterns))
    }

    /// Memory of any size, of which only a book's is made one.
    pub fn empty(&mut self, offset: usize, bytes: usize) -> Result<(), String> {
        let mut lent = vec![UNTOUCHED; LENT_BYTES];
        let is_a_book = bytes == BOOK_BYTES;
        if is_a_book {
            lent[offset..offset + bytes].fill(0);
        }
        let (emptied, digest) = self.driver.empty(offset, bytes)?;
        if emptied == is_a_book && digest == digest::of_memory(&lent) {
            Ok(())
        } else {
            Err(format!(
                "{bytes} bytes at offset {offset}: said to be made a book: {emptied}; or other bytes were written"
            ))
        }
    }
}

fn same_month(
    proved: cabinet::Month,
    plain: cabinet::Month,
    efficiency: u32,
) -> Result<cabinet::Month, String> {
    if proved == plain {
        Ok(proved)
    } else {
        Err(format!(
            "efficiency {efficiency}: proved {proved:?}, second {plain:?}"
        ))
    }
}

fn only_digests_differ(patterns: Patterns) -> String {
    format!(
        "the digests of {} patterns from {:#010x} on differ, and no pattern does",
        patterns.count, patterns.first
    )
}

fn ln_of(number: u8, line: &Line) -> Record {
    let (system, conversion) = match line.system {
        System::Anaerobic => (0, 0),
        System::Other { conversion_factor } => (1, conversion_factor),
    };
    let values = [
        number.into(),
        system,
        line.category.into(),
        line.table_solids.into(),
        line.mass.into(),
        line.share.into(),
        line.b0.into(),
        conversion.into(),
    ];
    record(LN, &values)
}

/// The second program takes 32 bits: a year past those is no year of the ten either.
fn plain_year(book: &PlainBook, year: u64) -> Result<YearFigures, Refusal> {
    second::year::year(book, year.try_into().unwrap_or(u32::MAX))
}

fn year_of(answer: Result<YearFigures, Refusal>) -> cabinet::Year {
    let nothing = cabinet::Year {
        number: 0,
        place: 0,
        entered: 0,
        degraded: 0,
        removed: 0,
        carried: 0,
        baseline: 0,
        project_methane: 0,
        metered: 0,
        net: 0,
        credited: 0,
    };
    match answer {
        Ok(figures) => cabinet::Year {
            entered: figures.solids.entered,
            degraded: figures.solids.degraded,
            removed: figures.solids.removed,
            carried: figures.solids.carried,
            baseline: figures.baseline,
            project_methane: figures.project_methane,
            metered: figures.metered,
            net: figures.net.try_into().expect("a net within 64 bits"),
            credited: figures
                .credited
                .try_into()
                .expect("a credit within 64 bits"),
            ..nothing
        },
        Err(refusal) => cabinet::Year {
            number: refusal.number().into(),
            place: refusal.place.into(),
            ..nothing
        },
    }
}

/// The second program takes 16 bits: an efficiency past those is above 10,000 too.
fn plain_month(hours: &Hours, efficiency: u32) -> cabinet::Month {
    let efficiency = efficiency.try_into().unwrap_or(u16::MAX);
    month_told(second::meter::month(
        &hours.flows,
        &hours.contents,
        &hours.states,
        efficiency,
    ))
}

fn plain_feet_month(hours: &FeetHours, efficiency: u32) -> cabinet::Month {
    let efficiency = efficiency.try_into().unwrap_or(u16::MAX);
    let [flows, contents, temperatures, pressures] = hours.lists();
    month_told(second::feet::month(
        flows,
        contents,
        temperatures,
        pressures,
        &hours.states,
        efficiency,
    ))
}

fn month_told(answer: Result<u64, Refusal>) -> cabinet::Month {
    match answer {
        Ok(destroyed) => cabinet::Month {
            number: 0,
            place: 0,
            destroyed,
        },
        Err(refusal) => cabinet::Month {
            number: refusal.number().into(),
            place: refusal.place.into(),
            destroyed: 0,
        },
    }
}

/// A pattern as a flow and as a content.
fn plain_reading(pattern: u32) -> [cabinet::Reading; 2] {
    let value = f32::from_bits(pattern);
    let wholes = [
        second::reading::litres(value),
        second::reading::hundredths(value),
    ];
    wholes.map(|whole| cabinet::Reading {
        taken: whole.is_some(),
        whole: whole.unwrap_or(0).into(),
    })
}

/// The hours in which bench/driver.c tries a pattern.
fn plain_feet_hours(pattern: u32) -> [cabinet::FeetHour; HOURS_OF_A_PATTERN] {
    let value = f32::from_bits(pattern);
    let (flow, temperature, pressure) = (MOST_FEET, LEAST_TEMPERATURE, MOST_PRESSURE);
    let hours = [
        second::feet::hour(value, value, temperature, pressure, NO_CONTENT),
        second::feet::hour(flow, value, value, pressure, NO_CONTENT),
        second::feet::hour(flow, value, temperature, value, NO_CONTENT),
    ];
    hours.map(|hour| {
        let flow = hour.and_then(|hour| hour.flow);
        let content = hour.and_then(|hour| hour.content);
        cabinet::FeetHour {
            taken: hour.is_some(),
            has_flow: flow.is_some(),
            has_content: content.is_some(),
            flow: flow.unwrap_or(0).into(),
            content: content.unwrap_or(0).into(),
        }
    })
}

/// An hour in one number, as bench/driver.c makes it.
fn word_of(hour: cabinet::FeetHour) -> u64 {
    u64::from(hour.taken)
        + 2 * u64::from(hour.has_flow)
        + 4 * u64::from(hour.has_content)
        + 8 * hour.flow
        + (hour.content << 40)
}
