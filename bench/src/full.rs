//! A book in which every slot is filled.

use crate::book::{record, Record, DR, HD, LN, MT, PE, TP, YR};
use crate::book::{CATEGORIES, DEVICES, LINES, MONTHS};

/// A record for every key of the table.
pub fn full_book() -> Vec<Record> {
    let mut records = vec![record(YR, &[2011, 1])];
    for line in 1..=LINES {
        let category = (line - 1) % CATEGORIES + 1;
        records.push(record(LN, &[line, 0, category, 1_000, 6_000, 5_000, 24, 0]));
    }
    for category in 1..=CATEGORIES {
        for month in 1..=MONTHS {
            records.push(record(HD, &[category, month, 100 + 10 * category + month]));
        }
    }
    for month in 1..=MONTHS {
        records.push(record(TP, &[month, month * 37 % 400 - 50]));
    }
    for line in 1..=LINES {
        for month in 1..=MONTHS {
            records.push(record(DR, &[line, month]));
        }
    }
    for month in 1..=MONTHS {
        records.push(record(PE, &[month, 1_000, 0, 500]));
    }
    for month in 1..=MONTHS {
        for device in 1..=DEVICES {
            records.push(record(MT, &[month, device, 2_000_000]));
        }
    }
    records
}
