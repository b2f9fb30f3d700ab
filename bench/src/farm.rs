//! Books made by hand, whose figures tell every field: no two months alike, a
//! line of each system, two lines in one category, lines by livestock, a lagoon
//! that is drained.

use std::ops::RangeInclusive;

use crate::book::{record, Record, DR, HD, LD, LN, MT, PE, TP, YR};

/// Line 1 and 3 are anaerobic, of category 1; line 2 is another system's, of category 2.
pub const LINE: [[i64; 8]; 3] = [
    [1, 0, 1, 811, 6_003, 5_000, 24, 0],
    [2, 1, 2, 907, 4_999, 7_001, 31, 3_003],
    [3, 0, 1, 1_013, 5_501, 4_000, 19, 0],
];
/// Lines 4 and 5, of category 2, are by livestock: heifers grazing in Nevada,
/// and nursery swine of another system, which have no state.
pub const LIVESTOCK_LINE: [[i64; 7]; 2] =
    [[4, 0, 2, 6, 28, 1_501, 0], [5, 1, 2, 8, 0, 1_403, 2_002]];
pub const DRAINED: [i64; 2] = [1, 7];

/// The values of the farm's record of a row: of the first of its lines, of
/// month 5 where it has a month, of category 1 and of device 1.
pub fn ordinary(row: usize) -> Vec<i64> {
    match row {
        YR => vec![2003, 11],
        LN => LINE[0].to_vec(),
        HD => vec![1, 5, head(1, 5)],
        TP => vec![5, temperature(5)],
        DR => DRAINED.to_vec(),
        PE => [vec![5], project(5).to_vec()].concat(),
        MT => vec![5, 1, destroyed(1, 5)],
        LD => LIVESTOCK_LINE[0].to_vec(),
        _ => unreachable!("the table has eight rows"),
    }
}

pub fn head(category: i64, month: i64) -> i64 {
    1_000 + 137 * month + 11 * month * month + 53 * category
}

pub fn temperature(month: i64) -> i64 {
    37 + 211 * month % 270
}

pub fn project(month: i64) -> [i64; 3] {
    [70_000 + month, 900 + 3 * month, 1_100 + 7 * month]
}

pub fn destroyed(device: i64, month: i64) -> i64 {
    9_000_000 * device + 1_003 * month
}

/// The farm over so many months, with two devices.
pub fn farm(months: i64) -> Vec<Record> {
    let mut records = vec![record(YR, &ordinary(YR))];
    records.extend(lines());
    records.push(record(DR, &DRAINED));
    for month in 1..=months {
        records
            .extend([1, 2].map(|category| record(HD, &[category, month, head(category, month)])));
        records.push(record(TP, &[month, temperature(month)]));
        let [methane, baseline, co2] = project(month);
        records.push(record(PE, &[month, methane, baseline, co2]));
        records.extend([1, 2].map(|device| record(MT, &[month, device, destroyed(device, month)])));
    }
    records
}

/// The farm's lines, by LN and by LD.
pub fn lines() -> Vec<Record> {
    let by_values = LINE.iter().map(|line| record(LN, line));
    let by_livestock = LIVESTOCK_LINE.iter().map(|line| record(LD, line));
    by_values.chain(by_livestock).collect()
}

/// The farm's year with another record in place of one that it has.
pub fn with(ordinary: &Record, other: Record) -> Vec<Record> {
    let mut records = farm(12);
    let place = records.iter().position(|record| record == ordinary);
    records[place.expect("the farm has this record")] = other;
    records
}

/// The records without one.
pub fn without(mut records: Vec<Record>, left_out: &Record) -> Vec<Record> {
    let before = records.len();
    records.retain(|record| record != left_out);
    assert!(records.len() < before, "the book has this record");
    records
}

/// The records, and more after them.
pub fn and(mut records: Vec<Record>, more: &[Record]) -> Vec<Record> {
    records.extend(more);
    records
}

/// A book of one line over so many months.
pub struct Single {
    pub first: [i64; 2],
    pub line: [i64; 8],
    pub months: i64,
}

/// Paper 01's line: 100 head of it enter 480,000 grams a day.
pub const PAPER_LINE: [i64; 8] = [1, 0, 1, 1_000, 6_000, 10_000, 24, 0];

impl Single {
    pub fn paper(months: i64) -> Single {
        Single {
            first: [2011, 1],
            line: PAPER_LINE,
            months,
        }
    }

    /// With the head, the temperature and the project's figures that these say
    /// of each month.
    pub fn book(
        &self,
        head: impl Fn(i64) -> i64,
        tenths: impl Fn(i64) -> i64,
        project: impl Fn(i64) -> [i64; 3],
    ) -> Vec<Record> {
        let mut records = vec![record(YR, &self.first), record(LN, &self.line)];
        for month in 1..=self.months {
            records.push(record(HD, &[self.line[2], month, head(month)]));
            records.push(record(TP, &[month, tenths(month)]));
            let [methane, baseline, co2] = project(month);
            records.push(record(PE, &[month, methane, baseline, co2]));
        }
        records
    }
}

/// The same head, or the same temperature, in every month.
pub fn steady(value: i64) -> impl Fn(i64) -> i64 {
    move |_month| value
}

/// From 30.2 degrees on all that a lagoon has degrades, and at 15.1 some of it
/// is carried on.
pub const HOT: i64 = 302;
pub const CARRYING: i64 = 151;

/// These months are at one temperature, and all others are hot: so what is
/// removed or carried on is theirs alone.
pub fn hot_but(months: RangeInclusive<i64>, tenths: i64) -> impl Fn(i64) -> i64 {
    move |month| if months.contains(&month) { tenths } else { HOT }
}

/// Nothing entered for a project.
pub fn nothing(_month: i64) -> [i64; 3] {
    [0; 3]
}

/// The first month of the year that has the grams of `million`.
pub const MILLION_MONTH: i64 = 13;

/// So many head of this line enter 1,116,071 grams in December 2011, of which
/// 4.9 degrees leave a million.
const MILLION_LINE: [i64; 8] = [1, 0, 1, 780, 96, 10_000, 24, 0];
const MILLION_HEAD: i64 = 601;

/// A million grams are carried into 2012, the book's second year, in which
/// nothing enters: all at one temperature, with these figures of the project
/// in March.
pub fn million(tenths: i64, project: [i64; 3]) -> Vec<Record> {
    let farm = Single {
        line: MILLION_LINE,
        ..Single::paper(24)
    };
    let heads = |month| if month <= 12 { MILLION_HEAD } else { 0 };
    let in_2011 = hot_but(12..=12, 49);
    let temperatures = |month| if month <= 12 { in_2011(month) } else { tenths };
    let march = MILLION_MONTH + 2;
    let projects = |month| if month == march { project } else { [0; 3] };
    farm.book(heads, temperatures, projects)
}
