//! What a year has to have, refusal 8, and the shares that have to fit,
//! refusal 7.

use super::Group;
use crate::book::{record, Record, CATEGORIES, DR, HD, LN, MT, PE, TP, YR};
use crate::farm::{self, and, destroyed, farm, head, ordinary, project, temperature, without};

/// The records that a month of the farm has to have.
fn needed(month: i64) -> [Record; 4] {
    let [methane, baseline, co2] = project(month);
    [
        record(TP, &[month, temperature(month)]),
        record(HD, &[1, month, head(1, month)]),
        record(HD, &[2, month, head(2, month)]),
        record(PE, &[month, methane, baseline, co2]),
    ]
}

pub fn lacking() -> Group {
    let mut group = Group::new("records that a year lacks", 230, 110, 60);
    for month in 1..=24 {
        for (kind, left_out) in needed(month).iter().enumerate() {
            group.book(
                format!("kind {kind} of month {month}"),
                &without(farm(24), left_out),
            );
        }
    }
    two_months(&mut group);
    first_looked_at(&mut group);
    categories(&mut group);
    not_needed(&mut group);
    group
}

/// Two months that lack a record, of any two kinds: the lower one is told.
fn two_months(group: &mut Group) {
    for (low, high) in [(3, 9), (2, 14), (15, 23)] {
        for (one, first) in needed(low).iter().enumerate() {
            for (other, second) in needed(high).iter().enumerate() {
                group.book(
                    format!("kind {one} of month {low}, kind {other} of month {high}"),
                    &without(without(farm(24), first), second),
                );
            }
        }
    }
}

/// YR and the lines come before any month, at place 0.
fn first_looked_at(group: &mut Group) {
    let yr = record(YR, &ordinary(YR));
    let no_yr = without(farm(12), &yr);
    let mut no_lines = farm(12);
    for line in farm::lines() {
        no_lines = without(no_lines, &line);
    }
    let neither = without(no_lines.clone(), &yr);
    for (name, book) in [
        ("no YR", no_yr),
        ("no line", no_lines),
        ("neither", neither),
        ("YR alone", vec![yr]),
    ] {
        group.book(name, &book);
        if book.len() > 1 {
            group.book(
                format!("{name}, and no TP of month 5"),
                &without(book, &record(TP, &ordinary(TP))),
            );
        }
    }
    group.book("YR and a line alone", &[yr, record(LN, &farm::LINE[0])]);
}

/// A line's category needs its heads, whatever the line is: one of no share,
/// no solids, no mass, no B0, of either system.
fn categories(group: &mut Group) {
    for category in [3, CATEGORIES] {
        for system in [0, 1] {
            for emptied in [3, 4, 5, 6] {
                let mut line = [6, system, category, 500, 500, 500, 50, 0];
                line[emptied] = 0;
                let book = and(farm(12), &[record(LN, &line)]);
                let name = format!("category {category}, system {system}, field {emptied} 0");
                group.book(format!("{name}, without heads"), &book);
                let some = (1..=7).map(|month| record(HD, &[category, month, 9]));
                let some = and(book, &some.collect::<Vec<_>>());
                group.book(format!("{name}, heads to month 7"), &some);
                let rest = (8..=12).map(|month| record(HD, &[category, month, 0]));
                group.book(
                    format!("{name}, all heads"),
                    &and(some, &rest.collect::<Vec<_>>()),
                );
            }
        }
    }
}

/// A year without meters or drains, and with heads of 0 and 0.0 degrees,
/// which are values.
fn not_needed(group: &mut Group) {
    for device in [1, 2] {
        let mut book = farm(24);
        for month in 1..=12 {
            let metered = record(MT, &[month, device, destroyed(device, month)]);
            book = without(book, &metered);
            group.book(format!("device {device}, none to month {month}"), &book);
        }
    }
    group.book(
        "not drained",
        &without(farm(12), &record(DR, &farm::DRAINED)),
    );
    for month in 1..=12 {
        let [warm, first, ..] = needed(month);
        let book = without(without(farm(12), &warm), &first);
        group.book(
            format!("month {month} has head 0 and temperature 0"),
            &and(book, &[record(TP, &[month, 0]), record(HD, &[1, month, 0])]),
        );
    }
}

pub fn shares() -> Group {
    let mut group = Group::new("shares of a category", 90, 15, 30);
    for (name, shares) in [
        ("the whole", vec![5_000, 5_000]),
        ("one above the whole", vec![5_000, 5_001]),
        ("one below the whole", vec![4_999, 5_000]),
        ("twice the whole", vec![10_000, 10_000]),
        ("the whole in three", vec![3_333, 3_333, 3_334]),
        ("above the whole in three", vec![3_333, 3_334, 3_334]),
        ("the whole and nothing", vec![10_000, 0]),
        ("the whole and one", vec![10_000, 1]),
        ("more than 16 bits hold", vec![10_000; 7]),
        ("32 lines", vec![10_000; 32]),
        ("32 lines that fit", vec![312; 32]),
    ] {
        for systems in [[0, 0], [0, 1], [1, 1]] {
            group.book(
                format!("{name}, systems {systems:?}"),
                &shared(&shares, systems, 12),
            );
        }
        // 8 before 7: month 12 lacks its records.
        group.book(
            format!("{name}, a month lacking"),
            &shared(&shares, [0, 1], 11),
        );
    }
    for category in 1..=CATEGORIES {
        for other in [1, 7, CATEGORIES] {
            group.book(
                format!("categories {category} and {other}"),
                &two_over(category, other),
            );
        }
    }
    group
}

/// A book whose lines, of one category, have these shares.
fn shared(shares: &[i64], systems: [i64; 2], months: i64) -> Vec<Record> {
    let mut records = vec![record(YR, &[2011, 1])];
    for (line, share) in (1..).zip(shares) {
        let system = systems[line as usize % 2];
        records.push(record(
            LN,
            &[line, system, 2, 700, 5_000, *share, 24, system * 800],
        ));
    }
    for month in 1..=months {
        records.push(record(HD, &[2, month, head(2, month)]));
        records.push(record(TP, &[month, temperature(month)]));
        records.push(record(PE, &[month, 1, 2, 3]));
    }
    records
}

/// Two categories past the whole, the one named first on the lower lines; or
/// one, where they are the same.
fn two_over(category: i64, other: i64) -> Vec<Record> {
    let mut records = vec![record(YR, &[2011, 1])];
    let lines = [category, category, other, other];
    for (line, category) in (1..).zip(lines) {
        records.push(record(LN, &[line, 0, category, 700, 5_000, 6_000, 24, 0]));
    }
    for month in 1..=12 {
        for category in 1..=CATEGORIES {
            records.push(record(HD, &[category, month, 5]));
        }
        records.push(record(TP, &[month, 100]));
        records.push(record(PE, &[month, 1, 2, 3]));
    }
    records
}
