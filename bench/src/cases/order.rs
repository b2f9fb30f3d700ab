//! Which of several faults is told: the numbers in their order, the first
//! field, the first record.

use super::Group;
use crate::book::{record, zero_bytes, Record, DR, HD, LN, MT, PE, TABLE, TP, YR};
use crate::farm::{self, and, farm, ordinary, with, without};

pub fn order() -> Group {
    let mut group = Group::new("order of the refusals", 260, 12, 27);
    for row in 0..TABLE.len() {
        zeros_before_fields(&mut group, row);
        first_field(&mut group, row);
        filled_last(&mut group, row);
    }
    first_record(&mut group);
    other_keys(&mut group);
    group
}

/// A value outside a field's range, where there is one.
fn outside(row: usize, field: usize) -> Option<i64> {
    let entry = &TABLE[row].1[field];
    let most = (1_i128 << (8 * entry.bytes)) - 1;
    (i128::from(entry.high) < most).then_some(entry.high + 1)
}

/// 3 before 4: a field outside its range with the first and the last zero byte not 0.
fn zeros_before_fields(group: &mut Group, row: usize) {
    let zeros = zero_bytes(row);
    let values = ordinary(row);
    for field in 0..values.len() {
        let Some(value) = outside(row, field) else {
            continue;
        };
        for at in [zeros[0], zeros[zeros.len() - 1]] {
            let mut changed = values.clone();
            changed[field] = value;
            let mut other = record(row, &changed);
            other[at] = 1;
            group.book(
                format!("row {row}, field {field} outside and byte {at} not 0"),
                &with(&record(row, &values), other),
            );
        }
    }
}

/// Two fields outside their ranges: the place is the first one's.
fn first_field(group: &mut Group, row: usize) {
    let values = ordinary(row);
    for first in 0..values.len() {
        for second in first + 1..values.len() {
            let (Some(one), Some(other)) = (outside(row, first), outside(row, second)) else {
                continue;
            };
            let mut changed = values.clone();
            changed[first] = one;
            changed[second] = other;
            group.book(
                format!("row {row}, fields {first} and {second} outside"),
                &with(&record(row, &values), record(row, &changed)),
            );
        }
    }
}

/// 3 and 4 before 5, and 5: a key that is filled, with the same values and
/// with others.
fn filled_last(group: &mut Group, row: usize) {
    let values = ordinary(row);
    let again = record(row, &values);
    group.book(format!("row {row} again"), &and(farm(12), &[again]));
    for (field, entry) in TABLE[row].1.iter().enumerate() {
        if entry.is_key {
            continue;
        }
        for value in [Some(entry.low), Some(entry.high), outside(row, field)] {
            let Some(value) = value else { continue };
            let mut changed = values.clone();
            changed[field] = value;
            group.book(
                format!("row {row} again, field {field} is {value}"),
                &and(farm(12), &[record(row, &changed)]),
            );
        }
    }
    for at in zero_bytes(row) {
        let mut other = again;
        other[at] = 1;
        group.book(
            format!("row {row} again, byte {at} not 0"),
            &and(farm(12), &[other]),
        );
    }
}

/// Reading stops at the first record that is refused, whatever comes after it.
fn first_record(group: &mut Group) {
    let unknown: Record = [0xff; 16];
    let outside = record(TP, &[13, 601]);
    let filled = record(TP, &ordinary(TP));
    let faults = [unknown, outside, filled];
    for first in faults {
        for second in faults {
            group.book(
                format!("{:02x} before {:02x}", first[2], second[2]),
                &and(farm(12), &[first, second]),
            );
        }
        let mut early = farm(12);
        early.insert(5, first);
        group.book(format!("{:02x} early", first[2]), &early);
        let lacking = without(farm(12), &record(TP, &ordinary(TP)));
        group.book(
            format!("{:02x} in a year that lacks a record", first[2]),
            &and(lacking, &[first]),
        );
    }
}

/// What a key has in it and what it has not: a line's number alone, a head's
/// category and month, and so on.
fn other_keys(group: &mut Group) {
    let mut line = farm::LINE[1];
    line[0] = 1;
    let taken_and_not = [
        ("line 1 with all else of line 2", record(LN, &line)),
        ("another YR", record(YR, &[2020, 1])),
        (
            "category 3, a month that category 1 has",
            record(HD, &[3, 5, 9]),
        ),
        ("category 1, month 13", record(HD, &[1, 13, 9])),
        (
            "line 2, a month in which line 1 is drained",
            record(DR, &[2, 7]),
        ),
        ("line 3, the same", record(DR, &[3, 7])),
        ("line 1, month 8", record(DR, &[1, 8])),
        ("line 32, month 12", record(DR, &[32, 12])),
        (
            "device 3, a month that device 1 has",
            record(MT, &[5, 3, 77]),
        ),
        ("device 4, month 12", record(MT, &[12, 4, 78])),
        ("device 1, month 13", record(MT, &[13, 1, 79])),
        ("PE of month 13", record(PE, &[13, 1, 2, 3])),
        ("TP of month 13", record(TP, &[13, 1])),
    ];
    for (name, more) in taken_and_not {
        group.book(name, &and(farm(12), &[more]));
        group.book(format!("{name}, twice"), &and(farm(12), &[more, more]));
    }
}
