//! Each record at every edge: a field just inside and just outside its range,
//! a zero byte that is not 0, letters that are no mark, another length.
//! The record stands in the farm's year, so that what is taken shows in figures.

use super::{Group, Program};
use crate::book::{record, zero_bytes, Record, HD, LD, LN, RECORD_BYTES, TABLE};
use crate::farm::{self, farm, ordinary};
use crate::streams::joined;

/// The records that the edges start from: one of each row, and lines of the
/// other system, one of them of a livestock that has no state.
fn starts() -> Vec<(usize, Vec<i64>)> {
    let mut starts: Vec<_> = (0..TABLE.len()).map(|row| (row, ordinary(row))).collect();
    starts.push((LN, farm::LINE[1].to_vec()));
    starts.push((LD, farm::LIVESTOCK_LINE[1].to_vec()));
    starts
}

pub fn edges() -> Group {
    let mut group = Group::new("edges of the records", 950, 145, 95);
    for (row, values) in starts() {
        for field in 0..values.len() {
            for value in edge_values(row, field, values[field]) {
                let mut changed = values.clone();
                changed[field] = value;
                edge(&mut group, row, field, &values, &changed);
            }
        }
        zero_edges(&mut group, row, &values);
    }
    systems(&mut group);
    group
}

/// The ends of a field's range with their neighbours, and its bytes with the
/// highest bit set, and with all.
fn edge_values(row: usize, field: usize, ordinary: i64) -> Vec<i64> {
    let entry = &TABLE[row].1[field];
    let mut values = vec![
        entry.low - 1,
        entry.low,
        entry.low + 1,
        entry.high - 1,
        entry.high,
        entry.high + 1,
    ];
    let highest_bit = 1 << (8 * entry.bytes - 1);
    let all_bits = -1;
    values.extend([ordinary | highest_bit, all_bits]);
    values.sort();
    values.dedup();
    values
}

/// The changed record in place of the ordinary one, after the whole year, and twice.
fn edge(group: &mut Group, row: usize, field: usize, values: &[i64], changed: &[i64]) {
    let (mark, fields) = &TABLE[row];
    let name = format!(
        "{} byte {} is {}",
        String::from_utf8_lossy(*mark),
        fields[field].at,
        changed[field]
    );
    let other = record(row, changed);
    group.book(
        format!("{name}, in its place"),
        &farm::with(&record(row, values), other),
    );
    group.book(
        format!("{name}, after the year"),
        &farm::and(farm(12), &[other]),
    );
    if fields[field].is_key {
        group.book(
            format!("{name}, twice"),
            &farm::and(farm(12), &[other, other]),
        );
    }
}

fn zero_edges(group: &mut Group, row: usize, values: &[i64]) {
    let ordinary = record(row, values);
    let zeros = zero_bytes(row);
    for (index, &at) in zeros.iter().enumerate() {
        let name = format!("{} byte {at}", String::from_utf8_lossy(&ordinary[..2]));
        for value in [1, 0x80] {
            let mut other = ordinary;
            other[at] = value;
            group.book(format!("{name} is {value}"), &farm::with(&ordinary, other));
        }
        if let Some(&next) = zeros.get(index + 1) {
            let mut other = ordinary;
            other[at] = 1;
            other[next] = 1;
            group.book(
                format!("{name} and the next zero byte"),
                &farm::with(&ordinary, other),
            );
        }
    }
}

/// A conversion factor for each system, and for one that is none.
fn systems(group: &mut Group) {
    for system in [0, 1, 2, 255] {
        for conversion in [0, 1, 255, 256, 9_999, 10_000, 10_001, 65_535] {
            let mut line = farm::LINE[1];
            line[1] = system;
            line[7] = conversion;
            let name = format!("system {system}, conversion factor {conversion}");
            group.book(
                name.clone(),
                &farm::with(&record(LN, &farm::LINE[1]), record(LN, &line)),
            );
            let ordinary = farm::LIVESTOCK_LINE[1];
            let mut line = ordinary;
            line[1] = system;
            line[6] = conversion;
            group.book(
                format!("{name}, by livestock"),
                &farm::with(&record(LD, &ordinary), record(LD, &line)),
            );
        }
    }
}

pub fn marks_and_lengths() -> Group {
    let mut group = Group::new("marks and lengths", 300, 1, 6);
    for (row, values) in starts() {
        let ordinary = record(row, &values);
        for mark in near_marks([ordinary[0], ordinary[1]]) {
            let mut other = ordinary;
            other[..2].copy_from_slice(&mark);
            group.book(format!("mark {mark:02x?}"), &farm::with(&ordinary, other));
        }
    }
    lengths(&mut group);
    group
}

fn near_marks([first, second]: [u8; 2]) -> Vec<[u8; 2]> {
    vec![
        [first.to_ascii_lowercase(), second],
        [first, second.to_ascii_lowercase()],
        [first.to_ascii_lowercase(), second.to_ascii_lowercase()],
        [second, first],
        [first, first],
        [first + 1, second],
        [first - 1, second],
        [first, second + 1],
        [first, second - 1],
        [first, 0],
        [0, second],
        [0, 0],
        [b'C', b'M'],
        [0xff, 0xff],
    ]
}

/// Records of 1 to 17 bytes, alone and after a year.
fn lengths(group: &mut Group) {
    let good = record(HD, &[3, 1, 7]);
    let mut damaged = record(HD, &[17, 0, 100_001]);
    damaged[9] = 1;
    let unknown: Record = *b"HX\x01\x01............";
    let already: Record = record(HD, &ordinary(HD));
    let zeros: Record = [0; RECORD_BYTES];
    for (name, last) in [
        ("zeros", zeros),
        ("good", good),
        ("damaged", damaged),
        ("unknown", unknown),
        ("filled", already),
    ] {
        for length in 1..=RECORD_BYTES + 1 {
            let piece: Vec<u8> = last.iter().copied().cycle().take(length).collect();
            group.add(
                Program::Years,
                format!("{length} bytes, {name}, after a year"),
                [joined(&farm(12)), piece.clone()].concat(),
            );
            group.add(Program::Years, format!("{length} bytes, {name}"), piece);
        }
    }
}
