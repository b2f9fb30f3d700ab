//! Posting: each refusal with its place, the order of the checks, the edges of
//! every range, and the book afterwards.

mod common;

use common::*;
use second::book::Book;
use second::record::{FirstMonth, Line, ProjectMonth, System};

/// Posts to the empty book, which a refusal must leave empty.
fn posted(record: &[u8]) -> Option<(u8, u16)> {
    let mut book = Book::empty();
    let answer = numbers(book.post(record));
    assert_eq!(answer.is_some(), book == Book::empty());
    answer
}

fn valid() -> Vec<Bytes> {
    vec![
        yr(2011, 1),
        LINE_1.bytes(),
        hd(1, 1, 100),
        tp(1, 302),
        dr(1, 1),
        pe(1, 1000, 0, 500),
        mt(1, 1, 2_000_000),
        Ld {
            line: 3,
            ..LIVESTOCK_LINE_1
        }
        .bytes(),
    ]
}

#[test]
fn a_valid_record_of_each_mark_is_taken() {
    for record in valid() {
        assert_eq!(posted(&record), None, "{record:?}");
    }
}

#[test]
fn refusal_1_for_any_length_but_16() {
    for record in valid() {
        let long = [record, record].concat();
        for length in (0..16).chain(17..32) {
            assert_eq!(posted(&long[..length]), Some((1, 0)), "{length}");
        }
    }
}

#[test]
fn refusal_2_for_every_other_mark() {
    let known = [b"YR", b"LN", b"HD", b"TP", b"DR", b"PE", b"MT", b"LD"];
    let mut record = [0; 16];
    for mark in 0..=u16::MAX {
        record[..2].copy_from_slice(&mark.to_be_bytes());
        let is_known = known.iter().any(|known| known[..] == record[..2]);
        let refused = numbers(Book::empty().post(&record)) == Some((2, 0));
        assert_eq!(refused, !is_known, "{mark:04x}");
    }
}

/// The zero bytes of each record of `valid()`.
fn zero_offsets(record: &Bytes) -> Vec<usize> {
    match &record[..2] {
        b"YR" => (5..16).collect(),
        b"LN" => vec![5, 13],
        b"HD" => (8..16).collect(),
        b"TP" => std::iter::once(3).chain(6..16).collect(),
        b"DR" => (4..16).collect(),
        b"PE" => vec![3],
        b"MT" => (12..16).collect(),
        _ => std::iter::once(7).chain(12..16).collect(),
    }
}

#[test]
fn refusal_3_at_the_lowest_zero_byte_that_is_not_0() {
    for record in valid() {
        let offsets = zero_offsets(&record);
        for (i, &offset) in offsets.iter().enumerate() {
            for value in [1, 0x80, 0xff] {
                let mut damaged = record;
                damaged[offset] = value;
                assert_eq!(posted(&damaged), Some((3, offset as u16)));
                for &later in &offsets[i..] {
                    damaged[later] = 9;
                }
                assert_eq!(posted(&damaged), Some((3, offset as u16)));
            }
        }
    }
}

fn put(mut record: Bytes, offset: usize, width: usize, value: i128) -> Bytes {
    record[offset..offset + width].copy_from_slice(&value.to_le_bytes()[..width]);
    record
}

#[test]
fn refusal_4_just_outside_every_range_and_none_at_its_edges() {
    let other = Ln {
        system: 1,
        ..LINE_1
    };
    let swine = Ld {
        system: 1,
        livestock: 8,
        state: 0,
        ..LIVESTOCK_LINE_1
    };
    let edges: &[(Bytes, usize, usize, i128, i128)] = &[
        (yr(2011, 1), 2, 2, 2000, 2089),
        (yr(2011, 1), 4, 1, 1, 12),
        (LINE_1.bytes(), 2, 1, 1, 32),
        (LINE_1.bytes(), 3, 1, 0, 1),
        (LINE_1.bytes(), 4, 1, 1, 16),
        (LINE_1.bytes(), 6, 2, 0, 2_000),
        (LINE_1.bytes(), 8, 2, 0, 20_000),
        (LINE_1.bytes(), 10, 2, 0, 10_000),
        (LINE_1.bytes(), 12, 1, 0, 100),
        (LINE_1.bytes(), 14, 2, 0, 0),
        (other.bytes(), 14, 2, 0, 10_000),
        (hd(1, 1, 100), 2, 1, 1, 16),
        (hd(1, 1, 100), 3, 1, 1, 120),
        (hd(1, 1, 100), 4, 4, 0, 100_000),
        (tp(1, 302), 2, 1, 1, 120),
        (tp(1, 302), 4, 2, -500, 600),
        (dr(1, 1), 2, 1, 1, 32),
        (dr(1, 1), 3, 1, 1, 120),
        (pe(1, 1, 1, 1), 2, 1, 1, 120),
        (mt(1, 1, 2), 2, 1, 1, 120),
        (mt(1, 1, 2), 3, 1, 1, 4),
        (mt(1, 1, 2), 4, 8, 0, 1_000_000_000_000),
        (LIVESTOCK_LINE_1.bytes(), 2, 1, 1, 32),
        (LIVESTOCK_LINE_1.bytes(), 3, 1, 0, 1),
        (LIVESTOCK_LINE_1.bytes(), 4, 1, 1, 16),
        (LIVESTOCK_LINE_1.bytes(), 6, 1, 1, 50),
        (LIVESTOCK_LINE_1.bytes(), 8, 2, 0, 10_000),
        (LIVESTOCK_LINE_1.bytes(), 10, 2, 0, 0),
        (swine.bytes(), 6, 1, 0, 0),
        (swine.bytes(), 10, 2, 0, 10_000),
    ];
    for &(record, offset, width, lowest, highest) in edges {
        let answer = |value| posted(&put(record, offset, width, value));
        let refused = Some((4, offset as u16));
        assert_eq!(answer(lowest), None, "{record:?} {offset}");
        assert_eq!(answer(highest), None, "{record:?} {offset}");
        assert_eq!(answer(highest + 1), refused, "{record:?} {offset}");
        // Below 0 the bits are those of the type's highest value.
        assert_eq!(answer(lowest - 1), refused, "{record:?} {offset}");
    }
}

#[test]
fn figures_of_the_paper_for_head_and_month() {
    assert_eq!(posted(&hd(1, 1, 100_000)), None);
    assert_eq!(posted(&hd(1, 1, 100_001)), Some((4, 4)));
    assert_eq!(posted(&hd(1, 120, 1)), None);
    assert_eq!(posted(&hd(1, 121, 1)), Some((4, 3)));
}

#[test]
fn the_figures_of_pe_have_all_of_u32() {
    let most = u32::MAX;
    let book = book_of(&[pe(120, most, most, most), pe(1, 0, 0, 0)]);
    let figures = ProjectMonth {
        project_methane: most,
        baseline_co2: most,
        project_co2: most,
    };
    assert_eq!(book.project(120), Some(figures));
    assert_eq!(book.project(1), Some(ProjectMonth::default()));
}

#[test]
fn refusal_4_is_at_the_first_field_outside() {
    let mut line = LINE_1.bytes();
    let fields = [
        (14, 2),
        (12, 1),
        (10, 2),
        (8, 2),
        (6, 2),
        (4, 1),
        (3, 1),
        (2, 1),
    ];
    for (offset, width) in fields {
        line = put(line, offset, width, 0xffff);
        assert_eq!(posted(&line), Some((4, offset as u16)));
    }
    assert_eq!(posted(&hd(0, 0, 100_001)), Some((4, 2)));
    assert_eq!(posted(&hd(1, 0, 100_001)), Some((4, 3)));
    assert_eq!(posted(&yr(1999, 13)), Some((4, 2)));
    assert_eq!(posted(&dr(33, 121)), Some((4, 2)));
    assert_eq!(posted(&mt(1, 5, u64::MAX)), Some((4, 3)));
}

#[test]
fn a_conversion_factor_is_only_for_other_systems() {
    let line = |system, conversion_factor| {
        let line = Ln {
            system,
            conversion_factor,
            ..LINE_1
        };
        posted(&line.bytes())
    };
    assert_eq!(line(0, 1), Some((4, 14)));
    assert_eq!(line(1, 1), None);
    assert_eq!(line(2, 1), Some((4, 3)));
}

#[test]
fn the_checks_go_1_2_3_4_5() {
    let mut book = book_of(&[hd(1, 1, 100)]);
    let before = book.clone();
    let mut worst = put(put(hd(1, 1, 100_001), 15, 1, 7), 0, 2, 0);
    assert_eq!(numbers(book.post(&worst[..15])), Some((1, 0)));
    assert_eq!(numbers(book.post(&worst)), Some((2, 0)));
    worst[..2].copy_from_slice(b"HD");
    assert_eq!(numbers(book.post(&worst)), Some((3, 15)));
    worst[15] = 0;
    assert_eq!(numbers(book.post(&worst)), Some((4, 4)));
    worst = put(worst, 4, 4, 50);
    assert_eq!(numbers(book.post(&worst)), Some((5, 0)));
    assert_eq!(book, before);
}

#[test]
fn refusal_5_goes_by_key() {
    let line_1_otherwise = Ln {
        system: 1,
        category: 2,
        share: 1,
        ..LINE_1
    };
    let mut book = book_of(&valid());
    let before = book.clone();
    let filled = [
        yr(2089, 12),
        line_1_otherwise.bytes(),
        hd(1, 1, 0),
        tp(1, 0),
        dr(1, 1),
        pe(1, 0, 0, 0),
        mt(1, 1, 0),
    ];
    for record in filled.into_iter().chain(valid()) {
        assert_eq!(numbers(book.post(&record)), Some((5, 0)), "{record:?}");
    }
    assert_eq!(book, before);
    let free = [
        Ln { line: 2, ..LINE_1 }.bytes(),
        hd(2, 1, 0),
        hd(1, 2, 0),
        tp(2, 0),
        dr(2, 1),
        dr(1, 2),
        pe(2, 0, 0, 0),
        mt(2, 1, 0),
        mt(1, 2, 0),
    ];
    post_all(&mut book, &free);
}

#[test]
fn a_head_or_temperature_of_0_fills_its_slot() {
    let mut book = book_of(&[hd(3, 4, 0), tp(5, 0)]);
    assert_eq!(book.head(3, 4), Some(0));
    assert_eq!(book.temperature(5), Some(0));
    assert_eq!(numbers(book.post(&hd(3, 4, 0))), Some((5, 0)));
    assert_eq!(numbers(book.post(&tp(5, 1))), Some((5, 0)));
}

#[test]
fn a_record_taken_fills_its_slot_with_its_fields() {
    let line_32 = Ln {
        line: 32,
        system: 1,
        category: 16,
        table_solids: 2_000,
        mass: 20_000,
        share: 9_999,
        b0: 100,
        conversion_factor: 1_234,
    };
    let book = book_of(&[
        yr(2089, 12),
        line_32.bytes(),
        hd(16, 120, 99_999),
        tp(120, -500),
        dr(32, 120),
        mt(120, 4, 1_000_000_000_000),
    ]);
    let first = FirstMonth {
        year: 2089,
        month: 12,
    };
    let line = Line {
        system: System::Other {
            conversion_factor: 1_234,
        },
        category: 16,
        table_solids: 2_000,
        mass: 20_000,
        share: 9_999,
        b0: 100,
    };
    assert_eq!(book.first_month(), Some(first));
    assert_eq!(book.line(32), Some(line));
    assert_eq!(book.lines().collect::<Vec<_>>(), vec![(32, &line)]);
    assert_eq!(book.head(16, 120), Some(99_999));
    assert_eq!(book.temperature(120), Some(-500));
    assert_eq!(book.drain(32, 120), Some(()));
    assert_eq!(book.destroyed(4, 120), Some(1_000_000_000_000));
}

#[test]
fn keys_outside_the_book_are_not_filled() {
    let book = book_of(&valid());
    for outside in [0, 121, 255] {
        assert_eq!(book.line(outside), None);
        assert_eq!(book.head(1, outside), None);
        assert_eq!(book.head(outside, 1), None);
        assert_eq!(book.temperature(outside), None);
        assert_eq!(book.drain(1, outside), None);
        assert_eq!(book.project(outside), None);
        assert_eq!(book.destroyed(1, outside), None);
    }
}

#[test]
fn the_order_of_postings_leaves_the_same_book() {
    let mut records = sample();
    let book = book_of(&records);
    records.reverse();
    assert_eq!(book_of(&records), book);
}
