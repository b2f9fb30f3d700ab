//! A year turned down: 9, 8 and 7 with their places, and the order of the
//! checks. No book reaches 12; see `tests/year.rs`.

mod common;

use common::*;
use second::book::Book;
use second::year::year;

fn refused(records: &[Bytes], number: u32) -> Option<(u8, u16)> {
    numbers(year(&book_of(records), number))
}

#[test]
fn refusal_9_outside_1_to_10() {
    let ten_years = plain((2011, 1), &[LINE_1], 120, 302);
    for number in [0, 11, 12, 255, 256, 257, 266, u32::MAX] {
        assert_eq!(refused(&ten_years, number), Some((9, 0)), "{number}");
        assert_eq!(numbers(year(&Book::empty(), number)), Some((9, 0)));
    }
    for number in 1..=10 {
        assert_eq!(refused(&ten_years, number), None, "{number}");
    }
}

#[test]
fn refusal_8_at_0_without_yr_or_any_ln() {
    let sample = sample();
    assert_eq!(numbers(year(&Book::empty(), 1)), Some((8, 0)));
    assert_eq!(refused(&without(&sample, &[yr(2011, 1)]), 1), Some((8, 0)));
    let without_line = without(&sample, &[LINE_1.bytes()]);
    assert_eq!(refused(&without_line, 1), Some((8, 0)));
    // Looked at before any month.
    let without_month_1 = without(&without_line, &[tp(1, 302)]);
    assert_eq!(refused(&without_month_1, 1), Some((8, 0)));
}

#[test]
fn refusal_8_at_each_month_that_lacks_a_record() {
    let sample = sample();
    for month in 1..=12 {
        for lacking in [tp(month, 302), hd(1, month, 100), pe(month, 1000, 0, 500)] {
            let records = without(&sample, &[lacking]);
            assert_eq!(refused(&records, 1), Some((8, month.into())));
        }
    }
    assert_eq!(refused(&sample, 2), Some((8, 13)));
    assert_eq!(refused(&sample, 10), Some((8, 13)));
}

#[test]
fn a_month_or_device_without_mt_counts_0() {
    let meters: Vec<Bytes> = (1..=12).map(|month| mt(month, 1, 2_000_000)).collect();
    let figures = figures(&without(&sample(), &meters), 1);
    assert_eq!((figures.metered, figures.methane_reduction), (0, 0));
}

#[test]
fn refusal_8_at_the_lowest_month_whatever_it_lacks() {
    let sample = sample();
    let at = |lacking: &[Bytes]| refused(&without(&sample, lacking), 1);
    assert_eq!(
        at(&[tp(9, 302), hd(1, 5, 100), pe(7, 1000, 0, 500)]),
        Some((8, 5))
    );
    assert_eq!(
        at(&[tp(9, 302), hd(1, 8, 100), pe(7, 1000, 0, 500)]),
        Some((8, 7))
    );
    assert_eq!(
        at(&[tp(3, 302), hd(1, 8, 100), pe(7, 1000, 0, 500)]),
        Some((8, 3))
    );
}

#[test]
fn earlier_years_need_tp_and_hd_and_no_pe() {
    let two_years = plain((2011, 1), &[LINE_1], 24, 302);
    for month in 1..=12 {
        let no_pe = without(&two_years, &[pe(month, 0, 0, 0)]);
        assert_eq!(refused(&no_pe, 2), None);
        assert_eq!(refused(&no_pe, 1), Some((8, month.into())));
        for lacking in [tp(month, 302), hd(1, month, 100)] {
            let records = without(&two_years, &[lacking]);
            assert_eq!(refused(&records, 2), Some((8, month.into())));
        }
    }
    for month in 13..=24 {
        for lacking in [tp(month, 302), hd(1, month, 100), pe(month, 0, 0, 0)] {
            let records = without(&two_years, &[lacking]);
            assert_eq!(refused(&records, 2), Some((8, month.into())));
            assert_eq!(refused(&records, 1), None);
        }
    }
}

#[test]
fn hd_is_needed_for_each_category_with_a_line_and_no_other() {
    let line_2 = |system| Ln {
        line: 2,
        system,
        category: 16,
        ..LINE_1
    };
    for system in [0, 1] {
        let both = plain((2011, 1), &[LINE_1, line_2(system)], 12, 302);
        assert_eq!(refused(&both, 1), None);
        for month in 1..=12 {
            let records = without(&both, &[hd(16, month, 100)]);
            assert_eq!(refused(&records, 1), Some((8, month.into())));
        }
    }
    let extra_heads = [sample(), vec![hd(2, 4, 7)]].concat();
    assert_eq!(refused(&extra_heads, 1), None);
}

#[test]
fn a_head_and_a_temperature_of_0_are_records() {
    let mut records = plain((2011, 1), &[LINE_1], 12, 0);
    for month in 1..=12 {
        records = without(&records, &[hd(1, month, 100)]);
        records.push(hd(1, month, 0));
    }
    let figures = figures(&records, 1);
    assert_eq!((figures.solids.entered, figures.baseline), (0, 0));
}

fn shares(lines: &[(u8, u8, u8, u16)]) -> Vec<Ln> {
    let line = |&(line, system, category, share)| Ln {
        line,
        system,
        category,
        share,
        ..LINE_1
    };
    lines.iter().map(line).collect()
}

#[test]
fn refusal_7_above_10_000_and_not_at_it() {
    let answer = |lines| refused(&plain((2011, 1), &shares(lines), 12, 302), 1);
    assert_eq!(answer(&[(1, 0, 1, 10_000)]), None);
    assert_eq!(answer(&[(1, 0, 1, 6_000), (2, 0, 1, 4_000)]), None);
    assert_eq!(answer(&[(1, 0, 1, 6_000), (2, 0, 1, 4_001)]), Some((7, 1)));
    assert_eq!(answer(&[(1, 0, 5, 8_500), (32, 1, 5, 1_500)]), None);
    assert_eq!(answer(&[(1, 0, 5, 8_500), (32, 1, 5, 1_501)]), Some((7, 5)));
    assert_eq!(answer(&[(1, 1, 9, 10_000), (2, 1, 9, 1)]), Some((7, 9)));
    assert_eq!(answer(&[(1, 0, 1, 10_000), (2, 0, 2, 10_000)]), None);
}

#[test]
fn refusal_7_at_the_lowest_category() {
    let lines = [
        (1, 0, 16, 10_000),
        (2, 0, 16, 1),
        (3, 0, 2, 10_000),
        (4, 0, 7, 10_000),
        (5, 1, 7, 10_000),
    ];
    let records = plain((2011, 1), &shares(&lines), 12, 302);
    assert_eq!(refused(&records, 1), Some((7, 7)));
}

#[test]
fn all_32_lines_of_one_category() {
    let lines: Vec<(u8, u8, u8, u16)> = (1..=32).map(|line| (line, 0, 3, 10_000)).collect();
    let records = plain((2011, 1), &shares(&lines), 12, 302);
    assert_eq!(refused(&records, 1), Some((7, 3)));
}

#[test]
fn the_checks_go_9_8_7() {
    let above = shares(&[(1, 0, 1, 10_000), (2, 0, 1, 1)]);
    let records = plain((2011, 1), &above, 12, 302);
    assert_eq!(refused(&records, 11), Some((9, 0)));
    assert_eq!(refused(&without(&records, &[yr(2011, 1)]), 1), Some((8, 0)));
    assert_eq!(
        refused(&without(&records, &[tp(12, 302)]), 1),
        Some((8, 12))
    );
    assert_eq!(refused(&records, 2), Some((8, 13)));
    assert_eq!(refused(&records, 1), Some((7, 1)));
}

#[test]
fn a_year_leaves_the_book_as_it_was() {
    let book = book_of(&sample());
    let before = book.clone();
    assert!(year(&book, 1).is_ok());
    assert!(year(&book, 2).is_err());
    assert_eq!(book, before);
}
