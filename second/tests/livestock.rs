//! LD (paper 02, (i)): which livestock and states are taken, and that the book
//! then holds the LN with the protocol's values.

mod common;

use common::*;
use second::book::Book;
use second::record::{Line, System};

const LAST_LIVESTOCK: u8 = 10;
const LAST_STATE: u8 = 50;
/// Dairy cows, heifers, heifers grazing and cows grazing.
const BY_STATE: [u8; 4] = [1, 3, 6, 7];

fn ld(livestock: u8, state: u8) -> Ld {
    Ld {
        livestock,
        state,
        ..LIVESTOCK_LINE_1
    }
}

fn posted(record: &Ld) -> Option<(u8, u16)> {
    numbers(Book::empty().post(&record.bytes()))
}

fn kept(record: &Ld) -> Line {
    book_of(&[record.bytes()])
        .line(record.line)
        .expect("the line that was posted")
}

/// Table solids, mass and B0.
fn values(livestock: u8, state: u8) -> (u16, u16, u8) {
    let line = kept(&ld(livestock, state));
    (line.table_solids, line.mass, line.b0)
}

#[test]
fn a_state_is_asked_for_exactly_where_a_column_of_states_is() {
    for livestock in 0..=u8::MAX {
        for state in 0..=u8::MAX {
            let is_asked = BY_STATE.contains(&livestock);
            let is_allowed = if is_asked {
                (1..=LAST_STATE).contains(&state)
            } else {
                state == 0
            };
            let answer = match livestock {
                1..=LAST_LIVESTOCK if is_allowed => None,
                1..=LAST_LIVESTOCK => Some((4, 6)),
                _ => Some((4, 5)),
            };
            assert_eq!(posted(&ld(livestock, state)), answer, "{livestock} {state}");
        }
    }
}

#[test]
fn the_values_of_each_livestock() {
    let california = 5;
    assert_eq!(values(1, california), (898, 6_040, 24));
    assert_eq!(values(2, 0), (556, 6_840, 24));
    assert_eq!(values(3, california), (742, 4_760, 17));
    assert_eq!(values(4, 0), (604, 7_500, 17));
    assert_eq!(values(5, 0), (641, 1_180, 17));
    assert_eq!(values(6, california), (792, 4_200, 17));
    assert_eq!(values(7, california), (685, 5_330, 17));
    assert_eq!(values(8, 0), (889, 125, 48));
    assert_eq!(values(9, 0), (536, 700, 48));
    assert_eq!(values(10, 0), (271, 1_980, 35));
}

#[test]
fn the_first_and_the_last_state_and_one_with_a_single_decimal() {
    let solids = |state| BY_STATE.map(|livestock| values(livestock, state).0);
    assert_eq!(solids(1), [802, 742, 782, 702]); // Alabama
    assert_eq!(solids(28), [975, 742, 1_050, 902]); // Nevada
    assert_eq!(solids(50), [813, 742, 734, 646]); // Wyoming
}

/// The LN that a line of the book could have come from.
fn ln(number: u8, line: &Line) -> Ln {
    let (system, conversion_factor) = match line.system {
        System::Anaerobic => (0, 0),
        System::Other { conversion_factor } => (1, conversion_factor),
    };
    Ln {
        line: number,
        system,
        category: line.category,
        table_solids: line.table_solids,
        mass: line.mass,
        share: line.share,
        b0: line.b0,
        conversion_factor,
    }
}

#[test]
fn every_ld_that_is_taken_is_an_ln_that_is() {
    for livestock in 1..=LAST_LIVESTOCK {
        for state in 0..=LAST_STATE {
            let record = ld(livestock, state);
            if posted(&record).is_none() {
                let same = ln(record.line, &kept(&record));
                assert_eq!(book_of(&[same.bytes()]), book_of(&[record.bytes()]));
            }
        }
    }
}

#[test]
fn the_other_fields_are_kept_as_posted() {
    let record = Ld {
        line: 32,
        system: 1,
        category: 16,
        livestock: 8,
        state: 0,
        share: 9_999,
        conversion_factor: 1_234,
    };
    let line = Line {
        system: System::Other {
            conversion_factor: 1_234,
        },
        category: 16,
        table_solids: 889,
        mass: 125,
        share: 9_999,
        b0: 48,
    };
    assert_eq!(kept(&record), line);
}

#[test]
fn refusal_5_for_a_line_that_either_mark_has_filled() {
    let by_ld = LIVESTOCK_LINE_1.bytes();
    let by_ln = LINE_1.bytes();
    let same = ln(1, &kept(&LIVESTOCK_LINE_1)).bytes();
    for first in [by_ld, by_ln] {
        let mut book = book_of(&[first]);
        let before = book.clone();
        for second in [by_ld, by_ln, same, ld(8, 0).bytes()] {
            assert_eq!(numbers(book.post(&second)), Some((5, 0)));
        }
        assert_eq!(book, before);
    }
}

#[test]
fn the_checks_go_3_4_5_and_fields_by_their_offsets() {
    let mut book = book_of(&[LINE_1.bytes()]);
    let mut answer = |record: &Bytes| numbers(book.post(record));
    let mut worst = *b"LD\xff\xff\xff\xff\xff\xff\xff\xff\xff\xff\0\0\0\xff";
    assert_eq!(answer(&worst), Some((3, 7)));
    worst[7] = 0;
    assert_eq!(answer(&worst), Some((3, 15)));
    worst[15] = 0;
    let right = LIVESTOCK_LINE_1.bytes();
    for fields in [2..3, 3..4, 4..5, 5..6, 6..7, 8..10, 10..12] {
        let place = fields.start as u16;
        assert_eq!(answer(&worst), Some((4, place)));
        worst[fields.clone()].copy_from_slice(&right[fields]);
    }
    assert_eq!(answer(&worst), Some((5, 0)));
}
