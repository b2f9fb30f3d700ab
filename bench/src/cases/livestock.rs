//! Lines by livestock (paper 02, (i)): every row of the protocol's tables and
//! those beside them, and a line that LN or LD has filled.

use super::Group;
use crate::book::{record, Record, BY_STATE, HD, LD, LIVESTOCK, LN, STATES};
use crate::farm::{self, and, farm, nothing, steady, Single, HOT};

const FIRST_LINE: i64 = 1;
/// A line that the farm does not have.
const FREE_LINE: i64 = 6;

pub fn livestock() -> Group {
    let mut group = Group::new("lines by livestock", 285, 205, 100);
    figures(&mut group);
    every_row(&mut group);
    beside_the_rows(&mut group);
    filled(&mut group);
    as_a_line(&mut group);
    group
}

/// Paper 01's worked year with a line of this livestock in place of its LN.
fn book_of(livestock: i64, state: i64) -> Vec<Record> {
    let mut book = Single::paper(12).book(steady(100), steady(HOT), nothing);
    let line = record(LN, &farm::PAPER_LINE);
    let place = book.iter().position(|record| *record == line);
    book[place.expect("the book has a line")] = by_livestock(FIRST_LINE, livestock, state);
    book
}

/// An anaerobic line of category 1, with all its manure.
fn by_livestock(line: i64, livestock: i64, state: i64) -> Record {
    record(LD, &[line, 0, 1, livestock, state, 10_000, 0])
}

/// 100 dairy cows of California enter 433,913.6 grams a day, 604 kg each at
/// 8.98 kg a day for 1,000 kg; 100 nursery swine 8,890 grams.
fn figures(group: &mut Group) {
    group
        .book("dairy cows of California", &book_of(1, 5))
        .states("entered", 7 * 13_451_321 + 4 * 13_017_408 + 12_149_580)
        .states("baseline", 158_378_459 * 24 * 1_428 / 10_000);
    group
        .book("nursery swine", &book_of(8, 0))
        .states("entered", 365 * 8_890)
        .states("baseline", 365 * 8_890 * 48 * 1_428 / 10_000);
}

/// Every livestock, with every state where it is asked for.
fn every_row(group: &mut Group) {
    for livestock in 1..=LIVESTOCK {
        let states = if BY_STATE.contains(&livestock) {
            1..=STATES
        } else {
            0..=0
        };
        for state in states {
            group.book(
                format!("livestock {livestock}, state {state}"),
                &book_of(livestock, state),
            );
        }
    }
}

/// Livestock and states that no row has, and states where none is asked for.
fn beside_the_rows(group: &mut Group) {
    for livestock in [0, LIVESTOCK + 1, LIVESTOCK + 2, 129, 255] {
        for state in [0, 1, STATES, STATES + 1] {
            refused(group, livestock, state, "refused 4 at 5\n");
        }
    }
    for livestock in 1..=LIVESTOCK {
        let states = if BY_STATE.contains(&livestock) {
            [0, STATES + 1, STATES + 2, 133, 255]
        } else {
            [1, 5, STATES, STATES + 1, 255]
        };
        for state in states {
            refused(group, livestock, state, "refused 4 at 6\n");
        }
    }
}

fn refused(group: &mut Group, livestock: i64, state: i64, text: &str) {
    let name = format!("livestock {livestock}, state {state}, refused");
    group.book(name, &book_of(livestock, state)).prints(text);
}

/// A line that is filled, by LN or by LD, is refused to both; the same values
/// make no difference.
fn filled(group: &mut Group) {
    let by_values = |line: i64| record(LN, &[line, 0, 1, 811, 6_003, 0, 24, 0]);
    let same = |line: i64| record(LN, &[line, 0, 1, 898, 6_040, 10_000, 24, 0]);
    let swine = |line: i64| by_livestock(line, 9, 0);
    let cows = |line: i64| by_livestock(line, 1, 5);
    let orders: [(&str, [Record; 2]); 6] = [
        ("LD over LN", [by_values(FREE_LINE), cows(FREE_LINE)]),
        ("LN over LD", [cows(FREE_LINE), by_values(FREE_LINE)]),
        (
            "LN over the LD that is the same",
            [cows(FREE_LINE), same(FREE_LINE)],
        ),
        (
            "LD over the LN that is the same",
            [same(FREE_LINE), cows(FREE_LINE)],
        ),
        ("LD over another LD", [cows(FREE_LINE), swine(FREE_LINE)]),
        ("LD again", [cows(FREE_LINE), cows(FREE_LINE)]),
    ];
    for (name, records) in orders {
        group
            .book(name, &and(farm(12), &records))
            .prints("refused 5 at 0\n");
    }
    for (name, record) in [
        ("LD over the farm's LN", cows(1)),
        ("LN over the farm's LD", by_values(4)),
        ("LD over the farm's LD", swine(4)),
    ] {
        group
            .book(name, &and(farm(12), &[record]))
            .prints("refused 5 at 0\n");
    }
}

/// A line by livestock has its share of its category, which needs its heads.
fn as_a_line(group: &mut Group) {
    let line = |category, share| record(LD, &[FREE_LINE, 0, category, 3, 5, share, 0]);
    let heads = |category: i64| (1..=12).map(move |month| record(HD, &[category, month, 9]));
    for share in [999, 1_000, 1_001] {
        group.book(
            format!("{share} more of category 1, of which 9,000 are shared"),
            &and(farm(12), &[line(1, share)]),
        );
    }
    group
        .book("a category without heads", &and(farm(12), &[line(3, 1)]))
        .prints("refused 8 at 1\n");
    let with_heads = and(farm(12), &heads(3).collect::<Vec<_>>());
    group.book("a category with heads", &and(with_heads, &[line(3, 1)]));
}
