//! Paper 01's "Figures to check", as the programs print them, and its worked
//! example: each held to the number that the paper gives.

use super::{Group, Program};
use crate::book::{record, Record, DR, HD, MT, PE, TP};
use crate::farm::{and, hot_but, million, nothing, steady, Single, HOT, MILLION_MONTH};
use crate::hours::{Hours, NEITHER, NO_FLOW};

pub(super) const WORKED: &str = "\
year 1
entered 175200000 degraded 175200000 removed 0 carried 0
baseline 600445440 project 12000000 metered 504000000
net 498 credited 498
refused 8 at 13
";

pub fn figures() -> Group {
    let mut group = Group::new("the paper's figures", 31, 24, 22);
    worked(&mut group);
    ends(&mut group);
    solids(&mut group);
    factors(&mut group);
    hours(&mut group);
    group
}

/// The worked example over so many months, with these heads.
pub(super) fn worked_book(months: i64, head: impl Fn(i64) -> i64) -> Vec<Record> {
    let book = Single::paper(months).book(head, steady(HOT), |_| [1_000, 0, 500]);
    let destroyed: Vec<Record> = (1..=months)
        .map(|month| record(MT, &[month, 1, 2_000_000]))
        .collect();
    and(book, &destroyed)
}

fn worked(group: &mut Group) {
    group
        .book("the worked example", &worked_book(12, steady(100)))
        .prints(WORKED);
    group
        .add(Program::Years, "empty input", Vec::new())
        .prints("refused 8 at 0\n");
}

/// The ends of heads and months.
fn ends(group: &mut Group) {
    group
        .book("head 100,000", &worked_book(12, steady(100_000)))
        .states("year", 1)
        .states("entered", 175_200_000_000);
    group
        .book("head 100,001", &worked_book(12, steady(100_001)))
        .prints("refused 4 at 4\n");
    // 2020, the tenth year from 2011, has 366 days at 480,000 grams.
    group
        .book("month 120", &worked_book(120, steady(100)))
        .states("year", 10)
        .states("entered", 366 * 480_000);
    for (month, taken) in [(120, true), (121, false)] {
        let records = [
            (HD, vec![1, month, 100], 3),
            (TP, vec![month, 302], 2),
            (DR, vec![1, month], 3),
            (PE, vec![month, 0, 0, 0], 2),
            (MT, vec![month, 1, 0], 2),
        ];
        for (row, values, place) in records {
            let book = and(worked_book(12, steady(100)), &[record(row, &values)]);
            let text = if taken {
                WORKED.to_string()
            } else {
                format!("refused 4 at {place}\n")
            };
            group
                .book(format!("row {row}, month {month}"), &book)
                .prints(&text);
        }
    }
}

/// What January and February of 2011 enter, degrade, hand on and remove. The
/// year's other months are hot: what they enter degrades, and they hand on
/// nothing.
fn solids(group: &mut Group) {
    const YEAR_ENTERED: i64 = 365 * 480_000;
    const JANUARY_ENTERED: i64 = 14_880_000;
    const FEBRUARY_ENTERED: i64 = 13_440_000;
    // The book's first month, which is drained: what it enters is what it
    // degrades and what is removed.
    for (days, first, entered, degraded) in [
        (31, 1, JANUARY_ENTERED, 1_547_520),
        (28, 2, FEBRUARY_ENTERED, 1_397_760),
    ] {
        let farm = Single {
            first: [2011, first],
            ..Single::paper(12)
        };
        let book = farm.book(steady(100), hot_but(1..=1, 49), nothing);
        group
            .book(format!("{days} days"), &and(book, &[record(DR, &[1, 1])]))
            .states("degraded", YEAR_ENTERED - entered + degraded)
            .states("removed", entered - degraded);
    }
    // January is the last month but `after`.
    let january = |after: i64| Single {
        first: [2010, 2 + after],
        ..Single::paper(12)
    };
    let others = YEAR_ENTERED - JANUARY_ENTERED;
    group
        .book(
            "January at 4.9",
            &january(0).book(steady(100), hot_but(12..=12, 49), nothing),
        )
        .states("degraded", others + 1_547_520)
        .states("carried", 13_332_480);
    let others = others - FEBRUARY_ENTERED;
    let both = january(1).book(steady(100), hot_but(11..=12, 49), nothing);
    group
        .book("February after it", &both)
        .states("degraded", others + 1_547_520 + 2_784_337)
        .states("carried", 23_988_143);
    group
        .book("January drained", &and(both, &[record(DR, &[1, 11])]))
        .states("removed", 13_332_480)
        .states("degraded", others + 1_547_520 + 1_397_760);
}

/// A million grams in a month that is then drained degrade by the factor
/// itself.
fn factors(group: &mut Group) {
    let factors = [
        (49, 104_000, 104_000),
        (50, 102_000, 103_000),
        (200, 417_000, 418_000),
        (301, 995_000, 996_000),
        (302, 1_000_000, 1_000_000),
    ];
    for (tenths, low, high) in factors {
        let book = million(tenths, [0; 3]);
        let case = group.book(
            format!("the factor at {tenths} tenths"),
            &and(book, &[record(DR, &[1, MILLION_MONTH])]),
        );
        case.states("entered", 0)
            .between("degraded", low, high)
            .between("removed", 1_000_000 - high, 1_000_000 - low);
        if low == 1_000_000 {
            case.states("baseline", 3_427_200);
        }
    }
}

fn hours(group: &mut Group) {
    let gaps = [
        ("no gap", 0..0, 27_417_600),
        ("no flow in hours 10 to 14", 10..15, 27_417_600),
        ("no flow in hours 10 to 15", 10..16, 27_172_800),
    ];
    for (name, gap, grams) in gaps {
        let mut month = Hours::steady(672, 100.0, 60.0);
        month.states[gap].fill(NO_FLOW);
        group
            .hours(name, &month)
            .prints(&format!("destroyed {grams}\n"));
    }
    let single = [
        ("an hour", 100.0, 60.0, 10_000, 40_800),
        ("an hour at 98 per cent", 100.0, 60.0, 9_800, 39_984),
        (
            "content 60.1 counts 6009",
            100_000.0,
            60.1,
            10_000,
            6009 * 6_800,
        ),
    ];
    for (name, flow, content, efficiency, grams) in single {
        let mut month = Hours::steady(672, flow, content);
        month.efficiency = efficiency;
        month.states[1..].fill(NEITHER);
        group
            .hours(name, &month)
            .prints(&format!("destroyed {grams}\n"));
    }
}
