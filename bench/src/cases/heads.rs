//! Heads that jump (paper 02, (ii)): a lagoon's month enters by the sum of its
//! own year's twelve heads, and the years are the book's.

use super::figures::{worked_book, WORKED};
use super::Group;
use crate::book::{record, CATEGORIES, DR, HD, LN, MONTHS, PE, TP, YR};
use crate::farm::{and, hot_but, nothing, steady, Single, CARRYING};

/// What paper 01's line enters in each day of a year for a head in one of its
/// months: a twelfth of 4,800 grams.
const GRAMS_A_DAY: i64 = 400;

pub fn heads() -> Group {
    let mut group = Group::new("heads that jump", 398, 398, 270);
    within_a_year(&mut group);
    beside_a_years_end(&mut group);
    another_sum_each_year(&mut group);
    not_divided_by_12(&mut group);
    two_categories(&mut group);
    largest(&mut group);
    short_of_a_gram(&mut group);
    drained(&mut group);
    group
}

/// A year's heads all in one month, whichever it is: the figures are those of a
/// herd that stays. And half of a herd that goes in some month.
fn within_a_year(group: &mut Group) {
    for only in 1..=12 {
        let heads = |month| if month == only { 12 * 100 } else { 0 };
        group
            .book(
                format!("a year's heads in month {only}"),
                &worked_book(12, heads),
            )
            .prints(WORKED);
        group
            .book(
                format!("a year's heads in month {only}, carried on"),
                &Single::paper(12).book(heads, steady(CARRYING), nothing),
            )
            .states("entered", 365 * 480_000);
    }
    for moved in 2..=12 {
        let heads = |month| if month < moved { 100 } else { 50 };
        let sum = 100 * 12 - 50 * (13 - moved);
        group
            .book(
                format!("half the herd moved in month {moved}"),
                &Single::paper(12).book(heads, steady(CARRYING), nothing),
            )
            .states("entered", 365 * GRAMS_A_DAY * sum);
    }
}

/// Jumps about the ends of the book's years, which are those of the calendar
/// only where the book starts in January.
fn beside_a_years_end(group: &mut Group) {
    for first in [1, 2, 7, 12] {
        let farm = Single {
            first: [2011, first],
            ..Single::paper(36)
        };
        // The leap day of 2012 is in the first year or the second.
        let third_year = |sum: i64| 365 * GRAMS_A_DAY * sum;
        for jump in [1, 11, 12, 13, 14, 23, 24, 25, 26, 36] {
            let once = |month| if month == jump { 1_300 } else { 100 };
            let sum = if jump > 24 { 2_400 } else { 1_200 };
            group
                .book(
                    format!(
                        "more heads in month {jump} alone, the book from month {first} of 2011"
                    ),
                    &farm.book(once, steady(CARRYING), nothing),
                )
                .states("entered", third_year(sum));
            let from_then_on = |month| if month >= jump { 400 } else { 100 };
            let sum = 1_200 + 300 * (37 - jump).min(12);
            group
                .book(
                    format!("more heads from month {jump} on, the book from month {first} of 2011"),
                    &farm.book(from_then_on, steady(CARRYING), nothing),
                )
                .states("entered", third_year(sum));
        }
    }
}

/// Ten years whose sums all differ, from each first month: rising, and falling
/// to nothing.
fn another_sum_each_year(group: &mut Group) {
    for first in 1..=12 {
        let farm = Single {
            first: [2011, first],
            ..Single::paper(MONTHS)
        };
        group.book(
            format!("rising heads from month {first} of 2011"),
            &farm.book(|month| month * month, steady(CARRYING), nothing),
        );
        group.book(
            format!("falling heads from month {first} of 2011"),
            &farm.book(|month| MONTHS - month, steady(CARRYING), nothing),
        );
    }
}

/// Sums of 1 to 23 heads, and those about a hundred in each month: an average
/// that is rounded by itself loses or gains a part of a head.
fn not_divided_by_12(group: &mut Group) {
    let odd_line = [1, 0, 1, 811, 6_003, 9_999, 24, 0];
    for sum in (1..=23).chain(12 * 100 - 11..=12 * 100 + 11) {
        let spread = |month| sum / 12 + i64::from(month <= sum % 12);
        group
            .book(
                format!("{sum} heads in a year"),
                &Single::paper(12).book(spread, steady(CARRYING), nothing),
            )
            .states("entered", 365 * GRAMS_A_DAY * sum);
        let odd = Single {
            line: odd_line,
            ..Single::paper(12)
        };
        group.book(
            format!("{sum} heads in a year of an odd line"),
            &odd.book(spread, steady(CARRYING), nothing),
        );
    }
}

/// Two categories whose heads jump apart, each in a lagoon and in another
/// system; the heads of a third have no line.
fn two_categories(group: &mut Group) {
    let lines = [
        [1, 0, 1, 811, 6_003, 5_000, 24, 0],
        [2, 0, CATEGORIES, 907, 4_999, 7_001, 31, 0],
        [3, 1, CATEGORIES, 1_013, 5_501, 2_999, 19, 3_003],
        [4, 1, 1, 1_013, 5_501, 4_000, 19, 2_002],
    ];
    let book = |heads: &dyn Fn(i64) -> [i64; 3]| {
        let mut records = vec![record(YR, &[2011, 5])];
        records.extend(lines.iter().map(|line| record(LN, line)));
        for month in 1..=24 {
            for (category, head) in [1, 2, CATEGORIES].into_iter().zip(heads(month)) {
                records.push(record(HD, &[category, month, head]));
            }
            records.push(record(TP, &[month, CARRYING]));
            records.push(record(PE, &[month, 0, 0, 0]));
        }
        records
    };
    for moved in 1..=24 {
        group.book(
            format!("half of a category moved to another in month {moved}"),
            &book(&|month| {
                if month < moved {
                    [101, 1_000, 0]
                } else {
                    [51, 2_000, 50]
                }
            }),
        );
        group.book(
            format!("a category of month {moved} alone"),
            &book(&|month| [i64::from(month == moved) * 777, 9, 55]),
        );
    }
}

const MOST_HEAD: i64 = 100_000;

/// So many heads in each year, in its first months as many as a month may have.
fn each_year(sum: i64) -> impl Fn(i64) -> i64 {
    move |month| (sum - MOST_HEAD * ((month - 1) % 12)).clamp(0, MOST_HEAD)
}

/// Heads at their highest, with which the product passes 64 bits, and the sums
/// beside those with which it first passes 63 or 64 in a month of some days.
fn largest(group: &mut Group) {
    let product_of_a_head = |days: u128| 2_000 * 20_000 * 10_000 * days * 8;
    let entered_a_day = 3_200_000_000;
    let farm = Single {
        line: [1, 0, 1, 2_000, 20_000, 10_000, 100, 0],
        ..every_number_of_days()
    };
    group
        .book(
            "the most heads",
            &farm.book(steady(MOST_HEAD), steady(CARRYING), nothing),
        )
        .states("entered", 365 * entered_a_day);
    for less in 1..=24 {
        let heads = |month| MOST_HEAD - i64::from(month == less);
        group.book(
            format!("the most heads but one in month {less}"),
            &farm.book(heads, steady(CARRYING), nothing),
        );
        let heads = |month| if month == less { MOST_HEAD } else { 0 };
        group.book(
            format!("the most heads in month {less} alone"),
            &farm.book(heads, steady(CARRYING), nothing),
        );
    }
    for bits in [63, 64] {
        for days in 28..=31 {
            let most = (((1_u128 << bits) - 1) / product_of_a_head(days)) as i64;
            for (side, sum) in [("within", most), ("past", most + 1)] {
                group.book(
                    format!("{sum} heads, {side} {bits} bits in a month of {days} days"),
                    &farm.book(each_year(sum), steady(CARRYING), nothing),
                );
            }
        }
    }
}

/// Sums with which some month enters a whole number of grams less some
/// millionths of one: the quotient of a float would be rounded up.
fn short_of_a_gram(group: &mut Group) {
    let farm = Single {
        line: [1, 0, 1, 1_999, 19_999, 9_999, 100, 0],
        ..every_number_of_days()
    };
    for (days, sum) in [(28, 1_183_441), (30, 1_128_004), (31, 1_014_195)] {
        group.book(
            format!("{sum} heads, almost a gram more in a month of {days} days"),
            &farm.book(each_year(sum), steady(CARRYING), nothing),
        );
    }
}

/// Two years, of which the first has a leap day.
fn every_number_of_days() -> Single {
    Single {
        first: [2012, 1],
        ..Single::paper(24)
    }
}

/// A drained month beside a jump, or with it: what is removed was entered by
/// the year's heads, and not by those that stand there when it is drained.
fn drained(group: &mut Group) {
    // 14,880,000 grams enter in January, of which 4.9 degrees leave 0.896.
    for only in [1, 2, 12] {
        let heads = |month| if month == only { 12 * 100 } else { 0 };
        let book = Single::paper(12).book(heads, hot_but(1..=1, 49), nothing);
        group
            .book(
                format!("month 1 drained, a year's heads in month {only}"),
                &and(book, &[record(DR, &[1, 1])]),
            )
            .states("removed", 13_332_480);
    }
    for first in [1, 8] {
        let farm = Single {
            first: [2011, first],
            ..Single::paper(36)
        };
        for jump in [12, 13, 24, 25] {
            for drained in [11, 12, 13, 14, 24, 25] {
                let heads = |month| if month >= jump { 17 } else { 205 };
                let book = farm.book(heads, steady(CARRYING), nothing);
                group.book(
                    format!(
                        "fewer heads from month {jump} on, month {drained} drained, the book from month {first} of 2011"
                    ),
                    &and(book, &[record(DR, &[1, drained])]),
                );
            }
        }
    }
}
