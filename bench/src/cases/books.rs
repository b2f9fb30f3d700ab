//! Whole books: every key, the calendar, every temperature, tonnes, and books
//! and streams made at random.

use super::{Group, Program, SEED};
use crate::book::{
    record, whole, Extent, Most, Record, CATEGORIES, DEVICES, DR, LINES, LN, MONTHS,
};
use crate::book::{HD, MT, PE, TP, YR};
use crate::farm::{self, and, hot_but, million, nothing, steady, Single};
use crate::farm::{CARRYING, HOT, MILLION_MONTH};
use crate::random::Random;
use crate::streams::{joined, stream};

/// Each line, each category and each device by itself, beside others.
pub fn keys() -> Group {
    let mut group = Group::new("every line, category and device", 80, 80, 80);
    for line in 1..=LINES {
        let category = (line * 5) % CATEGORIES + 1;
        let farm = Single {
            line: [line, 0, category, 811 + line, 6_003, 9_000, 24, 0],
            ..Single::paper(12)
        };
        let heads = |month| farm::head(category, month);
        let book = farm.book(heads, steady(CARRYING), nothing);
        let drained = [line, line, line % LINES + 1, category];
        let months = [3, 8, 5, 10];
        let drains: Vec<Record> = drained
            .into_iter()
            .zip(months)
            .map(|(line, month)| record(DR, &[line, month]))
            .collect();
        group.book(
            format!("line {line} of category {category}"),
            &and(book, &drains),
        );
    }
    for device in 1..=DEVICES {
        for month in 1..=12 {
            let heads = |month| farm::head(1, month);
            let book = Single::paper(12).book(heads, steady(HOT), nothing);
            group.book(
                format!("device {device} in month {month}"),
                &and(
                    book,
                    &[record(MT, &[month, device, 1_000_000 * device + month])],
                ),
            );
        }
    }
    group
}

/// Ten years from each first year, at a temperature at which it shows which
/// month has a day more: what enters earlier has longer to degrade. And a single
/// month from each first month, which is drained, while the others leave nothing.
pub fn calendar() -> Group {
    let mut group = Group::new("the calendar", 174, 174, 40);
    let heads = |month: i64| 100 + month * 37 % 101;
    let mut ten_years = |year: i64, first: i64| {
        let farm = Single {
            first: [year, first],
            ..Single::paper(MONTHS)
        };
        group.book(
            format!("ten years from month {first} of {year}"),
            &farm.book(heads, steady(CARRYING), nothing),
        );
    };
    for year in 2000..=2089 {
        ten_years(year, year % 12 + 1);
    }
    for first in 1..=12 {
        for year in [2000, 2003, 2004, 2089] {
            ten_years(year, first);
        }
    }
    for first in 1..=12 {
        for year in [2000, 2001, 2004] {
            let farm = Single {
                first: [year, first],
                ..Single::paper(12)
            };
            let book = farm.book(steady(100), hot_but(1..=1, 49), nothing);
            group.book(
                format!("the days of month {first} of {year}"),
                &and(book, &[record(DR, &[1, 1])]),
            );
        }
    }
    group
}

/// Every temperature that is taken, 120 to a book, each with a herd so large
/// that a millionth shows: drained each month, and carried on.
pub fn temperatures() -> Group {
    let mut group = Group::new("every temperature", 36, 36, 20);
    let all: Vec<i64> = (-500..=600).collect();
    for tenths in all.chunks(MONTHS as usize) {
        for drained in [true, false] {
            group.book(
                format!("from {} on, drained: {drained}", tenths[0]),
                &walk(tenths, drained),
            );
        }
    }
    for tenths in (47..=53).chain(297..=305) {
        let book = million(tenths, [0; 3]);
        group.book(
            format!("a million grams at {tenths}"),
            &and(book, &[record(DR, &[1, MILLION_MONTH])]),
        );
    }
    group
}

/// Ten years whose months have these temperatures, the last again to the end.
fn walk(tenths: &[i64], drained: bool) -> Vec<Record> {
    let mut records = vec![record(YR, &[2011, 1]), record(LN, &farm::PAPER_LINE)];
    for month in 1..=MONTHS {
        let index = (month as usize - 1).min(tenths.len() - 1);
        records.push(record(TP, &[month, tenths[index]]));
        records.push(record(HD, &[1, month, 90_000 + 17 * month]));
        records.push(record(PE, &[month, 0, 0, 0]));
        if drained {
            records.push(record(DR, &[1, month]));
        }
    }
    records
}

/// Totals about each half of a tonne, below 0 and above, and the lesser of
/// modelled and metered, each told by the tonnes alone.
pub fn tonnes() -> Group {
    let mut group = Group::new("tonnes", 74, 74, 50);
    for halves in -6..=6 {
        for gram in [-1, 0, 1] {
            let total = halves * 500_000 + gram;
            let case = group.book(format!("total {total}"), &book_of_total(total));
            let by_paper = [(500_000, 0), (500_001, 1), (-499_999, 0), (-500_000, -1)];
            for (_, net) in by_paper.iter().filter(|(grams, _)| *grams == total) {
                case.states("net", *net).states("credited", *net.max(&0));
            }
        }
    }
    // 3,427,200 grams of baseline are 21 times 163,200.
    for destroyed in [0, 163_190, 163_199, 163_200, 163_201, 163_210, 1_000_000] {
        for methane in [0, 1, 3_427, 3_428, 10_000] {
            let book = million(HOT, [methane, 73, 0]);
            group.book(
                format!("destroyed {destroyed}, project methane {methane}"),
                &and(book, &[record(MT, &[MILLION_MONTH + 6, 2, destroyed])]),
            );
        }
    }
    group
}

/// A book whose total is so many grams: 21 times 381 is one more than 8,000,
/// so that the meter makes the last three digits and carbon dioxide the rest.
fn book_of_total(total: i64) -> Vec<Record> {
    let destroyed = (total * 381).rem_euclid(1_000);
    let kilograms = (total - 21 * destroyed) / 1_000;
    let figures = [0, kilograms.max(0), (-kilograms).max(0)];
    let last = MILLION_MONTH + 11;
    and(million(HOT, figures), &[record(MT, &[last, 1, destroyed])])
}

/// Books of few heads, and of small figures of the project and the meters.
pub fn small() -> Group {
    let mut group = Group::new("small books", 120, 105, 105);
    for case in 0..120 {
        let random = &mut Random::of_case(SEED, case);
        let extent = Extent {
            lines: random.within(1, 4),
            categories: random.within(1, 3),
            months: 12 * random.within(1, 2),
            devices: random.within(0, 2),
        };
        let most = Most {
            head: random.within(1, 40),
            project: random.within(0, 3),
            destroyed: 100_000,
        };
        group.book(
            format!("small book {case}"),
            &crate::book::book(random, &extent, &most),
        );
    }
    group
}

/// Books of one, two and three years and a part, in order or shuffled.
pub fn whole_books() -> Group {
    let mut group = Group::new("whole books", 200, 160, 160);
    for case in 0..200 {
        let random = &mut Random::of_case(SEED + 1, case);
        let extent = Extent {
            lines: random.within(1, 12),
            categories: random.within(1, 5),
            months: 12 * random.within(1, 3) + random.within(0, 1) * random.within(0, 11),
            devices: random.within(0, DEVICES),
        };
        let mut records = whole(random, &extent);
        if random.once_in(2) {
            random.shuffle(&mut records);
        }
        group.book(format!("book {case}"), &records);
    }
    group
}

/// Books of all ten years, whose whole text is compared: at random, full, and
/// with every field at its highest.
pub fn ten_years() -> Group {
    let mut group = Group::new("ten years", 43, 38, 38);
    for case in 0..36 {
        let random = &mut Random::of_case(SEED + 2, case);
        let extent = Extent {
            lines: random.within(1, 6),
            categories: random.within(1, 3),
            months: MONTHS - random.within(0, 1) * random.within(0, 1),
            devices: random.within(0, DEVICES),
        };
        group.book(format!("ten years {case}"), &whole(random, &extent));
    }
    let random = &mut Random::of_case(SEED + 3, 0);
    group.book("a full book", &whole(random, &Extent::FULL));
    for (name, tenths) in [("coldest", -500), ("warm", 215), ("hottest", 600)] {
        for system in [0, 1] {
            group.book(
                format!("the highest of all, {name}, system {system}"),
                &highest(tenths, system),
            );
        }
    }
    group
}

/// Sixteen categories in two lines each, everything at its highest.
fn highest(tenths: i64, system: i64) -> Vec<Record> {
    let mut records = vec![record(YR, &[2089, 12])];
    for line in 1..=LINES {
        let category = (line - 1) % CATEGORIES + 1;
        records.push(record(
            LN,
            &[
                line,
                system,
                category,
                2_000,
                20_000,
                5_000,
                100,
                system * 10_000,
            ],
        ));
    }
    for month in 1..=MONTHS {
        for category in 1..=CATEGORIES {
            records.push(record(HD, &[category, month, 100_000]));
        }
        let all = i64::from(u32::MAX);
        records.push(record(TP, &[month, tenths]));
        records.push(record(
            PE,
            &[month, all * (month % 2), all, all * (month % 3 / 2)],
        ));
        for device in 1..=DEVICES {
            records.push(record(MT, &[month, device, 1_000_000_000_000]));
        }
    }
    records
}

/// The streams that the library is held to the second program on, some of them.
pub fn streams() -> Group {
    let mut group = Group::new("streams", 600, 130, 165);
    for case in 0..600 {
        group.add(Program::Years, format!("stream {case}"), stream(SEED, case));
    }
    // A stream that is read in more than one block, and cut in the last.
    let random = &mut Random::of_case(SEED + 4, 0);
    let long = joined(&whole(random, &Extent::FULL));
    for cut in [4_095, 4_096, 4_097, 65_535, 65_536, 65_537, long.len() - 1] {
        group.add(
            Program::Years,
            format!("a full book cut at {cut}"),
            long[..cut.min(long.len())].to_vec(),
        );
    }
    group
}
