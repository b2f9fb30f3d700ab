//! The figures of a year.

mod common;

use common::*;
use second::lagoon::Solids;
use second::year::{nearest_tonnes, year};

const SAMPLE_YEAR: &str = "\
year 1
entered 175200000 degraded 175200000 removed 0 carried 0
baseline 600445440 project 12000000 metered 504000000
net 498 credited 498";

#[test]
fn the_worked_year() {
    let sample = figures(&sample(), 1);
    assert_eq!(sample.to_string(), SAMPLE_YEAR);
    assert_eq!(sample.modelled, 588_445_440);
    assert_eq!(sample.methane_reduction, 504_000_000);
    assert_eq!((sample.baseline_co2, sample.project_co2), (0, 6_000_000));
    assert_eq!(sample.total, 498_000_000);
}

#[test]
fn the_nearest_tonne_with_halves_to_the_lower_number() {
    let tonnes = [
        (500_000, 0),
        (500_001, 1),
        (-499_999, 0),
        (-500_000, -1),
        (0, 0),
        (499_999, 0),
        (1_499_999, 1),
        (1_500_000, 1),
        (1_500_001, 2),
        (-500_001, -1),
        (-1_000_000, -1),
        (-1_499_999, -1),
        (-1_500_000, -2),
        (-1_500_001, -2),
    ];
    for (grams, net) in tonnes {
        assert_eq!(nearest_tonnes(grams), net, "{grams}");
    }
}

/// A year whose total is `baseline_co2 - project_co2` kilograms alone.
fn carbon_dioxide_year(baseline_co2: u32, project_co2: u32) -> (i128, u128) {
    let mut records = without(&plain((2011, 1), &[LINE_1], 12, 302), &[pe(1, 0, 0, 0)]);
    records.push(pe(1, 0, baseline_co2, project_co2));
    let figures = figures(&records, 1);
    (figures.net, figures.credited)
}

#[test]
fn credited_is_net_or_0() {
    assert_eq!(carbon_dioxide_year(0, 0), (0, 0));
    assert_eq!(carbon_dioxide_year(1_500, 0), (1, 1));
    assert_eq!(carbon_dioxide_year(1_501, 0), (2, 2));
    assert_eq!(carbon_dioxide_year(0, 499), (0, 0));
    assert_eq!(carbon_dioxide_year(0, 500), (-1, 0));
    assert_eq!(carbon_dioxide_year(0, 2_600), (-3, 0));
    assert_eq!(carbon_dioxide_year(7_000, 2_600), (4, 4));
}

#[test]
fn a_net_below_0_is_printed_with_its_sign() {
    let mut records = without(&sample(), &[pe(1, 1000, 0, 500)]);
    records.push(pe(1, 1000, 0, 900_000));
    let text = figures(&records, 1).to_string();
    assert!(text.ends_with("\nnet -402 credited 0"), "{text}");
}

#[test]
fn the_lesser_of_modelled_and_metered() {
    let reduction = |grams| {
        let meter = [mt(1, 1, grams)];
        let records = [plain((2011, 1), &[LINE_1], 12, 302), meter.to_vec()].concat();
        let figures = figures(&records, 1);
        assert_eq!(figures.modelled, 600_445_440);
        (figures.metered, figures.methane_reduction)
    };
    // 600,445,440 is 21 x 28,592,640.
    assert_eq!(reduction(28_592_639), (600_445_419, 600_445_419));
    assert_eq!(reduction(28_592_640), (600_445_440, 600_445_440));
    assert_eq!(reduction(28_592_641), (600_445_461, 600_445_440));
    assert_eq!(reduction(0), (0, 0));
}

#[test]
fn a_modelled_reduction_below_0_is_the_lesser() {
    let mut records = without(&plain((2011, 1), &[LINE_1], 12, 302), &[pe(7, 0, 0, 0)]);
    records.push(pe(7, 700_000, 0, 0));
    let figures = figures(&records, 1);
    assert_eq!(figures.modelled, -99_554_560);
    assert_eq!(figures.methane_reduction, -99_554_560);
    assert_eq!((figures.net, figures.credited), (-100, 0));
}

#[test]
fn metered_is_over_the_year_and_all_devices() {
    let mut records = plain((2011, 1), &[LINE_1], 24, 302);
    records.extend([mt(12, 1, 1), mt(12, 4, 10), mt(13, 2, 100), mt(25, 3, 1000)]);
    assert_eq!(figures(&records, 1).metered, 21 * 11);
    assert_eq!(figures(&records, 2).metered, 21 * 100);
}

const OTHER: Ln = Ln {
    line: 2,
    system: 1,
    conversion_factor: 150,
    ..LINE_1
};

#[test]
fn an_other_line_takes_365_days_in_leap_years_too() {
    for first_year in [2011, 2012] {
        let figures = figures(&plain((first_year, 1), &[OTHER], 12, 302), 1);
        assert_eq!(figures.solids, Solids::default());
        // 600,000 grams a day, 3,285,000 converted in 365 days.
        assert_eq!(figures.baseline, 3_285_000 * 24 * 1428 / 10_000);
    }
}

#[test]
fn an_other_line_is_rounded_down_at_each_division() {
    let line = Ln {
        table_solids: 1,
        mass: 1,
        conversion_factor: 9_999,
        b0: 3,
        ..OTHER
    };
    let mut records = without(&plain((2011, 1), &[line], 12, 0), &[hd(1, 5, 100)]);
    records.push(hd(1, 5, 100_000));
    // 101,100 x 10,000 / 120,000,000 is 8.425; 8 x 365 x 9,999 / 10,000 is
    // 2919.7; 2919 x 3 x 1428 / 10,000 is 1250.4.
    assert_eq!(figures(&records, 1).baseline, 1250);
}

/// The book's heads of category 1 changed to what `head` says of each month.
fn with_heads(mut records: Vec<Bytes>, last: u8, head: impl Fn(u8) -> u32) -> Vec<Bytes> {
    for month in 1..=last {
        records = without(&records, &[hd(1, month, 100)]);
        records.push(hd(1, month, head(month)));
    }
    records
}

#[test]
fn an_other_line_takes_the_heads_of_its_own_year() {
    let heads = |month| if month <= 12 { 100 } else { 200 };
    let records = with_heads(plain((2011, 1), &[OTHER], 24, 0), 24, heads);
    assert_eq!(figures(&records, 1).baseline, 11_258_352);
    assert_eq!(figures(&records, 2).baseline, 22_516_704);
}

#[test]
fn a_years_heads_count_the_same_in_whichever_month_they_stand() {
    let steady = plain((2011, 7), &[LINE_1], 12, 120);
    let expected = figures(&steady, 1);
    for only in 1..=12 {
        let one_month = |month| if month == only { 12 * 100 } else { 0 };
        let jumping = with_heads(steady.clone(), 12, one_month);
        assert_eq!(figures(&jumping, 1), expected, "{only}");
    }
    let half_moved = |month| if month <= 6 { 150 } else { 50 };
    assert_eq!(figures(&with_heads(steady, 12, half_moved), 1), expected);
}

#[test]
fn a_month_enters_with_the_heads_of_its_own_year_of_the_book() {
    // From July 2011 on: the book's second year starts in July 2012.
    let heads = |month| if month <= 12 { 100 } else { 300 };
    let records = with_heads(plain((2011, 7), &[LINE_1], 36, 302), 36, heads);
    let (a_day, days_with_a_leap_day, days) = (480_000, 366, 365);
    let entered = |number| figures(&records, number).solids.entered;
    assert_eq!(entered(1), days_with_a_leap_day * a_day);
    assert_eq!(entered(2), days * 3 * a_day);
    assert_eq!(entered(3), days * 3 * a_day);
}

#[test]
fn the_carry_of_an_earlier_year_was_entered_with_that_years_heads() {
    // Hot but for December 2011 and January 2012, which are at 4.9 degrees.
    let mut records = plain((2011, 1), &[LINE_1], 24, 302);
    for month in [12, 13] {
        records = without(&records, &[tp(month, 302)]);
        records.push(tp(month, 49));
    }
    records.push(dr(1, 13));
    let records = with_heads(records, 24, |month| match month {
        6 => 12 * 100,
        18 => 12 * 300,
        _ => 0,
    });
    let first = figures(&records, 1).solids;
    assert_eq!((first.entered, first.carried), (175_200_000, 13_332_480));
    // Of 13,332,480 + 44,640,000 in January 0.104 degrade, 6,029,137.9.
    let second = figures(&records, 2).solids;
    assert_eq!(second.entered, 366 * 3 * 480_000);
    assert_eq!((second.removed, second.carried), (51_943_343, 0));
}

#[test]
fn both_systems_have_the_same_sum_of_heads() {
    let anaerobic = Ln {
        share: 5_000,
        ..LINE_1
    };
    let other = Ln {
        share: 5_000,
        ..OTHER
    };
    let steady = plain((2011, 1), &[anaerobic, other], 12, 302);
    let expected = figures(&steady, 1);
    let jumping = with_heads(steady, 12, |month| if month == 12 { 12 * 100 } else { 0 });
    assert_eq!(figures(&jumping, 1), expected);
}

#[test]
fn a_line_has_the_heads_of_its_own_category() {
    let second_category = Ln {
        line: 2,
        category: 2,
        ..LINE_1
    };
    let records = plain((2011, 1), &[LINE_1, second_category], 12, 302);
    let records = with_heads(records, 12, |month| u32::from(month == 3));
    // 1,200 heads of category 2 and one of category 1, at 400 grams a day.
    assert_eq!(figures(&records, 1).solids.entered, 365 * 400 * 1_201);
}

#[test]
fn leap_days_enter() {
    let cold = |first_year| figures(&plain((first_year, 1), &[LINE_1], 12, 49), 1).solids;
    let a_day = 480_000;
    assert_eq!(cold(2011).entered, 365 * a_day);
    assert_eq!(cold(2012).entered, 366 * a_day);
    assert_eq!(cold(2000).entered, 366 * a_day);
    let from_march = figures(&plain((2011, 3), &[LINE_1], 12, 302), 1);
    assert_eq!(from_march.solids.entered, 366 * a_day);
}

#[test]
fn the_carry_passes_the_years_end() {
    let records = plain((2011, 1), &[LINE_1], 36, 120);
    let book = book_of(&records);
    let mut carried_in = 0;
    for number in 1..=3 {
        let solids = year(&book, number).unwrap().solids;
        assert!(solids.carried > 0);
        assert_eq!(
            carried_in + solids.entered,
            solids.degraded + solids.carried
        );
        carried_in = solids.carried;
    }
}

#[test]
fn a_drain_removes_what_its_own_month_leaves() {
    let mut records = plain((2011, 1), &[LINE_1], 12, 49);
    let undrained = figures(&records, 1).solids;
    records.push(dr(1, 12));
    let drained = figures(&records, 1).solids;
    assert_eq!(drained.degraded, undrained.degraded);
    assert_eq!((drained.removed, drained.carried), (undrained.carried, 0));
    records.push(dr(2, 6));
    assert_eq!(figures(&records, 1).solids, drained);
}

#[test]
fn the_carry_is_kept_by_line() {
    let half = |line, category| Ln {
        line,
        category,
        share: 5_000,
        ..LINE_1
    };
    let one = figures(&plain((2011, 1), &[half(3, 1)], 12, 49), 1);
    let mut records = plain((2011, 1), &[half(3, 1), half(9, 1), half(4, 2)], 12, 49);
    let three = figures(&records, 1);
    assert_eq!(three.solids.carried, 3 * one.solids.carried);
    assert_eq!(three.baseline, 3 * one.baseline);
    records.push(dr(9, 12));
    let drained = figures(&records, 1);
    assert_eq!(drained.solids.removed, one.solids.carried);
    assert_eq!(drained.solids.carried, 2 * one.solids.carried);
}

#[test]
fn other_lines_have_no_solids_and_their_drains_do_nothing() {
    let anaerobic = Ln {
        share: 8_500,
        ..LINE_1
    };
    let other = Ln {
        share: 1_500,
        ..OTHER
    };
    let alone = figures(&plain((2011, 1), &[anaerobic], 12, 200), 1);
    let mut records = plain((2011, 1), &[anaerobic, other], 12, 200);
    let both = figures(&records, 1);
    assert_eq!(both.solids, alone.solids);
    // 90,000 grams a day, 492,750 converted, 1,688,752.8 grams CO2e.
    assert_eq!(both.baseline - alone.baseline, 1_688_752);
    records.push(dr(2, 3));
    assert_eq!(figures(&records, 1), both);
}

// Worked out apart from this crate, by exact fractions.
const MIXED_YEAR_1: &str = "\
year 1
entered 299422841 degraded 222753368 removed 34318895 carried 42350578
baseline 645576331 project 7800000 metered 1474200000
net 637 credited 637";
const MIXED_YEAR_2: &str = "\
year 2
entered 469256267 degraded 368712073 removed 96840811 carried 46053961
baseline 1120354713 project 22200000 metered 4195800000
net 1095 credited 1095";

#[test]
fn two_years_of_mixed_lines() {
    let lines = [
        Ln {
            share: 6_000,
            ..LINE_1
        },
        Ln {
            line: 5,
            category: 2,
            table_solids: 777,
            mass: 4321,
            b0: 17,
            ..LINE_1
        },
        Ln {
            line: 7,
            share: 4_000,
            ..OTHER
        },
    ];
    let mut records = vec![yr(2011, 10), dr(1, 6), dr(5, 14), dr(1, 24)];
    records.extend(lines.iter().map(Ln::bytes));
    for month in 1..=24u8 {
        let m = u32::from(month);
        records.push(hd(1, month, 100 + 7 * m + 1));
        records.push(hd(2, month, 100 + 7 * m + 2));
        records.push(tp(month, (m as i16 * 37) % 400 - 50));
        records.push(pe(month, m * 100, m * 30, m * 45));
        records.push(mt(month, 1, 300_000 * u64::from(month)));
        records.push(mt(month, 2, 600_000 * u64::from(month)));
    }
    let book = book_of(&records);
    let text = |number| year(&book, number).unwrap().to_string();
    assert_eq!(text(1), MIXED_YEAR_1);
    assert_eq!(text(2), MIXED_YEAR_2);
}

#[test]
fn the_largest_book_stays_far_from_refusal_12() {
    let line = |line, category| Ln {
        line,
        category,
        table_solids: 2_000,
        mass: 20_000,
        share: 5_000,
        b0: 100,
        ..LINE_1
    };
    let mut records = vec![yr(2000, 1)];
    for category in 1..=16 {
        records.push(line(category, category).bytes());
        records.push(line(16 + category, category).bytes());
        records.extend((1..=120).map(|month| hd(category, month, 100_000)));
    }
    for month in 1..=120 {
        records.push(tp(month, if month <= 108 { 50 } else { 600 }));
        records.push(pe(month, u32::MAX, u32::MAX, u32::MAX));
        records.extend((1..=4).map(|device| mt(month, device, 1_000_000_000_000)));
    }
    let book = book_of(&records);
    for number in 1..=10 {
        let figures = year(&book, number).unwrap();
        assert!(figures.baseline < 3_000_000_000_000_000);
        assert!(figures.total.unsigned_abs() < 1 << 52);
        assert_eq!(figures.metered, 21 * 48 * 1_000_000_000_000);
    }
}
