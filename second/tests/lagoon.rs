//! The lagoon month and the calendar behind its days.

use second::calendar::{days_in, days_of_month, is_leap};
use second::factor::factor;
use second::lagoon::{entered, month, Solids};
use second::record::{FirstMonth, Line, System};
use second::year::emissions;

const LINE: Line = Line {
    system: System::Anaerobic,
    category: 1,
    table_solids: 1000,
    mass: 6000,
    share: 10_000,
    b0: 24,
};

/// 100 head in each of the year's months.
const HEADS: u32 = 12 * 100;

#[test]
fn entered_in_31_and_28_days() {
    assert_eq!(entered(&LINE, HEADS, 31), 14_880_000);
    assert_eq!(entered(&LINE, HEADS, 28), 13_440_000);
}

#[test]
fn january_and_february_at_4_9_degrees() {
    let january = month(0, entered(&LINE, HEADS, 31), factor(49), false);
    assert_eq!((january.degraded, january.carried), (1_547_520, 13_332_480));
    let february = month(
        january.carried,
        entered(&LINE, HEADS, 28),
        factor(49),
        false,
    );
    assert_eq!(
        (february.degraded, february.carried),
        (2_784_337, 23_988_143)
    );
}

#[test]
fn a_drained_january_hands_on_nothing() {
    let january = month(0, entered(&LINE, HEADS, 31), factor(49), true);
    assert_eq!((january.removed, january.carried), (13_332_480, 0));
    let february = month(
        january.carried,
        entered(&LINE, HEADS, 28),
        factor(49),
        false,
    );
    assert_eq!(february.degraded, 1_397_760);
}

#[test]
fn entered_is_rounded_down() {
    let tiny = Line {
        table_solids: 1,
        mass: 1,
        share: 10_000,
        ..LINE
    };
    // 483 x 31 x 8 x 10,000 is 1,197,840,000, and 484 the first above 12 x 10^8.
    assert_eq!(entered(&tiny, 483, 31), 0);
    assert_eq!(entered(&tiny, 484, 31), 1);
}

#[test]
fn a_sum_that_12_does_not_divide_is_rounded_with_the_rest() {
    // 148,800 grams for each head in 31 days, of which a twelfth are 12,400.
    for heads in [1, 11, 13, 23, 1_199, 1_201] {
        assert_eq!(entered(&LINE, heads, 31), u64::from(heads) * 12_400);
    }
    let line = Line {
        table_solids: 777,
        mass: 4_321,
        share: 3_333,
        ..LINE
    };
    // 2,683,426.95; with an average of 99 head it would be 2,658,808.
    assert_eq!(entered(&line, 1_199, 30), 2_683_426);
}

#[test]
fn entered_at_the_highest_values() {
    let most = Line {
        table_solids: 2_000,
        mass: 20_000,
        ..LINE
    };
    assert_eq!(entered(&most, 1_200_000, 31), 99_200_000_000);
    // One head less in one month: 99,199,917,333 and a third.
    assert_eq!(entered(&most, 1_199_999, 31), 99_199_917_333);
}

#[test]
fn the_product_just_below_and_just_past_64_bits() {
    let most = Line {
        table_solids: 2_000,
        mass: 20_000,
        ..LINE
    };
    let of_one_head = 2_000 * 20_000 * 10_000 * 31 * 8;
    assert!(185_955_u64.checked_mul(of_one_head).is_some());
    assert!(185_956_u64.checked_mul(of_one_head).is_none());
    assert_eq!(entered(&most, 185_955, 31), 15_372_280_000);
    // 15,372,362,666 and two thirds.
    assert_eq!(entered(&most, 185_956, 31), 15_372_362_666);
}

#[test]
fn products_past_64_bits_are_kept() {
    let widest = Line {
        table_solids: u16::MAX,
        mass: u16::MAX,
        share: u16::MAX,
        ..LINE
    };
    let product = u128::from(u32::MAX) * u128::from(u16::MAX).pow(3) * 31 * 8;
    let whole = u128::from(entered(&widest, u32::MAX, 31));
    assert_eq!(whole, product / 1_200_000_000);
    let wide = month(1 << 60, 5, 999_999, false);
    let degraded = ((1u128 << 60) + 5) * 999_999 / 1_000_000;
    assert_eq!(u128::from(wide.degraded), degraded);
}

#[test]
fn degraded_is_rounded_down_and_nothing_is_lost() {
    for available in 0..1_000 {
        for tenths in [-500, 49, 50, 200, 301, 302, 600] {
            for drained in [false, true] {
                let solids = month(
                    available / 2,
                    available - available / 2,
                    factor(tenths),
                    drained,
                );
                let exact = available * u64::from(factor(tenths));
                assert!(solids.degraded * 1_000_000 <= exact);
                assert!((solids.degraded + 1) * 1_000_000 > exact);
                assert_eq!(solids.degraded + solids.removed + solids.carried, available);
                assert_eq!(
                    if drained {
                        solids.carried
                    } else {
                        solids.removed
                    },
                    0
                );
            }
        }
    }
}

#[test]
fn a_hot_month_degrades_all_and_no_more() {
    let hot = Solids {
        entered: 7,
        degraded: 12,
        removed: 0,
        carried: 0,
    };
    assert_eq!(month(5, 7, factor(600), false), hot);
}

#[test]
fn the_b0_rule() {
    assert_eq!(emissions(1_000_000, 24), 3_427_200);
    assert_eq!(emissions(1, 7), 0);
    assert_eq!(emissions(1, 8), 1);
    assert_eq!(emissions(1_000_000, 0), 0);
}

#[test]
fn the_gregorian_calendar() {
    assert!(is_leap(2000) && is_leap(2004) && is_leap(2096));
    assert!(!is_leap(2001) && !is_leap(2100) && !is_leap(2011));
    assert_eq!(
        (1..=12)
            .map(|month| u16::from(days_in(2011, month)))
            .sum::<u16>(),
        365
    );
    assert_eq!(
        (1..=12)
            .map(|month| u16::from(days_in(2012, month)))
            .sum::<u16>(),
        366
    );
}

#[test]
fn months_count_from_the_first_one() {
    let first = FirstMonth {
        year: 2011,
        month: 10,
    };
    let days: Vec<u8> = (1..=18).map(|month| days_of_month(first, month)).collect();
    let october_2011_to_march_2013 = [
        31, 30, 31, 31, 29, 31, 30, 31, 30, 31, 31, 30, 31, 30, 31, 31, 28, 31,
    ];
    assert_eq!(days, october_2011_to_march_2013);
    let latest = FirstMonth {
        year: 2089,
        month: 12,
    };
    assert_eq!(days_of_month(latest, 120), 30);
    assert_eq!(days_of_month(latest, 3), 28);
    assert_eq!(days_of_month(latest, 27), 29);
}
