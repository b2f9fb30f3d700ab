//! The lagoons month by month, against the paper's figures and the years.

mod common;

use common::*;
use second::lagoon::Solids;
use second::months::{lagoon_months, LagoonMonth};
use second::program::months;
use second::year::year;

#[test]
fn january_and_february_of_the_paper() {
    let records = plain((2011, 1), &[LINE_1], 12, 49);
    let rows = lagoon_months(&book_of(&records));
    assert_eq!(rows.len(), 12);
    assert_eq!(
        rows[0],
        LagoonMonth {
            month: 1,
            temperature: 49,
            line: 1,
            solids: Solids {
                entered: 14_880_000,
                degraded: 1_547_520,
                removed: 0,
                carried: 13_332_480,
            },
        }
    );
    assert_eq!(rows[1].solids.degraded, 2_784_337);
    assert_eq!(rows[1].solids.carried, 23_988_143);
}

#[test]
fn a_drained_month_removes_what_is_left() {
    let mut records = plain((2011, 1), &[LINE_1], 12, 49);
    records.push(dr(1, 1));
    let rows = lagoon_months(&book_of(&records));
    assert_eq!(rows[0].solids.removed, 13_332_480);
    assert_eq!(rows[0].solids.carried, 0);
    assert_eq!(rows[1].solids.degraded, 1_397_760);
}

#[test]
fn the_months_of_a_year_sum_to_the_year() {
    let second_line = Ln {
        line: 7,
        share: 0,
        ..LINE_1
    };
    let mut records = plain((2011, 5), &[LINE_1, second_line], 30, 181);
    records.push(dr(1, 9));
    records.push(dr(7, 20));
    let book = book_of(&records);
    let rows = lagoon_months(&book);
    assert_eq!(rows.len(), 48, "two lines, two whole years");
    for number in [1, 2] {
        let own: Vec<_> = rows
            .iter()
            .filter(|row| (u32::from(row.month) + 11) / 12 == number)
            .collect();
        let solids = year(&book, number).unwrap().solids;
        let sum = |part: fn(&Solids) -> u64| own.iter().map(|row| part(&row.solids)).sum::<u64>();
        assert_eq!(sum(|month| month.entered), solids.entered);
        assert_eq!(sum(|month| month.degraded), solids.degraded);
        assert_eq!(sum(|month| month.removed), solids.removed);
    }
}

#[test]
fn a_month_enters_with_the_average_of_its_years_heads() {
    let mut records = plain((2011, 5), &[LINE_1], 24, 302);
    for month in [5, 12, 13] {
        records = without(&records, &[hd(1, month, 100)]);
    }
    records.extend([hd(1, 5, 0), hd(1, 12, 101), hd(1, 13, 700)]);
    // 1,101 heads in the first year and 1,800 in the second, over 12.
    for row in lagoon_months(&book_of(&records)) {
        let heads = if row.month <= 12 { 1_101 } else { 1_800 };
        let days = match row.month {
            2 | 5 | 7 | 12 | 14 | 17 | 19 | 24 => 30,
            10 => 29,
            22 => 28,
            _ => 31,
        };
        assert_eq!(row.solids.entered, heads * 400 * days, "{}", row.month);
    }
}

#[test]
fn a_line_that_is_not_anaerobic_has_no_months() {
    let other = Ln {
        system: 1,
        conversion_factor: 100,
        ..LINE_1
    };
    let records = plain((2011, 1), &[other], 12, 49);
    assert!(lagoon_months(&book_of(&records)).is_empty());
}

#[test]
fn the_program_names_its_columns_and_prints_refusals_alone() {
    let printed =
        |records: &[Bytes]| String::from_utf8(months(&records.concat()[..]).unwrap()).unwrap();
    let columns = "month temperature line entered degraded removed carried\n";
    assert_eq!(printed(&[]), columns);
    let worked = printed(&sample());
    assert!(worked.starts_with(&format!("{columns}1 302 1 14880000 14880000 0 0\n")));
    assert_eq!(printed(&[yr(1999, 1)]), "refused 4 at 2\n");
}
