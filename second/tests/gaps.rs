//! Gaps of the meter month.

#[path = "common/hours.rs"]
mod hours;

use hours::Hours;
use second::meter::methane_grams;

const NO_FLOW: u8 = 1;
const NO_CONTENT: u8 = 2;
const NEITHER: u8 = 3;
const OUT: u8 = 4;

#[test]
fn figures_of_the_paper() {
    let hours_10_to_14 = Hours::with_states(10, &[NO_FLOW; 5]);
    assert_eq!(hours_10_to_14.destroyed(), 27_417_600);
    let hours_10_to_15 = Hours::with_states(10, &[NO_FLOW; 6]);
    assert_eq!(hours_10_to_15.destroyed(), 27_172_800);
}

#[test]
fn runs_of_1_to_5_are_filled_and_longer_ones_count_nothing() {
    for missing in [NO_FLOW, NO_CONTENT] {
        for length in 1..=5 {
            assert_eq!(Hours::with_states(100, &vec![missing; length]).lost(), 0);
        }
        for length in 6..=30 {
            let hours = Hours::with_states(100, &vec![missing; length]);
            assert_eq!(hours.lost(), length as u64);
        }
    }
}

#[test]
fn a_flow_is_filled_with_the_average_of_the_eight_around_it() {
    for length in 1..=5 {
        let mut hours = Hours::with_states(50, &vec![NO_FLOW; length]);
        let end = 50 + length;
        let steady = hours.destroyed();
        hours.flows[46..50].copy_from_slice(&[1.0, 2.0, 3.0, 4.0]);
        hours.flows[end..end + 4].copy_from_slice(&[5.0, 6.0, 7.0, 8.0078125]);
        // The last is 8007 litres; 36,007 / 8 is 4500.875.
        let recorded: u64 = [1000, 2000, 3000, 4000, 5000, 6000, 7000, 8007]
            .into_iter()
            .map(|litres| methane_grams(litres, 6000))
            .sum();
        let filled = length as u64 * methane_grams(4500, 6000);
        let expected = steady - (8 + length as u64) * 40_800 + recorded + filled;
        assert_eq!(hours.destroyed(), expected, "{length}");
    }
}

#[test]
fn a_content_is_filled_with_the_average_of_the_eight_around_it() {
    for length in 1..=5 {
        let mut hours = Hours::with_states(50, &vec![NO_CONTENT; length]);
        let end = 50 + length;
        let steady = hours.destroyed();
        hours.contents[46..50].copy_from_slice(&[1.0, 2.0, 3.0, 4.0]);
        hours.contents[end..end + 4].copy_from_slice(&[5.0, 6.0, 7.0, 8.0625]);
        // The last is 806 hundredths; 3,606 / 8 is 450.75.
        let recorded: u64 = [100, 200, 300, 400, 500, 600, 700, 806]
            .into_iter()
            .map(|content| methane_grams(100_000, content))
            .sum();
        let filled = length as u64 * methane_grams(100_000, 450);
        let expected = steady - (8 + length as u64) * 40_800 + recorded + filled;
        assert_eq!(hours.destroyed(), expected, "{length}");
    }
}

#[test]
fn the_average_takes_whole_litres_of_each_hour() {
    let mut hours = Hours::with_states(50, &[NO_FLOW]);
    let steady = hours.destroyed();
    // Seven of 1 litre and one of 2 average 1, though the exact values, 16.2
    // litres in all, would average 2 and give a gram.
    for hour in (46..50).chain(51..55) {
        hours.flows[hour] = 0.0019;
        hours.contents[hour] = 0.0;
    }
    hours.flows[46] = 0.0029;
    hours.contents[50] = 100.0;
    assert_eq!((methane_grams(1, 10_000), methane_grams(2, 10_000)), (0, 1));
    assert_eq!(hours.destroyed(), steady - 9 * 40_800);
}

#[test]
fn four_hours_of_this_month_must_stand_on_both_sides() {
    for missing in [NO_FLOW, NO_CONTENT] {
        for length in 1..=5 {
            let states = vec![missing; length];
            let lost = |start| Hours::with_states(start, &states).lost();
            for start in 0..4 {
                assert_eq!(lost(start), length as u64, "{start}");
            }
            assert_eq!(lost(4), 0);
            let last_filled = 672 - 4 - length;
            assert_eq!(lost(last_filled), 0);
            for start in last_filled + 1..=672 - length {
                assert_eq!(lost(start), length as u64, "{start}");
            }
        }
    }
}

#[test]
fn the_months_end_goes_by_its_own_hours() {
    for length in [672, 696, 720, 744] {
        let mut filled = Hours::steady(length);
        filled.set_states(length - 5, &[NO_FLOW]);
        assert_eq!(filled.lost(), 0);
        let mut unfilled = Hours::steady(length);
        unfilled.set_states(length - 4, &[NO_FLOW]);
        assert_eq!(unfilled.lost(), 1);
    }
}

#[test]
fn a_filled_value_never_feeds_an_average() {
    for between in 1..=6 {
        for missing in [NO_FLOW, NO_CONTENT] {
            let mut hours = Hours::with_states(100, &[missing; 2]);
            hours.set_states(102 + between, &[missing; 3]);
            let lost = if between < 4 { 5 } else { 0 };
            assert_eq!(hours.lost(), lost, "{between}");
        }
    }
}

#[test]
fn one_gap_with_a_near_one_on_one_side_only() {
    // The third run stands clear of the second, but not the second of the
    // first.
    let mut hours = Hours::with_states(100, &[NO_FLOW]);
    hours.set_states(104, &[NO_FLOW]);
    hours.set_states(109, &[NO_FLOW]);
    assert_eq!(hours.lost(), 2);
}

#[test]
fn gaps_of_flow_and_of_content_do_not_meet() {
    assert_eq!(Hours::with_states(100, &[NO_FLOW, NO_CONTENT]).lost(), 0);
    let alternating = [
        NO_FLOW, NO_CONTENT, NO_CONTENT, NO_CONTENT, NO_CONTENT, NO_FLOW,
    ];
    assert_eq!(Hours::with_states(100, &alternating).lost(), 0);
    let ten = [[NO_FLOW; 5], [NO_CONTENT; 5]].concat();
    assert_eq!(Hours::with_states(100, &ten).lost(), 0);
}

#[test]
fn an_hour_with_neither_is_0_and_belongs_to_both_runs() {
    assert_eq!(Hours::with_states(100, &[NEITHER]).lost(), 1);
    assert_eq!(Hours::with_states(100, &[NEITHER; 5]).lost(), 5);
    let run_of_3 = [NO_FLOW, NEITHER, NO_FLOW];
    assert_eq!(Hours::with_states(100, &run_of_3).lost(), 1);
    let run_of_5 = [NO_CONTENT, NO_CONTENT, NEITHER, NO_CONTENT, NO_CONTENT];
    assert_eq!(Hours::with_states(100, &run_of_5).lost(), 1);
    let run_of_6 = [NO_FLOW, NO_FLOW, NO_FLOW, NEITHER, NO_FLOW, NO_FLOW];
    assert_eq!(Hours::with_states(100, &run_of_6).lost(), 6);
    let both = [NO_FLOW, NEITHER, NO_CONTENT];
    assert_eq!(Hours::with_states(100, &both).lost(), 1);
    let near = [NO_FLOW, 0, 0, NEITHER];
    assert_eq!(Hours::with_states(100, &near).lost(), 2);
}

#[test]
fn readings_of_hours_when_the_device_was_out_feed_averages() {
    let mut hours = Hours::with_states(100, &[OUT, OUT, OUT, OUT, NO_FLOW, OUT, OUT, OUT, OUT]);
    assert_eq!(hours.lost(), 8);
    hours.flows[100..104].fill(50.0);
    assert_eq!(
        hours.destroyed(),
        (672 - 9) * 40_800 + methane_grams(75_000, 6000)
    );
}

#[test]
fn hours_when_the_device_was_out_belong_to_runs_and_count_0() {
    assert_eq!(
        Hours::with_states(100, &[NO_FLOW, NO_FLOW | OUT, NO_FLOW]).lost(),
        1
    );
    let run_of_6 = [1, 1, 1 | OUT, 1 | OUT, 1, 1];
    assert_eq!(Hours::with_states(100, &run_of_6).lost(), 6);
    let run_broken_by_a_reading = [1, 1, 1, OUT, 1, 1];
    assert_eq!(Hours::with_states(100, &run_broken_by_a_reading).lost(), 6);
    assert_eq!(Hours::with_states(100, &[1, NEITHER | OUT, 1]).lost(), 1);
}

#[test]
fn a_missing_readings_bits_are_ignored() {
    let mut hours = Hours::with_states(100, &[NO_FLOW, NO_FLOW]);
    let expected = hours.destroyed();
    for bits in [0, 1, 0x42c8_0000, 0x7f80_0000, 0xffff_ffff] {
        hours.flows[100] = f32::from_bits(bits);
        assert_eq!(hours.destroyed(), expected);
    }
}

#[test]
fn a_month_with_no_reading_at_all() {
    for state in [NO_FLOW, NO_CONTENT, NEITHER] {
        assert_eq!(Hours::with_states(0, &[state; 672]).destroyed(), 0);
    }
}
