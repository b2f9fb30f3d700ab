//! The month of a meter in cubic feet: its hours, its sum, its gaps and its
//! refusals 10, 4 and 11.

#[path = "common/feet.rs"]
mod feet;

use feet::{Hours, STEADY};
use second::feet::{corrected, hour, methane_grams};
use second::meter::Hour;

const NO_FLOW: u8 = 1;
const NO_CONTENT: u8 = 2;
const NEITHER: u8 = 3;
const OUT: u8 = 4;
const NO_CORRECTION: u8 = 8;

fn refused(hours: &Hours) -> Option<(u8, u16)> {
    let refusal = hours.answer().err()?;
    Some((refusal.number(), refusal.place))
}

#[test]
fn at_520_rankine_and_1_atm_the_corrected_flow_is_the_flow() {
    for flow in [0, 1, 9_999, 10_000, 40_000_000] {
        assert_eq!(corrected(flow, 52_000, 10_000), flow);
    }
}

#[test]
fn an_hour_corrected_and_weighed() {
    let recorded = |flow, content| Hour {
        flow: Some(flow),
        content: Some(content),
    };
    assert_eq!(
        hour(100.0, 60.0, 520.0, 1.0, 0),
        Some(recorded(10_000, 6_000))
    );
    assert_eq!(methane_grams(10_000, 6_000), STEADY);
    // The nearest f32 to 519.99 lies below it: 40,000,000 x 52,000 / 51,998.
    assert_eq!(
        hour(400_000.0, 60.0, 519.99, 1.0, 0),
        Some(recorded(40_001_538, 6_000))
    );
    assert_eq!(
        hour(100.0, 60.0, 520.0, 2.5, 0),
        Some(recorded(25_000, 6_000))
    );
    // 25,000 x 6,000 x 192,042 / 10^10 is 2880.63.
    assert_eq!(methane_grams(25_000, 6_000), 2_880);
}

#[test]
fn an_hour_at_the_highest_values() {
    assert_eq!(corrected(40_000_000, 40_000, 100_000), 520_000_000);
    assert_eq!(methane_grams(520_000_000, 10_000), 99_861_840);
    let mut hours = Hours::steady(744);
    hours.flows.fill(400_000.0);
    hours.contents.fill(100.0);
    hours.temperatures.fill(400.0);
    hours.pressures.fill(10.0);
    hours.states[100..105].fill(NO_FLOW);
    assert_eq!(hours.destroyed(), 744 * 99_861_840);
}

#[test]
fn the_corrected_flow_is_rounded_down_once() {
    // 100 x 52,000 x 9,999 / (40,001 x 10,000) is 129.98; the temperature's
    // ratio rounded first would make 129 x 0.9999, which is 128.98.
    assert_eq!(corrected(100, 40_001, 9_999), 129);
    // 3 x 52,000 x 20,000 / (52,001 x 10,000) is 5.9998.
    assert_eq!(corrected(3, 52_001, 20_000), 5);
    // 7 x 1.3 x 3.3333 is 30.33; rounded in between, 9 x 3.3333 is 29.9997.
    assert_eq!(corrected(7, 40_000, 33_333), 30);
}

#[test]
fn the_months_sums() {
    assert_eq!(Hours::steady(672).destroyed(), 774_144);
    for hours in [672, 696, 720, 744] {
        assert_eq!(Hours::steady(hours).destroyed(), hours as u64 * STEADY);
    }
    let hours_10_to_14 = Hours::with_states(10, &[NO_CORRECTION; 5]);
    assert_eq!(hours_10_to_14.destroyed(), 774_144);
    let hours_10_to_15 = Hours::with_states(10, &[NO_CORRECTION; 6]);
    assert_eq!(hours_10_to_15.destroyed(), 767_232);
}

#[test]
fn the_efficiency_is_taken_hour_by_hour() {
    let mut hours = Hours::steady(672);
    hours.efficiency = 9_800;
    // 1152 x 0.98 is 1128.96.
    assert_eq!(hours.destroyed(), 672 * 1_128);
    hours.efficiency = 0;
    assert_eq!(hours.destroyed(), 0);
}

#[test]
fn refusal_10_for_hours_and_for_each_list() {
    for hours in [0, 671, 673, 743, 745] {
        assert_eq!(refused(&Hours::steady(hours)), Some((10, 0)), "{hours}");
    }
    let shortened: [fn(&mut Hours, usize); 5] = [
        |hours, other| hours.flows.resize(other, 1.0),
        |hours, other| hours.contents.resize(other, 1.0),
        |hours, other| hours.temperatures.resize(other, 520.0),
        |hours, other| hours.pressures.resize(other, 1.0),
        |hours, other| hours.states.resize(other, 0),
    ];
    for other in [0, 671, 673, 696] {
        for of_length in shortened {
            let mut hours = Hours::steady(672);
            hours.efficiency = 10_001;
            of_length(&mut hours, other);
            assert_eq!(refused(&hours), Some((10, 0)), "{other}");
        }
    }
}

#[test]
fn refusal_4_stands_before_11() {
    let mut hours = Hours::steady(672);
    hours.states[3] = 16;
    hours.efficiency = 10_001;
    assert_eq!(refused(&hours), Some((4, 0)));
    hours.efficiency = 10_000;
    assert_eq!(refused(&hours), Some((11, 3)));
}

#[test]
fn refusal_11_for_a_state_above_15() {
    for state in 0..=15 {
        let hours = Hours::with_states(300, &[state]);
        assert_eq!(refused(&hours), None, "{state}");
    }
    for state in [16, 17, 24, 128, 255] {
        for hour in [0, 300, 671] {
            let mut hours = Hours::steady(672);
            hours.states[hour] = state;
            assert_eq!(refused(&hours), Some((11, hour as u16)));
        }
    }
}

const BAD: [f32; 5] = [
    f32::NAN,
    f32::INFINITY,
    f32::NEG_INFINITY,
    -f32::MIN_POSITIVE,
    f32::MAX,
];

/// The month with one reading of hour 5 changed, for every state there:
/// refused 11 just where the state has none of the bits that ignore it.
fn refused_unless(ignored_by: u8, change: impl Fn(&mut Hours)) {
    for state in 0..=15 {
        let mut hours = Hours::steady(672);
        hours.states[5] = state;
        change(&mut hours);
        let expected = (state & ignored_by == 0).then_some((11, 5));
        assert_eq!(refused(&hours), expected, "{state}");
    }
}

#[test]
fn refusal_11_for_a_bad_reading_that_is_looked_at() {
    for bad in BAD {
        refused_unless(NO_FLOW | NO_CORRECTION, |hours| hours.flows[5] = bad);
        refused_unless(NO_CONTENT, |hours| hours.contents[5] = bad);
        refused_unless(NO_CORRECTION, |hours| hours.temperatures[5] = bad);
        refused_unless(NO_CORRECTION, |hours| hours.pressures[5] = bad);
    }
    refused_unless(NO_FLOW | NO_CORRECTION, |hours| hours.flows[5] = 400_000.03);
    refused_unless(NO_CONTENT, |hours| hours.contents[5] = 100.00001);
    for bad in [0.0, -0.0, 399.99997, 700.00006] {
        refused_unless(NO_CORRECTION, |hours| hours.temperatures[5] = bad);
    }
    refused_unless(NO_CORRECTION, |hours| hours.pressures[5] = 10.000001);
}

#[test]
fn refusal_11_at_the_first_such_hour() {
    let mut hours = Hours::steady(672);
    hours.states[600] = 16;
    assert_eq!(refused(&hours), Some((11, 600)));
    hours.flows[500] = f32::NAN;
    assert_eq!(refused(&hours), Some((11, 500)));
    hours.contents[400] = 100.5;
    assert_eq!(refused(&hours), Some((11, 400)));
    hours.pressures[300] = 10.5;
    assert_eq!(refused(&hours), Some((11, 300)));
    hours.temperatures[200] = 399.0;
    assert_eq!(refused(&hours), Some((11, 200)));
}

#[test]
fn minus_zero_is_a_reading_of_0() {
    let mut hours = Hours::steady(672);
    hours.flows[0] = -0.0;
    hours.contents[1] = -0.0;
    hours.pressures[2] = -0.0;
    assert_eq!(hours.lost(), 3);
}

#[test]
fn one_run_of_hours_without_flow_and_without_correction() {
    let mixed = [NO_FLOW, NO_CORRECTION, NO_FLOW | NO_CORRECTION];
    assert_eq!(Hours::with_states(100, &mixed).lost(), 0);
    let five = [NO_FLOW, 8, 9, 8, NO_FLOW];
    assert_eq!(Hours::with_states(100, &five).lost(), 0);
    let six = [NO_FLOW, 8, 9, 8, NO_FLOW, 8];
    assert_eq!(Hours::with_states(100, &six).lost(), 6);
    let near = [8, 0, 0, 0, NO_FLOW];
    assert_eq!(Hours::with_states(100, &near).lost(), 2);
}

#[test]
fn an_hour_without_correction_and_content_is_0() {
    let both = NO_CORRECTION | NO_CONTENT;
    assert_eq!(Hours::with_states(100, &[both]).lost(), 1);
    assert_eq!(Hours::with_states(100, &[NEITHER]).lost(), 1);
    assert_eq!(Hours::with_states(100, &[8, both, NO_CONTENT]).lost(), 1);
    assert_eq!(Hours::with_states(100, &[8, NO_CONTENT]).lost(), 0);
}

#[test]
fn out_hours_count_0_and_their_readings_feed_averages() {
    assert_eq!(Hours::with_states(20, &[OUT; 7]).lost(), 7);
    let around = [OUT, OUT, OUT, OUT, NO_CORRECTION, OUT, OUT, OUT, OUT];
    let mut hours = Hours::with_states(100, &around);
    assert_eq!(hours.lost(), 8);
    hours.flows[100..104].fill(50.0);
    let filled = methane_grams(7_500, 6_000);
    assert_eq!(hours.destroyed(), (672 - 9) * STEADY + filled);
    assert_eq!(Hours::with_states(100, &[OUT | NO_CORRECTION]).lost(), 1);
}

#[test]
fn averages_are_of_corrected_flows() {
    let mut hours = Hours::with_states(100, &[NO_CORRECTION]);
    hours.flows[96..100].fill(200.0);
    hours.temperatures[96..100].fill(650.0);
    hours.pressures[101..105].fill(1.5);
    let before = methane_grams(16_000, 6_000);
    let after = methane_grams(15_000, 6_000);
    let filled = methane_grams(15_500, 6_000);
    let expected = (672 - 9) * STEADY + 4 * before + 4 * after + filled;
    assert_eq!(hours.destroyed(), expected);
}

#[test]
fn averages_are_of_whole_hundredths_of_each_hour() {
    let mut hours = Hours::with_states(100, &[NO_CORRECTION]);
    let steady = hours.destroyed();
    for hour in (96..100).chain(101..105) {
        hours.flows[hour] = 0.1;
        hours.temperatures[hour] = 521.0;
        hours.contents[hour] = 0.0;
    }
    // 9 of the 10 hundredths are left of each when it is corrected.
    assert_eq!(corrected(10, 52_100, 10_000), 9);
    hours.contents[100] = 55.0;
    assert_eq!((methane_grams(9, 5_500), methane_grams(10, 5_500)), (0, 1));
    assert_eq!(hours.destroyed(), steady - 9 * STEADY);
}
