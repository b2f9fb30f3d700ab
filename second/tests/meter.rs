//! The meter month: its sum, and its refusals 10, 4 and 11.

#[path = "common/hours.rs"]
mod hours;

use hours::{Hours, STEADY};

fn refused(hours: &Hours) -> Option<(u8, u16)> {
    let refusal = hours.answer().err()?;
    Some((refusal.number(), refusal.place))
}

#[test]
fn a_steady_month_of_each_length() {
    for hours in [672, 696, 720, 744] {
        assert_eq!(Hours::steady(hours).destroyed(), hours as u64 * STEADY);
    }
    assert_eq!(Hours::steady(672).destroyed(), 27_417_600);
}

#[test]
fn the_efficiency_is_taken_hour_by_hour() {
    let mut hours = Hours::steady(672);
    hours.efficiency = 9_800;
    assert_eq!(hours.destroyed(), 672 * 39_984);
    hours.efficiency = 0;
    assert_eq!(hours.destroyed(), 0);
    hours.efficiency = 1;
    // 40,800 / 10,000 is 4.08.
    assert_eq!(hours.destroyed(), 672 * 4);
}

#[test]
fn both_divisions_of_an_hour_round_down() {
    let mut hours = Hours::steady(672);
    hours.flows.fill(0.0);
    hours.flows[7] = 0.999;
    hours.contents[7] = 99.99;
    hours.efficiency = 9_999;
    // 999 litres of 9,998 hundredths are 679.18 grams, of which 678.93.
    assert_eq!(hours.destroyed(), 678);
}

#[test]
fn an_hour_at_the_highest_values() {
    let mut hours = Hours::steady(744);
    hours.flows.fill(100_000.0);
    hours.contents.fill(100.0);
    assert_eq!(hours.destroyed(), 744 * 68_000_000);
}

#[test]
fn refusal_10_for_any_other_number_of_hours() {
    for hours in (0..=800).filter(|hours| ![672, 696, 720, 744].contains(hours)) {
        assert_eq!(refused(&Hours::steady(hours)), Some((10, 0)), "{hours}");
    }
}

#[test]
fn refusal_10_for_slices_that_differ() {
    for other in [0, 671, 673, 696] {
        let mut flows = Hours::steady(672);
        flows.flows.resize(other, 1.0);
        assert_eq!(refused(&flows), Some((10, 0)));
        let mut contents = Hours::steady(672);
        contents.contents.resize(other, 1.0);
        assert_eq!(refused(&contents), Some((10, 0)));
        let mut states = Hours::steady(672);
        states.states.resize(other, 0);
        assert_eq!(refused(&states), Some((10, 0)));
    }
}

#[test]
fn refusal_4_for_an_efficiency_above_10_000() {
    let mut hours = Hours::steady(672);
    for efficiency in [10_001, u16::MAX] {
        hours.efficiency = efficiency;
        assert_eq!(refused(&hours), Some((4, 0)));
    }
}

#[test]
fn refusal_11_for_a_state_above_7() {
    for state in [8, 9, 128, 255] {
        for hour in [0, 300, 671] {
            let mut hours = Hours::steady(672);
            hours.states[hour] = state;
            assert_eq!(refused(&hours), Some((11, hour as u16)));
        }
    }
}

const BAD: [f32; 6] = [
    f32::NAN,
    f32::INFINITY,
    f32::NEG_INFINITY,
    -1.0,
    -f32::MIN_POSITIVE,
    f32::MAX,
];

#[test]
fn refusal_11_for_a_bad_reading_that_is_present() {
    for bad in BAD.into_iter().chain([100_000.01]) {
        for state in 0..=7 {
            let mut hours = Hours::steady(672);
            hours.flows[5] = bad;
            hours.states[5] = state;
            let expected = (state & 1 == 0).then_some((11, 5));
            assert_eq!(refused(&hours), expected, "{bad} {state}");
        }
    }
    for bad in BAD.into_iter().chain([100.00001]) {
        for state in 0..=7 {
            let mut hours = Hours::steady(672);
            hours.contents[671] = bad;
            hours.states[671] = state;
            let expected = (state & 2 == 0).then_some((11, 671));
            assert_eq!(refused(&hours), expected, "{bad} {state}");
        }
    }
}

#[test]
fn refusal_11_at_the_first_such_hour() {
    let mut hours = Hours::steady(672);
    hours.states[600] = 8;
    assert_eq!(refused(&hours), Some((11, 600)));
    hours.flows[500] = f32::NAN;
    assert_eq!(refused(&hours), Some((11, 500)));
    hours.contents[400] = 100.5;
    assert_eq!(refused(&hours), Some((11, 400)));
    hours.states[0] = 9;
    assert_eq!(refused(&hours), Some((11, 0)));
}

#[test]
fn the_checks_go_10_4_11() {
    let mut hours = Hours::steady(673);
    hours.efficiency = 10_001;
    hours.states[3] = 8;
    assert_eq!(refused(&hours), Some((10, 0)));
    hours.flows.pop();
    hours.contents.pop();
    hours.states.pop();
    assert_eq!(refused(&hours), Some((4, 0)));
    hours.efficiency = 10_000;
    assert_eq!(refused(&hours), Some((11, 3)));
}

#[test]
fn minus_zero_and_subnormals_are_readings_of_0() {
    let mut hours = Hours::steady(672);
    hours.flows[0] = -0.0;
    hours.contents[1] = -0.0;
    hours.flows[2] = f32::from_bits(1);
    assert_eq!(hours.lost(), 3);
}

#[test]
fn a_device_that_was_out_destroys_nothing() {
    assert_eq!(Hours::with_states(20, &[4; 7]).lost(), 7);
    assert_eq!(Hours::with_states(0, &[4; 672]).destroyed(), 0);
    assert_eq!(Hours::with_states(20, &[5, 6, 7]).lost(), 3);
}
