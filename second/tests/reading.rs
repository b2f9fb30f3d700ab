//! Single readings: the exact value of the float, rounded down.

mod common;

use common::Numbers;
use second::meter::{hundredths, litres, methane_grams};
use second::reading::{atm_ten_thousandths, feet_hundredths, rankine_hundredths};

#[test]
fn figures_of_the_paper() {
    assert_eq!(litres(100.0), Some(100_000));
    assert_eq!(hundredths(60.0), Some(6000));
    assert_eq!(hundredths(60.1), Some(6009));
    assert_eq!(methane_grams(100_000, 6000), 40_800);
}

#[test]
fn edges_of_the_ranges() {
    assert_eq!(litres(0.0), Some(0));
    assert_eq!(litres(100_000.0), Some(100_000_000));
    assert_eq!(litres(100_000.0_f32.next_up()), None);
    assert_eq!(litres(100_000.0_f32.next_down()), Some(99_999_992));
    assert_eq!(hundredths(0.0), Some(0));
    assert_eq!(hundredths(100.0), Some(10_000));
    assert_eq!(hundredths(100.0_f32.next_up()), None);
    assert_eq!(hundredths(100.0_f32.next_down()), Some(9_999));
}

#[test]
fn edges_of_the_ranges_in_cubic_feet() {
    assert_eq!(feet_hundredths(0.0), Some(0));
    assert_eq!(feet_hundredths(400_000.0), Some(40_000_000));
    assert_eq!(feet_hundredths(400_000.0_f32.next_up()), None);
    assert_eq!(feet_hundredths(400_000.0_f32.next_down()), Some(39_999_996));
    assert_eq!(rankine_hundredths(400.0), Some(40_000));
    assert_eq!(rankine_hundredths(400.0_f32.next_down()), None);
    assert_eq!(rankine_hundredths(700.0), Some(70_000));
    assert_eq!(rankine_hundredths(700.0_f32.next_up()), None);
    assert_eq!(rankine_hundredths(700.0_f32.next_down()), Some(69_999));
    assert_eq!(atm_ten_thousandths(0.0), Some(0));
    assert_eq!(atm_ten_thousandths(10.0), Some(100_000));
    assert_eq!(atm_ten_thousandths(10.0_f32.next_up()), None);
    assert_eq!(atm_ten_thousandths(10.0_f32.next_down()), Some(99_999));
}

#[test]
fn minus_zero_is_0_and_nothing_else_below_zero_is_taken() {
    assert_eq!(litres(-0.0), Some(0));
    assert_eq!(hundredths(-0.0), Some(0));
    assert_eq!(feet_hundredths(-0.0), Some(0));
    assert_eq!(atm_ten_thousandths(-0.0), Some(0));
    assert_eq!(rankine_hundredths(-0.0), None);
    for bits in [
        0x8000_0001,
        0x807f_ffff,
        0x8080_0000,
        0xbf80_0000,
        0xff7f_ffff,
    ] {
        assert_eq!(litres(f32::from_bits(bits)), None, "{bits:08x}");
        assert_eq!(hundredths(f32::from_bits(bits)), None, "{bits:08x}");
    }
}

#[test]
fn what_is_not_a_number_or_infinite_is_not_taken() {
    let patterns = [
        0x7f80_0000,
        0xff80_0000,
        0x7f80_0001,
        0x7fbf_ffff,
        0x7fc0_0000,
        0x7fff_ffff,
        0xff80_0001,
        0xffc0_0000,
        0xffff_ffff,
        0x7f7f_ffff,
    ];
    for bits in patterns {
        assert_eq!(litres(f32::from_bits(bits)), None, "{bits:08x}");
        assert_eq!(hundredths(f32::from_bits(bits)), None, "{bits:08x}");
    }
}

#[test]
fn subnormals_are_0() {
    for bits in [1, 2, 0x0040_0000, 0x007f_ffff, 0x0080_0000] {
        assert_eq!(litres(f32::from_bits(bits)), Some(0));
        assert_eq!(hundredths(f32::from_bits(bits)), Some(0));
    }
}

#[test]
fn a_whole_litre_is_reached_only_from_its_float_on() {
    // The nearest f32 to 0.001 lies above it, that to 0.009 below.
    assert_eq!(litres(0.001), Some(1));
    assert_eq!(litres(0.001_f32.next_down()), Some(0));
    assert_eq!(litres(0.009), Some(8));
    assert_eq!(litres(0.009_f32.next_up()), Some(9));
    assert_eq!(hundredths(0.07), Some(7));
    assert_eq!(hundredths(0.07_f32.next_down()), Some(6));
    assert_eq!(litres(0.5), Some(500));
    assert_eq!(litres(0.5_f32.next_down()), Some(499));
}

/// By another way: an f64 holds a 24-bit number times 10,000 exactly.
fn expected(reading: f32, least: f64, most: f64, scale: f64) -> Option<u32> {
    let value = f64::from(reading);
    let taken = (least..=most).contains(&value);
    taken.then(|| (value * scale).floor() as u32)
}

type Kind = (fn(f32) -> Option<u32>, f64, f64, f64);

const KINDS: [Kind; 5] = [
    (litres, 0.0, 100_000.0, 1_000.0),
    (hundredths, 0.0, 100.0, 100.0),
    (feet_hundredths, 0.0, 400_000.0, 100.0),
    (rankine_hundredths, 400.0, 700.0, 100.0),
    (atm_ten_thousandths, 0.0, 10.0, 10_000.0),
];

fn check(bits: u32) {
    let reading = f32::from_bits(bits);
    for (of_kind, least, most, scale) in KINDS {
        let expected = expected(reading, least, most, scale);
        assert_eq!(of_kind(reading), expected, "{bits:08x} up to {most}");
    }
}

#[test]
fn a_sweep_over_all_patterns() {
    for bits in (0..=u32::MAX).step_by(4_099) {
        check(bits);
    }
}

#[test]
fn a_sweep_within_the_ranges() {
    let mut numbers = Numbers(0x5eed);
    let most = u64::from(400_000.0_f32.to_bits());
    for _ in 0..300_000 {
        check(numbers.below(most + 2) as u32);
    }
    for whole in 0..200_000 {
        for scale in [100.0, 1_000.0, 10_000.0] {
            let near = (f64::from(whole) / scale) as f32;
            for reading in [near.next_down(), near, near.next_up()] {
                check(reading.to_bits());
            }
        }
    }
}
