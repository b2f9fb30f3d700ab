//! Readings at the edges of f32: those that are refused, those just taken, and
//! those whose value lies just above or below a whole number of litres or hundredths.

use super::Group;
use crate::hours::{Hours, DEVICE_OUT, NEITHER, NO_CONTENT, NO_FLOW};

const MOST_FLOW: f32 = 100_000.0;
const MOST_CONTENT: f32 = 100.0;

pub fn floats() -> Group {
    let mut group = Group::new("floats", 330, 220, 40);
    for bits in special() {
        for content in [false, true] {
            for state in [0, NO_FLOW, NO_CONTENT, NEITHER, DEVICE_OUT] {
                let mut month = Hours::uneven(672);
                let readings = if content {
                    &mut month.contents
                } else {
                    &mut month.flows
                };
                readings[17] = f32::from_bits(bits);
                month.states[17] = state;
                let kind = if content { "content" } else { "flow" };
                group.hours(format!("{kind} {bits:#010x}, state {state}"), &month);
            }
        }
    }
    near_whole_numbers(&mut group);
    group
}

/// Bad floats of every kind, and the last good ones.
fn special() -> Vec<u32> {
    let above = |float: f32| float.to_bits() + 1;
    let below = |float: f32| float.to_bits() - 1;
    let mut bits = vec![
        0,
        1,
        0x007f_ffff,
        0x0080_0000,
        0x7fc0_0000,
        0x7f80_0001,
        0xffc0_0000,
        0xff80_0001,
        0xffff_ffff,
        0x8000_0000,
        0x8000_0001,
        0x8080_0000,
        above(MOST_FLOW),
        below(MOST_FLOW),
        above(MOST_CONTENT),
        below(MOST_CONTENT),
    ];
    let floats = [
        f32::INFINITY,
        f32::NEG_INFINITY,
        f32::MAX,
        f32::MIN,
        MOST_FLOW,
        MOST_CONTENT,
        -MOST_CONTENT,
        -1.0,
        100_001.0,
        101.0,
        4_294_968.0,
        60.1,
        0.001,
        0.01,
    ];
    bits.extend(floats.map(f32::to_bits));
    bits
}

/// Months whose every hour is within a few steps of f32 of a whole number of
/// litres, or of hundredths of a per cent; the other reading is at its highest
/// so that one of either shows.
fn near_whole_numbers(group: &mut Group) {
    for steps in -2..=2 {
        let near = |whole: usize, scale: f64| {
            let nearest = (whole as f64 / scale) as f32;
            f32::from_bits(nearest.to_bits().wrapping_add_signed(steps))
        };
        for spread in [1, 13, 148_000] {
            let mut month = Hours::steady(672, 0.0, MOST_CONTENT);
            for (hour, flow) in month.flows.iter_mut().enumerate() {
                *flow = near(1 + hour * spread, 1_000.0);
            }
            group.hours(
                format!("litres, {steps} steps off, spread {spread}"),
                &month,
            );
        }
        for first in [1, 3_000, 6_010, 9_300] {
            let mut month = Hours::steady(672, MOST_FLOW, 0.0);
            for (hour, content) in month.contents.iter_mut().enumerate() {
                *content = near(first + hour, 100.0);
            }
            group.hours(
                format!("hundredths from {first}, {steps} steps off"),
                &month,
            );
        }
    }
}
