//! Readings of a meter in cubic feet: at the edges of their ranges and of f32,
//! beside whole numbers, filled in gaps, and rounded once.

use super::Group;
use crate::feet::{
    FeetHours, LEAST_TEMPERATURE, MOST_CONTENT, MOST_FEET, MOST_PRESSURE, MOST_TEMPERATURE,
    NO_CORRECTION,
};
use crate::hours::{DEVICE_OUT, LENGTHS, NO_CONTENT, NO_FLOW};

/// What each of the lists may be, with its name and its parts in one.
const LISTS: [(&str, f32, f32, f64); 4] = [
    ("flow", 0.0, MOST_FEET, 100.0),
    ("content", 0.0, MOST_CONTENT, 100.0),
    ("temperature", LEAST_TEMPERATURE, MOST_TEMPERATURE, 100.0),
    ("pressure", 0.0, MOST_PRESSURE, 10_000.0),
];

/// The month in which a difference of one in a reading's whole number shows:
/// the other readings make the most of it.
fn telling() -> FeetHours {
    let mut month = FeetHours::steady(672, MOST_FEET, MOST_CONTENT);
    month.temperatures.fill(LEAST_TEMPERATURE);
    month.pressures.fill(MOST_PRESSURE);
    month
}

pub fn floats() -> Group {
    let mut group = Group::new("cubic feet: floats", 150, 74, 60);
    for (list, (name, least, most, _)) in LISTS.into_iter().enumerate() {
        for bits in special(least, most) {
            let mut month = telling();
            month.list_mut(list)[17] = f32::from_bits(bits);
            group.feet(format!("{name} {bits:#010x}"), &month);
        }
    }
    for (list, (name, ..)) in LISTS.into_iter().enumerate() {
        for steps in -1..=1 {
            near_whole_numbers(&mut group, list, name, steps);
        }
    }
    group
}

/// Bad floats of every kind, the limits of this list with their neighbours, and
/// what would be limits if they were those of another.
fn special(least: f32, most: f32) -> Vec<u32> {
    let mut bits = vec![
        0,
        1,
        0x007f_ffff,
        0x7fc0_0000,
        0x7f80_0001,
        0xffc0_0000,
        0x8000_0000,
        0x8000_0001,
    ];
    let floats = [
        f32::INFINITY,
        f32::NEG_INFINITY,
        f32::MAX,
        -most,
        60.1,
        459.67,
        528.0,
        0.01,
        100_001.0,
        400_001.0,
        701.0,
        399.0,
        10.5,
        101.0,
    ];
    bits.extend(floats.map(f32::to_bits));
    for limit in [least, most] {
        let beside = [limit.next_down(), limit, limit.next_up()];
        bits.extend(beside.map(f32::to_bits));
    }
    for (_, least, most, _) in LISTS {
        bits.extend([least, most].map(f32::to_bits));
    }
    bits.sort();
    bits.dedup();
    bits
}

/// Months whose every hour has one reading within a step of f32 of one of its
/// whole numbers, by hundredths or ten-thousandths.
fn near_whole_numbers(group: &mut Group, list: usize, name: &str, steps: i32) {
    let (_, least, most, scale) = LISTS[list];
    let lowest = (f64::from(least) * scale) as usize;
    let span = (f64::from(most) * scale) as usize - lowest;
    for spread in [1, 13, span / 680] {
        let mut month = telling();
        for (hour, reading) in month.list_mut(list).iter_mut().enumerate() {
            let nearest = ((lowest + 1 + hour * spread) as f64 / scale) as f32;
            *reading = f32::from_bits(nearest.to_bits().wrapping_add_signed(steps));
        }
        group.feet(
            format!("{name}, {steps} steps off, spread {spread}"),
            &month,
        );
    }
}

pub fn gaps() -> Group {
    let mut group = Group::new("cubic feet: gaps", 210, 210, 112);
    for kind in [NO_CORRECTION, NO_CORRECTION | NO_CONTENT, NO_FLOW] {
        for length in [1, 4, 5, 6] {
            for distance in [0, 3, 4, 5] {
                near_an_end(&mut group, kind, length, distance);
            }
        }
    }
    for kinds in [[8, 8], [8, 1], [1, 8], [8, 2], [10, 8]] {
        for lengths in [[1, 1], [5, 5], [5, 6]] {
            for distance in [0, 1, 3, 4, 5] {
                beside(&mut group, kinds, lengths, distance);
            }
        }
    }
    within(&mut group);
    group
}

fn near_an_end(group: &mut Group, kind: u8, length: usize, distance: usize) {
    let count = LENGTHS[(length + distance) % LENGTHS.len()];
    let end = count - distance;
    for gap in [distance..distance + length, end - length..end] {
        let mut month = FeetHours::uneven(count);
        month.states[gap.clone()].fill(kind);
        group.feet(format!("state {kind} in {gap:?} of {count}"), &month);
    }
}

/// Two gaps with so many hours between them.
fn beside(group: &mut Group, kinds: [u8; 2], lengths: [usize; 2], distance: usize) {
    let start = 100 + 10 * lengths[0] + distance;
    let between = start + lengths[0];
    let second = between + distance;
    let mut month = FeetHours::uneven(672);
    month.states[start..between].fill(kinds[0]);
    month.states[second..second + lengths[1]].fill(kinds[1]);
    group.feet(
        format!("states {kinds:?}, lengths {lengths:?}, {distance} hours between"),
        &month,
    );
}

/// Runs whose hours do not all lack the same: one without flow and one without
/// temperature or pressure are hours of one gap.
fn within(group: &mut Group) {
    for run in [
        vec![1, 8],
        vec![8, 1, 9],
        vec![8, 8, 1, 8, 8],
        vec![8, 1, 8, 1, 8, 1],
        vec![1, 1, 1, 1, 1, 8],
        vec![8, 10, 8],
        vec![8, 10, 2],
        vec![8, 2],
        vec![10, 10, 10, 10, 10],
        vec![11, 3, 9],
        vec![8, 0, 1],
        vec![12, 8, 12],
        vec![8, 12, 4, 8],
        vec![5, 9, 13],
        vec![14, 2, 6],
    ] {
        for start in [4, 250, 667 - run.len()] {
            let mut month = FeetHours::uneven(672);
            month.states[start..start + run.len()].copy_from_slice(&run);
            group.feet(format!("states {run:?} from hour {start}"), &month);
        }
    }
}

/// Small flows, of which a hundredth more or less is a gram in many hours, at
/// temperatures and pressures that correct them to just above and just below
/// whole hundredths; with gaps and without.
pub fn roundings() -> Group {
    let mut group = Group::new("cubic feet: roundings", 64, 64, 46);
    for most in [40, 300, 5_000, 39_000_000] {
        for temperatures in [[40_001, 29_999], [51_997, 7], [40_000, 1], [69_000, 997]] {
            for missing in [0, NO_FLOW, NO_CORRECTION, NO_CORRECTION | DEVICE_OUT] {
                let month = small_flows(most, temperatures, missing);
                let name = format!("flows to {most}, {temperatures:?}, {missing} missing");
                group.feet(name, &month);
            }
        }
    }
    group
}

/// Every twelfth hour or so lacks something.
fn small_flows(most: usize, [least, spread]: [usize; 2], missing: u8) -> FeetHours {
    let mut month = FeetHours::steady(672, 0.0, MOST_CONTENT);
    for hour in 0..672 {
        month.flows[hour] = (1 + hour * 7_919 % most) as f32 / 100.0;
        month.temperatures[hour] = (least + hour * 5_003 % spread) as f32 / 100.0;
        month.pressures[hour] = (9_000 + hour * 6_007 % 24_000) as f32 / 10_000.0;
        month.contents[hour] = 97.0 + (hour % 97) as f32 / 32.0;
        if hour % 12 < hour / 12 % 3 {
            month.states[hour] = missing;
        }
    }
    month
}
