//! Meter months: how many hours, which efficiency, which states, and months
//! made at random.

use super::{Group, Program, SEED};
use crate::hours::{hours, input, Hours, LENGTHS};
use crate::hours::{DEVICE_OUT, HIGHEST_STATE, NEITHER, NO_CONTENT, NO_FLOW};

pub fn counts() -> Group {
    let mut group = Group::new("a month's hours and efficiency", 185, 15, 16);
    for count in [
        0, 1, 671, 672, 673, 695, 696, 697, 719, 720, 721, 743, 744, 745, 768, 1_000, 65_535,
    ] {
        for efficiency in [0, 9_870, 10_001] {
            let mut month = Hours::uneven(count);
            month.efficiency = efficiency;
            group.hours(format!("{count} hours, efficiency {efficiency}"), &month);
        }
    }
    for efficiency in [
        0, 1, 2, 255, 256, 9_999, 10_000, 10_001, 10_256, 32_768, 65_535,
    ] {
        let mut month = Hours::uneven(672);
        month.efficiency = efficiency;
        group.hours(format!("efficiency {efficiency}"), &month);
        // 4 before 11.
        month.states[3] = HIGHEST_STATE + 1;
        group.hours(format!("efficiency {efficiency}, a bad state"), &month);
        month.states[3] = 0;
        month.flows[0] = f32::NAN;
        group.hours(format!("efficiency {efficiency}, a bad flow"), &month);
    }
    differing(&mut group);
    headers(&mut group);
    group
}

/// One of the three counts differs, with as many values as it says or not.
fn differing(group: &mut Group) {
    for (shorter, longer) in [(671, 672), (672, 673), (672, 696), (744, 745)] {
        for counts in [
            [longer, shorter, shorter],
            [shorter, longer, shorter],
            [shorter, shorter, longer],
            [longer, longer, shorter],
            [longer, shorter, longer],
            [shorter, longer, longer],
        ] {
            let mut month = Hours::uneven(longer);
            month.flows.truncate(counts[0]);
            month.contents.truncate(counts[1]);
            month.states.truncate(counts[2]);
            group.hours(format!("counts {counts:?}"), &month);
        }
    }
    let whole = input(&Hours::uneven(672));
    for (at, name) in [(4, "flows"), (6, "contents"), (8, "states")] {
        for change in [-1, 1, 24] {
            let mut bytes = whole.clone();
            let count = (672 + change) as u16;
            bytes[at..at + 2].copy_from_slice(&count.to_le_bytes());
            group.add(
                Program::Month,
                format!("{count} {name} said, 672 there"),
                bytes,
            );
        }
    }
}

/// The mark, a header cut short, bytes that lack and bytes too many.
fn headers(group: &mut Group) {
    let whole = input(&Hours::uneven(696));
    for mark in [*b"cM", *b"Cm", *b"CN", *b"MC", *b"YR", [0, 0]] {
        for length in [2, 3, 9, 10, whole.len() - 1, whole.len(), whole.len() + 1] {
            let mut bytes = whole.clone();
            bytes.push(0);
            bytes.truncate(length);
            bytes[..2].copy_from_slice(&mark);
            group.add(
                Program::Month,
                format!("mark {mark:02x?}, {length} bytes"),
                bytes,
            );
        }
    }
    group.add(Program::Month, "one byte", b"C".to_vec());
    group.add(Program::Month, "one byte of another mark", b"X".to_vec());
    for length in (0..=12).chain([100, 2_793, 2_794, 2_795, 5_577, 5_578, 5_579]) {
        group.add(
            Program::Month,
            format!("the first {length} bytes"),
            whole[..length].to_vec(),
        );
    }
    for more in [1, 2, 4, 9, 600_000] {
        let bytes = [whole.clone(), vec![0; more]].concat();
        group.add(Program::Month, format!("{more} bytes more"), bytes);
    }
    let lacking = whole[..whole.len() - 1].to_vec();
    group.add(Program::Month, "a byte less", lacking);
}

/// Each state at the ends and within, faults in two hours, and hours when the
/// device was out.
pub fn states() -> Group {
    let mut group = Group::new("states", 200, 130, 75);
    let places = |length: usize| [0, 1, 300, length - 1];
    for length in LENGTHS {
        for hour in places(length) {
            for state in (0..=8).chain([9, 15, 16, 128, 255]) {
                if length == 672 || [7, 8].contains(&state) {
                    let mut month = Hours::uneven(length);
                    month.states[hour] = state;
                    group.hours(format!("state {state} in hour {hour} of {length}"), &month);
                }
            }
        }
    }
    for (early, late) in [(5, 6), (5, 600), (0, 671), (670, 671)] {
        for first in FAULTS {
            for second in FAULTS {
                let mut month = Hours::uneven(672);
                first(&mut month, early);
                second(&mut month, late);
                group.hours(format!("faults in hours {early} and {late}"), &month);
            }
        }
    }
    out_around_gaps(&mut group);
    group
}

const FAULTS: [fn(&mut Hours, usize); 3] = [
    |month, hour| month.states[hour] = HIGHEST_STATE + 1,
    |month, hour| month.flows[hour] = -1.0,
    |month, hour| month.contents[hour] = 100.5,
];

/// The device was out in a gap, before it, after it or in all of these: its
/// hours count nothing, and their readings feed the average.
fn out_around_gaps(group: &mut Group) {
    for missing in [NO_FLOW, NO_CONTENT, NEITHER] {
        for gap in 1..=6 {
            for out in [
                96..100,
                100..100 + gap,
                100 + gap..104 + gap,
                96..104 + gap,
                101..102,
            ] {
                let mut month = Hours::uneven(672);
                for state in &mut month.states[100..100 + gap] {
                    *state |= missing;
                }
                for state in &mut month.states[out.clone()] {
                    *state |= DEVICE_OUT;
                }
                group.hours(
                    format!("{missing} missing for {gap} hours, out in {out:?}"),
                    &month,
                );
            }
        }
    }
}

/// The months that the library is held to the second program on, some of them.
pub fn months() -> Group {
    let mut group = Group::new("months at random", 300, 200, 220);
    for case in 0..300 {
        group.hours(format!("month {case}"), &hours(SEED, case));
    }
    group
}
