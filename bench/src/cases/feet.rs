//! Months of a meter in cubic feet (paper 02, (iii)): figures worked out by
//! hand, how many hours, which efficiency, which states, and months made at
//! random.

use super::{Group, Program, SEED};
use crate::feet::{feet_hours, feet_input, FeetHours, HIGHEST_FEET_STATE, NO_CORRECTION};
use crate::hours::{input, Hours, DEVICE_OUT, LENGTHS, NEITHER, NO_CONTENT, NO_FLOW};

pub fn figures() -> Group {
    let mut group = Group::new("cubic feet: figures", 18, 14, 14);
    let gaps = [
        ("no gap", 0..0, 774_144),
        ("8 in hours 10 to 14", 10..15, 774_144),
        ("8 in hours 10 to 15", 10..16, 767_232),
    ];
    for (name, gap, grams) in gaps {
        let mut month = FeetHours::steady(672, 100.0, 60.0);
        month.states[gap].fill(NO_CORRECTION);
        let text = format!("destroyed {grams}\n");
        group.feet(name, &month).prints(&text);
    }
    for (name, readings, grams) in SINGLE_HOURS {
        let text = format!("destroyed {grams}\n");
        group.feet(name, &single_hour(readings)).prints(&text);
    }
    let mut efficient = single_hour([100.0, 60.0, 520.0, 1.0]);
    efficient.efficiency = 9_800;
    group
        .feet("an hour at 98 per cent", &efficient)
        .prints("destroyed 1128\n");
    for (name, temperature) in [("temperature 0", 0.0), ("temperature minus zero", -0.0)] {
        group
            .feet(name, &single_hour([100.0, 60.0, temperature, 1.0]))
            .prints("refused 11 at 0\n");
    }
    of_metres(&mut group);
    group
}

/// Flow, content, temperature and pressure of an hour, and its grams: the flow
/// in hundredths x 52,000 x P / (T x 10,000), then x content x 423 x 454 / 10^10.
const SINGLE_HOURS: [(&str, [f32; 4], u64); 10] = [
    ("an hour", [100.0, 60.0, 520.0, 1.0], 1_152),
    ("2.5 atm", [100.0, 60.0, 520.0, 2.5], 2_880),
    ("519.99 counts 51,998", [4e5, 100.0, 519.99, 1.0], 7_681_975),
    ("0.9 counts 8,999", [4e5, 100.0, 520.0, 0.9], 6_912_743),
    (
        "content 60.1 counts 6009",
        [4e5, 60.1, 520.0, 1.0],
        4_615_921,
    ),
    ("the most", [4e5, 100.0, 400.0, 10.0], 99_861_840),
    ("the hottest", [4e5, 100.0, 700.0, 10.0], 57_063_908),
    ("no flow", [0.0, 100.0, 400.0, 10.0], 0),
    ("flow minus zero", [-0.0, 100.0, 400.0, 10.0], 0),
    ("pressure minus zero", [4e5, 100.0, 400.0, -0.0], 0),
];

/// A month of which all hours but the first have nothing recorded.
fn single_hour([flow, content, temperature, pressure]: [f32; 4]) -> FeetHours {
    let mut month = FeetHours::steady(672, flow, content);
    month.temperatures[0] = temperature;
    month.pressures[0] = pressure;
    month.states[1..].fill(NEITHER);
    month
}

/// What is new of this kind is not taken of the other.
fn of_metres(group: &mut Group) {
    let mut month = Hours::steady(672, 100.0, 60.0);
    month.states[10] = NO_CORRECTION;
    group
        .hours("8 in cubic metres", &month)
        .prints("refused 11 at 10\n");
    month.states[10] = 0;
    month.flows[11] = 100_001.0;
    group
        .hours("flow 100,001 in cubic metres", &month)
        .prints("refused 11 at 11\n");
}

pub fn counts() -> Group {
    let mut group = Group::new("cubic feet: a month's hours and efficiency", 170, 9, 12);
    for count in [
        0, 1, 671, 672, 673, 696, 697, 720, 721, 743, 744, 745, 65_535,
    ] {
        group.feet(format!("{count} hours"), &FeetHours::uneven(count));
    }
    for efficiency in [0, 1, 256, 9_999, 10_000, 10_001, 10_256, 65_535] {
        let mut month = FeetHours::uneven(672);
        month.efficiency = efficiency;
        group.feet(format!("efficiency {efficiency}"), &month);
        // 4 before 11.
        for (fault, spoil) in FAULTS.into_iter().enumerate() {
            if efficiency > 9_999 {
                let mut month = month.clone();
                spoil(&mut month, 3);
                group.feet(format!("efficiency {efficiency}, fault {fault}"), &month);
            }
        }
    }
    differing(&mut group);
    headers(&mut group);
    group
}

/// One of the five counts differs, with as many values as it says or not.
fn differing(group: &mut Group) {
    for (hours, other) in [(672, 671), (672, 673), (672, 696), (696, 672), (744, 0)] {
        for list in 0..5 {
            let mut month = FeetHours::uneven(hours);
            month.resize(list, other);
            group.feet(format!("{hours} hours, {other} of list {list}"), &month);
        }
    }
    let whole = feet_input(&FeetHours::uneven(672));
    for list in 0..5 {
        for change in [-1, 1, 24] {
            let mut bytes = whole.clone();
            let count = (672 + change) as u16;
            bytes[4 + 2 * list..6 + 2 * list].copy_from_slice(&count.to_le_bytes());
            let name = format!("{count} of list {list} said, 672 there");
            group.add(Program::Month, name, bytes);
        }
    }
    // As many bytes as the counts say, and another list has what one lacks.
    for (shorter, longer) in [(0, 1), (1, 2), (3, 2), (2, 0)] {
        let mut month = FeetHours::uneven(672);
        month.resize(shorter, 671);
        month.resize(longer, 673);
        group.feet(format!("lists {shorter} and {longer} differ"), &month);
    }
}

/// The mark, a header cut short, bytes that lack and bytes too many.
fn headers(group: &mut Group) {
    let whole = feet_input(&FeetHours::uneven(672));
    let of_metres = input(&Hours::uneven(672));
    for mark in [*b"cF", *b"Cf", *b"CG", *b"FC", *b"CM", *b"XF", *b"C\0"] {
        for length in [2, 3, 9, 10, 13, 14, whole.len() - 1, whole.len()] {
            let mut bytes = whole[..length].to_vec();
            bytes[..2].copy_from_slice(&mark);
            let name = format!("mark {mark:02x?}, {length} bytes");
            group.add(Program::Month, name, bytes);
        }
    }
    let mut marked = of_metres;
    marked[1] = b'F';
    group.add(Program::Month, "cubic metres, marked CF", marked);
    let lists = [
        14,
        14 + 2_688,
        14 + 2 * 2_688,
        14 + 3 * 2_688,
        14 + 4 * 2_688,
    ];
    let lengths = lists.into_iter().flat_map(|end| [end - 1, end, end + 1]);
    for length in (2..=12).chain(lengths).chain([whole.len() - 1]) {
        let name = format!("the first {length} bytes");
        group.add(Program::Month, name, whole[..length].to_vec());
    }
    for more in [1, 2, 4, 17, 1_200_000] {
        let bytes = [whole.clone(), vec![0; more]].concat();
        group.add(Program::Month, format!("{more} bytes more"), bytes);
    }
}

/// Each state at the ends and within, and what it leaves unlooked at; faults in
/// two hours, and hours when the device was out.
pub fn states() -> Group {
    let mut group = Group::new("cubic feet: states", 255, 145, 48);
    let odd = [16, 17, 24, 31, 32, 64, 128, 255];
    for length in LENGTHS {
        for hour in [0, 300, length - 1] {
            for state in (0..=HIGHEST_FEET_STATE).chain(odd) {
                if length == 672 || [8, 15, 16].contains(&state) {
                    let mut month = FeetHours::uneven(length);
                    month.states[hour] = state;
                    group.feet(format!("state {state} in hour {hour} of {length}"), &month);
                }
            }
        }
    }
    for (fault, spoil) in FAULTS.into_iter().enumerate().skip(1) {
        for state in 0..=HIGHEST_FEET_STATE {
            let mut month = FeetHours::uneven(672);
            spoil(&mut month, 17);
            month.states[17] = state;
            group.feet(format!("fault {fault} in an hour of state {state}"), &month);
        }
    }
    for (early, late) in [(5, 6), (0, 671)] {
        for (first, spoil_first) in FAULTS.into_iter().enumerate() {
            for (second, spoil_second) in FAULTS.into_iter().enumerate() {
                let mut month = FeetHours::uneven(672);
                spoil_first(&mut month, early);
                spoil_second(&mut month, late);
                let name = format!("fault {first} in hour {early}, {second} in {late}");
                group.feet(name, &month);
            }
        }
    }
    out_around_gaps(&mut group);
    group
}

const FAULTS: [fn(&mut FeetHours, usize); 5] = [
    |month, hour| month.states[hour] = HIGHEST_FEET_STATE + 1,
    |month, hour| month.flows[hour] = -1.0,
    |month, hour| month.contents[hour] = 100.5,
    |month, hour| month.temperatures[hour] = 60.0,
    |month, hour| month.pressures[hour] = 14.7,
];

/// The device was out in a gap, before it, after it or in all of these: its
/// hours count nothing, and their readings feed the average.
fn out_around_gaps(group: &mut Group) {
    for missing in [NO_CORRECTION, NO_CORRECTION | NO_FLOW, NO_CONTENT] {
        for gap in [1, 3, 5, 6] {
            for out in [96..100, 100..100 + gap, 100 + gap..104 + gap, 96..104 + gap] {
                let mut month = FeetHours::uneven(672);
                month.states[100..100 + gap].fill(missing);
                for state in &mut month.states[out.clone()] {
                    *state |= DEVICE_OUT;
                }
                group.feet(
                    format!("{missing} missing for {gap} hours, out in {out:?}"),
                    &month,
                );
            }
        }
    }
}

/// The months that the library is held to the second program on, some of them.
pub fn months() -> Group {
    let mut group = Group::new("cubic feet: months at random", 200, 130, 140);
    for case in 0..200 {
        group.feet(format!("month {case}"), &feet_hours(SEED, case));
    }
    group
}
