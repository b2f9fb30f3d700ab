//! Made-up months of a meter in cubic metres.

use crate::random::Random;

pub struct Hours {
    pub flows: Vec<f32>,
    pub contents: Vec<f32>,
    pub states: Vec<u8>,
    pub efficiency: u16,
}

pub const NO_FLOW: u8 = 1;
pub const NO_CONTENT: u8 = 2;
pub const NEITHER: u8 = NO_FLOW | NO_CONTENT;
pub const DEVICE_OUT: u8 = 4;
pub const HIGHEST_STATE: u8 = 7;

/// The hours of months of 28 to 31 days.
pub const LENGTHS: [usize; 4] = [672, 696, 720, 744];

impl Hours {
    /// So many hours, all alike and with nothing missing.
    pub fn steady(count: usize, flow: f32, content: f32) -> Hours {
        Hours {
            flows: vec![flow; count],
            contents: vec![content; count],
            states: vec![0; count],
            efficiency: 10_000,
        }
    }

    /// So many hours of which no two near each other are alike, nothing missing.
    pub fn uneven(count: usize) -> Hours {
        let mut hours = Hours::steady(count, 0.0, 0.0);
        for hour in 0..count {
            hours.flows[hour] = 80.0 + (hour * 37 % 101) as f32 + (hour % 89) as f32 / 64.0;
            hours.contents[hour] = 45.0 + (hour * 29 % 47) as f32 + (hour % 83) as f32 / 128.0;
        }
        hours.efficiency = 9_973;
        hours
    }
}

/// The month of the run's case `case`: gaps of every length, and in some a bad
/// float, an odd state or a wrong length.
pub fn hours(seed: u64, case: u64) -> Hours {
    let random = &mut Random::of_case(seed, case);
    let count = LENGTHS[random.below(LENGTHS.len())];
    let mut hours = Hours {
        flows: (0..count).map(|_| flow(random)).collect(),
        contents: (0..count).map(|_| content(random)).collect(),
        states: vec![0; count],
        efficiency: random.within(0, 10_000) as u16,
    };
    for missing in [NO_FLOW, NO_CONTENT, DEVICE_OUT] {
        for _ in 0..random.below(30) {
            gap(random, &mut hours.states, missing);
        }
    }
    hide(random, &mut hours);
    if random.once_in(3) {
        spoil(random, &mut hours);
    }
    hours
}

fn flow(random: &mut Random) -> f32 {
    match random.below(40) {
        0 => 0.0,
        1 => -0.0,
        2 => 100_000.0,
        3 => f32::from_bits(random.below(0x0080_0000) as u32),
        4 => random.below(100_001) as f32,
        _ => {
            (random.next() >> 40) as f32 / (1 << 24) as f32
                * [1.0, 200.0, 100_000.0][random.below(3)]
        }
    }
}

pub fn content(random: &mut Random) -> f32 {
    match random.below(40) {
        0 => 0.0,
        1 => -0.0,
        2 => 100.0,
        3 => random.below(10_001) as f32 / 100.0,
        _ => (random.next() >> 40) as f32 / (1 << 24) as f32 * 100.0,
    }
}

/// One to seven hours without a value, some right beside another gap or at an end.
pub fn gap(random: &mut Random, states: &mut [u8], missing: u8) {
    let start = if random.once_in(10) {
        random.below(6)
    } else {
        random.below(states.len())
    };
    let length = 1 + random.below(7);
    for state in states.iter_mut().skip(start).take(length) {
        *state |= missing;
    }
}

/// The bits of a missing value are ignored, so they may be anything.
fn hide(random: &mut Random, hours: &mut Hours) {
    for hour in 0..hours.states.len() {
        if hours.states[hour] & NO_FLOW != 0 {
            hours.flows[hour] = f32::from_bits(random.next() as u32);
        }
        if hours.states[hour] & NO_CONTENT != 0 {
            hours.contents[hour] = f32::from_bits(random.next() as u32);
        }
    }
}

fn spoil(random: &mut Random, hours: &mut Hours) {
    for _ in 0..=random.below(3) {
        let hour = random.below(hours.states.len());
        match random.below(6) {
            0 => hours.flows[hour] = bad(random, 100_000.0),
            1 => hours.contents[hour] = bad(random, 100.0),
            2 => hours.states[hour] = random.next() as u8,
            3 => hours.efficiency = random.next() as u16,
            4 => {
                hours.states.truncate(hour);
                return;
            }
            _ => {
                let count = [0, 1, 671, 673, 745, 1_000][random.below(6)];
                hours.flows.resize(count, 1.0);
                hours
                    .contents
                    .resize(if random.once_in(3) { hour } else { count }, 1.0);
                hours.states.resize(count, 0);
                return;
            }
        }
    }
}

pub fn bad(random: &mut Random, most: f32) -> f32 {
    match random.below(6) {
        0 => f32::NAN,
        1 => f32::INFINITY,
        2 => f32::NEG_INFINITY,
        3 => f32::from_bits(most.to_bits() + 1),
        4 => -f32::from_bits(1),
        _ => f32::from_bits(random.next() as u32),
    }
}

/// As the programs read it from standard input.
pub fn input(hours: &Hours) -> Vec<u8> {
    let mut bytes = b"CM".to_vec();
    bytes.extend(hours.efficiency.to_le_bytes());
    for count in [hours.flows.len(), hours.contents.len(), hours.states.len()] {
        bytes.extend((count as u16).to_le_bytes());
    }
    for value in hours.flows.iter().chain(&hours.contents) {
        bytes.extend(value.to_le_bytes());
    }
    bytes.extend(&hours.states);
    bytes
}
