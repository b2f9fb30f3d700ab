//! Made-up months of a meter in cubic feet.

use crate::hours::{bad, content, gap, DEVICE_OUT, LENGTHS, NO_CONTENT, NO_FLOW};
use crate::random::Random;

#[derive(Clone)]
pub struct FeetHours {
    pub flows: Vec<f32>,
    pub contents: Vec<f32>,
    pub temperatures: Vec<f32>,
    pub pressures: Vec<f32>,
    pub states: Vec<u8>,
    pub efficiency: u16,
}

/// Temperature or pressure is missing.
pub const NO_CORRECTION: u8 = 8;
pub const HIGHEST_FEET_STATE: u8 = 15;

pub const MOST_FEET: f32 = 400_000.0;
pub const MOST_CONTENT: f32 = 100.0;
pub const LEAST_TEMPERATURE: f32 = 400.0;
pub const MOST_TEMPERATURE: f32 = 700.0;
pub const MOST_PRESSURE: f32 = 10.0;

/// What a standard cubic foot is at.
pub const STANDARD_TEMPERATURE: f32 = 520.0;
pub const STANDARD_PRESSURE: f32 = 1.0;

impl FeetHours {
    /// So many hours at what a standard cubic foot is at, all alike and with
    /// nothing missing.
    pub fn steady(count: usize, flow: f32, content: f32) -> FeetHours {
        FeetHours {
            flows: vec![flow; count],
            contents: vec![content; count],
            temperatures: vec![STANDARD_TEMPERATURE; count],
            pressures: vec![STANDARD_PRESSURE; count],
            states: vec![0; count],
            efficiency: 10_000,
        }
    }

    /// So many hours of which no two near each other are alike, nothing missing.
    pub fn uneven(count: usize) -> FeetHours {
        let mut hours = FeetHours::steady(count, 0.0, 0.0);
        for hour in 0..count {
            hours.flows[hour] =
                8_000.0 + (hour * 3_701 % 10_007) as f32 + (hour % 89) as f32 / 64.0;
            hours.contents[hour] = 45.0 + (hour * 29 % 47) as f32 + (hour % 83) as f32 / 128.0;
            hours.temperatures[hour] =
                430.0 + (hour * 53 % 241) as f32 + (hour % 79) as f32 / 128.0;
            hours.pressures[hour] =
                0.5 + (hour * 17 % 31) as f32 / 8.0 + (hour % 73) as f32 / 4_096.0;
        }
        hours.efficiency = 9_973;
        hours
    }

    /// The lists of floats, in the order of the counts.
    pub fn lists(&self) -> [&[f32]; 4] {
        [
            &self.flows,
            &self.contents,
            &self.temperatures,
            &self.pressures,
        ]
    }

    pub fn list_mut(&mut self, list: usize) -> &mut Vec<f32> {
        match list {
            0 => &mut self.flows,
            1 => &mut self.contents,
            2 => &mut self.temperatures,
            _ => &mut self.pressures,
        }
    }

    /// Makes one of the five lists so long, the states being the last.
    pub fn resize(&mut self, list: usize, length: usize) {
        match list {
            0..=3 => self.list_mut(list).resize(length, LEAST_TEMPERATURE),
            _ => self.states.resize(length, 0),
        }
    }
}

/// The month of the run's case `case`: gaps of every length, and in some a bad
/// float, an odd state or a wrong length.
pub fn feet_hours(seed: u64, case: u64) -> FeetHours {
    let random = &mut Random::of_case(seed, case);
    let count = LENGTHS[random.below(LENGTHS.len())];
    let mut hours = FeetHours {
        flows: (0..count).map(|_| flow(random)).collect(),
        contents: (0..count).map(|_| content(random)).collect(),
        temperatures: (0..count).map(|_| temperature(random)).collect(),
        pressures: (0..count).map(|_| pressure(random)).collect(),
        states: vec![0; count],
        efficiency: random.within(0, 10_000) as u16,
    };
    for missing in [NO_FLOW, NO_CONTENT, NO_CORRECTION, DEVICE_OUT] {
        for _ in 0..random.below(20) {
            gap(random, &mut hours.states, missing);
        }
    }
    hide(random, &mut hours);
    if random.once_in(3) {
        spoil(random, &mut hours);
    }
    hours
}

/// From 0 up to 1.
fn part(random: &mut Random) -> f32 {
    (random.next() >> 40) as f32 / (1 << 24) as f32
}

fn flow(random: &mut Random) -> f32 {
    match random.below(40) {
        0 => 0.0,
        1 => -0.0,
        2 => MOST_FEET,
        3 => MOST_FEET.next_down(),
        4 => f32::from_bits(random.below(0x0080_0000) as u32),
        5 => random.below(400_001) as f32,
        _ => part(random) * [1.0, 8_000.0, MOST_FEET][random.below(3)],
    }
}

fn temperature(random: &mut Random) -> f32 {
    match random.below(40) {
        0 => LEAST_TEMPERATURE,
        1 => LEAST_TEMPERATURE.next_up(),
        2 => MOST_TEMPERATURE,
        3 => MOST_TEMPERATURE.next_down(),
        4 => STANDARD_TEMPERATURE,
        5 => STANDARD_TEMPERATURE.next_down(),
        6 => random.within(40_000, 70_000) as f32 / 100.0,
        _ => LEAST_TEMPERATURE + part(random) * (MOST_TEMPERATURE - LEAST_TEMPERATURE),
    }
}

fn pressure(random: &mut Random) -> f32 {
    match random.below(40) {
        0 => 0.0,
        1 => -0.0,
        2 => MOST_PRESSURE,
        3 => MOST_PRESSURE.next_down(),
        4 => STANDARD_PRESSURE,
        5 => STANDARD_PRESSURE.next_down(),
        6 => f32::from_bits(random.below(0x0080_0000) as u32),
        7 => random.below(100_001) as f32 / 10_000.0,
        _ => part(random) * [0.01, 2.0, MOST_PRESSURE][random.below(3)],
    }
}

/// The bits of what is ignored may be anything; some stay those of a good
/// reading, so that it shows where they are not ignored.
fn hide(random: &mut Random, hours: &mut FeetHours) {
    const IGNORED_BY: [u8; 4] = [
        NO_FLOW | NO_CORRECTION,
        NO_CONTENT,
        NO_CORRECTION,
        NO_CORRECTION,
    ];
    for hour in 0..hours.states.len() {
        for (list, ignored_by) in IGNORED_BY.into_iter().enumerate() {
            if hours.states[hour] & ignored_by != 0 && random.once_in(2) {
                hours.list_mut(list)[hour] = f32::from_bits(random.next() as u32);
            }
        }
    }
}

fn spoil(random: &mut Random, hours: &mut FeetHours) {
    for _ in 0..=random.below(3) {
        let hour = random.below(hours.states.len());
        match random.below(9) {
            0 => hours.flows[hour] = bad_or_beside(random, [0.0, MOST_FEET]),
            1 => hours.contents[hour] = bad_or_beside(random, [0.0, MOST_CONTENT]),
            2 | 3 => {
                let limits = [LEAST_TEMPERATURE, MOST_TEMPERATURE];
                hours.temperatures[hour] = bad_or_beside(random, limits);
            }
            4 => hours.pressures[hour] = bad_or_beside(random, [0.0, MOST_PRESSURE]),
            5 => hours.states[hour] = [random.next() as u8, 15, 16, 24][random.below(4)],
            6 => hours.efficiency = random.next() as u16,
            7 => {
                hours.resize(random.below(5), hour);
                return;
            }
            _ => {
                let count = [0, 1, 671, 673, 745, 1_000][random.below(6)];
                for list in 0..5 {
                    hours.resize(list, count);
                }
                return;
            }
        }
    }
}

/// A bad float, or one that is at most a step of f32 away from a limit.
fn bad_or_beside(random: &mut Random, limits: [f32; 2]) -> f32 {
    let limit = limits[random.below(2)];
    match random.below(6) {
        0 => limit,
        1 => limit.next_up(),
        2 => limit.next_down(),
        3 => -limit,
        _ => bad(random, limits[1]),
    }
}

/// As the programs read it from standard input.
pub fn feet_input(hours: &FeetHours) -> Vec<u8> {
    let mut bytes = b"CF".to_vec();
    bytes.extend(hours.efficiency.to_le_bytes());
    for list in hours.lists() {
        bytes.extend((list.len() as u16).to_le_bytes());
    }
    bytes.extend((hours.states.len() as u16).to_le_bytes());
    for value in hours.lists().concat() {
        bytes.extend(value.to_le_bytes());
    }
    bytes.extend(&hours.states);
    bytes
}
