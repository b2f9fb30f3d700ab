//! What only the C face can be handed: records of any length, efficiencies of
//! 32 bits, and slices of any lengths.

use crate::book::RECORD_BYTES;
use crate::feet::{feet_hours, FeetHours};
use crate::hours::{hours, Hours};
use crate::random::Random;
use crate::streams::pieces;

/// The records of a stream, and in some cases among them pieces of it that are
/// shorter or longer than a record.
pub fn pieces_of(seed: u64, case: u64, stream: &[u8]) -> Vec<&[u8]> {
    let random = &mut Random::of_case(!seed, case);
    let mut pieces: Vec<&[u8]> = pieces(stream).collect();
    if random.once_in(10) {
        for _ in 0..=random.below(4) {
            let start = RECORD_BYTES * random.below(pieces.len() + 1);
            let rest = &stream[start.min(stream.len())..];
            let length = [0, 1, 2, 15, 17, 18, 32, 1_000][random.below(8)];
            pieces.insert(
                random.below(pieces.len() + 1),
                &rest[..length.min(rest.len())],
            );
        }
    }
    pieces
}

/// A month of a meter in cubic metres, with the efficiency as the C face takes it.
pub fn month_of(seed: u64, case: u64) -> (Hours, u32) {
    let random = &mut Random::of_case(!seed, case);
    let mut hours = hours(seed, case);
    let efficiency = efficiency(random, hours.efficiency);
    if random.once_in(20) {
        let length = length(random);
        match random.below(3) {
            0 => hours.flows.resize(length, 1.0),
            1 => hours.contents.resize(length, 1.0),
            _ => hours.states.resize(length, 0),
        }
    }
    (hours, efficiency)
}

/// A month of a meter in cubic feet, likewise.
pub fn feet_month_of(seed: u64, case: u64) -> (FeetHours, u32) {
    let random = &mut Random::of_case(!seed, case);
    let mut hours = feet_hours(seed, case);
    let efficiency = efficiency(random, hours.efficiency);
    if random.once_in(20) {
        let length = length(random);
        hours.resize(random.below(5), length);
    }
    (hours, efficiency)
}

fn efficiency(random: &mut Random, own: u16) -> u32 {
    match random.below(50) {
        0 => 10_000,
        1 => 10_001,
        2 => 65_536,
        3 => 65_536 + 5,
        4 => 65_536 + 10_000,
        5 => u32::MAX,
        6 => random.next() as u32,
        _ => own.into(),
    }
}

fn length(random: &mut Random) -> usize {
    [0, 1, 671, 672, 673, 696, 720, 743, 744, 745][random.below(10)]
}
