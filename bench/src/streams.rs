//! Streams of records: whole, damaged, torn, doubled, shuffled, lacking, at the edges.

use crate::book::{edge, whole, Extent, Record, RECORD_BYTES};
use crate::random::Random;

/// A stream of the run's case `case`.
pub fn stream(seed: u64, case: u64) -> Vec<u8> {
    let random = &mut Random::of_case(seed, case);
    match case % 10 {
        0 => edges(random),
        1 if random.once_in(100) => joined(&whole(random, &Extent::FULL)),
        kind => {
            let extent = Extent::any(random);
            let mut records = whole(random, &extent);
            if random.once_in(2) {
                random.shuffle(&mut records);
            }
            match kind {
                2 => double(random, &mut records),
                3 => leave_out(random, &mut records),
                4 => double_and_leave_out(random, &mut records),
                5 => add_edges(random, &mut records),
                _ => {}
            }
            let mut stream = joined(&records);
            match kind {
                6 => flip_bits(random, &mut stream),
                7 => change_bytes(random, &mut stream),
                8 => tear(random, &mut stream),
                _ => {}
            }
            stream
        }
    }
}

pub fn joined(records: &[Record]) -> Vec<u8> {
    records.concat()
}

/// The records of a stream; the last may be shorter.
pub fn pieces(stream: &[u8]) -> impl Iterator<Item = &[u8]> {
    stream.chunks(RECORD_BYTES)
}

fn edges(random: &mut Random) -> Vec<u8> {
    let count = random.below(200);
    let records: Vec<Record> = (0..count).map(|_| edge(random)).collect();
    joined(&records)
}

fn double(random: &mut Random, records: &mut Vec<Record>) {
    for _ in 0..=random.below(20) {
        let again = records[random.below(records.len())];
        let at = random.below(records.len() + 1);
        records.insert(at, again);
    }
}

fn leave_out(random: &mut Random, records: &mut Vec<Record>) {
    for _ in 0..=random.below(3) {
        records.remove(random.below(records.len()));
        if records.is_empty() {
            return;
        }
    }
}

fn double_and_leave_out(random: &mut Random, records: &mut Vec<Record>) {
    double(random, records);
    leave_out(random, records);
}

fn add_edges(random: &mut Random, records: &mut Vec<Record>) {
    for _ in 0..=random.below(10) {
        let at = random.below(records.len() + 1);
        records.insert(at, edge(random));
    }
}

fn flip_bits(random: &mut Random, stream: &mut [u8]) {
    for _ in 0..=random.below(6) {
        let at = random.below(stream.len());
        stream[at] ^= 1 << random.below(8);
    }
}

fn change_bytes(random: &mut Random, stream: &mut [u8]) {
    for _ in 0..=random.below(6) {
        let at = random.below(stream.len());
        stream[at] = random.next() as u8;
    }
}

/// Some bytes are lost, at the end or on the way.
fn tear(random: &mut Random, stream: &mut Vec<u8>) {
    let at = random.below(stream.len());
    let lost = if random.once_in(2) {
        stream.len() - at
    } else {
        random.below(stream.len() - at)
    };
    stream.drain(at..at + lost);
}
