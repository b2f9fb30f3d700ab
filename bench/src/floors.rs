//! How often each number was answered and at how many places, and the least of
//! both that a run has to reach.

use std::collections::BTreeSet;

/// One more than paper 01's highest refusal number; number 0 is no refusal.
const NUMBERS: usize = 13;

#[derive(Default)]
pub struct Tally {
    counts: [u64; NUMBERS],
    places: [BTreeSet<u64>; NUMBERS],
}

/// The least that a number has to be answered in a thousand cases, and at how
/// many places.
pub struct Floor {
    pub number: usize,
    pub in_a_thousand: u64,
    pub places: usize,
}

/// From so many cases on the floors hold: fewer can miss a rare one.
const CASES: u64 = 10_000;

impl Tally {
    pub fn add(&mut self, number: u64, place: u64) {
        self.counts[number as usize] += 1;
        if number != 0 {
            self.places[number as usize].insert(place);
        }
    }

    pub fn count(&self, number: usize) -> u64 {
        self.counts[number]
    }

    pub fn join(&mut self, more: Tally) {
        for (count, more) in self.counts.iter_mut().zip(more.counts) {
            *count += more;
        }
        for (places, more) in self.places.iter_mut().zip(more.places) {
            places.extend(more);
        }
    }

    pub fn told(&self, not_refused: &str) -> String {
        let mut told = vec![format!("{} {not_refused}", self.counts[0])];
        for (number, places) in self.places.iter().enumerate() {
            let count = self.counts[number];
            match places.len() {
                0 => {}
                1 => told.push(format!("{count} refused {number}")),
                places => told.push(format!("{count} refused {number} at {places} places")),
            }
        }
        told.join(", ")
    }

    /// Whether `cases` cases reach the floors, so that a run whose inputs have
    /// become poor fails.
    pub fn reaches(&self, floors: &[Floor], cases: u64) -> Result<(), String> {
        if cases < CASES {
            return Ok(());
        }
        for floor in floors {
            let least = floor.in_a_thousand * cases / 1_000;
            let (count, places) = (self.counts[floor.number], self.places[floor.number].len());
            if count < least || places < floor.places {
                return Err(format!(
                    "number {} was answered {count} times at {places} places, where {cases} cases should give {least} at {}",
                    floor.number, floor.places
                ));
            }
        }
        Ok(())
    }
}
