//! A meter month to be changed hour by hour.

use second::meter::month;
use second::refusal::Refusal;

/// Grams of an hour at flow 100.0 and content 60.0.
pub const STEADY: u64 = 40_800;

#[derive(Clone)]
pub struct Hours {
    pub flows: Vec<f32>,
    pub contents: Vec<f32>,
    pub states: Vec<u8>,
    pub efficiency: u16,
}

impl Hours {
    pub fn steady(hours: usize) -> Hours {
        Hours {
            flows: vec![100.0; hours],
            contents: vec![60.0; hours],
            states: vec![0; hours],
            efficiency: 10_000,
        }
    }

    /// A steady month of 672 hours with these states from `start` on. What a
    /// missing reading has for bits is made one that would be refused.
    pub fn with_states(start: usize, states: &[u8]) -> Hours {
        let mut hours = Hours::steady(672);
        hours.set_states(start, states);
        hours
    }

    pub fn set_states(&mut self, start: usize, states: &[u8]) {
        for (hour, &state) in (start..).zip(states) {
            self.states[hour] = state;
            if state & 1 != 0 {
                self.flows[hour] = f32::NAN;
            }
            if state & 2 != 0 {
                self.contents[hour] = -1.0;
            }
        }
    }

    pub fn answer(&self) -> Result<u64, Refusal> {
        month(&self.flows, &self.contents, &self.states, self.efficiency)
    }

    pub fn destroyed(&self) -> u64 {
        self.answer().expect("a month that is taken")
    }

    /// How many steady hours the month is short of.
    pub fn lost(&self) -> u64 {
        let short = self.states.len() as u64 * STEADY - self.destroyed();
        assert_eq!(short % STEADY, 0, "{short}");
        short / STEADY
    }
}
