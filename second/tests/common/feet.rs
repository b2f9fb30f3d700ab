//! A month of a meter in cubic feet, to be changed hour by hour.

use second::feet::month;
use second::refusal::Refusal;

/// Grams of an hour at flow 100.0 and content 60.0, 520 degrees Rankine and
/// 1 atm: 10,000 x 6,000 x 423 x 454 / 10^10 is 1152.25.
pub const STEADY: u64 = 1_152;

#[derive(Clone)]
pub struct Hours {
    pub flows: Vec<f32>,
    pub contents: Vec<f32>,
    pub temperatures: Vec<f32>,
    pub pressures: Vec<f32>,
    pub states: Vec<u8>,
    pub efficiency: u16,
}

impl Hours {
    pub fn steady(hours: usize) -> Hours {
        Hours {
            flows: vec![100.0; hours],
            contents: vec![60.0; hours],
            temperatures: vec![520.0; hours],
            pressures: vec![1.0; hours],
            states: vec![0; hours],
            efficiency: 10_000,
        }
    }

    /// A steady month of 672 hours with these states from `start` on. What an
    /// ignored reading has for bits is made one that would be refused.
    pub fn with_states(start: usize, states: &[u8]) -> Hours {
        let mut hours = Hours::steady(672);
        for (hour, &state) in (start..).zip(states) {
            hours.states[hour] = state;
            if state & (1 | 8) != 0 {
                hours.flows[hour] = f32::NAN;
            }
            if state & 2 != 0 {
                hours.contents[hour] = -1.0;
            }
            if state & 8 != 0 {
                hours.temperatures[hour] = 0.0;
                hours.pressures[hour] = f32::INFINITY;
            }
        }
        hours
    }

    pub fn answer(&self) -> Result<u64, Refusal> {
        month(
            &self.flows,
            &self.contents,
            &self.temperatures,
            &self.pressures,
            &self.states,
            self.efficiency,
        )
    }

    pub fn destroyed(&self) -> u64 {
        self.answer().expect("a month that is taken")
    }

    /// How many steady hours the month is short of.
    pub fn lost(&self) -> u64 {
        let short = self.states.len() as u64 * STEADY - self.destroyed();
        assert_eq!(short % STEADY, 0, "{short}");
        short / STEADY
    }
}
