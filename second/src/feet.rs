//! The month of a biogas meter that counts cubic feet (paper 02, (iii)), with
//! the factors that the protocol gives for metered biogas (Equation 5.10, which
//! has them from 5.6).

use crate::meter::{destroyed, looked_at, recorded, Hour, NO_CONTENT, NO_FLOW};
use crate::reading::{atm_ten_thousandths, feet_hundredths, hundredths, rankine_hundredths};
use crate::refusal::Refusal;

/// Temperature or pressure is missing.
const NO_CORRECTION: u8 = 8;
const HIGHEST_STATE: u8 = 15;

/// A standard cubic foot's 520 degrees Rankine in hundredths, and its 1 atm in
/// ten-thousandths.
const STANDARD_TEMPERATURE: u64 = 52_000;
const STANDARD_PRESSURE: u64 = 10_000;

/// Grams of methane destroyed in a month of hours, with flows in cubic feet,
/// temperatures in degrees Rankine, absolute pressures in atm and the
/// efficiency in ten-thousandths; or its refusal: 10, 4 and 11, in this order.
pub fn month(
    flows: &[f32],
    contents: &[f32],
    temperatures: &[f32],
    pressures: &[f32],
    states: &[u8],
    efficiency: u16,
) -> Result<u64, Refusal> {
    let readings = [flows, contents, temperatures, pressures];
    looked_at(states.len(), readings, efficiency)?;
    let recorded = recorded(states.len(), |at| {
        let (temperature, pressure) = (temperatures[at], pressures[at]);
        hour(flows[at], contents[at], temperature, pressure, states[at])
    })?;
    Ok(destroyed(&recorded, states, efficiency, methane_grams))
}

/// What an hour recorded, its flow in hundredths of a standard cubic foot; or
/// none where it is a bad hour. Temperature and pressure are looked at also
/// where there is no flow to correct.
pub fn hour(flow: f32, content: f32, temperature: f32, pressure: f32, state: u8) -> Option<Hour> {
    if state > HIGHEST_STATE {
        return None;
    }
    let mut recorded = Hour {
        flow: None,
        content: None,
    };
    if state & NO_CORRECTION == 0 {
        let temperature = rankine_hundredths(temperature)?;
        let pressure = atm_ten_thousandths(pressure)?;
        if state & NO_FLOW == 0 {
            let flow = feet_hundredths(flow)?;
            recorded.flow = Some(corrected(flow, temperature, pressure));
        }
    }
    if state & NO_CONTENT == 0 {
        recorded.content = Some(hundredths(content)?);
    }
    Some(recorded)
}

/// Hundredths of a standard cubic foot, from those of a cubic foot at a
/// temperature in hundredths and a pressure in ten-thousandths.
pub fn corrected(flow: u32, temperature: u32, pressure: u32) -> u32 {
    let product = u64::from(flow) * STANDARD_TEMPERATURE * u64::from(pressure);
    (product / (u64::from(temperature) * STANDARD_PRESSURE)) as u32
}

/// Grams of methane in an hour: the 423 is 0.0423 lb a standard cubic foot, in
/// ten-thousandths, and the 454 is grams a lb.
pub fn methane_grams(flow: u32, content: u32) -> u64 {
    u64::from(flow) * u64::from(content) * 423 * 454 / 10_000_000_000
}
