//! A single meter reading: the exact value of an f32, taken from its bits.

const SIGN: u32 = 1 << 31;
const FRACTION_BITS: u32 = 23;

const MOST_FLOW: f32 = 100_000.0;
const MOST_CONTENT: f32 = 100.0;

const MOST_FEET: f32 = 400_000.0;
const LEAST_TEMPERATURE: u32 = 400;
const MOST_TEMPERATURE: f32 = 700.0;
const MOST_PRESSURE: f32 = 10.0;

/// Whole litres of a flow in cubic metres, or none where it is not a number,
/// infinite, below zero or above 100,000.
pub fn litres(flow: f32) -> Option<u32> {
    scaled(flow, MOST_FLOW, 1_000)
}

/// Whole hundredths of a content in per cent, or none where it is not a
/// number, infinite, below zero or above 100.
pub fn hundredths(content: f32) -> Option<u32> {
    scaled(content, MOST_CONTENT, 100)
}

/// Whole hundredths of a flow in cubic feet, or none where it is not a number,
/// infinite, below zero or above 400,000.
pub fn feet_hundredths(flow: f32) -> Option<u32> {
    scaled(flow, MOST_FEET, 100)
}

/// Whole hundredths of a temperature in degrees Rankine, or none where it is
/// not a number, infinite, below 400 or above 700. What is below 400 stays
/// below it when it is rounded down, and 400 is whole.
pub fn rankine_hundredths(temperature: f32) -> Option<u32> {
    scaled(temperature, MOST_TEMPERATURE, 100)
        .filter(|&hundredths| hundredths >= LEAST_TEMPERATURE * 100)
}

/// Whole ten-thousandths of an absolute pressure in atm, or none where it is
/// not a number, infinite, below zero or above 10.
pub fn atm_ten_thousandths(pressure: f32) -> Option<u32> {
    scaled(pressure, MOST_PRESSURE, 10_000)
}

/// `scale` times the reading, rounded down.
///
/// Among floats without a sign the order of the values is the order of the
/// bits, with infinity and then the NaNs above every number.
fn scaled(reading: f32, most: f32, scale: u64) -> Option<u32> {
    let bits = reading.to_bits();
    if bits == SIGN {
        return Some(0);
    }
    if bits > most.to_bits() {
        return None;
    }
    let exponent = bits >> FRACTION_BITS;
    let fraction = bits & ((1 << FRACTION_BITS) - 1);
    // The value is significand / 2^halvings; readings up to 400,000 are far
    // below the 2^23 from which an f32 would have none to halve.
    let (significand, halvings) = match exponent {
        0 => (fraction, 149),
        _ => (fraction | 1 << FRACTION_BITS, 150 - exponent),
    };
    let product = u64::from(significand) * scale;
    Some(product.checked_shr(halvings).unwrap_or(0) as u32)
}
