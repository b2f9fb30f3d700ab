//! The month of one biogas meter: what the two kinds of meter share, and the
//! kind that counts cubic metres.

pub use crate::reading::{hundredths, litres};
use crate::refusal::{Reason, Refusal};

const MOST_HOURS: usize = 744;
const MOST_EFFICIENCY: u16 = 10_000;
const LONGEST_FILLED: usize = 5;
const HOURS_EACH_SIDE: usize = 4;

pub(crate) const NO_FLOW: u8 = 1;
pub(crate) const NO_CONTENT: u8 = 2;
const DEVICE_OUT: u8 = 4;
const HIGHEST_STATE: u8 = 7;

/// One value an hour, or none; entries past the month's hours are not used.
type Hours = [Option<u32>; MOST_HOURS];

/// What a meter recorded in one hour: its flow in the whole units of its kind,
/// and the content in hundredths of a per cent.
#[derive(Clone, Copy, Debug, PartialEq, Eq)]
pub struct Hour {
    pub flow: Option<u32>,
    pub content: Option<u32>,
}

/// Grams of methane destroyed in a month of hours, with flows in cubic metres
/// and the efficiency in ten-thousandths; or its refusal: 10, 4 and 11, in this
/// order.
pub fn month(
    flows: &[f32],
    contents: &[f32],
    states: &[u8],
    efficiency: u16,
) -> Result<u64, Refusal> {
    looked_at(states.len(), [flows, contents], efficiency)?;
    let recorded = recorded(states.len(), |at| hour(flows[at], contents[at], states[at]))?;
    Ok(destroyed(&recorded, states, efficiency, methane_grams))
}

/// Grams of methane in an hour: the 68 is Equation 5.3's 0.68 kg per cubic
/// metre, in hundredths.
pub fn methane_grams(litres: u32, content: u32) -> u64 {
    u64::from(litres) * u64::from(content) * 68 / 1_000_000
}

/// What an hour recorded, its flow in litres; or none where it is a bad hour.
fn hour(flow: f32, content: f32, state: u8) -> Option<Hour> {
    if state > HIGHEST_STATE {
        return None;
    }
    let mut recorded = Hour {
        flow: None,
        content: None,
    };
    if state & NO_FLOW == 0 {
        recorded.flow = Some(litres(flow)?);
    }
    if state & NO_CONTENT == 0 {
        recorded.content = Some(hundredths(content)?);
    }
    Some(recorded)
}

/// Refusals 10 and 4, of the lists of readings beside the states.
pub(crate) fn looked_at<const LISTS: usize>(
    hours: usize,
    readings: [&[f32]; LISTS],
    efficiency: u16,
) -> Result<(), Refusal> {
    let differs = readings.iter().any(|list| list.len() != hours);
    if !matches!(hours, 672 | 696 | 720 | 744) || differs {
        return Err(Refusal::of(Reason::NoSuchMonthOfHours));
    }
    if efficiency > MOST_EFFICIENCY {
        return Err(Refusal::of(Reason::OutsideRange));
    }
    Ok(())
}

/// What a month recorded, hour by hour.
pub(crate) struct Recorded {
    flows: Hours,
    contents: Hours,
}

/// The readings that are present, or refusal 11. Those of hours when the device
/// was out are readings like any other.
pub(crate) fn recorded(
    hours: usize,
    hour: impl Fn(usize) -> Option<Hour>,
) -> Result<Recorded, Refusal> {
    let mut all = Recorded {
        flows: [None; MOST_HOURS],
        contents: [None; MOST_HOURS],
    };
    for at in 0..hours {
        let Hour { flow, content } = hour(at).ok_or(Refusal::at(Reason::BadHour, at as u16))?;
        all.flows[at] = flow;
        all.contents[at] = content;
    }
    Ok(all)
}

/// The month's sum, of whichever kind the meter is: `grams` are those of a flow
/// and a content.
pub(crate) fn destroyed(
    recorded: &Recorded,
    states: &[u8],
    efficiency: u16,
    grams: impl Fn(u32, u32) -> u64,
) -> u64 {
    let hours = states.len();
    let flows = with_gaps_filled(&recorded.flows, hours);
    let contents = with_gaps_filled(&recorded.contents, hours);
    let mut sum = 0;
    let recorded = recorded.flows.iter().zip(&recorded.contents);
    let filled = flows.iter().zip(&contents);
    for ((&state, recorded), filled) in states.iter().zip(recorded).zip(filled) {
        if state & DEVICE_OUT != 0 || recorded == (&None, &None) {
            continue;
        }
        if let (&Some(flow), &Some(content)) = filled {
            sum += grams(flow, content) * u64::from(efficiency) / u64::from(MOST_EFFICIENCY);
        }
    }
    sum
}

/// Fills each maximal run of 1 to 5 missing values that has four recorded ones
/// on both sides within the month. Runs and averages are looked for among the
/// recorded values alone, so no filled value feeds an average.
fn with_gaps_filled(recorded: &Hours, hours: usize) -> Hours {
    let mut filled = *recorded;
    let mut hour = 0;
    while hour < hours {
        let run = missing_from(&recorded[hour..hours]);
        let end = hour + run;
        if (1..=LONGEST_FILLED).contains(&run) {
            let average = average_around(&recorded[..hours], hour, end);
            filled[hour..end].fill(average);
        }
        hour = end + 1;
    }
    filled
}

fn missing_from(values: &[Option<u32>]) -> usize {
    values.iter().take_while(|value| value.is_none()).count()
}

/// The whole average of the eight values around the run `start..end`, if all
/// eight are recorded in this month. The largest value there is, 520,000,000
/// hundredths of a standard cubic foot, makes eight that stay below 2^32.
fn average_around(recorded: &[Option<u32>], start: usize, end: usize) -> Option<u32> {
    let before = recorded.get(start.checked_sub(HOURS_EACH_SIDE)?..start)?;
    let after = recorded.get(end..end + HOURS_EACH_SIDE)?;
    let mut sum = 0;
    for value in before.iter().chain(after) {
        sum += (*value)?;
    }
    Some(sum / (2 * HOURS_EACH_SIDE as u32))
}
