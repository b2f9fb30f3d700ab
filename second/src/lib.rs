//! Methane credits under California's livestock offset protocol, worked out a
//! second time from papers 01 and 02 and the protocol alone, and by exact
//! integers throughout.
//!
//! Months, lines, categories, devices, years and the rows of the protocol's
//! tables count from 1, as in the papers.

pub mod book;
pub mod calendar;
pub mod factor;
pub mod feet;
pub mod lagoon;
pub mod livestock;
pub mod meter;
pub mod months;
mod needed;
pub mod program;
pub mod reading;
pub mod record;
pub mod refusal;
pub mod year;
