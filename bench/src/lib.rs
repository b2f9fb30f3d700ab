//! The proved code and the second program side by side.
//!
//! `programs` holds the proved programs to the second one on made-up inputs,
//! `library` the proved library, and `speed` takes the times of both sides;
//! `hold` holds a changed second program to what the proved programs printed.
//! Neither side knows of the other: the programs are run, the library is
//! called by its C face, and the second program is a library of Rust.

pub mod book;
pub mod cabinet;
pub mod cases;
pub mod corpus;
pub mod deliveries;
pub mod difference;
pub mod digest;
pub mod driver;
pub mod farm;
pub mod feet;
pub mod floors;
pub mod full;
pub mod hours;
#[cfg(feature = "linked")]
pub mod linked;
pub mod outputs;
pub mod random;
pub mod slots;
pub mod streams;
pub mod tally;
