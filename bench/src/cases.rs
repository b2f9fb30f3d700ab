//! The cases that both programs are held to each other on: inputs with a name,
//! in groups that each look at some of the papers' rules.

mod books;
mod damaged;
mod edges;
mod feet;
mod feet_values;
mod figures;
mod floats;
mod gaps;
mod heads;
mod lacking;
mod livestock;
mod month;
mod order;

use std::path::Path;

use crate::book::Record;
pub use crate::corpus::Program;
use crate::feet::{feet_input, FeetHours};
use crate::hours::{self, Hours};
use crate::streams;

pub const SEED: u64 = 2_011;

/// What is known of an output beforehand: by the papers, or worked out by hand
/// from their rules.
#[derive(Clone)]
pub enum Claim {
    /// It is this text, whole.
    Prints(String),
    /// The last figure of this name is from one number to another.
    Figure(&'static str, i64, i64),
}

#[derive(Clone)]
pub struct Case {
    pub group: String,
    pub name: String,
    pub program: Program,
    pub input: Vec<u8>,
    pub claims: Vec<Claim>,
}

/// A group of cases and what its answers have to come to at least, so that a
/// group that only makes refusals, or one answer over and over, does not pass.
pub struct Group {
    pub name: &'static str,
    pub least: Least,
    pub cases: Vec<Case>,
}

#[derive(Clone, Copy, Default)]
pub struct Least {
    pub cases: usize,
    /// Cases that state at least one year or a month.
    pub stated: usize,
    /// Answers of which no two are alike.
    pub different: usize,
}

impl Group {
    fn new(name: &'static str, cases: usize, stated: usize, different: usize) -> Group {
        Group {
            name,
            least: Least {
                cases,
                stated,
                different,
            },
            cases: Vec::new(),
        }
    }

    fn add(&mut self, program: Program, name: impl Into<String>, input: Vec<u8>) -> &mut Case {
        self.cases.push(Case {
            group: self.name.to_string(),
            name: name.into(),
            program,
            input,
            claims: Vec::new(),
        });
        self.cases.last_mut().expect("a case was added")
    }

    fn book(&mut self, name: impl Into<String>, records: &[Record]) -> &mut Case {
        self.add(Program::Years, name, streams::joined(records))
    }

    fn hours(&mut self, name: impl Into<String>, hours: &Hours) -> &mut Case {
        self.add(Program::Month, name, hours::input(hours))
    }

    fn feet(&mut self, name: impl Into<String>, hours: &FeetHours) -> &mut Case {
        self.add(Program::Month, name, feet_input(hours))
    }
}

impl Case {
    fn prints(&mut self, text: &str) -> &mut Case {
        self.claims.push(Claim::Prints(text.to_string()));
        self
    }

    fn states(&mut self, figure: &'static str, number: i64) -> &mut Case {
        self.between(figure, number, number)
    }

    fn between(&mut self, figure: &'static str, low: i64, high: i64) -> &mut Case {
        self.claims.push(Claim::Figure(figure, low, high));
        self
    }
}

/// All groups. The sample farm's records stand in the file `farm`.
pub fn groups(root: &Path, farm: &Path) -> std::io::Result<Vec<Group>> {
    Ok(vec![
        figures::figures(),
        edges::edges(),
        edges::marks_and_lengths(),
        order::order(),
        lacking::lacking(),
        lacking::shares(),
        livestock::livestock(),
        heads::heads(),
        books::keys(),
        books::calendar(),
        books::temperatures(),
        books::tonnes(),
        books::small(),
        books::whole_books(),
        books::ten_years(),
        books::streams(),
        month::counts(),
        month::states(),
        gaps::gaps(),
        floats::floats(),
        month::months(),
        feet::figures(),
        feet::counts(),
        feet::states(),
        feet_values::gaps(),
        feet_values::floats(),
        feet_values::roundings(),
        feet::months(),
        damaged::damaged(root, farm)?,
    ])
}
