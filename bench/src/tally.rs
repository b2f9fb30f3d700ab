//! What the answers of a run come to, and the least that they have to.

use std::collections::{BTreeMap, BTreeSet};

use crate::cases::{Group, Program};
use crate::outputs::figure;

/// Of each program's refusals how many there have to be, at how many different
/// places. No input of a program reaches refusals 9 and 12.
const LEAST_REFUSED: [(Program, u64, usize, usize); 11] = [
    (Program::Years, 1, 200, 1),
    (Program::Years, 2, 150, 1),
    (Program::Years, 3, 350, 13),
    (Program::Years, 4, 600, 9),
    (Program::Years, 5, 400, 1),
    (Program::Years, 7, 120, 16),
    (Program::Years, 8, 1_500, 50),
    (Program::Month, 2, 80, 1),
    (Program::Month, 4, 50, 1),
    (Program::Month, 10, 320, 1),
    (Program::Month, 11, 420, 65),
];

/// Of the stated years how many there have to be of each kind.
const LEAST_YEARS: [(&str, usize); 7] = [
    ("in all", 4_000),
    ("tenth years", 200),
    ("with modelled the lesser", 750),
    ("with metered the lesser", 3_200),
    ("with net below 0", 450),
    ("with solids removed", 1_300),
    ("with solids carried on", 3_200),
];

#[derive(Default)]
pub struct Tally {
    refusals: BTreeMap<(Program, u64), (usize, BTreeSet<u64>)>,
    years: BTreeMap<&'static str, usize>,
    stated_months: usize,
}

impl Tally {
    pub fn add(&mut self, program: Program, output: &[u8]) {
        let output = String::from_utf8_lossy(output);
        if let Some((number, place)) = refusal(&output) {
            let (count, places) = self.refusals.entry((program, number)).or_default();
            *count += 1;
            places.insert(place);
        }
        self.stated_months += usize::from(figure(&output, "destroyed").is_some());
        let lines: Vec<&str> = output.lines().collect();
        for year in lines.chunks(4).filter(|lines| is_stated(lines)) {
            self.add_year(&year.join("\n"));
        }
    }

    fn add_year(&mut self, year: &str) {
        let number = |name| figure(year, name).unwrap_or(0);
        let modelled = number("baseline") - number("project");
        let kinds = [
            true,
            number("year") == 10,
            modelled < number("metered"),
            modelled > number("metered"),
            number("net") < 0,
            number("removed") > 0,
            number("carried") > 0,
        ];
        for ((kind, _), is_so) in LEAST_YEARS.iter().zip(kinds) {
            *self.years.entry(kind).or_default() += usize::from(is_so);
        }
    }

    pub fn print(&self) {
        let count = |kind| self.years.get(kind).copied().unwrap_or(0);
        let told: Vec<String> = LEAST_YEARS
            .iter()
            .map(|(kind, _)| format!("{} {kind}", count(kind)))
            .collect();
        println!("programs: years stated: {}", told.join(", "));
        println!("programs: months stated: {}", self.stated_months);
        for ((program, number), (count, places)) in &self.refusals {
            println!(
                "programs: {}: {count} refused {number}, at {} places",
                program.name(),
                places.len()
            );
        }
    }

    /// What is too little.
    pub fn lacking(&self) -> Vec<String> {
        let mut lacking = Vec::new();
        for (program, number, least, least_places) in LEAST_REFUSED {
            let (count, places) = match self.refusals.get(&(program, number)) {
                Some((count, places)) => (*count, places.len()),
                None => (0, 0),
            };
            if count < least || places < least_places {
                lacking.push(format!(
                    "{}: {count} refused {number} at {places} places, of {least} at {least_places}",
                    program.name()
                ));
            }
        }
        for (kind, least) in LEAST_YEARS {
            let count = self.years.get(kind).copied().unwrap_or(0);
            if count < least {
                lacking.push(format!("years {kind}: {count}, of {least}"));
            }
        }
        lacking
    }
}

fn is_stated(lines: &[&str]) -> bool {
    lines.first().is_some_and(|line| line.starts_with("year "))
}

/// The number and the place of a refusal, which is an output's last line.
fn refusal(output: &str) -> Option<(u64, u64)> {
    let words: Vec<&str> = output.lines().last()?.split(' ').collect();
    match words[..] {
        ["refused", number, "at", place] => Some((number.parse().ok()?, place.parse().ok()?)),
        _ => None,
    }
}

/// A group's answers against the least that it has to have, and its line.
pub fn of_group(group: &Group, outputs: &[&Vec<u8>]) -> Result<String, String> {
    let stated = outputs
        .iter()
        .filter(|output| output.starts_with(b"year ") || output.starts_with(b"destroyed "))
        .count();
    let different = outputs.iter().collect::<BTreeSet<_>>().len();
    let line = format!(
        "{}: {} cases, {stated} stated, {different} different answers",
        group.name,
        outputs.len()
    );
    let least = &group.least;
    if outputs.len() < least.cases || stated < least.stated || different < least.different {
        return Err(format!(
            "{line}, of at least {}, {} and {}",
            least.cases, least.stated, least.different
        ));
    }
    Ok(line)
}
