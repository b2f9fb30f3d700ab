//! The proved library, called from C by a process of its own (bench/driver.c):
//! so it is looked at by its C face, on any machine.

use std::io::{BufReader, BufWriter, Read, Write};
use std::path::Path;
use std::process::{Child, ChildStdin, ChildStdout, Command, Stdio};

use crate::cabinet::{FeetHour, Month, Posted, Reading, Year};

/// The kinds of requests, as bench/driver.c numbers them.
const DELIVERY: u64 = 0;
const MONTH: u64 = 1;
const READINGS: u64 = 2;
const EACH_READING: u64 = 3;
const EMPTY: u64 = 4;
const FEET_MONTH: u64 = 5;
const FEET_HOURS: u64 = 6;
const EACH_FEET_HOUR: u64 = 7;

/// The hours in which a pattern is tried: as a flow, as a temperature and as a
/// pressure.
pub const HOURS_OF_A_PATTERN: usize = 3;

/// Records of any lengths, posted past the refusals to an empty book that
/// stands at an offset of lent memory, and the years asked of it.
pub struct Delivery<'a> {
    pub offset: usize,
    /// Whether the whole book is looked at after each record.
    pub watched: bool,
    pub pieces: &'a [&'a [u8]],
    pub years: &'a [u64],
}

/// How many slots of a book a record changed, and the first of them, or 0.
#[derive(Clone, Copy, Debug, PartialEq, Eq)]
pub struct Changed {
    pub slots: u64,
    pub first: u64,
}

/// What is told of a record; what it changed only where the delivery is watched.
#[derive(Clone, Copy, Debug, PartialEq, Eq)]
pub struct Told {
    pub posted: Posted,
    pub changed: Option<Changed>,
}

pub struct Delivered {
    pub records: Vec<Told>,
    pub years: Vec<Year>,
    /// Of the book and the bytes around it, after the years.
    pub digest: u64,
}

/// Patterns of an f32, from one on by steps.
#[derive(Clone, Copy)]
pub struct Patterns {
    pub first: u32,
    pub step: u32,
    pub count: u64,
}

impl Patterns {
    pub fn each(self) -> impl Iterator<Item = u32> {
        (0..self.count).map(move |done| {
            self.first
                .wrapping_add((done as u32).wrapping_mul(self.step))
        })
    }
}

pub struct Driver {
    process: Child,
    requests: BufWriter<ChildStdin>,
    answers: BufReader<ChildStdout>,
}

impl Driver {
    /// Starts the driver, built at `program`.
    pub fn start(program: &Path) -> Result<Driver, String> {
        let root = Path::new(env!("CARGO_MANIFEST_DIR"))
            .parent()
            .expect("bench stands in the project");
        let mut process = Command::new(root.join("tests").join("machine"))
            .arg("run")
            .arg(program)
            .stdin(Stdio::piped())
            .stdout(Stdio::piped())
            .spawn()
            .map_err(|error| format!("tests/machine run: {error}"))?;
        let requests = process.stdin.take().expect("a pipe was asked for");
        let answers = process.stdout.take().expect("a pipe was asked for");
        Ok(Driver {
            process,
            requests: BufWriter::new(requests),
            answers: BufReader::new(answers),
        })
    }

    pub fn deliver(&mut self, delivery: &Delivery) -> Result<Delivered, String> {
        let Delivery {
            offset,
            watched,
            pieces,
            years,
        } = *delivery;
        self.ask(&[
            DELIVERY,
            offset as u64,
            watched.into(),
            pieces.len() as u64,
            years.len() as u64,
        ])?;
        for piece in pieces {
            self.ask(&[piece.len() as u64])?;
        }
        self.ask(years)?;
        for piece in pieces {
            self.send(piece)?;
        }
        self.end()?;
        let mut records = Vec::with_capacity(pieces.len());
        for _ in pieces {
            records.push(self.told(watched)?);
        }
        let years = years
            .iter()
            .map(|_| self.year())
            .collect::<Result<_, _>>()?;
        let [digest] = self.numbers()?;
        Ok(Delivered {
            records,
            years,
            digest,
        })
    }

    fn told(&mut self, watched: bool) -> Result<Told, String> {
        let [number, place] = self.numbers()?;
        let changed = if watched {
            let [slots, first] = self.numbers()?;
            Some(Changed { slots, first })
        } else {
            None
        };
        Ok(Told {
            posted: Posted { number, place },
            changed,
        })
    }

    fn year(&mut self) -> Result<Year, String> {
        let [number, place, entered, degraded, removed, carried, baseline, project_methane, metered, net, credited] =
            self.numbers()?;
        Ok(Year {
            number,
            place,
            entered,
            degraded,
            removed,
            carried,
            baseline,
            project_methane,
            metered,
            net: net as i64,
            credited,
        })
    }

    pub fn month(
        &mut self,
        flows: &[f32],
        contents: &[f32],
        states: &[u8],
        efficiency: u32,
    ) -> Result<Month, String> {
        self.month_of(MONTH, &[flows, contents], states, efficiency)
    }

    /// The lists are the flows, the contents, the temperatures and the pressures.
    pub fn feet_month(
        &mut self,
        lists: [&[f32]; 4],
        states: &[u8],
        efficiency: u32,
    ) -> Result<Month, String> {
        self.month_of(FEET_MONTH, &lists, states, efficiency)
    }

    fn month_of(
        &mut self,
        kind: u64,
        lists: &[&[f32]],
        states: &[u8],
        efficiency: u32,
    ) -> Result<Month, String> {
        self.ask(&[kind])?;
        for list in lists {
            self.ask(&[list.len() as u64])?;
        }
        self.ask(&[states.len() as u64, efficiency.into()])?;
        for value in lists.iter().copied().flatten() {
            self.send(&value.to_le_bytes())?;
        }
        self.send(states)?;
        self.end()?;
        let [number, place, destroyed] = self.numbers()?;
        Ok(Month {
            number,
            place,
            destroyed,
        })
    }

    /// A digest of the patterns' flows and contents.
    pub fn readings(&mut self, patterns: Patterns) -> Result<u64, String> {
        self.ask_patterns(READINGS, patterns)?;
        let [digest] = self.numbers()?;
        Ok(digest)
    }

    /// Each pattern as a flow and as a content.
    pub fn each_reading(&mut self, patterns: Patterns) -> Result<Vec<[Reading; 2]>, String> {
        self.ask_patterns(EACH_READING, patterns)?;
        patterns
            .each()
            .map(|_| Ok([self.reading()?, self.reading()?]))
            .collect()
    }

    /// A digest of the hours in cubic feet that the patterns are tried in.
    pub fn feet_hours(&mut self, patterns: Patterns) -> Result<u64, String> {
        self.ask_patterns(FEET_HOURS, patterns)?;
        let [digest] = self.numbers()?;
        Ok(digest)
    }

    /// Each pattern in each of its hours.
    pub fn each_feet_hour(
        &mut self,
        patterns: Patterns,
    ) -> Result<Vec<[FeetHour; HOURS_OF_A_PATTERN]>, String> {
        self.ask_patterns(EACH_FEET_HOUR, patterns)?;
        patterns
            .each()
            .map(|_| Ok([self.feet_hour()?, self.feet_hour()?, self.feet_hour()?]))
            .collect()
    }

    fn ask_patterns(&mut self, kind: u64, patterns: Patterns) -> Result<(), String> {
        self.ask(&[
            kind,
            patterns.first.into(),
            patterns.step.into(),
            patterns.count,
        ])?;
        self.end()
    }

    fn reading(&mut self) -> Result<Reading, String> {
        let [taken, whole] = self.numbers()?;
        Ok(Reading {
            taken: taken != 0,
            whole,
        })
    }

    fn feet_hour(&mut self) -> Result<FeetHour, String> {
        let [taken, has_flow, has_content, flow, content] = self.numbers()?;
        Ok(FeetHour {
            taken: taken != 0,
            has_flow: has_flow != 0,
            has_content: has_content != 0,
            flow,
            content,
        })
    }

    /// Whether so many bytes at an offset of lent memory were made a book, and
    /// a digest of all of it.
    pub fn empty(&mut self, offset: usize, bytes: usize) -> Result<(bool, u64), String> {
        self.ask(&[EMPTY, offset as u64, bytes as u64])?;
        self.end()?;
        let [emptied, digest] = self.numbers()?;
        Ok((emptied != 0, digest))
    }

    fn ask(&mut self, numbers: &[u64]) -> Result<(), String> {
        numbers
            .iter()
            .try_for_each(|number| self.send(&number.to_le_bytes()))
    }

    fn send(&mut self, bytes: &[u8]) -> Result<(), String> {
        let sent = self.requests.write_all(bytes);
        sent.map_err(|error| self.stopped(&error))
    }

    fn end(&mut self) -> Result<(), String> {
        let sent = self.requests.flush();
        sent.map_err(|error| self.stopped(&error))
    }

    fn numbers<const COUNT: usize>(&mut self) -> Result<[u64; COUNT], String> {
        let mut numbers = [0; COUNT];
        for number in &mut numbers {
            let mut bytes = [0; 8];
            let read = self.answers.read_exact(&mut bytes);
            read.map_err(|error| self.stopped(&error))?;
            *number = u64::from_le_bytes(bytes);
        }
        Ok(numbers)
    }

    fn stopped(&mut self, error: &std::io::Error) -> String {
        match self.process.wait() {
            Ok(status) => format!("the driver stopped: {status}"),
            Err(_) => format!("the driver does not answer: {error}"),
        }
    }
}

impl Drop for Driver {
    fn drop(&mut self) {
        let _ = self.process.kill();
        let _ = self.process.wait();
    }
}
