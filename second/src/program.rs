//! The programs, from an input to the whole of their output. Nothing is given
//! out before all of it is known, so no partial figure is ever printed.

use std::fmt;
use std::io::{self, BufReader, ErrorKind, Read};

use crate::book::Book;
use crate::feet;
use crate::meter;
use crate::months::{lagoon_months, COLUMNS};
use crate::record::RECORD_BYTES;
use crate::refusal::{Reason, Refusal};
use crate::year::year;

const LAST_YEAR: u32 = 10;

/// A mark of two bytes and the efficiency; the counts follow.
const BEFORE_COUNTS: usize = 4;
/// The lists of floats of a meter in cubic metres, and of one in cubic feet;
/// either has a list of states after them.
const METRES_LISTS: usize = 2;
const FEET_LISTS: usize = 4;
/// One more than the longest month input can say it has, since a byte too many
/// decides the answer and those after it do not.
const MONTH_BYTES_READ: u64 =
    header_bytes(FEET_LISTS) as u64 + u16::MAX as u64 * (4 * FEET_LISTS as u64 + 1) + 1;

const fn header_bytes(lists: usize) -> usize {
    BEFORE_COUNTS + 2 * (lists + 1)
}

/// What keeps a program from giving any answer. A refusal is an answer.
#[derive(Debug)]
pub struct Unreadable(pub io::Error);

impl fmt::Display for Unreadable {
    fn fmt(&self, f: &mut fmt::Formatter<'_>) -> fmt::Result {
        write!(f, "the input cannot be read: {}", self.0)
    }
}

impl From<io::Error> for Unreadable {
    fn from(error: io::Error) -> Unreadable {
        Unreadable(error)
    }
}

/// Records to years, as paper 01's year program. Reading stops at a posting
/// refusal, which is then the only output.
pub fn years(input: impl Read) -> Result<Vec<u8>, Unreadable> {
    of_book(input, all_years)
}

/// Records to the months of the anaerobic lines, under a line that names the
/// columns.
pub fn months(input: impl Read) -> Result<Vec<u8>, Unreadable> {
    of_book(input, all_months)
}

/// What is told of the book that the records make, or the refusal of the first
/// that is refused.
fn of_book(input: impl Read, told: fn(&Book) -> String) -> Result<Vec<u8>, Unreadable> {
    let mut input = BufReader::new(input);
    let mut book = Box::new(Book::empty());
    let mut bytes = [0; RECORD_BYTES];
    loop {
        let length = read_record(&mut input, &mut bytes)?;
        if length == 0 {
            return Ok(told(&book).into_bytes());
        }
        if let Err(refusal) = book.post(&bytes[..length]) {
            return Ok(format!("{refusal}\n").into_bytes());
        }
    }
}

fn all_months(book: &Book) -> String {
    let mut output = format!("{COLUMNS}\n");
    for month in lagoon_months(book) {
        output += &format!("{month}\n");
    }
    output
}

fn all_years(book: &Book) -> String {
    let mut output = String::new();
    for number in 1..=LAST_YEAR {
        match year(book, number) {
            Ok(figures) => output += &format!("{figures}\n"),
            Err(refusal) => {
                output += &format!("{refusal}\n");
                break;
            }
        }
    }
    output
}

/// The next record, shorter only at the end of the input, of which 0 bytes
/// are left in the end.
fn read_record(input: &mut impl Read, bytes: &mut [u8; RECORD_BYTES]) -> io::Result<usize> {
    let mut length = 0;
    while length < RECORD_BYTES {
        match input.read(&mut bytes[length..]) {
            Ok(0) => break,
            Ok(more) => length += more,
            Err(error) if error.kind() == ErrorKind::Interrupted => {}
            Err(error) => return Err(error),
        }
    }
    Ok(length)
}

/// One meter month to its destroyed grams.
pub fn month(input: impl Read) -> Result<Vec<u8>, Unreadable> {
    let mut bytes = Vec::new();
    input.take(MONTH_BYTES_READ).read_to_end(&mut bytes)?;
    let answer = match lent_month(&bytes) {
        Ok(grams) => format!("destroyed {grams}\n"),
        Err(refusal) => format!("{refusal}\n"),
    };
    Ok(answer.into_bytes())
}

const NO_MONTH: Refusal = Refusal::of(Reason::NoSuchMonthOfHours);

fn lent_month(bytes: &[u8]) -> Result<u64, Refusal> {
    match bytes.get(..2).ok_or(NO_MONTH)? {
        b"CM" => {
            let (efficiency, lists, states) = lent_hours::<METRES_LISTS>(bytes)?;
            let [flows, contents] = &lists;
            meter::month(flows, contents, states, efficiency)
        }
        b"CF" => {
            let (efficiency, lists, states) = lent_hours::<FEET_LISTS>(bytes)?;
            let [flows, contents, temperatures, pressures] = &lists;
            feet::month(flows, contents, temperatures, pressures, states, efficiency)
        }
        _ => Err(Refusal::of(Reason::UnknownMark)),
    }
}

/// The efficiency, so many lists of floats, and the states: as long as the
/// counts say, and nothing after them.
fn lent_hours<const LISTS: usize>(
    bytes: &[u8],
) -> Result<(u16, [Vec<f32>; LISTS], &[u8]), Refusal> {
    let (header, mut rest) = bytes
        .split_at_checked(header_bytes(LISTS))
        .ok_or(NO_MONTH)?;
    let number = |offset| u16::from_le_bytes([header[offset], header[offset + 1]]);
    let count = |list| usize::from(number(BEFORE_COUNTS + 2 * list));
    let mut lists = [const { Vec::new() }; LISTS];
    for (at, list) in lists.iter_mut().enumerate() {
        let (values, after) = rest.split_at_checked(4 * count(at)).ok_or(NO_MONTH)?;
        *list = floats(values);
        rest = after;
    }
    if rest.len() != count(LISTS) {
        return Err(NO_MONTH);
    }
    Ok((number(2), lists, rest))
}

fn floats(bytes: &[u8]) -> Vec<f32> {
    bytes
        .chunks_exact(4)
        .map(|bits| f32::from_le_bytes([bits[0], bits[1], bits[2], bits[3]]))
        .collect()
}
