//! Records written byte by byte at the paper's offsets, and books made of them.

// Each test binary takes in this module and uses a part of it.
#![allow(dead_code)]

use second::book::Book;
use second::refusal::Refusal;
use second::year::{year, YearFigures};

pub type Bytes = [u8; 16];

fn with(mark: &[u8; 2], fields: &[(usize, &[u8])]) -> Bytes {
    let mut record = [0; 16];
    record[..2].copy_from_slice(mark);
    for (offset, bytes) in fields {
        record[*offset..*offset + bytes.len()].copy_from_slice(bytes);
    }
    record
}

pub fn yr(year: u16, month: u8) -> Bytes {
    with(b"YR", &[(2, &year.to_le_bytes()), (4, &[month])])
}

/// The fields of LN, with the values of the paper's example as the usual ones.
#[derive(Clone, Copy)]
pub struct Ln {
    pub line: u8,
    pub system: u8,
    pub category: u8,
    pub table_solids: u16,
    pub mass: u16,
    pub share: u16,
    pub b0: u8,
    pub conversion_factor: u16,
}

pub const LINE_1: Ln = Ln {
    line: 1,
    system: 0,
    category: 1,
    table_solids: 1000,
    mass: 6000,
    share: 10_000,
    b0: 24,
    conversion_factor: 0,
};

impl Ln {
    pub fn bytes(&self) -> Bytes {
        with(
            b"LN",
            &[
                (2, &[self.line, self.system, self.category]),
                (6, &self.table_solids.to_le_bytes()),
                (8, &self.mass.to_le_bytes()),
                (10, &self.share.to_le_bytes()),
                (12, &[self.b0]),
                (14, &self.conversion_factor.to_le_bytes()),
            ],
        )
    }
}

/// The fields of LD, with dairy cows in California as the usual ones.
#[derive(Clone, Copy)]
pub struct Ld {
    pub line: u8,
    pub system: u8,
    pub category: u8,
    pub livestock: u8,
    pub state: u8,
    pub share: u16,
    pub conversion_factor: u16,
}

pub const LIVESTOCK_LINE_1: Ld = Ld {
    line: 1,
    system: 0,
    category: 1,
    livestock: 1,
    state: 5,
    share: 10_000,
    conversion_factor: 0,
};

impl Ld {
    pub fn bytes(&self) -> Bytes {
        let Ld {
            line,
            system,
            category,
            livestock,
            state,
            ..
        } = *self;
        with(
            b"LD",
            &[
                (2, &[line, system, category, livestock, state]),
                (8, &self.share.to_le_bytes()),
                (10, &self.conversion_factor.to_le_bytes()),
            ],
        )
    }
}

pub fn hd(category: u8, month: u8, head: u32) -> Bytes {
    with(b"HD", &[(2, &[category, month]), (4, &head.to_le_bytes())])
}

pub fn tp(month: u8, tenths: i16) -> Bytes {
    with(b"TP", &[(2, &[month]), (4, &tenths.to_le_bytes())])
}

pub fn dr(line: u8, month: u8) -> Bytes {
    with(b"DR", &[(2, &[line, month])])
}

pub fn pe(month: u8, project_methane: u32, baseline_co2: u32, project_co2: u32) -> Bytes {
    with(
        b"PE",
        &[
            (2, &[month]),
            (4, &project_methane.to_le_bytes()),
            (8, &baseline_co2.to_le_bytes()),
            (12, &project_co2.to_le_bytes()),
        ],
    )
}

pub fn mt(month: u8, device: u8, grams: u64) -> Bytes {
    with(b"MT", &[(2, &[month, device]), (4, &grams.to_le_bytes())])
}

/// The records of the paper's worked year.
pub fn sample() -> Vec<Bytes> {
    let mut records = vec![yr(2011, 1), LINE_1.bytes()];
    for month in 1..=12 {
        records.push(hd(1, month, 100));
        records.push(tp(month, 302));
        records.push(pe(month, 1000, 0, 500));
        records.push(mt(month, 1, 2_000_000));
    }
    records
}

/// Months 1 to `last` of a book with these lines: 100 head in each of the
/// categories, `tenths`, and PE of 0.
pub fn plain(first: (u16, u8), lines: &[Ln], last: u8, tenths: i16) -> Vec<Bytes> {
    let mut records = vec![yr(first.0, first.1)];
    records.extend(lines.iter().map(Ln::bytes));
    let mut categories: Vec<u8> = lines.iter().map(|line| line.category).collect();
    categories.sort();
    categories.dedup();
    for month in 1..=last {
        records.push(tp(month, tenths));
        records.push(pe(month, 0, 0, 0));
        records.extend(categories.iter().map(|&category| hd(category, month, 100)));
    }
    records
}

pub fn post_all(book: &mut Book, records: &[Bytes]) {
    for record in records {
        assert_eq!(book.post(record), Ok(()), "{record:?}");
    }
}

pub fn book_of(records: &[Bytes]) -> Book {
    let mut book = Book::empty();
    post_all(&mut book, records);
    book
}

/// All records but those that equal one of `left_out`.
pub fn without(records: &[Bytes], left_out: &[Bytes]) -> Vec<Bytes> {
    let kept = |record: &&Bytes| !left_out.contains(record);
    records.iter().filter(kept).copied().collect()
}

pub fn figures(records: &[Bytes], number: u32) -> YearFigures {
    year(&book_of(records), number).expect("a year with all its records")
}

pub fn numbers<T>(answer: Result<T, Refusal>) -> Option<(u8, u16)> {
    answer
        .err()
        .map(|refusal| (refusal.number(), refusal.place))
}

/// A small generator, so that the same tests run every time.
pub struct Numbers(pub u64);

impl Numbers {
    pub fn next(&mut self) -> u64 {
        self.0 ^= self.0 << 13;
        self.0 ^= self.0 >> 7;
        self.0 ^= self.0 << 17;
        self.0
    }

    pub fn below(&mut self, bound: u64) -> u64 {
        self.next() % bound
    }
}
