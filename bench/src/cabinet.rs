//! What the proved library answers, by its C face (include/cabinet.h).

/// The bytes of a book, as the header says them; tests/face holds the header
/// to the library, where they follow from the table of the records.
pub const BOOK_BYTES: usize = defined("#define CABINET_BOOK_BYTES ");

/// The number that stands in the header after some words. Words that do not
/// stand there end the compilation.
const fn defined(words: &str) -> usize {
    let header = include_bytes!("../../include/cabinet.h");
    let mut at = 0;
    while !stand_at(words.as_bytes(), header, at) {
        at += 1;
    }
    at += words.len();
    let mut number = 0;
    while header[at].is_ascii_digit() {
        number = 10 * number + (header[at] - b'0') as usize;
        at += 1;
    }
    number
}

const fn stand_at(words: &[u8], text: &[u8], at: usize) -> bool {
    let mut i = 0;
    while i < words.len() {
        if text[at + i] != words[i] {
            return false;
        }
        i += 1;
    }
    true
}

#[repr(C)]
#[derive(Clone, Copy, Debug, PartialEq, Eq)]
pub struct Posted {
    pub number: u64,
    pub place: u64,
}

#[repr(C)]
#[derive(Clone, Copy, Debug, PartialEq, Eq)]
pub struct Year {
    pub number: u64,
    pub place: u64,
    pub entered: u64,
    pub degraded: u64,
    pub removed: u64,
    pub carried: u64,
    pub baseline: u64,
    pub project_methane: u64,
    pub metered: u64,
    pub net: i64,
    pub credited: u64,
}

#[repr(C)]
#[derive(Clone, Copy, Debug, PartialEq, Eq)]
pub struct Month {
    pub number: u64,
    pub place: u64,
    pub destroyed: u64,
}

#[repr(C)]
#[derive(Clone, Copy, Debug, PartialEq, Eq)]
pub struct Reading {
    pub taken: bool,
    pub whole: u64,
}

#[repr(C)]
#[derive(Clone, Copy, Debug, PartialEq, Eq)]
pub struct FeetHour {
    pub taken: bool,
    pub has_flow: bool,
    pub has_content: bool,
    pub flow: u64,
    pub content: u64,
}
