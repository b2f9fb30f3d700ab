//! A readable text of records and back: one record a line, its mark and then
//! its fields in the papers' order, zero bytes left out. A field whose numbers
//! have names is written by name where its number has one.
//!
//! Any bytes have a text that leads back to them: what is not of the table's
//! shape becomes a `raw` line of hex bytes.

mod names;

use std::fmt;
use std::ops::RangeInclusive;

use names::{Names, LIVESTOCK, STATES};

const RECORD_BYTES: usize = 16;

const RAW: &str = "raw";

#[derive(Clone, Copy)]
enum Width {
    U8,
    U16,
    I16,
    U32,
    U64,
}

impl Width {
    fn bytes(self) -> usize {
        match self {
            Width::U8 => 1,
            Width::U16 | Width::I16 => 2,
            Width::U32 => 4,
            Width::U64 => 8,
        }
    }

    /// What the width holds, which is more than posting takes: people write
    /// records to see them refused.
    fn holds(self) -> RangeInclusive<i128> {
        match self {
            Width::U8 => 0..=u8::MAX.into(),
            Width::U16 => 0..=u16::MAX.into(),
            Width::I16 => i16::MIN.into()..=i16::MAX.into(),
            Width::U32 => 0..=u32::MAX.into(),
            Width::U64 => 0..=u64::MAX.into(),
        }
    }

    fn read(self, little_endian: &[u8]) -> i128 {
        let value = little_endian
            .iter()
            .rev()
            .fold(0, |value, &byte| value << 8 | i128::from(byte));
        match self {
            Width::I16 => i128::from(value as i16),
            _ => value,
        }
    }
}

struct Field {
    name: &'static str,
    width: Width,
    offset: usize,
    names: Option<&'static Names>,
}

const fn field(name: &'static str, width: Width, offset: usize) -> Field {
    Field {
        name,
        width,
        offset,
        names: None,
    }
}

/// A byte whose numbers have names.
const fn named(name: &'static str, names: &'static Names, offset: usize) -> Field {
    Field {
        names: Some(names),
        ..field(name, Width::U8, offset)
    }
}

/// Bytes that no field covers are the zero bytes.
struct Layout {
    mark: &'static str,
    fields: &'static [Field],
}

const LAYOUTS: [Layout; 8] = [
    Layout {
        mark: "YR",
        fields: &[
            field("first year", Width::U16, 2),
            field("first month", Width::U8, 4),
        ],
    },
    Layout {
        mark: "LN",
        fields: &[
            field("line", Width::U8, 2),
            field("system", Width::U8, 3),
            field("category", Width::U8, 4),
            field("table solids", Width::U16, 6),
            field("mass", Width::U16, 8),
            field("share", Width::U16, 10),
            field("B0", Width::U8, 12),
            field("conversion factor", Width::U16, 14),
        ],
    },
    Layout {
        mark: "HD",
        fields: &[
            field("category", Width::U8, 2),
            field("month", Width::U8, 3),
            field("head", Width::U32, 4),
        ],
    },
    Layout {
        mark: "TP",
        fields: &[
            field("month", Width::U8, 2),
            field("temperature", Width::I16, 4),
        ],
    },
    Layout {
        mark: "DR",
        fields: &[field("line", Width::U8, 2), field("month", Width::U8, 3)],
    },
    Layout {
        mark: "PE",
        fields: &[
            field("month", Width::U8, 2),
            field("project methane", Width::U32, 4),
            field("baseline CO2", Width::U32, 8),
            field("project CO2", Width::U32, 12),
        ],
    },
    Layout {
        mark: "MT",
        fields: &[
            field("month", Width::U8, 2),
            field("device", Width::U8, 3),
            field("destroyed methane", Width::U64, 4),
        ],
    },
    Layout {
        mark: "LD",
        fields: &[
            field("line", Width::U8, 2),
            field("system", Width::U8, 3),
            field("category", Width::U8, 4),
            named("livestock", &LIVESTOCK, 5),
            named("state", &STATES, 6),
            field("share", Width::U16, 8),
            field("conversion factor", Width::U16, 10),
        ],
    },
];

impl Layout {
    fn record(&self, values: &[i128]) -> [u8; RECORD_BYTES] {
        let mut record = [0; RECORD_BYTES];
        record[..2].copy_from_slice(self.mark.as_bytes());
        for (field, value) in self.fields.iter().zip(values) {
            let little_endian = &value.to_le_bytes()[..field.width.bytes()];
            record[field.offset..][..little_endian.len()].copy_from_slice(little_endian);
        }
        record
    }

    fn values(&self, record: &[u8; RECORD_BYTES]) -> Vec<i128> {
        let value = |field: &Field| {
            let bytes = &record[field.offset..][..field.width.bytes()];
            field.width.read(bytes)
        };
        self.fields.iter().map(value).collect()
    }
}

/// What is wrong with a line of the text, counted from 1.
#[derive(Debug, PartialEq, Eq)]
pub struct LineError {
    pub line: usize,
    pub what: String,
}

impl fmt::Display for LineError {
    fn fmt(&self, f: &mut fmt::Formatter<'_>) -> fmt::Result {
        write!(f, "line {}: {}", self.line, self.what)
    }
}

/// The records of a text. Blank lines are passed over, and `#` starts a
/// comment.
pub fn to_bytes(text: &[u8]) -> Result<Vec<u8>, LineError> {
    let mut records = Vec::new();
    for (line, content) in (1..).zip(text.split(|&byte| byte == b'\n')) {
        let at_line = |what| LineError { line, what };
        let words = words_of(content).map_err(at_line)?;
        let Some((mark, rest)) = words.split_first() else {
            continue;
        };
        if records.len() % RECORD_BYTES != 0 {
            let what = "a record follows a raw one of less than 16 bytes, which must be the last";
            return Err(at_line(what.to_string()));
        }
        records.extend(record_of(mark, rest).map_err(at_line)?);
    }
    Ok(records)
}

/// A comment may be in any encoding; what stands before it may not.
fn words_of(content: &[u8]) -> Result<Vec<&str>, String> {
    let before_comment = content.split(|&byte| byte == b'#').next().unwrap_or(&[]);
    match std::str::from_utf8(before_comment) {
        Ok(text) => Ok(text.split_ascii_whitespace().collect()),
        Err(_) => Err("not readable as text".to_string()),
    }
}

fn record_of(mark: &str, words: &[&str]) -> Result<Vec<u8>, String> {
    if mark == RAW {
        return raw_record(words);
    }
    match LAYOUTS.iter().find(|layout| layout.mark == mark) {
        Some(layout) => table_record(layout, words),
        None => Err(format!("{mark:?} is not a mark: {}", marks())),
    }
}

fn marks() -> String {
    let marks = LAYOUTS.map(|layout| layout.mark).join(", ");
    format!("a line starts with one of {marks}, or with {RAW}")
}

fn table_record(layout: &Layout, words: &[&str]) -> Result<Vec<u8>, String> {
    let fields = layout.fields;
    if words.len() != fields.len() {
        let names: Vec<&str> = fields.iter().map(|field| field.name).collect();
        let has_names = fields.iter().any(|field| field.names.is_some());
        let kind = if has_names {
            "numbers or names"
        } else {
            "numbers"
        };
        return Err(format!(
            "{} takes {} {kind} ({}), not {}",
            layout.mark,
            names.len(),
            names.join(", "),
            words.len()
        ));
    }
    let values: Result<Vec<i128>, String> = fields
        .iter()
        .zip(words)
        .map(|(field, word)| value(field, word))
        .collect();
    Ok(layout.record(&values?).to_vec())
}

fn value(field: &Field, word: &str) -> Result<i128, String> {
    let name = field.name;
    match field.names {
        _ if is_number(word) => number(field, word),
        None => Err(format!("{name} {word:?} is not a whole number")),
        Some(names) => names
            .number(word)
            .ok_or_else(|| format!("{name} {word:?} is not known: write {}", names.allowed())),
    }
}

fn is_number(word: &str) -> bool {
    let digits = word.strip_prefix('-').unwrap_or(word);
    !digits.is_empty() && digits.bytes().all(|byte| byte.is_ascii_digit())
}

fn number(field: &Field, word: &str) -> Result<i128, String> {
    let name = field.name;
    let holds = field.width.holds();
    match word.parse() {
        Ok(value) if holds.contains(&value) => Ok(value),
        _ => Err(format!(
            "{name} {word} does not fit its field, which holds {} to {}",
            holds.start(),
            holds.end()
        )),
    }
}

fn raw_record(words: &[&str]) -> Result<Vec<u8>, String> {
    if words.is_empty() || words.len() > RECORD_BYTES {
        return Err(format!("raw takes 1 to 16 hex bytes, not {}", words.len()));
    }
    words.iter().map(|word| hex_byte(word)).collect()
}

fn hex_byte(word: &str) -> Result<u8, String> {
    let is_hex = word.len() == 2 && word.bytes().all(|byte| byte.is_ascii_hexdigit());
    match u8::from_str_radix(word, 16) {
        Ok(byte) if is_hex => Ok(byte),
        _ => Err(format!("{word:?} is not a byte of two hex digits")),
    }
}

/// The text of any bytes, a line for each 16 and one for a shorter end.
pub fn to_text(bytes: &[u8]) -> String {
    let mut text = String::new();
    for record in bytes.chunks(RECORD_BYTES) {
        text += &table_line(record).unwrap_or_else(|| raw_line(record));
        text.push('\n');
    }
    text
}

/// The line of a record of the table's shape, whatever its fields' values: of
/// one, that is, which its fields' values make again.
fn table_line(record: &[u8]) -> Option<String> {
    let record: &[u8; RECORD_BYTES] = record.try_into().ok()?;
    let layout = LAYOUTS
        .iter()
        .find(|layout| layout.mark.as_bytes() == &record[..2])?;
    let values = layout.values(record);
    if layout.record(&values) != *record {
        return None;
    }
    let mut line = layout.mark.to_string();
    for (field, value) in layout.fields.iter().zip(values) {
        match field.names.and_then(|names| names.name(value)) {
            Some(name) => line += &format!(" {name}"),
            None => line += &format!(" {value}"),
        }
    }
    Some(line)
}

fn raw_line(record: &[u8]) -> String {
    let mut line = RAW.to_string();
    for byte in record {
        line += &format!(" {byte:02x}");
    }
    line
}
