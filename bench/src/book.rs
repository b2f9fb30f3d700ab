//! Made-up records: of whole books, and of fields at the ends of their ranges.

use crate::random::Random;

pub const RECORD_BYTES: usize = 16;
pub type Record = [u8; RECORD_BYTES];

pub const LINES: i64 = 32;
pub const CATEGORIES: i64 = 16;
pub const MONTHS: i64 = 120;
pub const DEVICES: i64 = 4;
/// The rows of the protocol's Tables A.2 and A.5.
pub const LIVESTOCK: i64 = 10;
pub const STATES: i64 = 50;
/// The livestock that a state is asked for: dairy cows, heifers, heifers
/// grazing and cows grazing.
pub const BY_STATE: [i64; 4] = [1, 3, 6, 7];

/// A field: its offset, its bytes, its lowest and its highest value, and
/// whether it is part of the record's key.
pub struct Field {
    pub at: usize,
    pub bytes: usize,
    pub low: i64,
    pub high: i64,
    pub is_key: bool,
}

const fn field(at: usize, bytes: usize, low: i64, high: i64) -> Field {
    Field {
        at,
        bytes,
        low,
        high,
        is_key: false,
    }
}

/// A line, a category, a month or a device: a byte that counts from 1.
const fn key(at: usize, high: i64) -> Field {
    Field {
        is_key: true,
        ..field(at, 1, 1, high)
    }
}

const ALL_OF_U32: i64 = u32::MAX as i64;

/// Paper 01's table, and paper 02's LD, whose state is 0 for some livestock;
/// bytes that no field has are the zero bytes.
pub const TABLE: [(&[u8; 2], &[Field]); 8] = [
    (b"YR", &[field(2, 2, 2000, 2089), field(4, 1, 1, 12)]),
    (
        b"LN",
        &[
            key(2, LINES),
            field(3, 1, 0, 1),
            field(4, 1, 1, CATEGORIES),
            field(6, 2, 0, 2_000),
            field(8, 2, 0, 20_000),
            field(10, 2, 0, 10_000),
            field(12, 1, 0, 100),
            field(14, 2, 0, 10_000),
        ],
    ),
    (
        b"HD",
        &[key(2, CATEGORIES), key(3, MONTHS), field(4, 4, 0, 100_000)],
    ),
    (b"TP", &[key(2, MONTHS), field(4, 2, -500, 600)]),
    (b"DR", &[key(2, LINES), key(3, MONTHS)]),
    (
        b"PE",
        &[
            key(2, MONTHS),
            field(4, 4, 0, ALL_OF_U32),
            field(8, 4, 0, ALL_OF_U32),
            field(12, 4, 0, ALL_OF_U32),
        ],
    ),
    (
        b"MT",
        &[
            key(2, MONTHS),
            key(3, DEVICES),
            field(4, 8, 0, 1_000_000_000_000),
        ],
    ),
    (
        b"LD",
        &[
            key(2, LINES),
            field(3, 1, 0, 1),
            field(4, 1, 1, CATEGORIES),
            field(5, 1, 1, LIVESTOCK),
            field(6, 1, 0, STATES),
            field(8, 2, 0, 10_000),
            field(10, 2, 0, 10_000),
        ],
    ),
];

/// Row `row` of the table with these values, whatever they are.
pub fn record(row: usize, values: &[i64]) -> Record {
    let (mark, fields) = &TABLE[row];
    let mut record = [0; RECORD_BYTES];
    record[..2].copy_from_slice(*mark);
    for (field, value) in fields.iter().zip(values) {
        record[field.at..field.at + field.bytes]
            .copy_from_slice(&value.to_le_bytes()[..field.bytes]);
    }
    record
}

/// The offsets of the zero bytes of a row.
pub fn zero_bytes(row: usize) -> Vec<usize> {
    let is_field = |at: usize| {
        let mut fields = TABLE[row].1.iter();
        fields.any(|field| (field.at..field.at + field.bytes).contains(&at))
    };
    (2..RECORD_BYTES).filter(|&at| !is_field(at)).collect()
}

pub const YR: usize = 0;
pub const LN: usize = 1;
pub const HD: usize = 2;
pub const TP: usize = 3;
pub const DR: usize = 4;
pub const PE: usize = 5;
pub const MT: usize = 6;
pub const LD: usize = 7;

/// A record of any row whose fields stand at, just inside or just outside the
/// ends of their ranges, or anywhere between.
pub fn edge(random: &mut Random) -> Record {
    let row = random.below(TABLE.len());
    let values: Vec<i64> = TABLE[row]
        .1
        .iter()
        .map(|field| near_an_end(random, field))
        .collect();
    let mut record = record(row, &values);
    if random.once_in(6) {
        let at = random.below(RECORD_BYTES);
        record[at] = random.next() as u8;
    }
    record
}

fn near_an_end(random: &mut Random, field: &Field) -> i64 {
    match random.below(10) {
        0 => field.low - 1,
        1 => field.high + 1,
        2 | 3 => field.low,
        4 | 5 => field.high,
        6 => field.low + 1,
        7 => field.high - 1,
        _ => random.within(field.low, field.high),
    }
}

/// What a made-up book has: so many lines over so many categories and months.
pub struct Extent {
    pub lines: i64,
    pub categories: i64,
    pub months: i64,
    pub devices: i64,
}

impl Extent {
    pub fn any(random: &mut Random) -> Extent {
        let years = if random.once_in(20) {
            random.within(3, 10)
        } else {
            random.within(1, 2)
        };
        let more = if random.once_in(4) {
            random.within(0, 11)
        } else {
            0
        };
        Extent {
            lines: if random.once_in(8) {
                random.within(1, LINES)
            } else {
                random.within(1, 5)
            },
            categories: random.within(1, 4),
            months: (12 * years + more).min(MONTHS),
            devices: random.within(0, DEVICES),
        }
    }

    pub const FULL: Extent = Extent {
        lines: LINES,
        categories: CATEGORIES,
        months: MONTHS,
        devices: DEVICES,
    };
}

/// The highest heads, project figures and destroyed grams of a made-up book.
pub struct Most {
    pub head: i64,
    pub project: i64,
    pub destroyed: i64,
}

impl Most {
    pub fn any(random: &mut Random) -> Most {
        Most {
            head: [100, 5_000, 100_000][random.below(3)],
            project: [1_000, 1_000_000, ALL_OF_U32][random.below(3)],
            destroyed: [1_000_000, 1_000_000_000, 1_000_000_000_000][random.below(3)],
        }
    }
}

/// The records of a book that has all that its years need, key by key. The
/// shares of a category may pass the whole.
pub fn whole(random: &mut Random, extent: &Extent) -> Vec<Record> {
    let most = Most::any(random);
    book(random, extent, &most)
}

/// Likewise, with no figure above these.
pub fn book(random: &mut Random, extent: &Extent, most: &Most) -> Vec<Record> {
    let mut records = vec![record(
        YR,
        &[random.within(2000, 2089), random.within(1, 12)],
    )];
    records.extend(lines(random, extent));
    for month in 1..=extent.months {
        for category in 1..=extent.categories {
            records.push(record(HD, &[category, month, random.within(0, most.head)]));
        }
        records.push(record(TP, &[month, random.within(-100, 330)]));
        for line in 1..=extent.lines {
            if random.once_in(9) {
                records.push(record(DR, &[line, month]));
            }
        }
        let figures = [0; 3].map(|_| random.within(0, most.project));
        records.push(record(PE, &[month, figures[0], figures[1], figures[2]]));
        for device in 1..=extent.devices {
            let destroyed = random.within(0, most.destroyed);
            records.push(record(MT, &[month, device, destroyed]));
        }
    }
    records
}

fn lines(random: &mut Random, extent: &Extent) -> Vec<Record> {
    let most_share = 10_000 * extent.categories / extent.lines.max(extent.categories);
    let mut line = |line: i64| {
        let system = random.within(0, 1);
        let share = if random.once_in(40) {
            10_000
        } else {
            random.within(0, most_share)
        };
        let category = (line - 1) % extent.categories + 1;
        let conversion = system * random.within(0, 10_000);
        if random.once_in(4) {
            let (livestock, state) = livestock_and_state(random);
            return record(
                LD,
                &[line, system, category, livestock, state, share, conversion],
            );
        }
        let solids = random.within(0, 2_000);
        let mass = random.within(0, 20_000);
        let b0 = random.within(0, 100);
        record(
            LN,
            &[line, system, category, solids, mass, share, b0, conversion],
        )
    };
    (1..=extent.lines).map(&mut line).collect()
}

/// A livestock, and a state that it may have.
fn livestock_and_state(random: &mut Random) -> (i64, i64) {
    let livestock = random.within(1, LIVESTOCK);
    let state = if BY_STATE.contains(&livestock) {
        random.within(1, STATES)
    } else {
        0
    };
    (livestock, state)
}
