//! The text of records and its way back.

use records::{to_bytes, to_text};

/// A line for every mark, each with values that reach into every byte of its
/// fields, and the record that the papers make of it.
const EVERY_MARK: [(&str, [u8; 16]); 8] = [
    ("YR 2011 7", *b"YR\xdb\x07\x07\0\0\0\0\0\0\0\0\0\0\0"),
    (
        "LN 3 1 2 1094 6800 9999 24 150",
        *b"LN\x03\x01\x02\0\x46\x04\x90\x1a\x0f\x27\x18\0\x96\0",
    ),
    (
        "HD 16 120 100000",
        *b"HD\x10\x78\xa0\x86\x01\0\0\0\0\0\0\0\0\0",
    ),
    ("TP 3 -49", *b"TP\x03\0\xcf\xff\0\0\0\0\0\0\0\0\0\0"),
    ("DR 32 6", *b"DR\x20\x06\0\0\0\0\0\0\0\0\0\0\0\0"),
    (
        "PE 1 16909060 84281096 151653132",
        *b"PE\x01\0\x04\x03\x02\x01\x08\x07\x06\x05\x0c\x0b\x0a\x09",
    ),
    (
        "MT 9 4 1000000000000",
        *b"MT\x09\x04\0\x10\xa5\xd4\xe8\0\0\0\0\0\0\0",
    ),
    (
        "LD 32 1 16 heifers-grazing wyoming 9999 1234",
        *b"LD\x20\x01\x10\x06\x32\0\x0f\x27\xd2\x04\0\0\0\0",
    ),
];

#[test]
fn a_line_for_each_mark() {
    for (line, record) in EVERY_MARK {
        assert_eq!(to_bytes(line.as_bytes()), Ok(record.to_vec()), "{line}");
        assert_eq!(to_text(&record), format!("{line}\n"));
    }
    let lines = EVERY_MARK.map(|(line, _)| line).join("\n") + "\n";
    let records = EVERY_MARK.map(|(_, record)| record).concat();
    assert_eq!(to_text(&records), lines);
    assert_eq!(to_bytes(lines.as_bytes()), Ok(records));
}

#[test]
fn comments_blanks_and_line_ends() {
    let text = b"# a book\n\n  \t \nTP 3 -49 # cold\r\n\t DR  32\t6#drained\n#\xff\xfe\nYR 2011 7";
    let records = [3, 4, 0].map(|mark| EVERY_MARK[mark].1).concat();
    assert_eq!(to_bytes(text), Ok(records));
    assert_eq!(to_bytes(b""), Ok(vec![]));
    assert_eq!(to_bytes(b"# nothing\n\n"), Ok(vec![]));
    assert_eq!(to_text(b""), "");
}

#[test]
fn values_outside_the_papers_ranges_are_written() {
    let lines = [
        "YR 65535 255",
        "YR 0 0",
        "HD 255 255 4294967295",
        "HD 1 1 100001",
        "TP 0 -32768",
        "TP 121 32767",
        "DR 33 121",
        "PE 255 4294967295 0 1",
        "MT 1 5 18446744073709551615",
        "LN 255 255 255 65535 65535 65535 255 65535",
        "LD 255 255 255 255 255 65535 65535",
        "LD 0 2 17 0 51 10001 1",
        "LD 1 0 1 11 none 0 0",
    ];
    for line in lines {
        let record = to_bytes(line.as_bytes()).unwrap();
        assert_eq!(record.len(), 16, "{line}");
        assert_eq!(to_text(&record), format!("{line}\n"));
    }
}

fn error(text: &str) -> String {
    to_bytes(text.as_bytes()).unwrap_err().to_string()
}

#[test]
fn errors_say_the_line_and_what_is_wrong() {
    assert_eq!(
        error("HD 1 1 1\n\nHD 1 256 100\n"),
        "line 3: month 256 does not fit its field, which holds 0 to 255"
    );
    assert_eq!(
        error("TP 1 32768"),
        "line 1: temperature 32768 does not fit its field, which holds -32768 to 32767"
    );
    assert_eq!(
        error("MT 1 1 18446744073709551616"),
        "line 1: destroyed methane 18446744073709551616 does not fit its field, \
         which holds 0 to 18446744073709551615"
    );
    assert_eq!(
        error("HD 1 1 -1"),
        "line 1: head -1 does not fit its field, which holds 0 to 4294967295"
    );
    assert_eq!(
        error("# c\nHD 1 12"),
        "line 2: HD takes 3 numbers (category, month, head), not 2"
    );
    assert_eq!(
        error("DR 1 2 3"),
        "line 1: DR takes 2 numbers (line, month), not 3"
    );
    for mark in ["XX", "hd", "RAW"] {
        let wrong = format!(
            "line 1: {mark:?} is not a mark: \
             a line starts with one of YR, LN, HD, TP, DR, PE, MT, LD, or with raw"
        );
        assert_eq!(error(&format!("{mark} 1")), wrong);
    }
    for word in ["x", "1.5", "+1", "-", "0x10", "1_000", "--1", "\u{661}"] {
        let wrong = format!("line 1: head {word:?} is not a whole number");
        assert_eq!(error(&format!("HD 1 1 {word}")), wrong);
    }
    let huge = "9".repeat(60);
    assert!(error(&format!("HD 1 1 {huge}")).contains("does not fit its field"));
    let not_text = to_bytes(b"HD 1 1 1\nHD \xff\n").unwrap_err();
    assert_eq!(not_text.to_string(), "line 2: not readable as text");
}

#[test]
fn livestock_and_state_by_number_or_by_name() {
    let record = to_bytes(b"LD 1 0 1 1 5 10000 0").unwrap();
    assert_eq!(record[5..7], [1, 5]);
    assert_eq!(to_text(&record), "LD 1 0 1 dairy-cows california 10000 0\n");
    for words in [
        "dairy-cows california",
        "Dairy-Cows CALIFORNIA",
        "1 california",
        "dairy-cows 5",
        "01 005",
    ] {
        let line = format!("LD 1 0 1 {words} 10000 0");
        assert_eq!(to_bytes(line.as_bytes()), Ok(record.clone()), "{line}");
    }
    let ends = [
        ("non-milking-dairy-cows none", [2, 0]),
        ("cows-grazing alabama", [7, 1]),
        ("heifers new-york", [3, 32]),
        ("breeding-swine wyoming", [10, 50]),
    ];
    for (words, bytes) in ends {
        let line = format!("LD 1 0 1 {words} 10000 0");
        assert_eq!(to_bytes(line.as_bytes()).unwrap()[5..7], bytes, "{line}");
    }
}

#[test]
fn every_livestock_with_every_state_comes_back() {
    let mut record = to_bytes(b"LD 1 0 1 1 5 10000 0").unwrap();
    for livestock in 0..=u8::MAX {
        for state in 0..=u8::MAX {
            record[5..7].copy_from_slice(&[livestock, state]);
            round_trip(&record);
        }
    }
}

#[test]
fn errors_of_names_say_what_may_be_written() {
    assert_eq!(
        error("LD 1 0 1 dairy-cow california 10000 0"),
        "line 1: livestock \"dairy-cow\" is not known: write dairy-cows, non-milking-dairy-cows, \
         heifers, bulls-grazing, calves-grazing, heifers-grazing, cows-grazing, nursery-swine, \
         grow-finish-swine, breeding-swine, or a number 0 to 255"
    );
    assert_eq!(
        error("DR 1 1\nLD 1 0 1 dairy-cows newyork 10000 0"),
        "line 2: state \"newyork\" is not known: write a state's name in small letters with \
         hyphens, a number 0 to 255, or none"
    );
    assert_eq!(
        error("LD 1 0 1 dairy-cows 256 10000 0"),
        "line 1: state 256 does not fit its field, which holds 0 to 255"
    );
    assert_eq!(
        error("LD 1 0 1 heifers new york 10000 0"),
        "line 1: LD takes 7 numbers or names (line, system, category, livestock, state, share, \
         conversion factor), not 8"
    );
    assert_eq!(
        error("LD 1 0 none heifers 1 10000 0"),
        "line 1: category \"none\" is not a whole number"
    );
}

#[test]
fn errors_of_raw_lines() {
    assert_eq!(error("raw"), "line 1: raw takes 1 to 16 hex bytes, not 0");
    let seventeen = format!("raw{}", " 00".repeat(17));
    assert_eq!(
        error(&seventeen),
        "line 1: raw takes 1 to 16 hex bytes, not 17"
    );
    for word in ["0", "000", "0g", "+1", "-1", "0x"] {
        let wrong = format!("line 1: {word:?} is not a byte of two hex digits");
        assert_eq!(error(&format!("raw {word}")), wrong);
    }
    assert_eq!(
        error("raw 01 02\n# c\nDR 1 6"),
        "line 3: a record follows a raw one of less than 16 bytes, which must be the last"
    );
}

#[test]
fn what_is_not_of_the_tables_shape_is_raw() {
    let mut damaged = EVERY_MARK[2].1;
    damaged[15] = 255;
    let text = "raw 48 44 10 78 a0 86 01 00 00 00 00 00 00 00 00 ff\n";
    assert_eq!(to_text(&damaged), text);
    assert_eq!(to_bytes(text.as_bytes()), Ok(damaged.to_vec()));
    assert_eq!(
        to_bytes(text.to_uppercase().replace("RAW", "raw").as_bytes()),
        Ok(damaged.to_vec())
    );
    assert_eq!(to_text(b"HD"), "raw 48 44\n");
    assert_eq!(to_bytes(b"DR 1 6\nraw 48 44\n\n").unwrap().len(), 18);
    assert!(to_text(b"XX\0\0\0\0\0\0\0\0\0\0\0\0\0\0").starts_with("raw 58 58 00"));
}

fn round_trip(bytes: &[u8]) {
    let text = to_text(bytes);
    assert_eq!(to_bytes(text.as_bytes()).as_deref(), Ok(bytes), "{text}");
}

/// Numbers that are the same in every run (Marsaglia's xorshift).
struct Numbers(u64);

impl Numbers {
    fn next(&mut self) -> u64 {
        self.0 ^= self.0 << 13;
        self.0 ^= self.0 >> 7;
        self.0 ^= self.0 << 17;
        self.0
    }

    fn below(&mut self, bound: usize) -> usize {
        (self.next() >> 11) as usize % bound
    }
}

#[test]
fn any_bytes_come_back() {
    let mut numbers = Numbers(7);
    for _ in 0..2_000 {
        let length = numbers.below(50);
        let bytes: Vec<u8> = (0..length).map(|_| numbers.next() as u8).collect();
        round_trip(&bytes);
    }
}

#[test]
fn damaged_records_of_every_mark_come_back() {
    let mut numbers = Numbers(11);
    for _ in 0..2_000 {
        let mut bytes = Vec::new();
        for _ in 0..numbers.below(4) + 1 {
            let mut record = EVERY_MARK[numbers.below(EVERY_MARK.len())].1;
            for _ in 0..numbers.below(3) {
                record[numbers.below(16)] = numbers.next() as u8;
            }
            bytes.extend(record);
        }
        bytes.truncate(bytes.len() - numbers.below(16));
        round_trip(&bytes);
    }
}

#[test]
fn the_sample_farm_comes_back() {
    let sample = include_bytes!("../../sample/farm.txt");
    let records = to_bytes(sample).unwrap();
    let kept = |line: &&str| !line.trim().is_empty();
    let without_comments: Vec<String> = String::from_utf8_lossy(sample)
        .lines()
        .map(|line| line.split('#').next().unwrap())
        .filter(kept)
        .map(|line| line.trim().to_string() + "\n")
        .collect();
    assert_eq!(to_text(&records), without_comments.concat());
}
