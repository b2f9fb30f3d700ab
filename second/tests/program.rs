//! The programs, from an input to their whole output.

mod common;

use std::io::{self, Read};

use common::*;
use second::program::{month, years};

fn years_of(input: &[u8]) -> String {
    String::from_utf8(years(input).unwrap()).unwrap()
}

fn month_of(input: &[u8]) -> String {
    String::from_utf8(month(input).unwrap()).unwrap()
}

const SAMPLE_OUTPUT: &str = "\
year 1
entered 175200000 degraded 175200000 removed 0 carried 0
baseline 600445440 project 12000000 metered 504000000
net 498 credited 498
refused 8 at 13
";

#[test]
fn the_worked_years_whole_output() {
    assert_eq!(years_of(&sample().concat()), SAMPLE_OUTPUT);
}

#[test]
fn empty_input() {
    assert_eq!(years_of(b""), "refused 8 at 0\n");
}

#[test]
fn ten_years_end_without_a_refusal() {
    let output = years_of(&plain((2011, 1), &[LINE_1], 120, 302).concat());
    assert_eq!(output.lines().count(), 40);
    let numbers: Vec<&str> = output.lines().step_by(4).collect();
    let expected: Vec<String> = (1..=10).map(|number| format!("year {number}")).collect();
    assert_eq!(numbers, expected);
}

#[test]
fn the_first_year_turned_down_is_the_last_line() {
    let mut records = plain((2011, 1), &[LINE_1], 48, 302);
    records = without(&records, &[pe(30, 0, 0, 0)]);
    let output = years_of(&records.concat());
    assert_eq!(output.lines().count(), 9);
    assert!(output.ends_with("\nrefused 8 at 30\n"));
}

#[test]
fn a_posting_refusal_is_the_only_output() {
    let whole = sample().concat();
    let with_last = |last: &[u8]| years_of(&[&whole, last].concat());
    assert_eq!(with_last(&whole[..16]), "refused 5 at 0\n");
    assert_eq!(with_last(&hd(1, 121, 1)), "refused 4 at 3\n");
    assert_eq!(with_last(&[b'?'; 16]), "refused 2 at 0\n");
    for length in 1..16 {
        assert_eq!(with_last(&whole[..length]), "refused 1 at 0\n");
    }
    // The first refusal, though a torn record follows.
    assert_eq!(
        with_last(&[&[b'?'; 16][..], b"HD"].concat()),
        "refused 2 at 0\n"
    );
}

/// Gives its bytes one at a time, and then an error.
struct Failing<'a> {
    bytes: &'a [u8],
    interrupt: bool,
}

impl Read for Failing<'_> {
    fn read(&mut self, buffer: &mut [u8]) -> io::Result<usize> {
        self.interrupt = !self.interrupt;
        if self.interrupt {
            return Err(io::ErrorKind::Interrupted.into());
        }
        match self.bytes.split_first() {
            Some((&first, rest)) => {
                buffer[0] = first;
                self.bytes = rest;
                Ok(1)
            }
            None => Err(io::Error::other("broken")),
        }
    }
}

fn failing(bytes: &[u8]) -> Failing<'_> {
    Failing {
        bytes,
        interrupt: false,
    }
}

#[test]
fn a_read_error_is_not_the_end_of_input() {
    let whole = sample().concat();
    for length in [0, 5, 16, 20, whole.len()] {
        let failure = years(failing(&whole[..length])).unwrap_err();
        assert_eq!(failure.to_string(), "the input cannot be read: broken");
    }
    let steady = steady_month(672);
    for length in [0, 1, 2, 9, 10, 400, steady.len()] {
        assert!(month(failing(&steady[..length])).is_err());
    }
}

#[test]
fn reading_stops_at_a_posting_refusal() {
    let refused = [hd(1, 1, 1), hd(1, 1, 1)].concat();
    let output = years(failing(&refused)).unwrap();
    assert_eq!(output, b"refused 5 at 0\n");
}

/// The lists of floats, in the order of the counts, and the states.
fn input_of(mark: &[u8; 2], efficiency: u16, lists: &[&[f32]], states: &[u8]) -> Vec<u8> {
    let mut input = mark.to_vec();
    input.extend(efficiency.to_le_bytes());
    for list in lists {
        input.extend((list.len() as u16).to_le_bytes());
    }
    input.extend((states.len() as u16).to_le_bytes());
    for reading in lists.concat() {
        input.extend(reading.to_le_bytes());
    }
    input.extend(states);
    input
}

fn month_input(efficiency: u16, flows: &[f32], contents: &[f32], states: &[u8]) -> Vec<u8> {
    input_of(b"CM", efficiency, &[flows, contents], states)
}

fn steady_feet(hours: usize) -> Vec<u8> {
    let lists = [100.0, 60.0, 520.0, 1.0].map(|reading| vec![reading; hours]);
    let lists = lists.each_ref().map(Vec::as_slice);
    input_of(b"CF", 10_000, &lists, &vec![0; hours])
}

fn steady_month(hours: usize) -> Vec<u8> {
    month_input(
        10_000,
        &vec![100.0; hours],
        &vec![60.0; hours],
        &vec![0; hours],
    )
}

#[test]
fn a_month_is_destroyed() {
    assert_eq!(month_of(&steady_month(672)), "destroyed 27417600\n");
    let at_98 = month_input(9_800, &[100.0; 744], &[60.0; 744], &[0; 744]);
    assert_eq!(month_of(&at_98), format!("destroyed {}\n", 744 * 39_984));
}

#[test]
fn a_month_with_another_mark() {
    let mut input = steady_month(672);
    input[1] = b'N';
    assert_eq!(month_of(&input), "refused 2 at 0\n");
    assert_eq!(month_of(b"cm"), "refused 2 at 0\n");
    assert_eq!(month_of(b"XY\0\0"), "refused 2 at 0\n");
}

#[test]
fn a_month_cut_short_or_too_long() {
    let whole = steady_month(672);
    for length in (0..20).chain([2697, 2698, 2699, 5386, whole.len() - 1]) {
        assert_eq!(month_of(&whole[..length]), "refused 10 at 0\n", "{length}");
    }
    assert_eq!(month_of(&[&whole[..], b"\0"].concat()), "refused 10 at 0\n");
    assert_eq!(month_of(b""), "refused 10 at 0\n");
    assert_eq!(month_of(b"C"), "refused 10 at 0\n");
}

#[test]
fn a_month_whose_counts_differ_or_are_no_month() {
    let flows_longer = month_input(10_000, &[1.0; 673], &[1.0; 672], &[0; 672]);
    assert_eq!(month_of(&flows_longer), "refused 10 at 0\n");
    // The same number of bytes, counted otherwise.
    let shifted = month_input(10_000, &[1.0; 671], &[1.0; 673], &[0; 672]);
    assert_eq!(month_of(&shifted), "refused 10 at 0\n");
    for hours in [0, 671, 745, 65_535] {
        assert_eq!(month_of(&steady_month(hours)), "refused 10 at 0\n");
    }
}

#[test]
fn the_months_own_refusals() {
    let mut flows = [100.0; 696];
    flows[695] = f32::from_bits(0x7f80_0001);
    let efficient = |efficiency| month_input(efficiency, &flows, &[60.0; 696], &[0; 696]);
    assert_eq!(month_of(&efficient(10_001)), "refused 4 at 0\n");
    assert_eq!(month_of(&efficient(10_000)), "refused 11 at 695\n");
}

#[test]
fn a_month_in_cubic_feet() {
    assert_eq!(month_of(&steady_feet(672)), "destroyed 774144\n");
    let lists: [&[f32]; 4] = [&[200.0; 744], &[50.0; 744], &[650.0; 744], &[2.0; 744]];
    // 20,000 x 0.8 x 2 is 32,000; x 5,000 x 192,042 / 10^10 is 3072.67.
    let varied = input_of(b"CF", 10_000, &lists, &[0; 744]);
    assert_eq!(month_of(&varied), format!("destroyed {}\n", 744 * 3_072));
}

#[test]
fn a_month_in_cubic_feet_cut_short_or_too_long() {
    let whole = steady_feet(672);
    let ends = [14, 2_702, 5_390, 8_078, 10_766, whole.len()];
    let around = ends.into_iter().flat_map(|end| [end - 1, end, end + 1]);
    for length in (0..20).chain(around).filter(|&length| length < whole.len()) {
        assert_eq!(month_of(&whole[..length]), "refused 10 at 0\n", "{length}");
    }
    let longer = [&whole[..], b"\0"].concat();
    assert_eq!(month_of(&longer), "refused 10 at 0\n");
    let mut of_metres = whole.clone();
    of_metres[1] = b'M';
    assert_eq!(month_of(&of_metres), "refused 10 at 0\n");
    for mark in [b"cF", b"Cf", b"CG", b"FC"] {
        assert_eq!(month_of(mark), "refused 2 at 0\n");
    }
}

#[test]
fn the_longest_month_that_a_header_can_say_is_read_whole() {
    let longest = steady_feet(65_535);
    assert_eq!(month_of(&longest), "refused 10 at 0\n");
    assert!(month(failing(&longest)).is_err());
}

#[test]
fn the_refusals_of_a_month_in_cubic_feet() {
    let mut temperatures = [520.0; 696];
    temperatures[695] = 399.9;
    let lists: [&[f32]; 4] = [&[100.0; 696], &[60.0; 696], &temperatures, &[1.0; 696]];
    let efficient = |efficiency| input_of(b"CF", efficiency, &lists, &[1; 696]);
    assert_eq!(month_of(&efficient(10_001)), "refused 4 at 0\n");
    assert_eq!(month_of(&efficient(10_000)), "refused 11 at 695\n");
}
