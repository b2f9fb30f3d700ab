//! The command itself: its streams and exit status.

mod common;

use std::fs::{File, OpenOptions};
use std::io::Write;
use std::process::{Command, Output, Stdio};

use common::*;

fn second(arguments: &[&str]) -> Command {
    let mut command = Command::new(env!("CARGO_BIN_EXE_second"));
    command.args(arguments);
    command.stdout(Stdio::piped()).stderr(Stdio::piped());
    command
}

fn run(arguments: &[&str], input: &[u8]) -> Output {
    let mut child = second(arguments).stdin(Stdio::piped()).spawn().unwrap();
    // A program that needs no more input may have ended by now.
    let _ = child.stdin.take().unwrap().write_all(input);
    child.wait_with_output().unwrap()
}

fn assert_answered(output: Output, expected: &[u8]) {
    assert_eq!(output.stdout, expected);
    assert_eq!(output.stderr, b"");
    assert_eq!(output.status.code(), Some(0));
}

fn assert_failed(output: Output, message: &str) {
    let error = String::from_utf8(output.stderr).unwrap();
    assert!(error.starts_with(message), "{error}");
    assert!(
        error.ends_with('\n') && error.lines().count() == 1,
        "{error}"
    );
    assert_eq!(output.stdout, b"");
    assert_eq!(output.status.code(), Some(2));
}

#[test]
fn answers_go_to_standard_output() {
    let book = sample().concat();
    let years = run(&["years"], &book);
    assert!(years.stdout.starts_with(b"year 1\nentered 175200000 "));
    assert_eq!(years.status.code(), Some(0));
    assert_answered(run(&["years"], b""), b"refused 8 at 0\n");
    assert_answered(run(&["years"], b"torn"), b"refused 1 at 0\n");
    assert_answered(run(&["month"], b""), b"refused 10 at 0\n");
}

const ALL: [&[&str]; 3] = [&["years"], &["months"], &["month"]];

#[test]
fn an_input_that_cannot_be_read() {
    for arguments in ALL {
        let directory = File::open(".").unwrap();
        let output = second(arguments).stdin(directory).output().unwrap();
        assert_failed(output, "second: the input cannot be read: ");
        let for_writing_only = OpenOptions::new().write(true).open("/dev/null").unwrap();
        let output = second(arguments).stdin(for_writing_only).output().unwrap();
        assert_failed(output, "second: the input cannot be read: ");
    }
}

#[test]
fn an_output_that_cannot_be_written() {
    let for_reading_only = File::open("/dev/null").unwrap();
    let output = second(&["years"])
        .stdin(Stdio::null())
        .stdout(for_reading_only)
        .output()
        .unwrap();
    assert_failed(output, "second: the output cannot be written: ");
}

#[test]
fn other_arguments_are_told_the_usage() {
    let wrong: [&[&str]; 4] = [&[], &["year"], &["years", "1"], &["month", "x"]];
    for arguments in wrong {
        assert_failed(
            run(arguments, b""),
            "second: usage: second years | months | month",
        );
    }
}
