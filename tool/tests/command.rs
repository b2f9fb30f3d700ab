//! The command itself: its streams and exit status.

use std::fs::{File, OpenOptions};
use std::io::Write;
use std::process::{Command, Output, Stdio};

fn records(arguments: &[&str]) -> Command {
    let mut command = Command::new(env!("CARGO_BIN_EXE_records"));
    command.args(arguments);
    command.stdout(Stdio::piped()).stderr(Stdio::piped());
    command
}

fn run(arguments: &[&str], input: &[u8]) -> Output {
    let mut child = records(arguments).stdin(Stdio::piped()).spawn().unwrap();
    // A command that is told the usage reads no input.
    let _ = child.stdin.take().unwrap().write_all(input);
    child.wait_with_output().unwrap()
}

fn assert_answered(output: Output, expected: &[u8]) {
    assert_eq!(output.stdout, expected);
    assert_eq!(output.stderr, b"");
    assert_eq!(output.status.code(), Some(0));
}

fn assert_failed(output: Output, message: &str) {
    let error = String::from_utf8(output.stderr).unwrap();
    assert!(error.starts_with(message), "{error}");
    assert!(
        error.ends_with('\n') && error.lines().count() == 1,
        "{error}"
    );
    assert_eq!(output.stdout, b"");
    assert_eq!(output.status.code(), Some(2));
}

const DRAINED: [u8; 16] = *b"DR\x01\x06\0\0\0\0\0\0\0\0\0\0\0\0";

#[test]
fn both_ways() {
    assert_answered(run(&["to-text"], &DRAINED), b"DR 1 6\n");
    assert_answered(run(&["to-bytes"], b"DR 1 6\n"), &DRAINED);
    assert_answered(run(&["to-text"], b""), b"");
    assert_answered(run(&["to-bytes"], b""), b"");
}

#[test]
fn a_text_error_leaves_standard_output_empty() {
    assert_failed(
        run(&["to-bytes"], b"DR 1 6\nDR 1\n"),
        "records: line 2: DR takes 2 numbers (line, month), not 1",
    );
}

#[test]
fn an_input_that_cannot_be_read() {
    for argument in ["to-bytes", "to-text"] {
        let directory = File::open(".").unwrap();
        let output = records(&[argument]).stdin(directory).output().unwrap();
        assert_failed(output, "records: the input cannot be read: ");
        let for_writing_only = OpenOptions::new().write(true).open("/dev/null").unwrap();
        let output = records(&[argument])
            .stdin(for_writing_only)
            .output()
            .unwrap();
        assert_failed(output, "records: the input cannot be read: ");
    }
}

#[test]
fn an_output_that_cannot_be_written() {
    let text = File::open("../sample/farm.txt").unwrap();
    let for_reading_only = File::open("/dev/null").unwrap();
    let output = records(&["to-bytes"])
        .stdin(text)
        .stdout(for_reading_only)
        .output()
        .unwrap();
    assert_failed(output, "records: the output cannot be written: ");
}

#[test]
fn other_arguments_are_told_the_usage() {
    let wrong: [&[&str]; 4] = [
        &[],
        &["to-year"],
        &["to-text", "x"],
        &["records", "to-text"],
    ];
    for arguments in wrong {
        assert_failed(run(arguments, b""), "records: usage: records to-bytes");
    }
}
