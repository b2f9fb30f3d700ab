//! Holds the second program to the outputs that the proved ones gave, and
//! prints for each group of cases that sees a difference how many do, and the first.
//!
//!     hold CORPUS

#[allow(dead_code)]
#[path = "../corpus.rs"]
mod corpus;

use std::path::Path;
use std::process::ExitCode;

fn main() -> ExitCode {
    let words: Vec<String> = std::env::args().skip(1).collect();
    let [kept] = &words[..] else {
        eprintln!("usage: hold CORPUS");
        return ExitCode::from(2);
    };
    match corpus::read(Path::new(kept)) {
        Ok(cases) => {
            std::panic::set_hook(Box::new(|_| ()));
            hold(&cases);
            ExitCode::SUCCESS
        }
        Err(error) => {
            eprintln!("hold: {kept}: {error}");
            ExitCode::FAILURE
        }
    }
}

/// The cases of a group stand beside each other.
fn hold(cases: &[corpus::Kept]) {
    for group in cases.chunk_by(|one, next| one.group == next.group) {
        let mut differing = group
            .iter()
            .filter(|case| corpus::second(case.program, &case.input) != case.output);
        if let Some(first) = differing.next() {
            let count = 1 + differing.count();
            println!("{count}\t{}\t{}", first.group, first.name);
        }
    }
}
