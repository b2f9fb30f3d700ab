//! What the proved programs print for an input, and what is known of it beforehand.

use std::io::{ErrorKind, Write};
use std::path::PathBuf;
use std::process::{Command, Stdio};

use crate::cases::{Claim, Program};

/// The proved programs, each in its crate's folder out/, and the words that start
/// one on this machine.
pub struct Proved {
    pub started_by: Vec<String>,
    pub crates: PathBuf,
}

impl Proved {
    /// Runs a proved program. It has to end well and say nothing on standard error.
    pub fn output(&self, program: Program, input: &[u8]) -> Result<Vec<u8>, String> {
        let name = program.name();
        let path = self.crates.join(name).join("out").join(name);
        let mut words = self.started_by.iter().map(Into::into).chain([path]);
        let first = words.next().expect("a program is a word at least");
        let failed = |error: std::io::Error| format!("{}: {error}", first.display());
        let mut child = Command::new(&first)
            .args(words)
            .stdin(Stdio::piped())
            .stdout(Stdio::piped())
            .stderr(Stdio::piped())
            .spawn()
            .map_err(failed)?;
        let mut stdin = child.stdin.take().expect("standard input is a pipe");
        // A program that has refused a record reads no further.
        match stdin.write_all(input) {
            Err(error) if error.kind() != ErrorKind::BrokenPipe => return Err(failed(error)),
            _ => drop(stdin),
        }
        let output = child.wait_with_output().map_err(failed)?;
        if output.status.success() && output.stderr.is_empty() {
            Ok(output.stdout)
        } else {
            let told = String::from_utf8_lossy(&output.stderr);
            Err(format!("{name}: {}, {told}", output.status))
        }
    }
}

/// The last figure of this name in an output.
pub fn figure(output: &str, name: &str) -> Option<i64> {
    let words: Vec<&str> = output.split_whitespace().collect();
    let at = words.iter().rposition(|word| *word == name)?;
    words.get(at + 1)?.parse().ok()
}

impl Claim {
    pub fn holds(&self, output: &[u8]) -> bool {
        match self {
            Claim::Prints(text) => text.as_bytes() == output,
            Claim::Figure(name, low, high) => figure(&String::from_utf8_lossy(output), name)
                .is_some_and(|number| (*low..=*high).contains(&number)),
        }
    }

    pub fn told(&self) -> String {
        match self {
            Claim::Prints(text) => format!("not {text:?}, as is known of it"),
            Claim::Figure(name, low, high) => {
                format!("{name} not from {low} to {high}, as is known of it")
            }
        }
    }
}
