use std::env;
use std::fs::File;
use std::io::{self, Write};
use std::os::fd::AsFd;
use std::process::ExitCode;

use second::program::{self, Unreadable};

const USAGE: &str = "usage: second years | months | month";

type Program = fn(File) -> Result<Vec<u8>, Unreadable>;

fn main() -> ExitCode {
    let arguments: Vec<String> = env::args_os()
        .skip(1)
        .map(|argument| argument.to_string_lossy().into_owned())
        .collect();
    let arguments: Vec<&str> = arguments.iter().map(String::as_str).collect();
    let program: Program = match arguments[..] {
        ["years"] => program::years,
        ["months"] => program::months,
        ["month"] => program::month,
        _ => return failed(USAGE),
    };
    match run(program) {
        Ok(()) => ExitCode::SUCCESS,
        Err(message) => failed(&message),
    }
}

fn run(program: Program) -> Result<(), String> {
    let input = unmasked(io::stdin()).map_err(|error| Unreadable(error).to_string())?;
    let output = program(input).map_err(|unreadable| unreadable.to_string())?;
    unmasked(io::stdout())
        .and_then(|mut stdout| stdout.write_all(&output))
        .map_err(|error| format!("the output cannot be written: {error}"))
}

/// The standard library's own stdin and stdout take a bad descriptor for the
/// end of input and for a write done; a file reports the error.
fn unmasked(stream: impl AsFd) -> io::Result<File> {
    Ok(File::from(stream.as_fd().try_clone_to_owned()?))
}

/// Status 2, with one line on standard error. That it cannot be written either
/// leaves nothing more to say.
fn failed(message: &str) -> ExitCode {
    let _ = writeln!(io::stderr(), "second: {message}");
    ExitCode::from(2)
}
