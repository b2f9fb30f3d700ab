use std::env;
use std::fs::File;
use std::io::{self, Read, Write};
use std::os::fd::AsFd;
use std::process::ExitCode;

const USAGE: &str = "usage: records to-bytes | records to-text";

type Conversion = fn(&[u8]) -> Result<Vec<u8>, String>;

fn main() -> ExitCode {
    let arguments: Vec<String> = env::args_os()
        .skip(1)
        .map(|argument| argument.to_string_lossy().into_owned())
        .collect();
    let arguments: Vec<&str> = arguments.iter().map(String::as_str).collect();
    let convert: Conversion = match arguments[..] {
        ["to-bytes"] => |text| records::to_bytes(text).map_err(|error| error.to_string()),
        ["to-text"] => |bytes| Ok(records::to_text(bytes).into_bytes()),
        _ => return failed(USAGE),
    };
    match run(convert) {
        Ok(()) => ExitCode::SUCCESS,
        Err(message) => failed(&message),
    }
}

/// Nothing is written before all of the input is read and found right.
fn run(convert: Conversion) -> Result<(), String> {
    let mut input = Vec::new();
    unmasked(io::stdin())
        .and_then(|mut stdin| stdin.read_to_end(&mut input))
        .map_err(|error| format!("the input cannot be read: {error}"))?;
    let output = convert(&input)?;
    unmasked(io::stdout())
        .and_then(|mut stdout| stdout.write_all(&output))
        .map_err(|error| format!("the output cannot be written: {error}"))
}

/// The standard library's own stdin and stdout take a bad descriptor for the
/// end of input and for a write done; a file reports the error.
fn unmasked(stream: impl AsFd) -> io::Result<File> {
    Ok(File::from(stream.as_fd().try_clone_to_owned()?))
}

/// Status 2, with one line on standard error. That it cannot be written either
/// leaves nothing more to say.
fn failed(message: &str) -> ExitCode {
    let _ = writeln!(io::stderr(), "records: {message}");
    ExitCode::from(2)
}
