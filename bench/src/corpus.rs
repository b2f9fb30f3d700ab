//! The second program's outputs, and cases with what the proved programs
//! printed for them, kept in a file: so a changed second program can be held
//! to it without running the proved ones again.
//!
//! This file needs nothing but the second program, so that it can be built
//! beside a changed copy of it (tests/misreadings).

use std::fs::File;
use std::io::{self, BufRead, BufReader, BufWriter, Error, ErrorKind, Read, Write};
use std::panic::catch_unwind;
use std::path::Path;

#[derive(Clone, Copy, Debug, PartialEq, Eq, PartialOrd, Ord)]
pub enum Program {
    Years,
    Month,
}

impl Program {
    const ALL: [Program; 2] = [Program::Years, Program::Month];

    pub fn name(self) -> &'static str {
        match self {
            Program::Years => "years",
            Program::Month => "month",
        }
    }
}

/// What the second program prints. That it stops without an answer is one more
/// way of differing.
pub fn second(program: Program, input: &[u8]) -> Vec<u8> {
    let printed = catch_unwind(|| match program {
        Program::Years => second::program::years(input),
        Program::Month => second::program::month(input),
    });
    match printed {
        Ok(Ok(output)) => output,
        Ok(Err(failure)) => format!("the second program fails: {failure}").into_bytes(),
        Err(_) => b"the second program stops".to_vec(),
    }
}

pub struct Kept {
    pub program: Program,
    pub group: String,
    pub name: String,
    pub input: Vec<u8>,
    pub output: Vec<u8>,
}

/// A line for each case, with the lengths of its input and its output, the
/// program, the group and the name; then both, as they are.
pub fn keep(path: &Path, cases: &[Kept]) -> io::Result<()> {
    let mut file = BufWriter::new(File::create(path)?);
    for case in cases {
        writeln!(
            file,
            "{}\t{}\t{}\t{}\t{}",
            case.input.len(),
            case.output.len(),
            case.program.name(),
            case.group,
            case.name
        )?;
        file.write_all(&case.input)?;
        file.write_all(&case.output)?;
    }
    file.flush()
}

pub fn read(path: &Path) -> io::Result<Vec<Kept>> {
    let mut file = BufReader::new(File::open(path)?);
    let mut kept = Vec::new();
    let mut line = String::new();
    while file.read_line(&mut line)? > 0 {
        kept.push(case(&line, &mut file)?);
        line.clear();
    }
    Ok(kept)
}

fn case(line: &str, file: &mut impl Read) -> io::Result<Kept> {
    let no_case = || Error::new(ErrorKind::InvalidData, format!("no case: {line:?}"));
    let words: Vec<&str> = line.trim_end().splitn(5, '\t').collect();
    let [input, output, program, group, name] = words[..] else {
        return Err(no_case());
    };
    let mut bytes = |length: &str| -> io::Result<Vec<u8>> {
        let mut bytes = vec![0; length.parse().map_err(|_| no_case())?];
        file.read_exact(&mut bytes)?;
        Ok(bytes)
    };
    let mut programs = Program::ALL.into_iter();
    Ok(Kept {
        input: bytes(input)?,
        output: bytes(output)?,
        program: programs
            .find(|known| known.name() == program)
            .ok_or_else(no_case)?,
        group: group.to_string(),
        name: name.to_string(),
    })
}
