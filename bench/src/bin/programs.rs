//! Holds the proved programs `years` and `month` to the second program, byte
//! for byte, and to what is known beforehand. A case that differs is written out as
//! an input of the programs, under target/differs.
//!
//!     programs FARM CORPUS [WORD ..]
//!
//! with the sample farm's records, the file to keep the cases in with their
//! outputs, and the words that start a proved program.

use std::path::{Path, PathBuf};
use std::process::ExitCode;
use std::sync::atomic::{AtomicUsize, Ordering};
use std::thread;

use bench::cases::{groups, Case, Group};
use bench::corpus::{keep, second, Kept};
use bench::outputs::Proved;
use bench::tally::{of_group, Tally};

const WORKERS: usize = 2;
const TOLD: usize = 5;

fn main() -> ExitCode {
    let words: Vec<String> = std::env::args().skip(1).collect();
    let [farm, corpus, started_by @ ..] = &words[..] else {
        eprintln!("usage: programs FARM CORPUS [WORD ..]");
        return ExitCode::from(2);
    };
    match run(farm.as_ref(), corpus.as_ref(), started_by) {
        Ok(()) => ExitCode::SUCCESS,
        Err(message) => {
            eprintln!("programs: {message}");
            ExitCode::FAILURE
        }
    }
}

fn root() -> &'static Path {
    Path::new(env!("CARGO_MANIFEST_DIR"))
        .parent()
        .expect("bench stands in the project")
}

fn run(farm: &Path, kept: &Path, started_by: &[String]) -> Result<(), String> {
    let groups = groups(root(), farm).map_err(|error| error.to_string())?;
    let cases: Vec<&Case> = groups.iter().flat_map(|group| &group.cases).collect();
    let proved = Proved {
        started_by: started_by.to_vec(),
        crates: root().join("crates"),
    };
    let outputs = outputs(&proved, &cases)?;
    let faults = differing(&cases, &outputs)?;
    let all_kept: Vec<Kept> = cases.iter().zip(&outputs).map(kept_case).collect();
    keep(kept, &all_kept).map_err(|error| format!("{}: {error}", kept.display()))?;
    let lacking = tallied(&groups, &outputs);
    for fault in lacking.iter().chain(faults.iter().take(TOLD)) {
        eprintln!("programs: {fault}");
    }
    if faults.is_empty() && lacking.is_empty() {
        println!(
            "programs: the proved programs and the second one agree on {} cases",
            cases.len()
        );
        return Ok(());
    }
    Err(format!(
        "{} of {} cases differ, and {} counts are too low",
        faults.len(),
        cases.len(),
        lacking.len()
    ))
}

fn kept_case((case, output): (&&Case, &Vec<u8>)) -> Kept {
    Kept {
        program: case.program,
        group: case.group.clone(),
        name: case.name.clone(),
        input: case.input.clone(),
        output: output.clone(),
    }
}

/// What the proved programs print for all cases.
fn outputs(proved: &Proved, cases: &[&Case]) -> Result<Vec<Vec<u8>>, String> {
    let next = AtomicUsize::new(0);
    let worker = || -> Result<Vec<(usize, Vec<u8>)>, String> {
        let mut outputs = Vec::new();
        loop {
            let index = next.fetch_add(1, Ordering::Relaxed);
            let Some(case) = cases.get(index) else {
                return Ok(outputs);
            };
            outputs.push((index, proved.output(case.program, &case.input)?));
        }
    };
    let mut all = thread::scope(|scope| {
        let workers: Vec<_> = (0..WORKERS).map(|_| scope.spawn(worker)).collect();
        let mut all = Vec::new();
        for worker in workers {
            all.extend(
                worker
                    .join()
                    .map_err(|_| "a worker stopped".to_string())??,
            );
        }
        Ok::<_, String>(all)
    })?;
    all.sort();
    Ok(all.into_iter().map(|(_, output)| output).collect())
}

/// The cases on which the two sides differ, or one of them from what is known:
/// each is kept, and what is wrong with it told.
fn differing(cases: &[&Case], outputs: &[Vec<u8>]) -> Result<Vec<String>, String> {
    let mut faults = Vec::new();
    for (number, (case, proved)) in cases.iter().zip(outputs).enumerate() {
        let wrong = wrong_with(case, proved);
        if !wrong.is_empty() {
            let place = keep_differing(case, number).map_err(|error| error.to_string())?;
            faults.push(format!(
                "{}, {}: {}: {}",
                case.group,
                case.name,
                place.display(),
                wrong.join("; ")
            ));
        }
    }
    Ok(faults)
}

fn wrong_with(case: &Case, proved: &[u8]) -> Vec<String> {
    let second = second(case.program, &case.input);
    let mut wrong = Vec::new();
    for (side, output) in [("proved", proved), ("second", &second)] {
        let broken = case.claims.iter().filter(|claim| !claim.holds(output));
        wrong.extend(broken.map(|claim| format!("{side}: {}", claim.told())));
    }
    if second != proved {
        wrong.push(first_difference(proved, &second));
    }
    wrong
}

fn first_difference(proved: &[u8], second: &[u8]) -> String {
    let [proved, second] = [proved, second].map(String::from_utf8_lossy);
    let mut lines = [proved.lines(), second.lines()];
    for number in 1.. {
        match lines.each_mut().map(Iterator::next) {
            [Some(proved), Some(second)] if proved == second => {}
            [None, None] => break,
            [proved, second] => {
                let [proved, second] = [proved, second].map(|line| line.unwrap_or("nothing"));
                return format!("line {number}: proved '{proved}', second '{second}'");
            }
        }
    }
    "the lines are the same, and not their ends".to_string()
}

fn keep_differing(case: &Case, number: usize) -> std::io::Result<PathBuf> {
    let folder = root().join("target").join("differs");
    std::fs::create_dir_all(&folder)?;
    let name = format!("{}-{number}", case.program.name());
    std::fs::write(folder.join(&name), &case.input)?;
    Ok(Path::new("target/differs").join(name))
}

/// Prints what the answers come to, and hands back what is too little.
fn tallied(groups: &[Group], outputs: &[Vec<u8>]) -> Vec<String> {
    let mut tally = Tally::default();
    let mut lacking = Vec::new();
    let mut rest = outputs.iter();
    for group in groups {
        let of_this: Vec<&Vec<u8>> = rest.by_ref().take(group.cases.len()).collect();
        for (case, output) in group.cases.iter().zip(&of_this) {
            tally.add(case.program, output);
        }
        match of_group(group, &of_this) {
            Ok(line) => println!("programs: {line}"),
            Err(line) => lacking.push(line),
        }
    }
    tally.print();
    lacking.extend(tally.lacking());
    lacking
}
