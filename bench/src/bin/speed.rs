//! Proved against plainly written Rust (the second program), side by side in
//! one run: the least time of each over many rounds, and proved / plain. Fails
//! where that is past `MOST_RATIO` on a line.
//!
//!     speed [YEARS SECOND]    with the paths of the two programs, to time them as processes too

use std::fs::File;
use std::hint::black_box;
use std::path::Path;
use std::process::{Command, ExitCode, Stdio};
use std::time::Instant;

use bench::book::Record;
use bench::feet::NO_CORRECTION;
use bench::full::full_book;
use bench::hours::{NO_CONTENT, NO_FLOW};
use bench::linked;
use bench::random::Random;
use second::book::Book as PlainBook;

const ROUNDS: usize = 300;

/// The most that proved / plain may be on any line. Measured were 0.36 to 0.95,
/// on three machines; the room above that is for busy ones.
const MOST_RATIO: f64 = 1.5;

fn main() -> ExitCode {
    let words: Vec<String> = std::env::args().skip(1).collect();
    let mut lines = Lines::default();
    println!("{:44} {:>10} {:>10} {:>6}", "", "proved", "plain", "ratio");
    let records = full_book();
    posting(
        &mut lines,
        "posting a full book, in order, ns a record",
        &records,
    );
    let mut shuffled = records.clone();
    Random::of_case(1, 0).shuffle(&mut shuffled);
    posting(
        &mut lines,
        "posting a full book, shuffled, ns a record",
        &shuffled,
    );
    years(&mut lines, &drained_at_times(&records));
    month(&mut lines);
    feet_month(&mut lines);
    if let [proved, plain] = &words[..] {
        if let Err(message) = programs(&mut lines, &drained_at_times(&records), proved, plain) {
            eprintln!("speed: {message}");
            return ExitCode::FAILURE;
        }
    }
    for what in &lines.past_most {
        eprintln!("speed: {what}: the proved side takes more than {MOST_RATIO} times the plain one's time");
    }
    if lines.past_most.is_empty() {
        ExitCode::SUCCESS
    } else {
        ExitCode::FAILURE
    }
}

/// The lines printed, of which those are kept whose ratio is past the most.
#[derive(Default)]
struct Lines {
    past_most: Vec<String>,
}

impl Lines {
    fn add(&mut self, what: &str, proved: f64, plain: f64) {
        let ratio = proved / plain;
        println!("{what:44} {proved:10.2} {plain:10.2} {ratio:6.2}");
        if ratio > MOST_RATIO {
            self.past_most.push(what.to_string());
        }
    }
}

/// Nanoseconds of one call of each, by the least of all rounds; the rounds of
/// the two take turns.
fn least(calls: usize, mut proved: impl FnMut(), mut plain: impl FnMut()) -> (f64, f64) {
    let mut least = (f64::MAX, f64::MAX);
    for _ in 0..ROUNDS {
        least.0 = least.0.min(timed(calls, &mut proved));
        least.1 = least.1.min(timed(calls, &mut plain));
    }
    least
}

fn timed(calls: usize, call: &mut impl FnMut()) -> f64 {
    let start = Instant::now();
    for _ in 0..calls {
        call();
    }
    start.elapsed().as_nanos() as f64 / calls as f64
}

/// Into books that are emptied outside the time.
fn posting(lines: &mut Lines, what: &str, records: &[Record]) {
    let mut proved = linked::Book::empty();
    let mut plain = Box::new(PlainBook::empty());
    let (mut proved_least, mut plain_least) = (f64::MAX, f64::MAX);
    for _ in 0..ROUNDS {
        proved.clear();
        *plain = PlainBook::empty();
        let mut post = || {
            for record in records {
                black_box(proved.post(black_box(record)));
            }
        };
        proved_least = proved_least.min(timed(1, &mut post));
        let mut post = || {
            for record in records {
                let _ = black_box(plain.post(black_box(record)));
            }
        };
        plain_least = plain_least.min(timed(1, &mut post));
    }
    let count = records.len() as f64;
    lines.add(what, proved_least / count, plain_least / count);
}

fn years(lines: &mut Lines, records: &[Record]) {
    let mut proved = linked::Book::empty();
    let mut plain = Box::new(PlainBook::empty());
    for record in records {
        assert_eq!(proved.post(record).number, 0);
        assert!(plain.post(record).is_ok());
    }
    for year in [1, 10] {
        let (proved, plain) = least(
            20,
            || {
                black_box(proved.year(black_box(year.into())));
            },
            || {
                let _ = black_box(second::year::year(black_box(&plain), black_box(year)));
            },
        );
        lines.add(
            &format!("year {year} of 32 lines, µs"),
            proved / 1e3,
            plain / 1e3,
        );
    }
}

const HOURS: usize = 744;
const EFFICIENCY: u16 = 9_800;

/// A reading an hour, from one on by steps that begin again after so many.
fn readings(first: f32, step: f32, again: usize) -> Vec<f32> {
    (0..HOURS)
        .map(|hour| first + (hour % again) as f32 * step)
        .collect()
}

fn states(no_flow: u8) -> Vec<u8> {
    (0..HOURS)
        .map(|hour| no_flow * u8::from(hour % 50 < 3) + NO_CONTENT * u8::from(hour % 61 == 9))
        .collect()
}

fn month(lines: &mut Lines) {
    let flows = readings(100.0, 1.3, 37);
    let contents = readings(55.0, 0.7, 11);
    let states = states(NO_FLOW);
    let (proved, plain) = least(
        50,
        || {
            black_box(linked::month(
                black_box(&flows),
                black_box(&contents),
                black_box(&states),
                EFFICIENCY.into(),
            ));
        },
        || {
            let _ = black_box(second::meter::month(
                black_box(&flows),
                black_box(&contents),
                black_box(&states),
                EFFICIENCY,
            ));
        },
    );
    lines.add("a meter month of 744 hours, µs", proved / 1e3, plain / 1e3);
}

/// With as many gaps as the month in cubic metres has, for want of a
/// temperature or a pressure.
fn feet_month(lines: &mut Lines) {
    let flows = readings(3_500.0, 45.7, 37);
    let contents = readings(55.0, 0.7, 11);
    let temperatures = readings(505.0, 1.1, 23);
    let pressures = readings(0.98, 0.003, 13);
    let states = states(NO_CORRECTION);
    let (proved, plain) = least(
        50,
        || {
            let lists = [&flows, &contents, &temperatures, &pressures];
            black_box(linked::feet_month(
                lists.map(|list| black_box(list.as_slice())),
                black_box(&states),
                EFFICIENCY.into(),
            ));
        },
        || {
            let _ = black_box(second::feet::month(
                black_box(&flows),
                black_box(&contents),
                black_box(&temperatures),
                black_box(&pressures),
                black_box(&states),
                EFFICIENCY,
            ));
        },
    );
    lines.add(
        "a meter month of 744 hours in cubic feet, µs",
        proved / 1e3,
        plain / 1e3,
    );
}

/// The whole programs, from start to end, on a ten-year book of 32 lines and
/// on no record at all.
fn programs(
    lines: &mut Lines,
    records: &[Record],
    proved: &str,
    plain: &str,
) -> Result<(), String> {
    let folder = Path::new(env!("CARGO_MANIFEST_DIR"))
        .parent()
        .expect("bench stands in the project")
        .join("target");
    for (what, input) in [
        ("years, ten years of 32 lines, ms", records.concat()),
        ("years, no record, ms", Vec::new()),
    ] {
        let file = folder.join("speed-input");
        std::fs::write(&file, &input).map_err(|error| format!("{}: {error}", file.display()))?;
        let (mut proved_least, mut plain_least) = (f64::MAX, f64::MAX);
        for _ in 0..ROUNDS {
            proved_least = proved_least.min(process(&mut Command::new(proved), &file)?);
            plain_least = plain_least.min(process(Command::new(plain).arg("years"), &file)?);
        }
        lines.add(what, proved_least / 1e6, plain_least / 1e6);
        if !input.is_empty() {
            let rate = |nanoseconds: f64| input.len() as f64 * 1e3 / nanoseconds;
            println!(
                "{:44} {:10.0} {:10.0}",
                "years, ten years of 32 lines, MB/s",
                rate(proved_least),
                rate(plain_least)
            );
        }
    }
    Ok(())
}

fn process(command: &mut Command, input: &Path) -> Result<f64, String> {
    let input = File::open(input).map_err(|error| error.to_string())?;
    command.stdin(Stdio::from(input)).stdout(Stdio::null());
    let start = Instant::now();
    let status = command
        .status()
        .map_err(|error| format!("{command:?}: {error}"))?;
    let nanoseconds = start.elapsed().as_nanos() as f64;
    if status.success() {
        Ok(nanoseconds)
    } else {
        Err(format!("{command:?}: {status}"))
    }
}

/// Without most of the drain marks, as a book is: each line drained every sixth month.
fn drained_at_times(records: &[Record]) -> Vec<Record> {
    let drain = |record: &&Record| record[..2] != *b"DR" || (record[2] + record[3]) % 6 == 0;
    records.iter().filter(drain).copied().collect()
}
