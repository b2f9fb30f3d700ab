//! Holds the proved library, called from C, to the second program. A case that
//! differs is written out as an input of the programs, under target/differs.
//!
//!     library DRIVER [streams COUNT] [months COUNT] [floats] [temperatures] [livestock] [cuts] [sizes] [seed SEED]
//!
//! DRIVER is bench/driver.c, built. Without a further word, all of it at the
//! size that the tests run. `months` are so many of each kind of meter, and
//! `floats` are tried as the readings of either.

use std::path::{Path, PathBuf};
use std::process::ExitCode;
use std::thread;

use bench::book::{record, whole, Extent, Record, HD, LD, LN, PE, RECORD_BYTES, TP, YR};
use bench::book::{BY_STATE, CATEGORIES, LINES, LIVESTOCK, STATES};
use bench::cabinet::BOOK_BYTES;
use bench::deliveries::{feet_month_of, month_of, pieces_of};
use bench::difference::{Difference, Sides};
use bench::driver::{Delivered, Delivery, Driver, Patterns};
use bench::feet::{feet_input, LEAST_TEMPERATURE, MOST_FEET, MOST_PRESSURE, MOST_TEMPERATURE};
use bench::floors::{Floor, Tally};
use bench::full::full_book;
use bench::hours::input;
use bench::random::Random;
use bench::slots::Slots;
use bench::streams::{joined, pieces, stream};

const USAGE: &str =
    "usage: library DRIVER [streams COUNT] [months COUNT] [floats] [temperatures] [livestock] [cuts] [sizes] [seed SEED]";

/// Where the library does not run on the processor itself but under an
/// emulator, there is less of what is many.
const EMULATED: bool = cfg!(not(target_arch = "x86_64"));
const STREAMS: u64 = if EMULATED { 40_000 } else { 200_000 };
const MONTHS_OF_HOURS: u64 = 20_000;
const SEED: u64 = 2_011;
const WORKERS: u64 = 2;

/// The whole book is looked at after each record of one stream in so many: ten
/// in a row, so that every kind of stream is among them.
const WATCHED_ONE_IN: u64 = 50;

/// What a run has to have of a number.
const fn floor(number: usize, in_a_thousand: u64, places: usize) -> Floor {
    Floor {
        number,
        in_a_thousand,
        places,
    }
}

/// Well below what the made-up cases give, and every place at which a record
/// can be refused 3 or 4: so a run fails whose cases have come to be all
/// refusals, or lack one.
const RECORD_FLOORS: [Floor; 6] = [
    floor(0, 50_000, 0),
    floor(1, 100, 1),
    floor(2, 500, 1),
    floor(3, 300, 13),
    floor(4, 1_000, 9),
    floor(5, 1_000, 1),
];
const YEAR_FLOORS: [Floor; 4] = [
    floor(0, 300, 0),
    floor(9, 6_000, 1),
    floor(8, 2_000, 60),
    floor(7, 30, 5),
];
const MONTH_FLOORS: [Floor; 4] = [
    floor(0, 300, 0),
    floor(10, 80, 1),
    floor(4, 40, 1),
    floor(11, 30, 300),
];
const FEET_MONTH_FLOORS: [Floor; 4] = [
    floor(0, 300, 0),
    floor(10, 80, 1),
    floor(4, 40, 1),
    floor(11, 50, 300),
];

struct Asked {
    driver: PathBuf,
    streams: u64,
    months: u64,
    floats: bool,
    temperatures: bool,
    livestock: bool,
    cuts: bool,
    sizes: bool,
    seed: u64,
}

fn main() -> ExitCode {
    let words: Vec<String> = std::env::args().skip(1).collect();
    let Some(asked) = asked(&words) else {
        eprintln!("{USAGE}");
        return ExitCode::from(2);
    };
    match compare(&asked) {
        Ok(()) => ExitCode::SUCCESS,
        Err(message) => {
            eprintln!("library: {message}");
            ExitCode::FAILURE
        }
    }
}

fn asked(words: &[String]) -> Option<Asked> {
    let mut words = words.iter().map(String::as_str);
    let mut asked = Asked {
        driver: words.next()?.into(),
        streams: 0,
        months: 0,
        floats: false,
        temperatures: false,
        livestock: false,
        cuts: false,
        sizes: false,
        seed: SEED,
    };
    let mut named = false;
    while let Some(word) = words.next() {
        named |= word != "seed";
        match word {
            "seed" => asked.seed = words.next()?.parse().ok()?,
            "streams" => asked.streams = words.next()?.parse().ok()?,
            "months" => asked.months = words.next()?.parse().ok()?,
            "floats" => asked.floats = true,
            "temperatures" => asked.temperatures = true,
            "livestock" => asked.livestock = true,
            "cuts" => asked.cuts = true,
            "sizes" => asked.sizes = true,
            _ => return None,
        }
    }
    if !named {
        asked = Asked {
            streams: STREAMS,
            months: MONTHS_OF_HOURS,
            floats: true,
            temperatures: true,
            livestock: true,
            cuts: true,
            sizes: true,
            ..asked
        };
    }
    Some(asked)
}

fn compare(asked: &Asked) -> Result<(), String> {
    let seed = asked.seed;
    let run = &Run {
        driver: &asked.driver,
        slots: &Slots::learn(&mut Driver::start(&asked.driver)?)?,
    };
    println!(
        "library: {} keys fill as many slots of 16 bytes",
        every_key(run)?
    );
    if asked.streams > 0 {
        streams(run, seed, asked.streams)?;
    }
    if asked.months > 0 {
        meter_months(run, seed, asked.months)?;
        feet_months(run, seed, asked.months)?;
    }
    if asked.floats {
        floats(run)?;
    }
    if asked.temperatures {
        let taken = temperatures(run)?;
        println!("library: all 65,536 temperatures, {taken} of them taken");
    }
    if asked.livestock {
        let taken = livestock(run)?;
        println!("library: all 256 livestock with all 256 states, {taken} of them taken");
    }
    if asked.cuts {
        let cuts = cuts(run, seed)?;
        println!("library: {cuts} unclean stops, each re-delivered to the same book and years");
    }
    if asked.sizes {
        let sizes = sizes(run)?;
        println!(
            "library: memory of {sizes} sizes and offsets, made a book where it has a book's size"
        );
    }
    Ok(())
}

/// What every case needs: the driver, and the slots that its library has.
struct Run<'a> {
    driver: &'a Path,
    slots: &'a Slots,
}

impl Run<'_> {
    fn sides(&self) -> Result<Sides<'_>, String> {
        Ok(Sides::new(Driver::start(self.driver)?, self.slots))
    }

    /// Runs the cases from 0 to `count` on all workers and adds up what they tally.
    fn on_workers(
        &self,
        count: u64,
        case: impl Fn(&mut Sides, u64, &mut [Tally; 2]) -> Result<(), String> + Sync,
    ) -> Result<[Tally; 2], String> {
        let case = &case;
        let worker = |first: u64| -> Result<[Tally; 2], String> {
            let mut sides = self.sides()?;
            let mut tallies = <[Tally; 2]>::default();
            for number in (first..count).step_by(WORKERS as usize) {
                case(&mut sides, number, &mut tallies)?;
            }
            Ok(tallies)
        };
        thread::scope(|scope| {
            let workers: Vec<_> = (0..WORKERS)
                .map(|first| scope.spawn(move || worker(first)))
                .collect();
            let mut all = <[Tally; 2]>::default();
            for worker in workers {
                let told = worker
                    .join()
                    .map_err(|_| "a worker stopped".to_string())??;
                for (tally, more) in all.iter_mut().zip(told) {
                    tally.join(more);
                }
            }
            Ok(all)
        })
    }
}

fn every_key(run: &Run) -> Result<usize, String> {
    let records = full_book();
    let pieces: Vec<&[u8]> = records.iter().map(Record::as_slice).collect();
    let delivery = Delivery {
        offset: 0,
        watched: true,
        pieces: &pieces,
        years: &years(),
    };
    run.sides()?
        .deliver(&delivery)
        .map_err(|difference| difference.what)?;
    Ok(records.len())
}

/// The years that are asked for: those of the period and those beside it, three
/// that would be years of it if they were cut to 8, 16 or 32 bits, and the last
/// number.
fn years() -> Vec<u64> {
    let none = [(1 << 8) + 1, (1 << 16) + 2, (1 << 32) + 1, u64::MAX];
    (0..=11).chain(none).collect()
}

/// Each stream's postings, past its refusals, and its years.
fn streams(run: &Run, seed: u64, count: u64) -> Result<(), String> {
    let [records, years] = run.on_workers(count, |sides, case, tallies| {
        let stream = stream(seed, case);
        let delivery = Delivery {
            offset: case as usize % RECORD_BYTES,
            watched: case / 10 % WATCHED_ONE_IN == 0,
            pieces: &pieces_of(seed, case, &stream),
            years: &years(),
        };
        let delivered = sides
            .deliver(&delivery)
            .map_err(|difference| kept("years", seed, case, difference))?;
        add(tallies, &delivered);
        Ok(())
    })?;
    println!("library: {count} streams, seed {seed}");
    println!("library: .. their records: {}", records.told("taken"));
    println!("library: .. their years: {}", years.told("stated"));
    records.reaches(&RECORD_FLOORS, count)?;
    years.reaches(&YEAR_FLOORS, count)
}

fn add([records, years]: &mut [Tally; 2], delivered: &Delivered) {
    for told in &delivered.records {
        records.add(told.posted.number, told.posted.place);
    }
    for year in &delivered.years {
        years.add(year.number, year.place);
    }
}

fn meter_months(run: &Run, seed: u64, count: u64) -> Result<(), String> {
    let [answers, _] = run.on_workers(count, |sides, case, [answers, _]| {
        let (hours, efficiency) = month_of(seed, case);
        let month = sides.month(&hours, efficiency).map_err(|what| {
            let input = input(&hours);
            kept("month", seed, case, Difference { what, input })
        })?;
        answers.add(month.number, month.place);
        Ok(())
    })?;
    let told = answers.told("stated");
    println!("library: {count} meter months, seed {seed}: {told}");
    answers.reaches(&MONTH_FLOORS, count)
}

fn feet_months(run: &Run, seed: u64, count: u64) -> Result<(), String> {
    let [answers, _] = run.on_workers(count, |sides, case, [answers, _]| {
        let (hours, efficiency) = feet_month_of(seed, case);
        let month = sides.feet_month(&hours, efficiency).map_err(|what| {
            let input = feet_input(&hours);
            kept("month-feet", seed, case, Difference { what, input })
        })?;
        answers.add(month.number, month.place);
        Ok(())
    })?;
    let told = answers.told("stated");
    println!("library: {count} meter months in cubic feet, seed {seed}: {told}");
    answers.reaches(&FEET_MONTH_FLOORS, count)
}

/// Each pattern of f32 as a reading of either kind of meter.
fn floats(run: &Run) -> Result<(), String> {
    let blocks = if EMULATED {
        sampled_patterns()
    } else {
        all_patterns()
    };
    run.on_workers(blocks.len() as u64, |sides, block, _| {
        sides.readings(blocks[block as usize])?;
        sides.feet_hours(blocks[block as usize])
    })?;
    let patterns: u64 = blocks.iter().map(|block| block.count).sum();
    println!("library: {patterns} patterns of f32, as flow and as content");
    println!("library: .. and as flow, as temperature and as pressure in cubic feet");
    Ok(())
}

const PATTERNS: u64 = 1 << 32;

fn all_patterns() -> Vec<Patterns> {
    stepped(1)
}

fn stepped(step: u32) -> Vec<Patterns> {
    const BLOCK: u64 = 1 << 20;
    let block = |first: u64| Patterns {
        first: first as u32,
        step,
        count: BLOCK,
    };
    (0..PATTERNS)
        .step_by((BLOCK * u64::from(step)) as usize)
        .map(block)
        .collect()
}

/// Every thirty-first pattern, and all those beside the ends of an exponent, of
/// either sign, and beside the ends of what a reading may be.
fn sampled_patterns() -> Vec<Patterns> {
    const STEP: u32 = 31;
    const BESIDE: u32 = 1 << 11;
    const FRACTION_BITS: u32 = 23;
    let exponents = (0..1 << (32 - FRACTION_BITS)).map(|exponent: u32| exponent << FRACTION_BITS);
    let feet_ends = [
        MOST_FEET,
        LEAST_TEMPERATURE,
        MOST_TEMPERATURE,
        MOST_PRESSURE,
    ];
    let ends = [100_000.0, 100.0].into_iter().chain(feet_ends);
    let ends = ends.flat_map(|end| [end.to_bits(), (-end).to_bits()]);
    let beside = exponents.chain(ends).map(|pattern| Patterns {
        first: pattern.wrapping_sub(BESIDE),
        step: 1,
        count: 2 * u64::from(BESIDE),
    });
    beside.chain(stepped(STEP)).collect()
}

/// A herd large enough that each factor makes a degraded mass of its own, at
/// every temperature that two bytes can say.
fn temperatures(run: &Run) -> Result<u64, String> {
    let [temperatures, _] = run.on_workers(1 << 16, |sides, case, [temperatures, _]| {
        let tenths = case as u16 as i16;
        let mut records = vec![
            record(YR, &[2011, 1]),
            record(LN, &[1, 0, 1, 1_000, 6_000, 10_000, 24, 0]),
        ];
        for month in 1..=12 {
            records.push(record(HD, &[1, month, 100_000]));
            records.push(record(PE, &[month, 0, 0, 0]));
            records.push(record(TP, &[month, tenths.into()]));
        }
        let pieces: Vec<&[u8]> = records.iter().map(Record::as_slice).collect();
        let delivery = Delivery {
            offset: 0,
            watched: false,
            pieces: &pieces,
            years: &[1],
        };
        let delivered = sides
            .deliver(&delivery)
            .map_err(|difference| difference.what)?;
        let last = delivered.records[records.len() - 1].posted;
        temperatures.add(last.number, last.place);
        Ok(())
    })?;
    let taken = temperatures.count(0);
    let in_range = (-500..=600).count() as u64;
    if taken == in_range {
        Ok(taken)
    } else {
        Err(format!(
            "{taken} temperatures are taken, where the table has {in_range}"
        ))
    }
}

/// Every livestock with every state that a byte can say, as many to a book as
/// it has lines: so the two sides' tables are compared entry by entry, in the
/// bytes that the book keeps of an LD.
fn livestock(run: &Run) -> Result<u64, String> {
    let all: Vec<(i64, i64)> = (0..=255)
        .flat_map(|livestock| (0..=255).map(move |state| (livestock, state)))
        .collect();
    let books: Vec<&[(i64, i64)]> = all.chunks(LINES as usize).collect();
    let [pairs, _] = run.on_workers(books.len() as u64, |sides, book, [pairs, _]| {
        let book = books[book as usize];
        let records: Vec<Record> = (1..).zip(book).map(by_livestock).collect();
        let pieces: Vec<&[u8]> = records.iter().map(Record::as_slice).collect();
        let delivery = Delivery {
            offset: 0,
            watched: false,
            pieces: &pieces,
            years: &[],
        };
        let delivered = sides.deliver(&delivery).map_err(|difference| {
            let (first, last) = (book[0], book[book.len() - 1]);
            format!(
                "livestock and state {first:?} to {last:?}: {}",
                difference.what
            )
        })?;
        for told in &delivered.records {
            pairs.add(told.posted.number, told.posted.place);
        }
        Ok(())
    })?;
    let taken = pairs.count(0);
    let by_state = BY_STATE.len() as i64;
    let in_tables = (by_state * STATES + LIVESTOCK - by_state) as u64;
    if taken == in_tables {
        Ok(taken)
    } else {
        Err(format!(
            "{taken} pairs of livestock and state are taken, where the tables have {in_tables}"
        ))
    }
}

/// Lines whose other fields differ too, of either system.
fn by_livestock((line, &(livestock, state)): (i64, &(i64, i64))) -> Record {
    let system = line % 2;
    let category = (line + livestock) % CATEGORIES + 1;
    let share = 10_000 - 300 * line - state;
    let conversion = system * (39 * state + line);
    record(
        LD,
        &[line, system, category, livestock, state, share, conversion],
    )
}

/// A book whose delivery stops after any of its bytes and goes on from any
/// record before the stop: in the end the book and the years are those of the
/// delivery that never stopped.
fn cuts(run: &Run, seed: u64) -> Result<u64, String> {
    let extent = Extent {
        lines: 3,
        categories: 2,
        months: 12,
        devices: 1,
    };
    let delivered = joined(&whole(&mut Random::of_case(seed, 0), &extent));
    let unbroken = delivery_of(&mut run.sides()?, &pieces(&delivered).collect::<Vec<_>>())?;
    let [cuts, _] = run.on_workers(delivered.len() as u64 + 1, |sides, cut, [cuts, _]| {
        let cut = cut as usize;
        for again in 0..=cut / RECORD_BYTES {
            let before = pieces(&delivered[..cut]);
            let after = pieces(&delivered[again * RECORD_BYTES..]);
            let broken = delivery_of(sides, &before.chain(after).collect::<Vec<_>>())?;
            if broken.digest != unbroken.digest || broken.years != unbroken.years {
                return Err(format!(
                    "cut at byte {cut}, again from record {again}: another book"
                ));
            }
            cuts.add(0, 0);
        }
        Ok(())
    })?;
    Ok(cuts.count(0))
}

fn delivery_of(sides: &mut Sides, pieces: &[&[u8]]) -> Result<Delivered, String> {
    let delivery = Delivery {
        offset: 0,
        watched: false,
        pieces,
        years: &[1],
    };
    sides
        .deliver(&delivery)
        .map_err(|difference| difference.what)
}

/// Memory of a book's size at every offset, and of sizes that are none.
fn sizes(run: &Run) -> Result<usize, String> {
    let sizes = [
        0,
        1,
        RECORD_BYTES,
        4_096,
        BOOK_BYTES & 0xffff,
        1 << 16,
        BOOK_BYTES - RECORD_BYTES,
        BOOK_BYTES - 1,
        BOOK_BYTES,
        BOOK_BYTES + 1,
        BOOK_BYTES + RECORD_BYTES,
        1 << 17,
        2 * BOOK_BYTES,
    ];
    let mut sides = run.sides()?;
    for bytes in sizes {
        for offset in 0..RECORD_BYTES {
            sides.empty(offset, bytes)?;
        }
    }
    Ok(sizes.len() * RECORD_BYTES)
}

/// Writes the input of a difference out, and says where.
fn kept(program: &str, seed: u64, case: u64, difference: Difference) -> String {
    let root = Path::new(env!("CARGO_MANIFEST_DIR"))
        .parent()
        .expect("bench stands in the project");
    let folder = root.join("target").join("differs");
    let name = format!("{program}-seed-{seed}-case-{case}");
    let written = std::fs::create_dir_all(&folder)
        .and_then(|()| std::fs::write(folder.join(&name), &difference.input));
    let place = match written {
        Ok(()) => format!("target/differs/{name}"),
        Err(error) => format!("(not written: {error})"),
    };
    format!(
        "{program}, seed {seed}, case {case}: {}: {place}",
        difference.what
    )
}
