//! The tables, in Markdown, as docs/PERFORMANCE.md has them.

use crate::boxes;
use crate::jobs::Work;
use crate::library::{Version, VERSIONS};
use crate::measure::{nanoseconds, Counter, ROUNDS};
use crate::moves;
use crate::others::{self, Other, Outcome};
use crate::samples::{ample_nodes, ample_numbers, Sample};
use crate::texts::{Kind, KINDS, USUAL};
use std::path::Path;

/// The sizes at which growth is looked at. The last is one byte short of 64 KiB.
const SIZES: [usize; 4] = [1_024, 4_096, 16_384, USUAL];

/// What a table has where there is nothing to measure.
pub const NOTHING: &str = "-";

/// The answers compared, and the instructions of the reading.
pub fn quick() -> Result<(), String> {
    let samples = all_of_size(USUAL)?;
    print_texts(&samples);
    print_reading(&samples, &mut Counter::default())
}

/// Everything.
pub fn full(others: &Path) -> Result<(), String> {
    let samples = all_of_size(USUAL)?;
    let mut counter = Counter::default();
    print_texts(&samples);
    print_reading(&samples, &mut counter)?;
    print_shares(&samples, &mut counter)?;
    print_stored(&samples, &mut counter)?;
    print_times(&samples);
    print_stored_times(&samples);
    moves::print(&samples, &mut counter)?;
    boxes::print(&samples, &mut counter, others::geos(others)?.as_ref())?;
    print_growth(&mut counter)?;
    let (found, missing) = others::built(others)?;
    for other in found {
        print_other(&other, &samples, &mut counter)?;
    }
    for title in missing {
        println!("\n{title} is skipped: its headers aren't installed.");
    }
    Ok(())
}

fn all_of_size(size: usize) -> Result<Vec<Sample>, String> {
    let samples = KINDS.into_iter().map(|kind| Sample::compared(kind, size));
    samples.collect()
}

fn print_texts(samples: &[Sample]) {
    title("The texts. Both readers answer the same");
    head(&["text", "bytes", "nodes", "numbers", "answer"]);
    for sample in samples {
        row(&[
            sample.kind.name().to_string(),
            sample.text.len().to_string(),
            sample.node_count().to_string(),
            sample.number_count().to_string(),
            answer_of(sample),
        ]);
    }
}

fn answer_of(sample: &Sample) -> String {
    match sample.answer.number {
        0 => "accepted".to_string(),
        number => format!("refused {number} at {}", sample.answer.place),
    }
}

fn print_reading(samples: &[Sample], counter: &mut Counter) -> Result<(), String> {
    title("Reading: instructions per byte");
    head(&READING_HEADS);
    for sample in samples {
        let mut counts = Vec::new();
        for work in READING {
            counts.push(counter.instructions(work, sample)?);
        }
        row(&reading_row(sample, &counts));
    }
    let [nodes, numbers] = [ample_nodes(USUAL), ample_numbers(USUAL)].map(|places| 4 * places);
    println!("\nAmple rows are {nodes} bytes for nodes and {numbers} for numbers.");
    Ok(())
}

const READING: [Work; 3] = [Work::Exact, Work::Ample, Work::Rust];
const READING_HEADS: [&str; 6] = [
    "text",
    "exact rows",
    "ample rows",
    "Rust",
    "exact ÷ Rust",
    "ample ÷ Rust",
];

/// A row for the amounts of `READING`.
fn reading_row(sample: &Sample, amounts: &[f64]) -> [String; 6] {
    let [exact, ample, rust] = [amounts[0], amounts[1], amounts[2]];
    [
        sample.kind.name().to_string(),
        amount(exact),
        amount(ample),
        amount(rust),
        amount(exact / rust),
        amount(ample / rust),
    ]
}

fn print_shares(samples: &[Sample], counter: &mut Counter) -> Result<(), String> {
    title("Parts of the reading, and the writing: instructions per byte");
    head(&[
        "text",
        "our UTF-8 check",
        "of exact rows",
        "Rust's `from_utf8`, not in its reading",
        "`f64`s alone, in the Rust's reading",
        "of Rust",
        "writing, per byte written",
        "its check alone",
    ]);
    for sample in samples {
        row(&shares_row(sample, counter)?);
    }
    Ok(())
}

fn shares_row(sample: &Sample, counter: &mut Counter) -> Result<[String; 8], String> {
    let mut count = |work: Work| counter.instructions(work, sample);
    let [utf8, doubles] = [count(Work::Utf8)?, count(Work::RustDoubles)?];
    Ok([
        sample.kind.name().to_string(),
        amount(utf8),
        share(utf8 / count(Work::Exact)?),
        amount(count(Work::RustUtf8)?),
        amount(doubles),
        share(doubles / count(Work::Rust)?),
        of_writing(Work::Write, sample, &mut count)?,
        of_writing(Work::Check, sample, &mut count)?,
    ])
}

/// An amount of the writer, where there is something to write.
fn of_writing(
    work: Work,
    sample: &Sample,
    count: &mut impl FnMut(Work) -> Result<f64, String>,
) -> Result<String, String> {
    match work.applies_to(sample) {
        true => Ok(amount(count(work)?)),
        false => Ok(NOTHING.to_string()),
    }
}

/// The stored form beside the text.
pub fn stored() -> Result<(), String> {
    let samples = all_of_size(USUAL)?;
    print_stored(&samples, &mut Counter::default())?;
    print_stored_times(&samples);
    Ok(())
}

const STORED: [Work; 6] = [
    Work::Exact,
    Work::Rust,
    Work::Kept(Version::One),
    Work::Kept(Version::Two),
    Work::Keep(Version::One),
    Work::Keep(Version::Two),
];
const STORED_HEADS: [&str; 8] = [
    "text",
    "version",
    "stored bytes",
    "reading the text",
    "reading the stored bytes",
    "stored ÷ text",
    "stored ÷ Rust",
    "writing, per byte written",
];

/// The works of `STORED` that there are for a text.
fn stored_works(sample: &Sample) -> Vec<Work> {
    let works = STORED.into_iter();
    works.filter(|work| work.applies_to(sample)).collect()
}

/// A row for each version, for the amounts of `stored_works`.
fn print_stored_rows(sample: &Sample, amounts: &[f64]) {
    let works = stored_works(sample);
    let found = |work| works.iter().position(|one| *one == work);
    let of = |work| found(work).map(|place| amounts[place]);
    let shown = |value: Option<f64>| value.map_or(NOTHING.to_string(), amount);
    let ratio = |a: Option<f64>, b: Option<f64>| Some(a? / b?);
    for version in VERSIONS {
        let stored = of(Work::Kept(version));
        row(&[
            sample.kind.name().to_string(),
            version.number().to_string(),
            sample.stored(version).map_or(0, <[u8]>::len).to_string(),
            shown(of(Work::Exact)),
            shown(stored),
            shown(ratio(stored, of(Work::Exact))),
            shown(ratio(stored, of(Work::Rust))),
            shown(of(Work::Keep(version))),
        ]);
    }
}

fn print_stored(samples: &[Sample], counter: &mut Counter) -> Result<(), String> {
    title("Stored trees: instructions, of the readings per byte of the text");
    head(&STORED_HEADS);
    for sample in samples {
        let works = stored_works(sample).into_iter();
        let counts = works.map(|work| counter.instructions(work, sample));
        print_stored_rows(sample, &counts.collect::<Result<Vec<f64>, String>>()?);
    }
    Ok(())
}

fn print_stored_times(samples: &[Sample]) {
    title(&format!(
        "Stored trees: nanoseconds, of the readings per byte of the text, the least of {ROUNDS} runs"
    ));
    head(&STORED_HEADS);
    for sample in samples {
        print_stored_rows(sample, &nanoseconds(&stored_works(sample), sample));
    }
}

/// The moves beside reading and writing by two entries.
pub fn moves() -> Result<(), String> {
    moves::print(&all_of_size(USUAL)?, &mut Counter::default())
}

/// The boxes beside the reading and GEOS's envelope.
pub fn boxes(others: &Path) -> Result<(), String> {
    let samples = all_of_size(USUAL)?;
    boxes::print(
        &samples,
        &mut Counter::default(),
        others::geos(others)?.as_ref(),
    )
}

/// The times of the reading, the writing and the moves.
pub fn times() -> Result<(), String> {
    let samples = all_of_size(USUAL)?;
    print_times(&samples);
    print_stored_times(&samples);
    moves::print_times(&samples);
    Ok(())
}

fn print_times(samples: &[Sample]) {
    title(&format!("Nanoseconds per byte, the least of {ROUNDS} runs"));
    let mut heads = READING_HEADS.to_vec();
    heads.push("writing, per byte written");
    head(&heads);
    for sample in samples {
        let mut works = READING.to_vec();
        works.extend(Some(Work::Write).filter(|work| work.applies_to(sample)));
        let times = nanoseconds(&works, sample);
        let writing = times.get(READING.len()).copied();
        let mut cells = reading_row(sample, &times).to_vec();
        cells.push(writing.map_or(NOTHING.to_string(), amount));
        row(&cells);
    }
}

fn print_growth(counter: &mut Counter) -> Result<(), String> {
    title("Instructions per byte of the reading with exact rows and of the Rust's, as texts grow");
    let sizes = SIZES.map(|size| format!("{} KiB", size.div_ceil(1_024)));
    let mut heads = vec!["text", "reader"];
    heads.extend(sizes.iter().map(String::as_str));
    heads.push("largest ÷ smallest");
    head(&heads);
    for kind in KINDS {
        for (work, reader) in [(Work::Exact, "proved"), (Work::Rust, "Rust")] {
            let mut cells = vec![kind.name().to_string(), reader.to_string()];
            cells.extend(growth_of(work, kind, counter)?.into_iter().map(amount));
            row(&cells);
        }
    }
    Ok(())
}

/// The instructions at each size, and the ratio of the last to the first.
fn growth_of(work: Work, kind: Kind, counter: &mut Counter) -> Result<Vec<f64>, String> {
    let mut counts = Vec::new();
    for size in SIZES {
        counts.push(counter.instructions(work, &Sample::compared(kind, size)?)?);
    }
    counts.push(counts[SIZES.len() - 1] / counts[0]);
    Ok(counts)
}

fn print_other(other: &Other, samples: &[Sample], counter: &mut Counter) -> Result<(), String> {
    title(&format!(
        "Beside {}: instructions and nanoseconds per byte",
        other.title
    ));
    head(&[
        "text",
        "its instructions",
        "exact ÷ it",
        "its ns",
        "exact ÷ it",
    ]);
    for sample in samples {
        let mut cells = vec![sample.kind.name().to_string()];
        cells.extend(beside(other, sample, counter)?);
        row(&cells);
    }
    Ok(())
}

/// The other's instructions and our ratio to them, its time and our ratio to that.
fn beside(other: &Other, sample: &Sample, counter: &mut Counter) -> Result<[String; 4], String> {
    let (counted, took) = match other.measure(sample)? {
        Outcome::Measured { counted, took } => (counted, took),
        Outcome::Left(why) => return Ok([why, NOTHING, NOTHING, NOTHING].map(String::from)),
    };
    let our_count = counter.instructions(Work::Exact, sample)?;
    let our_time = nanoseconds(&[Work::Exact], sample)[0];
    Ok([counted, our_count / counted, took, our_time / took].map(amount))
}

pub fn amount(value: f64) -> String {
    format!("{value:.2}")
}

pub fn share(value: f64) -> String {
    format!("{:.0} %", 100.0 * value)
}

pub fn title(text: &str) {
    println!("\n{text}:\n");
}

/// The first column holds words, the others amounts.
pub fn head(names: &[&str]) {
    println!("| {} |", names.join(" | "));
    println!("|---|{}", "---:|".repeat(names.len() - 1));
}

pub fn row(cells: &[String]) {
    println!("| {} |", cells.join(" | "));
}
