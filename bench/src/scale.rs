//! Whether the work grows as the text does: instructions per byte of the same kinds of text at
//! sizes up to the longest that the reader takes, and the times beside the Rust.

use crate::jobs::Work;
use crate::library::Version;
use crate::measure::{nanoseconds, rounds_of, Counter};
use crate::samples::Sample;
use crate::tables::{amount, head, row, title, NOTHING};
use crate::texts::{Kind, KINDS, LIMIT};

const SIZES: [usize; 4] = [65_536, 262_144, 1_048_576, LIMIT];
const SIZE_NAMES: [&str; 4] = ["64 KiB", "256 KiB", "1 MiB", "4 MiB"];

const COUNTED: [(Work, &str); 8] = [
    (Work::Exact, "reading"),
    (Work::Write, "writing"),
    (Work::Keep(Version::One), "stored writing, version 1"),
    (Work::Keep(Version::Two), "stored writing, version 2"),
    (Work::Kept(Version::One), "stored reading, version 1"),
    (Work::Kept(Version::Two), "stored reading, version 2"),
    (Work::Move(Version::One), "move from version 1 to 2"),
    (Work::Move(Version::Two), "move from version 2 to 1"),
];

const TIMED: [Work; 7] = [
    Work::Exact,
    Work::Rust,
    Work::Write,
    Work::Keep(Version::Two),
    Work::Kept(Version::Two),
    Work::Move(Version::One),
    Work::Move(Version::Two),
];

/// The most that an amount may be off from that of the first size.
const AIM: f64 = 0.05;

/// A text at each size.
type Samples = [Sample; SIZES.len()];

/// How far the amounts of one work are off from that of the first size.
struct Off {
    most: f64,
    work: &'static str,
}

pub fn print() -> Result<(), String> {
    let mut all = Vec::new();
    for kind in KINDS {
        all.push(samples_of(kind)?);
    }
    print_sizes(&all);
    print_counts(&all)?;
    print_times(&all);
    Ok(())
}

fn samples_of(kind: Kind) -> Result<Samples, String> {
    let [a, b, c, d] = SIZES.map(|size| Sample::compared(kind, size));
    Ok([a?, b?, c?, d?])
}

fn name_of(samples: &Samples) -> String {
    samples[0].kind.name().to_string()
}

fn print_sizes(all: &[Samples]) {
    title("The texts of the scale. Both readers answer the same");
    head(&[
        "text",
        "bytes",
        "nodes",
        "numbers",
        "stored bytes, version 2",
    ]);
    for sample in all.iter().flatten() {
        let stored = sample.stored(Version::Two);
        row(&[
            sample.kind.name().to_string(),
            sample.text.len().to_string(),
            sample.node_count().to_string(),
            sample.number_count().to_string(),
            stored.map_or(NOTHING.to_string(), |bytes| bytes.len().to_string()),
        ]);
    }
}

/// The amounts of every text, and how far each text is off at most.
fn print_counts(all: &[Samples]) -> Result<(), String> {
    title("Instructions per byte as texts grow: of readings per byte of the text, of writings per byte written, of moves per stored byte read");
    let mut heads = vec!["text", "work"];
    heads.extend(SIZE_NAMES);
    heads.push("most off from 64 KiB");
    head(&heads);
    let mut counter = Counter::default();
    let mut most = Vec::new();
    for samples in all {
        most.push(print_counts_of(samples, &mut counter)?);
    }
    title("The most that a text is off from 64 KiB");
    head(&["text", "off", "by", "within 5 %"]);
    for (samples, off) in all.iter().zip(most) {
        let within = if off.most <= AIM { "yes" } else { "no" };
        row(&[
            name_of(samples),
            per_cent(off.most),
            off.work.to_string(),
            within.to_string(),
        ]);
    }
    Ok(())
}

/// The rows of one text, and the work that is off most.
fn print_counts_of(samples: &Samples, counter: &mut Counter) -> Result<Off, String> {
    let mut worst = Off {
        most: 0.0,
        work: NOTHING,
    };
    for (work, name) in COUNTED {
        let counts = counts_of(work, samples, counter)?;
        let most = most_off(&counts);
        let mut cells = vec![name_of(samples), name.to_string()];
        cells.extend(counts.iter().map(|count| shown(*count)));
        cells.push(most.map_or(NOTHING.to_string(), per_cent));
        row(&cells);
        if let Some(most) = most.filter(|most| *most > worst.most) {
            worst = Off { most, work: name };
        }
    }
    Ok(worst)
}

/// The count at each size, where the work applies to the text.
fn counts_of(
    work: Work,
    samples: &Samples,
    counter: &mut Counter,
) -> Result<Vec<Option<f64>>, String> {
    let count = |sample: &Sample| match work.applies_to(sample) {
        true => counter.instructions(work, sample).map(Some),
        false => Ok(None),
    };
    samples.iter().map(count).collect()
}

/// How far later amounts are off from the first, where there are any.
fn most_off(counts: &[Option<f64>]) -> Option<f64> {
    let (first, later) = counts.split_first()?;
    let first = (*first)?;
    let off = later
        .iter()
        .flatten()
        .map(|count| (count / first - 1.0).abs());
    off.reduce(f64::max)
}

fn shown(value: Option<f64>) -> String {
    value.map_or(NOTHING.to_string(), amount)
}

fn per_cent(value: f64) -> String {
    format!("{:.1} %", 100.0 * value)
}

fn print_times(all: &[Samples]) {
    let [few, many] = [SIZES[SIZES.len() - 1], SIZES[0]].map(rounds_of);
    title(&format!(
        "Nanoseconds per byte as texts grow, the least of {many} runs at 64 KiB and of {few} at 4 MiB"
    ));
    head(&[
        "text",
        "size",
        "reading",
        "Rust",
        "reading ÷ Rust",
        "writing",
        "stored writing, version 2",
        "stored reading, version 2",
        "move from version 1 to 2",
        "move from version 2 to 1",
    ]);
    for samples in all {
        for (sample, size) in samples.iter().zip(SIZE_NAMES) {
            print_times_of(sample, size);
        }
    }
}

fn print_times_of(sample: &Sample, size: &str) {
    let works = TIMED.into_iter();
    let works: Vec<Work> = works.filter(|work| work.applies_to(sample)).collect();
    let times = nanoseconds(&works, sample);
    let of = |work: Work| {
        let place = works.iter().position(|one| *one == work)?;
        Some(times[place])
    };
    let [reading, rust, others @ ..] = TIMED.map(of);
    let ratio = reading.zip(rust).map(|(ours, theirs)| ours / theirs);
    let mut cells = vec![sample.kind.name().to_string(), size.to_string()];
    cells.extend([reading, rust, ratio].map(shown));
    cells.extend(others.map(shown));
    row(&cells);
}
