//! The boxes: what they take for a byte of number text, for a number and for a node, beside the
//! reading and GEOS's envelope of the whole geometry.

use crate::jobs::Work;
use crate::measure::{nanoseconds, Counter, ROUNDS};
use crate::others::{Other, Outcome};
use crate::samples::Sample;
use crate::tables::{amount, head, row, share, title, NOTHING};

const HEADS: [&str; 9] = [
    "text",
    "nodes",
    "bytes of number texts",
    "boxes",
    "boxes, per byte of number text",
    "boxes, per node",
    "reading and boxes",
    "GEOS's reading and envelope",
    "ours ÷ GEOS",
];

/// A text that has boxes, and what GEOS takes for it.
struct Line<'a> {
    sample: &'a Sample,
    geos: Outcome,
}

/// Instructions and times. A refused text has no boxes.
pub fn print(
    samples: &[Sample],
    counter: &mut Counter,
    geos: Option<&Other>,
) -> Result<(), String> {
    let mut lines = Vec::new();
    for sample in samples.iter().filter(|sample| sample.is_accepted()) {
        let geos = match geos {
            Some(geos) => geos.measure_envelope(sample)?,
            None => Outcome::Left(NOTHING),
        };
        lines.push(Line { sample, geos });
    }
    print_counts(&lines, counter)?;
    print_times(&lines);
    match geos {
        Some(geos) => println!("\nThis is {}.", geos.title),
        None => println!("\nGEOS is skipped: its headers aren't installed."),
    }
    Ok(())
}

fn print_counts(lines: &[Line], counter: &mut Counter) -> Result<(), String> {
    title("Boxes: instructions, per byte of the text where nothing else is said");
    head(&HEADS);
    let mut shares = Vec::new();
    for Line { sample, geos } in lines {
        let boxes = counter.instructions(Work::Boxes, sample)?;
        let reading = counter.instructions(Work::Exact, sample)?;
        let geos = match geos {
            Outcome::Measured { counted, .. } => Ok(*counted),
            Outcome::Left(why) => Err(*why),
        };
        row(&cells(sample, boxes, reading, geos));
        shares.push(parts_of(sample).map(|parts| parts / whole(boxes, sample)));
    }
    print_split(&shares);
    Ok(())
}

fn print_times(lines: &[Line]) {
    title(&format!(
        "Boxes: nanoseconds, per byte of the text where nothing else is said, the least of {ROUNDS} runs"
    ));
    head(&HEADS);
    for Line { sample, geos } in lines {
        let times = nanoseconds(&[Work::Boxes, Work::Exact], sample);
        let geos = match geos {
            Outcome::Measured { took, .. } => Ok(*took),
            Outcome::Left(why) => Err(*why),
        };
        row(&cells(sample, times[0], times[1], geos));
    }
}

/// A row for amounts per byte of the text.
fn cells(sample: &Sample, boxes: f64, reading: f64, geos: Result<f64, &str>) -> [String; 9] {
    let whole = whole(boxes, sample);
    let ours = reading + boxes;
    let (theirs, ratio) = match geos {
        Ok(theirs) => (amount(theirs), amount(ours / theirs)),
        Err(why) => (why.to_string(), NOTHING.to_string()),
    };
    [
        sample.kind.name().to_string(),
        sample.node_count().to_string(),
        sample.number_bytes().to_string(),
        amount(boxes),
        amount(whole / sample.number_bytes() as f64),
        amount(whole / sample.node_count() as f64),
        amount(ours),
        theirs,
        ratio,
    ]
}

fn whole(per_byte: f64, sample: &Sample) -> f64 {
    per_byte * sample.text.len() as f64
}

/// What the instructions are split into: bytes of number texts, numbers, nodes.
const PARTS: usize = 3;
type Parts = [f64; PARTS];

fn parts_of(sample: &Sample) -> Parts {
    [
        sample.number_bytes(),
        sample.number_count(),
        sample.node_count(),
    ]
    .map(|count| count as f64)
}

/// The split that comes nearest to the counts of all texts. A text's parts are divided by its
/// count, so that the split says 1 of them where it is right.
fn print_split(shares: &[Parts]) {
    let split = nearest_to_one(shares);
    let said = shares.iter().map(|parts| product(parts, &split));
    let off = said.map(|one| (one - 1.0).abs()).fold(0.0, f64::max);
    let [byte, number, node] = split.map(amount);
    println!(
        "\nThat is {byte} for a byte of number text, {number} for a number and {node} for a node, by \
         least squares: at most {} off.",
        share(off)
    );
}

/// The factors with which all parts come nearest to 1, by least squares.
fn nearest_to_one(shares: &[Parts]) -> Parts {
    let with_one = |[a, b, c]: &Parts| [*a, *b, *c, 1.0];
    let rows: Vec<[f64; PARTS + 1]> = shares.iter().map(with_one).collect();
    // The normal equations: one for each factor, with its right side last.
    let mut equations = [[0.0; PARTS + 1]; PARTS];
    for (i, equation) in equations.iter_mut().enumerate() {
        for (j, place) in equation.iter_mut().enumerate() {
            *place = rows.iter().map(|row| row[i] * row[j]).sum();
        }
    }
    for i in 0..PARTS {
        let solved = equations[i].map(|place| place / equations[i][i]);
        for equation in &mut equations {
            let times = equation[i];
            for (place, other) in equation.iter_mut().zip(solved) {
                *place -= times * other;
            }
        }
        equations[i] = solved;
    }
    equations.map(|equation| equation[PARTS])
}

fn product(a: &Parts, b: &Parts) -> f64 {
    a.iter().zip(b).map(|(a, b)| a * b).sum()
}
