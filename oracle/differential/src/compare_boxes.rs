//! Boxes beside the envelopes of GEOS, on real shapes: for each text the model's boxes, and those
//! of the proved program if it is there, are held to what GEOS says of each node.
//!
//! GEOS has doubles: it reads each number to the nearest one. So the number itself lies between
//! the neighbours of GEOS's double, and the box's side, which is the number rounded outward to a
//! unit, between those neighbours rounded outward. All of that is exact: a double is a whole
//! number over a power of two. Where both neighbours round to one unit, no choice is left.

use crate::boxes::{self, Row, ROW_PLACES};
use crate::cases::Case;
use crate::check::{check, Fault, Tally};
use crate::model::{self, Limits};
use crate::replay::Replay;
use crate::stores::MAX_DEPTH;
use driver::record::{Request, Rows, MAX_SLICE, MAX_TEXT};
use std::path::{Path, PathBuf};
use std::{fs, io};

const UNITS_IN_ONE: i128 = 10_000_000;

/// Low X, high X, low Y, high Y of a node; nothing where it is empty.
type Envelope = Option<[f64; 4]>;

#[derive(Clone, Copy, Debug, Default)]
struct Counts {
    shapes: usize,
    nodes: usize,
    numbers: usize,
    /// Sides that are GEOS's double rounded outward, and sides where the number lies beyond a
    /// unit that its double doesn't reach, or the other way round.
    same_sides: usize,
    other_sides: usize,
    /// Shapes that the proved program answered, and those that no record can hold.
    answered: usize,
    too_large: usize,
    /// Texts that GEOS doesn't read, as those of rings that aren't closed.
    unread: usize,
}

impl Counts {
    fn add(&mut self, other: Counts) {
        self.shapes += other.shapes;
        self.nodes += other.nodes;
        self.numbers += other.numbers;
        self.same_sides += other.same_sides;
        self.other_sides += other.other_sides;
        self.answered += other.answered;
        self.too_large += other.too_large;
        self.unread += other.unread;
    }

    fn line(&self) -> String {
        let Counts {
            shapes,
            nodes,
            numbers,
            ..
        } = self;
        format!("{shapes} shapes, {nodes} nodes, {numbers} numbers")
    }
}

/// A text that was read, with its boxes.
struct Shape<'text> {
    text: &'text str,
    rows: Rows,
    table: Vec<Row>,
}

/// Compares the texts of files, a line each; false after the first difference, which is printed.
pub fn compare(geos: &Path, program: Option<&Replay>, files: &[PathBuf]) -> io::Result<bool> {
    let geos = Replay::new(geos, &[]);
    let mut all = Counts::default();
    for file in files {
        let name = file.file_name().unwrap_or_default().display();
        match compare_file(&geos, program, file)? {
            Ok(counts) => {
                println!("{name}: {}", counts.line());
                all.add(counts);
            }
            Err(difference) => {
                println!("{name}: {difference}");
                return Ok(false);
            }
        }
    }
    print_all(&all, program.is_some());
    Ok(true)
}

fn print_all(all: &Counts, is_by_program: bool) {
    let (same, other) = (all.same_sides, all.other_sides);
    println!("all: {}: no difference", all.line());
    println!("   {same} sides are GEOS's double rounded outward, {other} are one unit beside it");
    println!("   {} more texts aren't read by GEOS", all.unread);
    if is_by_program {
        let (answered, too_large) = (all.answered, all.too_large);
        println!("   {answered} texts by the program too, {too_large} are too large for a record");
    }
}

fn compare_file(
    geos: &Replay,
    program: Option<&Replay>,
    file: &Path,
) -> io::Result<Result<Counts, String>> {
    let contents = fs::read_to_string(file)?;
    let lines: Vec<&str> = contents.lines().filter(|line| !line.is_empty()).collect();
    let shapes = lines.iter().map(|line| shape(line));
    let shapes: Vec<Shape> = match shapes.collect() {
        Ok(shapes) => shapes,
        Err(refusal) => return Ok(Err(refusal)),
    };
    let stream = lines.join("\n") + "\n";
    let replies = geos.answer(stream.as_bytes())?;
    let envelopes = replies.lines();
    if !replies.status.success() || envelopes.len() != lines.len() {
        return Err(io::Error::other("GEOS's program ended too early"));
    }
    let mut counts = match beside_envelopes(&shapes, &envelopes) {
        Ok(counts) => counts,
        Err(difference) => return Ok(Err(difference)),
    };
    if let Some(program) = program {
        if let Some(difference) = by_program(program, &shapes)? {
            return Ok(Err(difference));
        }
        counts.answered = shapes.iter().filter(|shape| has_record(shape)).count();
        counts.too_large = shapes.len() - counts.answered;
    }
    Ok(Ok(counts))
}

/// What the model makes of a text.
fn shape(text: &str) -> Result<Shape<'_>, String> {
    let refused = |what: &str, number, place| {
        let start: String = text.chars().take(60).collect();
        format!("{what} refuses {start:?}: {number} at {place}")
    };
    let limits = Limits {
        depth: MAX_DEPTH,
        ..Limits::NONE
    };
    let store = model::read(text, limits)
        .map_err(|refusal| refused("the reader", refusal.number, refusal.place))?;
    let spans = store.numbers.iter();
    let spans = spans.flat_map(|span| [span.start as u32, span.length as u32]);
    let rows = Rows {
        nodes: store.nodes.concat(),
        numbers: spans.collect(),
    };
    let table = boxes::table(text.as_bytes(), &rows, ROW_PLACES * store.nodes.len())
        .map_err(|refusal| refused("the box", refusal.number(), refusal.place))?;
    Ok(Shape { text, rows, table })
}

fn beside_envelopes(shapes: &[Shape], lines: &[&[u8]]) -> Result<Counts, String> {
    let mut counts = Counts::default();
    for (shape, line) in shapes.iter().zip(lines) {
        let Some(envelopes) = envelopes(line) else {
            counts.unread += 1;
            continue;
        };
        if envelopes.len() != shape.table.len() {
            let (ours, theirs) = (shape.table.len(), envelopes.len());
            return Err(format!("{ours} nodes, of GEOS {theirs}"));
        }
        for (row, envelope) in shape.table.iter().zip(&envelopes) {
            let same = same_sides(row, envelope)
                .ok_or_else(|| format!("the box is {row:?}, of GEOS {envelope:?}"))?;
            counts.same_sides += same;
            counts.other_sides += envelope.map_or(0, |sides| sides.len()) - same;
        }
        counts.shapes += 1;
        counts.nodes += shape.table.len();
        counts.numbers += shape.rows.numbers.len() / 2;
    }
    Ok(counts)
}

/// A line of GEOS's program: a node each, the bits of its doubles in hex.
fn envelopes(line: &[u8]) -> Option<Vec<Envelope>> {
    let line = std::str::from_utf8(line).ok()?;
    let nodes = line.split(' ').map(|node| {
        if node == "empty" {
            return Some(None);
        }
        let bits = node.split(',').map(|hex| u64::from_str_radix(hex, 16));
        let sides: Vec<f64> = bits
            .map(|bits| bits.map(f64::from_bits))
            .collect::<Result<_, _>>()
            .ok()?;
        sides.try_into().ok().map(Some)
    });
    nodes.collect()
}

/// How many sides of a box are GEOS's double rounded outward; nothing if the box isn't one that
/// a shape with this envelope can have.
fn same_sides(row: &Row, envelope: &Envelope) -> Option<usize> {
    let Some([low_x, high_x, low_y, high_y]) = envelope else {
        return (*row == [0; ROW_PLACES]).then_some(0);
    };
    let sides = [
        is_side(row[1], *low_x, floor_in_units)?,
        is_side(row[2], *high_x, ceiling_in_units)?,
        is_side(row[3], *low_y, floor_in_units)?,
        is_side(row[4], *high_y, ceiling_in_units)?,
    ];
    let is_box = row[0] == 1;
    is_box.then(|| sides.iter().filter(|is_same| **is_same).count())
}

/// Whether the side is the double rounded; nothing where no number that is read to that double
/// rounds to the side, or where it is more than one unit beside it.
fn is_side(side: i64, double: f64, rounded: fn(f64) -> i128) -> Option<bool> {
    let side = i128::from(side);
    let may_be = rounded(double.next_down())..=rounded(double.next_up());
    let is_near = (side - rounded(double)).abs() <= 1;
    (may_be.contains(&side) && is_near).then_some(side == rounded(double))
}

/// The greatest whole number of units that isn't above a double, exactly.
fn floor_in_units(double: f64) -> i128 {
    const FRACTION_BITS: u32 = 52;
    let bits = double.to_bits();
    let fraction = i128::from(bits & ((1 << FRACTION_BITS) - 1));
    let exponent = (bits >> FRACTION_BITS) as i32 & 0x7ff;
    // The double is mantissa × 2^power.
    let (mantissa, power) = match exponent {
        0 => (fraction, -1_074),
        _ => (fraction | 1 << FRACTION_BITS, exponent - 1_075),
    };
    let units = UNITS_IN_ONE
        * if double.is_sign_negative() {
            -mantissa
        } else {
            mantissa
        };
    match power {
        // A right shift of a negative number rounds down too; after 127 only the sign is left.
        ..0 => units >> (-power).min(127),
        _ => panic!("{double} is too large for a box"),
    }
}

fn ceiling_in_units(double: f64) -> i128 {
    -floor_in_units(-double)
}

fn has_record(shape: &Shape) -> bool {
    let most = MAX_SLICE as usize;
    let Rows { nodes, numbers } = &shape.rows;
    let slices_fit = nodes.len() <= most && numbers.len() <= most;
    slices_fit && shape.text.len() <= MAX_TEXT && ROW_PLACES * shape.table.len() <= most
}

/// What the program answers otherwise than the model, if anything.
fn by_program(program: &Replay, shapes: &[Shape]) -> io::Result<Option<String>> {
    let shapes: Vec<&Shape> = shapes.iter().filter(|shape| has_record(shape)).collect();
    let cases = shapes.iter().map(|shape| Case {
        request: Request::Boxes {
            table: (ROW_PLACES * shape.table.len()) as u32,
            rows: shape.rows.clone(),
        },
        text: shape.text.as_bytes().to_vec(),
    });
    let cases: Vec<Case> = cases.collect();
    let difference = match check(program, &cases, &mut Tally::new())? {
        None => None,
        Some(Fault::Different(index)) => {
            let start: String = shapes[index].text.chars().take(60).collect();
            Some(format!("the program has another box of {start:?}"))
        }
        Some(Fault::Broken(message)) => Some(message),
    };
    Ok(difference)
}

#[cfg(test)]
mod tests {
    use super::*;

    #[test]
    fn doubles_are_rounded_exactly() {
        for (double, floor, ceiling) in [
            (0.0, 0, 0),
            (-0.0, 0, 0),
            (1.0, 10_000_000, 10_000_000),
            (-1.5, -15_000_000, -15_000_000),
            // The double of 0.1 is above it, that of 0.3 below it.
            (0.1, 1_000_000, 1_000_001),
            (-0.1, -1_000_001, -1_000_000),
            (0.3, 2_999_999, 3_000_000),
            (-0.3, -3_000_000, -2_999_999),
            (f64::MIN_POSITIVE, 0, 1),
            (-f64::MIN_POSITIVE, -1, 0),
            (5e-324, 0, 1),
            (-5e-324, -1, 0),
            (1e10, 100_000_000_000_000_000, 100_000_000_000_000_000),
        ] {
            assert_eq!(floor_in_units(double), floor, "{double}");
            assert_eq!(ceiling_in_units(double), ceiling, "{double}");
        }
    }

    #[test]
    fn a_side_lies_where_the_number_may_lie() {
        // 0.3 is 3,000,000 units, though its double is below that.
        assert_eq!(is_side(3_000_000, 0.3, floor_in_units), Some(false));
        assert_eq!(is_side(2_999_999, 0.3, floor_in_units), Some(true));
        assert_eq!(is_side(2_999_998, 0.3, floor_in_units), None);
        assert_eq!(is_side(3_000_001, 0.3, floor_in_units), None);
        // Far from a whole unit there is no choice.
        assert_eq!(is_side(12_345_678, 1.23456785, floor_in_units), Some(true));
        assert_eq!(is_side(12_345_677, 1.23456785, floor_in_units), None);
        assert_eq!(is_side(12_345_679, 1.23456785, floor_in_units), None);
        assert_eq!(
            is_side(12_345_679, 1.23456785, ceiling_in_units),
            Some(true)
        );
        assert_eq!(is_side(12_345_678, 1.23456785, ceiling_in_units), None);
    }

    #[test]
    fn lines_of_envelopes() {
        let line = b"3ff0000000000000,3ff0000000000000,c000000000000000,4000000000000000 empty";
        let expected = vec![Some([1.0, 1.0, -2.0, 2.0]), None];
        assert_eq!(envelopes(line), Some(expected));
        assert_eq!(envelopes(b"refused"), None);
    }

    #[test]
    fn boxes_of_a_text_beside_its_envelopes() {
        let shapes = [shape("MULTIPOINT(0.3 -2,1 2)").expect("it has a box")];
        let nodes = [
            [0.3, 1.0, -2.0, 2.0],
            [0.3, 0.3, -2.0, -2.0],
            [1.0, 1.0, 2.0, 2.0],
        ];
        let line = |nodes: &[[f64; 4]]| {
            let nodes = nodes.iter().map(|sides| {
                let sides = sides.map(|side| format!("{:016x}", side.to_bits()));
                sides.join(",")
            });
            nodes.collect::<Vec<_>>().join(" ").into_bytes()
        };
        let right = line(&nodes);
        let counts = beside_envelopes(&shapes, &[&right]).expect("they agree");
        assert_eq!((counts.nodes, counts.numbers), (3, 4));
        assert_eq!((counts.same_sides, counts.other_sides), (10, 2));
        let mut wrong = nodes;
        wrong[2][1] = 1.0000002;
        let wrong = line(&wrong);
        assert!(beside_envelopes(&shapes, &[&wrong]).is_err());
        let fewer = line(&nodes[..2]);
        assert!(beside_envelopes(&shapes, &[&fewer]).is_err());
    }
}
