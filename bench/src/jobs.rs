//! What is measured. All of it goes through one function, which callgrind is told to
//! count in, so that nothing around it counts.

use crate::library::{self, Version, VERSIONS};
use crate::samples::{ample_nodes, ample_numbers, Part, Sample};
use std::hint::black_box;
use std::str::FromStr;
use wkt::Wkt;

/// The function's name, for callgrind.
pub const MEASURED: &str = "measured";

#[derive(Clone, Copy, Debug, PartialEq, Eq, Hash)]
pub enum Work {
    /// The proved reader, with exactly the rows that the text needs.
    Exact,
    /// The proved reader, with the rows that any text could need. It clears those that
    /// it doesn't use.
    Ample,
    /// The proved reader without rows, on the text with an ill-formed last byte: it ends
    /// after its UTF-8 check.
    Utf8,
    /// The proved writer, into a room that the canonical text fits exactly.
    Write,
    /// The proved writer without room: it checks the whole store, puts nothing, and answers 23.
    Check,
    /// The proved reader of stored bytes, with exactly the rows that the tree needs.
    Kept(Version),
    /// The proved writer of stored bytes, into a room that they fit exactly.
    Keep(Version),
    /// The proved move of stored bytes from this version to the other, with exactly the rows and
    /// the room that the tree needs.
    Move(Version),
    /// The same by two entries: the proved reader of this version, then the other one's writer.
    ByTwo(Version),
    /// The proved boxes of the text's rows, into a table of exactly as many rows as nodes.
    Boxes,
    /// The Rust's reader. Its tree is freed, and that counts.
    Rust,
    /// The standard library's UTF-8 check, which a `str` has behind it.
    RustUtf8,
    /// The standard library's `f64` from every number text, as the Rust's reader asks it.
    RustDoubles,
}

pub const WORKS: [Work; 17] = [
    Work::Exact,
    Work::Ample,
    Work::Utf8,
    Work::Write,
    Work::Check,
    Work::Kept(Version::One),
    Work::Keep(Version::One),
    Work::Kept(Version::Two),
    Work::Keep(Version::Two),
    Work::Move(Version::One),
    Work::ByTwo(Version::One),
    Work::Move(Version::Two),
    Work::ByTwo(Version::Two),
    Work::Boxes,
    Work::Rust,
    Work::RustUtf8,
    Work::RustDoubles,
];

impl Work {
    pub fn name(self) -> &'static str {
        match self {
            Work::Exact => "exact",
            Work::Ample => "ample",
            Work::Utf8 => "utf8",
            Work::Write => "write",
            Work::Check => "check",
            Work::Kept(Version::One) => "kept",
            Work::Keep(Version::One) => "keep",
            Work::Kept(Version::Two) => "kept-2",
            Work::Keep(Version::Two) => "keep-2",
            Work::Move(Version::One) => "move",
            Work::ByTwo(Version::One) => "by-two",
            Work::Move(Version::Two) => "move-back",
            Work::ByTwo(Version::Two) => "by-two-back",
            Work::Boxes => "boxes",
            Work::Rust => "rust",
            Work::RustUtf8 => "rust-utf8",
            Work::RustDoubles => "rust-doubles",
        }
    }

    pub fn named(name: &str) -> Option<Work> {
        WORKS.into_iter().find(|work| work.name() == name)
    }

    /// A refused text has nothing to write, to check or to move, and no boxes; a tree may be too
    /// large for a version of the stored form.
    pub fn applies_to(self, sample: &Sample) -> bool {
        match self {
            Work::Write | Work::Check | Work::Boxes => sample.is_accepted(),
            Work::Keep(version) => sample.is_accepted() && sample.stored(version).is_some(),
            Work::Kept(version) => sample.stored(version).is_some(),
            Work::Move(_) | Work::ByTwo(_) => {
                let fits = |version| sample.stored(version).is_some();
                sample.is_accepted() && VERSIONS.into_iter().all(fits)
            }
            _ => true,
        }
    }

    /// What it takes of a sample beside the text and its rows.
    pub fn parts(self) -> Vec<Part> {
        match self {
            Work::Write | Work::Check => vec![Part::Canonical],
            Work::Kept(version) | Work::Keep(version) => vec![Part::Stored(version)],
            Work::Move(_) | Work::ByTwo(_) => VERSIONS.map(Part::Stored).to_vec(),
            Work::Boxes => vec![Part::Boxes],
            _ => Vec::new(),
        }
    }

    /// The bytes that an amount is divided by: those of the canonical text for the writer
    /// and its check, the stored bytes for their writer, those that are read for a move, else
    /// those of the text, also for the reader of the stored bytes that were made from it.
    pub fn bytes_of(self, sample: &Sample) -> usize {
        match self {
            Work::Write | Work::Check => sample.canonical.len(),
            Work::Keep(version) | Work::Move(version) | Work::ByTwo(version) => {
                sample.stored(version).map_or(0, <[u8]>::len)
            }
            _ => sample.text.len(),
        }
    }
}

/// A work with all that it needs, so that measuring it allocates nothing of our own. The
/// slices keep what the last call left in them: nobody clears them between calls.
pub struct Job<'a> {
    work: Work,
    text: &'a str,
    bytes: Vec<u8>,
    nodes: Vec<u32>,
    numbers: Vec<u32>,
    number_texts: Vec<&'a str>,
    out: Vec<u8>,
    table: Vec<i64>,
    expected: u64,
}

impl<'a> Job<'a> {
    pub fn new(work: Work, sample: &'a Sample) -> Self {
        let (nodes, numbers) = rows_lent(work, sample);
        Job {
            work,
            text: &sample.text,
            bytes: bytes_read(work, sample),
            nodes,
            numbers,
            number_texts: sample.number_texts(),
            out: room_lent(work, sample),
            table: sample.boxes.clone(),
            expected: expected_number(work, sample),
        }
    }

    /// Does the work once.
    ///
    /// # Panics
    ///
    /// Panics if the answer isn't the one found when the readers were compared.
    pub fn run(&mut self) {
        let number = measured(self);
        assert_eq!(
            number,
            self.expected,
            "{} answers otherwise",
            self.work.name()
        );
    }
}

fn rows_lent(work: Work, sample: &Sample) -> (Vec<u32>, Vec<u32>) {
    match work {
        Work::Ample => (
            vec![1; ample_nodes(sample.size)],
            vec![1; ample_numbers(sample.size)],
        ),
        Work::Utf8 | Work::Rust | Work::RustUtf8 | Work::RustDoubles => (Vec::new(), Vec::new()),
        _ => (sample.nodes.clone(), sample.numbers.clone()),
    }
}

fn room_lent(work: Work, sample: &Sample) -> Vec<u8> {
    match work {
        Work::Check => Vec::new(),
        Work::Keep(version) => stored_bytes(version, sample),
        Work::Move(from) | Work::ByTwo(from) => stored_bytes(from.other(), sample),
        _ => sample.canonical.clone(),
    }
}

fn stored_bytes(version: Version, sample: &Sample) -> Vec<u8> {
    sample.stored(version).unwrap_or_default().to_vec()
}

fn bytes_read(work: Work, sample: &Sample) -> Vec<u8> {
    if let Work::Kept(version) | Work::Move(version) | Work::ByTwo(version) = work {
        return stored_bytes(version, sample);
    }
    let mut bytes = sample.text.clone().into_bytes();
    if let (Work::Utf8, Some(last)) = (work, bytes.last_mut()) {
        *last = 0xFF;
    }
    bytes
}

/// The number that `measured` must answer: document 01's, and 1 for a refusal by Rust.
fn expected_number(work: Work, sample: &Sample) -> u64 {
    match work {
        Work::Exact | Work::Ample => sample.answer.number,
        Work::Utf8 => 2,
        Work::Check => 23,
        Work::Kept(_) if !sample.is_accepted() => 22,
        Work::Rust => u64::from(!sample.is_accepted()),
        Work::Kept(_) | Work::Keep(_) | Work::Write | Work::Boxes => 0,
        Work::Move(_) | Work::ByTwo(_) => 0,
        Work::RustUtf8 | Work::RustDoubles => 0,
    }
}

#[inline(never)]
#[no_mangle]
fn measured(job: &mut Job) -> u64 {
    match job.work {
        Work::Exact | Work::Ample | Work::Utf8 => {
            library::read(&job.bytes, &mut job.nodes, &mut job.numbers).number
        }
        Work::Write | Work::Check => {
            library::write(&job.bytes, &job.nodes, &job.numbers, &mut job.out).number
        }
        Work::Kept(version) => {
            library::read_stored(version, &job.bytes, &mut job.nodes, &mut job.numbers).number
        }
        Work::Keep(version) => {
            library::write_stored(version, &job.bytes, &job.nodes, &job.numbers, &mut job.out)
                .number
        }
        Work::Move(from) => library::move_stored(
            from,
            &job.bytes,
            &mut job.nodes,
            &mut job.numbers,
            &mut job.out,
        ),
        Work::ByTwo(from) => moved_by_two(from, job),
        Work::Boxes => library::boxes(&job.bytes, &job.nodes, &job.numbers, &mut job.table),
        Work::Rust => u64::from(Wkt::<f64>::from_str(job.text).is_err()),
        Work::RustUtf8 => u64::from(std::str::from_utf8(&job.bytes).is_err()),
        Work::RustDoubles => {
            let read = |text: &&str| black_box(f64::from_str(text)).is_err();
            u64::from(job.number_texts.iter().any(read))
        }
    }
}

/// The number of the reader's refusal, or of the writer's, or 0.
fn moved_by_two(from: Version, job: &mut Job) -> u64 {
    let read = library::read_stored(from, &job.bytes, &mut job.nodes, &mut job.numbers);
    if read.number != 0 {
        return read.number;
    }
    let [nodes, numbers] = [&job.nodes, &job.numbers];
    library::write_stored(from.other(), &job.bytes, nodes, numbers, &mut job.out).number
}
