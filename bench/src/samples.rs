//! A text with its rows, after both readers have answered the same.

use crate::library::{self, ReadAnswer, Version, VERSIONS};
use crate::texts::{Kind, LIMIT};
use driver::reader::{self, Reading, Tree};

/// Places of a node row, of a number row and of a box.
const NODE_WIDTH: usize = 3;
const NUMBER_WIDTH: usize = 2;
const BOX_WIDTH: usize = 5;

/// A box's sides are in ten-millionths.
const UNITS_IN_ONE: f64 = 1e7;

/// Places that every text of so many bytes has room in: a node takes 4 bytes of text at least
/// (`1 2,` in a multipoint), and a number 2.
pub const fn ample_nodes(size: usize) -> usize {
    NODE_WIDTH * (size / 4 + 1)
}

pub const fn ample_numbers(size: usize) -> usize {
    NUMBER_WIDTH * (size / 2 + 1)
}

/// The refusal of a tree that is too large for a version of the stored form.
const DOES_NOT_FIT: u64 = 27;

/// What a lent place holds before a call, so that a place that isn't written shows.
const UNCLEARED: u32 = 0xDEAD_BEEF;

pub struct Sample {
    pub kind: Kind,
    /// The text has at most so many bytes.
    pub size: usize,
    pub text: String,
    pub answer: ReadAnswer,
    /// The rows of the text, or of the accepted text that the refused one was made from.
    pub nodes: Vec<u32>,
    pub numbers: Vec<u32>,
    /// Empty if the text is refused.
    pub canonical: Vec<u8>,
    /// The stored bytes of the rows, of each version that they fit; if the text is refused, with
    /// a wrong last byte.
    stored: Vec<(Version, Vec<u8>)>,
    /// The boxes, a row for each node; empty if the text is refused.
    pub boxes: Vec<i64>,
}

/// What a sample may have beside its text and its rows. Each is made only where it is asked for.
#[derive(Clone, Copy, Debug, PartialEq, Eq)]
pub enum Part {
    Canonical,
    Stored(Version),
    Boxes,
}

const PARTS: [Part; 4] = [
    Part::Canonical,
    Part::Stored(Version::One),
    Part::Stored(Version::Two),
    Part::Boxes,
];

struct Rows {
    answer: ReadAnswer,
    nodes: Vec<u32>,
    numbers: Vec<u32>,
}

impl Sample {
    /// The text of this kind and size with all parts, or why it can't be measured.
    pub fn compared(kind: Kind, size: usize) -> Result<Sample, String> {
        let named = |why| format!("text {} of {size} bytes: {why}", kind.name());
        let sample = Sample::with(&PARTS, kind, size)?;
        sample.agree(&reader::read(&sample.text)).map_err(named)?;
        for version in VERSIONS {
            sample.agree_on_stored(version).map_err(named)?;
            sample.agree_on_move(version).map_err(named)?;
        }
        Ok(sample)
    }

    /// The text of this kind and size with these parts, not compared with anything.
    pub fn with(parts: &[Part], kind: Kind, size: usize) -> Result<Sample, String> {
        let text = kind.text(size);
        if text.len() > size.min(LIMIT) {
            return Err(format!("text {} is too long", kind.name()));
        }
        let rows = used_rows(&kind.accepted_text(size), size);
        let answer = read_with_room(&text, rows.nodes.len(), rows.numbers.len()).answer;
        let mut sample = Sample {
            kind,
            size,
            text,
            answer,
            nodes: rows.nodes,
            numbers: rows.numbers,
            canonical: Vec::new(),
            stored: Vec::new(),
            boxes: Vec::new(),
        };
        for part in parts {
            sample.make(*part)?;
        }
        Ok(sample)
    }

    /// A refused text has neither a canonical text nor boxes.
    fn make(&mut self, part: Part) -> Result<(), String> {
        match part {
            Part::Canonical if self.is_accepted() => self.canonical = self.canonical_text()?,
            Part::Boxes if self.is_accepted() => self.boxes = self.table_of_boxes()?,
            Part::Stored(version) => {
                let stored = self.written_as(version)?.map(|bytes| self.broken(bytes));
                self.stored.extend(stored.map(|bytes| (version, bytes)));
            }
            Part::Canonical | Part::Boxes => {}
        }
        Ok(())
    }

    /// The stored bytes, where the rows fit this version.
    pub fn stored(&self, version: Version) -> Option<&[u8]> {
        let mut all = self.stored.iter();
        let found = all.find(|(of, _)| *of == version);
        found.map(|(_, bytes)| bytes.as_slice())
    }

    fn agree(&self, rust: &Reading) -> Result<(), String> {
        match rust {
            Reading::Accepted(tree) => self.agree_on_tree(tree),
            Reading::Refused { numbers, .. } => self.agree_on_refusal(numbers),
        }
    }

    fn agree_on_tree(&self, tree: &Tree) -> Result<(), String> {
        let texts = tree.numbers.iter().map(|number| number.text.as_str());
        hold(!self.kind.is_refused(), "it should be refused")?;
        hold(self.is_accepted(), "the library refuses it")?;
        hold(
            self.nodes == tree.nodes.concat(),
            "the node rows aren't the Rust's",
        )?;
        hold(
            self.number_texts().into_iter().eq(texts),
            "the number texts aren't the Rust's",
        )?;
        let again = std::str::from_utf8(&self.canonical).map(reader::read);
        hold(
            again == Ok(Reading::Accepted(tree.clone())),
            "the Rust doesn't read the canonical text as it reads this one",
        )
    }

    /// The numbers are those of the Rust's message.
    fn agree_on_refusal(&self, numbers: &[u32]) -> Result<(), String> {
        let last = self.text.len() as u64 - 1;
        hold(self.kind.is_refused(), "it should be accepted")?;
        let is_the_rusts = |number: &u32| self.answer.number == u64::from(*number);
        hold(
            numbers.iter().any(is_the_rusts),
            "the refusal isn't the Rust's",
        )?;
        hold(
            self.answer.place == last,
            "it isn't refused at its last byte",
        )
    }

    /// The stored bytes have to be read back to the same rows and number texts, and to be written
    /// again from them.
    fn agree_on_stored(&self, version: Version) -> Result<(), String> {
        let Some(stored) = self.written_as(version)? else {
            return Ok(());
        };
        let text = self.kind.accepted_text(self.size);
        let Rows { nodes, numbers, .. } = self.rows_of_stored(version, &stored)?;
        hold(nodes == self.nodes, "the stored bytes have other nodes")?;
        let kept = numbers.chunks(NUMBER_WIDTH).map(|row| part(&stored, row));
        let mut pairs = kept.zip(self.numbers.chunks(NUMBER_WIDTH));
        hold(
            pairs.all(|(kept, read)| kept == part(text.as_bytes(), read)),
            "the stored bytes have other numbers",
        )?;
        let mut again = vec![0; stored.len()];
        let answer = library::write_stored(version, &stored, &nodes, &numbers, &mut again);
        hold(
            answer.number == 0 && again == stored,
            "they are written otherwise again",
        )
    }

    /// Stored bytes have to be moved to those of the other version, with the rows that their reader
    /// gives; or to be refused where the tree doesn't fit that version, with nothing left.
    fn agree_on_move(&self, from: Version) -> Result<(), String> {
        let Some(stored) = self.written_as(from)? else {
            return Ok(());
        };
        let expected = self.written_as(from.other())?;
        let mut nodes = vec![UNCLEARED; self.nodes.len()];
        let mut numbers = vec![UNCLEARED; self.numbers.len()];
        let mut out = vec![u8::MAX; expected.as_ref().map_or(stored.len(), Vec::len)];
        let number = library::move_stored(from, &stored, &mut nodes, &mut numbers, &mut out);
        let Some(expected) = expected else {
            let is_clear = is_zero(&nodes) && is_zero(&numbers) && is_zero(&out);
            return hold(
                number == DOES_NOT_FIT && is_clear,
                "a move to a version that it doesn't fit isn't refused, or leaves something",
            );
        };
        let read = self.rows_of_stored(from, &stored)?;
        hold(number == 0, "a move refuses its bytes")?;
        hold(out == expected, "a move writes other bytes")?;
        hold(
            nodes == read.nodes && numbers == read.numbers,
            "a move leaves other rows than the reader",
        )
    }

    /// What the stored reader makes of bytes that were written.
    fn rows_of_stored(&self, version: Version, stored: &[u8]) -> Result<Rows, String> {
        let mut nodes = vec![UNCLEARED; self.nodes.len()];
        let mut numbers = vec![UNCLEARED; self.numbers.len()];
        let answer = library::read_stored(version, stored, &mut nodes, &mut numbers);
        hold(answer.number == 0, "the stored reader refuses its bytes")?;
        Ok(Rows {
            answer,
            nodes,
            numbers,
        })
    }

    /// Whether the box of the whole is within a unit of an envelope of doubles: lowest and
    /// highest X, lowest and highest Y. A double is far closer to its number than that.
    pub fn agree_on_envelope(&self, envelope: &[f64]) -> Result<(), String> {
        let sides = self.boxes.get(1..BOX_WIDTH).unwrap_or_default();
        let is_near =
            |(side, double): (&i64, &f64)| (*side as f64 - double * UNITS_IN_ONE).abs() <= 1.0;
        hold(
            sides.len() == envelope.len() && sides.iter().zip(envelope).all(is_near),
            &format!("the box {sides:?} isn't the envelope {envelope:?}"),
        )
    }

    /// The canonical text may be longer than the text: a bare point of a multipoint gets
    /// parentheses. Twice as long is enough.
    fn canonical_text(&self) -> Result<Vec<u8>, String> {
        let mut out = vec![0; 2 * self.text.len()];
        let text = self.text.as_bytes();
        let answer = library::write(text, &self.nodes, &self.numbers, &mut out);
        hold(answer.number == 0, "the writer refuses its rows")?;
        out.truncate(answer.length as usize);
        Ok(out)
    }

    /// The boxes, in a table of exactly as many rows as nodes.
    fn table_of_boxes(&self) -> Result<Vec<i64>, String> {
        let mut table = vec![i64::from(UNCLEARED); self.node_count() * BOX_WIDTH];
        let text = self.text.as_bytes();
        let number = library::boxes(text, &self.nodes, &self.numbers, &mut table);
        hold(number == 0, "the boxes refuse its rows")?;
        hold(
            table.chunks(BOX_WIDTH).all(is_box),
            "a row of the table is no box",
        )?;
        Ok(table)
    }

    /// The stored bytes of the rows, where they fit this version. A field has 3 bytes more than
    /// its content, and there are no more fields than bytes of text.
    fn written_as(&self, version: Version) -> Result<Option<Vec<u8>>, String> {
        let text = self.kind.accepted_text(self.size);
        let mut out = vec![0; 8 * text.len()];
        let text = text.as_bytes();
        let answer = library::write_stored(version, text, &self.nodes, &self.numbers, &mut out);
        if answer.number == DOES_NOT_FIT {
            return Ok(None);
        }
        hold(answer.number == 0, "the stored writer refuses its rows")?;
        out.truncate(answer.length as usize);
        Ok(Some(out))
    }

    /// If the text is refused, the bytes with a wrong last one.
    fn broken(&self, mut bytes: Vec<u8>) -> Vec<u8> {
        if let (false, Some(last)) = (self.is_accepted(), bytes.last_mut()) {
            *last = b'x';
        }
        bytes
    }

    pub fn is_accepted(&self) -> bool {
        self.answer.number == 0
    }

    pub fn number_texts(&self) -> Vec<&str> {
        let span = |row: &[u32]| &self.text[row[0] as usize..(row[0] + row[1]) as usize];
        self.numbers.chunks(NUMBER_WIDTH).map(span).collect()
    }

    pub fn node_count(&self) -> usize {
        self.nodes.len() / NODE_WIDTH
    }

    pub fn number_count(&self) -> usize {
        self.numbers.len() / NUMBER_WIDTH
    }

    /// How many bytes the texts of all numbers have.
    pub fn number_bytes(&self) -> usize {
        self.number_texts().into_iter().map(str::len).sum()
    }

    /// How many coordinates the geometry has: the parts of its points and line strings.
    pub fn coordinate_count(&self) -> u64 {
        let is_leaf = |row: &&[u32]| row[0] == reader::POINT || row[0] == reader::LINE_STRING;
        let leaves = self.nodes.chunks(NODE_WIDTH).filter(is_leaf);
        leaves.map(|row| u64::from(row[2])).sum()
    }
}

fn hold(fact: bool, otherwise: &str) -> Result<(), String> {
    fact.then_some(()).ok_or_else(|| otherwise.to_string())
}

fn used_rows(text: &str, size: usize) -> Rows {
    let mut rows = read_with_room(text, ample_nodes(size), ample_numbers(size));
    rows.nodes.truncate(NODE_WIDTH * rows.answer.nodes as usize);
    rows.numbers
        .truncate(NUMBER_WIDTH * rows.answer.numbers as usize);
    rows
}

fn read_with_room(text: &str, node_places: usize, number_places: usize) -> Rows {
    let mut nodes = vec![UNCLEARED; node_places];
    let mut numbers = vec![UNCLEARED; number_places];
    let answer = library::read(text.as_bytes(), &mut nodes, &mut numbers);
    Rows {
        answer,
        nodes,
        numbers,
    }
}

/// Whether a row is a box or that of a node without coordinates. One that wasn't written is neither.
fn is_box(row: &[i64]) -> bool {
    match row {
        [0, sides @ ..] => sides.iter().all(|side| *side == 0),
        [1, low_x, high_x, low_y, high_y] => low_x <= high_x && low_y <= high_y,
        _ => false,
    }
}

fn is_zero<T: Default + PartialEq>(places: &[T]) -> bool {
    places.iter().all(|place| *place == T::default())
}

fn part<'a>(bytes: &'a [u8], row: &[u32]) -> &'a [u8] {
    &bytes[row[0] as usize..(row[0] + row[1]) as usize]
}
