//! Stores for the letters `w` and `s`: read from a text or made over it, most of them
//! then changed at a place or two, so that both outcomes are frequent.

use crate::model::{self, Limits};
use crate::random::Random;
use crate::stores::{self, MAX_DEPTH, WIDTHS};
use driver::reader::{
    GEOMETRY_COLLECTION, LINE_STRING, MULTI_LINE_STRING, MULTI_POINT, MULTI_POLYGON, POINT, POLYGON,
};
use driver::record::{Rows, MAX_OUTPUT, MAX_SLICE};

/// A number row: start and length.
type Span = [u32; 2];

/// How often a span that is a lexeme is looked for.
const TRIES: usize = 12;
/// Made number texts are shorter.
const LONGEST_NUMBER: usize = 8;
/// Collections are made inside each other up to here.
const MADE_DEPTH: usize = 3;

/// The rows that the model reads, with the collections open that a store may not have,
/// too.
pub fn read(text: &[u8]) -> Option<Rows> {
    let limits = Limits {
        nodes: MAX_SLICE as usize / 3,
        numbers: MAX_SLICE as usize / 2,
        depth: MAX_DEPTH + 8,
    };
    let text = std::str::from_utf8(text).ok()?;
    let store = model::read(text, limits).ok()?;
    let spans = store.numbers.iter();
    let spans = spans.flat_map(|span| [span.start as u32, span.length as u32]);
    Some(Rows {
        nodes: store.nodes.concat(),
        numbers: spans.collect(),
    })
}

/// Rows over a text, well formed but for collections that are too deep.
pub fn unchanged_rows(random: &mut Random, text: &[u8]) -> Rows {
    let read = match random.once_in(3) {
        true => None,
        false => read(text),
    };
    read.unwrap_or_else(|| made(random, text))
}

/// Rows over a text.
pub fn rows(random: &mut Random, text: &[u8]) -> Rows {
    let mut rows = unchanged_rows(random, text);
    for _ in 0..*random.pick(&[0, 0, 0, 0, 0, 1, 1, 1, 2, 3]) {
        change(random, text, &mut rows);
    }
    rows.nodes.truncate(MAX_SLICE as usize);
    rows.numbers.truncate(MAX_SLICE as usize);
    rows
}

/// An output's length: in most cases just enough for the text, or near that.
pub fn room(random: &mut Random, text: &[u8], rows: &Rows) -> u32 {
    let length = match stores::tree(text, rows) {
        Ok(root) => stores::canonical(&root).len(),
        Err(_) => random.below(64),
    };
    room_near(random, length)
}

pub fn room_near(random: &mut Random, length: usize) -> u32 {
    let room = match random.below(8) {
        0 => length.saturating_sub(1),
        1 => length + 1,
        2 => length + 2 + random.below(64),
        3 => random.below(length + 1),
        4 => 0,
        _ => length,
    };
    room.min(MAX_OUTPUT as usize) as u32
}

/// A tree made of what numbers the text has.
pub fn made(random: &mut Random, text: &[u8]) -> Rows {
    let number = lexeme(random, text);
    let mut maker = Maker {
        random,
        text,
        number,
        rows: Rows::default(),
    };
    let depth = maker.random.below(MADE_DEPTH + 1);
    let dimension = maker.random.below(4) as u32;
    maker.geometry(dimension, depth);
    maker.rows
}

/// A span of a lexeme, if one is found.
fn lexeme(random: &mut Random, text: &[u8]) -> Option<Span> {
    (0..TRIES).find_map(|_| {
        let start = random.below(text.len() + 1);
        let longest = (text.len() - start).min(LONGEST_NUMBER);
        let length = random.below(longest + 1);
        let is_lexeme = stores::is_lexeme(&text[start..start + length]);
        is_lexeme.then_some([start as u32, length as u32])
    })
}

struct Maker<'random> {
    random: &'random mut Random,
    text: &'random [u8],
    /// One that was found in the text.
    number: Option<Span>,
    rows: Rows,
}

impl Maker<'_> {
    fn geometry(&mut self, dimension: u32, depth: usize) {
        let kinds = if depth == 0 { 6 } else { 8 };
        let kind = (1 + self.random.below(kinds) as u32).min(GEOMETRY_COLLECTION);
        self.node(kind, dimension, depth);
    }

    fn node(&mut self, kind: u32, dimension: u32, depth: usize) {
        let row = self.rows.nodes.len();
        self.rows.nodes.extend([kind, dimension, 0]);
        let parts = match kind {
            _ if self.random.once_in(8) => 0,
            MULTI_POINT if self.number.is_none() => 0,
            POINT => self.coordinates(1, dimension),
            LINE_STRING => {
                let count = 1 + self.random.below(4);
                self.coordinates(count, dimension)
            }
            _ => {
                let count = 1 + self.random.below(3);
                (0..count).for_each(|_| self.child(kind, dimension, depth));
                count as u32
            }
        };
        self.rows.nodes[row + 2] = parts;
    }

    fn child(&mut self, parent: u32, dimension: u32, depth: usize) {
        match parent {
            POLYGON => self.ring(dimension),
            MULTI_POINT => {
                self.coordinates_after([POINT, dimension, 1], 1);
            }
            MULTI_LINE_STRING => self.node(LINE_STRING, dimension, depth),
            MULTI_POLYGON => self.node(POLYGON, dimension, depth),
            _ => {
                let dimension = match self.random.once_in(6) {
                    true => self.random.below(4) as u32,
                    false => dimension,
                };
                self.geometry(dimension, depth.saturating_sub(1));
            }
        }
    }

    fn coordinates_after(&mut self, row: [u32; 3], count: usize) -> u32 {
        self.rows.nodes.extend(row);
        self.coordinates(count, row[1])
    }

    /// A ring, closed and long enough in most cases.
    fn ring(&mut self, dimension: u32) {
        let count = *self.random.pick(&[0, 1, 3, 4, 4, 4, 5]);
        let first = self.rows.numbers.len();
        let row = self.rows.nodes.len();
        let parts = self.coordinates_after([LINE_STRING, dimension, 0], count);
        self.rows.nodes[row + 2] = parts;
        let width = 2 * WIDTHS[dimension as usize];
        if parts > 0 && !self.random.once_in(4) {
            let last = self.rows.numbers.len() - width;
            self.rows.numbers.copy_within(first..first + width, last);
        }
    }

    /// So many coordinates, or none where the text has no numbers.
    fn coordinates(&mut self, count: usize, dimension: u32) -> u32 {
        let Some(number) = self.number else {
            return 0;
        };
        for _ in 0..count * WIDTHS[dimension as usize] {
            let span = lexeme(self.random, self.text).unwrap_or(number);
            self.rows.numbers.extend(span);
        }
        count as u32
    }
}

/// One change of a place, of a row, or of a slice's length.
pub fn change(random: &mut Random, text: &[u8], rows: &mut Rows) {
    let in_nodes = random.once_in(2);
    let (slice, width) = match in_nodes {
        true => (&mut rows.nodes, 3),
        false => (&mut rows.numbers, 2),
    };
    if slice.is_empty() {
        slice.extend((0..width).map(|_| 1));
        return;
    }
    let place = random.below(slice.len());
    let row = place / width * width;
    match random.below(12) {
        0 => slice.truncate(slice.len() - 1),
        1 => slice.push(random.below(3) as u32),
        2 => drop(slice.drain(row..(row + width).min(slice.len()))),
        3 => {
            let again = slice[row..(row + width).min(slice.len())].to_vec();
            slice.extend(again);
        }
        4 => slice.swap(place, 0),
        5..=7 => slice[place] = slice[place].wrapping_add(1),
        8 | 9 => slice[place] = slice[place].wrapping_sub(1),
        10 => slice[place] = random.below(9) as u32,
        _ => slice[place] = *random.pick(&[0, text.len() as u32, 1 << 31, u32::MAX]),
    }
}

#[cfg(test)]
mod tests {
    use super::*;

    #[test]
    fn made_stores_are_well_formed() {
        let mut random = Random::new(1);
        let text = b"-1.5 ++inf 2e3 nan";
        let made = (0..2_000).map(|index| {
            let text: &[u8] = if index % 2 == 0 { text } else { b"POINT" };
            (text, made(&mut random, text))
        });
        for (text, rows) in made {
            assert!(stores::tree(text, &rows).is_ok(), "{rows:?}");
        }
    }

    #[test]
    fn both_outcomes_are_frequent() {
        let mut random = Random::new(2);
        let text = b"MULTIPOINT((1 2),3 4)";
        let drawn = (0..2_000).map(|_| rows(&mut random, text));
        let well_formed = drawn.filter(|rows| stores::tree(text, rows).is_ok());
        assert!((600..1_600).contains(&well_formed.count()));
    }
}
