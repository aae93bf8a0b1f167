//! Texts made by the grammar: every kind, dimension and nesting, any case of
//! letters, any blanks between tokens.

use crate::numbers;
use crate::random::Random;

pub const NAMES: [&str; 8] = [
    "POINT",
    "LINESTRING",
    "LINEARRING",
    "POLYGON",
    "MULTIPOINT",
    "MULTILINESTRING",
    "MULTIPOLYGON",
    "GEOMETRYCOLLECTION",
];
const COLLECTION: usize = 7;

/// The ending of a name, and how many numbers a coordinate then has.
const DIMENSIONS: [(&str, usize); 4] = [("", 2), ("Z", 3), ("M", 3), ("ZM", 4)];

const BLANKS: [char; 6] = [' ', ' ', ' ', '\t', '\n', '\r'];

/// A well-formed text of one geometry, in most cases: a number may be spoilt.
pub fn geometry(random: &mut Random) -> String {
    let mut writer = GeometryWriter {
        random,
        text: String::new(),
    };
    writer.blanks(0);
    let depth = writer.random.below(4);
    writer.geometry(depth);
    writer.blanks(0);
    writer.text
}

/// A geometry inside so many collections that their limit is near.
pub fn nested(random: &mut Random) -> String {
    let opened = 30 + random.below(5);
    let closed = opened - usize::from(random.once_in(8));
    let open = format!("{}(", NAMES[COLLECTION]).repeat(opened);
    let close = ")".repeat(closed);
    format!("{open}{}{close}", geometry(random))
}

/// The only member of a collection.
pub fn in_collection(geometry: &str) -> String {
    format!("{}({geometry})", NAMES[COLLECTION])
}

struct GeometryWriter<'random> {
    random: &'random mut Random,
    text: String,
}

impl GeometryWriter<'_> {
    fn geometry(&mut self, depth: usize) {
        let kinds = if depth == 0 { COLLECTION } else { NAMES.len() };
        let kind = self.random.below(kinds);
        let numbers = self.heading(kind);
        if self.random.once_in(8) {
            self.empty();
            return;
        }
        self.blanks(0);
        self.body(kind, numbers, depth);
    }

    /// Name and ending, joined or apart; answers how many numbers a coordinate has.
    fn heading(&mut self, kind: usize) -> usize {
        let (ending, numbers) = *self.random.pick(&DIMENSIONS);
        self.word(NAMES[kind]);
        if !ending.is_empty() {
            if self.random.once_in(2) {
                self.blanks(1);
            }
            self.word(ending);
        }
        numbers
    }

    fn body(&mut self, kind: usize, numbers: usize, depth: usize) {
        match kind {
            0 => self.point(numbers),
            1 | 2 => self.line_string(numbers),
            3 | 5 => self.line_strings(numbers),
            4 => self.list(|writer| match writer.random.below(2) {
                0 => writer.coordinate(numbers),
                _ => writer.point(numbers),
            }),
            6 => self.list(|writer| writer.line_strings(numbers)),
            _ => self.list(|writer| writer.geometry(depth - 1)),
        }
    }

    fn point(&mut self, numbers: usize) {
        self.token('(');
        self.coordinate(numbers);
        self.token(')');
    }

    fn line_strings(&mut self, numbers: usize) {
        self.list(|writer| match writer.random.below(10) {
            0 => writer.empty(),
            _ => writer.line_string(numbers),
        });
    }

    fn line_string(&mut self, numbers: usize) {
        self.list(|writer| writer.coordinate(numbers));
    }

    fn list(&mut self, mut item: impl FnMut(&mut Self)) {
        self.token('(');
        item(self);
        while self.random.once_in(2) {
            self.token(',');
            item(self);
        }
        self.token(')');
    }

    fn coordinate(&mut self, numbers: usize) {
        for index in 0..numbers {
            if index > 0 {
                self.blanks(1);
            }
            self.text += &match self.random.below(40) {
                0 => numbers::number_like(self.random),
                _ => numbers::spelled(self.random),
            };
        }
    }

    fn empty(&mut self) {
        self.blanks(1);
        self.word("EMPTY");
    }

    fn word(&mut self, word: &str) {
        self.text += &numbers::in_any_case(self.random, word);
    }

    fn token(&mut self, token: char) {
        self.blanks(0);
        self.text.push(token);
        self.blanks(0);
    }

    fn blanks(&mut self, at_least: usize) {
        let more = *self.random.pick(&[0, 0, 0, 0, 0, 0, 1, 1, 2, 5]);
        for _ in 0..at_least + more {
            self.text.push(*self.random.pick(&BLANKS));
        }
    }
}
