//! Document 01's reader once more, for what the Rust doesn't tell: the place of a
//! refusal, and the limits.
//!
//! It goes through the Rust's own tokens, which have places, in the way of the Rust's
//! functions. `expected` holds it to the Rust on every text: without limits it has to
//! accept the same, with the same tree, and to refuse the same, with the same message.
//! So of an answer only the place of a refusal, what is wrong with a bad number and the
//! refusals at a limit rest on it.

use crate::bad_numbers;
use driver::reader::{
    NodeRow, GEOMETRY_COLLECTION, LINE_STRING, MULTI_LINE_STRING, MULTI_POINT, MULTI_POLYGON,
    POINT, POLYGON,
};
use driver::tokens::{self, Placed, Seen, Span};

pub const NO_NODE_ROW: u32 = 3;
pub const NO_NUMBER_ROW: u32 = 4;
pub const TOO_DEEP: u32 = 5;
const NON_ASCII_ROOT: u32 = 7;
const NO_ROOT: u32 = 8;
const UNKNOWN_NAME: u32 = 9;
const NO_HEADER: u32 = 10;
const UNKNOWN_HEADER: u32 = 11;
const NOT_OPENED: u32 = 12;
const NOT_CLOSED: u32 = 13;
const NO_X: u32 = 14;
const NO_Y: u32 = 15;
const NO_Z: u32 = 16;
const NO_M: u32 = 17;
const NO_CHILD: u32 = 18;

const NAMES: [(&str, u32); 7] = [
    ("POINT", POINT),
    ("LINESTRING", LINE_STRING),
    ("POLYGON", POLYGON),
    ("MULTIPOINT", MULTI_POINT),
    ("MULTILINESTRING", MULTI_LINE_STRING),
    ("MULTIPOLYGON", MULTI_POLYGON),
    ("GEOMETRYCOLLECTION", GEOMETRY_COLLECTION),
];
/// Means a line string, with no ending joined.
const LINEAR_RING: &str = "LINEARRING";

const XY: u32 = 0;
const ENDINGS: [(&str, u32); 3] = [("Z", 1), ("M", 2), ("ZM", 3)];

/// The refusals for a missing number of a coordinate, by its dimension.
const COORDINATES: [&[u32]; 4] = [
    &[NO_X, NO_Y],
    &[NO_X, NO_Y, NO_Z],
    &[NO_X, NO_Y, NO_M],
    &[NO_X, NO_Y, NO_Z, NO_M],
];

/// How many rows there are, and how many collections may be open.
#[derive(Clone, Copy, Debug)]
pub struct Limits {
    pub nodes: usize,
    pub numbers: usize,
    pub depth: usize,
}

impl Limits {
    pub const NONE: Limits = Limits {
        nodes: usize::MAX,
        numbers: usize::MAX,
        depth: usize::MAX,
    };
}

#[derive(Clone, Debug, Default, PartialEq, Eq)]
pub struct Store {
    pub nodes: Vec<NodeRow>,
    pub numbers: Vec<Span>,
}

#[derive(Clone, Copy, Debug, PartialEq, Eq)]
pub struct Refusal {
    pub number: u32,
    pub place: usize,
}

/// Why a part wasn't read.
enum Failure {
    Refused(Refusal),
    /// At a limit: no closing token is taken.
    Stopped(Refusal),
}

type Step<T> = Result<T, Failure>;

fn refused<T>(number: u32, place: usize) -> Step<T> {
    Err(Failure::Refused(Refusal { number, place }))
}

fn stopped<T>(number: u32, place: usize) -> Step<T> {
    Err(Failure::Stopped(Refusal { number, place }))
}

pub fn read(text: &str, limits: Limits) -> Result<Store, Refusal> {
    read_tokens(text, &tokens_of(text), limits)
}

/// All tokens, up to the "no token" of the true end, which comes again and again.
pub fn tokens_of(text: &str) -> Vec<Placed> {
    tokens::take_all(text, 0).expect("0 is a character's place")
}

/// Reads a text whose tokens these are.
pub fn read_tokens(text: &str, tokens: &[Placed], limits: Limits) -> Result<Store, Refusal> {
    let mut reader = Reader {
        text,
        tokens,
        taken: 0,
        limits,
        open: 0,
        store: Store::default(),
    };
    match reader.root() {
        Ok(()) => Ok(reader.store),
        Err(Failure::Refused(refusal) | Failure::Stopped(refusal)) => Err(refusal),
    }
}

struct Reader<'text> {
    text: &'text str,
    tokens: &'text [Placed],
    taken: usize,
    limits: Limits,
    open: usize,
    store: Store,
}

impl<'text> Reader<'text> {
    fn look(&self) -> Placed {
        self.tokens[self.taken.min(self.tokens.len() - 1)]
    }

    fn take(&mut self) -> Step<Placed> {
        let token = self.look();
        self.taken += 1;
        match token.seen {
            Seen::BadNumber => {
                let (number, place) = bad_numbers::refusal(self.run_from(token.place));
                refused(number, token.place + place)
            }
            _ => Ok(token),
        }
    }

    /// The text of a number or a word that starts here: up to a blank, NUL or a mark.
    fn run_from(&self, place: usize) -> &'text str {
        let mut runs = self.text[place..].split([' ', '\t', '\n', '\r', '\0', '(', ')', ',']);
        runs.next().expect("a split has a first part")
    }

    fn text_of(&self, span: Span) -> &'text str {
        &self.text[span.start..span.start + span.length]
    }

    /// `Wkt::from_tokens` of the Rust.
    fn root(&mut self) -> Step<()> {
        let token = self.take()?;
        match token.seen {
            Seen::Word(span) if self.text_of(span).is_ascii() => {
                self.named_geometry(token.place, self.text_of(span))
            }
            Seen::Word(_) => refused(NON_ASCII_ROOT, token.place),
            _ => refused(NO_ROOT, token.place),
        }
    }

    /// `from_word_and_tokens`, with `from_tokens_with_header`.
    fn named_geometry(&mut self, place: usize, word: &str) -> Step<()> {
        let Some((kind, joined)) = meaning(word) else {
            return refused(UNKNOWN_NAME, place);
        };
        let dimension = match joined {
            Some(dimension) => dimension,
            None => self.infer_geom_dimension()?,
        };
        self.with_parens(kind, dimension)
    }

    fn infer_geom_dimension(&mut self) -> Step<u32> {
        let token = self.look();
        let word = match token.seen {
            Seen::NoToken | Seen::BadNumber => return refused(NO_HEADER, token.place),
            Seen::Word(span) => self.text_of(span),
            _ => return Ok(XY),
        };
        if is_empty_word(word) {
            return Ok(XY);
        }
        match dimension_of(word) {
            Some(dimension) => self.take().map(|_| dimension),
            None => refused(UNKNOWN_HEADER, token.place),
        }
    }

    /// `from_tokens_with_parens`.
    fn with_parens(&mut self, kind: u32, dimension: u32) -> Step<()> {
        let token = self.take()?;
        match token.seen {
            Seen::ParenOpen => {}
            Seen::Word(span) if is_empty_word(self.text_of(span)) => {
                return self.push_node(kind, dimension, token.place).map(|_| ());
            }
            _ => return refused(NOT_OPENED, token.place),
        }
        if kind == GEOMETRY_COLLECTION && self.open == self.limits.depth {
            return stopped(TOO_DEEP, token.place);
        }
        let row = self.push_node(kind, dimension, token.place)?;
        let parts = match self.parts(kind, dimension) {
            Err(Failure::Stopped(refusal)) => return Err(Failure::Stopped(refusal)),
            parts => parts,
        };
        let token = self.take()?;
        match token.seen {
            Seen::ParenClose => self.store.nodes[row][2] = parts?,
            _ => return refused(NOT_CLOSED, token.place),
        }
        Ok(())
    }

    /// `from_tokens_with_optional_parens`.
    fn with_optional_parens(&mut self, dimension: u32) -> Step<()> {
        let token = self.look();
        if token.seen == Seen::ParenOpen {
            return self.with_parens(POINT, dimension);
        }
        let row = self.push_node(POINT, dimension, token.place)?;
        self.store.nodes[row][2] = self.parts(POINT, dimension)?;
        Ok(())
    }

    /// `from_tokens` of each kind; answers how many parts there are.
    fn parts(&mut self, kind: u32, dimension: u32) -> Step<u32> {
        match kind {
            POINT => self.coordinate(dimension).map(|()| 1),
            LINE_STRING => self.comma_many(|reader| reader.coordinate(dimension)),
            POLYGON | MULTI_LINE_STRING => {
                self.comma_many(|reader| reader.with_parens(LINE_STRING, dimension))
            }
            MULTI_POINT => self.comma_many(|reader| reader.with_optional_parens(dimension)),
            MULTI_POLYGON => self.comma_many(|reader| reader.with_parens(POLYGON, dimension)),
            _ => {
                self.open += 1;
                let parts = self.comma_many(Self::child);
                self.open -= 1;
                parts
            }
        }
    }

    fn comma_many(&mut self, item: impl Fn(&mut Self) -> Step<()>) -> Step<u32> {
        let mut count = 0;
        loop {
            item(self)?;
            count += 1;
            if self.look().seen != Seen::Comma {
                return Ok(count);
            }
            self.take()?;
        }
    }

    /// An item of the loop in geometrycollection.rs.
    fn child(&mut self) -> Step<()> {
        let token = self.take()?;
        match token.seen {
            Seen::Word(span) => self.named_geometry(token.place, self.text_of(span)),
            _ => refused(NO_CHILD, token.place),
        }
    }

    /// `from_tokens` of coord.rs.
    fn coordinate(&mut self, dimension: u32) -> Step<()> {
        for missing in COORDINATES[dimension as usize] {
            let token = self.take()?;
            match token.seen {
                Seen::Number(span) => self.push_number(span, token.place)?,
                _ => return refused(*missing, token.place),
            }
        }
        Ok(())
    }

    fn push_node(&mut self, kind: u32, dimension: u32, place: usize) -> Step<usize> {
        let row = self.store.nodes.len();
        if row == self.limits.nodes {
            return stopped(NO_NODE_ROW, place);
        }
        self.store.nodes.push([kind, dimension, 0]);
        Ok(row)
    }

    fn push_number(&mut self, span: Span, place: usize) -> Step<()> {
        if self.store.numbers.len() == self.limits.numbers {
            return stopped(NO_NUMBER_ROW, place);
        }
        self.store.numbers.push(span);
        Ok(())
    }
}

/// The kind that a word names, and the dimension where an ending is joined.
fn meaning(word: &str) -> Option<(u32, Option<u32>)> {
    if word.eq_ignore_ascii_case(LINEAR_RING) {
        return Some((LINE_STRING, None));
    }
    NAMES.iter().find_map(|(name, kind)| {
        let ending = after_name(word, name)?;
        match ending.is_empty() {
            true => Some((*kind, None)),
            false => dimension_of(ending).map(|dimension| (*kind, Some(dimension))),
        }
    })
}

fn after_name<'word>(word: &'word str, name: &str) -> Option<&'word str> {
    let (start, ending) = word.split_at_checked(name.len())?;
    start.eq_ignore_ascii_case(name).then_some(ending)
}

fn dimension_of(word: &str) -> Option<u32> {
    let ending = ENDINGS
        .iter()
        .find(|(ending, _)| word.eq_ignore_ascii_case(ending));
    ending.map(|(_, dimension)| *dimension)
}

fn is_empty_word(word: &str) -> bool {
    word.eq_ignore_ascii_case("EMPTY")
}

#[cfg(test)]
mod tests {
    use super::*;

    fn refusal(text: &str, limits: Limits) -> (u32, usize) {
        let refusal = read(text, limits).expect_err(text);
        (refusal.number, refusal.place)
    }

    #[test]
    fn places_of_document_01() {
        for (text, number, place) in [
            ("", 8, 0),
            ("POINT", 10, 5),
            ("POINT 4x", 10, 6),
            ("POINT(x 2)", 13, 8),
            ("POINT(1 x)", 15, 8),
            ("POINT(+ 5)", 13, 8),
            ("POINT(1 \0)", 15, 8),
            ("POINT(1 ", 13, 8),
            ("MULTIPOINT(1 2,EMPTY)", 14, 15),
            ("POINTZ Z(1 2 3)", 12, 7),
            ("LINEARRINGZ(1 2 3)", 9, 0),
            ("GEOMETRYCOLLECTION(京)", 9, 19),
            ("GEOMETRYCOLLECTION(京(1 2))", 13, 22),
            ("GEOMETRYCOLLECTION(POINT foo)", 13, 25),
            ("GEOMETRYCOLLECTION(POINT 4x)", 29, 26),
            ("GEOMETRYCOLLECTION(POINT \0)", 13, 25),
            ("GEOMETRYCOLLECTION(POINTZ \0)", 12, 26),
        ] {
            assert_eq!(refusal(text, Limits::NONE), (number, place), "{text:?}");
        }
    }

    #[test]
    fn bad_numbers_at_each_step() {
        for (text, number, place) in [
            ("+", 28, 0),
            (" \t+ 1", 28, 2),
            ("+)", 28, 0),
            ("++", 29, 2),
            ("+x(1 2)", 29, 1),
            ("POINT +", 10, 6),
            ("POINT +x", 10, 6),
            ("POINTZ +", 28, 7),
            ("POINT Z +x", 29, 9),
            ("POINT(+)", 28, 6),
            ("POINT(+\0)", 13, 7),
            ("POINT(4x)", 29, 7),
            ("POINT(4x 2)", 13, 9),
            ("POINT(1 1e+)", 29, 11),
            ("POINT(1 +,", 13, 9),
            ("POINTZ(1 2 .e5)", 29, 12),
            ("POINTM(1 2 --1)", 29, 12),
            ("POINTZM(1 2 3 +)", 28, 14),
            ("POINT(1 2 1.2.3", 29, 13),
            ("POINT(1 2 +", 28, 10),
            ("POINT(x -infx)", 29, 12),
            ("POINT(x +\n", 28, 8),
            ("POINT(4x +infi", 29, 14),
            ("LINESTRING(1 2,3 1京)", 29, 18),
            ("MULTIPOINT(+\r)", 28, 11),
            ("POLYGON(1e)", 29, 10),
            ("GEOMETRYCOLLECTION(+)", 28, 19),
            ("GEOMETRYCOLLECTION(POINT +)", 28, 25),
            ("GEOMETRYCOLLECTION(POINT(1 2) -", 29, 31),
        ] {
            assert_eq!(refusal(text, Limits::NONE), (number, place), "{text:?}");
        }
    }

    #[test]
    fn limits_of_document_01() {
        let rows = |nodes, numbers| Limits {
            nodes,
            numbers,
            depth: 32,
        };
        assert_eq!(refusal("POINT(1 2)", rows(0, 2)), (NO_NODE_ROW, 5));
        assert_eq!(refusal("POINT(1 2)", rows(1, 1)), (NO_NUMBER_ROW, 8));
        assert_eq!(refusal("MULTIPOINT(", rows(1, 9)), (NO_NODE_ROW, 11));
        assert_eq!(refusal("MULTIPOINT()", rows(1, 9)), (NO_NODE_ROW, 11));
        let nested = |depth| "GEOMETRYCOLLECTION(".repeat(depth);
        assert_eq!(refusal(&nested(33), rows(99, 0)), (TOO_DEEP, 626));
        assert_eq!(refusal(&nested(33), rows(32, 0)), (TOO_DEEP, 626));
        assert_eq!(refusal(&nested(33), rows(31, 0)), (NO_NODE_ROW, 607));
    }

    #[test]
    fn trees_of_document_01() {
        let store = read("MULTIPOINT((1 2),3 4)", Limits::NONE).expect("well formed");
        assert_eq!(store.nodes, [[4, 0, 2], [1, 0, 1], [1, 0, 1]]);
        let store = read("POINT(++4 +-4)", Limits::NONE).expect("well formed");
        let spans: Vec<_> = store.numbers.iter().map(|s| (s.start, s.length)).collect();
        assert_eq!(spans, [(7, 2), (11, 2)]);
    }
}
