//! What the replay program has to answer: what the Rust says, and where it says
//! nothing (the place of a refusal, what is wrong with a bad number, the limits) what the
//! model says.

use crate::any_bytes;
use crate::boxes;
use crate::cases::Case;
use crate::model::{self, Limits, Refusal, Store, NO_NODE_ROW, NO_NUMBER_ROW, TOO_DEEP};
use crate::moves::{self, Moved};
use crate::stored::{self, Room, Version, NO_FIT};
use crate::stores::{self, ILL_FORMED, MAX_DEPTH, NO_ROOM};
use driver::inferred::{self, Inference};
use driver::reader::{self, Reading, Tree};
use driver::record::{Move, Request, Rows};
use driver::tokens::{self, Demand, Placed, Seen, Span};
use std::fmt::{Display, Write};

// More refusals of document 01 that the Rust doesn't have.
const TEXT_TOO_LONG: u32 = 1;
const ILL_FORMED_UTF8: u32 = 2;
const NON_ASCII: u32 = 24;

/// The reader and infer_type refuse longer texts (request 2026-05).
pub const MAX_READ_BYTES: usize = 4_194_304;

/// What an expected line rests on.
#[derive(Clone, Copy, Debug, PartialEq, Eq)]
pub enum Basis {
    /// The Rust; refusals 1, 2 and 24 are tests of single bytes.
    Rust,
    /// The Rust's refusal, at the model's place; of a bad number the model says which of the
    /// two numbers of that message it is.
    Place,
    /// The model: it ends at a limit that the Rust doesn't have.
    Limit,
    /// The models of stores, of the stored form, of moves and of boxes, of which the Rust
    /// knows nothing; it reads the canonical text.
    Stores,
}

#[derive(Clone, Debug, PartialEq, Eq)]
pub struct Expected {
    pub line: String,
    pub basis: Basis,
}

impl Expected {
    fn by_rust(line: String) -> Self {
        let basis = Basis::Rust;
        Expected { line, basis }
    }

    fn of_store(line: String) -> Self {
        let basis = Basis::Stores;
        Expected { line, basis }
    }

    fn refusal(number: u32, place: usize, basis: Basis) -> Self {
        let line = format!("{number} {place} 0 0 ;  ;  ; 0");
        Expected { line, basis }
    }
}

/// The answer to a case. Nesting has no limit in the Rust: the stack must be large.
pub fn expected(case: &Case) -> Expected {
    match &case.request {
        Request::Take { place, count } => {
            Expected::by_rust(token_line(&case.text, *place, *count, Demand::Take))
        }
        Request::LookAndTake { place, count } => {
            Expected::by_rust(token_line(&case.text, *place, *count, Demand::LookAndTake))
        }
        Request::Read { nodes, numbers } => reading(&case.text, *nodes, *numbers),
        Request::Write { output, rows } => {
            Expected::of_store(writing_line(&case.text, rows, *output))
        }
        Request::Check { rows } => Expected::of_store(checking_line(&case.text, rows)),
        Request::Infer => Expected::by_rust(inference_line(&case.text)),
        Request::WriteStored {
            version,
            output,
            rows,
        } => {
            let version = Version::of(*version);
            Expected::of_store(stored_writing_line(&case.text, version, rows, *output))
        }
        Request::ReadStored {
            version,
            nodes,
            numbers,
        } => {
            let room = Room::of(*nodes, *numbers);
            Expected::of_store(stored_reading_line(&case.text, Version::of(*version), room))
        }
        Request::Move(asked) => Expected::of_store(move_line(&case.text, asked)),
        Request::Boxes { table, rows } => Expected::of_store(boxes_line(&case.text, rows, *table)),
    }
}

fn token_line(text: &[u8], place: u32, count: u32, demand: Demand) -> String {
    let tokens = any_bytes::take(text, place as usize, count as usize, demand);
    tokens::line(&tokens)
}

fn reading(bytes: &[u8], node_places: u32, number_places: u32) -> Expected {
    let text = match readable(bytes) {
        Ok(text) => text,
        Err((number, place)) => return Expected::refusal(number, place, Basis::Rust),
    };
    let limits = Limits {
        nodes: (node_places / 3) as usize,
        numbers: (number_places / 2) as usize,
        depth: MAX_DEPTH,
    };
    let by_rust = reader::read(text);
    let tokens = model::tokens_of(text);
    let model_alone = model::read_tokens(text, &tokens, Limits::NONE);
    assert!(
        is_same(text, &by_rust, &model_alone),
        "the model reads {text:?} otherwise than the Rust"
    );
    let limited = model::read_tokens(text, &tokens, limits);
    match (by_rust, limited.err()) {
        (by_rust, Some(at_limit)) if is_limit(at_limit.number) => {
            assert!(may_end_at(&by_rust, at_limit.number, limits));
            Expected::refusal(at_limit.number, at_limit.place, Basis::Limit)
        }
        (Reading::Refused { numbers, .. }, Some(refusal)) => {
            assert!(numbers.contains(&refusal.number));
            Expected::refusal(refusal.number, refusal.place, Basis::Place)
        }
        (Reading::Accepted(tree), None) => {
            assert!(passed_limits(&tree, limits).is_empty());
            Expected::by_rust(accepted_line(text, &tokens, &tree))
        }
        _ => panic!("the limits change how the model reads {text:?}"),
    }
}

/// Whether the model without limits says what the Rust says.
fn is_same(text: &str, by_rust: &Reading, by_model: &Result<Store, Refusal>) -> bool {
    match (by_rust, by_model) {
        (Reading::Refused { numbers, .. }, Err(refusal)) => numbers.contains(&refusal.number),
        (Reading::Accepted(tree), Ok(store)) => {
            let texts = tree.numbers.iter().map(|number| number.text.as_str());
            let spans = store.numbers.iter();
            let texts_in_spans = spans.map(|span| &text[span.start..span.start + span.length]);
            tree.nodes == store.nodes && texts.eq(texts_in_spans)
        }
        _ => false,
    }
}

fn is_limit(number: u32) -> bool {
    [NO_NODE_ROW, NO_NUMBER_ROW, TOO_DEEP].contains(&number)
}

/// A text that the Rust accepts ends at a limit only if its tree passes that.
fn may_end_at(by_rust: &Reading, number: u32, limits: Limits) -> bool {
    match by_rust {
        Reading::Accepted(tree) => passed_limits(tree, limits).contains(&number),
        Reading::Refused { .. } => true,
    }
}

/// Refusals 1 and 2, with their places.
fn readable(bytes: &[u8]) -> Result<&str, (u32, usize)> {
    if bytes.len() > MAX_READ_BYTES {
        return Err((TEXT_TOO_LONG, MAX_READ_BYTES));
    }
    std::str::from_utf8(bytes).map_err(|error| (ILL_FORMED_UTF8, error.valid_up_to()))
}

fn passed_limits(tree: &Tree, limits: Limits) -> Vec<u32> {
    let limits = [
        (NO_NODE_ROW, tree.nodes.len() > limits.nodes),
        (NO_NUMBER_ROW, tree.numbers.len() > limits.numbers),
        (TOO_DEEP, tree.depth > limits.depth),
    ];
    let passed = limits.into_iter().filter(|(_, is_passed)| *is_passed);
    passed.map(|(number, _)| number).collect()
}

/// The tree with the places of its numbers: an accepted text's number tokens are,
/// from its start on, exactly those of the tree.
fn accepted_line(text: &str, tokens: &[Placed], tree: &Tree) -> String {
    let spans = tokens.iter().filter_map(|token| match token.seen {
        Seen::Number(span) => Some(span),
        _ => None,
    });
    let spans: Vec<Span> = spans.take(tree.numbers.len()).collect();
    let texts_in_place = spans.iter().zip(&tree.numbers).all(|(span, number)| {
        text[span.start..].starts_with(&number.text) && span.length == number.text.len()
    });
    assert!(texts_in_place && spans.len() == tree.numbers.len());
    let spans = spans.iter();
    let places = spans.flat_map(|span| [span.start as u32, span.length as u32]);
    rows_line(&Rows {
        nodes: tree.nodes.concat(),
        numbers: places.collect(),
    })
}

fn writing_line(text: &[u8], rows: &Rows, room: u32) -> String {
    let Ok(root) = stores::tree(text, rows) else {
        return refused_writing(ILL_FORMED);
    };
    let written = stores::canonical(&root);
    assert!(
        reads_as(&written, text, rows),
        "the Rust reads another store"
    );
    written_line(&written, room)
}

fn refused_writing(number: u32) -> String {
    format!("{number} 0 0 ;  ; 0")
}

/// What is written where there is room for it.
fn written_line(written: &[u8], room: u32) -> String {
    if written.len() > room as usize {
        return refused_writing(NO_ROOM);
    }
    format!("0 0 {} ; {} ; 0", written.len(), hex(written))
}

fn hex(bytes: &[u8]) -> String {
    let digit = |value: u8| char::from(b"0123456789abcdef"[usize::from(value)]);
    let digits = bytes.iter().flat_map(|byte| [byte / 16, byte % 16]);
    digits.map(digit).collect()
}

/// Whether the Rust reads a canonical text to the nodes and the number texts of rows.
fn reads_as(written: &[u8], text: &[u8], rows: &Rows) -> bool {
    let Ok(written) = std::str::from_utf8(written) else {
        return false;
    };
    let Reading::Accepted(tree) = reader::read(written) else {
        return false;
    };
    let texts = tree.numbers.iter().map(|number| number.text.as_bytes());
    tree.nodes.concat() == rows.nodes && texts.eq(stores::number_texts(text, rows))
}

fn stored_writing_line(text: &[u8], version: Version, rows: &Rows, room: u32) -> String {
    let Ok(root) = stores::tree(text, rows) else {
        return refused_writing(ILL_FORMED);
    };
    let Some(written) = stored::written(&root, version) else {
        return refused_writing(NO_FIT);
    };
    let again = stored::read(&written, version, Room::ANY);
    assert!(
        again.is_ok_and(|read| stores::are_same((&written, &read), (text, rows))),
        "what was written reads as another tree"
    );
    written_line(&written, room)
}

fn stored_reading_line(bytes: &[u8], version: Version, room: Room) -> String {
    let rows = match stored::read(bytes, version, room) {
        Ok(rows) => rows,
        Err(refusal) => return format!("{} {} 0 0 ;  ;  ; 0", refusal.number(), refusal.place),
    };
    hold_reading(bytes, version, &rows);
    rows_line(&rows)
}

/// The run ends where what was read isn't written as the same bytes, or where the Rust reads
/// its canonical text to other nodes or number texts.
fn hold_reading(bytes: &[u8], version: Version, rows: &Rows) {
    let root = stores::tree(bytes, rows).ok();
    let root = root.expect("what is read is well formed");
    assert!(
        stored::written(&root, version).is_some_and(|written| written == bytes),
        "what was read is written as other bytes"
    );
    assert!(
        reads_as(&stores::canonical(&root), bytes, rows),
        "the Rust reads another store"
    );
}

fn move_line(bytes: &[u8], asked: &Move) -> String {
    let Moved {
        bytes: written,
        rows,
    } = match moves::moved(bytes, asked) {
        Ok(moved) => moved,
        Err(refusal) => {
            let (number, place) = (refusal.number(), refusal.place());
            return format!("{number} {place} 0 0 0 ;  ;  ;  ; 0");
        }
    };
    hold_reading(bytes, Version::of(asked.from), &rows);
    format!(
        "0 0 {} {} {} ; {} ; {} ; {} ; 0",
        written.len(),
        rows.nodes.len() / 3,
        rows.numbers.len() / 2,
        hex(&written),
        spaced(&rows.nodes),
        spaced(&rows.numbers)
    )
}

/// The rows of an accepted reading.
fn rows_line(rows: &Rows) -> String {
    format!(
        "0 0 {} {} ; {} ; {} ; 0",
        rows.nodes.len() / 3,
        rows.numbers.len() / 2,
        spaced(&rows.nodes),
        spaced(&rows.numbers)
    )
}

/// The values, one space between.
fn spaced<'all, T: Display + 'all>(values: impl IntoIterator<Item = &'all T>) -> String {
    let mut line = String::new();
    for value in values {
        let space = if line.is_empty() { "" } else { " " };
        write!(line, "{space}{value}").expect("a string takes everything");
    }
    line
}

fn checking_line(text: &[u8], rows: &Rows) -> String {
    let Ok(root) = stores::tree(text, rows) else {
        return format!("{ILL_FORMED} 0 0");
    };
    let (letter, row) = stores::first_fault(&root, None).unwrap_or((0, 0));
    format!("0 {letter} {row}")
}

fn boxes_line(text: &[u8], rows: &Rows, places: u32) -> String {
    match boxes::table(text, rows, places as usize) {
        Ok(table) => {
            format!("0 0 ; {} ; 0", spaced(table.iter().flatten()))
        }
        Err(refusal) => format!("{} {} ;  ; 0", refusal.number(), refusal.place),
    }
}

fn inference_line(bytes: &[u8]) -> String {
    let text = match readable(bytes) {
        Ok(text) => text,
        Err((number, place)) => return format!("{number} {place} 0 0"),
    };
    let is_trimmed = |byte: &&u8| matches!(byte, 9..=13 | 32);
    let first = bytes.iter().take_while(is_trimmed).count();
    let looked_at = bytes[first..].split(|byte| *byte == b'(').next();
    let looked_at = looked_at.expect("a split has a first part");
    if let Some(place) = looked_at.iter().position(|byte| !byte.is_ascii()) {
        return format!("{NON_ASCII} {} 0 0", first + place);
    }
    match inferred::infer(text) {
        Inference::Accepted { kind, dimension } => format!("0 0 {kind} {dimension}"),
        Inference::Refused { number, .. } => format!("{number} {first} 0 0"),
    }
}

#[cfg(test)]
mod tests {
    use super::*;

    fn answer(request: Request, text: &[u8]) -> Expected {
        let text = text.to_vec();
        expected(&Case { request, text })
    }

    #[test]
    fn bytes_that_are_no_text_have_tokens_too() {
        let take = |place, text: &[u8]| answer(Request::Take { place, count: 3 }, text).line;
        assert_eq!(take(0, b"(\xff\xfex 1"), "(@0 word@1:1+3 number@5:5+1");
        let inside_character = take(1, "京 2".as_bytes());
        assert_eq!(inside_character, "word@1:1+2 number@4:4+1 none@5");
        assert_eq!(take(9, b"\xff"), "none@1 none@1 none@1");
    }

    #[test]
    fn readings() {
        for (nodes, numbers, text, line, basis) in [
            (
                3,
                4,
                "POINT(++4 +-4)x 5",
                "0 0 1 2 ; 1 0 1 ; 7 2 11 2 ; 0",
                Basis::Rust,
            ),
            (2, 4, "POINT(1 2)", "3 5 0 0 ;  ;  ; 0", Basis::Limit),
            (3, 3, "POINT(1 2)", "4 8 0 0 ;  ;  ; 0", Basis::Limit),
            (3, 4, "POINT(x 2)", "13 8 0 0 ;  ;  ; 0", Basis::Place),
            (3, 4, "POINT(+)", "28 6 0 0 ;  ;  ; 0", Basis::Place),
            (3, 4, "POINT(1 4x)", "29 9 0 0 ;  ;  ; 0", Basis::Place),
            (3, 4, "POINT(4x 1)", "13 9 0 0 ;  ;  ; 0", Basis::Place),
            (3, 0, "POINT(4x)", "29 7 0 0 ;  ;  ; 0", Basis::Place),
            (3, 0, "POINT(1 4x)", "4 6 0 0 ;  ;  ; 0", Basis::Limit),
            (0, 4, "POINT(x 2)", "3 5 0 0 ;  ;  ; 0", Basis::Limit),
            (
                3,
                0,
                "MULTIPOINT EMPTY",
                "0 0 1 0 ; 4 0 0 ;  ; 0",
                Basis::Rust,
            ),
        ] {
            let expected = answer(Request::Read { nodes, numbers }, text.as_bytes());
            let line = line.to_string();
            assert_eq!(expected, Expected { line, basis }, "{text:?}");
        }
        let ill_formed = answer(
            Request::Read {
                nodes: 3,
                numbers: 4,
            },
            b"POINT\xff",
        );
        assert_eq!(ill_formed.line, "2 5 0 0 ;  ;  ; 0");
    }

    #[test]
    fn stores() {
        let rows = || Rows {
            nodes: vec![2, 0, 1],
            numbers: vec![0, 1, 2, 1],
        };
        let line = |request| answer(request, b"1 2").line;
        let write = |output| {
            line(Request::Write {
                output,
                rows: rows(),
            })
        };
        assert_eq!(write(15), "0 0 15 ; 4c494e45535452494e472831203229 ; 0");
        assert_eq!(write(14), "23 0 0 ;  ; 0");
        assert_eq!(line(Request::Check { rows: rows() }), "0 65 0");
        let mut cut = rows();
        cut.numbers.pop();
        assert_eq!(line(Request::Check { rows: cut.clone() }), "22 0 0");
        let write = Request::Write {
            output: 0,
            rows: cut,
        };
        assert_eq!(line(write), "22 0 0 ;  ; 0");
    }

    #[test]
    fn stored_forms() {
        let rows = Rows {
            nodes: vec![1, 0, 1],
            numbers: vec![0, 1, 2, 1],
        };
        let write = |version, output| {
            let rows = rows.clone();
            let request = Request::WriteStored {
                version,
                output,
                rows,
            };
            answer(request, b"1 2").line
        };
        let hex = "0100050100010002020004010000010300013103000132";
        assert_eq!(write(1, 23), format!("0 0 23 ; {hex} ; 0"));
        assert_eq!(write(1, 22), "23 0 0 ;  ; 0");
        let hex = "0100090200000001000000020200060100000000010300013103000132";
        assert_eq!(write(2, 29), format!("0 0 29 ; {hex} ; 0"));
        assert_eq!(write(2, 28), "23 0 0 ;  ; 0");
    }

    #[test]
    fn stored_forms_read() {
        let one = b"\x01\0\x05\x01\0\x01\0\x02\x02\0\x04\x01\0\0\x01\x03\0\x011\x03\0\x012";
        let two = b"\x01\0\x09\x02\0\0\0\x01\0\0\0\x02\
                    \x02\0\x06\x01\0\0\0\0\x01\x03\0\x011\x03\0\x012";
        let read = |version, nodes, numbers, bytes: &[u8]| {
            let request = Request::ReadStored {
                version,
                nodes,
                numbers,
            };
            answer(request, bytes).line
        };
        assert_eq!(read(1, 5, 4, one), "0 0 1 2 ; 1 0 1 ; 18 1 22 1 ; 0");
        assert_eq!(read(1, 2, 4, one), "3 8 0 0 ;  ;  ; 0");
        assert_eq!(read(1, 3, 3, one), "4 19 0 0 ;  ;  ; 0");
        assert_eq!(read(1, 0, 0, &one[..22]), "25 19 0 0 ;  ;  ; 0");
        assert_eq!(read(2, 5, 4, one), "26 3 0 0 ;  ;  ; 0");
        assert_eq!(read(2, 5, 4, two), "0 0 1 2 ; 1 0 1 ; 24 1 28 1 ; 0");
        assert_eq!(read(2, 2, 4, two), "3 12 0 0 ;  ;  ; 0");
        assert_eq!(read(2, 3, 3, two), "4 25 0 0 ;  ;  ; 0");
        assert_eq!(read(1, 5, 4, two), "26 3 0 0 ;  ;  ; 0");
    }

    #[test]
    fn moves() {
        let one = b"\x01\0\x05\x01\0\x01\0\0\x02\0\x04\x04\x01\0\0";
        let two = b"\x01\0\x09\x02\0\0\0\x01\0\0\0\0\x02\0\x06\x04\x01\0\0\0\0";
        let line = |from, to, nodes, output, bytes: &[u8]| {
            let request = Request::Move(Move {
                from,
                to,
                nodes,
                numbers: 1,
                output,
            });
            answer(request, bytes).line
        };
        let hex_one = "010005010001000002000404010000";
        let hex_two = "010009020000000100000000020006040100000000";
        let up = format!("0 0 21 1 0 ; {hex_two} ; 4 1 0 ;  ; 0");
        assert_eq!(line(1, 2, 3, 21, one), up);
        let back = format!("0 0 15 1 0 ; {hex_one} ; 4 1 0 ;  ; 0");
        assert_eq!(line(2, 1, 5, 16, two), back);
        let same = format!("0 0 15 1 0 ; {hex_one} ; 4 1 0 ;  ; 0");
        assert_eq!(line(1, 1, 3, 15, one), same);
        assert_eq!(line(1, 2, 3, 20, one), "23 0 0 0 0 ;  ;  ;  ; 0");
        assert_eq!(line(2, 1, 2, 20, two), "3 12 0 0 0 ;  ;  ;  ; 0");
        assert_eq!(line(2, 1, 3, 20, one), "26 3 0 0 0 ;  ;  ;  ; 0");
        assert_eq!(line(1, 2, 3, 21, &one[..9]), "25 8 0 0 0 ;  ;  ;  ; 0");
    }

    #[test]
    fn the_longest_text() {
        let read = |text: &[u8]| {
            let request = Request::Read {
                nodes: 3,
                numbers: 4,
            };
            answer(request, text).line
        };
        let mut text = vec![b' '; 4_194_304];
        text[..11].copy_from_slice(b"POINT(1 2) ");
        assert_eq!(read(&text), "0 0 1 2 ; 1 0 1 ; 6 1 8 1 ; 0");
        assert_eq!(answer(Request::Infer, &text).line, "0 0 1 0");
        text[4_194_303] = 0xff;
        assert_eq!(read(&text), "2 4194303 0 0 ;  ;  ; 0");
        assert_eq!(answer(Request::Infer, &text).line, "2 4194303 0 0");
        text.push(b' ');
        assert_eq!(read(&text), "1 4194304 0 0 ;  ;  ; 0");
        assert_eq!(answer(Request::Infer, &text).line, "1 4194304 0 0");
    }

    #[test]
    fn boxes() {
        let line = |table, text: &str| {
            let length = text.len() as u32 - 3;
            let rows = Rows {
                nodes: vec![4, 0, 1, 1, 0, 1],
                numbers: vec![0, 2, 3, length],
            };
            answer(Request::Boxes { table, rows }, text.as_bytes()).line
        };
        let row = "1 -10000000 -10000000 0 1";
        let accepted = format!("0 0 ; {row} {row} ; 0");
        assert_eq!(line(10, "-1 0.00000005"), accepted);
        assert_eq!(line(14, "-1 0.00000005"), accepted);
        assert_eq!(line(9, "-1 0.00000005"), "23 0 ;  ; 0");
        assert_eq!(line(0, "-1 0.00000005e"), "22 0 ;  ; 0");
        assert_eq!(line(10, "-1 0e10000"), "31 3 ;  ; 0");
        assert_eq!(line(10, "-1 -inFiNity"), "30 3 ;  ; 0");
    }

    #[test]
    fn inferences() {
        for (text, line) in [
            ("POINT EMPTY京", "24 11 0 0"),
            (" \x0cPOINTEMPTY", "20 2 0 0"),
            (" \n", "21 2 0 0"),
            ("POLYGON Z(京", "0 0 3 1"),
        ] {
            let inferred = answer(Request::Infer, text.as_bytes());
            assert_eq!(inferred.line, line, "{text:?}");
        }
    }
}
