//! Single long texts at the edges of the reader and of the tokens: as many rows as a text can
//! have, one token that is all of it, collections far too deep, refusals behind all of it.

use crate::box_lists;
use crate::cases::Case;
use crate::expected::MAX_READ_BYTES;
use crate::lists::{COLLECTION, MOST_OPEN};
use crate::long_cases::Long;
use crate::move_lists::move_places;
use crate::store_lists;
use crate::stored::VERSIONS;
use crate::stored_lists::{form_of, read_places, write_stored};
use driver::record::Request;

/// Each makes a few cases, so that not all are held at a time.
pub const EDGES: [fn() -> Vec<Case>; 8] = [
    most_numbers,
    most_nodes,
    one_token,
    many_tokens,
    too_deep,
    bad_numbers,
    not_utf8,
    over_the_limit,
];

/// The most bytes that a text has that is read.
const MOST: usize = MAX_READ_BYTES;
/// Tokens are demanded from so many bytes before the end.
const LAST_BYTES: usize = 10;
/// So many collections lie in each other; the Rust's reader has no limit but its stack.
const DEEP: usize = 40_000;

/// An item over and over, with a comma between, and blanks behind up to the most bytes.
fn repeated(open: &str, item: &str) -> String {
    let count = (MOST - open.len()) / (item.len() + 1);
    let mut text = open.to_string() + &format!("{item},").repeat(count);
    text.pop();
    text.push(')');
    text.extend(std::iter::repeat_n(
        ' ',
        MOST - open.len() - count * (item.len() + 1),
    ));
    text
}

/// As many numbers as a text can have, two bytes for each.
fn most_numbers() -> Vec<Case> {
    dense(&Long::new(repeated("LINESTRING(", "1 2")))
}

/// As many nodes as a text can have that is read, four bytes for each.
fn most_nodes() -> Vec<Case> {
    dense(&Long::new(repeated("MULTIPOINT(", "3 4")))
}

/// Read with just enough rows and with one less of either sort, written, checked, stored there
/// and back, and moved; version 1 can't hold so many.
fn dense(long: &Long) -> Vec<Case> {
    let (nodes, numbers) = long.places();
    let lent = long.lent();
    let read = |nodes, numbers| {
        let request = Request::Read { nodes, numbers };
        case(request, lent.text.clone())
    };
    let [one, two] = VERSIONS;
    let form = form_of(two, &lent);
    let length = form.len() as u32;
    vec![
        read(nodes, numbers),
        read(nodes - 3, numbers),
        read(nodes, numbers - 2),
        lent.write(lent.length()),
        lent.write(lent.length() - 1),
        lent.check(),
        box_lists::boxes(&lent, box_lists::needed(&lent)),
        write_stored(one, &lent, length),
        write_stored(two, &lent, length),
        write_stored(two, &lent, length - 1),
        read_places(two, form.clone(), nodes, numbers),
        read_places(two, form.clone(), nodes - 3, numbers),
        read_places(two, form.clone(), nodes, numbers - 2),
        read_places(one, form.clone(), nodes, numbers),
        move_places(two, one, form.clone(), (nodes, numbers), length),
        move_places(two, two, form, (nodes, numbers), length),
    ]
}

/// All of the text is one token, or none; the token reader has no limit.
fn one_token() -> Vec<Case> {
    let texts = ["A", "1", " ", "+", "\0"].map(|unit| unit.repeat(MOST + 1).into_bytes());
    let cases = texts.into_iter().enumerate().map(|(index, text)| {
        let (place, count) = (0, 3);
        let request = match index % 2 {
            0 => Request::Take { place, count },
            _ => Request::LookAndTake { place, count },
        };
        case(request, text)
    });
    cases.collect()
}

/// The last of as many tokens as there are bytes.
fn many_tokens() -> Vec<Case> {
    let texts = ["(", ")", ","].map(|unit| unit.repeat(MOST + 1).into_bytes());
    let cases = texts.into_iter().map(|text| {
        let request = Request::Take {
            place: (text.len() - LAST_BYTES) as u32,
            count: LAST_BYTES as u32 + 2,
        };
        case(request, text)
    });
    cases.collect()
}

/// Nothing but collections in each other, with many rows and with few (5 before 3); and as
/// deep as they may be and one more behind many members.
fn too_deep() -> Vec<Case> {
    let mut deep = COLLECTION.repeat(DEEP);
    deep.extend(std::iter::repeat_n(' ', MOST - deep.len()));
    let rows = [99, 96, 93].into_iter();
    let cases = rows.map(|nodes| read(nodes, 2, deep.clone()));
    // With the root there is one more.
    let behind = [MOST_OPEN - 1, MOST_OPEN].into_iter().map(|depth| {
        let last = store_lists::nested(depth, "POINT EMPTY");
        let room = MOST - last.len() - 1;
        let mut text = repeated(COLLECTION, "POINT(1 2)");
        text.truncate(room);
        let end = text.rfind("P").unwrap_or_default();
        text.replace_range(end.., &" ".repeat(room - end));
        let half = MOST as u32 / 2;
        read(3 * half, 2 * half, format!("{text}{last})"))
    });
    cases.chain(behind).collect()
}

/// A number of as many bytes as there is room for that goes wrong at its last one, and a plus
/// with nothing behind it.
fn bad_numbers() -> Vec<Case> {
    let digits = "7".repeat(MOST - "POINT(1 x)".len());
    let plus = " ".repeat(MOST - "POINT(1 +)".len());
    vec![
        read(3, 4, format!("POINT(1 {digits}x)")),
        read(3, 4, format!("POINT({digits}x 1)")),
        read(3, 4, format!("POINT(1 {plus}+)")),
        read(3, 4, format!("{digits}POINT(1 x)")),
    ]
}

/// The last byte isn't UTF-8, be it looked at for anything else or not.
fn not_utf8() -> Vec<Case> {
    let mut text = repeated("LINESTRING(", "1 2").into_bytes();
    text[MOST - 1] = 0xFF;
    let wide = "京".repeat(MOST / 3);
    let cut = [wide.as_bytes(), b"\xe4"].concat();
    vec![
        case(Request::Infer, text.clone()),
        case(read_request(3, 4), text),
        case(Request::Infer, cut.clone()),
        case(read_request(3, 4), cut),
    ]
}

/// 1 before 2, whatever stands in the text.
fn over_the_limit() -> Vec<Case> {
    let texts = [
        repeated("LINESTRING(", "1 2").into_bytes(),
        vec![0xFF; MOST],
        vec![b' '; MOST],
        Vec::new(),
    ];
    let cases = texts.into_iter().flat_map(|mut text| {
        text.resize(MOST + 1, 0xFF);
        [
            case(read_request(3, 4), text.clone()),
            case(Request::Infer, text),
        ]
    });
    cases.collect()
}

fn read_request(nodes: u32, numbers: u32) -> Request {
    Request::Read { nodes, numbers }
}

fn read(nodes: u32, numbers: u32, text: String) -> Case {
    case(read_request(nodes, numbers), text.into_bytes())
}

fn case(request: Request, text: Vec<u8>) -> Case {
    Case { request, text }
}

#[cfg(test)]
mod tests {
    use super::*;
    use crate::expected::expected;
    use driver::answer::STACK_BYTES;
    use std::thread;

    /// Number and place of each.
    fn answers(cases: Vec<Case>) -> Vec<(u32, usize)> {
        let answer = |case: &Case| {
            let line = expected(case).line;
            let mut fields = line.split(' ').map(|field| field.parse().ok());
            let mut next = || fields.next().flatten().expect("a number");
            (next() as u32, next())
        };
        let answering = thread::Builder::new()
            .stack_size(STACK_BYTES)
            .spawn(move || cases.iter().map(answer).collect());
        let answering = answering.expect("there is memory for a stack");
        answering.join().expect("every record has an answer")
    }

    #[test]
    fn collections_too_deep() {
        // The 32nd and the 33rd `(`, of 19 bytes each.
        let (before, at) = (32 * 19 - 1, 33 * 19 - 1);
        let deep = [(5, at), (5, at), (3, before)];
        // One `(` more than is open, before the point and 33 closing ones.
        let behind = MOST - 33 - "POINT EMPTY".len() - 1;
        assert_eq!(
            answers(too_deep()),
            [&deep[..], &[(0, 0), (5, behind)]].concat()
        );
    }

    #[test]
    fn refusals_behind_all_of_the_text() {
        let numbers = [(29, MOST - 2), (13, MOST - 2), (28, MOST - 2)];
        let root = (29, MOST - "POINT(1 x)".len());
        assert_eq!(answers(bad_numbers()), [&numbers[..], &[root]].concat());
        let last = MOST - 1;
        assert_eq!(answers(not_utf8()), [(2, last); 4]);
        assert_eq!(answers(over_the_limit()), [(1, MOST); 8]);
    }

    #[test]
    fn repeated_items_fill_the_text() {
        for item in ["1 2", "12345 6"] {
            let text = repeated("LINESTRING(", item);
            assert_eq!(text.len(), MOST);
            assert!(text.trim_end().ends_with(&format!("{item})")));
        }
    }
}
