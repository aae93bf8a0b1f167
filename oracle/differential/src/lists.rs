//! Fixed lists of records with the expected answers, for the gate to replay: the
//! Rust's own tests, the edges of document 01, then generated texts; first under the
//! letters of tokens, then under `r` and `i`, then stores under `w` and `s`, whole ranges of
//! bytes and refusals, bad numbers, and records that have no answer. The order of the sections
//! is fixed and the seed decides the rest.

use crate::bad_number_lists;
use crate::bad_numbers::{GOES_WRONG, NOTHING_AFTER_PLUS};
use crate::boxes;
use crate::cases::{self, Case, Letter};
use crate::expected::expected;
use crate::moves;
use crate::random::Random;
use crate::range_lists;
use crate::store_lists;
use crate::stored::{self, Room, Version};
use crate::stores;
use crate::texts::Texts;
use driver::answer::{self, BAD_RECORD, NOT_COMPARABLE, NOT_UTF8, STACK_BYTES};
use driver::record::{Move, Request, Rows, MAX_TEXT};
use driver::tokens;
use std::collections::BTreeMap;
use std::path::Path;
use std::{fs, io, thread};

/// The texts of the tests in tokenizer.rs, but for those of one character repeated.
const TESTED_TEXTS: [&str; 9] = [
    "",
    "hello",
    "hello world",
    "4.2",
    "+4.2",
    "4.2p",
    "¾",
    ".4 -2",
    "POINT (10 -20)",
];

/// `test_no_stack_overflow` of tokenizer.rs repeats each of these so many times.
const REPEATED: usize = 100_000;
/// One token, or none, in the whole text: found only by passing over all of it.
const REPEATED_AS_ONE: [&str; 4] = ["+", " ", "A", "1"];
/// A token each: the last ones are demanded, to keep the line short.
const REPEATED_AS_MANY: [&str; 3] = ["(", ")", ","];
const LAST_TOKENS: usize = 10;

/// The edges of document 01 (and its decided open points), as texts of tokens.
const EDGES: &[&str] = &[
    "POINT",
    "POINT 4x",
    "POINT(x 2)",
    "POINT(1 x)",
    "POINT(+ 5)",
    "POINT(1 \0)",
    "POINT(1 ",
    "POINT(++4 +-4)",
    "MULTIPOINT((1 2),3 4)",
    "MULTIPOINT(1 2,EMPTY)",
    "POINTZ Z(1 2 3)",
    "LINEARRINGZ(1 2 3)",
    "GEOMETRYCOLLECTION(京)",
    "GEOMETRYCOLLECTION(京(1 2))",
    "GEOMETRYCOLLECTION Z(POINT(1 2))",
    "GEOMETRYCOLLECTION(POINT foo)",
    "GEOMETRYCOLLECTION(POINT 4x)",
    "GEOMETRYCOLLECTION(POINT \0)",
    "GEOMETRYCOLLECTION(POINTZ \0)",
    "POINT(1 2)",
    "POINT Z(1 2 +3)",
    "POINT(++4 +inf)",
    "POINTEMPTY",
    "\0",
    "\0\0",
    " \0 \0 ",
    "a\0b",
    "1\x002",
    "+\x00",
    "a\0",
    " \t\n\r",
    " \t\n\ra \t\n\rb",
    "\x0b",
    "\x0c1",
    "1\x0b",
    "1\u{a0}2",
    "\u{a0}",
    "\u{2028}a",
    "\u{feff}1",
    "a+1",
    "a.b-c",
    "1(2)3,4",
    "(),(),",
    "a(b)c,d",
    "1e 5",
];

/// Number texts, good and bad, a blank between.
pub const NUMBER_TEXTS: &str = "\
    0 -0 +0 00 007 1 -1 +1 ++1 +-1 -+1 --1 +++1 ++-1 1. .1 -.1 +.1 1.0 1.2.3 . - + ++ +- \
    +. -. .. 1.. ..1 1e5 1E5 1e+5 1e-5 1e 1e+ 1e- 1e++5 1e5.0 1e5e5 e5 .e5 1.e5 .1e5 \
    -.1e-5 +.e 1ee5 1e400 1e-400 -1e400 0e10000 1e00000000000000000005 inf +inf -inf \
    ++inf +-inf -+inf +INF -Inf +iNf infinity +infinity -infinity +INFINITY -InFiNiTy \
    nan +nan -nan ++nan +NaN -NAN +i +in +infi +infin +infini +infinit +infinityx -infx \
    +n +na -nanx +inf1 -1inf 1nan +infe5 1_0 0x10 1f 1d 1/2 1:2 1e5x 1京 +京 -¾ 1\u{660} \
    123456789012345678901234567890 0.00000000000000000000000000000000001 \
    179769313486231570000e289 4.9e-324";

/// Texts with room for one node row or one number row less than they need, or for
/// just enough: node places, number places, text.
const TIGHT_ROOMS: [(u32, u32, &str); 14] = [
    (0, 0, ""),
    (0, 4, "POINT(1 2)"),
    (2, 4, "POINT(1 2)"),
    (3, 2, "POINT(1 2)"),
    (3, 3, "POINT(1 2)"),
    (3, 4, "POINT(1 2)"),
    (5, 5, "POINT(1 2)"),
    (0, 0, "POINT EMPTY"),
    (3, 0, "POINT EMPTY"),
    (3, 9, "MULTIPOINT("),
    (3, 9, "MULTIPOINT()"),
    (6, 9, "MULTIPOINT(1 2,3 4)"),
    (5, 9, "GEOMETRYCOLLECTION(POINT(1 2))"),
    (3, 9, "GEOMETRYCOLLECTION(POINT x"),
];

/// What begins a collection; open as often as may be, and once more.
pub const COLLECTION: &str = "GEOMETRYCOLLECTION(";
pub const MOST_OPEN: usize = 32;

/// Lengths around the largest number of two bytes, and up to the longest text of a record:
/// no record holds so long a text that it isn't read for its length.
pub const LONG: [usize; 5] = [65_535, 65_536, 65_537, 100_000, MAX_TEXT];

/// More edges of document 01 for infer_type.
const INFERRED: &[&str] = &[
    "POINTZ EMPTY",
    "POINT Z EMPTY",
    "POINTEMPTY",
    "POINT EMPTY京",
    "POINT EMPTY(",
    "LINEARRING(1 2)",
    "POıNT(",
    "LINEſTRING(1 2)",
    "\u{a0}POINT(",
    "\x0b\x0c POLYGON ZM(",
    "京",
    "POLYGON M(京)",
];

/// How many generated records of these letters there are, spread over their answers.
const READINGS: usize = 3_120;
const INFERENCES: usize = 500;
const WRITINGS: usize = 400;
const CHECKS: usize = 400;

/// Generated texts under these letters are short.
const MOST_TEXT_BYTES: usize = 64;
/// Generated stores are smaller.
const MOST_PLACES: usize = 48;
/// And so are stored bytes.
const MOST_BYTES: usize = 160;

/// Writes `stdin` and `stdout` into the directory, with so many generated answers of
/// tokens.
pub fn write(seed: u64, generated: usize, directory: &Path) -> io::Result<()> {
    let mut cases = tested();
    cases.extend(edges());
    cases.extend(places());
    cases.extend(generate(seed, generated));
    cases.extend(edges_read());
    cases.extend(edges_inferred());
    cases.extend(spread(seed, Letter::Read, READINGS));
    cases.extend(spread(seed, Letter::Infer, INFERENCES));
    cases.extend(store_lists::cases());
    cases.extend(spread(seed, Letter::Write, WRITINGS));
    cases.extend(spread(seed, Letter::Check, CHECKS));
    cases.extend(range_lists::cases());
    cases.extend(bad_number_lists::cases());
    write_files(&cases, &store_lists::bad_records(), b's', directory)
}

/// Writes the records with their answers, then bodies of records that have none and, last,
/// a record of a letter that is cut.
pub fn write_files(
    cases: &[Case],
    bad: &[Vec<u8>],
    letter: u8,
    directory: &Path,
) -> io::Result<()> {
    let mut stream = cases::encode(cases);
    let mut lines = answers(cases)?;
    for record in bad {
        stream.extend((record.len() as u32).to_le_bytes());
        stream.extend(record);
        lines += &format!("{BAD_RECORD}\n");
    }
    stream.extend([9, 0, 0, 0, letter]);
    lines += &format!("{BAD_RECORD}\n");
    fs::create_dir_all(directory)?;
    fs::write(directory.join("stdin"), stream)?;
    fs::write(directory.join("stdout"), lines)?;
    println!("{} records with their answers", cases.len() + bad.len() + 1);
    Ok(())
}

/// The line for each case.
pub fn answers(cases: &[Case]) -> io::Result<String> {
    thread::scope(|scope| {
        let answering = thread::Builder::new()
            .stack_size(STACK_BYTES)
            .spawn_scoped(scope, || {
                let lines = cases.iter().map(|case| expected(case).line + "\n");
                lines.collect::<String>()
            })?;
        Ok(answering.join().expect("every record has an answer"))
    })
}

pub fn tested() -> Vec<Case> {
    let short = TESTED_TEXTS.iter().flat_map(|text| both(text, 0));
    let as_one = REPEATED_AS_ONE.iter().map(|unit| {
        let request = Request::Take { place: 0, count: 3 };
        repeated(unit, request)
    });
    let as_many = REPEATED_AS_MANY.iter().map(|unit| {
        let request = Request::Take {
            place: (REPEATED - LAST_TOKENS) as u32,
            count: (LAST_TOKENS + 2) as u32,
        };
        repeated(unit, request)
    });
    short.chain(as_one).chain(as_many).collect()
}

fn repeated(unit: &str, request: Request) -> Case {
    let text = unit.repeat(REPEATED).into_bytes();
    Case { request, text }
}

pub fn edges() -> Vec<Case> {
    let texts = EDGES.iter().copied().chain(NUMBER_TEXTS.split(' '));
    texts.flat_map(|text| both(text, 0)).collect()
}

/// Every place of a few texts, and places past the end.
pub fn places() -> Vec<Case> {
    let mut cases = Vec::new();
    for text in ["", " +1 \0(京, ++inf)x", "POINT Z(1 2 +3)"] {
        let characters = text.char_indices().map(|(place, _)| place);
        let past_end = [text.len(), text.len() + 1, u32::MAX as usize];
        for place in characters.chain(past_end) {
            cases.extend(both(text, place));
        }
    }
    cases
}

/// Letters `t` and `p` of a text, the true end met twice.
fn both(text: &str, place: usize) -> [Case; 2] {
    let count = tokens::demands_past_end(text, place).expect("the place is a character's") as u32;
    let place = place as u32;
    let requests = [
        Request::Take { place, count },
        Request::LookAndTake { place, count },
    ];
    requests.map(|request| Case {
        request,
        text: text.as_bytes().to_vec(),
    })
}

/// Generated texts under both letters in turn, those that the Rust can answer.
fn generate(seed: u64, count: usize) -> Vec<Case> {
    const LONGEST: usize = 120;
    let mut texts = Texts::new(seed);
    let mut random = Random::new(!seed);
    let mut cases = Vec::new();
    while cases.len() < count {
        let text = texts.next_short();
        let letter = match cases.len() % 2 {
            0 => Letter::Take,
            _ => Letter::LookAndTake,
        };
        let case = letter.case(&mut random, text);
        if case.text.len() <= LONGEST && has_answer(&case) {
            cases.push(case);
        }
    }
    cases
}

fn has_answer(case: &Case) -> bool {
    let line = answer::line(&case.record());
    line != NOT_UTF8 && line != NOT_COMPARABLE
}

/// The edges as readings: with room for all, in tight rooms, at the limit of depth, and in
/// long texts.
fn edges_read() -> Vec<Case> {
    let roomy = [""].iter().chain(EDGES).map(|text| {
        let places = 6 * text.len() as u32;
        read_case(places, places, text.to_string())
    });
    let tight = TIGHT_ROOMS
        .iter()
        .map(|(nodes, numbers, text)| read_case(*nodes, *numbers, text.to_string()));
    let nested = [MOST_OPEN, MOST_OPEN + 1].map(|depth| {
        let text = COLLECTION.repeat(depth) + "POINT(1 2" + &")".repeat(depth + 1);
        read_case(3 * 34, 4, text)
    });
    // 5 before 3 at one `(`.
    let deep_and_full = read_case(3 * 32, 0, COLLECTION.repeat(MOST_OPEN + 1));
    let long = LONG.map(|length| read_case(3, 4, point_and_blanks(length)));
    let cases = roomy.chain(tight).chain(nested);
    cases.chain([deep_and_full]).chain(long).collect()
}

fn read_case(nodes: u32, numbers: u32, text: String) -> Case {
    Case {
        request: Request::Read { nodes, numbers },
        text: text.into_bytes(),
    }
}

fn edges_inferred() -> Vec<Case> {
    let short = EDGES.iter().chain(INFERRED).map(|text| text.to_string());
    let texts = short.chain([LONG[1], MAX_TEXT].map(point_and_blanks));
    let cases = texts.map(|text| Case {
        request: Request::Infer,
        text: text.into_bytes(),
    });
    cases.collect()
}

pub fn point_and_blanks(length: usize) -> String {
    const POINT: &str = "POINT(1 2)";
    POINT.to_string() + &" ".repeat(length - POINT.len())
}

/// The versions of the stored forms that are read and written, else 0; a refusal's number with, of
/// 22, the clause that is broken, of 25, what is wrong with which field, of 30 and 31, what is wrong
/// with X or with Y and, of a bad number, whether it stands at the root; or 0 with the kind that was
/// read or written, of boxes with the dimension too, or, of the strict check, a rule's letter.
type Class = ([u8; 2], u32, u32);

/// Generated texts under one letter, spread evenly over the classes of answers and, in
/// each class, over the texts that were drawn.
pub fn spread(seed: u64, letter: Letter, count: usize) -> Vec<Case> {
    const DRAWN: usize = 1_000_000;
    let mut texts = Texts::new(seed);
    let mut random = Random::new(!seed);
    let mut by_class: BTreeMap<Class, Vec<Case>> = BTreeMap::new();
    for _ in 0..DRAWN {
        let text = texts.next_short();
        if text.len() <= MOST_TEXT_BYTES {
            let case = letter.case(&mut random, text);
            if is_small(&case) {
                by_class.entry(class(&case)).or_default().push(case);
            }
        }
    }
    let share = count / by_class.len();
    let cases = by_class.into_values().flat_map(|cases| {
        let step = (cases.len() / share).max(1);
        cases.into_iter().step_by(step).take(share)
    });
    cases.collect()
}

fn is_small(case: &Case) -> bool {
    let places = |rows: &Rows| rows.nodes.len() + rows.numbers.len();
    match &case.request {
        Request::Write { rows, .. } | Request::Check { rows } => places(rows) <= MOST_PLACES,
        Request::WriteStored { rows, .. } | Request::Boxes { rows, .. } => {
            places(rows) <= MOST_PLACES && case.text.len() <= MOST_BYTES
        }
        Request::ReadStored { .. } | Request::Move(_) => case.text.len() <= MOST_BYTES,
        Request::Read { .. } => case.text.len() <= MOST_TEXT_BYTES,
        _ => true,
    }
}

fn class(case: &Case) -> Class {
    let versions = match &case.request {
        Request::WriteStored { version, .. } => [0, *version],
        Request::ReadStored { version, .. } => [*version, 0],
        Request::Move(asked) => [asked.from, asked.to],
        _ => [0, 0],
    };
    let (number, sort) = match &case.request {
        Request::Move(asked) => move_outcome(&case.text, asked),
        _ => outcome(case),
    };
    (versions, number, sort)
}

/// The number of a move's class, and what it is told apart by: within a version, nothing.
fn move_outcome(bytes: &[u8], asked: &Move) -> (u32, u32) {
    let (number, sort) = match moves::moved(bytes, asked) {
        Ok(moved) => (0, moved.rows.nodes[0]),
        Err(refusal) => (refusal.number(), refusal.sort()),
    };
    match asked.from == asked.to {
        true => (number, 0),
        false => (number, sort),
    }
}

/// The number of a class, and what it is told apart by.
fn outcome(case: &Case) -> (u32, u32) {
    let line = expected(case).line;
    let numbers: Vec<u32> = line
        .split_whitespace()
        .filter_map(|field| field.parse().ok())
        .collect();
    match (numbers[0], &case.request) {
        // `0 0 NODES NUMBERS ; KIND ..`
        (0, Request::Read { .. } | Request::ReadStored { .. }) => (0, numbers[4]),
        (0, Request::Write { rows, .. } | Request::WriteStored { rows, .. }) => (0, rows.nodes[0]),
        // Every kind and dimension.
        (0, Request::Boxes { rows, .. }) => (0, 8 * rows.nodes[1] + rows.nodes[0]),
        // `0 LETTER ROW`
        (0, Request::Check { .. }) => (0, numbers[1]),
        // `0 0 KIND DIMENSION`
        (0, _) => (0, numbers[2]),
        (
            22,
            Request::Write { rows, .. }
            | Request::Check { rows }
            | Request::WriteStored { rows, .. },
        ) => (22, clause(&case.text, rows)),
        (refusal, Request::ReadStored { .. }) => (refusal, stored_sort(case)),
        (refusal, Request::Boxes { table, rows }) => {
            let table = boxes::table(&case.text, rows, *table as usize);
            (refusal, table.expect_err("it is refused").sort())
        }
        (refusal @ (NOTHING_AFTER_PLUS | GOES_WRONG), _) => {
            (refusal, u32::from(begins_with_number(&case.text)))
        }
        (refusal, _) => (refusal, 0),
    }
}

/// What a refused stored reading is told apart by.
fn stored_sort(case: &Case) -> u32 {
    let Request::ReadStored {
        version,
        nodes,
        numbers,
    } = case.request
    else {
        unreachable!("a stored reading")
    };
    let room = Room::of(nodes, numbers);
    let read = stored::read(&case.text, Version::of(version), room);
    read.expect_err("it is refused").sort()
}

fn begins_with_number(text: &[u8]) -> bool {
    let first = text.iter().find(|byte| !b" \t\n\r".contains(byte));
    matches!(first, Some(b'.' | b'-' | b'+' | b'0'..=b'9'))
}

fn clause(text: &[u8], rows: &Rows) -> u32 {
    match stores::tree(text, rows) {
        Ok(_) => unreachable!("the store is ill formed"),
        Err(clause) => clause as u32,
    }
}
