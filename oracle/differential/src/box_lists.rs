//! The fixed list of the program `replay_store`, for the letter `b`: each clause of "A store is
//! well formed if .." broken by itself, tables of every length near what is needed, number
//! texts at the edges as X and as Y, words in every case and place, two at fault in every two
//! places, every kind and dimension, where in a tree the lowest and the highest stand, numbers
//! of thousands of digits, spans of every sort. Then generated records. No record comes twice.

use crate::box_numbers::{SOUND, TOO_LARGE, WORDS};
use crate::boxes::ROW_PLACES;
use crate::cases::{self, Case, Letter};
use crate::lists;
use crate::store_lists::{self, Lent};
use driver::record::{Request, MAX_SLICE, MAX_TEXT};
use std::collections::HashSet;
use std::io;
use std::path::Path;

/// A table for any short store.
const ROOMY: u32 = 300;

/// Writes `stdin` and `stdout` into the directory, with about so many generated records.
pub fn write(seed: u64, generated: usize, directory: &Path) -> io::Result<()> {
    let mut cases = fixed();
    cases.extend(lists::spread(seed, Letter::Boxes, generated));
    let mut seen = HashSet::new();
    cases.retain(|case| seen.insert(cases::encode(std::slice::from_ref(case))));
    lists::write_files(&cases, &bad_records(), b'b', directory)
}

/// All records that aren't drawn, in a fixed order.
fn fixed() -> Vec<Case> {
    let mut cases = tables();
    cases.extend(sound_numbers());
    cases.extend(numbers_at_fault());
    cases.extend(words());
    cases.extend(orders());
    cases.extend(long_numbers());
    cases.extend(ill_formed());
    cases.extend(every_kind());
    cases.extend(trees());
    cases.extend(pairs());
    cases.extend(spans());
    cases.extend(many_nodes());
    cases
}

pub fn boxes(lent: &Lent, table: u32) -> Case {
    let rows = lent.rows.clone();
    Case {
        request: Request::Boxes { table, rows },
        text: lent.text.clone(),
    }
}

/// The places that the rows of a store need.
pub fn needed(lent: &Lent) -> u32 {
    (ROW_PLACES * lent.rows.nodes.len() / 3) as u32
}

/// With a table that has just room.
fn with_room(lent: &Lent) -> Case {
    boxes(lent, needed(lent))
}

/// A text that is read, with just room.
fn read(text: &str) -> Case {
    with_room(&Lent::read(text))
}

/// A point of these number texts.
fn point(numbers: &[&str]) -> Lent {
    let text = numbers.join(" ");
    let spans = numbers.iter().scan(0, |start, number| {
        let length = number.len() as u32;
        let span = [*start, length];
        *start += length + 1;
        Some(span)
    });
    let spans: Vec<_> = spans.collect();
    // XY, XYZ, XYZM.
    let dimension = [0, 1, 3][numbers.len() - 2];
    Lent::of(text.as_bytes(), &[[1, dimension, 1]], &spans)
}

/// Tables of no place, of too few, of just enough and of more, whole rows or not. Too small a
/// table comes before a number at fault.
fn tables() -> Vec<Case> {
    let mut cases = Vec::new();
    for text in [
        "POINT EMPTY",
        "POINT(1 2)",
        "MULTIPOINT(1 2,3 4)",
        "POLYGON((1 2,3 4,5 6,1 2),EMPTY)",
        "GEOMETRYCOLLECTION(POINT Z(1 2 3),LINESTRING EMPTY)",
        "POINT(+inf 2)",
        "MULTIPOINT(1 1e11,+inf 0e10000)",
    ] {
        let lent = Lent::read(text);
        let needed = needed(&lent);
        let fewer = [0, 1, 4, 5, needed.saturating_sub(6), needed - 5, needed - 1];
        let more = [0, 1, 4, 5, 9, 70].map(|more| needed + more);
        cases.extend(fewer.map(|places| boxes(&lent, places)));
        cases.extend(more.map(|places| boxes(&lent, places)));
    }
    cases.push(boxes(&Lent::read("POINT(1 2)"), MAX_SLICE));
    cases
}

/// As X and as Y; with the other sign; digits at each place around a unit.
fn sound_numbers() -> Vec<Case> {
    let mut texts: Vec<String> = SOUND.iter().map(|text| text.to_string()).collect();
    for power in -12..=10 {
        texts.push(format!("1e{power}"));
        texts.push(format!("9.5e{}", power - 1));
    }
    for digit in 0..=9 {
        texts.push(format!("0.0000000{digit}"));
        texts.push(format!("0.000000{digit}"));
        texts.push(format!("1.2345678{digit}"));
        texts.push(format!("98765.43210980000000000000000{digit}"));
    }
    for places in 0..12 {
        texts.push(format!("0.{}1", "0".repeat(places)));
        texts.push(format!("9.{}", "9".repeat(places)));
    }
    let points = texts.iter().flat_map(|text| {
        let unsigned = text.trim_start_matches(['-', '+']);
        let negative = format!("-{unsigned}");
        [point(&[text, "1"]), point(&[&negative, text])]
    });
    let others = store_lists::number_texts();
    points.chain(others).map(|lent| with_room(&lent)).collect()
}

/// As X, as Y, as Z and as M, where they aren't looked at.
fn numbers_at_fault() -> Vec<Case> {
    let points = TOO_LARGE.iter().flat_map(|text| {
        [
            point(&[text, "1"]),
            point(&["-2.5", text]),
            point(&["1", "2", text, text]),
        ]
    });
    points.map(|lent| with_room(&lent)).collect()
}

/// In three cases of letters, with each sign.
fn words() -> Vec<Case> {
    let spellings = WORDS.iter().flat_map(|word| {
        let upper = word.to_ascii_uppercase();
        let mixed = [&word[..1], &upper[1..2], &word[2..]].concat();
        [word.to_string(), upper, mixed]
    });
    let texts =
        spellings.flat_map(|spelling| ["", "+", "-"].map(|sign| sign.to_string() + &spelling));
    texts.flat_map(|text| at_each_axis(&text)).collect()
}

/// Points with the text as X, as Y, as Z and as M.
fn at_each_axis(text: &str) -> [Case; 4] {
    [0, 1, 2, 3].map(|axis| {
        let mut numbers = ["1", "2", "3", "4"];
        numbers[axis] = text;
        with_room(&point(&numbers))
    })
}

/// Texts with places for numbers.
const WITH_PLACES: [&str; 3] = [
    "LINESTRING Z(# # #,# # #)",
    "MULTIPOINT(# #,# #)",
    "GEOMETRYCOLLECTION(POINT(# #),POINT EMPTY,MULTIPOINT M(# # #),LINESTRING(# #))",
];

/// One of each sort at fault in every place, and two of them in every two places.
fn orders() -> Vec<Case> {
    let mut cases = Vec::new();
    for text in WITH_PLACES {
        let count = text.matches('#').count();
        for first in 0..count {
            let alone = ["+inf", "-NaN", "1e11", "1e-10000"];
            cases.extend(alone.map(|fault| read(&filled(text, &[(first, fault)]))));
            let later = first + 1..count;
            cases.extend(later.flat_map(|second| both_at_fault(text, first, second)));
        }
    }
    cases
}

/// The last of them has but one at fault.
fn both_at_fault(text: &str, first: usize, second: usize) -> [Case; 3] {
    let faults = [("+inf", "1e11"), ("0e10000", "-nan"), ("-1e11", "1e10")];
    faults.map(|(one, other)| read(&filled(text, &[(first, one), (second, other)])))
}

/// The text with a number at each place, some of them these.
fn filled(text: &str, numbers: &[(usize, &str)]) -> String {
    let mut parts = text.split('#');
    let mut filled = parts.next().unwrap_or_default().to_string();
    for (index, part) in parts.enumerate() {
        let given = numbers.iter().find(|(place, _)| *place == index);
        let other = (index + 1).to_string();
        filled += given.map_or(other.as_str(), |(_, number)| number);
        filled += part;
    }
    filled
}

/// Thousands of digits before the point and behind it, that matter or not, and exponents of
/// 9,999 that undo thousands of zeros.
fn long_numbers() -> Vec<Case> {
    let zeros = "0".repeat(5_000);
    let nines = "9".repeat(5_000);
    let texts = [
        format!("{zeros}1.5"),
        format!("-1.{zeros}1"),
        format!("9999999999.{nines}"),
        format!("10000000000.{zeros}"),
        format!("10000000000.{zeros}1"),
        format!("-{nines}e-4990"),
        format!("1{zeros}1e-4991"),
        format!("1e-{}8", &zeros[..300]),
        format!("{}.5", &nines[..300]),
    ];
    let cancelling = [
        format!("-0.{}1e9999", "0".repeat(9_998)),
        format!("1{}e-9999", "0".repeat(9_999)),
    ];
    let numbers = texts.iter().chain(&cancelling);
    let points = numbers.enumerate().map(|(index, number)| match index % 2 {
        0 => point(&[number, "1"]),
        _ => point(&["1", number]),
    });
    points.map(|lent| with_room(&lent)).collect()
}

/// Ill-formed stores, with many places and with none (22 before 23), and with numbers at fault
/// (22 before 30 and 31).
fn ill_formed() -> Vec<Case> {
    let mut cases = Vec::new();
    for (index, (_, lent)) in store_lists::broken().iter().enumerate() {
        cases.push(boxes(lent, ROOMY));
        if index % 3 == 0 {
            cases.push(boxes(lent, 0));
        }
    }
    for fault in ["inf", "1e11", "0e10000"] {
        let mut extra_row = point(&[fault, "1"]);
        extra_row.rows.nodes.extend([1, 0, 0]);
        let mut half_row = point(&[fault, "1"]);
        half_row.rows.numbers.push(0);
        let no_lexeme = point(&[fault, "x"]);
        let span = [0, fault.len() as u32];
        let no_number = Lent::of(fault.as_bytes(), &[[1, 1, 1]], &[span, span]);
        let broken = [extra_row, half_row, no_lexeme, no_number];
        cases.extend(broken.iter().map(|lent| boxes(lent, ROOMY)));
    }
    cases
}

/// Number texts to go through, one after the other; all of them have a box.
const NUMBERS: [&str; 11] = [
    "1",
    "-2.5",
    ".00000003",
    "++4",
    "-0",
    "1e5",
    "-.07E-6",
    "007",
    "-123456.78901234",
    "6e-9",
    "1E10",
];

/// Every kind and dimension, with just room, with places that make no row and with too few.
fn every_kind() -> Vec<Case> {
    let mut cases = Vec::new();
    let lent = store_lists::of_every_kind_with(&NUMBERS);
    for lent in lent.iter().chain(&store_lists::more_well_formed()) {
        let needed = needed(lent);
        cases.extend([needed, needed + 3, needed - 1].map(|places| boxes(lent, places)));
    }
    cases
}

/// Where in a tree the lowest and the highest stand, and nodes without coordinates.
const TREES: &[&str] = &[
    "LINESTRING(1 2,3 4,5 6)",
    "LINESTRING(5 6,3 4,1 2)",
    "LINESTRING(3 4,1 6,5 2)",
    "LINESTRING(-3 -4,-1 -6,-5 -2)",
    "LINESTRING(-1 1,1 -1)",
    "LINESTRING(0 -0,-0 0)",
    "LINESTRING(1 2,1 2,1 2)",
    "LINESTRING(-1.00000001 -1.00000009,-1.00000002 -1.00000001)",
    "LINESTRING Z(1 2 -9,3 4 99)",
    "LINESTRING M(1 2 -9,3 4 99)",
    "LINESTRING ZM(1 2 -9 99,3 4 -99 9)",
    "MULTIPOINT(5 6,1 2,3 9)",
    "MULTIPOINT(-5 6,(1 -2),3 9)",
    "MULTIPOINT ZM(-5 6 77 88,(1 -2 99 -99))",
    "POLYGON((0 0,10 0,10 10,0 10,0 0),(1 1,2 1,2 2,1 1))",
    "POLYGON((1 1,2 1,2 2,1 1),(0 0,10 0,10 10,0 10,0 0))",
    "POLYGON(EMPTY,(1 2,3 4),EMPTY)",
    "POLYGON(EMPTY,EMPTY)",
    "MULTILINESTRING((1 2,3 4),EMPTY,(-1 -2,-3 -4))",
    "MULTIPOLYGON(EMPTY,((1 2,3 4),EMPTY),(EMPTY),((-1 9,9 -1)))",
    "MULTIPOLYGON(((0 0,4 0,4 4,0 0)),((8 8,9 8,9 9,8 8)))",
    "MULTIPOLYGON(EMPTY,(EMPTY,EMPTY),EMPTY)",
    "GEOMETRYCOLLECTION(POINT EMPTY,POINT EMPTY)",
    "GEOMETRYCOLLECTION(POINT EMPTY,POINT(1 2))",
    "GEOMETRYCOLLECTION(POINT(1 2),POINT EMPTY)",
    "GEOMETRYCOLLECTION(POINT(-1 -2),POINT EMPTY,POINT(-3 -4))",
    "GEOMETRYCOLLECTION(POINT(3 4),POINT(1 2),POINT(5 6))",
    "GEOMETRYCOLLECTION(GEOMETRYCOLLECTION(POINT(1 2),POINT(3 4)),POINT(5 6))",
    "GEOMETRYCOLLECTION(POINT(5 6),GEOMETRYCOLLECTION(POINT(1 2),POINT(3 4)))",
    "GEOMETRYCOLLECTION(GEOMETRYCOLLECTION(POINT(9 9)),GEOMETRYCOLLECTION(POINT(-9 -9)))",
    "GEOMETRYCOLLECTION(GEOMETRYCOLLECTION EMPTY,GEOMETRYCOLLECTION(GEOMETRYCOLLECTION EMPTY))",
    "GEOMETRYCOLLECTION Z(POINT(1 2),LINESTRING M(3 4 5,-6 7 8),POINT ZM(9 -10 11 12))",
    "GEOMETRYCOLLECTION(POLYGON((1 1,2 2)),MULTIPOINT(0 5,5 0),MULTILINESTRING((7 7),(-7 7)))",
];

/// With just room and, since all after the rows is zero, with places left over.
fn trees() -> Vec<Case> {
    let lent = TREES.iter().map(|text| Lent::read(text));
    let cases = lent.flat_map(|lent| {
        let places = needed(&lent);
        [boxes(&lent, places), boxes(&lent, places + 12)]
    });
    cases.collect()
}

/// Values in rising order but for those that are equal, near and far from each other.
const VALUES: [&str; 14] = [
    "-1e10",
    "-123456789.12345678",
    "-2.00000001",
    "-2",
    "-20E-1",
    "-0.00000002",
    "-1e-9999",
    "-0",
    "0.00000001",
    "9.999e-8",
    "1e-7",
    "1.99999999",
    "0.2e1",
    "9999999999.99999999",
];

/// Each value before and after each other one.
fn pairs() -> Vec<Case> {
    let mut cases = Vec::new();
    for first in VALUES {
        for second in VALUES {
            cases.push(read(&format!(
                "LINESTRING({first} {second},{second} {first})"
            )));
        }
    }
    cases
}

/// Spans that overlap, come twice, stand in another order than the numbers or far behind in a
/// long text; texts that aren't UTF-8.
fn spans() -> Vec<Case> {
    const FAR: usize = 65_540;
    let line = [[2, 0, 2]];
    let text = b"-12.5e3";
    let far = [&vec![b'('; FAR][..], b"7 -inf"].concat();
    let far_start = FAR as u32;
    let lent = [
        Lent::of(text, &line, &[[0, 7], [1, 6], [2, 3], [0, 2]]),
        Lent::of(text, &line, &[[6, 1], [4, 1], [3, 2], [1, 1]]),
        Lent::of(text, &line, &[[1, 2]; 4]),
        Lent::of(b"3 2 1 0", &line, &[[6, 1], [4, 1], [2, 1], [0, 1]]),
        Lent::of(b"infinity", &line, &[[0, 8], [0, 3], [0, 3], [0, 3]]),
        Lent::of(b"inf 1e11", &line, &[[4, 1], [4, 3], [4, 4], [0, 3]]),
        Lent::of(b"inf 1e11", &line, &[[7, 1], [6, 1], [0, 3], [4, 4]]),
        Lent::of(b"1-inf", &[[1, 1, 1]], &[[0, 1], [0, 1], [1, 4]]),
        Lent::of(b"1-inf", &[[1, 0, 1]], &[[0, 1], [2, 3]]),
        Lent::of(b"\xff1\xc0\x80-2\xe4\xba", &[[1, 0, 1]], &[[1, 1], [4, 2]]),
        Lent::of(&far, &[[1, 0, 1]], &[[far_start, 1], [far_start + 2, 4]]),
    ];
    lent.iter().map(with_room).collect()
}

/// More nodes than a byte counts, each with a box of its own, with room for all and for one
/// less.
fn many_nodes() -> [Case; 2] {
    const POINTS: u32 = 260;
    let text = b"-0123456789.9876543210";
    let mut nodes = vec![[4, 0, POINTS]];
    nodes.resize(1 + POINTS as usize, [1, 0, 1]);
    // Every piece that ends behind the point.
    let spans = (0..2 * POINTS).map(|number| {
        let start = number % 11;
        [start, 13 + number % 9 - start]
    });
    let spans: Vec<_> = spans.collect();
    let lent = Lent::of(text, &nodes, &spans);
    let needed = needed(&lent);
    [needed, needed - 1].map(|places| boxes(&lent, places))
}

/// The largest records: every slice, the text and the table as large as they may be; with a
/// node more than the table has rows, and with as many as a slice holds; with the last number
/// at fault.
pub fn largest() -> Vec<Case> {
    let most_rows = MAX_SLICE / ROW_PLACES as u32;
    let full = large(most_rows);
    let mut at_fault = full.clone();
    let last = at_fault.rows.numbers.len() - 2;
    at_fault.rows.numbers[last] = MAX_TEXT as u32 - 3;
    at_fault.rows.numbers[last + 1] = 3;
    vec![
        boxes(&full, MAX_SLICE),
        boxes(&full, MAX_SLICE - 5),
        boxes(&at_fault, MAX_SLICE),
        boxes(&large(most_rows + 1), MAX_SLICE),
        boxes(&large(MAX_SLICE / 3), MAX_SLICE),
    ]
}

/// A collection of a line string, a multipoint and empty points, so many nodes in all, with as
/// many numbers as there may be; the first one has nearly all of the text.
fn large(nodes: u32) -> Lent {
    const POINTS: u32 = 15_000;
    const NUMBERS: &[u8] = b"-9876.54321012345e-2";
    const PIECES: [[u32; 2]; 5] = [[0, 20], [1, 6], [3, 2], [0, 2], [5, 15]];
    let coordinates = MAX_SLICE / 4;
    let mut rows = vec![[7, 0, nodes - 1 - POINTS], [2, 0, coordinates - POINTS]];
    rows.push([4, 0, POINTS]);
    rows.resize(3 + POINTS as usize, [1, 0, 1]);
    rows.resize(nodes as usize, [1, 0, 0]);
    let behind = [NUMBERS, b" inf"].concat();
    let start = MAX_TEXT - behind.len();
    let text = [&vec![b'0'; start - 1][..], b" ", &behind].concat();
    let pieces = PIECES.iter().cycle();
    let pieces = pieces.map(|[first, length]| [start as u32 + first, *length]);
    let first = [0, start as u32 - 1];
    let spans = [first].into_iter().chain(pieces);
    let spans: Vec<_> = spans.take(MAX_SLICE as usize / 2).collect();
    Lent::of(&text, &rows, &spans)
}

/// So many places have as many bytes as none where these are counted in 32 bits.
const WRAPPING: u32 = 1 << 30;

/// Bodies of records that have no answer: cut, too large, or of a letter that the program
/// doesn't know.
fn bad_records() -> Vec<Vec<u8>> {
    let mut records = vec![Vec::new()];
    for letter in [b'B', b'w', b's', b't', b'r', b'S', b'x', 0, 255] {
        records.push(record(letter, &[5, 3, 0, 1, 0, 0], b""));
    }
    let fields: [&[u32]; 15] = [
        &[],
        &[5],
        &[5, 3],
        &[5, 3, 0],
        &[5, 3, 0, 1, 0],
        &[5, 3, 2, 1, 0, 0, 0],
        &[5, 0, 2, 0],
        &[MAX_SLICE + 1, 3, 0, 1, 0, 0],
        &[WRAPPING, 3, 0, 1, 0, 0],
        &[WRAPPING / 2, 3, 0, 1, 0, 0],
        &[u32::MAX, 3, 0, 1, 0, 0],
        &[5, MAX_SLICE + 1, 0, 1, 0, 0],
        &[5, 0, MAX_SLICE + 1, 1, 0, 0],
        &[5, u32::MAX, u32::MAX, 1, 0, 0],
        &[5, WRAPPING, WRAPPING, 1, 0, 0],
    ];
    for fields in fields {
        records.push(record(b'b', fields, b""));
        records.push(record(b'b', fields, b"\0\0\0"));
    }
    records
}

/// A letter, its fields, and what follows them.
fn record(letter: u8, fields: &[u32], rest: &[u8]) -> Vec<u8> {
    let fields = fields.iter().flat_map(|field| field.to_le_bytes());
    let front = [letter].into_iter().chain(fields);
    front.chain(rest.iter().copied()).collect()
}

#[cfg(test)]
mod tests {
    use super::*;
    use crate::expected::expected;
    use std::collections::BTreeMap;

    /// Number and place.
    fn answer(case: &Case) -> (u32, usize) {
        let line = expected(case).line;
        let mut fields = line.split(' ');
        let mut next = || fields.next().expect("a line has two numbers at least");
        let number = next().parse().expect("a number");
        (number, next().parse().expect("a place"))
    }

    fn numbers(cases: &[Case]) -> Vec<u32> {
        cases.iter().map(|case| answer(case).0).collect()
    }

    #[test]
    fn tables_are_too_small_below_what_is_needed() {
        let cases = tables();
        let (largest, cases) = cases.split_last().expect("there are some");
        assert_eq!(answer(largest), (0, 0));
        let at_fault = [(30, 7), (31, 13)];
        for (index, cases) in cases.chunks(13).enumerate() {
            let refused = index.checked_sub(5).map_or((0, 0), |index| at_fault[index]);
            for case in cases {
                let Request::Boxes { table, rows } = &case.request else {
                    panic!("the letter of boxes")
                };
                let has_room = *table as usize / 5 >= rows.nodes.len() / 3;
                let expected = if has_room { refused } else { (23, 0) };
                assert_eq!(answer(case), expected, "{case:?}");
            }
        }
    }

    #[test]
    fn each_edge_has_the_outcome_of_its_section() {
        let sound = sound_numbers();
        let others = store_lists::number_texts().len();
        let sound = numbers(&sound[..sound.len() - others]);
        assert!(sound.iter().all(|number| *number == 0));
        let at_fault = numbers(&numbers_at_fault());
        assert!(at_fault.chunks(3).all(|three| three == [31, 31, 0]));
        let words = numbers(&words());
        assert!(words.chunks(4).all(|four| four == [30, 30, 0, 0]));
        assert_eq!(words.len(), 3 * 3 * 3 * 4);
        let long = numbers(&long_numbers());
        assert_eq!(long, [0, 0, 0, 0, 31, 0, 31, 0, 31, 0, 0]);
        assert!(numbers(&ill_formed()).iter().all(|number| *number == 22));
        assert!(numbers(&trees()).iter().all(|number| *number == 0));
        assert!(numbers(&pairs()).iter().all(|number| *number == 0));
        assert_eq!(numbers(&spans()), [0, 0, 0, 0, 30, 31, 30, 0, 30, 0, 30]);
        assert_eq!(numbers(&many_nodes()), [0, 23]);
    }

    #[test]
    fn the_first_at_fault_is_found_in_every_place() {
        let mut counts: BTreeMap<u32, usize> = BTreeMap::new();
        for case in orders() {
            let (number, place) = answer(&case);
            *counts.entry(number).or_default() += 1;
            let rest = &case.text[place..];
            match number {
                0 => continue,
                30 => assert!([&b"inf"[..], b"-NaN", b"-nan"]
                    .iter()
                    .any(|word| rest.starts_with(word))),
                _ => assert!([&b"1e11"[..], b"-1e11", b"1e-10000", b"0e10000"]
                    .iter()
                    .any(|text| rest.starts_with(text))),
            }
        }
        assert!(
            counts.len() == 3 && counts.values().all(|count| *count > 15),
            "{counts:?}"
        );
    }

    /// Low X, high X, low Y and high Y of a pair are those of the values' places in the list.
    #[test]
    fn pairs_have_the_lower_and_the_higher_value() {
        let alone: Vec<Vec<i64>> = VALUES
            .iter()
            .map(|value| row(&read(&format!("POINT({value} 0)"))))
            .collect();
        for (index, case) in pairs().iter().enumerate() {
            let (first, second) = (index / VALUES.len(), index % VALUES.len());
            let (lower, higher) = (first.min(second), first.max(second));
            let (low, high) = (alone[lower][1], alone[higher][2]);
            assert_eq!(row(case), [1, low, high, low, high]);
        }
    }

    /// The first row of the table.
    fn row(case: &Case) -> Vec<i64> {
        let line = expected(case).line;
        let rows = line.split(" ; ").nth(1).expect("the rows stand second");
        let values = rows.split(' ').map(|value| value.parse().expect("a value"));
        values.take(ROW_PLACES).collect()
    }

    #[test]
    fn the_largest_records_are_as_large_as_they_may_be() {
        let cases = largest();
        let answers: Vec<_> = cases.iter().map(answer).collect();
        let last = MAX_TEXT - 3;
        assert_eq!(answers, [(0, 0), (23, 0), (30, last), (23, 0), (23, 0)]);
        let Request::Boxes { table, rows } = &cases[0].request else {
            panic!("the letter of boxes")
        };
        assert_eq!(*table, MAX_SLICE);
        assert_eq!(rows.nodes.len() / 3, MAX_SLICE as usize / 5);
        assert_eq!(rows.numbers.len(), MAX_SLICE as usize);
        assert_eq!(cases[0].text.len(), MAX_TEXT);
        let Request::Boxes { rows, .. } = &cases[4].request else {
            panic!("the letter of boxes")
        };
        assert_eq!(rows.nodes.len(), MAX_SLICE as usize);
    }
}
