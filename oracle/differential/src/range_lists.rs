//! Fixed records over whole ranges: every byte as a token's first, middle and last one and
//! in front of a name, the rows of the table of UTF-8 by their ends, each refusal of the
//! reader at each step and sort of token, characters of four bytes, and long texts that are
//! refused for their last byte.

use crate::cases::Case;
use crate::lists::{point_and_blanks, COLLECTION, LONG, MOST_OPEN};
use driver::record::{Request, MAX_TEXT};

/// Node rows, number rows, text: each refusal at each step that gives it, with each sort
/// of token (`grammar/specs/Refused` proves the same rows).
const REFUSED: [(u32, u32, &str); 102] = [
    (40, 40, " "),
    (40, 40, "\0POINT(1 2)"),
    (40, 40, "(1 2)"),
    (40, 40, ")"),
    (40, 40, ","),
    (40, 40, " 1"),
    (40, 40, "-."),
    (40, 40, "POINT京"),
    (40, 40, " POINTS(1 2)"),
    (40, 40, "POINTMZ(1 2 3 4)"),
    (40, 40, "LINEARRINGM(1 2 3)"),
    (40, 40, "LINEARRINGZM(1 2 3 4)"),
    (40, 40, "EMPTY"),
    (40, 40, "POINT \0"),
    (40, 40, "POINT "),
    (40, 40, "POINT +x"),
    (40, 40, "POINT MZ(1 2 3 4)"),
    (40, 40, "POINT Z M(1 2 3 4)"),
    (40, 40, "POINT EMPTYZ"),
    (40, 40, "POINT POINT"),
    (40, 40, "POINT 京"),
    (40, 40, "POINTZ"),
    (40, 40, "POINTZ \0"),
    (40, 40, "POINT)"),
    (40, 40, "POINT,"),
    (40, 40, "POINT 1"),
    (40, 40, "POINTM x"),
    (40, 40, "POINTZ 1x"),
    (40, 40, "POINT Z 1x"),
    (40, 40, "POLYGON(x)"),
    (40, 40, "POLYGON(1)"),
    (40, 40, "POLYGON(1x)"),
    (40, 40, "MULTIPOLYGON((,))"),
    (40, 40, "POINT(1 2"),
    (40, 40, "POINT(1 2\0)"),
    (40, 40, "POINT(1 2("),
    (40, 40, "POINT(1 2 3)"),
    (40, 40, "POINT(1 2 x)"),
    (40, 40, "POINT(1 2 3x)"),
    (40, 40, "POINT(1 2,3 4)"),
    (40, 40, "LINESTRING(1 2,3 4 5)"),
    (40, 40, "POINT(( )"),
    (40, 40, "POINT()"),
    (40, 40, "POINT(,)"),
    (40, 40, "POINT(x)"),
    (40, 40, "POINT(1x)"),
    (40, 40, "POINT(1()"),
    (40, 40, "POINT(1,)"),
    (40, 40, "POINT(1 x)"),
    (40, 40, "POINT(1 1x)"),
    (40, 40, "POINTZ(1 2()"),
    (40, 40, "POINTZ(1 2,)"),
    (40, 40, "POINTZ(1 2 x)"),
    (40, 40, "POINTZ(1 2 1x)"),
    (40, 40, "POINTM(1 2 x)"),
    (40, 40, "POINTM(1 2 1x)"),
    (40, 40, "POINTM(1 2,)"),
    (40, 40, "POINTZM(1 2 x)"),
    (40, 40, "POINTZM(1 2 3 x)"),
    (40, 40, "POINTZM(1 2 3 1x)"),
    (40, 40, "POINTZM(1 2 3,)"),
    (40, 40, "GEOMETRYCOLLECTION(()"),
    (40, 40, "GEOMETRYCOLLECTION(,)"),
    (40, 40, "GEOMETRYCOLLECTION(1)"),
    (40, 40, "GEOMETRYCOLLECTION(\0)"),
    (40, 40, "GEOMETRYCOLLECTION(1x)"),
    (40, 40, "GEOMETRYCOLLECTION())"),
    (0, 40, "POINT("),
    (0, 40, "POINT EMPTY"),
    (0, 40, "POLYGON Z(1"),
    (1, 40, "POLYGON((1 2))"),
    (1, 40, "POLYGON(EMPTY)"),
    (2, 40, "POLYGON((1 2),EMPTY)"),
    (1, 40, "MULTILINESTRING((1 2))"),
    (1, 40, "MULTILINESTRING(EMPTY)"),
    (1, 40, "MULTIPOLYGON(((1 2)))"),
    (1, 40, "MULTIPOLYGON(EMPTY)"),
    (2, 40, "MULTIPOLYGON(((1 2)))"),
    (2, 40, "MULTIPOLYGON((EMPTY))"),
    (1, 40, "MULTIPOINT((1 2))"),
    (1, 40, "MULTIPOINT(1 2)"),
    (1, 40, "MULTIPOINT(EMPTY)"),
    (1, 40, "MULTIPOINT(1x"),
    (1, 40, "MULTIPOINT(\0"),
    (2, 40, "MULTIPOINT(1 2, ,"),
    (2, 40, "MULTIPOINT(1 2,(3 4))"),
    (1, 40, "GEOMETRYCOLLECTION(POINT(1 2))"),
    (1, 40, "GEOMETRYCOLLECTION(POINT EMPTY)"),
    (1, 40, "GEOMETRYCOLLECTION(POINT Z EMPTY)"),
    (1, 40, "GEOMETRYCOLLECTION(GEOMETRYCOLLECTION("),
    (1, 40, "GEOMETRYCOLLECTION(GEOMETRYCOLLECTION EMPTY)"),
    (1, 40, "GEOMETRYCOLLECTION(POINT x"),
    (40, 0, "POINT(1 2)"),
    (40, 0, "POINT( +1 2)"),
    (40, 1, "POINT(1 2)"),
    (40, 2, "POINTZ(1 2 3)"),
    (40, 2, "POINTM(1 2 +3)"),
    (40, 2, "POINTZM(1 2 3 4)"),
    (40, 3, "POINTZM(1 2 3 4)"),
    (40, 2, "LINESTRING(1 2,3 4)"),
    (40, 0, "POINT(1x)"),
    (40, 0, "POINT(x)"),
];

/// The first bytes with a range of their own for the second byte, and the ends of others.
const LEADS: [u8; 16] = [
    0x7F, 0x80, 0xC1, 0xC2, 0xDF, 0xE0, 0xE1, 0xEC, 0xED, 0xEE, 0xEF, 0xF0, 0xF1, 0xF3, 0xF4, 0xF5,
];
/// The ends of the ranges, and what stands just outside.
const SECONDS: [u8; 10] = [0x7F, 0x80, 0x8F, 0x90, 0x9E, 0x9F, 0xA0, 0xA1, 0xBF, 0xC0];
const TAIL: u8 = 0x80;

/// U+1F30D, a character of four bytes.
const EARTH: &str = "🌍";

const NOT_UTF8: u8 = 0xFF;

pub fn cases() -> Vec<Case> {
    let mut cases = bytes_in_tokens();
    cases.extend(bytes_inferred());
    cases.extend(characters());
    cases.extend(refused());
    cases.extend(depths());
    cases.extend(wide());
    cases.extend(long());
    cases
}

/// Each byte alone, before `4`, between `A` and `B`, and between `1` and `5`.
fn bytes_in_tokens() -> Vec<Case> {
    let texts = (0..=u8::MAX).flat_map(|byte| {
        [
            vec![byte],
            vec![byte, b'4'],
            vec![b'A', byte, b'B'],
            vec![b'1', byte, b'5'],
        ]
    });
    let request = Request::Take { place: 0, count: 4 };
    texts.map(|text| case(request.clone(), text)).collect()
}

/// Each byte in front of a name, and between a name and its `(`.
fn bytes_inferred() -> Vec<Case> {
    let texts = (0..=u8::MAX).flat_map(|byte| {
        [
            [&[byte], b"POINT(".as_slice()].concat(),
            [b"POINT".as_slice(), &[byte, b'(']].concat(),
        ]
    });
    texts.map(|text| case(Request::Infer, text)).collect()
}

/// What the ends of the table's ranges make, behind a `(`.
fn characters() -> Vec<Case> {
    let whole = LEADS.iter().flat_map(|lead| {
        SECONDS
            .iter()
            .map(|second| vec![*lead, *second, TAIL, TAIL])
    });
    let thirds = [0xE0, 0xED, 0xF0, 0xF4].into_iter().flat_map(|lead: u8| {
        let second = if lead == 0xE0 {
            0xA0
        } else if lead == 0xF0 {
            0x90
        } else {
            0x80
        };
        [0x7F, 0x80, 0xBF, 0xC0].map(|third| vec![lead, second, third, TAIL])
    });
    let fourths = [0x7F, 0x80, 0xBF, 0xC0].map(|fourth| vec![0xF0, 0x90, TAIL, fourth]);
    let ends = whole.chain(thirds).chain(fourths);
    let texts = ends.map(|bytes| [b"POINT(".as_slice(), &cut(&bytes)].concat());
    texts.map(|text| case(Request::Infer, text)).collect()
}

/// As many bytes as a character has that starts so.
fn cut(bytes: &[u8]) -> Vec<u8> {
    let width = match bytes[0] {
        0xC0..=0xDF => 2,
        0xE0..=0xEF => 3,
        _ => 4,
    };
    bytes[..width].to_vec()
}

fn refused() -> Vec<Case> {
    let rows = REFUSED.iter();
    rows.map(|(nodes, numbers, text)| read(*nodes, *numbers, text))
        .collect()
}

/// Collections side by side aren't deep; one that is EMPTY isn't open.
fn depths() -> Vec<Case> {
    let beside = format!("{COLLECTION}POINT EMPTY),").repeat(MOST_OPEN + 1);
    let beside = format!("{COLLECTION}{beside}POINT EMPTY)");
    let open = COLLECTION.repeat(MOST_OPEN);
    let empty = format!("{open}GEOMETRYCOLLECTION EMPTY{}", ")".repeat(MOST_OPEN));
    let blank = format!("{open}GEOMETRYCOLLECTION (");
    vec![
        read(40, 9, &beside),
        read(80, 9, &beside),
        read(80, 9, &empty),
        read(80, 9, &blank),
    ]
}

/// A character of four bytes, whole and cut, under every letter that takes any text.
fn wide() -> Vec<Case> {
    let mut cases = Vec::new();
    for front in [
        "",
        "a",
        "POINT",
        "POINT ",
        "POINT(",
        "POINT(1 2)",
        "GEOMETRYCOLLECTION(",
        "1",
        " ",
    ] {
        for length in 1..=EARTH.len() {
            let text = [front.as_bytes(), &EARTH.as_bytes()[..length], b"(1 2)"].concat();
            let read = Request::Read {
                nodes: 9,
                numbers: 8,
            };
            let take = Request::Take { place: 0, count: 6 };
            let look = Request::LookAndTake { place: 0, count: 6 };
            let requests = [read, take, look, Request::Infer];
            cases.extend(requests.map(|request| case(request, text.clone())));
        }
    }
    cases
}

/// Refused for the last byte of a long text, which is looked at whatever the length: 2 there
/// or, where a body isn't closed, 13 behind it.
fn long() -> Vec<Case> {
    let not_utf8 = |length: usize| {
        let mut text = point_and_blanks(length).into_bytes();
        text[length - 1] = NOT_UTF8;
        text
    };
    let not_closed = |length: usize| point_and_blanks(length).replace(')', " ").into_bytes();
    let read = Request::Read {
        nodes: 3,
        numbers: 4,
    };
    let mut cases = Vec::new();
    for length in [LONG[1], MAX_TEXT] {
        cases.push(case(read.clone(), not_utf8(length)));
        cases.push(case(read.clone(), not_closed(length)));
    }
    for length in [LONG[0], LONG[2]] {
        cases.push(case(Request::Infer, not_utf8(length)));
    }
    cases
}

fn read(nodes: u32, numbers: u32, text: &str) -> Case {
    let request = Request::Read {
        nodes: 3 * nodes,
        numbers: 2 * numbers,
    };
    case(request, text.as_bytes().to_vec())
}

fn case(request: Request, text: Vec<u8>) -> Case {
    Case { request, text }
}
