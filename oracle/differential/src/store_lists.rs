//! The fixed stores of the list, for the letters `w` and `s`: each clause of "A store is
//! well formed if .." broken by itself, well-formed stores of every kind with rooms that
//! are enough or not, and the rules of the strict check.

use crate::cases::Case;
use crate::lists::{point_and_blanks, COLLECTION, MOST_OPEN, NUMBER_TEXTS};
use crate::store_cases;
use crate::stores::{self, Clause};
use driver::reader::{
    GEOMETRY_COLLECTION, LINE_STRING, MULTI_LINE_STRING, MULTI_POINT, MULTI_POLYGON, POINT, POLYGON,
};
use driver::record::{Request, Rows, MAX_OUTPUT, MAX_SLICE, MAX_TEXT};

/// Room enough for any short text.
const ROOMY: u32 = 160;
/// Some rooms are larger than the text by so much.
const MUCH: u32 = 70;
/// The first place that has no number of two bytes.
const BEHIND_TWO_BYTES: usize = 65_536;

const MAX: u32 = u32::MAX;
const HALF: u32 = 1 << 31;
const QUARTER: u32 = 1 << 30;

/// What writers and the strict check are lent.
#[derive(Clone, Debug)]
pub struct Lent {
    pub text: Vec<u8>,
    pub rows: Rows,
}

impl Lent {
    /// What the model reads.
    pub fn read(text: &str) -> Self {
        let rows = store_cases::read(text.as_bytes()).expect("a text that is read");
        let text = text.as_bytes().to_vec();
        Lent { text, rows }
    }

    pub fn of(text: &[u8], nodes: &[[u32; 3]], numbers: &[[u32; 2]]) -> Self {
        let rows = Rows {
            nodes: nodes.concat(),
            numbers: numbers.concat(),
        };
        let text = text.to_vec();
        Lent { text, rows }
    }

    fn with(&self, change: impl FnOnce(&mut Rows)) -> Self {
        let mut changed = self.clone();
        change(&mut changed.rows);
        changed
    }

    /// With another value at a place of the nodes.
    fn node_place(&self, place: usize, value: u32) -> Self {
        self.with(|rows| rows.nodes[place] = value)
    }

    pub fn write(&self, output: u32) -> Case {
        let rows = self.rows.clone();
        Case {
            request: Request::Write { output, rows },
            text: self.text.clone(),
        }
    }

    pub fn check(&self) -> Case {
        let rows = self.rows.clone();
        Case {
            request: Request::Check { rows },
            text: self.text.clone(),
        }
    }

    /// How many places its slices have.
    pub fn places(&self) -> (u32, u32) {
        let Rows { nodes, numbers } = &self.rows;
        (nodes.len() as u32, numbers.len() as u32)
    }

    /// The length of the canonical text, of a well-formed store.
    pub fn length(&self) -> u32 {
        let root = stores::tree(&self.text, &self.rows).ok();
        stores::canonical(&root.expect("well formed")).len() as u32
    }
}

/// All records, in a fixed order.
pub fn cases() -> Vec<Case> {
    let mut cases = Vec::new();
    for (index, (_, broken)) in broken().iter().enumerate() {
        cases.extend([broken.write(ROOMY), broken.check()]);
        // 22 comes before 23.
        if index % 3 == 0 {
            cases.push(broken.write(0));
        }
    }
    for lent in of_every_kind().iter().chain(&more_well_formed()) {
        let length = lent.length();
        let rooms = [length, length - 1, length + 1, 0, length + MUCH];
        cases.extend(rooms.map(|room| lent.write(room)));
        cases.push(lent.check());
    }
    for lent in number_texts() {
        cases.extend([lent.write(ROOMY), lent.check()]);
    }
    for text in STRICT {
        let lent = Lent::read(text);
        cases.extend([lent.check(), lent.write(ROOMY)]);
    }
    for lent in any_text() {
        cases.extend([lent.write(11), lent.check()]);
    }
    cases
}

/// Stores with the clause that each of them breaks.
pub fn broken() -> Vec<(Clause, Lent)> {
    let mut broken = broken_slices();
    broken.extend(broken_trees());
    broken.extend(broken_rows());
    broken.extend(broken_children());
    broken.extend(broken_points());
    broken.extend(too_deep());
    broken.extend(broken_counts());
    broken.extend(broken_spans());
    broken
}

fn broken_slices() -> Vec<(Clause, Lent)> {
    let point = Lent::read("POINT(1 2)");
    let empty = Lent::read("POINT EMPTY");
    let points = Lent::read("MULTIPOINT(1 2,3 4)");
    let nodes = [
        point.with(|rows| rows.nodes.push(0)),
        point.with(|rows| rows.nodes.extend([1, 0])),
        point.with(|rows| rows.nodes.truncate(2)),
        point.with(|rows| rows.nodes.truncate(1)),
        empty.with(|rows| rows.nodes.push(1)),
        points.with(|rows| rows.nodes.truncate(8)),
    ];
    let numbers = [
        point.with(|rows| rows.numbers.push(0)),
        point.with(|rows| rows.numbers.truncate(3)),
        point.with(|rows| rows.numbers.truncate(1)),
        empty.with(|rows| rows.numbers.push(0)),
        points.with(|rows| rows.numbers.push(1)),
    ];
    let nodes = nodes.map(|lent| (Clause::NodePlaces, lent));
    let numbers = numbers.map(|lent| (Clause::NumberPlaces, lent));
    nodes.into_iter().chain(numbers).collect()
}

/// No root, two roots, a child too few, a row too many.
fn broken_trees() -> Vec<(Clause, Lent)> {
    let mut broken = vec![
        (Clause::NoRow, Lent::of(b"", &[], &[])),
        (Clause::NoRow, Lent::of(b"1 2", &[], &[])),
    ];
    let empty = Lent::read("POINT EMPTY");
    for row in [[1, 0, 0], [0, 0, 0], [7, 0, 0]] {
        let two = empty.with(|rows| rows.nodes.extend(row));
        broken.push((Clause::RowLeft, two));
    }
    let zero_row = Lent::read("POINT(1 2)").with(|rows| rows.nodes.extend([0, 0, 0]));
    broken.push((Clause::RowLeft, zero_row));
    for text in [
        "POLYGON(EMPTY)",
        "MULTILINESTRING(EMPTY)",
        "MULTIPOLYGON(EMPTY)",
        "MULTIPOLYGON((EMPTY))",
        "GEOMETRYCOLLECTION(POINT EMPTY)",
        "GEOMETRYCOLLECTION(GEOMETRYCOLLECTION(POINT EMPTY),LINESTRING EMPTY)",
    ] {
        let lent = Lent::read(text);
        let last = lent.rows.nodes.len() - 3;
        broken.push((Clause::NoRow, lent.with(|rows| rows.nodes.truncate(last))));
        broken.push((Clause::NoRow, lent.node_place(2, 3)));
        broken.push((Clause::NoRow, lent.node_place(2, MAX)));
        broken.push((Clause::RowLeft, lent.node_place(2, 0)));
    }
    for text in [
        "MULTIPOINT(1 2)",
        "POLYGON((1 2,3 4))",
        "MULTILINESTRING((1 2))",
        "MULTIPOLYGON(((1 2)))",
    ] {
        let lent = Lent::read(text);
        broken.push((Clause::NoRow, lent.node_place(2, 2)));
        broken.push((Clause::NoRow, lent.node_place(2, HALF)));
    }
    let two = Lent::read("GEOMETRYCOLLECTION(POLYGON(EMPTY,EMPTY),POINT EMPTY)");
    broken.push((Clause::RowLeft, two.node_place(2, 1)));
    broken.push((Clause::RowLeft, two.node_place(5, 0)));
    broken
}

fn broken_rows() -> Vec<(Clause, Lent)> {
    let point = Lent::read("POINT EMPTY");
    let lines = Lent::read("GEOMETRYCOLLECTION(POINT EMPTY,LINESTRING EMPTY)");
    let polygon = Lent::read("POLYGON(EMPTY)");
    let with_number = Lent::read("POINT(1 2)");
    let mut broken = Vec::new();
    for kind in [0, 8, 9, 255, 257, 65_537, HALF + 1, MAX] {
        broken.push((Clause::Kind, point.node_place(0, kind)));
        broken.push((Clause::Kind, lines.node_place(6, kind)));
        broken.push((Clause::Kind, polygon.node_place(3, kind)));
    }
    broken.push((Clause::Kind, with_number.node_place(0, 0)));
    for dimension in [4, 5, 256, 65_536, HALF, MAX] {
        broken.push((Clause::Dimension, point.node_place(1, dimension)));
        broken.push((Clause::Dimension, lines.node_place(4, dimension)));
        let both = polygon.node_place(1, dimension).node_place(4, dimension);
        broken.push((Clause::Dimension, both));
    }
    broken.push((Clause::Dimension, with_number.node_place(1, 4)));
    broken
}

/// A child of another kind, or of another dimension, under each kind from 3 to 6.
fn broken_children() -> Vec<(Clause, Lent)> {
    let mut broken = Vec::new();
    for (parent, child) in [
        (POLYGON, LINE_STRING),
        (MULTI_POINT, POINT),
        (MULTI_LINE_STRING, LINE_STRING),
        (MULTI_POLYGON, POLYGON),
    ] {
        let kinds = POINT..=GEOMETRY_COLLECTION;
        for kind in kinds.filter(|kind| *kind != child) {
            let lent = Lent::of(b"", &[[parent, 0, 1], [kind, 0, 0]], &[]);
            broken.push((Clause::ChildKind, lent));
        }
        for (above, below) in [(0, 1), (0, 2), (1, 0), (1, 3), (2, 1), (3, 2)] {
            let lent = Lent::of(b"", &[[parent, above, 1], [child, below, 0]], &[]);
            broken.push((Clause::ChildDimension, lent));
        }
    }
    let line = Lent::of(b"1 2", &[[4, 0, 1], [2, 0, 1]], &[[0, 1], [2, 1]]);
    broken.push((Clause::ChildKind, line));
    // As many numbers, so that only the dimension is wrong.
    for text in ["MULTIPOINT Z(1 2 3)", "POLYGON Z((1 2 3))"] {
        let lent = Lent::read(text).node_place(4, 2);
        broken.push((Clause::ChildDimension, lent));
    }
    let ring = Lent::read("MULTIPOLYGON(EMPTY,(EMPTY,EMPTY))");
    broken.push((Clause::ChildDimension, ring.node_place(13, 3)));
    broken.push((Clause::ChildKind, ring.node_place(12, POINT)));
    broken
}

fn broken_points() -> Vec<(Clause, Lent)> {
    let four = [[0, 1], [2, 1], [4, 1], [6, 1]];
    let text = b"1 2 3 4";
    let mut broken = Vec::new();
    for nodes in [
        &[[1, 0, 2]][..],
        &[[4, 0, 1], [1, 0, 2]],
        &[[7, 0, 1], [1, 0, 2]],
    ] {
        broken.push((Clause::PointParts, Lent::of(text, nodes, &four)));
    }
    for parts in [3, HALF, HALF + 1, MAX] {
        let point = Lent::of(text, &[[1, 0, parts]], &four[..2]);
        broken.push((Clause::PointParts, point));
    }
    for dimension in 0..4 {
        let nodes = [[4, dimension, 1], [1, dimension, 0]];
        broken.push((Clause::EmptyPoint, Lent::of(b"", &nodes, &[])));
    }
    let second = [[4, 0, 2], [1, 0, 1], [1, 0, 0]];
    let first = [[4, 0, 2], [1, 0, 0], [1, 0, 1]];
    for nodes in [first, second] {
        broken.push((Clause::EmptyPoint, Lent::of(text, &nodes, &four[..2])));
    }
    broken
}

pub fn nested(depth: usize, inside: &str) -> String {
    COLLECTION.repeat(depth) + inside + &")".repeat(depth)
}

fn too_deep() -> Vec<(Clause, Lent)> {
    let deep = nested(MOST_OPEN, "POINT EMPTY");
    let texts = [
        nested(MOST_OPEN + 1, "POINT(1 2)"),
        nested(MOST_OPEN + 1, "GEOMETRYCOLLECTION EMPTY"),
        nested(MOST_OPEN + 5, "POLYGON EMPTY"),
        nested(1, &format!("POINT EMPTY,{deep}")),
        nested(
            2,
            &format!("{},POINT EMPTY", nested(MOST_OPEN - 1, "POINT(1 2)")),
        ),
    ];
    let lent = texts.map(|text| (Clause::Depth, Lent::read(&text)));
    lent.into_iter().collect()
}

/// Numbers too few or too many; counts that come out right only where they wrap.
fn broken_counts() -> Vec<(Clause, Lent)> {
    let point = Lent::read("POINT(1 2)");
    let empty = Lent::read("POINT EMPTY");
    let line = Lent::read("LINESTRING(1 2,3 4)");
    let line_zm = Lent::read("LINESTRING ZM(1 2 3 4,5 6 7 8)");
    let point_z = Lent::read("POINT Z(1 2 3)");
    let none = Lent::of(b"", &[[2, 0, 0]], &[]);
    let mut broken = vec![
        (
            Clause::NoNumber,
            point.with(|rows| rows.numbers.truncate(2)),
        ),
        (Clause::NoNumber, point.with(|rows| rows.numbers.clear())),
        (Clause::NoNumber, point.node_place(1, 1)),
        (Clause::NoNumber, point_z.node_place(1, 3)),
        (Clause::NoNumber, line.node_place(2, 3)),
        (
            Clause::NumberLeft,
            point.with(|rows| rows.numbers.extend([6, 1])),
        ),
        (
            Clause::NumberLeft,
            point.with(|rows| rows.numbers.extend([0, 0])),
        ),
        (Clause::NumberLeft, point.node_place(2, 0)),
        (Clause::NumberLeft, point_z.node_place(1, 0)),
        (Clause::NumberLeft, line.node_place(2, 1)),
        (Clause::NumberLeft, line.node_place(2, 0)),
        (
            Clause::NumberLeft,
            empty.with(|rows| rows.numbers.extend([0, 0])),
        ),
    ];
    for parts in [
        HALF,
        HALF + 1,
        HALF + 2,
        QUARTER + 2,
        HALF - 1,
        MAX,
        MAX - 1,
    ] {
        broken.push((Clause::NoNumber, line.node_place(2, parts)));
    }
    for parts in [QUARTER, QUARTER + 2, HALF + 2, 3 * QUARTER + 2, MAX] {
        broken.push((Clause::NoNumber, line_zm.node_place(2, parts)));
    }
    for parts in [1, HALF, QUARTER, MAX] {
        broken.push((Clause::NoNumber, none.node_place(2, parts)));
        let three = none.node_place(1, 1).node_place(2, parts);
        broken.push((Clause::NoNumber, three));
    }
    let lines = Lent::read("MULTILINESTRING((1 2),(3 4))");
    let wrapped = lines.node_place(5, HALF).node_place(8, HALF + 2);
    broken.push((Clause::NoNumber, wrapped));
    broken
}

/// Spans that lie outside the text or are no lexemes, as the first number and the last.
fn broken_spans() -> Vec<(Clause, Lent)> {
    const TEXT: &[u8] = b"1 2";
    const OUTSIDE: [[u32; 2]; 15] = [
        [2, 2],
        [3, 1],
        [3, 2],
        [4, 0],
        [4, 1],
        [MAX, 0],
        [MAX, 1],
        [MAX, 2],
        [MAX, 4],
        [MAX - 1, 5],
        [0, MAX],
        [1, MAX],
        [2, MAX],
        [HALF, HALF],
        [0, 65_537],
    ];
    const INSIDE: [[u32; 2]; 6] = [[0, 0], [2, 0], [3, 0], [1, 1], [0, 2], [0, 3]];
    let outside = OUTSIDE.map(|span| (Clause::OutsideText, span));
    let inside = INSIDE.map(|span| (Clause::NoLexeme, span));
    let spans = outside.into_iter().chain(inside);
    let mut broken: Vec<_> = spans
        .flat_map(|(clause, span)| {
            let first = Lent::of(TEXT, &[[1, 0, 1]], &[span, [2, 1]]);
            let last = Lent::of(TEXT, &[[1, 0, 1]], &[[0, 1], span]);
            [(clause, first), (clause, last)]
        })
        .collect();
    let no_text = Lent::of(b"", &[[1, 0, 1]], &[[0, 1], [0, 1]]);
    broken.push((Clause::OutsideText, no_text));
    let empty_spans = Lent::of(b"", &[[1, 0, 1]], &[[0, 0], [0, 0]]);
    broken.push((Clause::NoLexeme, empty_spans));
    for text in ["1\0", "\0", "1京", "京", "１", "1 ", " 1", "\u{a0}1", "1\n"] {
        broken.push((Clause::NoLexeme, one_number(text.as_bytes())));
    }
    broken.push((Clause::NoLexeme, one_number(b"1\xff")));
    broken
}

/// A point whose X has this text.
pub fn one_number(text: &[u8]) -> Lent {
    let length = text.len() as u32;
    let text = [text, b" 1"].concat();
    Lent::of(&text, &[[1, 0, 1]], &[[0, length], [length + 1, 1]])
}

/// Good and bad number texts, of which the good ones are written.
pub fn number_texts() -> Vec<Lent> {
    let texts = NUMBER_TEXTS
        .split(' ')
        .chain(["INF", "Nan", "iNFINITY", "z"]);
    texts.map(|text| one_number(text.as_bytes())).collect()
}

/// Number texts to go through, one after the other.
const NUMBERS: [&str; 9] = [
    "1", "-2.5", "+inf", "++4", ".5", "+NaN", "1e5", "-.0E-7", "007",
];

/// Bodies of each kind; `#` stands for a coordinate.
const BODIES: [(&str, [&str; 3]); 6] = [
    ("POINT", [" EMPTY", "(#)", "(#)"]),
    ("LINESTRING", [" EMPTY", "(#)", "(#,#,#)"]),
    ("POLYGON", [" EMPTY", "((#,#,#,#),(#))", "(EMPTY,(#,#))"]),
    ("MULTIPOINT", [" EMPTY", "((#))", "(#,(#),#)"]),
    (
        "MULTILINESTRING",
        [" EMPTY", "((#,#))", "(EMPTY,(#),EMPTY)"],
    ),
    (
        "MULTIPOLYGON",
        [" EMPTY", "(((#,#)))", "(EMPTY,((#),EMPTY))"],
    ),
];
const ENDINGS: [&str; 4] = ["", " Z", " M", " ZM"];

pub fn of_every_kind() -> Vec<Lent> {
    of_every_kind_with(&NUMBERS)
}

/// The same with these number texts.
pub fn of_every_kind_with(numbers: &[&str]) -> Vec<Lent> {
    let mut numbers = numbers.iter().cycle();
    let mut texts = Vec::new();
    for (dimension, ending) in ENDINGS.iter().enumerate() {
        for (name, bodies) in BODIES {
            for body in bodies {
                let text = format!("{name}{ending}{body}");
                texts.push(with_numbers(&text, dimension, &mut numbers));
            }
        }
        let all = texts[texts.len() - 18..].join(",");
        texts.push(format!("GEOMETRYCOLLECTION{ending} EMPTY"));
        texts.push(format!("GEOMETRYCOLLECTION{ending}({all})"));
    }
    texts.iter().map(|text| Lent::read(text)).collect()
}

/// The text with a coordinate for each `#`.
fn with_numbers<'text>(
    text: &str,
    dimension: usize,
    numbers: &mut impl Iterator<Item = &'text &'text str>,
) -> String {
    let mut parts = text.split('#');
    let mut filled = parts.next().unwrap_or_default().to_string();
    for part in parts {
        let coordinate: Vec<&str> = numbers.take(stores::WIDTHS[dimension]).copied().collect();
        filled += &coordinate.join(" ");
        filled += part;
    }
    filled
}

/// Nested ones, at the limit of depth, edges of document 01, and other dimensions inside
/// collections.
pub fn more_well_formed() -> Vec<Lent> {
    let deep = nested(MOST_OPEN - 1, "POINT EMPTY");
    let texts = [
        nested(MOST_OPEN, "POINT(1 2)"),
        nested(MOST_OPEN, "GEOMETRYCOLLECTION EMPTY"),
        nested(MOST_OPEN, "MULTIPOLYGON(((1 2)))"),
        nested(1, &format!("{deep},{deep}")),
        "POINT(++4 +-4)".to_string(),
        "MULTIPOINT((1 2),3 4)".to_string(),
        "GEOMETRYCOLLECTION Z(POINT(1 2))".to_string(),
        "GEOMETRYCOLLECTION(POINT ZM EMPTY,GEOMETRYCOLLECTION M(POINT Z(1 2 3)),POINT M(4 5 6))"
            .to_string(),
    ];
    let mut lent: Vec<_> = texts.iter().map(|text| Lent::read(text)).collect();
    // Spans that overlap, come twice, or stand in another order than the numbers.
    let spans = [[3, 1], [0, 4], [1, 3], [1, 3]];
    lent.push(Lent::of(b"-1.5", &[[2, 0, 2]], &spans));
    lent.push(Lent::of(b"+infinity", &[[1, 0, 1]], &[[1, 3], [0, 9]]));
    lent
}

/// Rules A to D: each alone, several at one node, the first in node order.
const STRICT: &[&str] = &[
    "LINESTRING(1 2)",
    "LINESTRING(1 2,1 2)",
    "LINESTRING(1 2,3 4)",
    "LINESTRING ZM(1 2 3 4)",
    "LINESTRING EMPTY",
    "MULTILINESTRING((1 2,3 4),(5 6))",
    "MULTILINESTRING(EMPTY,(1 2,3 4),(5 6,7 8,9 10))",
    "MULTILINESTRING((1 2),(3 4))",
    "POLYGON((1 2))",
    "POLYGON((1 2,1 2))",
    "POLYGON((1 2,3 4))",
    "POLYGON((1 2,3 4,1 2))",
    "POLYGON((1 2,3 4,5 6))",
    "POLYGON((1 2,3 4,5 6,1 2))",
    "POLYGON((1 2,3 4,5 6,7 8))",
    "POLYGON((1 2,3 4,5 6,1 3))",
    "POLYGON((1 2,3 4,5 6,2 2))",
    "POLYGON((1 2,3 4,5 6,2 1))",
    "POLYGON((1 2,3 4,5 6,7 8,1 2))",
    "POLYGON EMPTY",
    "POLYGON(EMPTY)",
    "POLYGON(EMPTY,(1 2,3 4,5 6,7 8))",
    "POLYGON((1 2,3 4,5 6,1 2),(1 2,3 4,1 2))",
    "POLYGON((1 2,3 4,5 6,1 2),(7 8,3 4,5 6,9 9),(1 2))",
    "POLYGON((1 2,3 4,5 6,7 8),(1 2))",
    "POLYGON Z((1 2 3,4 5 6,7 8 9,1 2 3))",
    "POLYGON Z((1 2 3,4 5 6,7 8 9,1 2 4))",
    "POLYGON M((1 2 3,4 5 6,7 8 9,1 9 3))",
    "POLYGON ZM((1 2 3 4,5 6 7 8,9 1 2 3,1 2 3 4))",
    "POLYGON ZM((1 2 3 4,5 6 7 8,9 1 2 3,1 2 3 5))",
    "POLYGON ZM((1 2 3 4,5 6 7 8,9 1 2 3,1 2 4 4))",
    "POLYGON((+inf 2,3 4,5 6,+inf 2))",
    "POLYGON((+inf 2,3 4,5 6,+INF 2))",
    "POLYGON((+inf 2,3 4,5 6,+infinity 2))",
    "POLYGON((+nan 2,3 4,5 6,+nan 2))",
    "POLYGON((1 2,3 4,5 6,+1 2))",
    "POLYGON((1 2,3 4,5 6,++1 2))",
    "POLYGON((1 2,3 4,5 6,1.0 2))",
    "POLYGON((1e5 2,3 4,5 6,1E5 2))",
    "POLYGON((-0 2,3 4,5 6,0 2))",
    "POLYGON((1 2,3 4,5 6,12 2))",
    "POLYGON((12 2,3 4,5 6,1 2))",
    "POLYGON((1 22,3 4,5 6,12 2))",
    "MULTIPOLYGON(((1 2,3 4,5 6,1 2)),((1 2,3 4,5 6,7 8)))",
    "MULTIPOLYGON(EMPTY,((1 2,3 4,5 6,1 2),EMPTY,(1 2,3 4,1 2)))",
    "MULTIPOLYGON(((1 2,3 4,5 6,1 2)),((1 2,3 4,5 6,1 2)))",
    "MULTIPOINT(1 2,3 4)",
    "GEOMETRYCOLLECTION EMPTY",
    "GEOMETRYCOLLECTION(POINT EMPTY)",
    "GEOMETRYCOLLECTION Z(POINT(1 2))",
    "GEOMETRYCOLLECTION(POINT Z(1 2 3))",
    "GEOMETRYCOLLECTION Z(POINT M EMPTY)",
    "GEOMETRYCOLLECTION ZM(POINT ZM(1 2 3 4),POINT Z(1 2 3))",
    "GEOMETRYCOLLECTION(GEOMETRYCOLLECTION Z(POINT Z(1 2 3)))",
    "GEOMETRYCOLLECTION(GEOMETRYCOLLECTION(POINT Z(1 2 3)))",
    "GEOMETRYCOLLECTION Z(GEOMETRYCOLLECTION Z(POINT Z(1 2 3),POINT(1 2)))",
    "GEOMETRYCOLLECTION Z(LINESTRING(1 2))",
    "GEOMETRYCOLLECTION Z(LINESTRING(1 2,3 4))",
    "GEOMETRYCOLLECTION(LINESTRING(1 2))",
    "GEOMETRYCOLLECTION Z(POLYGON((1 2,3 4,5 6,7 8)))",
    "GEOMETRYCOLLECTION Z(POLYGON((1 2)))",
    "GEOMETRYCOLLECTION(POLYGON((1 2,3 4,5 6,7 8)),LINESTRING(1 2))",
    "GEOMETRYCOLLECTION(POINT Z(1 2 3),LINESTRING(1 2))",
    "GEOMETRYCOLLECTION(LINESTRING(1 2),POINT Z(1 2 3))",
    "GEOMETRYCOLLECTION(POINT(1 2),POLYGON((1 2,3 4,1 2)),LINESTRING(1 2))",
    "GEOMETRYCOLLECTION(MULTILINESTRING((1 2,3 4),(5 6)),POINT M(1 2 3))",
    "GEOMETRYCOLLECTION(LINESTRING EMPTY,LINESTRING(1 2,3 4))",
];

/// Writers and strict check don't test the UTF-8 of the lent text; spans may lie far behind.
pub fn any_text() -> [Lent; 2] {
    let point = [[1, 0, 1]];
    let mut long = point_and_blanks(BEHIND_TWO_BYTES).into_bytes();
    long.extend(b"1 2");
    let start = BEHIND_TWO_BYTES as u32;
    let spans = [[start, 1], [start + 2, 1]];
    let long = Lent::of(&long, &point, &spans);
    let no_utf8 = Lent::of(b"\xff1\xc0\x80-2\xe4\xba", &point, &[[1, 1], [4, 2]]);
    [long, no_utf8]
}

/// The largest records: every field as large as it may be, an output with no byte left.
pub fn largest() -> Vec<Case> {
    let number_rows = MAX_SLICE / 2;
    let points = number_rows / 2;
    let empties = MAX_SLICE / 3 - 2 - points;
    let mut nodes = vec![[7, 0, 1 + empties], [4, 0, points]];
    nodes.extend((0..points).map(|_| [1, 0, 1]));
    nodes.extend((0..empties).map(|_| [1, 0, 0]));
    let last = MAX_TEXT as u32 - 1;
    let spans: Vec<_> = (0..number_rows).map(|_| [last, 1]).collect();
    let mut text = vec![b'1'; MAX_TEXT - 1];
    text.push(b'2');
    let mut lent = Lent::of(&text, &nodes, &spans);
    let spare = MAX_OUTPUT - lent.length();
    lent.rows.numbers[0] = 0;
    lent.rows.numbers[1] = 1 + spare;
    let full = lent.write(MAX_OUTPUT);
    let short = lent.write(MAX_OUTPUT - 1);
    let check = lent.check();
    lent.rows.numbers[1] += 1;
    vec![full, short, lent.write(MAX_OUTPUT), check]
}

/// Bodies of records of these letters that have no answer: cut, or too large.
pub fn bad_records() -> Vec<Vec<u8>> {
    let record = |letter: u8, fields: &[u32], rest: &[u8]| {
        let fields = fields.iter().flat_map(|field| field.to_le_bytes());
        let mut bytes = vec![letter];
        bytes.extend(fields);
        bytes.extend(rest);
        bytes
    };
    let too_long = point_and_blanks(MAX_TEXT + 1);
    vec![
        Vec::new(),
        record(b'r', &[3, 4], too_long.as_bytes()),
        record(b'i', &[], too_long.as_bytes()),
        record(b'x', &[0, 0, 0], b"POINT(1 2)"),
        record(b'w', &[], b""),
        record(b'w', &[0, 0], b""),
        record(b'w', &[0, 0, 0], b"")[..12].to_vec(),
        record(b'w', &[9, 3, 0, 1, 0], b""),
        record(b'w', &[9, 3, 0, 1, 0], b"\0\0\0"),
        record(b'w', &[9, 3, 4, 1, 0, 0, 0, 0, 0], b"\0\0\0"),
        record(b'w', &[MAX_OUTPUT + 1, 3, 0, 1, 0, 0], b""),
        record(b'w', &[MAX, 3, 0, 1, 0, 0], b""),
        record(b'w', &[9, MAX_SLICE + 1, 0, 1, 0, 0], b""),
        record(b'w', &[9, 0, MAX_SLICE + 1, 1, 0, 0], b""),
        record(b'w', &[9, MAX, MAX, 1, 0, 0], b""),
        record(b'w', &[9, QUARTER, 0, 1, 0, 0], b""),
        record(b's', &[], b""),
        record(b's', &[0], b""),
        record(b's', &[0, 0], b"")[..8].to_vec(),
        record(b's', &[3, 0, 1, 0], b""),
        record(b's', &[3, 2, 1, 0, 0, 0], b"\0\0\0"),
        record(b's', &[MAX_SLICE + 1, 0, 1, 0, 0], b""),
        record(b's', &[0, MAX_SLICE + 1, 1, 0, 0], b""),
        record(b's', &[MAX, MAX, 1, 0, 0], b""),
        record(b's', &[QUARTER, QUARTER, 1, 0, 0], b""),
    ]
}

#[cfg(test)]
mod tests {
    use super::*;

    #[test]
    fn each_store_breaks_its_clause() {
        for (clause, lent) in broken() {
            let broken = stores::tree(&lent.text, &lent.rows).err();
            assert_eq!(broken, Some(clause), "{lent:?}");
        }
    }

    #[test]
    fn the_largest_record_is_as_large_as_it_may_be() {
        let cases = largest();
        let Request::Write { output, rows } = &cases[0].request else {
            panic!("the writer's record comes first")
        };
        assert_eq!(rows.nodes.len(), MAX_SLICE as usize);
        assert_eq!(rows.numbers.len(), MAX_SLICE as usize);
        assert_eq!(cases[0].text.len(), MAX_TEXT);
        let root = stores::tree(&cases[0].text, rows).ok();
        let root = root.expect("well formed");
        assert_eq!(stores::canonical(&root).len(), *output as usize);
    }
}
