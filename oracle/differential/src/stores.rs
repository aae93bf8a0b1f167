//! Document 01's store, canonical text and strict check, written down once more: the
//! Rust has none of them. A store is taken apart into a tree, from which the text and
//! the first fault follow. Number texts are those that `f64` reads, and `expected` gives
//! each canonical text to the Rust, which has to read the same nodes and number texts.

use driver::reader::{
    GEOMETRY_COLLECTION, LINE_STRING, MULTI_LINE_STRING, MULTI_POINT, MULTI_POLYGON, POINT, POLYGON,
};
use driver::record::Rows;

pub const ILL_FORMED: u32 = 22;
pub const NO_ROOM: u32 = 23;

/// So many non-empty collections may lie on a path.
pub const MAX_DEPTH: usize = 32;

/// By kind, from 1 on.
const NAMES: [&str; 7] = [
    "POINT",
    "LINESTRING",
    "POLYGON",
    "MULTIPOINT",
    "MULTILINESTRING",
    "MULTIPOLYGON",
    "GEOMETRYCOLLECTION",
];
/// By dimension.
pub const ENDINGS: [&str; 4] = ["", " Z", " M", " ZM"];
pub const WIDTHS: [usize; 4] = [2, 3, 3, 4];

const FEWEST_OF_LINE: usize = 2;
const FEWEST_OF_RING: usize = 4;

/// What of "A store is well formed if .." a store breaks; where it breaks several, the
/// one that is met first.
#[derive(Clone, Copy, Debug, PartialEq, Eq, PartialOrd, Ord)]
pub enum Clause {
    NodePlaces,
    NumberPlaces,
    NoRow,
    RowLeft,
    Kind,
    Dimension,
    ChildKind,
    ChildDimension,
    PointParts,
    EmptyPoint,
    Depth,
    NoNumber,
    NumberLeft,
    OutsideText,
    NoLexeme,
}

pub struct Node<'text> {
    pub kind: u32,
    pub dimension: u32,
    pub row: usize,
    pub parts: Parts<'text>,
}

pub enum Parts<'text> {
    Coordinates(Vec<Coordinate<'text>>),
    Children(Vec<Node<'text>>),
}

/// Its number texts.
pub type Coordinate<'text> = Vec<&'text [u8]>;

impl<'text> Node<'text> {
    pub fn children(&self) -> &[Node<'text>] {
        match &self.parts {
            Parts::Coordinates(_) => &[],
            Parts::Children(children) => children,
        }
    }

    pub fn coordinates(&self) -> &[Coordinate<'text>] {
        match &self.parts {
            Parts::Coordinates(coordinates) => coordinates,
            Parts::Children(_) => &[],
        }
    }

    fn is_empty(&self) -> bool {
        self.children().is_empty() && self.coordinates().is_empty()
    }
}

/// The tree that the rows are.
pub fn tree<'text>(text: &'text [u8], rows: &Rows) -> Result<Node<'text>, Clause> {
    if !rows.nodes.len().is_multiple_of(3) {
        return Err(Clause::NodePlaces);
    }
    if !rows.numbers.len().is_multiple_of(2) {
        return Err(Clause::NumberPlaces);
    }
    let mut left = Left {
        text,
        rows,
        row: 0,
        number: 0,
        open: 0,
    };
    let root = left.node(None)?;
    if left.row < rows.nodes.len() / 3 {
        return Err(Clause::RowLeft);
    }
    if left.number < rows.numbers.len() / 2 {
        return Err(Clause::NumberLeft);
    }
    Ok(root)
}

/// The rows that aren't in the tree yet, and how many collections are open.
struct Left<'text, 'rows> {
    text: &'text [u8],
    rows: &'rows Rows,
    row: usize,
    number: usize,
    open: usize,
}

impl<'text> Left<'text, '_> {
    fn node(&mut self, parent: Option<(u32, u32)>) -> Result<Node<'text>, Clause> {
        let row = self.row;
        let places = self.rows.nodes.get(3 * row..3 * row + 3);
        let [kind, dimension, parts] = *places.ok_or(Clause::NoRow)? else {
            unreachable!("a row has three places")
        };
        self.row += 1;
        check(kind, dimension, parts, parent)?;
        let parts = match kind {
            POINT | LINE_STRING => {
                let coordinates = (0..parts).map(|_| self.coordinate(dimension));
                Parts::Coordinates(coordinates.collect::<Result<_, _>>()?)
            }
            _ => {
                let opens = usize::from(kind == GEOMETRY_COLLECTION && parts > 0);
                self.open += opens;
                if self.open > MAX_DEPTH {
                    return Err(Clause::Depth);
                }
                let children = (0..parts).map(|_| self.node(Some((kind, dimension))));
                let children = children.collect::<Result<_, _>>()?;
                self.open -= opens;
                Parts::Children(children)
            }
        };
        Ok(Node {
            kind,
            dimension,
            row,
            parts,
        })
    }

    fn coordinate(&mut self, dimension: u32) -> Result<Coordinate<'text>, Clause> {
        let numbers = 0..WIDTHS[dimension as usize];
        numbers.map(|_| self.number()).collect()
    }

    fn number(&mut self) -> Result<&'text [u8], Clause> {
        let number = self.number;
        let places = self.rows.numbers.get(2 * number..2 * number + 2);
        let [start, length] = *places.ok_or(Clause::NoNumber)? else {
            unreachable!("a row has two places")
        };
        self.number += 1;
        let (start, length) = (start as usize, length as usize);
        let span = self.text.get(start..start + length);
        let span = span.ok_or(Clause::OutsideText)?;
        match is_lexeme(span) {
            true => Ok(span),
            false => Err(Clause::NoLexeme),
        }
    }
}

fn check(kind: u32, dimension: u32, parts: u32, parent: Option<(u32, u32)>) -> Result<(), Clause> {
    if !(POINT..=GEOMETRY_COLLECTION).contains(&kind) {
        return Err(Clause::Kind);
    }
    if dimension > 3 {
        return Err(Clause::Dimension);
    }
    if let Some((parent_kind, parent_dimension)) = parent {
        let child_kind = match parent_kind {
            POLYGON | MULTI_LINE_STRING => Some(LINE_STRING),
            MULTI_POINT => Some(POINT),
            MULTI_POLYGON => Some(POLYGON),
            _ => None,
        };
        if child_kind.is_some_and(|named| named != kind) {
            return Err(Clause::ChildKind);
        }
        if child_kind.is_some() && dimension != parent_dimension {
            return Err(Clause::ChildDimension);
        }
        if parent_kind == MULTI_POINT && parts == 0 {
            return Err(Clause::EmptyPoint);
        }
    }
    match kind == POINT && parts > 1 {
        true => Err(Clause::PointParts),
        false => Ok(()),
    }
}

/// The number texts of a well-formed store.
pub fn number_texts<'both>(
    text: &'both [u8],
    rows: &'both Rows,
) -> impl Iterator<Item = &'both [u8]> {
    let spans = rows.numbers.chunks_exact(2);
    spans.map(|span| &text[span[0] as usize..][..span[1] as usize])
}

/// Whether two well-formed stores have the same nodes and number texts.
pub fn are_same(one: (&[u8], &Rows), other: (&[u8], &Rows)) -> bool {
    let texts_of_one = number_texts(one.0, one.1);
    one.1.nodes == other.1.nodes && texts_of_one.eq(number_texts(other.0, other.1))
}

/// Rust's own reader of doubles decides.
pub fn is_lexeme(bytes: &[u8]) -> bool {
    let text = std::str::from_utf8(bytes);
    text.is_ok_and(|text| text.parse::<f64>().is_ok())
}

pub fn canonical(root: &Node) -> Vec<u8> {
    let mut out = Vec::new();
    put_named(&mut out, root);
    out
}

fn put_named(out: &mut Vec<u8>, node: &Node) {
    out.extend(NAMES[node.kind as usize - 1].bytes());
    out.extend(ENDINGS[node.dimension as usize].bytes());
    if node.is_empty() {
        out.push(b' ');
    }
    put_body(out, node);
}

fn put_body(out: &mut Vec<u8>, node: &Node) {
    match &node.parts {
        _ if node.is_empty() => out.extend(b"EMPTY"),
        Parts::Coordinates(coordinates) => put_list(out, coordinates, put_coordinate),
        Parts::Children(children) if node.kind == GEOMETRY_COLLECTION => {
            put_list(out, children, put_named)
        }
        Parts::Children(children) => put_list(out, children, put_body),
    }
}

fn put_list<T>(out: &mut Vec<u8>, parts: &[T], put: impl Fn(&mut Vec<u8>, &T)) {
    for (index, part) in parts.iter().enumerate() {
        out.push(if index == 0 { b'(' } else { b',' });
        put(out, part);
    }
    out.push(b')');
}

fn put_coordinate(out: &mut Vec<u8>, numbers: &Coordinate) {
    for (index, number) in numbers.iter().enumerate() {
        if index > 0 {
            out.push(b' ');
        }
        if number[0] == b'+' || number[0].is_ascii_alphabetic() {
            out.push(b'+');
        }
        out.extend(*number);
    }
}

/// The letter of the first rule that fails in node order, and its row.
pub fn first_fault(node: &Node, parent: Option<&Node>) -> Option<(u8, usize)> {
    let here = fault(node, parent).map(|letter| (letter, node.row));
    here.or_else(|| {
        let mut children = node.children().iter();
        children.find_map(|child| first_fault(child, Some(node)))
    })
}

fn fault(node: &Node, parent: Option<&Node>) -> Option<u8> {
    let coordinates = node.coordinates();
    let is_line = node.kind == LINE_STRING && !coordinates.is_empty();
    let is_ring = is_line && parent.is_some_and(|parent| parent.kind == POLYGON);
    let is_other_dimension = parent.is_some_and(|parent| {
        parent.kind == GEOMETRY_COLLECTION && parent.dimension != node.dimension
    });
    let rules = [
        (b'A', is_line && coordinates.len() < FEWEST_OF_LINE),
        (b'B', is_ring && coordinates.len() < FEWEST_OF_RING),
        (b'C', is_ring && coordinates.first() != coordinates.last()),
        (b'D', is_other_dimension),
    ];
    let failing = rules.into_iter().find(|(_, fails)| *fails);
    failing.map(|(letter, _)| letter)
}

#[cfg(test)]
mod tests {
    use super::*;

    fn rows(nodes: &[u32], numbers: &[u32]) -> Rows {
        Rows {
            nodes: nodes.to_vec(),
            numbers: numbers.to_vec(),
        }
    }

    #[test]
    fn a_text_of_document_01() {
        let rows = rows(&[1, 0, 1], &[7, 2, 11, 2]);
        let root = tree(b"POINT(++4 +-4)", &rows).expect("well formed");
        assert_eq!(canonical(&root), b"POINT(++4 -4)");
        assert_eq!(first_fault(&root, None), None);
    }

    #[test]
    fn names_stand_at_the_root_and_in_collections() {
        let nodes = [
            7, 2, 3, 6, 0, 1, 3, 0, 2, 2, 0, 0, 2, 0, 1, 1, 1, 0, 4, 0, 1, 1, 0, 1,
        ];
        let rows = rows(&nodes, &[0, 3, 4, 1, 2, 1, 4, 1]);
        let root = tree(b"inf-5", &rows);
        assert_eq!(root.err(), Some(Clause::NoLexeme));
        let mut rows = rows;
        rows.numbers[4] = 3;
        rows.numbers[5] = 2;
        let root = tree(b"inf-5", &rows).expect("well formed");
        let text =
            "GEOMETRYCOLLECTION M(MULTIPOLYGON((EMPTY,(+inf 5))),POINT Z EMPTY,MULTIPOINT((-5 5)))";
        assert_eq!(String::from_utf8(canonical(&root)).unwrap(), text);
        assert_eq!(first_fault(&root, None), Some((b'D', 1)));
    }

    #[test]
    fn huge_counts_are_counted_out() {
        for nodes in [[2, 0, 1 << 31], [2, 3, 1 << 30], [2, 1, u32::MAX]] {
            let broken = tree(b"", &rows(&nodes, &[])).err();
            assert_eq!(broken, Some(Clause::NoNumber));
        }
        let broken = tree(b"", &rows(&[7, 0, u32::MAX], &[])).err();
        assert_eq!(broken, Some(Clause::NoRow));
    }
}
