//! The Rust's reader: the tree as rows, or the numbers that its refusal may have.

use crate::kept::{self, KeptNumber};
use std::fmt::Write;
use std::str::FromStr;
use wkt::types::{
    Coord, Dimension, GeometryCollection, LineString, MultiLineString, MultiPoint, MultiPolygon,
    Point, Polygon,
};
use wkt::Wkt;

/// A row of the store: kind, dimension, parts.
pub type NodeRow = [u32; 3];

pub const POINT: u32 = 1;
pub const LINE_STRING: u32 = 2;
pub const POLYGON: u32 = 3;
pub const MULTI_POINT: u32 = 4;
pub const MULTI_LINE_STRING: u32 = 5;
pub const MULTI_POLYGON: u32 = 6;
pub const GEOMETRY_COLLECTION: u32 = 7;

/// What the Rust's reader says, and the numbers that documents 01 and 02 give it. Of a bad
/// number the Rust doesn't say what is wrong with it, so there are two.
const REFUSALS: [(&[u32], &str); 13] = [
    (
        &[28, 29],
        "Unable to parse input number as the desired output type",
    ),
    (&[7], "Encountered non-ascii word"),
    (&[8], "Invalid WKT format"),
    (&[9], "Invalid type encountered"),
    (&[10], "End of stream"),
    (&[11], "Unexpected word before open paren"),
    (&[12], "Missing open parenthesis for type"),
    (&[13], "Missing closing parenthesis for type"),
    (&[14], "Expected a number for the X coordinate"),
    (&[15], "Expected a number for the Y coordinate"),
    (&[16], "Expected a number for the Z coordinate"),
    (&[17], "Expected a number for the M coordinate"),
    (&[18], "Expected a word in GEOMETRYCOLLECTION"),
];

#[derive(Clone, Debug, PartialEq, Eq)]
pub struct Number {
    pub text: String,
    pub bits: u64,
}

/// A tree in preorder, and its numbers in the order of the text.
#[derive(Clone, Debug, Default, PartialEq, Eq)]
pub struct Tree {
    pub nodes: Vec<NodeRow>,
    pub numbers: Vec<Number>,
    /// How many non-empty collections lie on one path at most.
    pub depth: usize,
}

#[derive(Clone, Debug, PartialEq, Eq)]
pub enum Reading {
    Accepted(Tree),
    Refused {
        /// One of these.
        numbers: &'static [u32],
        message: &'static str,
    },
}

/// Reads a text with the Rust. Nesting has no limit there, so the thread's stack
/// must be large.
pub fn read(text: &str) -> Reading {
    kept::forget_texts();
    match Wkt::<KeptNumber>::from_str(text) {
        Ok(geometry) => {
            let mut tree = Tree::default();
            tree.push_geometry(&geometry, 0);
            Reading::Accepted(tree)
        }
        Err(message) => Reading::Refused {
            numbers: refusal_numbers(message),
            message,
        },
    }
}

fn refusal_numbers(message: &str) -> &'static [u32] {
    let known = REFUSALS.iter().find(|(_, text)| *text == message);
    known.expect("the Rust's reader says only these").0
}

pub fn dimension_number(dimension: Dimension) -> u32 {
    match dimension {
        Dimension::XY => 0,
        Dimension::XYZ => 1,
        Dimension::XYM => 2,
        Dimension::XYZM => 3,
    }
}

impl Tree {
    /// `open` counts the collections that the geometry lies in.
    fn push_geometry(&mut self, geometry: &Wkt<KeptNumber>, open: usize) {
        match geometry {
            Wkt::Point(point) => self.push_point(point),
            Wkt::LineString(line) => self.push_line_string(line),
            Wkt::Polygon(polygon) => self.push_polygon(polygon),
            Wkt::MultiPoint(points) => self.push_multi_point(points),
            Wkt::MultiLineString(lines) => self.push_multi_line_string(lines),
            Wkt::MultiPolygon(polygons) => self.push_multi_polygon(polygons),
            Wkt::GeometryCollection(collection) => self.push_collection(collection, open),
        }
    }

    fn push_collection(&mut self, collection: &GeometryCollection<KeptNumber>, open: usize) {
        let children = collection.geometries();
        self.push_node(GEOMETRY_COLLECTION, collection.dimension(), children.len());
        if !children.is_empty() {
            self.depth = self.depth.max(open + 1);
        }
        for child in children {
            self.push_geometry(child, open + 1);
        }
    }

    fn push_multi_polygon(&mut self, polygons: &MultiPolygon<KeptNumber>) {
        let children = polygons.polygons();
        self.push_node(MULTI_POLYGON, polygons.dimension(), children.len());
        for polygon in children {
            self.push_polygon(polygon);
        }
    }

    fn push_multi_line_string(&mut self, lines: &MultiLineString<KeptNumber>) {
        let children = lines.line_strings();
        self.push_node(MULTI_LINE_STRING, lines.dimension(), children.len());
        for line in children {
            self.push_line_string(line);
        }
    }

    fn push_multi_point(&mut self, points: &MultiPoint<KeptNumber>) {
        self.push_node(MULTI_POINT, points.dimension(), points.points().len());
        for point in points.points() {
            self.push_point(point);
        }
    }

    fn push_polygon(&mut self, polygon: &Polygon<KeptNumber>) {
        self.push_node(POLYGON, polygon.dimension(), polygon.rings().len());
        for ring in polygon.rings() {
            self.push_line_string(ring);
        }
    }

    fn push_line_string(&mut self, line: &LineString<KeptNumber>) {
        self.push_node(LINE_STRING, line.dimension(), line.coords().len());
        for coord in line.coords() {
            self.push_coord(coord);
        }
    }

    fn push_point(&mut self, point: &Point<KeptNumber>) {
        let parts = usize::from(point.coord().is_some());
        self.push_node(POINT, point.dimension(), parts);
        if let Some(coord) = point.coord() {
            self.push_coord(coord);
        }
    }

    fn push_coord(&mut self, coord: &Coord<KeptNumber>) {
        let numbers = [Some(coord.x), Some(coord.y), coord.z, coord.m];
        self.numbers
            .extend(numbers.into_iter().flatten().map(|number| Number {
                text: number.text(),
                bits: number.bits(),
            }));
    }

    fn push_node(&mut self, kind: u32, dimension: Dimension, parts: usize) {
        let parts = u32::try_from(parts).expect("a record's text has fewer parts");
        self.nodes.push([kind, dimension_number(dimension), parts]);
    }
}

/// `accepted NODES NUMBERS ; node rows ; text:bits of each number`, texts and bits
/// in hex, or `refused NUMBER MESSAGE`, all its numbers with `/` between.
pub fn line(reading: &Reading) -> String {
    let tree = match reading {
        Reading::Accepted(tree) => tree,
        Reading::Refused { numbers, message } => {
            let numbers: Vec<String> = numbers.iter().map(u32::to_string).collect();
            return format!("refused {} {message}", numbers.join("/"));
        }
    };
    let rows: Vec<String> = tree.nodes.iter().flatten().map(u32::to_string).collect();
    let numbers: Vec<String> = tree.numbers.iter().map(number_in_hex).collect();
    format!(
        "accepted {} {} ; {} ; {}",
        tree.nodes.len(),
        tree.numbers.len(),
        rows.join(" "),
        numbers.join(" ")
    )
}

fn number_in_hex(number: &Number) -> String {
    let mut hex = String::new();
    for byte in number.text.bytes() {
        write!(hex, "{byte:02x}").expect("a string takes everything");
    }
    format!("{hex}:{:016x}", number.bits)
}

#[cfg(test)]
mod tests {
    use super::*;

    fn answer(text: &str) -> String {
        line(&read(text))
    }

    #[test]
    fn trees_in_preorder() {
        assert_eq!(
            answer("MULTIPOINT((1 2),3 4)"),
            "accepted 3 4 ; 4 0 2 1 0 1 1 0 1 ; \
             31:3ff0000000000000 32:4000000000000000 \
             33:4008000000000000 34:4010000000000000"
        );
        assert_eq!(answer("POINTZM EMPTY"), "accepted 1 0 ; 1 3 0 ; ");
        assert_eq!(
            answer("GEOMETRYCOLLECTION Z(POINT(++4 +-4))"),
            "accepted 2 2 ; 7 1 1 1 0 1 ; 2b34:4010000000000000 2d34:c010000000000000"
        );
    }

    #[test]
    fn refusals_of_document_01() {
        for (text, number) in [
            ("", 8),
            ("POINT", 10),
            ("POINT 4x", 10),
            ("POINT(x 2)", 13),
            ("POINT(1 x)", 15),
            ("POINT(+ 5)", 13),
            ("POINT(1 \0)", 15),
            ("POINT(1 ", 13),
            ("MULTIPOINT(1 2,EMPTY)", 14),
            ("POINTZ Z(1 2 3)", 12),
            ("LINEARRINGZ(1 2 3)", 9),
            ("GEOMETRYCOLLECTION(京)", 9),
            ("GEOMETRYCOLLECTION(京(1 2))", 13),
            ("京", 7),
            ("POINT foo", 11),
            ("GEOMETRYCOLLECTION()", 13),
            ("GEOMETRYCOLLECTION(())", 18),
        ] {
            match read(text) {
                Reading::Refused { numbers, .. } => assert_eq!(numbers, [number], "{text:?}"),
                Reading::Accepted(_) => panic!("{text:?} was accepted"),
            }
        }
    }

    #[test]
    fn a_bad_number_has_one_message_and_two_numbers() {
        let line = "refused 28/29 Unable to parse input number as the desired output type";
        for text in [
            "+",
            "4x",
            "POINTZ 4x",
            "POINT(+)",
            "POINT(1 2 4x",
            "POINT(x +",
        ] {
            assert_eq!(answer(text), line, "{text:?}");
        }
    }

    #[test]
    fn depth_counts_non_empty_collections() {
        let nested = |depth: usize| {
            let open = "GEOMETRYCOLLECTION(".repeat(depth);
            format!("{open}GEOMETRYCOLLECTION EMPTY{}", ")".repeat(depth))
        };
        for depth in [0, 1, 32, 33] {
            match read(&nested(depth)) {
                Reading::Accepted(tree) => assert_eq!(tree.depth, depth),
                refused => panic!("{refused:?}"),
            }
        }
    }
}
