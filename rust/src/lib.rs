//! A reader and canonical writer of well-known text (WKT) with the answers of the crate wkt 0.14.0, over a library
//! in which every function is proved.
//!
//! ```
//! let tree = doorhollow::read("MULTIPOINT((1 2),3 4)")?;
//! assert_eq!(tree.root().kind, doorhollow::Kind::MultiPoint);
//! assert_eq!(tree.to_wkt(), "MULTIPOINT((1 2),(3 4))");
//! let second = tree.child(0, 1).unwrap();
//! assert_eq!(tree.coordinate(second, 0).unwrap().y(), "4");
//! # Ok::<(), doorhollow::Refusal>(())
//! ```
//!
//! A tree can be kept as bytes and in files, which are smaller work to read than the text was ([`Tree::to_stored`],
//! [`read_stored`], [`Tree::save`], [`load`]): one tree has one stored form in each [`Version`], and what isn't one is
//! refused. Stored bytes are moved from one version to the other with no text at hand ([`move_stored`]), and so is a whole
//! folder of files ([`shelf::move_folder`]).
//!
//! Beside each node stands the box around its coordinates ([`Tree::bounds`]), and which boxes touch a rectangle is found
//! without another look at the text ([`Boxes::touching`]).
//!
//! A tree is rows: each node is one, and its children's rows follow it. Nodes are named by the index of their row,
//! from 0, which is the root. Numbers are parts of the text that was read, and no doubles: parse them as you need.
//!
//! What the reader takes a text apart into can be had too ([`tokens()`]).
#![warn(missing_docs)]

mod beside;
mod boxes;
mod calls;
mod expectations;
mod explain;
mod moves;
mod refusal;
pub mod refusals;
pub mod shelf;
mod stored;
mod tokens;
mod tree;
mod version;

pub use boxes::{Bounds, Boxes, UNITS_IN_ONE};
pub use calls::{
    box_rows, enough_rows, strict_rows, write_rows, write_stored_rows, BOX_WIDTH, NODE_WIDTH,
    NUMBER_WIDTH,
};
pub use expectations::Expected;
pub use moves::{move_stored, move_stored_into, Moved};
pub use refusal::Refusal;
pub use stored::{load, read_stored, read_stored_as, read_stored_into, FileError, Loaded};
pub use tokens::{tokens, Token, TokenKind, Tokens};
pub use tree::{Children, Coordinate, Coordinates, Node, Tree, Walk};
pub use version::Version;

use std::borrow::Cow;
use std::fmt;

/// The most bytes that a text may have.
pub const TEXT_LIMIT: usize = 4_194_304;

/// The kinds of geometry.
#[derive(Clone, Copy, Debug, PartialEq, Eq, Hash)]
#[allow(missing_docs)]
pub enum Kind {
    Point = 1,
    LineString,
    Polygon,
    MultiPoint,
    MultiLineString,
    MultiPolygon,
    GeometryCollection,
}

impl Kind {
    const ALL: [Kind; 7] = [
        Kind::Point,
        Kind::LineString,
        Kind::Polygon,
        Kind::MultiPoint,
        Kind::MultiLineString,
        Kind::MultiPolygon,
        Kind::GeometryCollection,
    ];

    fn from_number(number: u64) -> Option<Kind> {
        Kind::ALL.into_iter().find(|kind| *kind as u64 == number)
    }

    /// Whether the parts of such a node are coordinates; those of any other are nodes.
    pub fn has_coordinates(self) -> bool {
        matches!(self, Kind::Point | Kind::LineString)
    }
}

impl fmt::Display for Kind {
    fn fmt(&self, f: &mut fmt::Formatter<'_>) -> fmt::Result {
        f.write_str(match self {
            Kind::Point => "POINT",
            Kind::LineString => "LINESTRING",
            Kind::Polygon => "POLYGON",
            Kind::MultiPoint => "MULTIPOINT",
            Kind::MultiLineString => "MULTILINESTRING",
            Kind::MultiPolygon => "MULTIPOLYGON",
            Kind::GeometryCollection => "GEOMETRYCOLLECTION",
        })
    }
}

/// Which numbers a coordinate has.
#[derive(Clone, Copy, Debug, PartialEq, Eq, Hash)]
#[allow(missing_docs)]
pub enum Dimension {
    XY = 0,
    XYZ,
    XYM,
    XYZM,
}

impl Dimension {
    const ALL: [Dimension; 4] = [
        Dimension::XY,
        Dimension::XYZ,
        Dimension::XYM,
        Dimension::XYZM,
    ];

    fn from_number(number: u64) -> Option<Dimension> {
        Dimension::ALL
            .into_iter()
            .find(|dimension| *dimension as u64 == number)
    }

    /// How many numbers a coordinate has.
    pub fn width(self) -> usize {
        match self {
            Dimension::XY => 2,
            Dimension::XYZ | Dimension::XYM => 3,
            Dimension::XYZM => 4,
        }
    }
}

/// A strict rule that a tree breaks, and the row of the node that breaks it.
#[derive(Clone, Copy, Debug, PartialEq, Eq)]
pub struct Fault {
    /// `A` to `D`.
    pub rule: char,
    /// The line string's own row for A, B and C, the child's for D.
    pub row: usize,
}

impl fmt::Display for Fault {
    fn fmt(&self, f: &mut fmt::Formatter<'_>) -> fmt::Result {
        let rule = match self.rule {
            'A' => "a line string has fewer than 2 coordinates",
            'B' => "a ring has fewer than 4 coordinates",
            'C' => "a ring isn't closed",
            _ => "a collection's child has another dimension",
        };
        write!(f, "{rule} (rule {}, row {})", self.rule, self.row)
    }
}

impl std::error::Error for Fault {}

/// Rows of both sorts, those of the nodes first, filled by a reader and cut to those that it used: the memory of the
/// others is given back.
fn filled_rows<F>(
    node_rows: usize,
    number_rows: usize,
    reader: F,
) -> Result<(Vec<u32>, Vec<u32>), Refusal>
where
    F: FnOnce(&mut [u32], &mut [u32]) -> Result<(usize, usize), Refusal>,
{
    let mut nodes = vec![0; node_rows * NODE_WIDTH];
    let mut numbers = vec![0; number_rows * NUMBER_WIDTH];
    let (node_count, number_count) = reader(&mut nodes, &mut numbers)?;
    nodes.truncate(node_count * NODE_WIDTH);
    nodes.shrink_to_fit();
    numbers.truncate(number_count * NUMBER_WIDTH);
    numbers.shrink_to_fit();
    Ok((nodes, numbers))
}

/// Reads the geometry that a text begins with. What follows it is unread.
///
/// While it reads, there are as many rows of both sorts as [`enough_rows`] says, which take ten times as many bytes as
/// the text has; those that the tree uses are left.
pub fn read<T: AsRef<[u8]> + ?Sized>(text: &T) -> Result<Tree<'_>, Refusal> {
    let text = text.as_ref();
    // A text over the limit is refused without any row.
    let rows = if text.len() <= TEXT_LIMIT {
        enough_rows(text.len())
    } else {
        0
    };
    let reader = |nodes: &mut [u32], numbers: &mut [u32]| calls::read(text, nodes, numbers);
    let (nodes, numbers) = filled_rows(rows, rows, reader)?;
    Ok(Tree::new(text, Cow::Owned(nodes), Cow::Owned(numbers)))
}

/// Reads into rows that the caller lends, and allocates nothing: `nodes` has room for a third as many nodes as it is
/// long, `numbers` for half as many numbers; [`enough_rows`] says how many are enough. Every place after the used rows
/// is zero, and after a refusal every place.
pub fn read_into<'a, T: AsRef<[u8]> + ?Sized>(
    text: &'a T,
    nodes: &'a mut [u32],
    numbers: &'a mut [u32],
) -> Result<Tree<'a>, Refusal> {
    let text = text.as_ref();
    let used = calls::read(text, nodes, numbers)?;
    Ok(Tree::lent(text, nodes, numbers, used))
}

/// The kind and the dimension that the front of a text names. It looks no further than the first `(`.
pub fn infer_type<T: AsRef<[u8]> + ?Sized>(text: &T) -> Result<(Kind, Dimension), Refusal> {
    calls::infer_type(text.as_ref())
}
