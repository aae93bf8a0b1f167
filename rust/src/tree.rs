//! What was read: nodes and numbers by their indexes.
use crate::{calls, Bounds, Boxes, Dimension, Fault, Kind, Refusal, NODE_WIDTH, NUMBER_WIDTH};
use std::borrow::Cow;
use std::fmt;
use std::ops::Range;
use std::sync::OnceLock;

/// A node: its kind, its dimension, and how many coordinates or children it has.
#[derive(Clone, Copy, Debug, PartialEq, Eq)]
#[allow(missing_docs)]
pub struct Node {
    pub kind: Kind,
    pub dimension: Dimension,
    pub parts: usize,
}

impl Node {
    fn children(&self) -> usize {
        if self.kind.has_coordinates() {
            0
        } else {
            self.parts
        }
    }

    fn numbers(&self) -> usize {
        if self.kind.has_coordinates() {
            self.parts * self.dimension.width()
        } else {
            0
        }
    }
}

/// A geometry that was read from a text or from stored bytes, which it borrows. Its rows are its own, or lent by the
/// caller of [`read_into`](crate::read_into) or [`read_stored_into`](crate::read_stored_into).
#[derive(Clone, Debug)]
pub struct Tree<'a> {
    text: &'a [u8],
    nodes: Cow<'a, [u32]>,
    numbers: Cow<'a, [u32]>,
    // What the boxes came to, once they were asked for.
    boxes: OnceLock<Result<Boxes, Refusal>>,
}

impl<'a> Tree<'a> {
    pub(crate) fn new(text: &'a [u8], nodes: Cow<'a, [u32]>, numbers: Cow<'a, [u32]>) -> Tree<'a> {
        Tree {
            text,
            nodes,
            numbers,
            boxes: OnceLock::new(),
        }
    }

    /// Over lent rows, of which so many for nodes and so many for numbers are used.
    pub(crate) fn lent(
        text: &'a [u8],
        nodes: &'a [u32],
        numbers: &'a [u32],
        (node_count, number_count): (usize, usize),
    ) -> Tree<'a> {
        Tree::new(
            text,
            Cow::Borrowed(&nodes[..node_count * NODE_WIDTH]),
            Cow::Borrowed(&numbers[..number_count * NUMBER_WIDTH]),
        )
    }

    /// The text that was read, with what follows the geometry.
    pub fn text(&self) -> &'a [u8] {
        self.text
    }

    /// The rows of the nodes as the library filled them: kind, dimension, parts.
    pub fn node_rows(&self) -> &[u32] {
        &self.nodes
    }

    /// The rows of the numbers: start and length.
    pub fn number_rows(&self) -> &[u32] {
        &self.numbers
    }

    /// How many nodes there are; one at least.
    pub fn node_count(&self) -> usize {
        self.nodes.len() / NODE_WIDTH
    }

    /// How many numbers there are.
    pub fn number_count(&self) -> usize {
        self.numbers.len() / NUMBER_WIDTH
    }

    /// The node that all others stand below, at index 0.
    pub fn root(&self) -> Node {
        self.node(0).expect("a tree has a root")
    }

    /// The node at an index.
    pub fn node(&self, index: usize) -> Option<Node> {
        let row = self.nodes.chunks_exact(NODE_WIDTH).nth(index)?;
        Some(Node {
            kind: Kind::from_number(row[0].into()).expect("a row has a kind"),
            dimension: Dimension::from_number(row[1].into()).expect("a row has a dimension"),
            parts: row[2] as usize,
        })
    }

    /// All nodes in the order of their indexes, each with its index and that of its first number.
    pub fn walk(&self) -> Walk<'_> {
        Walk {
            tree: self,
            index: 0,
            number: 0,
        }
    }

    /// All nodes in the order of their indexes: each before its children.
    pub fn nodes(&self) -> impl Iterator<Item = Node> + '_ {
        self.walk().map(|(_, node, _)| node)
    }

    // The index behind a node and all that stand below it.
    fn behind(&self, index: usize) -> usize {
        let mut at = index;
        let mut left = 1;
        while left > 0 {
            let Some(node) = self.node(at) else { break };
            left += node.children();
            left -= 1;
            at += 1;
        }
        at
    }

    /// The indexes of a node's children; none of one that has coordinates. To step over a child is to pass over all
    /// that stand below it.
    pub fn children(&self, index: usize) -> Children<'_> {
        let left = self.node(index).map_or(0, |node| node.children());
        Children {
            tree: self,
            next: index.saturating_add(1),
            left,
        }
    }

    /// The index of a node's child, by its place among the children.
    pub fn child(&self, index: usize, part: usize) -> Option<usize> {
        self.children(index).nth(part)
    }

    /// A node's coordinates; none of one that has children. To find the first is to pass over the nodes before it.
    pub fn coordinates(&self, index: usize) -> Coordinates<'_> {
        let found = self
            .walk()
            .nth(index)
            .filter(|(_, node, _)| node.kind.has_coordinates());
        match found {
            Some((_, node, number)) => Coordinates {
                tree: self,
                dimension: node.dimension,
                next: number,
                left: node.parts,
            },
            None => Coordinates {
                tree: self,
                dimension: Dimension::XY,
                next: 0,
                left: 0,
            },
        }
    }

    /// A node's coordinate, by its place among them.
    pub fn coordinate(&self, index: usize, part: usize) -> Option<Coordinate<'_>> {
        self.coordinates(index).nth(part)
    }

    /// Where a number's text stands in the text that was read, by the number's index.
    pub fn number_span(&self, number: usize) -> Option<Range<usize>> {
        let row = self.numbers.chunks_exact(NUMBER_WIDTH).nth(number)?;
        let start = row[0] as usize;
        Some(start..start + row[1] as usize)
    }

    /// The text of a number, by its index: without the one `+` that may stand in front.
    pub fn number(&self, number: usize) -> Option<&'a str> {
        let span = self.number_span(number)?;
        Some(std::str::from_utf8(&self.text[span]).expect("a number is ASCII"))
    }

    /// The canonical text.
    pub fn to_wkt(&self) -> String {
        // A number may need one byte more than in its text, and a node two.
        let mut room = self.text.len() + self.number_count() + 2 * self.node_count();
        loop {
            let mut out = vec![0; room];
            match self.write_into(&mut out) {
                Ok(length) => {
                    out.truncate(length);
                    return String::from_utf8(out).expect("a canonical text is ASCII");
                }
                Err(_) => room *= 2,
            }
        }
    }

    /// Writes the canonical text into a room that the caller lends, and answers how many bytes it has. Where the room
    /// is too small the refusal is 23, and the room is all zero.
    pub fn write_into(&self, out: &mut [u8]) -> Result<usize, Refusal> {
        calls::write_rows(self.text, &self.nodes, &self.numbers, out)
    }

    /// The first strict rule that the tree breaks, if any.
    pub fn strict(&self) -> Result<(), Fault> {
        let checked = calls::strict_rows(self.text, &self.nodes, &self.numbers);
        match checked.expect("rows that were read are a store") {
            None => Ok(()),
            Some(fault) => Err(fault),
        }
    }

    /// The boxes of all nodes. One call works them out when they are first asked for; the tree keeps them.
    ///
    /// Refusals 30, for an X or Y that is `inf` or `nan`, and 31, for one whose exponent is beyond 9,999 either way or
    /// whose size is over 10,000,000,000: of the first such number, with the place in [`text`](Tree::text) where its text
    /// starts. Z and M may be any numbers. To have no box is no refusal.
    pub fn boxes(&self) -> Result<&Boxes, Refusal> {
        let boxes = self
            .boxes
            .get_or_init(|| Boxes::of(self.text, &self.nodes, &self.numbers));
        boxes.as_ref().map_err(|refusal| *refusal)
    }

    /// The box of the node at an index, around its coordinates and those of all nodes below it; `None` where there are
    /// none, or no such node. It is that of [`boxes`](Tree::boxes), with the same refusals.
    ///
    /// ```
    /// let tree = doorhollow::read("GEOMETRYCOLLECTION(POINT EMPTY,POINT(-0.00000005 2.5))")?;
    /// let all = tree.bounds(0)?.unwrap();
    /// assert_eq!((all.low_x, all.high_x), (-1, 0));
    /// assert_eq!((all.low_y, all.high_y), (25_000_000, 25_000_000));
    /// assert_eq!(tree.bounds(1)?, None);
    /// # Ok::<(), doorhollow::Refusal>(())
    /// ```
    pub fn bounds(&self, index: usize) -> Result<Option<Bounds>, Refusal> {
        Ok(self.boxes()?.bounds(index))
    }
}

/// The canonical text.
impl fmt::Display for Tree<'_> {
    fn fmt(&self, f: &mut fmt::Formatter<'_>) -> fmt::Result {
        f.write_str(&self.to_wkt())
    }
}

/// All nodes: index, node, and the index of its first number.
#[derive(Clone, Debug)]
pub struct Walk<'t> {
    tree: &'t Tree<'t>,
    index: usize,
    number: usize,
}

impl Iterator for Walk<'_> {
    type Item = (usize, Node, usize);

    fn next(&mut self) -> Option<Self::Item> {
        let node = self.tree.node(self.index)?;
        let found = (self.index, node, self.number);
        self.index += 1;
        self.number += node.numbers();
        Some(found)
    }
}

/// The indexes of a node's children.
#[derive(Clone, Debug)]
pub struct Children<'t> {
    tree: &'t Tree<'t>,
    next: usize,
    left: usize,
}

impl Iterator for Children<'_> {
    type Item = usize;

    fn next(&mut self) -> Option<usize> {
        self.left = self.left.checked_sub(1)?;
        let found = self.next;
        self.next = self.tree.behind(found);
        Some(found)
    }

    fn size_hint(&self) -> (usize, Option<usize>) {
        (self.left, Some(self.left))
    }
}

impl ExactSizeIterator for Children<'_> {}

/// The coordinates of a point or a line string.
#[derive(Clone, Debug)]
pub struct Coordinates<'t> {
    tree: &'t Tree<'t>,
    dimension: Dimension,
    next: usize,
    left: usize,
}

impl<'t> Iterator for Coordinates<'t> {
    type Item = Coordinate<'t>;

    fn next(&mut self) -> Option<Coordinate<'t>> {
        self.left = self.left.checked_sub(1)?;
        let found = Coordinate {
            tree: self.tree,
            dimension: self.dimension,
            number: self.next,
        };
        self.next += self.dimension.width();
        Some(found)
    }

    fn size_hint(&self) -> (usize, Option<usize>) {
        (self.left, Some(self.left))
    }
}

impl ExactSizeIterator for Coordinates<'_> {}

/// A coordinate: the texts of its numbers.
#[derive(Clone, Copy, Debug)]
pub struct Coordinate<'t> {
    tree: &'t Tree<'t>,
    dimension: Dimension,
    number: usize,
}

impl<'t> Coordinate<'t> {
    fn text(&self, part: usize) -> &'t str {
        self.tree
            .number(self.number + part)
            .expect("a coordinate has its numbers")
    }

    /// Which numbers it has.
    pub fn dimension(&self) -> Dimension {
        self.dimension
    }

    /// The index of its first number.
    pub fn first_number(&self) -> usize {
        self.number
    }

    /// The text of X.
    pub fn x(&self) -> &'t str {
        self.text(0)
    }

    /// The text of Y.
    pub fn y(&self) -> &'t str {
        self.text(1)
    }

    /// The text of Z, if there is one.
    pub fn z(&self) -> Option<&'t str> {
        matches!(self.dimension, Dimension::XYZ | Dimension::XYZM).then(|| self.text(2))
    }

    /// The text of M, if there is one.
    pub fn m(&self) -> Option<&'t str> {
        matches!(self.dimension, Dimension::XYM | Dimension::XYZM)
            .then(|| self.text(self.dimension.width() - 1))
    }

    /// The texts of its numbers, in their order.
    pub fn numbers(&self) -> impl Iterator<Item = &'t str> + '_ {
        (0..self.dimension.width()).map(|part| self.text(part))
    }
}
