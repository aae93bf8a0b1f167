//! A box beside each node: the rectangle around its coordinates and around those of all nodes below it.
use crate::{calls, Refusal, BOX_WIDTH, NODE_WIDTH};

/// How many units there are in the 1 that a text counts in: a unit is a ten-millionth.
pub const UNITS_IN_ONE: i64 = 10_000_000;

/// A rectangle with its edges and corners, whose sides are whole numbers of units: see [`UNITS_IN_ONE`].
///
/// The sides of a node's box are worked out from the digits, without doubles, and rounded outward: an X of
/// `0.00000005`, which is half a unit, lies between the sides 0 and 1, and one of `-0.00000005` between -1 and 0. So all
/// coordinates lie in the box, and each side is less than a unit away from one of them.
#[derive(Clone, Copy, Debug, PartialEq, Eq, Hash)]
pub struct Bounds {
    /// The lowest X, rounded down.
    pub low_x: i64,
    /// The highest X, rounded up.
    pub high_x: i64,
    /// The lowest Y, rounded down.
    pub low_y: i64,
    /// The highest Y, rounded up.
    pub high_y: i64,
}

impl Bounds {
    // A row of the table. Its first place tells whether there is a box.
    fn from_row(row: &[i64]) -> Option<Bounds> {
        let &[1, low_x, high_x, low_y, high_y] = row else {
            return None;
        };
        Some(Bounds {
            low_x,
            high_x,
            low_y,
            high_y,
        })
    }

    /// Whether two rectangles share a point: an edge or a corner is enough. One with a low side above its high side has
    /// no point, and touches nothing.
    pub fn touches(self, other: Bounds) -> bool {
        // What both have in common has these sides. Where one of them has no point, neither has this.
        self.low_x.max(other.low_x) <= self.high_x.min(other.high_x)
            && self.low_y.max(other.low_y) <= self.high_y.min(other.high_y)
    }
}

/// The boxes of a tree's nodes, by the nodes' indexes: see [`Tree::boxes`](crate::Tree::boxes).
///
/// ```
/// use doorhollow::{Bounds, UNITS_IN_ONE};
///
/// let tree = doorhollow::read("MULTIPOINT(1.5 -2,30 4,10 10)")?;
/// let boxes = tree.boxes()?;
/// let point = Bounds { low_x: 15_000_000, high_x: 15_000_000, low_y: -20_000_000, high_y: -20_000_000 };
/// assert_eq!(boxes.bounds(1), Some(point));
/// assert_eq!(boxes.bounds(0).unwrap().high_x, 30 * UNITS_IN_ONE);
///
/// // the last point lies on a corner of the sheet, the first below it
/// let ten = 10 * UNITS_IN_ONE;
/// let sheet = Bounds { low_x: 0, high_x: ten, low_y: 0, high_y: ten };
/// assert_eq!(boxes.touching(sheet).collect::<Vec<_>>(), [0, 3]);
/// # Ok::<(), doorhollow::Refusal>(())
/// ```
#[derive(Clone, Debug, PartialEq, Eq)]
pub struct Boxes {
    table: Vec<i64>,
}

impl Boxes {
    // One call for all nodes of the rows, which are the used ones only.
    pub(crate) fn of(text: &[u8], nodes: &[u32], numbers: &[u32]) -> Result<Boxes, Refusal> {
        let mut table = vec![0; nodes.len() / NODE_WIDTH * BOX_WIDTH];
        calls::box_rows(text, nodes, numbers, &mut table)?;
        Ok(Boxes { table })
    }

    /// The table as the library filled it: a row of five for each node.
    pub fn table(&self) -> &[i64] {
        &self.table
    }

    fn rows(&self) -> impl Iterator<Item = Option<Bounds>> + '_ {
        self.table.chunks_exact(BOX_WIDTH).map(Bounds::from_row)
    }

    /// The box of the node at an index; `None` where there are no coordinates in it and below it, or no such node.
    pub fn bounds(&self, index: usize) -> Option<Bounds> {
        self.rows().nth(index)?
    }

    /// The indexes of the nodes whose boxes touch a rectangle, in their order. A node's box holds those of the nodes
    /// below it, so that all nodes around one that touches it do so too.
    pub fn touching(&self, rectangle: Bounds) -> impl Iterator<Item = usize> + '_ {
        let touches = move |bounds: Bounds| bounds.touches(rectangle);
        self.rows()
            .enumerate()
            .filter(move |(_, row)| row.is_some_and(touches))
            .map(|(index, _)| index)
    }
}
