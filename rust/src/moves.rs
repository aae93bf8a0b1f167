//! Stored bytes of one version moved to the other, with no text at hand.
use crate::{calls, Refusal, Version, NODE_WIDTH, NUMBER_WIDTH};

/// What [`move_stored_into`] filled of what it was lent.
#[derive(Clone, Copy, Debug, PartialEq, Eq, Hash)]
pub struct Moved {
    /// How many bytes were written.
    pub length: usize,
    /// How many node rows are used.
    pub nodes: usize,
    /// How many number rows are used.
    pub numbers: usize,
}

/// Moves stored bytes to a version from the [other](Version::other) one. They become what
/// [`Tree::to_stored_as`](crate::Tree::to_stored_as) makes of the tree that they are read as, and are longer in version
/// 2 by 4 bytes and by 2 for each node.
///
/// ```
/// use doorhollow::{move_stored, Version};
///
/// let point = doorhollow::read("POINT(1 2)")?;
/// let first = point.to_stored_as(Version::One)?;
/// let second = move_stored(&first, Version::Two)?;
/// assert_eq!(second, point.to_stored_as(Version::Two)?);
/// assert_eq!(second.len(), first.len() + 4 + 2);
/// assert_eq!(move_stored(&second, Version::One)?, first);
///
/// // what is of the version already isn't of the other one
/// let refusal = move_stored(&second, Version::Two).unwrap_err();
/// assert_eq!((refusal.number, refusal.place), (26, 3));
/// # Ok::<(), doorhollow::Refusal>(())
/// ```
///
/// Going up to version 2, all is moved that version 1's reader takes. Going back to version 1, all but what doesn't fit
/// it. Either way, moving what comes out gives the first bytes again.
///
/// Refusals, with the place in the bytes: those of the reader first, which are 1 (too long), 26 (another version), 25 (a
/// faulty field) and 22 (no tree); then, going back, 27 at 0: more than 65,535 nodes, numbers or parts of a node, or more
/// than 1,048,576 bytes in all.
pub fn move_stored(bytes: &[u8], to: Version) -> Result<Vec<u8>, Refusal> {
    let (node_rows, number_rows) = to.other().rows_for(bytes);
    let mut nodes = vec![0; node_rows * NODE_WIDTH];
    let mut numbers = vec![0; number_rows * NUMBER_WIDTH];
    let mut out = vec![0; room_for(bytes, node_rows, to)];
    let moved = move_stored_into(bytes, to, &mut nodes, &mut numbers, &mut out)?;
    out.truncate(moved.length);
    Ok(out)
}

/// How long stored bytes become where they have so many nodes. What is refused for its length, before or after, is
/// refused without any room. Where the nodes are too many for the bytes, the reader refuses them, whatever the room.
fn room_for(bytes: &[u8], nodes: usize, to: Version) -> usize {
    let from = to.other();
    let of_numbers = bytes
        .len()
        .saturating_sub(from.head_length() + nodes * from.node_length());
    let length = to.head_length() + nodes * to.node_length() + of_numbers;
    if bytes.len() <= from.limit() && length <= to.limit() {
        length
    } else {
        0
    }
}

/// Moves stored bytes as [`move_stored`] does, through rows and into a room that the caller lends, and allocates nothing.
/// The rows are left as [`read_stored_into`](crate::read_stored_into) leaves them, with the numbers' texts in `bytes`.
/// Every place after the used rows is zero, and every byte after those written; after a refusal, all of them.
///
/// ```
/// use doorhollow::{move_stored_into, Moved, Version};
///
/// let first = b"\x01\0\x05\x01\0\x01\0\x02\x02\0\x04\x01\0\0\x01\x03\0\x011\x03\0\x012";
/// let (mut nodes, mut numbers, mut out) = ([7; 4], [7; 4], [7; 30]);
/// let moved = move_stored_into(first, Version::Two, &mut nodes, &mut numbers, &mut out)?;
/// assert_eq!(moved, Moved { length: 29, nodes: 1, numbers: 2 });
/// assert_eq!(nodes, [1, 0, 1, 0]);
/// assert_eq!(numbers, [18, 1, 22, 1]);
/// assert_eq!(out[..12], *b"\x01\0\x09\x02\0\0\0\x01\0\0\0\x02");
/// assert_eq!(out[12..], *b"\x02\0\x06\x01\0\0\0\0\x01\x03\0\x011\x03\0\x012\0");
///
/// let refusal = move_stored_into(first, Version::Two, &mut nodes, &mut numbers, &mut out[..28]);
/// assert_eq!(refusal.unwrap_err().number, doorhollow::refusals::NO_ROOM);
/// assert_eq!((nodes, numbers, &out[..28]), ([0; 4], [0; 4], &[0; 28][..]));
/// # Ok::<(), doorhollow::Refusal>(())
/// ```
///
/// Rows are enough as for `read_stored_into`. Refusals, in this order: the reader's, 1, 26, 25, 22, and 3 or 4 where
/// there are too few rows; then 27, going back, where something doesn't fit version 1; then 23, where the room is too
/// small. The place is 0 for 22, 27 and 23.
pub fn move_stored_into(
    bytes: &[u8],
    to: Version,
    nodes: &mut [u32],
    numbers: &mut [u32],
    out: &mut [u8],
) -> Result<Moved, Refusal> {
    calls::move_stored(to, bytes, nodes, numbers, out)
}
