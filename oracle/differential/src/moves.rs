//! The moves of request 2026-06, written down once more from document 02: the Rust has none.
//! Stored bytes of a version are read, by the model of the stored form, and what was read is
//! written in a version. Refusals are the reading side's first, then 27, then 23, each of which
//! leaves nothing in what was lent. Every move is held, in every run, to the words of the
//! request, by ways that it doesn't go itself:
//!
//! - 27 is given exactly where a count, a node's parts or the whole is more than the version
//!   has place for, reckoned from the rows alone, and never on the way up;
//! - what is written has as many bytes as the rows say, and is read, with no row to spare, to
//!   the same nodes and number texts;
//! - moved back it is the first bytes.

use crate::stored::{self, Room, Version, FRAME, NO_FIT};
use crate::stores::{self, NO_ROOM};
use driver::record::{Move, Rows};

/// What is written, and the rows that stay in the lent store.
#[derive(Clone, Debug, PartialEq, Eq)]
pub struct Moved {
    pub bytes: Vec<u8>,
    pub rows: Rows,
}

#[derive(Clone, Copy, Debug, PartialEq, Eq)]
pub enum Refusal {
    Reading(stored::Refusal),
    /// Something is too large for the version that is to be written.
    NoFit,
    NoRoom,
}

impl Refusal {
    pub fn number(&self) -> u32 {
        match self {
            Refusal::Reading(refusal) => refusal.number(),
            Refusal::NoFit => NO_FIT,
            Refusal::NoRoom => NO_ROOM,
        }
    }

    pub fn place(&self) -> usize {
        match self {
            Refusal::Reading(refusal) => refusal.place,
            Refusal::NoFit | Refusal::NoRoom => 0,
        }
    }

    /// Tells refusals of one number apart.
    pub fn sort(&self) -> u32 {
        match self {
            Refusal::Reading(refusal) => refusal.sort(),
            Refusal::NoFit | Refusal::NoRoom => 0,
        }
    }
}

/// What the move of these bytes answers.
pub fn moved(bytes: &[u8], asked: &Move) -> Result<Moved, Refusal> {
    let (from, to) = (Version::of(asked.from), Version::of(asked.to));
    let room = Room::of(asked.nodes, asked.numbers);
    let form = Form::read(bytes, from, room).map_err(Refusal::Reading)?;
    let written = form.written(to);
    form.hold_move(to, written.as_deref());
    let written = written.ok_or(Refusal::NoFit)?;
    if written.len() > asked.output as usize {
        return Err(Refusal::NoRoom);
    }
    Ok(Moved {
        bytes: written,
        rows: form.rows,
    })
}

/// How many bytes a move writes where there is room; `None` for bytes that it doesn't move.
pub fn length(bytes: &[u8], from: Version, to: Version) -> Option<usize> {
    let form = Form::read(bytes, from, Room::ANY).ok()?;
    form.fits(to).then(|| form.length_in(to))
}

/// Stored bytes of a version, and the rows that they are read to.
struct Form<'bytes> {
    bytes: &'bytes [u8],
    version: Version,
    rows: Rows,
}

impl<'bytes> Form<'bytes> {
    fn read(bytes: &'bytes [u8], version: Version, room: Room) -> Result<Self, stored::Refusal> {
        let rows = stored::read(bytes, version, room)?;
        Ok(Form {
            bytes,
            version,
            rows,
        })
    }

    /// Its tree's bytes of a version; `None` where something doesn't fit.
    fn written(&self, version: Version) -> Option<Vec<u8>> {
        let root = stores::tree(self.bytes, &self.rows).ok();
        stored::written(&root.expect("what is read is well formed"), version)
    }

    /// As many rows as it has.
    fn needed(&self) -> Room {
        let Rows { nodes, numbers } = &self.rows;
        Room::of(nodes.len() as u32, numbers.len() as u32)
    }

    /// How many bytes it has in a version, which needn't have place for them.
    fn length_in(&self, version: Version) -> usize {
        let Room { nodes, numbers } = self.needed();
        let lengths = self.rows.numbers.iter().skip(1).step_by(2);
        let texts: usize = lengths.map(|length| *length as usize).sum();
        let header_field = FRAME + version.header_length();
        let node_fields = nodes * (FRAME + version.node_length());
        header_field + node_fields + numbers * FRAME + texts
    }

    /// Whether a version has place for every count, for the parts of every node and for the
    /// whole. A number's text fits each version, as it was read from a field.
    fn fits(&self, version: Version) -> bool {
        let most = version.largest_count() as usize;
        let Room { nodes, numbers } = self.needed();
        let mut parts = self.rows.nodes.iter().skip(2).step_by(3);
        nodes <= most
            && numbers <= most
            && parts.all(|parts| *parts as usize <= most)
            && self.length_in(version) <= version.longest
    }

    /// The run ends where what was written, or that nothing was, isn't what the request says.
    fn hold_move(&self, to: Version, written: Option<&[u8]>) {
        assert_eq!(
            written.is_some(),
            self.fits(to),
            "27 has to be given where something doesn't fit, and only there"
        );
        let Some(written) = written else {
            let is_down = to.width < self.version.width;
            assert!(is_down, "what is read fits its own version and one above");
            return;
        };
        assert_eq!(written.len(), self.length_in(to));
        let again = Form::read(written, to, self.needed()).ok();
        let again = again.expect("what is written is read into as many rows");
        assert!(
            stores::are_same((written, &again.rows), (self.bytes, &self.rows)),
            "what is written reads as another tree"
        );
        assert!(
            again.written(self.version).as_deref() == Some(self.bytes),
            "what is written moves back to other bytes"
        );
    }
}

#[cfg(test)]
mod tests {
    use super::*;
    use crate::by_hand::hex;

    /// Rows enough for all of these forms, and output too.
    const MANY: u32 = 1_000_000;

    fn asked(from: u8, to: u8) -> Move {
        Move {
            from,
            to,
            nodes: MANY,
            numbers: MANY,
            output: 2 * MANY,
        }
    }

    /// Number and place.
    fn refusal(asked: Move, bytes: &[u8]) -> (u32, usize) {
        let refusal = moved(bytes, &asked).expect_err("it is refused");
        (refusal.number(), refusal.place())
    }

    /// The bytes that it is moved to, and the rows that it leaves.
    fn accepted(asked: Move, bytes: &[u8]) -> (Vec<u8>, Vec<u32>, Vec<u32>) {
        let Moved { bytes, rows } = moved(bytes, &asked).expect("it is moved");
        (bytes, rows.nodes, rows.numbers)
    }

    const POINT_ONE: &str = "01 0005 01 0001 0002 | 02 0004 01 00 0001 | 03 0001 31 | 03 0001 32";
    const POINT_TWO: &str = "01 0009 02 00000001 00000002 | 02 0006 01 00 00000001 \
         | 03 0001 31 | 03 0001 32";

    #[test]
    fn a_point_up_and_back() {
        let (one, two) = (hex(POINT_ONE), hex(POINT_TWO));
        let up = accepted(asked(1, 2), &one);
        assert_eq!(up, (two.clone(), vec![1, 0, 1], vec![18, 1, 22, 1]));
        let back = accepted(asked(2, 1), &two);
        assert_eq!(back, (one, vec![1, 0, 1], vec![24, 1, 28, 1]));
    }

    /// GEOMETRYCOLLECTION M(MULTIPOINT Z(-.5 +inf 1e5),POLYGON EMPTY)
    const COLLECTION_ONE: &str = "01 0005 01 0004 0003
         | 02 0004 07 02 0002 | 02 0004 04 01 0001 | 02 0004 01 01 0001 | 02 0004 03 00 0000
         | 03 0003 2d2e35 | 03 0004 2b696e66 | 03 0003 316535";
    const COLLECTION_TWO: &str = "01 0009 02 00000004 00000003
         | 02 0006 07 02 00000002 | 02 0006 04 01 00000001 | 02 0006 01 01 00000001
         | 02 0006 03 00 00000000
         | 03 0003 2d2e35 | 03 0004 2b696e66 | 03 0003 316535";

    #[test]
    fn a_collection_up_and_back() {
        let nodes = vec![7, 2, 2, 4, 1, 1, 1, 1, 1, 3, 0, 0];
        let (one, two) = (hex(COLLECTION_ONE), hex(COLLECTION_TWO));
        let up = accepted(asked(1, 2), &one);
        // Numbers stand behind 8 and 4 times 7 bytes, or behind 12 and 4 times 9.
        let spans = vec![39, 3, 45, 4, 52, 3];
        assert_eq!(up, (two.clone(), nodes.clone(), spans));
        let back = accepted(asked(2, 1), &two);
        assert_eq!(back, (one, nodes, vec![51, 3, 57, 4, 64, 3]));
    }

    #[test]
    fn a_tree_without_numbers() {
        let one = hex("01 0005 01 0001 0000 | 02 0004 06 03 0000");
        let two = hex("01 0009 02 00000001 00000000 | 02 0006 06 03 00000000");
        let nodes = vec![6, 3, 0];
        let up = accepted(asked(1, 2), &one);
        assert_eq!(up, (two.clone(), nodes.clone(), vec![]));
        assert_eq!(accepted(asked(2, 1), &two), (one, nodes, vec![]));
    }

    #[test]
    fn a_version_to_itself() {
        for (version, form) in [(1, POINT_ONE), (2, POINT_TWO)] {
            let (bytes, same) = (hex(form), asked(version, version));
            assert_eq!(accepted(same, &bytes).0, bytes);
            assert_eq!(refusal(same, &bytes[..bytes.len() - 1]).0, 25);
            let output = bytes.len() as u32 - 1;
            assert_eq!(refusal(Move { output, ..same }, &bytes), (23, 0));
        }
        assert_eq!(refusal(asked(1, 1), &hex(POINT_TWO)), (26, 3));
        assert_eq!(refusal(asked(2, 2), &hex(POINT_ONE)), (26, 3));
    }

    /// Bytes of versions 1 and 2 with the same fault, which is at these places.
    const FAULTS: [(u32, &str, usize, &str, usize); 16] = [
        // no byte, another version, a version that there isn't, the header's length and tag
        (25, "", 0, "", 0),
        (26, POINT_TWO, 3, POINT_ONE, 3),
        (26, "01 0005 03", 3, "01 0009 00", 3),
        (
            25,
            "01 0009 01 00000001 00000000",
            0,
            "01 0005 02 0001 0000",
            0,
        ),
        (25, "02 0005 02", 0, "02 0009 01", 0),
        // a node missing, of another tag, of the other version's length, cut
        (
            25,
            "01 0005 01 0001 0000",
            8,
            "01 0009 02 00000001 00000000",
            12,
        ),
        (
            25,
            "01 0005 01 0001 0000 | 03 0004 01 00 0000",
            8,
            "01 0009 02 00000001 00000000 | 03 0006 01 00 00000000",
            12,
        ),
        (
            25,
            "01 0005 01 0001 0000 | 02 0006 01 00 00000000",
            8,
            "01 0009 02 00000001 00000000 | 02 0004 01 00 0000",
            12,
        ),
        (
            25,
            "01 0005 01 0001 0000 | 02 0004 01 00 00",
            8,
            "01 0009 02 00000001 00000000 | 02 0006 01 00 0000",
            12,
        ),
        // a number missing, cut, and one more than is counted
        (
            25,
            "01 0005 01 0001 0002 | 02 0004 01 00 0001 | 03 0001 31",
            19,
            "01 0009 02 00000001 00000002 | 02 0006 01 00 00000001 | 03 0001 31",
            25,
        ),
        (
            25,
            "01 0005 01 0001 0002 | 02 0004 01 00 0001 | 03 0001 31 | 03 0002 32",
            19,
            "01 0009 02 00000001 00000002 | 02 0006 01 00 00000001 | 03 0001 31 | 03 0002 32",
            25,
        ),
        (
            25,
            "01 0005 01 0001 0000 | 02 0004 01 00 0000 | 03 0001 31",
            15,
            "01 0009 02 00000001 00000000 | 02 0006 01 00 00000000 | 03 0001 31",
            21,
        ),
        // no node, a kind of 8, parts that aren't there, a text that is no number
        (
            22,
            "01 0005 01 0000 0000",
            0,
            "01 0009 02 00000000 00000000",
            0,
        ),
        (
            22,
            "01 0005 01 0001 0000 | 02 0004 08 00 0000",
            0,
            "01 0009 02 00000001 00000000 | 02 0006 08 00 00000000",
            0,
        ),
        (
            22,
            "01 0005 01 0001 0000 | 02 0004 07 00 ffff",
            0,
            "01 0009 02 00000001 00000000 | 02 0006 07 00 00010000",
            0,
        ),
        (
            22,
            "01 0005 01 0001 0002 | 02 0004 01 00 0001 | 03 0001 31 | 03 0001 78",
            0,
            "01 0009 02 00000001 00000002 | 02 0006 01 00 00000001 | 03 0001 31 | 03 0001 78",
            0,
        ),
    ];

    #[test]
    fn refusals_of_the_reading_side_come_with_any_room() {
        for (number, one, place_in_one, two, place_in_two) in FAULTS {
            for (nodes, numbers, output) in [(MANY, MANY, MANY), (0, 0, MANY), (0, 0, 0)] {
                let lent = |from, to| Move {
                    nodes,
                    numbers,
                    output,
                    ..asked(from, to)
                };
                let up = refusal(lent(1, 2), &hex(one));
                assert_eq!(up, (number, place_in_one), "{one}");
                let back = refusal(lent(2, 1), &hex(two));
                assert_eq!(back, (number, place_in_two), "{two}");
            }
        }
    }

    #[test]
    fn rows_and_output_that_are_not_there() {
        // From version 1 the point's fields stand at 8, 15 and 19, and 29 bytes are written.
        for (from, to, form, [node, first, second], length) in [
            (1, 2, POINT_ONE, [8, 15, 19], 29),
            (2, 1, POINT_TWO, [12, 21, 25], 23),
        ] {
            let bytes = hex(form);
            let lent = |nodes, numbers, output| Move {
                from,
                to,
                nodes,
                numbers,
                output,
            };
            for output in [0, length - 1, length] {
                assert_eq!(refusal(lent(2, 4, output), &bytes), (3, node));
                assert_eq!(refusal(lent(0, 0, output), &bytes), (3, node));
                assert_eq!(refusal(lent(3, 1, output), &bytes), (4, first));
                assert_eq!(refusal(lent(3, 3, output), &bytes), (4, second));
            }
            assert_eq!(refusal(lent(3, 4, length - 1), &bytes), (23, 0));
            assert_eq!(refusal(lent(3, 4, 0), &bytes), (23, 0));
            assert_eq!(
                accepted(lent(3, 4, length), &bytes).0.len(),
                length as usize
            );
            assert!(moved(&bytes, &lent(5, 5, length + 1)).is_ok());
        }
    }

    /// A front, and a field behind it over and over.
    fn repeated(front: &str, field: &str, times: usize) -> Vec<u8> {
        [hex(front), hex(field).repeat(times)].concat()
    }

    /// Version 2 of a collection of so many empty points: one node more.
    fn points_of_two(front: &str, points: usize) -> Vec<u8> {
        repeated(front, "02 0006 01 00 00000000", points)
    }

    #[test]
    fn nodes_that_fit_and_one_more() {
        let front = "01 0009 02 0000ffff 00000000 | 02 0006 07 00 0000fffe";
        let two = points_of_two(front, 65_534);
        let front = "01 0005 01 ffff 0000 | 02 0004 07 00 fffe";
        let one = repeated(front, "02 0004 01 00 0000", 65_534);
        assert_eq!(accepted(asked(2, 1), &two).0, one);
        assert_eq!(accepted(asked(1, 2), &one).0, two);
        let front = "01 0009 02 00010000 00000000 | 02 0006 07 00 0000ffff";
        let more = points_of_two(front, 65_535);
        assert_eq!(refusal(asked(2, 1), &more), (27, 0));
        assert_eq!(accepted(asked(2, 2), &more).0, more);
    }

    #[test]
    fn numbers_that_fit_and_one_more() {
        let number = "03 0001 37";
        // 21,845 coordinates of three numbers, and 16,384 of four.
        let front = "01 0009 02 00000001 0000ffff | 02 0006 02 01 00005555";
        let two = repeated(front, number, 65_535);
        let front = "01 0005 01 0001 ffff | 02 0004 02 01 5555";
        let one = repeated(front, number, 65_535);
        assert_eq!(accepted(asked(2, 1), &two).0, one);
        assert_eq!(accepted(asked(1, 2), &one).0, two);
        let front = "01 0009 02 00000001 00010000 | 02 0006 02 03 00004000";
        let more = repeated(front, number, 65_536);
        assert_eq!(refusal(asked(2, 1), &more), (27, 0));
        // Parts of 65,536, which come with as many numbers twice over.
        let front = "01 0009 02 00000001 00020000 | 02 0006 02 00 00010000";
        let more = repeated(front, number, 131_072);
        assert_eq!(refusal(asked(2, 1), &more), (27, 0));
        assert_eq!(accepted(asked(2, 2), &more).0, more);
    }

    /// A line string of 16 numbers, all but the last of 65,535 digits.
    fn sixteen_numbers(front: &str, last: usize) -> Vec<u8> {
        let number = [hex("03 ffff"), vec![b'7'; 65_535]].concat();
        let last = [
            vec![3],
            (last as u16).to_be_bytes().to_vec(),
            vec![b'7'; last],
        ]
        .concat();
        [hex(front), number.repeat(15), last].concat()
    }

    const SIXTEEN_ONE: &str = "01 0005 01 0001 0010 | 02 0004 02 03 0004";
    const SIXTEEN_TWO: &str = "01 0009 02 00000001 00000010 | 02 0006 02 03 00000004";
    /// What 1,048,576 bytes leave for the last number in version 1.
    const LAST: usize = 1_048_576 - 15 - 15 * 65_538 - 3;

    #[test]
    fn a_whole_that_fits_and_one_byte_more() {
        let one = sixteen_numbers(SIXTEEN_ONE, LAST);
        let two = sixteen_numbers(SIXTEEN_TWO, LAST);
        assert_eq!((one.len(), two.len()), (1_048_576, 1_048_582));
        assert!(accepted(asked(2, 1), &two).0 == one);
        assert!(accepted(asked(1, 2), &one).0 == two);
        let more = sixteen_numbers(SIXTEEN_TWO, LAST + 1);
        assert_eq!(refusal(asked(2, 1), &more), (27, 0));
        let more = sixteen_numbers(SIXTEEN_ONE, LAST + 1);
        assert_eq!(refusal(asked(1, 2), &more), (1, 1_048_576));
    }

    #[test]
    fn refusals_come_in_order() {
        let front = "01 0009 02 00010000 00000000 | 02 0006 07 00 0000ffff";
        let bytes = points_of_two(front, 65_535);
        let back = asked(2, 1);
        let without_output = Move { output: 0, ..back };
        let few_rows = Move {
            nodes: 65_535 * 3,
            ..without_output
        };
        // 27 comes before 23, and behind all of the reading side's.
        assert_eq!(refusal(without_output, &bytes), (27, 0));
        assert_eq!(refusal(few_rows, &bytes), (3, bytes.len() - 9));
        let mut ill_formed = bytes.clone();
        let last = bytes.len() - 1;
        ill_formed[last] = 2;
        assert_eq!(refusal(few_rows, &ill_formed), (22, 0));
        let cut = &ill_formed[..last];
        assert_eq!(refusal(few_rows, cut), (25, bytes.len() - 9));
        let mut of_other = cut.to_vec();
        of_other[3] = 1;
        assert_eq!(refusal(few_rows, &of_other), (26, 3));
        of_other.resize(67_108_865, 0);
        assert_eq!(refusal(few_rows, &of_other), (1, 67_108_864));
    }

    #[test]
    fn number_rows_are_asked_for_before_27() {
        let front = "01 0009 02 00000001 00010000 | 02 0006 02 03 00004000";
        let bytes = repeated(front, "03 0001 37", 65_536);
        let few_rows = Move {
            numbers: 2 * 65_536 - 1,
            output: 0,
            ..asked(2, 1)
        };
        assert_eq!(refusal(few_rows, &bytes), (4, bytes.len() - 4));
    }

    #[test]
    fn the_most_that_version_1_can_hold() {
        // A collection of 65,533 empty points and a line string with 65,535 numbers: 21,845 of
        // three, and all the digits that there is place for.
        let numbers = "03 0006 373737373737";
        let left = 1_048_576 - 8 - 65_535 * 7 - 65_535 * 9;
        let last = [hex("03"), ((6 + left) as u16).to_be_bytes().to_vec()].concat();
        let last = [last, vec![b'7'; 6 + left]].concat();
        let form = |front: &str, point: &str| {
            let nodes = repeated(front, point, 65_533);
            [nodes, hex(numbers).repeat(65_534), last.clone()].concat()
        };
        let one = form(
            "01 0005 01 ffff ffff | 02 0004 07 00 fffe | 02 0004 02 01 5555",
            "02 0004 01 00 0000",
        );
        let two = form(
            "01 0009 02 0000ffff 0000ffff | 02 0006 07 00 0000fffe | 02 0006 02 01 00005555",
            "02 0006 01 00 00000000",
        );
        assert_eq!((one.len(), two.len()), (1_048_576, 1_179_650));
        assert!(accepted(asked(1, 2), &one).0 == two);
        assert!(accepted(asked(2, 1), &two).0 == one);
    }
}
