//! The stored form of request 2026-01 and its version 2 of request 2026-05, written down
//! once more: the Rust has none. Bytes are taken apart into fields and the fields into rows,
//! which the model of stores then judges; a tree is put together into bytes. All of it is told
//! once, over the version. `expected` holds the two ways to each other in every run: what is
//! accepted is written as the same bytes, and what is written reads as the rows and number
//! texts that it was written from.

use crate::stores::{self, Clause, Node};
use driver::record::Rows;
use std::ops::Range;

pub const TOO_LONG: u32 = 1;
pub const NO_NODE_ROW: u32 = 3;
pub const NO_NUMBER_ROW: u32 = 4;
pub const BROKEN_FIELD: u32 = 25;
pub const UNKNOWN_VERSION: u32 = 26;
pub const NO_FIT: u32 = 27;

// The tags.
pub const HEADER: u8 = 1;
pub const NODE: u8 = 2;
pub const NUMBER: u8 = 3;
/// What stands in the place of a tag where no field may stand.
const NOTHING: u8 = 0;

const VERSION_PLACE: usize = 3;
/// So many bytes has a field's length, in every version.
const LENGTH_WIDTH: usize = 2;
/// What a field has beside its content: tag and length.
pub const FRAME: usize = 1 + LENGTH_WIDTH;

/// A version of the form.
#[derive(Clone, Copy, Debug, PartialEq, Eq)]
pub struct Version {
    /// Its byte in the header, and what a record asks for.
    pub number: u8,
    /// So many bytes has each count of the header, and so many have the parts of a node.
    pub width: usize,
    /// More bytes than this are neither read nor written.
    pub longest: usize,
}

pub const VERSIONS: [Version; 2] = [
    Version {
        number: 1,
        width: 2,
        longest: 1_048_576,
    },
    Version {
        number: 2,
        width: 4,
        longest: 67_108_864,
    },
];

impl Version {
    /// The one that a record asks for.
    pub fn of(number: u8) -> Self {
        let mut known = VERSIONS.into_iter();
        let found = known.find(|version| version.number == number);
        found.expect("no request gives another version")
    }

    /// Version, two counts.
    pub fn header_length(self) -> usize {
        1 + 2 * self.width
    }

    /// Kind, dimension, parts.
    pub fn node_length(self) -> usize {
        2 + self.width
    }

    /// The largest count that it has bytes for.
    pub fn largest_count(self) -> u32 {
        u32::MAX >> (u32::BITS as usize - 8 * self.width)
    }
}

/// How many rows are lent.
#[derive(Clone, Copy, Debug)]
pub struct Room {
    pub nodes: usize,
    pub numbers: usize,
}

impl Room {
    pub const ANY: Room = Room {
        nodes: usize::MAX,
        numbers: usize::MAX,
    };

    /// The rows of slices of these lengths.
    pub fn of(node_places: u32, number_places: u32) -> Self {
        Room {
            nodes: node_places as usize / 3,
            numbers: number_places as usize / 2,
        }
    }
}

#[derive(Clone, Copy, Debug, PartialEq, Eq)]
pub enum Reason {
    TooLong,
    UnknownVersion,
    /// A field with this tag, or nothing, should stand there.
    Field(u8, Fault),
    IllFormed(Clause),
    NoNodeRow,
    NoNumberRow,
}

/// What is wrong with a field.
#[derive(Clone, Copy, Debug, PartialEq, Eq)]
pub enum Fault {
    Missing,
    Tag,
    Cut,
    Length,
    Extra,
}

#[derive(Clone, Copy, Debug, PartialEq, Eq)]
pub struct Refusal {
    pub reason: Reason,
    pub place: usize,
}

impl Refusal {
    pub fn number(&self) -> u32 {
        match self.reason {
            Reason::TooLong => TOO_LONG,
            Reason::UnknownVersion => UNKNOWN_VERSION,
            Reason::Field(..) => BROKEN_FIELD,
            Reason::IllFormed(_) => stores::ILL_FORMED,
            Reason::NoNodeRow => NO_NODE_ROW,
            Reason::NoNumberRow => NO_NUMBER_ROW,
        }
    }

    /// Tells refusals of one number apart.
    pub fn sort(&self) -> u32 {
        match self.reason {
            Reason::Field(tag, fault) => 8 * u32::from(tag) + fault as u32,
            Reason::IllFormed(clause) => clause as u32,
            _ => 0,
        }
    }
}

fn refused<T>(reason: Reason, place: usize) -> Result<T, Refusal> {
    Err(Refusal { reason, place })
}

/// The rows of stored bytes, as the entry of a version reads them.
pub fn read(bytes: &[u8], version: Version, room: Room) -> Result<Rows, Refusal> {
    let fields = fields(bytes, version)?;
    let rows = fields.rows(bytes);
    if let Err(clause) = stores::tree(bytes, &rows) {
        return refused(Reason::IllFormed(clause), 0);
    }
    if let Some(content) = fields.nodes.get(room.nodes) {
        return refused(Reason::NoNodeRow, tag_place(content));
    }
    if let Some(content) = fields.numbers.get(room.numbers) {
        return refused(Reason::NoNumberRow, tag_place(content));
    }
    Ok(rows)
}

/// The rows that the fields hold, be they a tree or not.
pub fn rows(bytes: &[u8], version: Version) -> Result<Rows, Refusal> {
    fields(bytes, version).map(|fields| fields.rows(bytes))
}

/// Where the contents of the node fields and of the number fields lie.
struct Fields {
    nodes: Vec<Range<usize>>,
    numbers: Vec<Range<usize>>,
}

impl Fields {
    fn rows(&self, bytes: &[u8]) -> Rows {
        let nodes = self.nodes.iter().flat_map(|content| {
            let [kind, dimension, parts @ ..] = &bytes[content.clone()] else {
                unreachable!("a node field has more than two bytes")
            };
            [u32::from(*kind), u32::from(*dimension), value(parts)]
        });
        let numbers = self.numbers.iter();
        let numbers = numbers.flat_map(|content| [content.start as u32, content.len() as u32]);
        Rows {
            nodes: nodes.collect(),
            numbers: numbers.collect(),
        }
    }
}

fn tag_place(content: &Range<usize>) -> usize {
    content.start - FRAME
}

fn fields(bytes: &[u8], version: Version) -> Result<Fields, Refusal> {
    if bytes.len() > version.longest {
        return refused(Reason::TooLong, version.longest);
    }
    let said = bytes.get(VERSION_PLACE);
    let is_known = said.is_none_or(|said| *said == version.number);
    if bytes.first() == Some(&HEADER) && !is_known {
        return refused(Reason::UnknownVersion, VERSION_PLACE);
    }
    let mut left = Left { bytes, place: 0 };
    let header = left.field(HEADER, Some(version.header_length()))?;
    let counts = bytes[header].split_at(1).1;
    let (node_count, number_count) = counts.split_at(version.width);
    let node_length = Some(version.node_length());
    let nodes = (0..value(node_count)).map(|_| left.field(NODE, node_length));
    let nodes = nodes.collect::<Result<_, _>>()?;
    let numbers = (0..value(number_count)).map(|_| left.field(NUMBER, None));
    let numbers = numbers.collect::<Result<_, _>>()?;
    if left.place < bytes.len() {
        return refused(Reason::Field(NOTHING, Fault::Extra), left.place);
    }
    Ok(Fields { nodes, numbers })
}

/// The bytes from a place on, where the next field's tag should stand.
struct Left<'bytes> {
    bytes: &'bytes [u8],
    place: usize,
}

impl Left<'_> {
    /// The next field's content.
    fn field(&mut self, tag: u8, length: Option<usize>) -> Result<Range<usize>, Refusal> {
        let place = self.place;
        let broken = |fault| refused(Reason::Field(tag, fault), place);
        let Some((first, rest)) = self.bytes[place..].split_first() else {
            return broken(Fault::Missing);
        };
        if *first != tag {
            return broken(Fault::Tag);
        }
        let Some((said, rest)) = rest.split_at_checked(LENGTH_WIDTH) else {
            return broken(Fault::Cut);
        };
        let said = value(said) as usize;
        if length.is_some_and(|length| length != said) {
            return broken(Fault::Length);
        }
        if said > rest.len() {
            return broken(Fault::Cut);
        }
        let start = place + FRAME;
        self.place = start + said;
        Ok(start..self.place)
    }
}

/// The stored bytes of a tree; `None` where a count, a text or the whole doesn't fit.
pub fn written(root: &Node, version: Version) -> Option<Vec<u8>> {
    let mut nodes = Vec::new();
    let mut numbers = Vec::new();
    gather(root, &mut nodes, &mut numbers);
    let count = |count: usize| in_bytes(count, version.width);
    let mut out = Out {
        version,
        bytes: Vec::new(),
    };
    let counts = [count(nodes.len())?, count(numbers.len())?].concat();
    out.put_field(HEADER, &[&[version.number][..], &counts].concat())?;
    for node in nodes {
        let parts = count(node.coordinates().len() + node.children().len())?;
        let content = [&[node.kind as u8, node.dimension as u8], &parts[..]].concat();
        out.put_field(NODE, &content)?;
    }
    for number in numbers {
        out.put_field(NUMBER, number)?;
    }
    Some(out.bytes)
}

/// All nodes and number texts of a tree, in preorder.
fn gather<'tree, 'text>(
    node: &'tree Node<'text>,
    nodes: &mut Vec<&'tree Node<'text>>,
    numbers: &mut Vec<&'text [u8]>,
) {
    nodes.push(node);
    numbers.extend(node.coordinates().iter().flatten());
    for child in node.children() {
        gather(child, nodes, numbers);
    }
}

/// What is written so far.
struct Out {
    version: Version,
    bytes: Vec<u8>,
}

impl Out {
    fn put_field(&mut self, tag: u8, content: &[u8]) -> Option<()> {
        self.bytes.push(tag);
        self.bytes.extend(in_bytes(content.len(), LENGTH_WIDTH)?);
        self.bytes.extend(content);
        (self.bytes.len() <= self.version.longest).then_some(())
    }
}

/// Big-endian, in so many bytes; `None` where they are too few.
fn in_bytes(value: usize, width: usize) -> Option<Vec<u8>> {
    let bytes = (value as u64).to_be_bytes();
    let (above, kept) = bytes.split_at(bytes.len() - width);
    let fits = above.iter().all(|byte| *byte == 0);
    fits.then(|| kept.to_vec())
}

/// What big-endian bytes say, of which there are four at most.
fn value(bytes: &[u8]) -> u32 {
    let bytes = bytes.iter().map(|byte| u32::from(*byte));
    bytes.fold(0, |value, byte| 256 * value + byte)
}

#[cfg(test)]
mod tests {
    use super::*;
    use crate::by_hand::hex;

    const ONE: Version = VERSIONS[0];
    const TWO: Version = VERSIONS[1];

    fn rows(nodes: &[u32], numbers: &[u32]) -> Rows {
        Rows {
            nodes: nodes.to_vec(),
            numbers: numbers.to_vec(),
        }
    }

    fn stored(version: Version, text: &[u8], rows: &Rows) -> Option<Vec<u8>> {
        let root = stores::tree(text, rows).ok();
        written(&root.expect("well formed"), version)
    }

    /// Number and place, with as much room as there may be.
    fn refusal(version: Version, bytes: &[u8]) -> (u32, usize) {
        refusal_in(version, bytes, Room::ANY)
    }

    fn refusal_in(version: Version, bytes: &[u8], room: Room) -> (u32, usize) {
        let refusal = read(bytes, version, room).expect_err("refused");
        (refusal.number(), refusal.place)
    }

    const POINT_ONE: &str = "01 0005 01 0001 0002 | 02 0004 01 00 0001 | 03 0001 31 | 03 0001 32";
    const POINT_TWO: &str = "01 0009 02 00000001 00000002 | 02 0006 01 00 00000001 \
         | 03 0001 31 | 03 0001 32";

    #[test]
    fn a_point() {
        for (version, text, spans) in [
            (ONE, POINT_ONE, [18, 1, 22, 1]),
            (TWO, POINT_TWO, [24, 1, 28, 1]),
        ] {
            let bytes = hex(text);
            let point = rows(&[1, 0, 1], &[6, 1, 8, 1]);
            let written = stored(version, b"POINT(1 2)", &point);
            assert_eq!(written.as_ref(), Some(&bytes));
            let read = read(&bytes, version, Room::of(3, 4));
            assert_eq!(read, Ok(rows(&[1, 0, 1], &spans)));
        }
    }

    #[test]
    fn kept_texts_of_several_lengths() {
        let text = b"MULTIPOINT Z((++4 +-.5 +inf),1e5 2 3)";
        let nodes = [4, 1, 2, 1, 1, 1, 1, 1, 1];
        let spans = [15, 2, 19, 3, 24, 3, 29, 3, 33, 1, 35, 1];
        let numbers = "03 0002 2b 34 | 03 0003 2d 2e 35 | 03 0003 69 6e 66 \
             | 03 0003 31 65 35 | 03 0001 32 | 03 0001 33";
        for (version, front, first) in [
            (
                ONE,
                "01 0005 01 0003 0006
                 | 02 0004 04 01 0002 | 02 0004 01 01 0001 | 02 0004 01 01 0001",
                32,
            ),
            (
                TWO,
                "01 0009 02 00000003 00000006
                 | 02 0006 04 01 00000002 | 02 0006 01 01 00000001 | 02 0006 01 01 00000001",
                42,
            ),
        ] {
            let bytes = hex(&[front, numbers].concat());
            let written = stored(version, text, &rows(&nodes, &spans));
            assert_eq!(written.as_ref(), Some(&bytes));
            let spans = [(0, 2), (5, 3), (11, 3), (17, 3), (23, 1), (27, 1)];
            let spans = spans.map(|(behind, length)| [first + behind, length]);
            let read = read(&bytes, version, Room::of(9, 12));
            assert_eq!(read, Ok(rows(&nodes, &spans.concat())));
        }
    }

    #[test]
    fn a_tree_without_numbers() {
        let rows = rows(&[7, 0, 1, 6, 3, 0], &[]);
        for (version, text) in [
            (
                ONE,
                "01 0005 01 0002 0000 | 02 0004 07 00 0001 | 02 0004 06 03 0000",
            ),
            (
                TWO,
                "01 0009 02 00000002 00000000 | 02 0006 07 00 00000001 | 02 0006 06 03 00000000",
            ),
        ] {
            let bytes = hex(text);
            assert_eq!(stored(version, b"", &rows).as_ref(), Some(&bytes));
            assert_eq!(read(&bytes, version, Room::of(6, 0)), Ok(rows.clone()));
        }
    }

    #[test]
    fn versions_come_before_fields() {
        const FIELD: (u32, usize) = (25, 0);
        const OTHER: (u32, usize) = (26, 3);
        for (text, by_one, by_two) in [
            ("01 0005 02 0001 0000", OTHER, FIELD),
            ("01 ffff 02", OTHER, FIELD),
            ("01 0000 00", OTHER, OTHER),
            ("01 0005 03", OTHER, OTHER),
            ("01 0009 ff", OTHER, OTHER),
            ("01 ffff 01", FIELD, OTHER),
            ("01 0005 01", FIELD, OTHER),
            ("01 0009 01 00000001 00000000", FIELD, OTHER),
            ("01 0009 02", OTHER, FIELD),
            ("01 0009", FIELD, FIELD),
            ("01 0005", FIELD, FIELD),
            ("01 00", FIELD, FIELD),
            ("01", FIELD, FIELD),
            ("", FIELD, FIELD),
            ("02 0005 02 0001 0000", FIELD, FIELD),
            ("00 0005 01 0001 0000", FIELD, FIELD),
            ("00 0009 03 00000001 00000000", FIELD, FIELD),
        ] {
            assert_eq!(refusal(ONE, &hex(text)), by_one, "{text}");
            assert_eq!(refusal(TWO, &hex(text)), by_two, "{text}");
        }
        assert_eq!(refusal(ONE, &hex(POINT_TWO)), OTHER);
        assert_eq!(refusal(TWO, &hex(POINT_ONE)), OTHER);
    }

    #[test]
    fn broken_fields() {
        for (text, place) in [
            // the header: too long, too short
            ("01 0006 01 0001 0000 00 | 02 0004 01 00 0000", 0),
            ("01 0004 01 0001 00 | 02 0004 01 00 0000", 0),
            // a node: missing, of another tag, cut, of another length
            ("01 0005 01 0001 0000", 8),
            ("01 0005 01 0002 0000 | 02 0004 07 00 0001", 15),
            ("01 0005 01 0001 0000 | 03 0004 01 00 0000", 8),
            ("01 0005 01 0001 0000 | 02", 8),
            ("01 0005 01 0001 0000 | 02 00", 8),
            ("01 0005 01 0001 0000 | 02 0004 01 00 00", 8),
            ("01 0005 01 0001 0000 | 02 0003 01 00 00", 8),
            ("01 0005 01 0001 0000 | 02 0005 01 00 0000 00", 8),
            // a number: missing, of another tag, cut
            ("01 0005 01 0001 0002 | 02 0004 01 00 0001", 15),
            ("01 0005 01 0001 0002 | 02 0004 01 00 0001 | 03 0001 31", 19),
            (
                "01 0005 01 0001 0002 | 02 0004 01 00 0001 | 02 0001 31 | 03 0001 32",
                15,
            ),
            (
                "01 0005 01 0001 0002 | 02 0004 01 00 0001 | 03 0001 31 | 03 0002 32",
                19,
            ),
            // extra
            ("01 0005 01 0001 0000 | 02 0004 01 00 0000 | 00", 15),
            ("01 0005 01 0001 0000 | 02 0004 01 00 0000 | 03 0001 31", 15),
            (
                "01 0005 01 0001 0001 | 02 0004 01 00 0001 | 03 0001 31 | 03 0001 32",
                19,
            ),
            // 25 before 22: a kind of 9, an extra byte
            ("01 0005 01 0001 0000 | 02 0004 09 00 0000 | 03", 15),
        ] {
            assert_eq!(refusal(ONE, &hex(text)), (25, place), "{text}");
        }
    }

    #[test]
    fn broken_fields_of_version_2() {
        let one = "01 0009 02 00000001 00000000";
        let empty = "02 0006 01 00 00000000";
        let point = "01 0009 02 00000001 00000002 | 02 0006 01 00 00000001";
        for (text, place) in [
            // the header: too long, too short, with the counts of version 1
            (format!("01 000a 02 00000001 00000000 00 | {empty}"), 0),
            (format!("01 0008 02 00000001 000000 | {empty}"), 0),
            (format!("01 0005 02 0001 0000 | {empty}"), 0),
            // a node: missing, of another tag, cut, of another length, with version 1's parts
            (one.to_string(), 12),
            (
                "01 0009 02 00000002 00000000 | 02 0006 07 00 00000001".to_string(),
                21,
            ),
            (format!("{one} | 03 0006 01 00 00000000"), 12),
            (format!("{one} | 02"), 12),
            (format!("{one} | 02 00"), 12),
            (format!("{one} | 02 0006 01 00 000000"), 12),
            (format!("{one} | 02 0005 01 00 000000"), 12),
            (format!("{one} | 02 0007 01 00 00000000 00"), 12),
            (format!("{one} | 02 0004 01 00 0000"), 12),
            // a number: missing, of another tag, cut
            (point.to_string(), 21),
            (format!("{point} | 03 0001 31"), 25),
            (format!("{point} | 02 0001 31 | 03 0001 32"), 21),
            (format!("{point} | 03 0001 31 | 03 0002 32"), 25),
            // extra
            (format!("{one} | {empty} | 00"), 21),
            (format!("{one} | {empty} | 03 0001 31"), 21),
            // 25 before 22: a kind of 9, an extra byte
            (format!("{one} | 02 0006 09 00 00000000 | 03"), 21),
        ] {
            assert_eq!(refusal(TWO, &hex(&text)), (25, place), "{text}");
        }
    }

    #[test]
    fn counts_of_version_2_that_are_right_but_for_their_high_bytes() {
        for counts in [
            "00010001 00000000",
            "01000001 00000000",
            "00000001 00010000",
            "00000001 01000000",
            "ffffffff ffffffff",
        ] {
            let text = format!("01 0009 02 {counts} | 02 0006 01 00 00000000");
            assert_eq!(refusal(TWO, &hex(&text)), (25, 21), "{text}");
        }
    }

    #[test]
    fn ill_formed_before_any_row_is_asked_for() {
        let by_one = [
            "01 0005 01 0000 0000",
            "01 0005 01 0000 0001 | 03 0001 31",
            "01 0005 01 0001 0000 | 02 0004 00 00 0000",
            "01 0005 01 0001 0000 | 02 0004 08 00 0000",
            "01 0005 01 0001 0000 | 02 0004 01 04 0000",
            "01 0005 01 0001 0000 | 02 0004 02 00 ffff",
            "01 0005 01 0001 0002 | 02 0004 01 00 0001 | 03 0000 | 03 0001 32",
            "01 0005 01 0001 0002 | 02 0004 01 00 0001 | 03 0001 31 | 03 0001 78",
            "01 0005 01 0001 0002 | 02 0004 01 00 0001 | 03 0002 20 31 | 03 0001 32",
        ];
        let by_two = [
            "01 0009 02 00000000 00000000",
            "01 0009 02 00000000 00000001 | 03 0001 31",
            "01 0009 02 00000001 00000000 | 02 0006 00 00 00000000",
            "01 0009 02 00000001 00000000 | 02 0006 01 04 00000000",
            "01 0009 02 00000001 00000000 | 02 0006 02 00 00010000",
            "01 0009 02 00000001 00000000 | 02 0006 07 03 ffffffff",
            "01 0009 02 00000001 00000000 | 02 0006 01 00 01000000",
            "01 0009 02 00000001 00000002 | 02 0006 02 00 00010001 | 03 0001 31 | 03 0001 32",
            "01 0009 02 00000001 00000002 | 02 0006 01 00 00000001 | 03 0001 31 | 03 0001 78",
        ];
        let room = Room {
            nodes: 0,
            numbers: 0,
        };
        let by_one = by_one.map(|text| (ONE, text));
        for (version, text) in by_one.into_iter().chain(by_two.map(|text| (TWO, text))) {
            assert_eq!(refusal_in(version, &hex(text), room), (22, 0), "{text}");
        }
    }

    #[test]
    fn rows_that_are_not_there() {
        let two_one = "01 0005 01 0002 0000 | 02 0004 07 00 0001 | 02 0004 06 03 0000";
        let two_two =
            "01 0009 02 00000002 00000000 | 02 0006 07 00 00000001 | 02 0006 06 03 00000000";
        let room = |nodes, numbers| Room { nodes, numbers };
        for (version, point, two, [first, number, last, second]) in [
            (ONE, POINT_ONE, two_one, [8, 15, 19, 15]),
            (TWO, POINT_TWO, two_two, [12, 21, 25, 21]),
        ] {
            let bytes = hex(point);
            assert_eq!(refusal_in(version, &bytes, room(0, 2)), (3, first));
            assert_eq!(refusal_in(version, &bytes, room(0, 0)), (3, first));
            assert_eq!(refusal_in(version, &bytes, room(1, 0)), (4, number));
            assert_eq!(refusal_in(version, &bytes, room(1, 1)), (4, last));
            assert!(read(&bytes, version, room(1, 2)).is_ok());
            assert_eq!(refusal_in(version, &hex(two), room(1, 0)), (3, second));
        }
    }

    #[test]
    fn more_bytes_than_are_read() {
        for (version, most) in [(ONE, 1_048_576), (TWO, 67_108_864)] {
            let mut bytes = vec![1; most + 1];
            bytes[3] = version.number;
            assert_eq!(refusal(version, &bytes), (1, most));
            bytes[3] = 3 - version.number;
            assert_eq!(refusal(version, &bytes), (1, most));
            bytes.pop();
            assert_eq!(refusal(version, &bytes), (26, 3));
            bytes[3] = version.number;
            assert_eq!(refusal(version, &bytes), (25, 0));
        }
    }

    /// A collection of so many empty points, itself a node too.
    fn points(count: u32) -> Rows {
        let mut nodes = vec![7, 0, count];
        nodes.extend((0..count).flat_map(|_| [1, 0, 0]));
        rows(&nodes, &[])
    }

    /// A line string of so many coordinates whose numbers are all this span.
    fn line(dimension: u32, count: u32, span: [u32; 2]) -> Rows {
        let width = stores::WIDTHS[dimension as usize];
        let spans = vec![span; width * count as usize];
        rows(&[2, dimension, count], &spans.concat())
    }

    #[test]
    fn counts_that_fit_and_one_more() {
        let written = stored(ONE, b"", &points(65_534)).expect("65,535 nodes fit");
        assert_eq!(written[..8], hex("01 0005 01 ffff 0000"));
        assert_eq!(written[8..15], hex("02 0004 07 00 fffe"));
        assert_eq!(read(&written, ONE, Room::ANY), Ok(points(65_534)));
        assert_eq!(stored(ONE, b"", &points(65_535)), None);
        let written = stored(ONE, b"1", &line(1, 21_845, [0, 1])).expect("65,535 numbers fit");
        assert_eq!(written[..8], hex("01 0005 01 0001 ffff"));
        assert_eq!(stored(ONE, b"1", &line(3, 16_384, [0, 1])), None);
    }

    #[test]
    fn counts_of_version_2() {
        let written = stored(TWO, b"", &points(65_535)).expect("65,536 nodes fit");
        assert_eq!(written[..12], hex("01 0009 02 00010000 00000000"));
        assert_eq!(written[12..21], hex("02 0006 07 00 0000ffff"));
        assert_eq!(read(&written, TWO, Room::ANY), Ok(points(65_535)));
        let written = stored(TWO, b"1", &line(0, 74_565, [0, 1])).expect("149,130 numbers fit");
        assert_eq!(written[..12], hex("01 0009 02 00000001 0002468a"));
        assert_eq!(written[12..21], hex("02 0006 02 00 00012345"));
        let again = read(&written, TWO, Room::ANY).expect("it was written");
        assert_eq!(again.nodes, [2, 0, 74_565]);
        assert_eq!(again.numbers.len(), 2 * 149_130);
    }

    #[test]
    fn texts_that_fit_and_one_byte_more() {
        let text = vec![b'7'; 65_536];
        for (version, first) in [(ONE, 15), (TWO, 21)] {
            let fits = stored(version, &text, &line(0, 1, [1, 65_535]));
            let fits = fits.expect("65,535 bytes fit");
            assert_eq!(fits[first..first + 4], hex("03 ffff 37"));
            assert_eq!(stored(version, &text, &line(0, 1, [0, 65_536])), None);
        }
    }

    #[test]
    fn a_whole_that_fits_and_one_byte_more() {
        // Header and node, then numbers of 3 and their texts, the last one shorter.
        for (version, front, count, most) in [
            (ONE, 8 + 7, 16, 1_048_576),
            (TWO, 12 + 9, 1_024, 67_108_864),
        ] {
            let last = most - front - count * 3 - (count - 1) * 65_535;
            let text = vec![b'0'; 65_535];
            let whole = |last: u32| {
                let mut rows = line(3, count / 4, [0, 65_535]);
                rows.numbers[2 * count as usize - 1] = last;
                stored(version, &text, &rows)
            };
            assert_eq!(whole(last).map(|bytes| bytes.len()), Some(most as usize));
            assert_eq!(whole(last + 1), None);
        }
    }
}
