//! Cases for the letters `S` and `L`, half of them of each version. What is written are the
//! stores of `store_cases`, into outputs near the stored length. What is read are the fields of
//! such stores, well formed or not, unharmed or changed: a field out, in, twice or elsewhere,
//! another tag, length, count or version, and any change of bytes; some are asked of the
//! other version's reader. A few cases lie at the form's limits.

use crate::cases::Case;
use crate::random::Random;
use crate::store_cases;
use crate::stored::{self, Version, FRAME, HEADER, NODE, NUMBER, VERSIONS};
use crate::stores;
use driver::record::{Request, Rows, MAX_SLICE, MAX_TEXT};

/// One case in so many has a number text, and one a whole, that just fits or just doesn't.
const AT_LIMIT_EVERY: usize = 4_000;
/// Of the wholes of version 2, which are much larger, one in so many is kept.
const WHOLE_OF_2_EVERY: usize = 8;
/// One reading in so many is asked of the other version's reader.
const OTHER_READER_EVERY: usize = 16;
/// The longest text of a number field.
const LONGEST_NUMBER: usize = 65_535;

/// So many bytes of a record has a number row.
const NUMBER_ROW_BYTES: usize = 8;

const TAGS: [u8; 8] = [0, 1, 2, 3, 4, 49, 129, 255];
/// What small bytes are made of.
const BYTES: [u8; 16] = [0, 0, 0, 1, 1, 2, 2, 3, 3, 4, 5, 7, b'1', b'2', b'-', 255];

/// A field as it is put down; its length needn't be that of its content.
#[derive(Clone, Debug, PartialEq, Eq)]
pub struct Field {
    pub tag: u8,
    pub length: u16,
    pub content: Vec<u8>,
}

impl Field {
    /// With its own length; a content that no field can have is cut.
    pub fn of(tag: u8, content: &[u8]) -> Self {
        let content = &content[..content.len().min(LONGEST_NUMBER)];
        Field {
            tag,
            length: content.len() as u16,
            content: content.to_vec(),
        }
    }

    pub fn bytes(&self) -> Vec<u8> {
        let [high, low] = self.length.to_be_bytes();
        [&[self.tag, high, low][..], &self.content].concat()
    }
}

pub fn bytes_of(fields: &[Field]) -> Vec<u8> {
    fields.iter().flat_map(Field::bytes).collect()
}

/// The fields of rows, be they well formed or not: what a field has no place for is left
/// out, and so is a number that lies outside the text.
pub fn fields(text: &[u8], rows: &Rows, version: Version) -> Vec<Field> {
    let nodes = rows.nodes.chunks_exact(3);
    let numbers = rows.numbers.chunks_exact(2);
    let header = header(version, nodes.len() as u32, numbers.len() as u32);
    let nodes = nodes.map(|row| {
        let parts = low_bytes(row[2], version.width);
        let content = [&[row[0] as u8, row[1] as u8], &parts[..]].concat();
        Field::of(NODE, &content)
    });
    let numbers = numbers.map(|row| {
        let (start, length) = (row[0] as usize, row[1] as usize);
        let number = text.get(start..start + length);
        Field::of(NUMBER, number.unwrap_or_default())
    });
    [header].into_iter().chain(nodes).chain(numbers).collect()
}

/// A header that says these counts.
pub fn header(version: Version, nodes: u32, numbers: u32) -> Field {
    let [nodes, numbers] = [nodes, numbers].map(|count| low_bytes(count, version.width));
    let content = [&[version.number][..], &nodes, &numbers].concat();
    Field::of(HEADER, &content)
}

/// Big-endian, as much of it as so many bytes hold.
fn low_bytes(value: u32, width: usize) -> Vec<u8> {
    let bytes = value.to_be_bytes();
    bytes[bytes.len() - width..].to_vec()
}

pub fn other(version: Version) -> Version {
    let mut others = VERSIONS.into_iter().filter(|other| *other != version);
    others.next().expect("there are two versions")
}

/// A store over the text, in most cases, to be written into an output of nearly its length.
pub fn writing(random: &mut Random, text: Vec<u8>) -> Case {
    let version = *random.pick(&VERSIONS);
    let (text, rows) = match random.below(AT_LIMIT_EVERY) {
        0 => long_number(random),
        1 if version == VERSIONS[0] || random.once_in(WHOLE_OF_2_EVERY) => {
            line_of(version, version.longest - 2 + random.below(5))
        }
        _ => {
            let rows = store_cases::rows(random, &text);
            (text, rows)
        }
    };
    let root = stores::tree(&text, &rows).ok();
    let written = root.and_then(|root| stored::written(&root, version));
    let length = match written {
        Some(written) => written.len(),
        None => random.below(64),
    };
    let request = Request::WriteStored {
        version: version.number,
        output: store_cases::room_near(random, length),
        rows,
    };
    Case { request, text }
}

/// A point with a number of about as many digits as fit, or with one that isn't a number.
fn long_number(random: &mut Random) -> (Vec<u8>, Rows) {
    let start = random.below(3);
    let length = LONGEST_NUMBER - 2 + random.below(5);
    let mut text = vec![b'1'; start + length];
    if random.once_in(4) {
        text[start + length - 1] = *random.pick(b" .x\0");
    }
    let mut spans = [[start as u32, length as u32], [0, 1]];
    if random.once_in(2) {
        spans.reverse();
    }
    let rows = Rows {
        nodes: vec![1, 0, 1],
        numbers: spans.concat(),
    };
    (text, rows)
}

/// A line string whose stored form has so many bytes, many more than its text and rows.
pub fn line_of(version: Version, length: usize) -> (Vec<u8>, Rows) {
    let front = 2 * FRAME + version.header_length() + version.node_length();
    let contents = length - front;
    // With so many digits in a number the record is about as short as it can be.
    let longest = (NUMBER_ROW_BYTES * contents).isqrt();
    let count = contents / (FRAME + longest) / 2 * 2;
    let digits = contents - FRAME * count;
    // Shares of the digits that differ by one at most.
    let shares = (0..count).map(|index| (digits + index) / count);
    let spans = shares.flat_map(|share| [0, share as u32]).collect();
    let text = vec![b'7'; digits.div_ceil(count)];
    let rows = Rows {
        nodes: vec![2, 0, count as u32 / 2],
        numbers: spans,
    };
    (text, rows)
}

/// Stored bytes made of the text, in most cases, and slices for about as many rows.
pub fn reading(random: &mut Random, text: &[u8]) -> Case {
    let version = *random.pick(&VERSIONS);
    let mut bytes = match random.below(AT_LIMIT_EVERY) {
        0 => {
            let (text, rows) = long_number(random);
            bytes_of(&fields(&text, &rows, version))
        }
        1..=250 => small_bytes(random, version),
        _ => stored_bytes(random, text, version),
    };
    bytes.truncate(MAX_TEXT);
    let (nodes, numbers) = rooms(random, &bytes, version);
    let reader = match random.once_in(OTHER_READER_EVERY) {
        true => other(version),
        false => version,
    };
    let request = Request::ReadStored {
        version: reader.number,
        nodes,
        numbers,
    };
    let text = bytes;
    Case { request, text }
}

fn stored_bytes(random: &mut Random, text: &[u8], version: Version) -> Vec<u8> {
    let rows = match random.once_in(2) {
        true => store_cases::rows(random, text),
        false => store_cases::unchanged_rows(random, text),
    };
    let mut fields = fields(text, &rows, version);
    let changes = *random.pick(&[1, 1, 1, 2]);
    match random.below(10) {
        0..=2 => {
            (0..changes).for_each(|_| change_fields(random, &mut fields, version));
            bytes_of(&fields)
        }
        3 | 4 => {
            let mut bytes = bytes_of(&fields);
            (0..changes).for_each(|_| change_bytes(random, &mut bytes));
            bytes
        }
        _ => bytes_of(&fields),
    }
}

fn change_fields(random: &mut Random, fields: &mut Vec<Field>, version: Version) {
    if fields.is_empty() {
        return;
    }
    let index = random.below(fields.len());
    match random.below(9) {
        0 => drop(fields.remove(index)),
        1 => fields.insert(index, fields[index].clone()),
        2 => {
            let other = random.below(fields.len());
            fields.swap(index, other);
        }
        3 => fields[index].tag = *random.pick(&TAGS),
        4 => fields[index].length = other_length(random, fields[index].length, version),
        5 => {
            let mut content = fields[index].content.clone();
            content.resize(random.below(8 + version.width), b'0');
            fields[index] = Field::of(fields[index].tag, &content);
        }
        6 => change_content(random, &mut fields[index].content),
        7 => change_count(random, &mut fields[0].content, version),
        _ => change_version(random, &mut fields[0].content, version),
    }
}

fn other_length(random: &mut Random, length: u16, version: Version) -> u16 {
    let [of_header, of_node] = [version.header_length(), version.node_length()];
    match random.below(6) {
        0 | 1 => length.wrapping_add(1),
        2 | 3 => length.wrapping_sub(1),
        4 => length.swap_bytes(),
        _ => *random.pick(&[0, 1, of_node as u16, of_header as u16, 255, 256, u16::MAX]),
    }
}

fn change_content(random: &mut Random, content: &mut [u8]) {
    if !content.is_empty() {
        let place = random.below(content.len());
        content[place] = *random.pick(&BYTES);
    }
}

/// One more or one less of a header's counts, in most cases in its low byte.
fn change_count(random: &mut Random, header: &mut [u8], version: Version) {
    let low = version.width * (1 + random.below(2));
    let place = match random.once_in(4) {
        true => low - random.below(version.width),
        false => low,
    };
    let change = *random.pick(&[1, u8::MAX]);
    if let Some(byte) = header.get_mut(place) {
        *byte = byte.wrapping_add(change);
    }
}

fn change_version(random: &mut Random, header: &mut [u8], version: Version) {
    if let Some(byte) = header.first_mut() {
        *byte = *random.pick(&[0, other(version).number, 3, b'1', 129, 255]);
    }
}

fn change_bytes(random: &mut Random, bytes: &mut Vec<u8>) {
    let place = random.below(bytes.len() + 1);
    let byte = *random.pick(&BYTES);
    match random.below(8) {
        0 => bytes.truncate(place),
        1 => bytes.insert(place, byte),
        2 => bytes.extend((0..=random.below(8)).map(|_| *random.pick(&BYTES))),
        _ if place == bytes.len() => bytes.push(byte),
        3 => drop(bytes.remove(place)),
        4 | 5 => bytes[place] ^= 1 << random.below(8),
        6 => bytes[place] = byte,
        _ => bytes[place] = random.below(256) as u8,
    }
}

/// Bytes drawn one by one, in most cases behind the beginning of a header.
fn small_bytes(random: &mut Random, version: Version) -> Vec<u8> {
    let (nodes, numbers) = (random.below(4) as u32, random.below(5) as u32);
    let mut bytes = header(version, nodes, numbers).bytes();
    let all = bytes.len();
    bytes.truncate(*random.pick(&[0, 1, 3, 4, all, all, all, all]));
    bytes.extend((0..random.below(24)).map(|_| *random.pick(&BYTES)));
    bytes
}

/// Slice lengths for the rows that the header counts, for one less, for none, for more.
fn rooms(random: &mut Random, bytes: &[u8], version: Version) -> (u32, u32) {
    let count = |place: usize| {
        let said = bytes.get(place..place + version.width);
        let said = said.unwrap_or_default().iter();
        said.fold(0, |count, byte| 256 * count + usize::from(*byte))
    };
    let (nodes, numbers) = (count(4), count(4 + version.width));
    (
        places_near(random, nodes, 3),
        places_near(random, numbers, 2),
    )
}

fn places_near(random: &mut Random, count: usize, width: usize) -> u32 {
    let rows = match random.below(12) {
        0 => 0,
        1 => count.saturating_sub(1),
        2 => random.below(count + 1),
        3 => count + 1,
        4 => count + 2 + random.below(64),
        _ => count,
    };
    let places = width * rows + random.below(width);
    places.min(MAX_SLICE as usize) as u32
}

#[cfg(test)]
mod tests {
    use super::*;
    use crate::stored::Room;

    #[test]
    fn fields_are_those_that_the_model_writes() {
        let mut random = Random::new(3);
        let text = b"-1.5 ++inf 2e3 nan";
        for index in 0..1_000 {
            let version = VERSIONS[index % 2];
            let rows = store_cases::unchanged_rows(&mut random, text);
            let root = stores::tree(text, &rows).expect("well formed");
            let fields = fields(text, &rows, version);
            assert_eq!(stored::written(&root, version), Some(bytes_of(&fields)));
        }
    }

    #[test]
    fn every_outcome_is_frequent_in_both_versions() {
        let mut random = Random::new(4);
        let mut counts = std::collections::BTreeMap::new();
        for _ in 0..8_000 {
            let case = reading(&mut random, b"MULTIPOINT((1 2),3 4)");
            let Request::ReadStored {
                version,
                nodes,
                numbers,
            } = case.request
            else {
                panic!("the stored reader's letter")
            };
            let room = Room::of(nodes, numbers);
            let read = stored::read(&case.text, Version::of(version), room);
            let number = read.err().map_or(0, |refusal| refusal.number());
            *counts.entry((version, number)).or_insert(0) += 1;
        }
        for version in VERSIONS {
            for number in [0, 3, 4, 22, 25, 26] {
                assert!(counts[&(version.number, number)] > 80, "{counts:?}");
            }
        }
    }

    #[test]
    fn a_line_has_the_length_asked_for() {
        for version in VERSIONS {
            for length in [20_000, version.longest - 1, version.longest] {
                let (text, rows) = line_of(version, length);
                let root = stores::tree(&text, &rows).expect("well formed");
                let written = stored::written(&root, version).expect("it fits");
                assert_eq!(written.len(), length);
                assert!(rows.numbers.len() < MAX_SLICE as usize);
            }
        }
    }
}
