//! The fixed list of the program `replay_stored`: what there is for the letters `S` and `L`, all
//! of it for each version, and the moves of `move_lists` behind it. Each field of a stored form broken in each way, versions, each clause of "A
//! store is well formed if .." broken by itself, rooms that are enough or not, every kind and
//! dimension there and back, counts of more than a byte, and the limits of the form as far as
//! a record can hold them; generated records. No record comes twice.
//!
//! What no record can hold, as its text has at most 131,072 bytes and its slices at most
//! 98,304 places (32,768 node rows, 49,152 number rows): more stored bytes than a version
//! reads, a count of more than 65,535 nodes or numbers in a well-formed store, and a whole of
//! as many bytes as a version may have that is accepted (its output is too short: 23). The tests
//! of `stored` have them for the model, and `long_stored` for both sides.

use crate::cases::{self, Case, Letter};
use crate::lists;
use crate::move_lists;
use crate::store_lists::{self, Lent};
use crate::stored::{self, Version, FRAME, VERSIONS};
use crate::stored_cases::{self, bytes_of, Field};
use crate::stores;
use driver::record::{Request, Rows, MAX_OUTPUT, MAX_SLICE, MAX_TEXT};
use std::collections::HashSet;
use std::io;
use std::path::Path;

/// Rows enough for any short form.
pub const MANY: u32 = 40;
/// Output enough for any short form.
pub const ROOMY: u32 = 300;
/// Some rooms are larger than what is written by so much.
pub const MUCH: u32 = 70;

/// The longest text of a number field.
const LONGEST_NUMBER: usize = 65_535;

/// Its numbers have different lengths, and no last byte of one is a tag.
pub const POINTS: &str = "MULTIPOINT(-1.5 22,3e4 4)";
const NODE_FIELDS: std::ops::Range<usize> = 1..4;
const NUMBER_FIELDS: std::ops::Range<usize> = 4..8;

/// Number and place of the refusal, and the bytes that have it in any room.
pub type Refused = (u32, usize, Vec<u8>);

/// Writes `stdin` and `stdout` into the directory, with about so many generated records of
/// each version, and about so many moves.
pub fn write(seed: u64, generated: usize, directory: &Path) -> io::Result<()> {
    let mut cases: Vec<Case> = VERSIONS.into_iter().flat_map(fixed).collect();
    // Half of them of each letter, and half of these of each version.
    cases.extend(lists::spread(seed, Letter::ReadStored, generated));
    cases.extend(lists::spread(seed, Letter::WriteStored, generated));
    cases.extend(move_lists::cases());
    cases.extend(lists::spread(seed, Letter::Move, generated));
    let mut seen = HashSet::new();
    cases.retain(|case| seen.insert(cases::encode(std::slice::from_ref(case))));
    lists::write_files(&cases, &bad_records(), b'L', directory)
}

/// All records of a version that aren't drawn, in a fixed order.
fn fixed(version: Version) -> Vec<Case> {
    let mut cases = broken_forms(version);
    cases.extend(changed_points(version));
    cases.extend(ill_formed(version));
    cases.extend(rooms(version));
    cases.extend(there_and_back(version));
    cases.extend(number_texts(version));
    cases.extend(high_bytes(version));
    cases.extend(writings(version));
    cases.extend(long_numbers(version));
    cases.extend(wholes(version));
    cases
}

/// The stored reader, lent so many rows.
fn read(version: Version, bytes: Vec<u8>, node_rows: u32, number_rows: u32) -> Case {
    read_places(version, bytes, 3 * node_rows, 2 * number_rows)
}

pub fn read_places(version: Version, bytes: Vec<u8>, nodes: u32, numbers: u32) -> Case {
    Case {
        request: Request::ReadStored {
            version: version.number,
            nodes,
            numbers,
        },
        text: bytes,
    }
}

pub fn write_stored(version: Version, lent: &Lent, output: u32) -> Case {
    let rows = lent.rows.clone();
    Case {
        request: Request::WriteStored {
            version: version.number,
            output,
            rows,
        },
        text: lent.text.clone(),
    }
}

/// The fields of a text that is read.
pub fn fields_of(version: Version, text: &str) -> Vec<Field> {
    let lent = Lent::read(text);
    fields_of_store(version, &lent)
}

pub fn fields_of_store(version: Version, lent: &Lent) -> Vec<Field> {
    stored_cases::fields(&lent.text, &lent.rows, version)
}

/// Where each field stands, and where the last one ends.
fn starts(fields: &[Field]) -> Vec<usize> {
    let ends = fields.iter().scan(0, |end, field| {
        *end += field.bytes().len();
        Some(*end)
    });
    [0].into_iter().chain(ends).collect()
}

/// The bytes with another field in a field's place.
fn with_field(fields: &[Field], index: usize, field: Field) -> Vec<u8> {
    let mut fields = fields.to_vec();
    fields[index] = field;
    bytes_of(&fields)
}

/// Broken forms, with many rows and with none in turn: 25 and 26 come before 3 and 4.
fn broken_forms(version: Version) -> Vec<Case> {
    let forms = broken(version).into_iter().enumerate();
    let cases = forms.map(|(index, (_, _, bytes))| {
        let rows = if index % 2 == 0 { MANY } else { 0 };
        read(version, bytes, rows, rows)
    });
    cases.collect()
}

pub fn broken(version: Version) -> Vec<Refused> {
    let mut broken = cut(version);
    broken.extend(missing(version));
    broken.extend(doubled(version));
    broken.extend(swapped(version));
    broken.extend(extra(version));
    broken.extend(wrong_tags(version));
    broken.extend(wrong_lengths(version));
    broken.extend(wrong_number_lengths(version));
    broken.extend(wrong_counts(version));
    broken.extend(several(version));
    broken.extend(versions(version));
    broken
}

/// Everything from some byte on is missing: a tag, a part of a length, of a content.
fn cut(version: Version) -> Vec<Refused> {
    let fields = fields_of(version, POINTS);
    let (bytes, starts) = (bytes_of(&fields), starts(&fields));
    let lengths = 0..bytes.len();
    let cut = lengths.map(|length| {
        let place = starts.iter().rfind(|start| **start <= length);
        (25, *place.expect("0 is a start"), bytes[..length].to_vec())
    });
    cut.collect()
}

/// A field left out: the one after it stands in its place, or the next sort of field where
/// the last one of its sort should be.
fn missing(version: Version) -> Vec<Refused> {
    let fields = fields_of(version, POINTS);
    let starts = starts(&fields);
    let missing = (0..fields.len()).map(|index| {
        let mut fields = fields.clone();
        fields.remove(index);
        let bytes = bytes_of(&fields);
        let place = match index {
            0 => 0,
            _ if NODE_FIELDS.contains(&index) => starts[NODE_FIELDS.end - 1],
            _ => bytes.len(),
        };
        (25, place, bytes)
    });
    missing.collect()
}

fn doubled(version: Version) -> Vec<Refused> {
    let fields = fields_of(version, POINTS);
    let starts = starts(&fields);
    let doubled = (0..fields.len()).map(|index| {
        let mut fields = fields.clone();
        fields.insert(index, fields[index].clone());
        let bytes = bytes_of(&fields);
        let place = match index {
            0 => starts[1],
            _ if NODE_FIELDS.contains(&index) => starts[NODE_FIELDS.end],
            _ => bytes.len() - fields[fields.len() - 1].bytes().len(),
        };
        (25, place, bytes)
    });
    doubled.collect()
}

/// Two fields in each other's place, of another sort (25) or of the same (22: the nodes
/// are another tree).
fn swapped(version: Version) -> Vec<Refused> {
    let fields = fields_of(version, POINTS);
    let starts = starts(&fields);
    let pairs = [
        (0, 1, 25, 0),
        (0, 7, 25, 0),
        (1, 4, 25, starts[1]),
        (2, 7, 25, starts[2]),
        (3, 4, 25, starts[3]),
        (1, 2, 22, 0),
        (1, 3, 22, 0),
    ];
    let swapped = pairs.map(|(first, second, number, place)| {
        let mut fields = fields.clone();
        fields.swap(first, second);
        (number, place, bytes_of(&fields))
    });
    swapped.into_iter().collect()
}

/// Nothing may follow, be it a field or not.
fn extra(version: Version) -> Vec<Refused> {
    let mut extra = Vec::new();
    for text in [
        POINTS,
        "POINT(1 2)",
        "POINT EMPTY",
        "GEOMETRYCOLLECTION EMPTY",
    ] {
        let fields = fields_of(version, text);
        let bytes = bytes_of(&fields);
        let [header, node] = [0, 1].map(|index: usize| fields[index].bytes().len());
        for more in [
            &[0][..],
            &[1],
            &[2],
            &[3],
            &[4],
            &[255],
            b"\n",
            &[3, 0],
            &[3, 0, 0],
            &[3, 0, 1],
            &[3, 0, 1, b'5'],
            &stored_cases::header(version, 0, 0).bytes(),
            &bytes[header..header + node],
            &[4, 0, 0],
            &[0; 8],
            &bytes,
        ] {
            extra.push((25, bytes.len(), [&bytes, more].concat()));
        }
    }
    extra
}

fn wrong_tags(version: Version) -> Vec<Refused> {
    let fields = fields_of(version, POINTS);
    let starts = starts(&fields);
    let mut wrong = Vec::new();
    for (index, field) in fields.iter().enumerate() {
        let tags = [0, 1, 2, 3, 4, b'1', 128 + field.tag, 255];
        for tag in tags.into_iter().filter(|tag| *tag != field.tag) {
            let field = Field {
                tag,
                ..field.clone()
            };
            wrong.push((25, starts[index], with_field(&fields, index, field)));
        }
    }
    wrong
}

/// A header and node fields that are said to be longer or shorter, and that are so.
fn wrong_lengths(version: Version) -> Vec<Refused> {
    let fields = fields_of(version, POINTS);
    let starts = starts(&fields);
    let mut wrong = Vec::new();
    for (index, field) in fields[..NODE_FIELDS.end].iter().enumerate() {
        let right = field.length;
        for length in [0, 1, 2, right - 1, right + 1, right + 2, right + 7] {
            let said = Field {
                length,
                ..field.clone()
            };
            wrong.push((25, starts[index], with_field(&fields, index, said)));
            let mut content = field.content.clone();
            content.resize(usize::from(length), 0);
            let bytes = with_field(&fields, index, Field::of(field.tag, &content));
            // Where the header has no content, the next tag is taken for a version: that of
            // version 2, but of no other.
            let (number, place) = match (index, length) {
                (0, 0) if version.number != stored::NODE => (26, 3),
                _ => (25, starts[index]),
            };
            wrong.push((number, place, bytes));
        }
        for length in [right.swap_bytes(), right + 256, u16::MAX] {
            let said = Field {
                length,
                ..field.clone()
            };
            wrong.push((25, starts[index], with_field(&fields, index, said)));
        }
    }
    wrong
}

/// A number that is said to be longer takes from the next field or is cut; one that is said
/// to be shorter leaves a byte in the place of a tag.
fn wrong_number_lengths(version: Version) -> Vec<Refused> {
    let fields = fields_of(version, POINTS);
    let starts = starts(&fields);
    let mut wrong = Vec::new();
    for index in NUMBER_FIELDS {
        let field = &fields[index];
        let after_tag = match index + 1 == NUMBER_FIELDS.end {
            true => starts[index],
            false => starts[index + 1] + 1,
        };
        let right = field.length;
        for (length, place) in [
            (right + 1, after_tag),
            (right - 1, starts[index + 1] - 1),
            (0, starts[index] + 3),
            (100, starts[index]),
            (right.swap_bytes(), starts[index]),
            (u16::MAX, starts[index]),
        ] {
            let said = Field {
                length,
                ..field.clone()
            };
            wrong.push((25, place, with_field(&fields, index, said)));
        }
    }
    wrong
}

/// Counts that aren't those of the fields.
fn wrong_counts(version: Version) -> Vec<Refused> {
    let fields = fields_of(version, POINTS);
    let starts = starts(&fields);
    let end = starts[fields.len()];
    let most = version.largest_count();
    let mut counts = vec![
        (2, 4, starts[3]),
        (4, 4, starts[4]),
        (0, 4, starts[1]),
        (0, 0, starts[1]),
        (most, 4, starts[4]),
        (3, 3, starts[7]),
        (3, 5, end),
        (3, 0, starts[4]),
        (3, most, end),
        (2, 5, starts[3]),
        (4, 3, starts[4]),
        (most, most, starts[4]),
    ];
    // What is right in one byte, and what is right but for one.
    for byte in 1..version.width {
        counts.push((3 << (8 * byte), 4, starts[4]));
        counts.push((3, 4 << (8 * byte), end));
        counts.push((3 + (1 << (8 * byte)), 4, starts[4]));
        counts.push((3, 4 + (1 << (8 * byte)), end));
    }
    let wrong = counts.into_iter().map(|(nodes, numbers, place)| {
        let header = stored_cases::header(version, nodes, numbers);
        (25, place, with_field(&fields, 0, header))
    });
    wrong.collect()
}

/// The first broken field counts; a broken field comes before an ill-formed tree.
fn several(version: Version) -> Vec<Refused> {
    let fields = fields_of(version, POINTS);
    let starts = starts(&fields);
    let mut several = Vec::new();
    let with_tag = |fields: &mut [Field], index: usize| fields[index].tag = 9;
    let last = fields.len() - 1;
    for (first, place) in starts[..last].iter().enumerate() {
        let mut two = fields.clone();
        with_tag(&mut two, first);
        with_tag(&mut two, first + 1);
        several.push((25, *place, bytes_of(&two)));
        let mut one = fields.clone();
        with_tag(&mut one, first);
        let mut bytes = bytes_of(&one);
        bytes.pop();
        several.push((25, *place, bytes));
    }
    let ill_formed: [fn(&mut [Field]); 4] = [
        |fields| fields[1].content[0] = 9,
        |fields| fields[2].content[1] = 1,
        |fields| *fields[1].content.last_mut().expect("it has parts") = 3,
        |fields| fields[5].content[0] = b'x',
    ];
    for change in ill_formed {
        let mut fields = fields.clone();
        change(&mut fields);
        let bytes = bytes_of(&fields);
        several.push((25, starts[7], bytes[..bytes.len() - 1].to_vec()));
        several.push((25, bytes.len(), [&bytes, &[0][..]].concat()));
        with_tag(&mut fields, 6);
        several.push((25, starts[6], bytes_of(&fields)));
    }
    several
}

/// 26 looks at the first byte and at byte 3 alone, which has to be the reader's own version:
/// the other one is unknown to it too.
fn versions(version: Version) -> Vec<Refused> {
    let bytes = bytes_of(&fields_of(version, POINTS));
    let other = stored_cases::other(version);
    let length = version.header_length() as u8;
    let mut versions = Vec::new();
    for byte in [0, other.number, 3, 4, 5, 16, b'1', 127, 128, 129, 254, 255] {
        let mut changed = bytes.clone();
        changed[3] = byte;
        versions.push((26, 3, changed));
        for front in [[1, 0, length], [1, 255, 255], [1, 0, 0]] {
            versions.push((26, 3, [&front[..], &[byte]].concat()));
        }
    }
    // Whole forms of the other version.
    for text in [POINTS, "POINT EMPTY", "POINT(1 2)"] {
        versions.push((26, 3, bytes_of(&fields_of(other, text))));
    }
    versions.extend(fronts(version));
    versions
}

/// A header of the other version that is cut, or of any length; other first bytes.
fn fronts(version: Version) -> Vec<Refused> {
    let mut changed = bytes_of(&fields_of(version, POINTS));
    let other = stored_cases::other(version);
    let length = version.header_length() as u8;
    changed[3] = other.number;
    let cut = 4..=3 + version.header_length();
    let mut fronts: Vec<Refused> = cut.map(|end| (26, 3, changed[..end].to_vec())).collect();
    for (high, low) in [
        (0, 0),
        (0, length - 1),
        (0, length + 1),
        (length, 0),
        (255, 255),
    ] {
        let with_length = [&[1, high, low][..], &changed[3..]].concat();
        fronts.push((26, 3, with_length));
        fronts.push((25, 0, [1, high, low, version.number].to_vec()));
        fronts.push((25, 0, [1, high, low].to_vec()));
    }
    changed[3 + version.header_length()] = 9;
    fronts.push((26, 3, changed.clone()));
    for first in [0, 2, 3, 255] {
        changed[0] = first;
        fronts.push((25, 0, changed.clone()));
        fronts.push((25, 0, [first, 0, length, other.number].to_vec()));
        fronts.push((25, 0, [first].to_vec()));
    }
    fronts.push((25, 0, [1, 0, length, version.number].to_vec()));
    fronts
}

/// Each bit of a point's stored form turned, each of its bytes left out and doubled.
fn changed_points(version: Version) -> Vec<Case> {
    let point = bytes_of(&fields_of(version, "POINT(1 2)"));
    let mut cases = vec![read(version, point.clone(), 1, 2)];
    for place in 0..point.len() {
        for bit in 0..8 {
            let mut turned = point.clone();
            turned[place] ^= 1 << bit;
            cases.push(read(version, turned, 1, 2));
        }
        let (before, after) = point.split_at(place);
        cases.push(read(version, [before, &after[1..]].concat(), 1, 2));
        let doubled = [before, &after[..1], after].concat();
        cases.push(read(version, doubled, 1, 2));
    }
    cases
}

/// Trees of which nothing but a clause of document 01 is wrong: 22, with no row lent.
fn ill_formed(version: Version) -> Vec<Case> {
    let forms = ill_formed_forms(version).into_iter().enumerate();
    let cases = forms.flat_map(|(index, bytes)| {
        let with_room = (index % 3 == 0).then(|| read(version, bytes.clone(), MANY, MANY));
        [read(version, bytes, 0, 0)].into_iter().chain(with_room)
    });
    cases.collect()
}

pub fn ill_formed_forms(version: Version) -> Vec<Vec<u8>> {
    let form = |lent: &Lent| bytes_of(&fields_of_store(version, lent));
    let broken = store_lists::broken().into_iter();
    let kept = broken.filter(|(_, lent)| has_form(version, lent));
    let mut forms: Vec<_> = kept.map(|(_, lent)| form(&lent)).collect();
    // The most parts that a field can say.
    for kind in 2..=7 {
        for dimension in 0..4 {
            let lent = Lent::of(b"", &[[kind, dimension, version.largest_count()]], &[]);
            forms.push(form(&lent));
        }
    }
    // Parts that are right but for one byte.
    for byte in 1..version.width {
        let mut fields = fields_of(version, POINTS);
        let parts = &mut fields[1].content[2..];
        parts[version.width - 1 - byte] = 1;
        forms.push(bytes_of(&fields));
    }
    // No node, but numbers.
    forms.push(form(&Lent::of(b"1", &[], &[[0, 1], [0, 1]])));
    forms
}

/// Whether fields can hold rows: they have no half rows, no numbers outside the text and
/// no values beyond their bytes.
fn has_form(version: Version, lent: &Lent) -> bool {
    let Rows { nodes, numbers } = &lent.rows;
    let most_parts = version.largest_count();
    let nodes_fit = nodes.chunks(3).all(|row| match row {
        [kind, dimension, parts] => *kind <= 255 && *dimension <= 255 && *parts <= most_parts,
        _ => false,
    });
    let numbers_fit = numbers.chunks(2).all(|row| match row {
        [start, length] => {
            let (start, length) = (*start as usize, *length as usize);
            lent.text.get(start..start + length).is_some()
        }
        _ => false,
    });
    nodes_fit && numbers_fit
}

/// Each count of rows that is too small for some field, up to one more than is needed.
pub fn rooms(version: Version) -> Vec<Case> {
    let mut cases = Vec::new();
    for text in [
        POINTS,
        "GEOMETRYCOLLECTION(POINT Z(1 2 3),LINESTRING EMPTY)",
    ] {
        let fields = fields_of(version, text);
        let bytes = bytes_of(&fields);
        let is_node = |field: &&Field| field.tag == stored::NODE;
        let nodes = fields.iter().filter(is_node).count() as u32;
        let numbers = fields.len() as u32 - 1 - nodes;
        for node_rows in 0..=nodes + 1 {
            for number_rows in 0..=numbers + 1 {
                cases.push(read(version, bytes.clone(), node_rows, number_rows));
            }
        }
        // Places that make no row.
        for (beyond_nodes, beyond_numbers) in [(1, 1), (2, 0), (0, 1)] {
            for rows_less in [0, 1] {
                let node_places = 3 * (nodes - rows_less) + beyond_nodes;
                let number_places = 2 * (numbers - rows_less) + beyond_numbers;
                let lent = |nodes, numbers| read_places(version, bytes.clone(), nodes, numbers);
                cases.push(lent(node_places, 2 * numbers));
                cases.push(lent(3 * nodes, number_places));
            }
        }
    }
    cases
}

/// Every kind and dimension, nested ones, spans that overlap.
pub fn well_formed() -> Vec<Lent> {
    let mut well_formed = store_lists::of_every_kind();
    well_formed.extend(store_lists::more_well_formed());
    well_formed
}

/// The stored form of a well-formed store.
pub fn form_of(version: Version, lent: &Lent) -> Vec<u8> {
    let root = stores::tree(&lent.text, &lent.rows).ok();
    stored::written(&root.expect("well formed"), version).expect("it fits")
}

/// Well-formed stores written into outputs of five lengths, and what was written read with
/// the rows that it needs, with one less of each sort and with more.
fn there_and_back(version: Version) -> Vec<Case> {
    let mut cases = Vec::new();
    for (index, lent) in well_formed().iter().enumerate() {
        let bytes = form_of(version, lent);
        let length = bytes.len() as u32;
        let rooms = [length, length - 1, length + 1, 0, length + MUCH];
        cases.extend(rooms.map(|room| write_stored(version, lent, room)));
        let nodes = lent.rows.nodes.len() as u32 / 3;
        let numbers = lent.rows.numbers.len() as u32 / 2;
        let again = |nodes, numbers| read(version, bytes.clone(), nodes, numbers);
        cases.push(again(nodes, numbers));
        cases.push(again(nodes - 1, numbers));
        cases.push(again(nodes, numbers.saturating_sub(1)));
        if index % 3 == 0 {
            cases.push(again(nodes + 2, numbers + MANY));
        }
    }
    cases
}

/// Points whose X is a good or a bad number text, or none at all.
pub fn points_of_number_texts() -> Vec<Lent> {
    let more = [
        &b""[..],
        b"1 ",
        b" 1",
        b"1\0",
        b"\0",
        b"1\xff",
        b"\xff",
        "京".as_bytes(),
    ];
    let more = more.into_iter().map(store_lists::one_number);
    store_lists::number_texts()
        .into_iter()
        .chain(more)
        .collect()
}

/// Those points to be written, and as fields, the text as the first number and as the last.
fn number_texts(version: Version) -> Vec<Case> {
    let mut cases = Vec::new();
    for lent in points_of_number_texts() {
        cases.push(write_stored(version, &lent, ROOMY));
        let mut fields = fields_of_store(version, &lent);
        cases.push(read(version, bytes_of(&fields), 1, 2));
        let last = fields.len() - 1;
        fields.swap(last - 1, last);
        cases.push(read(version, bytes_of(&fields), 1, 2));
    }
    cases
}

/// Stores with counts, parts and lengths that need their high byte, or just don't.
pub fn of_high_bytes() -> Vec<Lent> {
    let text = vec![b'7'; 300];
    let nodes = [255, 256, 257].map(|count| points_and_line(&text, count, &[]));
    let numbers = [254, 256, 258, 514].map(|count| {
        let spans = vec![[0, 1]; count];
        points_and_line(&text, 2, &spans)
    });
    let lengths = [255, 256, 257].map(|length| {
        let spans = [[0, length], [0, 1]];
        points_and_line(&text, 2, &spans)
    });
    let stores = nodes.into_iter().chain(numbers).chain(lengths);
    stores.collect()
}

/// Those stores there and back, with just enough room and with a place too few.
fn high_bytes(version: Version) -> Vec<Case> {
    let mut cases = Vec::new();
    for lent in of_high_bytes() {
        let bytes = form_of(version, &lent);
        let (nodes, numbers) = lent.places();
        cases.push(write_stored(version, &lent, bytes.len() as u32));
        cases.push(write_stored(version, &lent, bytes.len() as u32 - 1));
        let again = |nodes, numbers| read_places(version, bytes.clone(), nodes, numbers);
        cases.push(again(nodes, numbers));
        cases.push(again(nodes - 1, numbers));
        cases.push(again(nodes, numbers.saturating_sub(1)));
    }
    cases
}

/// Ill-formed stores with much output and with none (22 before 23), and parts that no field
/// can say in a store that is ill formed (22 before 27); texts of any length and bytes.
fn writings(version: Version) -> Vec<Case> {
    let mut cases = Vec::new();
    for (index, (_, lent)) in store_lists::broken().iter().enumerate() {
        cases.push(write_stored(version, lent, ROOMY));
        if index % 3 == 0 {
            cases.push(write_stored(version, lent, 0));
        }
    }
    for parts in [65_534, 65_535, 65_536, 65_537, 131_072] {
        for kind in [2, 5, 7] {
            let lent = Lent::of(b"1", &[[kind, 0, parts]], &[]);
            cases.push(write_stored(version, &lent, ROOMY));
        }
    }
    for lent in store_lists::any_text() {
        let length = form_of(version, &lent).len() as u32;
        cases.push(write_stored(version, &lent, length));
        cases.push(write_stored(version, &lent, length - 1));
    }
    cases
}

/// Number texts of 65,535 bytes, which fit, and of one byte more, which don't: as the first
/// number and as the last, before 23 and behind 22.
fn long_numbers(version: Version) -> Vec<Case> {
    let text = vec![b'7'; LONGEST_NUMBER + 1];
    let (fits, too_long) = (LONGEST_NUMBER as u32, LONGEST_NUMBER as u32 + 1);
    let point = |spans: &[[u32; 2]]| Lent::of(&text, &[[1, 0, 1]], spans);
    let first = point(&[[1, fits], [0, 1]]);
    let form = form_of(version, &first);
    let length = form.len() as u32;
    let mut no_number = point(&[[0, too_long], [0, 1]]);
    no_number.text[LONGEST_NUMBER] = b'x';
    let no_tree = Lent::of(&text, &[[1, 0, 2]], &[[0, too_long], [0, 1]]);
    let write = |lent: &Lent, output| write_stored(version, lent, output);
    let mut cases = vec![
        write(&first, length),
        write(&first, length - 1),
        write(&point(&[[0, too_long], [0, 1]]), MAX_OUTPUT),
        write(&point(&[[0, 1], [0, too_long]]), 0),
        write(&no_number, MAX_OUTPUT),
        write(&no_tree, 0),
        read(version, form.clone(), 1, 2),
        read(version, form.clone(), 1, 1),
    ];
    cases.push(read(
        version,
        form_of(version, &longest_in_record(version)),
        1,
        2,
    ));
    cases
}

/// A point whose numbers are so long that its form has as many bytes as a record may have.
pub fn longest_in_record(version: Version) -> Lent {
    let text = vec![b'7'; LONGEST_NUMBER];
    let fields = 4 * FRAME + version.header_length() + version.node_length();
    let last = MAX_TEXT - fields - LONGEST_NUMBER;
    let spans = [[0, LONGEST_NUMBER as u32], [0, last as u32]];
    Lent::of(&text, &[[1, 0, 1]], &spans)
}

/// A collection of as many points as a record's stored bytes can have.
pub fn most_nodes(version: Version) -> Lent {
    let left = MAX_TEXT - FRAME - version.header_length();
    let nodes = left / (FRAME + version.node_length());
    points_and_line(b"", nodes as u32, &[])
}

/// A collection with as many numbers of one byte as a record's stored bytes can have.
pub fn most_numbers(version: Version) -> Lent {
    let nodes = 2 * (FRAME + version.node_length());
    let left = MAX_TEXT - FRAME - version.header_length() - nodes;
    let coordinates = left / (2 * (FRAME + 1));
    points_and_line(b"7", 2, &vec![[0, 1]; 2 * coordinates])
}

/// As many bytes as a version may have fit the form, though not the output (23); one more
/// doesn't (27). Those of version 2 are so large that there are few of them.
fn wholes(version: Version) -> Vec<Case> {
    let most = version.longest;
    let lengths = match version.number {
        1 => vec![most - 1, most, most + 1, most + 2, 2 * most],
        _ => vec![most, most + 1],
    };
    let whole = |length: usize| {
        let (text, rows) = stored_cases::line_of(version, length);
        Lent { text, rows }
    };
    let mut cases = Vec::new();
    for length in lengths {
        let whole = whole(length);
        cases.push(write_stored(version, &whole, MAX_OUTPUT));
        if version.number == 1 {
            cases.push(write_stored(version, &whole, 0));
        }
    }
    let mut half_row = whole(most + 1);
    half_row.rows.numbers.pop();
    cases.push(write_stored(version, &half_row, MAX_OUTPUT));
    cases
}

/// The largest records of each version.
pub fn largest() -> Vec<Case> {
    VERSIONS.into_iter().flat_map(largest_of).collect()
}

/// Every slice and text as large as it may be (23), an output with no byte left, and stored
/// bytes with as many nodes or numbers as there may be.
fn largest_of(version: Version) -> Vec<Case> {
    // What an output's bytes are used up by: the header, a node and a number of one byte.
    let header = FRAME + version.header_length();
    let node = FRAME + version.node_length();
    let number = FRAME + 1;
    let number_rows = MAX_SLICE / 2;
    let last = MAX_TEXT as u32 - 1;
    let text = vec![b'7'; MAX_TEXT];
    let spans = vec![[last, 1]; number_rows as usize];
    let full = points_and_line(&text, MAX_SLICE / 3, &spans);
    let nodes = (MAX_OUTPUT as usize - header - number * number_rows as usize) / node;
    let mut exact = points_and_line(&text, nodes as u32, &spans);
    let spare = MAX_OUTPUT as usize - form_of(version, &exact).len();
    exact.rows.numbers[..2].copy_from_slice(&[0, 1 + spare as u32]);
    let (nodes, numbers) = (most_nodes(version), most_numbers(version));
    let read = |lent: &Lent, nodes, numbers| {
        let form = form_of(version, lent);
        read_places(version, form, nodes, numbers)
    };
    vec![
        write_stored(version, &full, MAX_OUTPUT),
        write_stored(version, &exact, MAX_OUTPUT),
        write_stored(version, &exact, MAX_OUTPUT - 1),
        read(&nodes, MAX_SLICE, MAX_SLICE),
        read(&nodes, 30_000, 0),
        read(&numbers, MAX_SLICE, MAX_SLICE),
        read(&numbers, 6, 60_000),
    ]
}

/// A collection of a line string and empty points, so many nodes in all.
pub fn points_and_line(text: &[u8], nodes: u32, spans: &[[u32; 2]]) -> Lent {
    let mut rows = vec![[7, 0, nodes - 1], [2, 0, spans.len() as u32 / 2]];
    rows.resize(nodes as usize, [1, 0, 0]);
    Lent::of(text, &rows, spans)
}

/// Versions that no request gives, some of which are known ones in their low byte.
pub const NO_VERSIONS: [u32; 10] = [0, 3, 4, 255, 257, 258, 65_538, 1 << 24, 2 << 24, u32::MAX];

/// Bodies of records that have no answer: cut, too large, of another version or letter.
fn bad_records() -> Vec<Vec<u8>> {
    let empty = VERSIONS.map(|version| bytes_of(&fields_of(version, "POINT EMPTY")));
    let mut records = vec![Vec::new()];
    for letter in [b'r', b'w', b's', b't', b'i', b'M', b'm', b'l', b'x', 0, 255] {
        records.push(record(letter, &[1, 3, 0, 1, 0, 0], &empty[0]));
    }
    for (index, version) in NO_VERSIONS.into_iter().enumerate() {
        records.push(record(b'S', &[version, 21, 3, 0, 1, 0, 0], b""));
        records.push(record(b'L', &[version, 3, 0], &empty[index % 2]));
    }
    // The version is cut.
    for letter in [b'S', b'L'] {
        for cut in [&[][..], &[0], &[1], &[2], &[0; 3], &[1, 0, 0], &[2, 0, 0]] {
            records.push(record(letter, &[], cut));
        }
    }
    for (version, empty) in VERSIONS.into_iter().zip(&empty) {
        records.extend(bad_writings(version));
        records.extend(bad_readings(version, empty));
    }
    records.extend(move_lists::bad_records());
    records
}

/// A letter, its fields, and what follows them.
pub fn record(letter: u8, fields: &[u32], rest: &[u8]) -> Vec<u8> {
    let fields = fields.iter().flat_map(|field| field.to_le_bytes());
    let front = [letter].into_iter().chain(fields);
    front.chain(rest.iter().copied()).collect()
}

/// So many places have as many bytes as none where these are counted in 32 bits.
pub const WRAPPING: u32 = 1 << 30;

fn bad_writings(version: Version) -> Vec<Vec<u8>> {
    let version = u32::from(version.number);
    let fields: [&[u32]; 12] = [
        &[],
        &[21],
        &[21, 3],
        &[21, 3, 0],
        &[21, 3, 0, 1, 0],
        &[21, 3, 2, 1, 0, 0, 0],
        &[MAX_OUTPUT + 1, 3, 0, 1, 0, 0],
        &[u32::MAX, 3, 0, 1, 0, 0],
        &[21, MAX_SLICE + 1, 0, 1, 0, 0],
        &[21, 0, MAX_SLICE + 1, 1, 0, 0],
        &[21, u32::MAX, u32::MAX, 1, 0, 0],
        &[21, WRAPPING, 0, 1, 0, 0],
    ];
    let records = fields.into_iter().flat_map(|fields| {
        let fields = [&[version], fields].concat();
        let cut = b"\0\0\0";
        [record(b'S', &fields, b""), record(b'S', &fields, cut)]
    });
    records.collect()
}

fn bad_readings(version: Version, form: &[u8]) -> Vec<Vec<u8>> {
    let version = u32::from(version.number);
    let mut records = Vec::new();
    for fields in [&[version][..], &[version, 3]] {
        records.push(record(b'L', fields, b""));
        records.push(record(b'L', fields, b"\0\0\0"));
    }
    for (nodes, numbers) in [
        (MAX_SLICE + 1, 0),
        (0, MAX_SLICE + 1),
        (u32::MAX, u32::MAX),
        (WRAPPING, WRAPPING),
    ] {
        records.push(record(b'L', &[version, nodes, numbers], form));
    }
    let too_long = vec![1; MAX_TEXT + 1];
    records.push(record(b'L', &[version, 3, 0], &too_long));
    records
}

#[cfg(test)]
mod tests {
    use super::*;
    use crate::expected::expected;
    use crate::stored::{Reason, Room};

    fn answer(case: &Case) -> Vec<u32> {
        let line = expected(case).line;
        let fields = line.split_whitespace();
        fields.filter_map(|field| field.parse().ok()).collect()
    }

    #[test]
    fn each_broken_form_is_refused_where_it_is_broken() {
        for version in VERSIONS {
            for (number, place, bytes) in broken(version) {
                let refusal = stored::read(&bytes, version, Room::ANY).expect_err("broken");
                assert_eq!(
                    (refusal.number(), refusal.place),
                    (number, place),
                    "{bytes:02x?}"
                );
            }
        }
    }

    #[test]
    fn each_ill_formed_form_has_its_fields_in_order() {
        for version in VERSIONS {
            for bytes in ill_formed_forms(version) {
                let refusal = stored::read(&bytes, version, Room::ANY).expect_err("ill formed");
                assert!(
                    matches!(refusal.reason, Reason::IllFormed(_)),
                    "{bytes:02x?}"
                );
            }
        }
    }

    #[test]
    fn rows_are_asked_for_in_order() {
        for version in VERSIONS {
            let fields = fields_of(version, POINTS);
            let (bytes, starts) = (bytes_of(&fields), starts(&fields));
            let rows = (0..=4).flat_map(|nodes| (0..=5).map(move |numbers| (nodes, numbers)));
            for (nodes, numbers) in rows {
                let line = answer(&read(version, bytes.clone(), nodes, numbers));
                let expected = match (nodes as usize, numbers as usize) {
                    (0..3, _) => [3, starts[1 + nodes as usize] as u32],
                    (_, 0..4) => [4, starts[4 + numbers as usize] as u32],
                    _ => [0, 0],
                };
                assert_eq!(line[..2], expected);
            }
        }
    }

    #[test]
    fn the_limits_of_the_form() {
        let numbers = |cases: Vec<Case>| cases.iter().map(|case| answer(case)[0]).collect();
        for version in VERSIONS {
            let long: Vec<u32> = numbers(long_numbers(version));
            assert_eq!(long, [0, 23, 27, 27, 22, 22, 0, 4, 0]);
        }
        let one: Vec<u32> = numbers(wholes(VERSIONS[0]));
        assert_eq!(one, [23, 23, 23, 23, 27, 27, 27, 27, 27, 27, 22]);
        let two: Vec<u32> = numbers(wholes(VERSIONS[1]));
        assert_eq!(two, [23, 27, 22]);
    }

    #[test]
    fn the_largest_records_are_as_large_as_they_may_be() {
        for version in VERSIONS {
            let cases = largest_of(version);
            let answers: Vec<_> = cases.iter().map(answer).collect();
            let numbers: Vec<u32> = answers.iter().map(|answer| answer[0]).collect();
            assert_eq!(numbers, [23, 0, 23, 0, 3, 0, 4]);
            assert_eq!(answers[1][2], MAX_OUTPUT);
            let Request::WriteStored { rows, .. } = &cases[0].request else {
                panic!("a writer's record comes first")
            };
            assert_eq!(rows.nodes.len(), MAX_SLICE as usize);
            assert_eq!(rows.numbers.len(), MAX_SLICE as usize);
            assert_eq!(cases[0].text.len(), MAX_TEXT);
            let mut readings = cases[3..].iter();
            assert!(readings.all(|case| case.text.len() > MAX_TEXT - 10));
            let longest = long_numbers(version).pop().map(|case| case.text.len());
            assert_eq!(longest, Some(MAX_TEXT));
        }
    }

    #[test]
    fn no_bad_record_comes_twice() {
        let records = bad_records();
        let different: HashSet<_> = records.iter().collect();
        assert_eq!(different.len(), records.len());
    }
}
