//! The records of letter `m` in the list of the program `replay_stored`, most of them over the
//! stored forms that the stored reader's have: every kind and dimension moved each way into
//! outputs of five lengths; each count of rows, and each fault at each place that the reading
//! side refuses, with output and without any; number texts; counts of more than a byte; moves
//! within a version.
//!
//! 27 isn't among them: what a record can hold in version 2 fits version 1 (`move_cases`).

use crate::cases::Case;
use crate::moves;
use crate::store_lists::Lent;
use crate::stored::{self, Room, Version, VERSIONS};
use crate::stored_cases::{self, bytes_of};
use crate::stored_lists::{
    self, fields_of, form_of, record, MANY, MUCH, NO_VERSIONS, POINTS, ROOMY, WRAPPING,
};
use driver::record::{Move, Request, MAX_OUTPUT, MAX_SLICE, MAX_TEXT};
use std::collections::BTreeMap;

/// Node places and number places.
type Places = (u32, u32);

/// All records that aren't drawn, in a fixed order.
pub fn cases() -> Vec<Case> {
    let moves = VERSIONS.into_iter().flat_map(to_other);
    let within = VERSIONS.into_iter().flat_map(within);
    moves.chain(within).collect()
}

/// From a version to the other one.
fn to_other(from: Version) -> Vec<Case> {
    let mut cases = well_formed(from);
    cases.extend(rooms(from));
    cases.extend(refused_forms(from));
    cases.extend(versions(from));
    cases.extend(number_texts(from));
    cases.extend(high_bytes(from));
    cases
}

/// The move of these bytes, lent slices of so many places and so much output.
pub fn move_places(
    from: Version,
    to: Version,
    bytes: Vec<u8>,
    (nodes, numbers): Places,
    output: u32,
) -> Case {
    let request = Request::Move(Move {
        from: from.number,
        to: to.number,
        nodes,
        numbers,
        output,
    });
    let text = bytes;
    Case { request, text }
}

/// A store's form moved in just enough rows: into just enough output, into a byte less, a byte
/// more, none, and much more.
fn into_outputs(lent: &Lent, from: Version, to: Version) -> Vec<Case> {
    let bytes = form_of(from, lent);
    let length = form_of(to, lent).len() as u32;
    let outputs = [length, length - 1, length + 1, 0, length + MUCH];
    let cases = outputs.map(|output| move_places(from, to, bytes.clone(), lent.places(), output));
    cases.into_iter().collect()
}

fn well_formed(from: Version) -> Vec<Case> {
    let to = stored_cases::other(from);
    let stores = stored_lists::well_formed().into_iter();
    stores
        .flat_map(|lent| into_outputs(&lent, from, to))
        .collect()
}

/// Each count of rows up to one more than is needed, with just enough output and with none: 3
/// and 4 come before 23.
fn rooms(from: Version) -> Vec<Case> {
    let to = stored_cases::other(from);
    let mut cases = Vec::new();
    for reading in stored_lists::rooms(from) {
        let Request::ReadStored { nodes, numbers, .. } = reading.request else {
            unreachable!("a stored reading")
        };
        let bytes = reading.text;
        let length = moves::length(&bytes, from, to).expect("it is moved") as u32;
        for output in [length, 0] {
            let places = (nodes, numbers);
            cases.push(move_places(from, to, bytes.clone(), places, output));
        }
    }
    cases
}

/// What forms are lent that the reading side refuses in any room: rows of each sort, and output.
const ROWS_AND_OUTPUTS: [(u32, u32); 4] = [(MANY, ROOMY), (0, ROOMY), (MANY, 0), (0, 0)];

/// Each fault at each place in turn with all that may be lent: 25, 26 and 22 come before what
/// is lent is looked at.
fn refused_forms(from: Version) -> Vec<Case> {
    let to = stored_cases::other(from);
    let mut cases = Vec::new();
    for forms in forms_by_refusal(from).values() {
        for (index, (rows, output)) in ROWS_AND_OUTPUTS.into_iter().enumerate() {
            // Spread over the forms that have it, be there more than four or less.
            let bytes = forms[index * forms.len() / ROWS_AND_OUTPUTS.len()].clone();
            let places = (3 * rows, 2 * rows);
            cases.push(move_places(from, to, bytes, places, output));
        }
    }
    cases
}

/// The stored reader's broken and ill-formed forms, by number, place and sort of the refusal.
fn forms_by_refusal(version: Version) -> BTreeMap<(u32, usize, u32), Vec<Vec<u8>>> {
    let broken = stored_lists::broken(version).into_iter();
    let broken = broken.map(|(_, _, bytes)| bytes);
    let mut by_refusal: BTreeMap<_, Vec<_>> = BTreeMap::new();
    for bytes in broken.chain(stored_lists::ill_formed_forms(version)) {
        let refusal = stored::read(&bytes, version, Room::ANY).expect_err("it is refused");
        let key = (refusal.number(), refusal.place, refusal.sort());
        by_refusal.entry(key).or_default().push(bytes);
    }
    by_refusal
}

/// Whole forms of the other version, which are to be moved the other way, and versions that
/// there aren't.
fn versions(from: Version) -> Vec<Case> {
    let to = stored_cases::other(from);
    let mut cases = Vec::new();
    for text in [POINTS, "POINT EMPTY", "POINT(1 2)"] {
        let bytes = bytes_of(&fields_of(to, text));
        for (rows, output) in ROWS_AND_OUTPUTS {
            let places = (3 * rows, 2 * rows);
            cases.push(move_places(from, to, bytes.clone(), places, output));
        }
    }
    for version in [0, 3, 4, b'1', 127, 128, 129, 130, 255] {
        let mut bytes = bytes_of(&fields_of(from, POINTS));
        bytes[3] = version;
        cases.push(move_places(from, to, bytes, (3 * MANY, 2 * MANY), ROOMY));
    }
    cases
}

/// Good number texts, which are the same in both versions, and bad ones.
fn number_texts(from: Version) -> Vec<Case> {
    let to = stored_cases::other(from);
    let points = stored_lists::points_of_number_texts().into_iter();
    let cases = points.map(|lent| {
        let bytes = bytes_of(&stored_lists::fields_of_store(from, &lent));
        move_places(from, to, bytes, lent.places(), ROOMY)
    });
    cases.collect()
}

fn high_bytes(from: Version) -> Vec<Case> {
    let to = stored_cases::other(from);
    let mut cases = Vec::new();
    for lent in stored_lists::of_high_bytes() {
        let bytes = form_of(from, &lent);
        let length = form_of(to, &lent).len() as u32;
        for output in [length, length - 1] {
            let places = lent.places();
            cases.push(move_places(from, to, bytes.clone(), places, output));
        }
    }
    cases
}

/// Moves of a version to itself: what is written is what was read.
fn within(version: Version) -> Vec<Case> {
    let texts = [
        POINTS,
        "POINT EMPTY",
        "GEOMETRYCOLLECTION M(POLYGON((-1 +inf,.5 2)),LINESTRING ZM EMPTY)",
    ];
    let stores = texts.map(Lent::read);
    let mut cases: Vec<Case> = stores
        .iter()
        .flat_map(|lent| into_outputs(lent, version, version))
        .collect();
    let points = form_of(version, &stores[0]);
    let (nodes, numbers) = stores[0].places();
    let length = points.len() as u32;
    let mut ill_formed = points.clone();
    *ill_formed.last_mut().expect("it has bytes") = b'x';
    let cut = points[..points.len() - 1].to_vec();
    let of_other = bytes_of(&fields_of(stored_cases::other(version), POINTS));
    for (bytes, places) in [
        (points.clone(), (nodes - 1, numbers)),
        (points, (nodes, numbers - 1)),
        (ill_formed, (nodes, numbers)),
        (cut, (nodes, numbers)),
        (of_other, (nodes, numbers)),
    ] {
        for output in [length, 0] {
            let bytes = bytes.clone();
            cases.push(move_places(version, version, bytes, places, output));
        }
    }
    cases
}

/// The largest records of each direction.
pub fn largest() -> Vec<Case> {
    VERSIONS.into_iter().flat_map(largest_from).collect()
}

/// As many nodes, as many numbers and as many bytes as there may be: with everything that is lent
/// as large as it may be, just large enough, and too small by a byte or by a row.
fn largest_from(from: Version) -> Vec<Case> {
    let to = stored_cases::other(from);
    let mut cases = Vec::new();
    for lent in [
        stored_lists::most_nodes(from),
        stored_lists::most_numbers(from),
        stored_lists::longest_in_record(from),
    ] {
        let bytes = form_of(from, &lent);
        let length = form_of(to, &lent).len() as u32;
        let (nodes, numbers) = lent.places();
        for (places, output) in [
            ((MAX_SLICE, MAX_SLICE), MAX_OUTPUT),
            ((nodes, numbers), length),
            ((nodes, numbers), length - 1),
            ((nodes - 1, numbers), length),
            ((nodes, numbers.saturating_sub(1)), length),
        ] {
            cases.push(move_places(from, to, bytes.clone(), places, output));
        }
    }
    cases
}

/// Bodies of records that have no answer: cut, of a version that there isn't, too large.
pub fn bad_records() -> Vec<Vec<u8>> {
    let [one, two] = VERSIONS.map(|version| bytes_of(&fields_of(version, "POINT EMPTY")));
    let mut records = Vec::new();
    for cut in [&[][..], &[1], &[2, 0, 0]] {
        records.push(record(b'm', &[], cut));
    }
    for (from, to, form) in [(1, 2, &one), (2, 1, &two)] {
        let fields = [from, to, 3, 0, 21];
        for count in 1..fields.len() {
            records.push(record(b'm', &fields[..count], b""));
            records.push(record(b'm', &fields[..count], b"\0\0\0"));
        }
        for version in NO_VERSIONS {
            records.push(record(b'm', &[version, to, 3, 0, 21], form));
            records.push(record(b'm', &[from, version, 3, 0, 21], form));
        }
        for (nodes, numbers, output) in [
            (MAX_SLICE + 1, 0, 21),
            (3, MAX_SLICE + 1, 21),
            (3, 0, MAX_OUTPUT + 1),
            (u32::MAX, 0, 21),
            (3, u32::MAX, 21),
            (3, 0, u32::MAX),
            (WRAPPING, WRAPPING, 21),
            (3, 0, WRAPPING),
        ] {
            records.push(record(b'm', &[from, to, nodes, numbers, output], form));
        }
    }
    records.push(record(b'm', &[1, 2, 3, 0, 21], &vec![1; MAX_TEXT + 1]));
    records
}

#[cfg(test)]
mod tests {
    use super::*;
    use crate::expected::expected;
    use std::collections::HashSet;

    /// Number, place and length.
    fn answer(case: &Case) -> [u32; 3] {
        let line = expected(case).line;
        let fields = line.split(' ').filter_map(|field| field.parse().ok());
        let fields: Vec<u32> = fields.take(3).collect();
        fields.try_into().expect("a line begins with three numbers")
    }

    fn numbers(cases: &[Case]) -> Vec<u32> {
        cases.iter().map(|case| answer(case)[0]).collect()
    }

    #[test]
    fn outputs_are_enough_or_not() {
        for version in VERSIONS {
            let numbers = numbers(&well_formed(version));
            for of_one in numbers.chunks(5) {
                assert_eq!(of_one, [0, 23, 0, 23, 0]);
            }
        }
    }

    #[test]
    fn rows_are_asked_for_before_output() {
        for version in VERSIONS {
            let answers: Vec<_> = rooms(version).iter().map(answer).collect();
            for of_one in answers.chunks(2) {
                let [with_output, without] = of_one else {
                    panic!("two records of each")
                };
                match with_output[0] {
                    0 => assert_eq!(*without, [23, 0, 0]),
                    3 | 4 => assert_eq!(without, with_output),
                    other => panic!("refusal {other}"),
                }
            }
        }
    }

    #[test]
    fn each_refusal_of_the_reading_side_has_all_that_may_be_lent() {
        for version in VERSIONS {
            let cases = refused_forms(version);
            let lent: HashSet<_> = cases[..4].iter().map(lent).collect();
            assert_eq!(lent.len(), 4);
            let answers: Vec<_> = cases.iter().map(answer).collect();
            for of_one in answers.chunks(4) {
                assert_eq!(of_one, [of_one[0]; 4]);
            }
            // Each field of POINTS is broken, and so is what follows the last one.
            for (number, place, _) in stored_lists::broken(version) {
                assert!(answers.contains(&[number, place as u32, 0]));
            }
        }
    }

    /// The slices' lengths and the output's.
    fn lent(case: &Case) -> (u32, u32, u32) {
        match case.request {
            Request::Move(asked) => (asked.nodes, asked.numbers, asked.output),
            _ => panic!("a move"),
        }
    }

    #[test]
    fn a_move_reads_its_own_version_alone() {
        for version in VERSIONS {
            let answers = versions(version);
            let mut answers = answers.iter().map(answer);
            assert!(answers.all(|answer| answer == [26, 3, 0]));
        }
    }

    #[test]
    fn moves_within_a_version() {
        let outputs = [0, 23, 0, 23, 0];
        let others = [3, 3, 4, 4, 22, 22, 25, 25, 26, 26];
        let expected = [&outputs[..], &outputs, &outputs, &others].concat();
        for version in VERSIONS {
            assert_eq!(numbers(&within(version)), expected);
        }
    }

    #[test]
    fn the_largest_records_are_as_large_as_they_may_be() {
        for version in VERSIONS {
            let cases = largest_from(version);
            let without_numbers = [0, 0, 23, 3, 0];
            let with_numbers = [0, 0, 23, 3, 4];
            let expected = [without_numbers, with_numbers, with_numbers].concat();
            assert_eq!(numbers(&cases), expected);
            let mut lengths = cases.iter().map(|case| case.text.len());
            assert!(lengths.all(|length| length > MAX_TEXT - 10));
            assert_eq!(cases[14].text.len(), MAX_TEXT);
        }
    }
}
