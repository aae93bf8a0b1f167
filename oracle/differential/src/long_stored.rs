//! The limits of the stored form that no record of a replay program can hold: counts and parts
//! beyond two bytes, wholes that just fit their version or just don't, and more stored bytes
//! than a version reads, at the reader of either version.

use crate::cases::Case;
use crate::store_lists::Lent;
use crate::stored::{Version, VERSIONS};
use crate::stored_cases;
use crate::stored_lists::{form_of, points_and_line, read_places, write_stored};

/// Each makes a few cases, so that not all are held at a time.
pub const LIMITS: [fn() -> Vec<Case>; 8] = [
    counts,
    long_numbers,
    || wholes(VERSIONS[0]),
    || wholes(VERSIONS[1]),
    || whole_forms(VERSIONS[0]),
    || whole_forms(VERSIONS[1]),
    || too_long(VERSIONS[0]),
    || too_long(VERSIONS[1]),
];

/// The largest number of two bytes.
pub const TWO_BYTES: u32 = 65_535;

/// Stores at their counts written by both versions into outputs that just fit and just don't,
/// read with just enough rows and with one less, and asked of the other version.
fn counts() -> Vec<Case> {
    let stores = at_counts().into_iter();
    stores.flat_map(|lent| there_and_back(&lent)).collect()
}

/// As many nodes and as many numbers as version 1 can count, and one more; as many parts as it
/// can say, though not their numbers, and one more.
pub fn at_counts() -> Vec<Lent> {
    let line = |dimension: u32, coordinates: u32| {
        let width = [2, 3, 3, 4][dimension as usize];
        let spans = vec![[0, 1]; (width * coordinates) as usize];
        Lent::of(b"7", &[[2, dimension, coordinates]], &spans)
    };
    let nodes = [TWO_BYTES, TWO_BYTES + 1].map(|count| points_and_line(b"", count, &[]));
    // 65,535 numbers and 65,536, then 65,535 coordinates and 65,536.
    let numbers = [line(1, 21_845), line(3, 16_384)];
    let parts = [TWO_BYTES, TWO_BYTES + 1].map(|count| line(0, count));
    nodes.into_iter().chain(numbers).chain(parts).collect()
}

/// Where version 1 can't count so far, its form has counts that lack their high bytes.
fn there_and_back(lent: &Lent) -> Vec<Case> {
    let (nodes, numbers) = lent.places();
    let mut cases = Vec::new();
    for version in VERSIONS {
        let form = stored_cases::fields(&lent.text, &lent.rows, version);
        let form = stored_cases::bytes_of(&form);
        let length = form.len() as u32;
        let outputs = [length, length - 1, 0].into_iter();
        cases.extend(outputs.map(|output| write_stored(version, lent, output)));
        let read = |nodes, numbers| read_places(version, form.clone(), nodes, numbers);
        cases.push(read(nodes, numbers));
        cases.push(read(nodes - 1, numbers));
        cases.push(read(nodes, numbers.saturating_sub(1)));
        let other = stored_cases::other(version);
        cases.push(read_places(other, form, nodes, numbers));
    }
    cases
}

/// Number texts of 65,535 bytes fit both versions, and of one more neither.
fn long_numbers() -> Vec<Case> {
    let text = vec![b'7'; TWO_BYTES as usize + 1];
    let mut cases = Vec::new();
    for spans in [
        [[0, TWO_BYTES], [1, TWO_BYTES]],
        [[0, TWO_BYTES + 1], [0, 1]],
        [[0, 1], [0, TWO_BYTES + 1]],
    ] {
        let lent = Lent::of(&text, &[[1, 0, 1]], &spans);
        for version in VERSIONS {
            cases.push(write_stored(version, &lent, 2 * TWO_BYTES + 100));
        }
    }
    let fits = Lent::of(&text, &[[1, 0, 1]], &[[0, TWO_BYTES], [1, TWO_BYTES]]);
    cases.extend(VERSIONS.map(|version| read_places(version, form_of(version, &fits), 3, 4)));
    cases
}

/// A line string of so many stored bytes.
pub fn line_of(version: Version, length: usize) -> Lent {
    let (text, rows) = stored_cases::line_of(version, length);
    Lent { text, rows }
}

/// Written with just enough output and with one byte less; one byte more fits no output, and
/// not the form (27 before 23).
fn wholes(version: Version) -> Vec<Case> {
    let most = version.longest;
    let whole = line_of(version, most);
    let too_large = line_of(version, most + 1);
    vec![
        write_stored(version, &whole, most as u32),
        write_stored(version, &whole, most as u32 - 1),
        write_stored(version, &too_large, most as u32 + 1),
        write_stored(version, &too_large, 0),
        write_stored(stored_cases::other(version), &too_large, 0),
    ]
}

/// As many stored bytes as a version reads: unharmed with just enough rows and with one less,
/// with a last byte that spoils the number, cut and with another tag at the far end, and at
/// the other version's reader (26, or 1 where it reads less).
fn whole_forms(version: Version) -> Vec<Case> {
    let whole = line_of(version, version.longest);
    let form = form_of(version, &whole);
    let numbers = whole.rows.numbers.len() as u32;
    let last_number = whole.rows.numbers[whole.rows.numbers.len() - 1] as usize;
    let changed = |change: fn(&mut Vec<u8>, usize)| {
        let mut changed = form.clone();
        change(&mut changed, last_number);
        read_places(version, changed, 3, numbers)
    };
    vec![
        read_places(version, form.clone(), 3, numbers),
        read_places(version, form.clone(), 3, numbers - 1),
        read_places(stored_cases::other(version), form.clone(), 3, numbers),
        changed(|form, _| *form.last_mut().expect("it has bytes") = b'x'),
        changed(|form, _| form.truncate(form.len() - 1)),
        changed(|form, length| {
            let tag = form.len() - length - 3;
            form[tag] = 4;
        }),
    ]
}

/// One byte more than a version reads: 1, whatever stands there.
fn too_long(version: Version) -> Vec<Case> {
    let mut form = form_of(version, &line_of(version, version.longest));
    let numbers = 2;
    form.push(3);
    let mut of_other = form.clone();
    of_other[3] = stored_cases::other(version).number;
    vec![
        read_places(version, form, 3, numbers),
        read_places(version, of_other.clone(), 3, numbers),
        read_places(stored_cases::other(version), of_other, 3, numbers),
        read_places(version, vec![0; version.longest + 1], 3, numbers),
    ]
}

#[cfg(test)]
mod tests {
    use super::*;
    use crate::expected::expected;

    fn numbers(cases: Vec<Case>) -> Vec<u32> {
        let lines = cases.iter().map(|case| expected(case).line);
        let numbers = lines.map(|line| line.split(' ').next().and_then(|word| word.parse().ok()));
        numbers.flatten().collect()
    }

    #[test]
    fn limits_of_version_1() {
        let one = VERSIONS[0];
        assert_eq!(numbers(wholes(one)), [0, 23, 27, 27, 23]);
        assert_eq!(numbers(whole_forms(one)), [0, 4, 26, 22, 25, 25]);
        assert_eq!(numbers(too_long(one)), [1, 1, 25, 1]);
    }

    #[test]
    fn counts_of_both_versions() {
        let numbers = numbers(counts());
        let of_both = [0, 23, 23, 0, 3, 4, 26, 0, 23, 23, 0, 3, 4, 26];
        let stores: Vec<&[u32]> = numbers.chunks_exact(of_both.len()).collect();
        // A store without numbers needs no number row.
        let without_numbers = |answers: &[u32]| answers.iter().all(|number| *number != 4);
        assert!(without_numbers(stores[0]) && without_numbers(stores[1]));
        assert_eq!(stores[2], of_both);
        for store in [stores[1], stores[3], stores[4], stores[5]] {
            assert_eq!(store[..4], [27, 27, 27, 25]);
            assert_eq!(store[7..9], [0, 23]);
        }
    }

    #[test]
    fn numbers_of_both_versions() {
        assert_eq!(numbers(long_numbers()), [0, 0, 27, 27, 27, 27, 0, 0]);
    }
}
