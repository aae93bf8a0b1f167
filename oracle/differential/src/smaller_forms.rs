//! Smaller stored bytes than a given case has, for the search of the smallest that shows a
//! fault. What the case is lent stays as it is, or has as much too much or too little as before.

use crate::cases::Case;
use crate::moves;
use crate::smaller_stores;
use crate::stored::{self, Version, NUMBER};
use crate::stored_cases::{bytes_of, fields, Field};
use driver::record::{Request, Rows};

/// A number that has more than one in so many of the stored bytes is much of them. There may be
/// so many others that to shorten one after the other takes too long.
const LARGE_SHARE: usize = 8;

/// The case with stored bytes of smaller stores, and with shorter numbers; none if its fields
/// aren't in order.
pub fn simpler(case: &Case) -> Vec<Case> {
    on_forms(case, smaller, usize::MAX)
}

/// The case with stored bytes of much smaller stores, and with half of a number that is much of
/// them: so many cases that they have about this many bytes at most.
pub fn much_simpler(case: &Case, most_bytes: usize) -> Vec<Case> {
    on_forms(case, much_smaller, most_bytes)
}

fn on_forms(
    case: &Case,
    smaller: fn(&[u8], Version) -> Vec<Vec<u8>>,
    most_bytes: usize,
) -> Vec<Case> {
    let version = match &case.request {
        Request::ReadStored { version, .. } => *version,
        Request::Move(asked) => asked.from,
        _ => return Vec::new(),
    };
    let needed_now = needed(&case.request, &case.text);
    let forms = smaller(&case.text, Version::of(version)).into_iter();
    let cases = forms.flat_map(|form| on_form(case, needed_now, &form));
    let mut bytes = 0;
    let is_within = |case: &Case| {
        bytes += case.size();
        bytes <= most_bytes
    };
    cases.take_while(is_within).collect()
}

fn smaller(bytes: &[u8], version: Version) -> Vec<Vec<u8>> {
    let Ok(rows) = stored::rows(bytes, version) else {
        return Vec::new();
    };
    let form = |rows: &Rows| fields(bytes, rows, version);
    let stores = smaller_stores::smaller(bytes, &rows).into_iter();
    let mut found: Vec<_> = stores.map(|rows| bytes_of(&form(&rows))).collect();
    let whole = form(&rows);
    for (index, field) in whole.iter().enumerate() {
        if field.tag == NUMBER && field.length > 1 {
            for length in [field.content.len() / 2, field.content.len() - 1] {
                found.push(with_shorter_number(&whole, index, length));
            }
        }
    }
    found
}

fn much_smaller(bytes: &[u8], version: Version) -> Vec<Vec<u8>> {
    let Ok(rows) = stored::rows(bytes, version) else {
        return Vec::new();
    };
    let whole = fields(bytes, &rows, version);
    let numbers = whole.iter().enumerate();
    let is_much = |field: &Field| LARGE_SHARE * field.content.len() > bytes.len();
    let long = numbers.filter(|(_, field)| field.tag == NUMBER && is_much(field));
    let shorter =
        long.map(|(index, field)| with_shorter_number(&whole, index, field.content.len() / 2));
    let stores = smaller_stores::much_smaller(bytes, &rows).into_iter();
    let forms = stores.map(|rows| bytes_of(&fields(bytes, &rows, version)));
    shorter.chain(forms).collect()
}

fn with_shorter_number(whole: &[Field], index: usize, length: usize) -> Vec<u8> {
    let mut shorter = whole.to_vec();
    shorter[index] = Field::of(NUMBER, &whole[index].content[..length]);
    bytes_of(&shorter)
}

/// Lengths of the two slices and of the output; a reading has none.
#[derive(Clone, Copy, Debug, PartialEq, Eq)]
struct Lengths {
    nodes: u32,
    numbers: u32,
    output: u32,
}

impl Lengths {
    fn less(self, other: Lengths) -> Self {
        Lengths {
            nodes: self.nodes.saturating_sub(other.nodes),
            numbers: self.numbers.saturating_sub(other.numbers),
            output: self.output.saturating_sub(other.output),
        }
    }
}

/// The case on a smaller form: slices and output stay, or are shorter by what is needed less.
fn on_form(case: &Case, needed_now: Lengths, form: &[u8]) -> Vec<Case> {
    let request = &case.request;
    let lent = lent(request);
    let shorter = lent.less(needed_now.less(needed(request, form)));
    let output = shorter.output;
    let mut lengths = vec![lent, Lengths { output, ..lent }];
    let output = lent.output;
    lengths.extend([Lengths { output, ..shorter }, shorter]);
    lengths.dedup();
    let cases = lengths.into_iter().map(|lengths| Case {
        request: with_lent(request, lengths),
        text: form.to_vec(),
    });
    cases.collect()
}

fn lent(request: &Request) -> Lengths {
    let (nodes, numbers, output) = match request {
        Request::ReadStored { nodes, numbers, .. } => (*nodes, *numbers, 0),
        Request::Move(asked) => (asked.nodes, asked.numbers, asked.output),
        _ => unreachable!("a case of stored bytes"),
    };
    Lengths {
        nodes,
        numbers,
        output,
    }
}

fn with_lent(request: &Request, lengths: Lengths) -> Request {
    let mut request = request.clone();
    match &mut request {
        Request::ReadStored { nodes, numbers, .. } => {
            (*nodes, *numbers) = (lengths.nodes, lengths.numbers);
        }
        Request::Move(asked) => {
            (asked.nodes, asked.numbers) = (lengths.nodes, lengths.numbers);
            asked.output = lengths.output;
        }
        _ => unreachable!("a case of stored bytes"),
    }
    request
}

/// What has to be lent; of bytes that aren't read or moved, about as much.
fn needed(request: &Request, bytes: &[u8]) -> Lengths {
    let (from, output) = match request {
        Request::ReadStored { version, .. } => (Version::of(*version), 0),
        Request::Move(asked) => {
            let (from, to) = (Version::of(asked.from), Version::of(asked.to));
            let length = moves::length(bytes, from, to);
            (from, length.unwrap_or(bytes.len()) as u32)
        }
        _ => unreachable!("a case of stored bytes"),
    };
    let rows = stored::rows(bytes, from).unwrap_or_default();
    Lengths {
        nodes: rows.nodes.len() as u32,
        numbers: rows.numbers.len() as u32,
        output,
    }
}

#[cfg(test)]
mod tests {
    use super::*;
    use crate::by_hand::hex;
    use crate::stored::VERSIONS;
    use driver::record::Move;

    #[test]
    fn smaller_bytes_have_their_fields_in_order() {
        let text = b"1 22";
        let rows = Rows {
            nodes: vec![4, 0, 1, 1, 0, 1],
            numbers: vec![0, 1, 2, 2],
        };
        let by_one = hex("01 0005 01 0001 0000 | 02 0004 04 00 0000");
        let by_two = hex("01 0009 02 00000001 00000000 | 02 0006 04 00 00000000");
        for (version, empty) in VERSIONS.into_iter().zip([by_one, by_two]) {
            let bytes = bytes_of(&fields(text, &rows, version));
            for smaller in [smaller(&bytes, version), much_smaller(&bytes, version)] {
                let mut all = smaller.iter();
                assert!(all.all(|form| stored::rows(form, version).is_ok()));
                assert!(smaller.iter().all(|form| form.len() < bytes.len()));
            }
            assert!(smaller(&bytes, version).contains(&empty));
        }
    }

    /// Of version 1: POINT Z(12 3 4), and LINESTRING EMPTY in a collection.
    const COLLECTION: &str = "01 0005 01 0003 0003
         | 02 0004 07 00 0002 | 02 0004 01 01 0001 | 02 0004 02 00 0000
         | 03 0002 3132 | 03 0001 33 | 03 0001 34";

    #[test]
    fn what_is_lent_stays_or_goes_with_what_is_needed() {
        let lengths = |nodes, numbers, output| Lengths {
            nodes,
            numbers,
            output,
        };
        let asked = Move {
            from: 1,
            to: 2,
            nodes: 8,
            numbers: 9,
            output: 70,
        };
        let request = Request::Move(asked);
        let text = hex(COLLECTION);
        // 12 and 3 times 9 and 13 bytes of numbers.
        assert_eq!(needed(&request, &text), lengths(9, 6, 52));
        let without_point = hex("01 0005 01 0002 0000 | 02 0004 07 00 0001 | 02 0004 02 00 0000");
        let cases = simpler(&Case { request, text });
        let cases = cases.iter().filter(|case| case.text == without_point);
        let of_it: Vec<Lengths> = cases.map(|case| lent(&case.request)).collect();
        // A node, three numbers and 22 bytes are needed less.
        let expected = [
            lengths(8, 9, 70),
            lengths(8, 9, 48),
            lengths(5, 3, 70),
            lengths(5, 3, 48),
        ];
        assert_eq!(of_it, expected);
    }

    #[test]
    fn a_reading_is_lent_no_output() {
        let request = Request::ReadStored {
            version: 1,
            nodes: 9,
            numbers: 6,
        };
        let text = hex(COLLECTION);
        let cases = much_simpler(&Case { request, text }, usize::MAX);
        let point = hex(
            "01 0005 01 0001 0003 | 02 0004 01 01 0001 | 03 0002 3132 | 03 0001 33 | 03 0001 34",
        );
        let of_point = cases.iter().filter(|case| case.text == point);
        let requests: Vec<_> = of_point.map(|case| case.request.clone()).collect();
        let read = |nodes| Request::ReadStored {
            version: 1,
            nodes,
            numbers: 6,
        };
        assert_eq!(requests, [read(9), read(3)]);
    }
}
