//! Cases for the letter `b`: the stores of `store_cases` over any text, and, in most cases,
//! trees of their shapes whose numbers are at the edges of what a box can hold. About a third
//! are then ill formed, some tables are too small, and many have places that make no row.

use crate::box_numbers;
use crate::boxes::ROW_PLACES;
use crate::cases::Case;
use crate::random::Random;
use crate::store_cases;
use crate::stores::{MAX_DEPTH, WIDTHS};
use driver::reader::{GEOMETRY_COLLECTION, LINE_STRING, POINT};
use driver::record::{Request, Rows, MAX_SLICE, MAX_TEXT};

/// A text that is longer gets no more long numbers.
const LONG_TEXT: usize = MAX_TEXT / 2;

/// What may stand between two number texts: no number goes on over it.
const BETWEEN: [&str; 9] = [" ", " ", " ", ",", "(", "\0", "x", "京", " +"];

/// A store over the text, or one of its own, and a table for about as many rows.
pub fn case(random: &mut Random, text: Vec<u8>) -> Case {
    let (text, mut rows) = match random.once_in(4) {
        true => {
            let rows = store_cases::unchanged_rows(random, &text);
            (text, rows)
        }
        false => made(random),
    };
    for _ in 0..*random.pick(&[0, 0, 0, 0, 0, 1, 1, 2]) {
        store_cases::change(random, &text, &mut rows);
    }
    rows.nodes.truncate(MAX_SLICE as usize);
    rows.numbers.truncate(MAX_SLICE as usize);
    let table = table_places(random, rows.nodes.len() / 3);
    let request = Request::Boxes { table, rows };
    Case { request, text }
}

/// The length of a table: in most cases that of the rows, or a little more.
fn table_places(random: &mut Random, nodes: usize) -> u32 {
    let needed = ROW_PLACES * nodes;
    let places = match random.below(16) {
        0 => needed.saturating_sub(1 + random.below(ROW_PLACES)),
        1 => random.below(needed + 1),
        2 => random.below(ROW_PLACES),
        3 => needed + ROW_PLACES + random.below(100),
        4..=8 => needed + random.below(ROW_PLACES),
        _ => needed,
    };
    places.min(MAX_SLICE as usize) as u32
}

/// A tree with numbers of its own, and the text that they stand in.
fn made(random: &mut Random) -> (Vec<u8>, Rows) {
    let mut rows = shape(random);
    let axes = axes(&rows);
    let faults = *random.pick(&[0, 0, 0, 0, 1, 1, 2, 3]);
    let at_fault: Vec<usize> = match axes.is_empty() {
        true => Vec::new(),
        false => (0..faults).map(|_| random.below(axes.len())).collect(),
    };
    let mut text = Vec::new();
    for (index, axis) in axes.into_iter().enumerate() {
        let row = 2 * index;
        // Some numbers stand at the place of an earlier one.
        if index > 0 && random.once_in(10) {
            let earlier = 2 * random.below(index);
            rows.numbers.copy_within(earlier..earlier + 2, row);
            continue;
        }
        let number = match axis {
            _ if text.len() > LONG_TEXT => "1".to_string(),
            2.. => box_numbers::any(random),
            _ if at_fault.contains(&index) => box_numbers::offending(random),
            _ => box_numbers::sound(random),
        };
        text.extend(random.pick(&BETWEEN).bytes());
        rows.numbers[row] = text.len() as u32;
        rows.numbers[row + 1] = number.len() as u32;
        text.extend(number.bytes());
    }
    (text, rows)
}

/// A tree of any kind, at times inside so many collections that their limit is near.
fn shape(random: &mut Random) -> Rows {
    let mut rows = store_cases::made(random, b"1");
    let around = match random.below(24) {
        0 => MAX_DEPTH - random.below(4),
        1 => 1 + random.below(MAX_DEPTH),
        _ => 0,
    };
    let dimension = random.below(4) as u32;
    let mut nodes = [GEOMETRY_COLLECTION, dimension, 1].repeat(around);
    nodes.append(&mut rows.nodes);
    rows.nodes = nodes;
    rows
}

/// For each number of a well-formed store which one of its coordinate it is, from 0 on.
fn axes(rows: &Rows) -> Vec<usize> {
    let nodes = rows.nodes.chunks_exact(3);
    let with_coordinates = nodes.filter(|row| [POINT, LINE_STRING].contains(&row[0]));
    let axes = with_coordinates.flat_map(|row| {
        let coordinates = 0..row[2];
        coordinates.flat_map(|_| 0..WIDTHS[row[1] as usize])
    });
    axes.collect()
}

#[cfg(test)]
mod tests {
    use super::*;
    use crate::boxes::{self, Reason};
    use crate::stores;
    use crate::texts::Texts;
    use std::collections::BTreeMap;

    fn drawn(count: usize) -> Vec<(Case, u32, Rows)> {
        let mut texts = Texts::new(1);
        let mut random = Random::new(!1);
        let cases = (0..count).map(|_| {
            let case = case(&mut random, texts.next_short());
            match case.request.clone() {
                Request::Boxes { table, rows } => (case, table, rows),
                _ => panic!("the letter of boxes"),
            }
        });
        cases.collect()
    }

    #[test]
    fn made_stores_are_well_formed_but_for_their_depth() {
        let mut random = Random::new(1);
        for _ in 0..2_000 {
            let (text, rows) = made(&mut random);
            let broken = stores::tree(&text, &rows).err();
            assert!(
                matches!(broken, None | Some(stores::Clause::Depth)),
                "{rows:?}"
            );
            assert!(text.len() <= MAX_TEXT);
        }
    }

    #[test]
    fn every_outcome_is_frequent() {
        let mut counts: BTreeMap<String, usize> = BTreeMap::new();
        for (case, table, rows) in drawn(10_000) {
            let table = boxes::table(&case.text, &rows, table as usize);
            let outcome = match table.err().map(|refusal| refusal.reason) {
                None => "accepted".to_string(),
                Some(Reason::IllFormed(_)) => "ill formed".to_string(),
                Some(reason) => format!("{reason:?}"),
            };
            *counts.entry(outcome).or_default() += 1;
        }
        let outcomes = [
            ("accepted", 2_000),
            ("ill formed", 2_500),
            ("NoRoom", 500),
            ("X(NotFinite)", 200),
            ("X(Exponent)", 100),
            ("X(Size)", 100),
            ("Y(NotFinite)", 200),
            ("Y(Exponent)", 100),
            ("Y(Size)", 100),
        ];
        for (outcome, least) in outcomes {
            assert!(counts[outcome] >= least, "{counts:?}");
        }
        assert!(counts["ill formed"] <= 4_000, "{counts:?}");
    }

    #[test]
    fn every_kind_and_dimension_is_accepted() {
        let mut seen: BTreeMap<(u32, u32), usize> = BTreeMap::new();
        for (case, table, rows) in drawn(20_000) {
            if boxes::table(&case.text, &rows, table as usize).is_ok() {
                *seen.entry((rows.nodes[0], rows.nodes[1])).or_default() += 1;
            }
        }
        assert_eq!(seen.len(), 7 * 4);
        assert!(seen.values().all(|count| *count > 50), "{seen:?}");
    }
}
