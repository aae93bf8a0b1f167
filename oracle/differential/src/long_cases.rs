//! What is asked of a long text under each letter: readings in rooms that end at its far end,
//! its store written and checked, and its stored forms read and moved, unharmed or changed at
//! the far end.

use crate::any_bytes;
use crate::box_lists;
use crate::boxes::ROW_PLACES;
use crate::cases::{Case, Letter};
use crate::long_texts;
use crate::model::{self, Limits};
use crate::move_lists::move_places;
use crate::moves;
use crate::random::Random;
use crate::store_lists::Lent;
use crate::stored::{self, Version, VERSIONS};
use crate::stored_cases;
use crate::stored_lists::{read_places, write_stored};
use crate::stores::{self, MAX_DEPTH};
use driver::record::{Request, Rows};

/// Of a longer text a few tokens are demanded, or the last ones: a line has some twenty bytes
/// for each.
const ALL_TOKENS: usize = 300_000;
const FEW_TOKENS: usize = 2_000;

/// Names, and what no name is, for infer_type.
const FRONTS: [&str; 8] = [
    "POINT",
    "linestring z",
    "Polygon M",
    "MULTIPOINT ZM",
    "GEOMETRYCOLLECTION",
    "LINEARRING",
    "MULTIPOLYGONZ",
    "x",
];

/// A text that is read, and the rows that it is read to.
pub struct Long {
    text: String,
    rows: Rows,
}

impl Long {
    pub fn new(text: String) -> Self {
        let limits = Limits {
            depth: MAX_DEPTH,
            ..Limits::NONE
        };
        let store = model::read(&text, limits).expect("a text that is read");
        let spans = store.numbers.iter();
        let spans = spans.flat_map(|span| [span.start as u32, span.length as u32]);
        let rows = Rows {
            nodes: store.nodes.concat(),
            numbers: spans.collect(),
        };
        Long { text, rows }
    }

    /// What is asked under a letter.
    pub fn cases(&self, letter: Letter, random: &mut Random) -> Vec<Case> {
        match letter {
            Letter::Take | Letter::LookAndTake => vec![self.tokens(letter, random)],
            Letter::Read => self.readings(random),
            Letter::Infer => vec![self.inference(random)],
            Letter::Write => self.writings(random),
            Letter::Check => self.checks(random),
            Letter::Boxes => self.boxes(random),
            Letter::WriteStored => self.stored_writings(random),
            Letter::ReadStored => self.stored_readings(random),
            Letter::Move => self.moves(random),
        }
    }

    fn bytes(&self) -> Vec<u8> {
        self.text.clone().into_bytes()
    }

    pub fn lent(&self) -> Lent {
        Lent {
            text: self.bytes(),
            rows: self.rows.clone(),
        }
    }

    /// How many places its rows have.
    pub fn places(&self) -> (u32, u32) {
        let Rows { nodes, numbers } = &self.rows;
        (nodes.len() as u32, numbers.len() as u32)
    }

    /// All tokens, the last ones, or a few.
    fn tokens(&self, letter: Letter, random: &mut Random) -> Case {
        let length = self.text.len();
        let place = match random.below(6) {
            0 => random.below(length),
            1 => length + random.below(2),
            2 => 0,
            _ => length - 1 - random.below(FEW_TOKENS),
        };
        let count = match length.saturating_sub(place) <= ALL_TOKENS {
            true => any_bytes::demands_past_end(self.text.as_bytes(), place),
            false => random.below(FEW_TOKENS),
        };
        let (place, count) = (place as u32, count as u32);
        let request = match letter {
            Letter::Take => Request::Take { place, count },
            _ => Request::LookAndTake { place, count },
        };
        let text = self.bytes();
        Case { request, text }
    }

    /// Just enough rows, or as many as any text of its length needs; too few at the far end;
    /// a text changed there, and one that isn't UTF-8.
    fn readings(&self, random: &mut Random) -> Vec<Case> {
        let (nodes, numbers) = self.places();
        let half = self.text.len() as u32 / 2;
        let with_room = match random.below(4) {
            0 => (3 * half, 2 * half),
            1 => (nodes + 2, numbers + 1),
            _ => (nodes, numbers),
        };
        let too_few = match random.below(3) {
            0 => (nodes - 1, numbers),
            1 => (nodes - 3, numbers - 2),
            _ => (nodes, numbers - 1),
        };
        let mut cases = vec![read(self.bytes(), with_room), read(self.bytes(), too_few)];
        let changed = long_texts::changed(random, &self.text);
        cases.push(match random.once_in(4) {
            true => read(changed, (nodes, numbers)),
            false => read(changed, (3 * half, 2 * half)),
        });
        if random.once_in(2) {
            let not_utf8 = long_texts::not_utf8(random, &self.text);
            cases.push(read(not_utf8, (nodes, numbers)));
        }
        cases
    }

    /// The text, or one of its length that is a front and blanks.
    fn inference(&self, random: &mut Random) -> Case {
        let with_blanks = |before: &str, behind: &str| {
            let blanks = self.text.len() - before.len() - behind.len();
            [before, &" ".repeat(blanks), behind].concat().into_bytes()
        };
        let front = *random.pick(&FRONTS);
        let text = match random.below(9) {
            0 => with_blanks("", &format!("{front}(1 2)")),
            1 => with_blanks(front, "(1 2)"),
            2 => with_blanks(front, "EMPTY"),
            3 => with_blanks(front, "京"),
            4 => with_blanks(front, ""),
            5 => with_blanks("", &format!("{front}EMPTY")),
            6 => long_texts::not_utf8(random, &self.text),
            _ => self.bytes(),
        };
        let request = Request::Infer;
        Case { request, text }
    }

    /// Into outputs that the canonical text just fits and just doesn't; ill formed, at times.
    fn writings(&self, random: &mut Random) -> Vec<Case> {
        let lent = self.lent();
        let length = lent.length();
        let outputs = [length + *random.pick(&[0, 0, 1, 1_000]), length - 1];
        let mut cases: Vec<Case> = outputs.iter().map(|output| lent.write(*output)).collect();
        if random.once_in(3) {
            cases.push(spoilt(random, lent).write(length));
        }
        cases
    }

    fn checks(&self, random: &mut Random) -> Vec<Case> {
        let lent = self.lent();
        let mut cases = vec![lent.check()];
        if random.once_in(3) {
            cases.push(spoilt(random, lent).check());
        }
        cases
    }

    /// In a table of just enough rows, or of one less; ill formed, at times.
    fn boxes(&self, random: &mut Random) -> Vec<Case> {
        let mut lent = self.lent();
        let needed = box_lists::needed(&lent);
        let table = match random.below(6) {
            0 => needed - 1,
            1 => needed - ROW_PLACES as u32,
            2 => needed + 7,
            _ => needed,
        };
        if random.once_in(8) {
            lent = spoilt(random, lent);
        }
        vec![box_lists::boxes(&lent, table)]
    }

    /// In each version, into outputs that just fit and just don't; ill formed, at times.
    fn stored_writings(&self, random: &mut Random) -> Vec<Case> {
        let lent = self.lent();
        let root = stores::tree(&lent.text, &lent.rows).ok();
        let root = root.expect("what is read is well formed");
        let mut cases = Vec::new();
        for version in VERSIONS {
            let written = stored::written(&root, version);
            let length = written.map_or(self.text.len(), |written| written.len()) as u32;
            let more = *random.pick(&[0, 0, 1, 1_000]);
            cases.push(write_stored(version, &lent, length + more));
            if random.once_in(2) {
                cases.push(write_stored(version, &lent, length - 1));
            }
        }
        if random.once_in(4) {
            let version = *random.pick(&VERSIONS);
            let output = self.text.len() as u32;
            cases.push(write_stored(version, &spoilt(random, lent), output));
        }
        cases
    }

    /// The forms of both versions, read.
    fn stored_readings(&self, random: &mut Random) -> Vec<Case> {
        let cases = VERSIONS.map(|version| {
            let (reader, form, (nodes, numbers)) = self.stored_form(version, random);
            read_places(reader, form, nodes, numbers)
        });
        cases.into_iter().collect()
    }

    /// The forms of both versions, moved to the other one or, at times, to the same, into outputs
    /// that just fit and just don't.
    fn moves(&self, random: &mut Random) -> Vec<Case> {
        let cases = VERSIONS.map(|version| {
            let (from, form, places) = self.stored_form(version, random);
            let to = match random.once_in(8) {
                true => from,
                false => stored_cases::other(from),
            };
            let length = moves::length(&form, from, to).unwrap_or(form.len()) as u32;
            let output = match random.below(6) {
                0 | 1 => length - 1,
                2 => length + 1_000,
                3 => 0,
                _ => length,
            };
            move_places(from, to, form, places, output)
        });
        cases.into_iter().collect()
    }

    /// The form of a version, be it too large for that or not: unharmed in just enough rows or
    /// in too few at the far end, changed there, or asked of the other version's reader.
    fn stored_form(&self, version: Version, random: &mut Random) -> (Version, Vec<u8>, (u32, u32)) {
        let (nodes, numbers) = self.places();
        let form = stored_cases::fields(self.text.as_bytes(), &self.rows, version);
        let form = stored_cases::bytes_of(&form);
        let places = match random.below(6) {
            0 => (nodes - 1, numbers),
            1 => (nodes, numbers - 1),
            2 => (nodes + 2, numbers + 1),
            _ => (nodes, numbers),
        };
        match random.below(8) {
            0 => (stored_cases::other(version), form, places),
            1..4 => (version, changed_form(random, form), places),
            _ => (version, form, places),
        }
    }
}

fn read(text: Vec<u8>, places: (u32, u32)) -> Case {
    let (nodes, numbers) = places;
    let request = Request::Read { nodes, numbers };
    Case { request, text }
}

/// The store ill formed, for its last rows or for its first one.
fn spoilt(random: &mut Random, mut lent: Lent) -> Lent {
    let outside = lent.text.len() as u32;
    let Rows { nodes, numbers } = &mut lent.rows;
    let (last_node, last_number) = (nodes.len() - 3, numbers.len() - 2);
    match random.below(8) {
        0 => nodes[last_node] = *random.pick(&[0, 8]),
        1 => nodes[last_node + 1] = 4,
        2 => nodes[2] += 1,
        3 => nodes.truncate(nodes.len() - 1),
        4 => numbers[last_number] = outside,
        5 => numbers[last_number + 1] = 0,
        6 => numbers.truncate(last_number),
        _ => numbers.truncate(numbers.len() - 1),
    }
    lent
}

/// Stored bytes with a change near their end, or of a count.
fn changed_form(random: &mut Random, mut form: Vec<u8>) -> Vec<u8> {
    let place = form.len() - 1 - random.below(12);
    match random.below(6) {
        0 => form.truncate(form.len() - 1),
        1 => form.push(*random.pick(&[0, 3])),
        2 => form.extend(b"\x03\0\x015"),
        3 => form[place] ^= 1 << random.below(8),
        4 => form[place] = *random.pick(b"\0\x01\x02\x03 x"),
        _ => {
            let count = 4 + random.below(4);
            form[count] = form[count].wrapping_add(1);
        }
    }
    form
}
