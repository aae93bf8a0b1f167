//! Cases: a text with what is asked of it.

use crate::any_bytes;
use crate::box_cases;
use crate::damage;
use crate::grammar;
use crate::model::{self, Limits};
use crate::move_cases;
use crate::random::Random;
use crate::store_cases;
use crate::stored_cases;
use driver::record::{Record, Request, MAX_SLICE};

/// The programs that answer records, and the letters that each of them knows so far.
pub const PROGRAMS: [(&str, &str); 3] = [
    ("replay", "tpriws"),
    ("replay_stored", "SLm"),
    (BOXES_PROGRAM, "b"),
];
pub const BOXES_PROGRAM: &str = "replay_store";

/// The letters of a run that names none.
pub const USUAL_LETTERS: &str = "tpriwsSLm";

/// The letters of those programs.
#[derive(Clone, Copy, Debug, PartialEq, Eq)]
pub enum Letter {
    Take,
    LookAndTake,
    Read,
    Infer,
    Write,
    Check,
    WriteStored,
    ReadStored,
    Move,
    Boxes,
}

impl Letter {
    pub fn from_char(letter: char) -> Option<Self> {
        match letter {
            't' => Some(Letter::Take),
            'p' => Some(Letter::LookAndTake),
            'r' => Some(Letter::Read),
            'i' => Some(Letter::Infer),
            'w' => Some(Letter::Write),
            's' => Some(Letter::Check),
            'S' => Some(Letter::WriteStored),
            'L' => Some(Letter::ReadStored),
            'm' => Some(Letter::Move),
            'b' => Some(Letter::Boxes),
            _ => None,
        }
    }

    /// Whether the request is one of this letter.
    pub fn asks(self, request: &Request) -> bool {
        Letter::from_char(char::from(request.letter())) == Some(self)
    }

    /// What is asked of the text under this letter, its fields and rows drawn. Of a stored
    /// form the text is what it is made of; some readings and most boxes are of another text.
    pub fn case(self, random: &mut Random, text: Vec<u8>) -> Case {
        let request = match self {
            Letter::Take => {
                let (place, count) = place_and_count(random, &text);
                Request::Take { place, count }
            }
            Letter::LookAndTake => {
                let (place, count) = place_and_count(random, &text);
                Request::LookAndTake { place, count }
            }
            Letter::Read => return reading(random, text),
            Letter::Infer => Request::Infer,
            Letter::Write => {
                let rows = store_cases::rows(random, &text);
                let output = store_cases::room(random, &text, &rows);
                Request::Write { output, rows }
            }
            Letter::Check => {
                let rows = store_cases::rows(random, &text);
                Request::Check { rows }
            }
            Letter::WriteStored => return stored_cases::writing(random, text),
            Letter::ReadStored => return stored_cases::reading(random, &text),
            Letter::Move => return move_cases::case(random, &text),
            Letter::Boxes => return box_cases::case(random, text),
        };
        Case { request, text }
    }
}

#[derive(Clone, Debug)]
pub struct Case {
    pub request: Request,
    pub text: Vec<u8>,
}

impl Case {
    pub fn record(&self) -> Record<'_> {
        Record {
            request: self.request.clone(),
            text: &self.text,
        }
    }

    /// About how many bytes the record and its line have.
    pub fn size(&self) -> usize {
        let rows = 4 * places(&self.request);
        // How many values are printed at most, and about how long they are.
        let (values, bytes) = match &self.request {
            Request::Take { count, .. } | Request::LookAndTake { count, .. } => (*count, 20),
            Request::Read { nodes, numbers } => (nodes + numbers, 2),
            Request::ReadStored { nodes, numbers, .. } => (nodes + numbers, 2),
            Request::Write { output, .. } | Request::WriteStored { output, .. } => (*output, 2),
            Request::Move(asked) => (asked.nodes + asked.numbers + asked.output, 2),
            Request::Boxes { table, .. } => (*table, 8),
            Request::Check { .. } | Request::Infer => (0, 0),
        };
        self.text.len() + rows + values as usize * bytes
    }
}

/// How many places the rows of a request have.
pub fn places(request: &Request) -> usize {
    let rows = request.rows();
    rows.map_or(0, |rows| rows.nodes.len() + rows.numbers.len())
}

pub fn encode(cases: &[Case]) -> Vec<u8> {
    let mut stream = Vec::new();
    for case in cases {
        case.record().encode(&mut stream);
    }
    stream
}

/// One reading in so many is that of a geometry with a bad number put in.
const BAD_NUMBER_EVERY: usize = 6;

fn reading(random: &mut Random, text: Vec<u8>) -> Case {
    let text = match random.once_in(BAD_NUMBER_EVERY) {
        true => with_bad_number(random).into_bytes(),
        false => text,
    };
    let (nodes, numbers) = rooms(random, text.len());
    let request = Request::Read { nodes, numbers };
    Case { request, text }
}

fn with_bad_number(random: &mut Random) -> String {
    let geometry = accepted_geometry(random);
    let text = match random.once_in(3) {
        true => grammar::in_collection(&geometry),
        false => geometry,
    };
    damage::bad_number(random, &text)
}

/// One in which no number is spoilt: its refusal would come first.
fn accepted_geometry(random: &mut Random) -> String {
    loop {
        let geometry = grammar::geometry(random);
        if model::read(&geometry, Limits::NONE).is_ok() {
            return geometry;
        }
    }
}

/// A place (the start, inside, the end, past it) and, in most cases, so many demands
/// that the true end answers twice.
fn place_and_count(random: &mut Random, text: &[u8]) -> (u32, u32) {
    let place = match random.below(16) {
        0..=8 => 0,
        9..=13 => random.below(text.len() + 1),
        14 => text.len(),
        _ => text.len() + 1 + random.below(3),
    };
    let enough = any_bytes::demands_past_end(text, place);
    let count = match random.below(16) {
        0 => random.below(enough + 1),
        _ => enough,
    };
    // The largest place there is, too.
    let place = match place > text.len() && random.once_in(4) {
        true => u32::MAX,
        false => place as u32,
    };
    (place, count as u32)
}

/// Slice lengths, with room for whatever the text may hold or, at times, too small.
fn rooms(random: &mut Random, text_length: usize) -> (u32, u32) {
    // A node takes two bytes at least (`1 ` of a bare point), and so does a number.
    let rows = text_length / 2 + 2;
    let (node_rows, number_rows) = match random.below(8) {
        0 => (random.below(8), random.below(16)),
        _ => (rows, rows),
    };
    let slice = |places: usize| (places as u32).min(MAX_SLICE);
    let beyond_a_row = random.below(2);
    (
        slice(3 * node_rows + beyond_a_row),
        slice(2 * number_rows + beyond_a_row),
    )
}

#[cfg(test)]
mod tests {
    use super::*;
    use crate::bad_numbers::{GOES_WRONG, NOTHING_AFTER_PLUS};
    use crate::model::Refusal;
    use crate::texts::Texts;
    use driver::tokens::{self, Demand, Seen};
    use std::collections::BTreeMap;

    /// Where a bad number was taken: the refusal that "no token" gets there, whether the body
    /// was refused before, and whether that is in a collection.
    type Step = (u32, bool, bool);

    /// Root; parenthesis; the closing one, of a good body and of a refused one; X, Y, Z and M;
    /// a collection's child. Each is met in a collection too, but for the root.
    const STEPS: [Step; 16] = [
        (8, false, false),
        (12, false, false),
        (12, false, true),
        (13, false, false),
        (13, false, true),
        (13, true, false),
        (13, true, true),
        (14, false, false),
        (14, false, true),
        (15, false, false),
        (15, false, true),
        (16, false, false),
        (16, false, true),
        (17, false, false),
        (17, false, true),
        (18, false, true),
    ];

    fn step(text: &str, refusal: Refusal) -> Step {
        let tokens = tokens::take(text, 0, text.len() + 1, Demand::Take);
        let tokens = tokens.expect("0 is a character's place").into_iter();
        let bad = tokens.filter(|token| token.seen == Seen::BadNumber);
        let bad = bad.filter(|token| token.place <= refusal.place).last();
        let start = bad.expect("it was taken").place;
        let end = text[start..].find(|character| " \t\n\r\0(),".contains(character));
        let end = end.map_or(text.len(), |length| start + length);
        let with_token = |token: &str| {
            let text = [&text[..start], token, &text[end..]].concat();
            model::read(&text, Limits::NONE).err()
        };
        let number = with_token("\0").map_or(0, |refusal| refusal.number);
        let is_behind_refused = with_token(")").is_some_and(|refusal| refusal.place < start);
        let is_in_collection = text[..start].to_ascii_uppercase().contains("COLLECTION");
        (number, number == 13 && is_behind_refused, is_in_collection)
    }

    /// The number and the step of a reading that ends at a bad number.
    fn bad_number(case: &Case) -> Option<(u32, Step)> {
        let text = std::str::from_utf8(&case.text).ok()?;
        let refusal = model::read(text, Limits::NONE).err()?;
        let is_bad_number = [NOTHING_AFTER_PLUS, GOES_WRONG].contains(&refusal.number);
        is_bad_number.then(|| (refusal.number, step(text, refusal)))
    }

    #[test]
    fn bad_numbers_are_read_at_each_step() {
        let mut texts = Texts::new(1);
        let mut random = Random::new(!1);
        let mut counts: BTreeMap<(u32, Step), usize> = BTreeMap::new();
        for _ in 0..200_000 {
            let case = Letter::Read.case(&mut random, texts.next_short());
            if let Some(met) = bad_number(&case) {
                *counts.entry(met).or_default() += 1;
            }
        }
        assert_eq!(counts.len(), 2 * STEPS.len());
        for step in STEPS {
            for number in [NOTHING_AFTER_PLUS, GOES_WRONG] {
                let count = counts[&(number, step)];
                assert!(count >= 15, "{number} at {step:?}: {count}");
            }
        }
    }
}
