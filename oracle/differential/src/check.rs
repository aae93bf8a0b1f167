//! Both sides on the same cases.

use crate::cases::{self, Case};
use crate::expected::{expected, Basis, Expected};
use crate::replay::{Replay, Replies};
use driver::answer::STACK_BYTES;
use std::collections::BTreeMap;
use std::io;
use std::thread;

/// How many records of a letter agreed, by what the answer rests on.
#[derive(Clone, Debug, Default, PartialEq, Eq)]
pub struct Count {
    pub by_rust: usize,
    pub at_model_place: usize,
    pub at_model_limit: usize,
    pub of_stores: usize,
    /// How many records had this number or, where there is one, this letter; of tokens, which
    /// have neither, nothing.
    pub outcomes: BTreeMap<String, usize>,
}

impl Count {
    pub fn agreed(&self) -> usize {
        self.by_rust + self.at_model_place + self.at_model_limit + self.of_stores
    }

    fn add(&mut self, expected: &Expected, letter: u8) {
        *match expected.basis {
            Basis::Rust => &mut self.by_rust,
            Basis::Place => &mut self.at_model_place,
            Basis::Limit => &mut self.at_model_limit,
            Basis::Stores => &mut self.of_stores,
        } += 1;
        if !is_of_tokens(letter) {
            let outcome = outcome(&expected.line, letter);
            *self.outcomes.entry(outcome).or_default() += 1;
        }
    }
}

fn is_of_tokens(letter: u8) -> bool {
    matches!(letter, b't' | b'p')
}

/// A refusal's number; else `accepted` or, of the strict check, the letter of a rule.
fn outcome(line: &str, letter: u8) -> String {
    let mut fields = line.split(' ');
    let number = fields.next().unwrap_or_default();
    let second = fields.next().and_then(|field| field.parse::<u8>().ok());
    match (number, second) {
        ("0", Some(rule)) if letter == b's' && rule > 0 => char::from(rule).to_string(),
        ("0", _) => "accepted".to_string(),
        _ => number.to_string(),
    }
}

pub type Tally = BTreeMap<u8, Count>;

/// Why a batch isn't in order.
pub enum Fault {
    /// The answer to the case of this index differs.
    Different(usize),
    /// The program ended badly, or printed too few or too many lines.
    Broken(String),
}

/// Runs both sides on the cases; counts those that agree into the tally.
pub fn check(replay: &Replay, cases: &[Case], tally: &mut Tally) -> io::Result<Option<Fault>> {
    let stream = cases::encode(cases);
    let (replies, expectations) = thread::scope(|scope| {
        let expecting = thread::Builder::new()
            .stack_size(STACK_BYTES)
            .spawn_scoped(scope, || cases.iter().map(expected).collect::<Vec<_>>())?;
        let replies = replay.answer(&stream);
        let expectations = expecting.join().expect("the Rust answers every record");
        Ok::<_, io::Error>((replies?, expectations))
    })?;
    Ok(compare(cases, &expectations, &replies, tally))
}

fn compare(
    cases: &[Case],
    expectations: &[Expected],
    replies: &Replies,
    tally: &mut Tally,
) -> Option<Fault> {
    let lines = replies.lines();
    for (index, (expected, line)) in expectations.iter().zip(&lines).enumerate() {
        if expected.line.as_bytes() != *line {
            return Some(Fault::Different(index));
        }
        let letter = cases[index].request.letter();
        let count = tally.entry(letter).or_default();
        count.add(expected, letter);
    }
    if !replies.status.success() || lines.len() != cases.len() {
        let message = format!(
            "the replay program ended with {} after {} lines for {} records",
            replies.status,
            lines.len(),
            cases.len()
        );
        return Some(Fault::Broken(message));
    }
    None
}

#[cfg(test)]
mod tests {
    use super::*;

    #[test]
    fn each_refusal_is_counted() {
        let mut count = Count::default();
        for (line, basis, letter) in [
            ("28 6 0 0 ;  ;  ; 0", Basis::Place, b'r'),
            ("29 7 0 0 ;  ;  ; 0", Basis::Place, b'r'),
            ("29 9 0 0 ;  ;  ; 0", Basis::Place, b'r'),
            ("0 0 1 0 ; 1 0 0 ;  ; 0", Basis::Rust, b'r'),
            ("bad@0", Basis::Rust, b't'),
            ("0 66 1", Basis::Stores, b's'),
        ] {
            let line = line.to_string();
            count.add(&Expected { line, basis }, letter);
        }
        let outcomes = [("28", 1), ("29", 2), ("B", 1), ("accepted", 1)];
        let outcomes = outcomes.map(|(outcome, records)| (outcome.to_string(), records));
        assert_eq!(count.outcomes, BTreeMap::from(outcomes));
        assert_eq!(count.agreed(), 6);
    }
}
