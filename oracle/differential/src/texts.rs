//! The texts that both sides are run on, in an order that the seed alone decides.

use crate::damage;
use crate::grammar;
use crate::numbers;
use crate::random::Random;
use driver::record::MAX_TEXT;

/// What sequences are made of: blanks, what looks like one, markers, the parts of
/// numbers, words, characters of several bytes.
pub const FRAGMENTS: [&str; 36] = [
    " ", "\t", "\n", "\r", "\x0b", "\x0c", "\0", "(", ")", ",", "+", "-", ".", "0", "1", "9", "e",
    "E", "inf", "nan", "infinity", "INF", "i", "x", "_", "/", ":", "\u{7f}", "京", "\u{a0}", "¾",
    "POINT", "EMPTY", "Z", "M", "zm",
];

/// All sequences of up to so many fragments are tried, the shortest first.
const EXHAUSTED_LENGTH: u32 = 3;
/// After those, sequences of this length are met in an order of the seed's.
const SAMPLED_LENGTH: u32 = 4;
/// A prime that doesn't divide the count of fragments: steps of it meet every
/// sequence before one comes twice.
const SAMPLE_STEP: usize = 1_000_003;

/// One text in so many is long.
const LONG_TEXT_EVERY: usize = 50_000;

pub struct Texts {
    random: Random,
    made: usize,
    sequences: Sequences,
    with_nul: Vec<Vec<u8>>,
}

impl Texts {
    pub fn new(seed: u64) -> Self {
        let mut random = Random::new(seed);
        Texts {
            sequences: Sequences::new(&mut random),
            random,
            made: 0,
            with_nul: Vec::new(),
        }
    }

    /// The next text, of any sort but the long ones.
    pub fn next_short(&mut self) -> Vec<u8> {
        self.made += 1;
        // Until the short sequences are all done, every second text is one of them.
        if !self.sequences.is_exhausted() && self.made.is_multiple_of(2) {
            return self.sequences.next();
        }
        match self.random.below(20) {
            0..=2 => self.sequences.next(),
            3..=6 => self.well_formed(),
            7..=11 => self.damaged(),
            12 => self.next_with_nul(),
            _ => self.number_text(),
        }
    }

    /// The next text; now and then a long one.
    pub fn next(&mut self) -> Vec<u8> {
        if self.made % LONG_TEXT_EVERY == LONG_TEXT_EVERY / 2 {
            self.made += 1;
            return self.long_text();
        }
        self.next_short()
    }

    fn well_formed(&mut self) -> Vec<u8> {
        let text = match self.random.below(100) {
            0 => grammar::nested(&mut self.random),
            _ => grammar::geometry(&mut self.random),
        };
        text.into_bytes()
    }

    fn number_text(&mut self) -> Vec<u8> {
        let number = match self.random.below(4) {
            0 => numbers::spelled(&mut self.random),
            _ => numbers::number_like(&mut self.random),
        };
        // What ends the token is told apart from what is inside it.
        let end = self
            .random
            .pick(&["", "", "", " ", ")", ",", "(", "\0", "\n"]);
        (number + end).into_bytes()
    }

    fn damaged(&mut self) -> Vec<u8> {
        let mut text = grammar::geometry(&mut self.random);
        for _ in 0..*self.random.pick(&[1, 1, 1, 2, 3]) {
            text = match self.random.below(3) {
                0 => damage::characters(&mut self.random, &text),
                1 => damage::tokens(&mut self.random, &text),
                _ => damage::inside_parentheses(&mut self.random, &text),
            };
        }
        let mut bytes = text.into_bytes();
        if self.random.once_in(12) {
            damage::bytes(&mut self.random, &mut bytes);
        }
        bytes
    }

    /// NUL at every place of a text, before the text itself changes.
    fn next_with_nul(&mut self) -> Vec<u8> {
        if self.with_nul.is_empty() {
            let text = match self.random.below(3) {
                0 => numbers::spelled(&mut self.random),
                _ => grammar::geometry(&mut self.random),
            };
            self.with_nul = (0..=text.len())
                .map(|place| {
                    let mut bytes = text.clone().into_bytes();
                    bytes.insert(place, 0);
                    bytes
                })
                .collect();
        }
        self.with_nul.pop().expect("a text has a place at least")
    }

    fn long_text(&mut self) -> Vec<u8> {
        let length = 60_000 + self.random.below(MAX_TEXT - 60_000 + 1);
        let unit = match self.random.below(4) {
            0 => grammar::geometry(&mut self.random) + ",",
            1 => numbers::spelled(&mut self.random) + " ",
            _ => self.random.pick(&FRAGMENTS).to_string(),
        };
        unit.repeat(length / unit.len()).into_bytes()
    }
}

/// Sequences of fragments, by number: the shortest first, then a sample.
struct Sequences {
    length: u32,
    index: usize,
    sample: usize,
}

impl Sequences {
    fn new(random: &mut Random) -> Self {
        Sequences {
            length: 0,
            index: 0,
            sample: random.below(count_of_length(SAMPLED_LENGTH)),
        }
    }

    fn is_exhausted(&self) -> bool {
        self.length > EXHAUSTED_LENGTH
    }

    fn next(&mut self) -> Vec<u8> {
        if self.is_exhausted() {
            self.sample = (self.sample + SAMPLE_STEP) % count_of_length(SAMPLED_LENGTH);
            return sequence(SAMPLED_LENGTH, self.sample);
        }
        let made = sequence(self.length, self.index);
        self.index += 1;
        if self.index == count_of_length(self.length) {
            self.length += 1;
            self.index = 0;
        }
        made
    }
}

fn count_of_length(length: u32) -> usize {
    FRAGMENTS.len().pow(length)
}

/// The sequence whose fragments are the digits of `index`.
fn sequence(length: u32, mut index: usize) -> Vec<u8> {
    let mut text = Vec::new();
    for _ in 0..length {
        text.extend(FRAGMENTS[index % FRAGMENTS.len()].bytes());
        index /= FRAGMENTS.len();
    }
    text
}

#[cfg(test)]
mod tests {
    use super::*;
    use std::collections::HashSet;

    #[test]
    fn every_short_sequence_comes() {
        let mut sequences = Sequences::new(&mut Random::new(1));
        let mut seen = HashSet::new();
        while !sequences.is_exhausted() {
            seen.insert(sequences.next());
        }
        for first in FRAGMENTS {
            for second in FRAGMENTS {
                for third in FRAGMENTS {
                    assert!(seen.contains([first, second, third].concat().as_bytes()));
                }
            }
        }
    }

    #[test]
    fn the_seed_decides_the_texts() {
        let texts = |seed| {
            let mut texts = Texts::new(seed);
            (0..500).map(|_| texts.next()).collect::<Vec<_>>()
        };
        assert_eq!(texts(7), texts(7));
        assert_ne!(texts(7), texts(8));
    }
}
