//! The long comparison: records too large for the replay programs, which only a native
//! program over the library answers. First texts of fixed lengths around every limit, of every
//! shape, single edges, and the limits of the stored form and of moves; then drawn ones. Cases are
//! made one after the other and answered in small batches, so that few of them are held at a time.

use crate::cases::{Case, Letter};
use crate::check::{check, Tally};
use crate::expected::MAX_READ_BYTES;
use crate::explain;
use crate::long_cases::Long;
use crate::long_edges;
use crate::long_moves;
use crate::long_stored;
use crate::long_texts::{self, SHAPES};
use crate::random::Random;
use crate::replay::Replay;
use crate::report;
use std::io;

/// The letters of a run that names none.
pub const LETTERS: &str = "tpriwsbSLm";

/// The cases of a batch have about so many bytes; one by itself may have more.
const BATCH_BYTES: usize = 1 << 25;

/// Around the largest number of two bytes, the longest text of a replay program, the longest
/// stored form of version 1, and the longest text that is read.
const LENGTHS: [usize; 10] = [
    65_535,
    65_536,
    65_537,
    131_072,
    131_073,
    1_048_576,
    1_048_577,
    MAX_READ_BYTES - 1,
    MAX_READ_BYTES,
    MAX_READ_BYTES + 1,
];

/// How many shapes there are of a fixed length: all of the short ones.
const SHAPES_OF_LENGTHS: [usize; 10] = [10, 10, 10, 10, 10, 4, 4, 3, 4, 3];

/// Drawn lengths have, in most cases, so many times the shortest one's bytes, or up to twice
/// as many.
const TIMES: [usize; 12] = [1, 1, 1, 2, 2, 2, 4, 4, 8, 8, 16, 32];
/// So many letters are asked of a drawn text.
const LETTERS_OF_DRAWN: usize = 4;

/// Compares; false after the first difference, which is printed.
pub fn compare(replay: &Replay, letters: &[Letter], seed: u64, count: usize) -> io::Result<bool> {
    replay.build()?;
    let mut run = Run {
        replay,
        letters,
        waiting: Vec::new(),
        bytes: 0,
        tally: Tally::new(),
    };
    match run.all(seed, count) {
        Ok(()) => {
            println!("seed {seed}, {count} long texts drawn, no difference");
            report::print_tally(&run.tally);
            Ok(true)
        }
        Err(Stop::Difference) => Ok(false),
        Err(Stop::Failed(error)) => Err(error),
    }
}

/// Why a comparison ends early.
enum Stop {
    /// It has been printed.
    Difference,
    Failed(io::Error),
}

impl From<io::Error> for Stop {
    fn from(error: io::Error) -> Self {
        Stop::Failed(error)
    }
}

struct Run<'run> {
    replay: &'run Replay,
    letters: &'run [Letter],
    /// Cases that are still to be answered, and about how many bytes they have.
    waiting: Vec<Case>,
    bytes: usize,
    tally: Tally,
}

impl Run<'_> {
    fn all(&mut self, seed: u64, count: usize) -> Result<(), Stop> {
        let mut random = Random::new(seed);
        for index in 0..LENGTHS.len() {
            self.of_length(index, &mut random)?;
        }
        let edges = long_edges::EDGES.iter();
        let limits = long_stored::LIMITS.iter().chain(&long_moves::LIMITS);
        for make in edges.chain(limits) {
            self.add(make())?;
        }
        for index in 0..count {
            self.drawn(index, &mut random)?;
        }
        self.answer()
    }

    /// Every letter, of texts of a fixed length.
    fn of_length(&mut self, index: usize, random: &mut Random) -> Result<(), Stop> {
        let first: usize = SHAPES_OF_LENGTHS[..index].iter().sum();
        for place in first..first + SHAPES_OF_LENGTHS[index] {
            let shape = SHAPES[place % SHAPES.len()];
            // All shapes have all dimensions.
            let dimension = (place + place / SHAPES.len()) % 4;
            let text = long_texts::text(random, shape, dimension, LENGTHS[index]);
            let long = Long::new(text);
            for letter in self.letters {
                self.add(long.cases(*letter, random))?;
            }
        }
        Ok(())
    }

    /// A text of any shape and length, under some of the letters in turn.
    fn drawn(&mut self, index: usize, random: &mut Random) -> Result<(), Stop> {
        let shape = *random.pick(&SHAPES);
        let dimension = random.below(4);
        let shortest = LENGTHS[0] * random.pick(&TIMES);
        let length = match random.once_in(6) {
            true => *random.pick(&LENGTHS),
            false => (shortest + random.below(shortest)).min(MAX_READ_BYTES + 1),
        };
        let long = Long::new(long_texts::text(random, shape, dimension, length));
        let letters = self.letters.iter().cycle().skip(index);
        let letters = letters.take(LETTERS_OF_DRAWN.min(self.letters.len()));
        for letter in letters {
            self.add(long.cases(*letter, random))?;
        }
        Ok(())
    }

    /// Takes those that are asked for, and answers what is there once it is much.
    fn add(&mut self, cases: Vec<Case>) -> Result<(), Stop> {
        for case in cases {
            let mut letters = self.letters.iter();
            if !letters.any(|letter| letter.asks(&case.request)) {
                continue;
            }
            self.bytes += case.size();
            self.waiting.push(case);
            if self.bytes >= BATCH_BYTES {
                self.answer()?;
            }
        }
        Ok(())
    }

    fn answer(&mut self) -> Result<(), Stop> {
        let fault = check(self.replay, &self.waiting, &mut self.tally)?;
        if let Some(fault) = fault {
            explain(self.replay, &self.waiting, fault)?;
            return Err(Stop::Difference);
        }
        self.waiting.clear();
        self.bytes = 0;
        Ok(())
    }
}

#[cfg(test)]
mod tests {
    use super::*;

    #[test]
    fn every_shape_has_every_dimension_among_the_fixed_texts() {
        let count: usize = SHAPES_OF_LENGTHS.iter().sum();
        for shape in 0..SHAPES.len() {
            let places = (0..count).filter(|place| place % SHAPES.len() == shape);
            let mut dimensions: Vec<usize> = places
                .map(|place| (place + place / SHAPES.len()) % 4)
                .collect();
            dimensions.sort_unstable();
            dimensions.dedup();
            assert_eq!(dimensions, [0, 1, 2, 3], "{:?}", SHAPES[shape]);
        }
    }
}
