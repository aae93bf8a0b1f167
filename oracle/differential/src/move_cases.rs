//! Cases for the letter `m`: the stored bytes of `stored_cases`, unharmed or not, with the slices
//! that are drawn for their reader, moved into outputs near the length that is written. Half of
//! them are read by each version, and most are moved to the other one.
//!
//! 27 isn't among them, and is in no record of the replay program: its 131,072 bytes of
//! version 2 have fewer than 65,536 nodes, numbers and parts, and fewer bytes in version 1. That
//! refusal is for the long comparison (`long_moves`).

use crate::cases::Case;
use crate::moves;
use crate::random::Random;
use crate::store_cases;
use crate::stored::Version;
use crate::stored_cases;
use driver::record::{Move, Request};

/// One move in so many is to the version that is read.
const SAME_VERSION_EVERY: usize = 16;

/// Stored bytes made of the text, in most cases, to be moved into an output of nearly the
/// length that they get.
pub fn case(random: &mut Random, text: &[u8]) -> Case {
    let Case { request, text } = stored_cases::reading(random, text);
    let Request::ReadStored {
        version,
        nodes,
        numbers,
    } = request
    else {
        unreachable!("a stored reading")
    };
    let from = Version::of(version);
    let to = match random.once_in(SAME_VERSION_EVERY) {
        true => from,
        false => stored_cases::other(from),
    };
    let length = moves::length(&text, from, to);
    let length = length.unwrap_or_else(|| random.below(64));
    let request = Request::Move(Move {
        from: from.number,
        to: to.number,
        nodes,
        numbers,
        output: store_cases::room_near(random, length),
    });
    Case { request, text }
}

#[cfg(test)]
mod tests {
    use super::*;
    use std::collections::BTreeMap;

    const DRAWN: usize = 20_000;

    fn asked(case: &Case) -> Move {
        match case.request {
            Request::Move(asked) => asked,
            _ => panic!("the letter of moves"),
        }
    }

    fn drawn() -> Vec<Case> {
        let mut random = Random::new(5);
        let text = b"MULTIPOINT((1 2),3 4)";
        (0..DRAWN).map(|_| case(&mut random, text)).collect()
    }

    #[test]
    fn every_outcome_is_frequent_in_every_direction() {
        let mut counts: BTreeMap<(u8, u8, u32), usize> = BTreeMap::new();
        for case in drawn() {
            let asked = asked(&case);
            let refusal = moves::moved(&case.text, &asked).err();
            let number = refusal.map_or(0, |refusal| refusal.number());
            *counts.entry((asked.from, asked.to, number)).or_default() += 1;
        }
        let numbers = [0, 3, 4, 22, 23, 25, 26];
        for (from, to, fewest) in [(1, 2, 150), (2, 1, 150), (1, 1, 8), (2, 2, 8)] {
            for number in numbers {
                let count = counts.remove(&(from, to, number)).unwrap_or_default();
                assert!(count > fewest, "{number} from {from} to {to}: {count}");
            }
        }
        assert!(counts.is_empty(), "{counts:?}");
    }

    /// By how much the output is longer than what is written in it.
    fn beyond(case: &Case) -> Option<i64> {
        let asked = asked(case);
        let (from, to) = (Version::of(asked.from), Version::of(asked.to));
        let length = moves::length(&case.text, from, to)?;
        Some(i64::from(asked.output) - length as i64)
    }

    #[test]
    fn outputs_lie_on_both_sides_of_what_is_needed() {
        let cases = drawn();
        let beyond: Vec<i64> = cases.iter().filter_map(beyond).collect();
        let count = |is_counted: fn(i64) -> bool| {
            let counted = beyond.iter().filter(|beyond| is_counted(**beyond));
            counted.count()
        };
        let fewest = beyond.len() / 12;
        assert!(count(|beyond| beyond == 0) > fewest);
        assert!(count(|beyond| beyond == 1) > fewest);
        assert!(count(|beyond| beyond > 1) > fewest);
        assert!(count(|beyond| beyond == -1) > fewest);
        assert!(count(|beyond| beyond < -1) > fewest);
        let without_output = cases.iter().filter(|case| asked(case).output == 0);
        assert!(without_output.count() > DRAWN / 12);
    }

    #[test]
    fn one_move_in_sixteen_stays_in_its_version() {
        let cases = drawn();
        let moves = cases.iter().map(asked);
        let staying = moves.filter(|asked| asked.from == asked.to).count();
        let expected = DRAWN / SAME_VERSION_EVERY;
        assert!((expected * 3 / 4..expected * 5 / 4).contains(&staying));
        let from_one = cases.iter().filter(|case| asked(case).from == 1).count();
        assert!((DRAWN * 9 / 20..DRAWN * 11 / 20).contains(&from_one));
    }
}
