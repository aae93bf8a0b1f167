//! The limits of moves that no record of a replay program can hold: counts and wholes that
//! version 1 has place for and that it just hasn't (27), in outputs that just fit, that lack a
//! byte and that have none; what the reading side refuses before that; and as many stored
//! bytes as are read, and one more. What fits is moved up from what moving back gives, and back
//! from what moving up gives.

use crate::cases::Case;
use crate::long_stored::{at_counts, line_of, TWO_BYTES};
use crate::move_lists::move_places;
use crate::moves;
use crate::store_lists::Lent;
use crate::stored::{Version, FRAME, VERSIONS};
use crate::stored_cases;
use crate::stored_lists::{form_of, points_and_line};

/// Each makes a few cases, so that not all are held at a time.
pub const LIMITS: [fn() -> Vec<Case>; 7] = [
    counts,
    numbers_and_wholes,
    fullest_and_more,
    before_27,
    whole_forms,
    whole_forms_within,
    too_long,
];

const ONE: Version = VERSIONS[0];
const TWO: Version = VERSIONS[1];

/// As many nodes, numbers and parts as version 1 can count, and one more of each. Parts are
/// never too many by themselves: there are as many rows.
fn counts() -> Vec<Case> {
    let more_parts = points_and_line(b"", TWO_BYTES + 2, &[]);
    let stores = at_counts().into_iter().chain([more_parts]);
    stores.flat_map(|lent| back_and_up(&lent)).collect()
}

/// Number texts as long as a field can have, and wholes that version 1 just has place for and
/// just hasn't.
fn numbers_and_wholes() -> Vec<Case> {
    let text = vec![b'7'; TWO_BYTES as usize];
    let long_numbers = Lent::of(&text, &[[1, 0, 1]], &[[0, TWO_BYTES]; 2]);
    let wholes = [0, 1].map(|more| line_of(ONE, ONE.longest + more));
    let stores = [long_numbers].into_iter().chain(wholes);
    stores.flat_map(|lent| back_and_up(&lent)).collect()
}

/// As much as version 1 can hold in every way at once, which is 1,179,650 bytes of version 2;
/// and that with a digit more.
fn fullest_and_more() -> Vec<Case> {
    let stores = [0, 1].map(fullest).into_iter();
    stores.flat_map(|lent| back_and_up(&lent)).collect()
}

/// 65,535 nodes and 65,535 numbers that have in version 1 as many bytes as it may have, and so
/// many more.
fn fullest(more: usize) -> Lent {
    let count = TWO_BYTES as usize;
    let digits = ONE.longest + more
        - (FRAME + ONE.header_length())
        - count * (FRAME + ONE.node_length())
        - count * FRAME;
    // Shares of the digits that differ by one at most.
    let shares = (0..count).map(|index| ((digits + index) / count) as u32);
    let spans: Vec<[u32; 2]> = shares.map(|share| [0, share]).collect();
    let mut lent = points_and_line(&vec![b'7'; digits.div_ceil(count)], TWO_BYTES, &spans);
    // The line string behind the collection has coordinates of three numbers.
    lent.rows.nodes[4] = 1;
    lent.rows.nodes[5] = TWO_BYTES / 3;
    lent
}

/// A store's form of version 2 moved back: into just enough output, into a byte less and into
/// none, and with a place of a row less. Where version 1 holds it, the same up; else the form
/// that lacks the high bytes of its counts, or that is too long. Last, version 2 to itself.
fn back_and_up(lent: &Lent) -> Vec<Case> {
    let [of_one, of_two] = VERSIONS.map(|version| {
        let fields = stored_cases::fields(&lent.text, &lent.rows, version);
        stored_cases::bytes_of(&fields)
    });
    let mut cases = moved(lent, TWO, ONE, &of_two);
    cases.extend(moved(lent, ONE, TWO, &of_one));
    let length = of_two.len() as u32;
    cases.push(move_places(TWO, TWO, of_two, lent.places(), length));
    cases
}

fn moved(lent: &Lent, from: Version, to: Version, form: &[u8]) -> Vec<Case> {
    let length = moves::length(form, from, to).unwrap_or(form.len()) as u32;
    let (nodes, numbers) = lent.places();
    let lent = [
        ((nodes, numbers), length),
        ((nodes, numbers), length - 1),
        ((nodes, numbers), 0),
        ((nodes - 1, numbers), 0),
        ((nodes, numbers.saturating_sub(1)), length),
    ];
    let case = |(places, output)| move_places(from, to, form.to_vec(), places, output);
    lent.map(case).into_iter().collect()
}

/// More numbers than version 1 can count: its header alone of another version (26), the last
/// number cut (25) and no number (22), with nothing lent and with enough.
fn before_27() -> Vec<Case> {
    let spans = vec![[0, 1]; TWO_BYTES as usize + 1];
    let lent = points_and_line(b"7", 2, &spans);
    let form = form_of(TWO, &lent);
    let (last, length) = (form.len() - 1, form.len() as u32);
    let mut of_one = form.clone();
    of_one[3] = ONE.number;
    let mut ill_formed = form.clone();
    ill_formed[last] = b'x';
    let cut = form[..last].to_vec();
    let forms = [of_one, cut, ill_formed, form].into_iter();
    let cases = forms.flat_map(|form| {
        let lent = [((0, 0), 0), (lent.places(), 0), (lent.places(), length)];
        lent.map(|(places, output)| move_places(TWO, ONE, form.clone(), places, output))
    });
    cases.collect()
}

/// As many stored bytes as version 2 reads: they don't fit version 1, whose reader doesn't read
/// so many.
fn whole_forms() -> Vec<Case> {
    let whole = line_of(TWO, TWO.longest);
    let form = form_of(TWO, &whole);
    let (nodes, numbers) = whole.places();
    let length = form.len() as u32;
    vec![
        move_places(TWO, ONE, form.clone(), (nodes, numbers), length),
        move_places(TWO, ONE, form.clone(), (nodes, numbers), 0),
        move_places(TWO, ONE, form.clone(), (nodes, numbers - 1), 0),
        move_places(ONE, TWO, form, (nodes, numbers), length),
    ]
}

/// They fit version 2 to the byte.
fn whole_forms_within() -> Vec<Case> {
    let whole = line_of(TWO, TWO.longest);
    let form = form_of(TWO, &whole);
    let length = form.len() as u32;
    vec![
        move_places(TWO, TWO, form.clone(), whole.places(), length),
        move_places(TWO, TWO, form, whole.places(), length - 1),
    ]
}

/// One byte more than a version reads: 1, whatever stands there and whatever is lent. Version 2
/// reads what is too long for version 1.
fn too_long() -> Vec<Case> {
    let mut form = form_of(ONE, &line_of(ONE, ONE.longest));
    form.push(3);
    let mut of_two = form.clone();
    of_two[3] = TWO.number;
    let mut longer = form.clone();
    longer.resize(TWO.longest + 1, 0);
    let places = (3, 2);
    vec![
        move_places(ONE, TWO, form.clone(), places, 0),
        move_places(ONE, TWO, of_two, places, 2 * ONE.longest as u32),
        move_places(TWO, ONE, form, places, 0),
        move_places(TWO, ONE, longer.clone(), places, 0),
        move_places(TWO, ONE, vec![0; TWO.longest + 1], places, 0),
        move_places(ONE, TWO, longer, places, 2 * ONE.longest as u32),
    ]
}

#[cfg(test)]
mod tests {
    use super::*;
    use crate::expected::expected;

    /// Number, place and length.
    fn answer(case: &Case) -> [u32; 3] {
        let line = expected(case).line;
        let fields = line.split(' ').filter_map(|field| field.parse().ok());
        let fields: Vec<u32> = fields.take(3).collect();
        fields.try_into().expect("a line begins with three numbers")
    }

    fn numbers(cases: &[Case]) -> Vec<u32> {
        cases.iter().map(|case| answer(case)[0]).collect()
    }

    /// Back, up and within version 2, of a store that version 1 holds.
    const FITS: [u32; 11] = [0, 23, 23, 3, 4, 0, 23, 23, 3, 4, 0];
    /// Of one that it doesn't hold the number for each way up is left open.
    const TOO_LARGE: [u32; 5] = [27, 27, 27, 3, 4];

    /// What a store without numbers is answered where it isn't lent enough number rows.
    fn without_numbers(answers: &[u32]) -> Vec<u32> {
        let mut answers = answers.to_vec();
        let way = TOO_LARGE.len();
        for last in (way - 1..answers.len()).step_by(way) {
            answers[last] = answers[last - way + 1];
        }
        answers
    }

    #[test]
    fn counts_that_version_1_has_and_one_more() {
        let cases = counts();
        let numbers = numbers(&cases);
        let stores: Vec<&[u32]> = numbers.chunks_exact(FITS.len()).collect();
        assert_eq!(stores.len(), 7);
        assert_eq!(stores[0], without_numbers(&FITS));
        assert_eq!(stores[2], FITS);
        for store in [1, 6] {
            assert_eq!(stores[store][..5], without_numbers(&TOO_LARGE));
        }
        for store in [3, 4, 5] {
            assert_eq!(stores[store][..5], TOO_LARGE);
        }
        for store in [1, 3, 4, 5, 6] {
            assert_eq!(stores[store][5..], [25, 25, 25, 25, 25, 0]);
        }
    }

    #[test]
    fn numbers_and_wholes_that_version_1_has_and_one_more() {
        let numbers = numbers(&numbers_and_wholes());
        let too_large = [&TOO_LARGE[..], &[1, 1, 1, 1, 1, 0]].concat();
        assert_eq!(numbers, [&FITS, &FITS, &too_large[..]].concat());
    }

    #[test]
    fn the_most_that_version_1_can_hold() {
        let cases = fullest_and_more();
        let too_large = [&TOO_LARGE[..], &[1, 1, 1, 1, 1, 0]].concat();
        assert_eq!(numbers(&cases), [&FITS, &too_large[..]].concat());
        assert_eq!(answer(&cases[0]), [0, 0, 1_048_576]);
        assert_eq!(answer(&cases[5]), [0, 0, 1_179_650]);
        assert_eq!(cases[11].text.len(), 1_179_651);
    }

    #[test]
    fn the_reading_side_comes_before_27() {
        let cases = before_27();
        let numbers = numbers(&cases);
        let expected = [26, 26, 26, 25, 25, 25, 22, 22, 22, 3, 27, 27];
        assert_eq!(numbers, expected);
    }

    #[test]
    fn more_bytes_than_are_read() {
        let answers: Vec<_> = too_long().iter().map(answer).collect();
        let (one, two) = ([1, 1_048_576, 0], [1, 67_108_864, 0]);
        assert_eq!(answers, [one, one, [26, 3, 0], two, two, one]);
    }
}
