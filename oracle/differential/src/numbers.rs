//! Number texts: spellings that `f64` reads, and strings that look alike.

use crate::random::Random;

/// The tokenizer drops one plus, so a second one is still a sign.
const SIGNS: [&str; 12] = ["", "", "", "", "-", "-", "+", "+", "++", "+-", "-+", "+++"];
const WORDS: [&str; 5] = ["inf", "infinity", "nan", "INF", "NaN"];
const EXPONENT_LETTERS: [&str; 2] = ["e", "E"];
const EXPONENT_SIGNS: [&str; 3] = ["", "+", "-"];

/// What a number-like string may start with: the bytes that make a token a number.
const NUMBER_STARTS: &[u8] = b"0123456789.-+";
/// What may follow: all that a lexeme has, and a little more.
const NUMBER_BYTES: &[u8] = b"0123456789.eE+-infatyINFATYx_";

/// Signs that nothing makes a lexeme of.
const WRONG_SIGNS: [&str; 6] = ["--", "-+", "+--", "+-+", "++-", "+++"];
/// Signs behind which a word may stand.
const WORD_SIGNS: [&str; 4] = ["+", "-", "+-", "++"];
/// Characters of two, three and four bytes.
const WIDE: [char; 3] = ['¾', '京', '🌍'];
const RUBBISH: [&str; 8] = ["q", "x1", "_", "e5", "E", "京", "/", "y"];

/// A spelling that is a lexeme in most cases; the signs can spoil it.
pub fn spelled(random: &mut Random) -> String {
    let mut text = random.pick(&SIGNS).to_string();
    // Bare, these are words to the tokenizer.
    if !text.is_empty() && random.once_in(5) {
        let word = *random.pick(&WORDS);
        text += &in_any_case(random, word);
        return text;
    }
    text += &decimal(random);
    if random.once_in(3) {
        text += &exponent(random);
    }
    text
}

fn decimal(random: &mut Random) -> String {
    match random.below(6) {
        0 => format!("{}.", digits(random)),
        1 => format!(".{}", digits(random)),
        2 | 3 => format!("{}.{}", digits(random), digits(random)),
        _ => digits(random),
    }
}

fn exponent(random: &mut Random) -> String {
    let letter = random.pick(&EXPONENT_LETTERS);
    let sign = random.pick(&EXPONENT_SIGNS);
    format!("{letter}{sign}{}", digits(random))
}

fn digits(random: &mut Random) -> String {
    let count = match random.below(200) {
        0 => 1 + random.below(400),
        1..=20 => 1 + random.below(20),
        _ => 1 + random.below(3),
    };
    (0..count)
        .map(|_| char::from(*random.pick(b"0123456789")))
        .collect()
}

/// A string that starts like a number and then is anything: drawn from the bytes
/// of numbers, a good number damaged, or a word like `infinity` cut and mixed.
pub fn number_like(random: &mut Random) -> String {
    match random.below(3) {
        0 => drawn(random),
        1 => {
            let good = spelled(random);
            damaged(random, &good)
        }
        _ => mixed_word(random),
    }
}

fn drawn(random: &mut Random) -> String {
    let mut bytes = vec![*random.pick(NUMBER_STARTS)];
    let more = random.below(9);
    bytes.extend((0..more).map(|_| *random.pick(NUMBER_BYTES)));
    ascii(bytes)
}

fn damaged(random: &mut Random, good: &str) -> String {
    let mut bytes = good.as_bytes().to_vec();
    let place = random.below(bytes.len());
    match random.below(4) {
        0 => bytes[place] = *random.pick(NUMBER_BYTES),
        1 => bytes.insert(place, *random.pick(NUMBER_BYTES)),
        2 => bytes.truncate(place),
        _ => {
            bytes.remove(place);
        }
    }
    ascii(bytes)
}

fn mixed_word(random: &mut Random) -> String {
    let word = *random.pick(&WORDS);
    let cut = &word[..1 + random.below(word.len())];
    let tail = match random.below(4) {
        0 => ascii(vec![*random.pick(NUMBER_BYTES)]),
        _ => String::new(),
    };
    let sign = random.pick(&WORD_SIGNS);
    format!("{sign}{}{tail}", in_any_case(random, cut))
}

/// A number token that is no lexeme, of every sort; often the plus with nothing behind it,
/// which alone has a refusal of its own.
pub fn bad(random: &mut Random) -> String {
    loop {
        let text = going_wrong(random);
        if is_bad(&text) {
            return text;
        }
    }
}

fn is_bad(text: &str) -> bool {
    let is_number = text
        .bytes()
        .next()
        .is_some_and(|byte| NUMBER_STARTS.contains(&byte));
    let rest = text.strip_prefix('+').unwrap_or(text);
    is_number && rest.parse::<f64>().is_err()
}

/// Most of these are bad numbers; the others are good ones, or words.
fn going_wrong(random: &mut Random) -> String {
    match random.below(10) {
        0..=2 => "+".to_string(),
        3 => format!("+{}", random.pick(&RUBBISH)),
        4 => signs_that_spoil(random),
        5 => without_exponent_digits(random),
        6 => misspelt_word(random),
        7 => format!("{}.{}", decimal(random), decimal(random)),
        8 => with_wide_character(random),
        _ => {
            let good = spelled(random);
            damaged(random, &good)
        }
    }
}

fn signs_that_spoil(random: &mut Random) -> String {
    match random.below(3) {
        // Nothing follows them.
        0 => random.pick(&["-", "++", "+-"]).to_string(),
        _ => format!("{}{}", random.pick(&WRONG_SIGNS), spelled(random)),
    }
}

fn without_exponent_digits(random: &mut Random) -> String {
    let sign = *random.pick(&SIGNS);
    let mantissa = match random.below(4) {
        0 => ".".to_string(),
        _ => decimal(random),
    };
    let letter = random.pick(&EXPONENT_LETTERS);
    let tail = random.pick(&["", "+", "-", "++5", "5.", "x"]);
    format!("{sign}{mantissa}{letter}{tail}")
}

/// A word cut, lengthened or with another letter, behind a sign.
fn misspelt_word(random: &mut Random) -> String {
    let sign = *random.pick(&WORD_SIGNS);
    // The longest has the most ways to go wrong.
    let word = *random.pick(&["inf", "infinity", "infinity", "nan"]);
    let word = match random.below(4) {
        0 => word[..1 + random.below(word.len())].to_string(),
        1 => format!("{word}{}", random.pick(&["x", "i", "0", ".", "e5", "n"])),
        _ => damaged(random, word),
    };
    format!("{sign}{}", in_any_case(random, &word))
}

/// Never in front, where it would make the token a word.
fn with_wide_character(random: &mut Random) -> String {
    let mut text = spelled(random);
    let place = 1 + random.below(text.len());
    text.insert(place, *random.pick(&WIDE));
    text
}

/// The word with the case of each letter drawn anew, or left alone.
pub fn in_any_case(random: &mut Random, word: &str) -> String {
    match random.below(4) {
        0 => word.to_ascii_lowercase(),
        1 => word
            .chars()
            .map(|letter| match random.below(2) {
                0 => letter.to_ascii_lowercase(),
                _ => letter.to_ascii_uppercase(),
            })
            .collect(),
        _ => word.to_string(),
    }
}

fn ascii(bytes: Vec<u8>) -> String {
    String::from_utf8(bytes).expect("all of it is ASCII")
}

#[cfg(test)]
mod tests {
    use super::*;
    use crate::bad_numbers;
    use std::collections::BTreeSet;

    #[test]
    fn bad_numbers_of_every_sort_are_drawn() {
        let mut random = Random::new(1);
        let drawn: Vec<String> = (0..4_000).map(|_| bad(&mut random)).collect();
        let share = |is_of_sort: &dyn Fn(&str) -> bool| {
            drawn.iter().filter(|text| is_of_sort(text)).count()
        };
        assert!(share(&|text| text == "+") > 400);
        assert!(share(&|text| text == "+q" || text == "+京") > 50);
        assert!(share(&|text| ["-", "++", "+-"].contains(&text)) > 100);
        assert!(share(&|text| text.starts_with("--")) > 20);
        assert!(share(&|text| text.ends_with(['e', 'E'])) > 50);
        assert!(share(&|text| text.ends_with("e+") || text.ends_with("E-")) > 50);
        assert!(share(&|text| text.contains(".e")) > 20);
        assert!(share(&|text| text.to_ascii_lowercase().ends_with("infi")) > 5);
        assert!(share(&|text| text.matches('.').count() > 1) > 200);
        assert!(share(&|text| !text.is_ascii()) > 400);
    }

    #[test]
    fn bad_numbers_go_wrong_in_many_places() {
        let mut random = Random::new(1);
        let drawn = (0..4_000).map(|_| bad_numbers::refusal(&bad(&mut random)));
        let drawn: BTreeSet<_> = drawn.collect();
        for place in 1..=9 {
            assert!(drawn.contains(&(bad_numbers::GOES_WRONG, place)), "{place}");
        }
    }
}
