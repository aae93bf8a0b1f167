//! Changes that make a well-formed text a damaged one.

use crate::numbers;
use crate::random::Random;
use crate::texts::FRAGMENTS;
use std::ops::Range;

/// What may stand where another token stood.
const TOKENS: [&str; 14] = [
    "", "(", ")", ",", "1", "-2.5", "+inf", "4x", "x", "EMPTY", "Z", "POINT", "京", "\0",
];

/// One change that keeps whole characters: out, in, another, twice, or the text cut.
pub fn characters(random: &mut Random, text: &str) -> String {
    let (start, end) = random_range(random, text);
    let (before, from_start) = text.split_at(start);
    let (within, after) = (&text[start..end], &text[end..]);
    let fragment = random.pick(&FRAGMENTS);
    match random.below(6) {
        0 => [before, after].concat(),
        1 => [before, fragment, from_start].concat(),
        2 => [before, fragment, after].concat(),
        3 => [before, within, within, after].concat(),
        4 => [before, &numbers::number_like(random), after].concat(),
        _ => before.to_string(),
    }
}

/// A range of whole characters, short in most cases.
fn random_range(random: &mut Random, text: &str) -> (usize, usize) {
    let mut start = random.below(text.len() + 1);
    let length = *random.pick(&[1, 1, 1, 1, 2, 3, 5, 8]);
    let mut end = (start + length).min(text.len());
    while !text.is_char_boundary(start) {
        start -= 1;
    }
    while !text.is_char_boundary(end) {
        end += 1;
    }
    (start, end)
}

/// One change that heeds no characters, so that the text may be UTF-8 no longer.
pub fn bytes(random: &mut Random, bytes: &mut Vec<u8>) {
    let place = random.below(bytes.len() + 1);
    match random.below(3) {
        0 => bytes.insert(place, random.below(256) as u8),
        1 => bytes.truncate(place),
        _ => {
            let cut = "京".as_bytes()[random.below(3)];
            bytes.insert(place, cut);
        }
    }
}

/// Up to three tokens in a row become another token.
pub fn tokens(random: &mut Random, text: &str) -> String {
    let ranges = token_ranges(text);
    if ranges.is_empty() {
        return text.to_string();
    }
    let first = random.below(ranges.len());
    let last = (first + random.below(3)).min(ranges.len() - 1);
    let token = random.pick(&TOKENS);
    [
        &text[..ranges[first].start],
        token,
        &text[ranges[last].end..],
    ]
    .concat()
}

/// A bad number is put where a token stands, or behind them all. At times it comes behind a
/// token that its body may be refused for, and is then the closing one that is taken.
pub fn bad_number(random: &mut Random, text: &str) -> String {
    let mut ranges = token_ranges(text);
    ranges.push(text.len()..text.len());
    let token = random.pick(&ranges).clone();
    let before = &text[..token.start];
    let ends_apart = before.is_empty() || before.ends_with(is_stop);
    let blank = if ends_apart { "" } else { " " };
    let wrong = random.pick(&["", "", "", "", "x ", "1x ", ","]);
    let bad = numbers::bad(random);
    let stop = random.pick(&["", "", " ", "\t", "\n", "\r", "\0", "(", ")", ","]);
    // Only if all that is open is closed, no later refusal takes its place.
    let closing = ")".repeat(open_parentheses(before));
    let after = match random.below(6) {
        0 => "",
        1 => &text[token.start..],
        2 => &text[token.end..],
        _ => &closing,
    };
    [before, blank, wrong, &bad, stop, after].concat()
}

fn open_parentheses(text: &str) -> usize {
    let opened = text.matches('(').count();
    opened.saturating_sub(text.matches(')').count())
}

/// All that lies between two parentheses becomes a token or two.
pub fn inside_parentheses(random: &mut Random, text: &str) -> String {
    let opened: Vec<usize> = text.match_indices('(').map(|(place, _)| place).collect();
    if opened.is_empty() {
        return text.to_string();
    }
    let start = *random.pick(&opened) + 1;
    let end = start + closing_parenthesis(&text[start..]);
    let separator = random.pick(&["", " ", ","]);
    let inside = [*random.pick(&TOKENS), *separator, *random.pick(&TOKENS)].concat();
    [&text[..start], &inside, &text[end..]].concat()
}

/// The place of the `)` that closes what was opened just before, or the end.
fn closing_parenthesis(text: &str) -> usize {
    let mut open = 1;
    for (place, byte) in text.bytes().enumerate() {
        match byte {
            b'(' => open += 1,
            b')' => open -= 1,
            _ => {}
        }
        if open == 0 {
            return place;
        }
    }
    text.len()
}

/// Where the tokens of a text lie: markers, and runs of what is neither one nor blank.
fn token_ranges(text: &str) -> Vec<Range<usize>> {
    let mut ranges: Vec<Range<usize>> = Vec::new();
    let mut is_in_run = false;
    for (start, character) in text.char_indices() {
        let end = start + character.len_utf8();
        let is_marker = is_marker(character);
        let is_blank = is_stop(character) && !is_marker;
        match ranges.last_mut() {
            _ if is_blank => {}
            Some(run) if is_in_run && !is_marker => run.end = end,
            _ => ranges.push(start..end),
        }
        is_in_run = !is_marker && !is_blank;
    }
    ranges
}

fn is_marker(character: char) -> bool {
    matches!(character, '(' | ')' | ',' | '\0')
}

/// A marker or a blank: no number and no word goes on here.
fn is_stop(character: char) -> bool {
    is_marker(character) || matches!(character, ' ' | '\t' | '\n' | '\r')
}

#[cfg(test)]
mod tests {
    use super::*;

    #[test]
    fn tokens_lie_where_they_are() {
        let text = " POINT(1 京,\r)";
        let tokens: Vec<&str> = token_ranges(text)
            .into_iter()
            .map(|range| &text[range])
            .collect();
        assert_eq!(tokens, ["POINT", "(", "1", "京", ",", ")"]);
        assert_eq!(closing_parenthesis("1 (2),)3"), 6);
        assert_eq!(closing_parenthesis("(1"), 2);
    }
}
