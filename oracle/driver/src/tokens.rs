//! The Rust's tokens with their places. The Rust's own tokens have none: a place
//! is found from how many bytes the tokenizer has left before a token is demanded.

use crate::kept::{self, KeptNumber};
use std::cell::Cell;
use std::fmt::Write;

/// The supplied tokenizer.rs, unchanged, with one function more, which must be in
/// its module to see how far it has read.
#[allow(dead_code)]
mod tokenizer {
    include!("../../wkt/src/tokenizer.rs");

    impl<T> Tokens<'_, T> {
        /// The count of bytes not yet taken. Looking at the next character takes
        /// nothing, and the upper bound of `Chars` is its count of bytes.
        pub fn bytes_left(&mut self) -> usize {
            let Some(&next_char) = self.chars.peek() else {
                return 0;
            };
            let upper_bound = self.chars.size_hint().1.expect("a text has an end");
            upper_bound - 1 + next_char.len_utf8()
        }
    }
}

use tokenizer::{Token, Tokens};

#[derive(Clone, Copy, Debug, PartialEq, Eq)]
pub struct Span {
    pub start: usize,
    pub length: usize,
}

#[derive(Clone, Copy, Debug, PartialEq, Eq)]
pub enum Seen {
    NoToken,
    BadNumber,
    ParenOpen,
    ParenClose,
    Comma,
    Number(Span),
    Word(Span),
}

/// What a demand for a token answered, and where that lies in the text.
#[derive(Clone, Copy, Debug, PartialEq, Eq)]
pub struct Placed {
    pub place: usize,
    pub seen: Seen,
}

/// The Rust's tokens, each with its place. As the Rust's, it answers `None` where
/// there is no token; the place of that is left in `latest_place`.
struct PlacedTokens<'text> {
    text: &'text str,
    tokens: Tokens<'text, KeptNumber>,
    latest_place: &'text Cell<usize>,
}

impl Iterator for PlacedTokens<'_> {
    type Item = Placed;

    fn next(&mut self) -> Option<Placed> {
        let position = self.text.len() - self.tokens.bytes_left();
        let place = first_non_blank(self.text, position);
        self.latest_place.set(place);
        let seen = match self.tokens.next()? {
            Err(_) => Seen::BadNumber,
            Ok(Token::ParenOpen) => Seen::ParenOpen,
            Ok(Token::ParenClose) => Seen::ParenClose,
            Ok(Token::Comma) => Seen::Comma,
            Ok(Token::Number(number)) => Seen::Number(number_span(self.text, place, &number)),
            Ok(Token::Word(word)) => Seen::Word(word_span(self.text, place, &word)),
        };
        Some(Placed { place, seen })
    }
}

fn first_non_blank(text: &str, position: usize) -> usize {
    let is_blank = |byte: &u8| matches!(byte, b' ' | b'\t' | b'\n' | b'\r');
    let rest = &text.as_bytes()[position..];
    position + rest.iter().take_while(|byte| is_blank(byte)).count()
}

/// The place of the text that the Rust handed to `f64`; it has to stand there.
fn number_span(text: &str, place: usize, number: &KeptNumber) -> Span {
    let has_plus = text.as_bytes()[place] == b'+';
    let start = place + usize::from(has_plus);
    let length = number.text_length();
    assert!(
        number.was_read_from(&text[start..start + length]),
        "the Rust read another number than the one at byte {start} of {text:?}"
    );
    Span { start, length }
}

/// The place of a word of the Rust; it has to stand there.
fn word_span(text: &str, place: usize, word: &str) -> Span {
    assert!(
        text[place..].starts_with(word),
        "the Rust took another word than the one at byte {place} of {text:?}"
    );
    Span {
        start: place,
        length: word.len(),
    }
}

/// Whether a token is only taken, or looked at twice before.
#[derive(Clone, Copy, Debug, PartialEq, Eq)]
pub enum Demand {
    Take,
    LookAndTake,
}

/// Demands `count` tokens from `place` on, which past the end is the end.
/// `None` if a character of the text lies across the place: the Rust can't start there.
pub fn take(text: &str, place: usize, count: usize, demand: Demand) -> Option<Vec<Placed>> {
    take_until(text, place, demand, |taken| taken.len() == count)
}

/// Demands tokens from `place` on until the true end answers, which is the last one.
pub fn take_all(text: &str, place: usize) -> Option<Vec<Placed>> {
    let at_end = Placed {
        place: text.len(),
        seen: Seen::NoToken,
    };
    take_until(text, place, Demand::Take, |taken| {
        taken.last() == Some(&at_end)
    })
}

/// How many demands from `place` on it takes until the true end has answered twice.
pub fn demands_past_end(text: &str, place: usize) -> Option<usize> {
    take_all(text, place).map(|taken| taken.len() + 1)
}

/// Demands tokens from `place` on until what was taken is enough.
fn take_until(
    text: &str,
    place: usize,
    demand: Demand,
    is_enough: impl Fn(&[Placed]) -> bool,
) -> Option<Vec<Placed>> {
    kept::forget_texts();
    let start = place.min(text.len());
    let latest_place = Cell::new(start);
    let placed_tokens = PlacedTokens {
        text,
        tokens: Tokens::from_str(text.get(start..)?),
        latest_place: &latest_place,
    };
    let mut tokens = placed_tokens.peekable();
    let mut taken = Vec::new();
    while !is_enough(&taken) {
        if demand == Demand::LookAndTake {
            let first_look = tokens.peek().copied();
            assert_eq!(first_look, tokens.peek().copied());
        }
        let token = tokens.next();
        taken.push(token.unwrap_or(Placed {
            place: latest_place.get(),
            seen: Seen::NoToken,
        }));
    }
    Some(taken)
}

/// The line that answers a record of letter `t` or `p`.
pub fn line(tokens: &[Placed]) -> String {
    let mut line = String::with_capacity(12 * tokens.len());
    for token in tokens {
        if !line.is_empty() {
            line.push(' ');
        }
        token.write(&mut line);
    }
    line
}

impl Placed {
    fn write(&self, line: &mut String) {
        let (name, span) = match self.seen {
            Seen::NoToken => ("none", None),
            Seen::BadNumber => ("bad", None),
            Seen::ParenOpen => ("(", None),
            Seen::ParenClose => (")", None),
            Seen::Comma => (",", None),
            Seen::Number(span) => ("number", Some(span)),
            Seen::Word(span) => ("word", Some(span)),
        };
        let place = self.place;
        let written = match span {
            None => write!(line, "{name}@{place}"),
            Some(Span { start, length }) => write!(line, "{name}@{place}:{start}+{length}"),
        };
        written.expect("a string takes everything");
    }
}

#[cfg(test)]
mod tests {
    use super::*;

    fn taken(text: &str, place: usize, count: usize) -> String {
        let plain = take(text, place, count, Demand::Take).unwrap();
        let looked = take(text, place, count, Demand::LookAndTake).unwrap();
        assert_eq!(plain, looked);
        line(&plain)
    }

    #[test]
    fn bytes_left_is_the_length_of_what_is_left() {
        let text = "¾ (京\u{10348}\0,1e5)x";
        let mut tokens = Tokens::<KeptNumber>::from_str(text);
        for expected in [18, 15, 14, 7, 6, 5, 2, 1, 0, 0] {
            assert_eq!(tokens.bytes_left(), expected);
            tokens.next();
        }
    }

    #[test]
    fn places_and_spans() {
        assert_eq!(
            taken("POINT(++4 +-4)", 0, 7),
            "word@0:0+5 (@5 number@6:7+2 number@10:11+2 )@13 none@14 none@14"
        );
        assert_eq!(taken("GEOMETRYCOLLECTION(京)", 19, 2), "word@19:19+3 )@22");
        assert_eq!(taken(" \t+x 4x\r\n", 0, 3), "bad@2 bad@5 none@9");
        assert_eq!(taken("", 5, 2), "none@0 none@0");
    }

    #[test]
    fn nul_is_no_token_but_not_the_end() {
        assert_eq!(taken("1 \0)", 0, 4), "number@0:0+1 none@2 )@3 none@4");
        assert_eq!(demands_past_end("1 \0)", 0), Some(5));
        assert_eq!(demands_past_end("", 0), Some(2));
    }

    #[test]
    fn a_place_inside_a_character_is_refused() {
        assert_eq!(take("京", 1, 1, Demand::Take), None);
    }
}
