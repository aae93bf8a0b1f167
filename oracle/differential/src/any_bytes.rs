//! The Rust's tokens of any bytes and from any place, as the token reader takes them.
//!
//! The Rust takes whole characters only. Where the bytes aren't UTF-8, or the place
//! lies inside a character, each byte is made a character of its own. That is the
//! same to a tokenizer: a byte beyond ASCII is neither blank nor marker nor part of a
//! number, and neither is the character made of it.

use driver::tokens::{self, Demand, Placed, Seen, Span};

/// Demands `count` tokens from `place` on.
pub fn take(text: &[u8], place: usize, count: usize, demand: Demand) -> Vec<Placed> {
    let as_text = std::str::from_utf8(text).ok();
    as_text
        .and_then(|text| tokens::take(text, place, count, demand))
        .unwrap_or_else(|| ByteCharacters::new(text).take(place, count, demand))
}

/// How many demands from `place` on it takes until the true end has answered twice.
pub fn demands_past_end(text: &[u8], place: usize) -> usize {
    let as_text = std::str::from_utf8(text).ok();
    as_text
        .and_then(|text| tokens::demands_past_end(text, place))
        .unwrap_or_else(|| ByteCharacters::new(text).demands_past_end(place))
}

/// A character for each byte, with the ways there and back.
struct ByteCharacters {
    characters: String,
    /// Where the character of a byte starts.
    starts: Vec<usize>,
    /// Which byte a character that starts here was made of.
    origins: Vec<usize>,
}

impl ByteCharacters {
    fn new(bytes: &[u8]) -> Self {
        let characters: String = bytes.iter().copied().map(char::from).collect();
        let first_bytes = characters.char_indices().map(|(start, _)| start);
        let starts: Vec<usize> = first_bytes.chain([characters.len()]).collect();
        let mut origins = vec![0; characters.len() + 1];
        for (origin, start) in starts.iter().enumerate() {
            origins[*start] = origin;
        }
        ByteCharacters {
            characters,
            starts,
            origins,
        }
    }

    fn start(&self, place: usize) -> usize {
        self.starts[place.min(self.starts.len() - 1)]
    }

    fn take(&self, place: usize, count: usize, demand: Demand) -> Vec<Placed> {
        let tokens = tokens::take(&self.characters, self.start(place), count, demand);
        let tokens = tokens.expect("a character starts there");
        tokens.into_iter().map(|token| self.moved(token)).collect()
    }

    fn demands_past_end(&self, place: usize) -> usize {
        let demands = tokens::demands_past_end(&self.characters, self.start(place));
        demands.expect("a character starts there")
    }

    fn moved(&self, token: Placed) -> Placed {
        Placed {
            place: self.origins[token.place],
            seen: match token.seen {
                Seen::Number(span) => Seen::Number(self.moved_span(span)),
                Seen::Word(span) => Seen::Word(self.moved_span(span)),
                other => other,
            },
        }
    }

    fn moved_span(&self, span: Span) -> Span {
        let start = self.origins[span.start];
        let end = self.origins[span.start + span.length];
        Span {
            start,
            length: end - start,
        }
    }
}
