//! The tokens of a text, as the reader sees them.
use crate::calls;
use std::iter::FusedIterator;

// What the library answers for each sort; 0, where there is no token.
const BAD_NUMBER: u64 = 1;
const COMMA: u64 = 2;
const PAREN_CLOSE: u64 = 3;
const PAREN_OPEN: u64 = 4;
const NUMBER: u64 = 5;
const WORD: u64 = 6;

/// A token of a text: see [`tokens()`].
#[derive(Clone, Copy, Debug, PartialEq, Eq, Hash)]
pub struct Token<'a> {
    /// Its first byte in the text.
    pub place: usize,
    /// What it is.
    pub kind: TokenKind<'a>,
}

/// What a token is. A number or a word goes up to a blank, a `,`, a `(`, a `)`, a NUL, or the end of the text.
#[derive(Clone, Copy, Debug, PartialEq, Eq, Hash)]
pub enum TokenKind<'a> {
    /// `,`
    Comma,
    /// `(`
    ParenOpen,
    /// `)`
    ParenClose,
    /// The text of a number, without the one `+` that may stand in front: that `+` is the token's place.
    Number(&'a str),
    /// What begins as a number does, with a digit, a sign or a point, and is none.
    BadNumber,
    /// All else. The bytes are those of the text, which may be any.
    Word(&'a [u8]),
}

impl<'a> TokenKind<'a> {
    fn from_sort(sort: u64, span: &'a [u8]) -> Option<TokenKind<'a>> {
        match sort {
            BAD_NUMBER => Some(TokenKind::BadNumber),
            COMMA => Some(TokenKind::Comma),
            PAREN_CLOSE => Some(TokenKind::ParenClose),
            PAREN_OPEN => Some(TokenKind::ParenOpen),
            NUMBER => {
                let number = std::str::from_utf8(span).expect("a number is ASCII");
                Some(TokenKind::Number(number))
            }
            WORD => Some(TokenKind::Word(span)),
            _ => None,
        }
    }
}

/// The tokens of a text in their order, up to its end or to a NUL, which is no token. There is no refusal: a text may
/// be of any length and of any bytes.
///
/// ```
/// use doorhollow::{tokens, TokenKind};
///
/// let found: Vec<_> = tokens("POINT Z(1 +2\t4x)").map(|token| (token.place, token.kind)).collect();
/// assert_eq!(
///     found,
///     [
///         (0, TokenKind::Word(b"POINT")),
///         (6, TokenKind::Word(b"Z")),
///         (7, TokenKind::ParenOpen),
///         (8, TokenKind::Number("1")),
///         (10, TokenKind::Number("2")),
///         (13, TokenKind::BadNumber),
///         (15, TokenKind::ParenClose),
///     ]
/// );
/// ```
pub fn tokens<T: AsRef<[u8]> + ?Sized>(text: &T) -> Tokens<'_> {
    Tokens {
        text: text.as_ref(),
        from: Some(0),
    }
}

/// The tokens of a text: see [`tokens()`].
#[derive(Clone, Debug)]
pub struct Tokens<'a> {
    text: &'a [u8],
    // Where to ask for the next token, or `None` once there was none.
    from: Option<usize>,
}

impl<'a> Iterator for Tokens<'a> {
    type Item = Token<'a>;

    fn next(&mut self) -> Option<Token<'a>> {
        let ([sort, place, start, length], next) = calls::token(self.text, self.from.take()?);
        let span = &self.text[start as usize..][..length as usize];
        let kind = TokenKind::from_sort(sort, span)?;
        self.from = Some(next);
        Some(Token {
            place: place as usize,
            kind,
        })
    }
}

impl FusedIterator for Tokens<'_> {}
