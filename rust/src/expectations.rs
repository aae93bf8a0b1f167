//! What was expected where a number goes wrong: made by tools/refusals from crates/expected/words.txt.

/// What was expected at the place of a refusal 28 or 29 (see [`Refusal::expected`](crate::Refusal::expected)).
#[derive(Clone, Copy, Debug, PartialEq, Eq, Hash)]
pub enum Expected {
    /// `nothing more was expected`
    NothingMore = 1,
    /// `a digit was expected`
    ADigit = 2,
    /// `a digit or a sign was expected after e`
    DigitOrSign = 3,
    /// `a digit, a point, inf, infinity or nan was expected after the sign`
    NumberOrWord = 4,
    /// `inf, infinity or nan was expected after the sign`
    RestOfWord = 5,
}

/// All of them, in the order of their numbers, from 1 on.
pub(crate) const ALL: [Expected; 5] = [
    Expected::NothingMore,
    Expected::ADigit,
    Expected::DigitOrSign,
    Expected::NumberOrWord,
    Expected::RestOfWord,
];

/// The words of each, in the same order.
pub(crate) const WORDS: [&str; 5] = [
    "nothing more was expected",
    "a digit was expected",
    "a digit or a sign was expected after e",
    "a digit, a point, inf, infinity or nan was expected after the sign",
    "inf, infinity or nan was expected after the sign",
];
