//! Refusals: a number and a place, with the message of the crate wkt, and what was expected where a number goes wrong.
use crate::expectations::{Expected, ALL, WORDS};
use crate::{calls, refusals};
use std::fmt;

/// Why a text, stored bytes or rows were refused, and where.
#[derive(Clone, Copy, Debug, PartialEq, Eq, Hash)]
pub struct Refusal {
    /// 1 to 31 but for 6, which is no longer given; [`refusals`](crate::refusals) has their names.
    pub number: u32,
    /// A byte of the text or of the stored bytes, or their length. For 28, a number of which nothing is left after its
    /// plus, that plus; for 29, a number that goes wrong, the first byte at which no number can go on, or its end where
    /// more was needed; for 30 and 31, a number that no box holds, the first byte of its text.
    pub place: usize,
}

impl Refusal {
    /// The message: for 7 to 18, 20, 21, 28 and 29 that of the crate wkt, for 19 its beginning, as it ends with a part
    /// of the text (see [`message_in`](Refusal::message_in)). The others have no message there.
    pub fn message(&self) -> &'static str {
        refusals::message(self.number)
    }

    /// What was expected at the place, for 28 and 29: the text is the one that was refused. `None` for any other
    /// refusal.
    ///
    /// ```
    /// use doorhollow::Expected;
    ///
    /// let refusal = doorhollow::read("POINT(1 1e)").unwrap_err();
    /// assert_eq!((refusal.number, refusal.place), (29, 10));
    /// assert_eq!(refusal.expected("POINT(1 1e)"), Some(Expected::DigitOrSign));
    /// assert_eq!(Expected::DigitOrSign.to_string(), "a digit or a sign was expected after e");
    /// ```
    pub fn expected<T: AsRef<[u8]> + ?Sized>(&self, text: &T) -> Option<Expected> {
        let number = calls::expected(text.as_ref(), self.number, self.place);
        ALL.into_iter().find(|expected| *expected as u32 == number)
    }

    /// The whole message about a text: with what was [`expected`](Refusal::expected) for 28 and 29, and with the prefix
    /// that 19 names.
    ///
    /// ```
    /// let refusal = doorhollow::read("POINT(1 4x)").unwrap_err();
    /// assert_eq!(
    ///     refusal.message_in("POINT(1 4x)"),
    ///     "Unable to parse input number as the desired output type: nothing more was expected"
    /// );
    /// ```
    pub fn message_in<T: AsRef<[u8]> + ?Sized>(&self, text: &T) -> String {
        let text = text.as_ref();
        if let Some(expected) = self.expected(text) {
            return format!("{}: {expected}", self.message());
        }
        if self.number != refusals::UNSUPPORTED_NAME {
            return self.message().to_string();
        }
        let front = &text[self.place.min(text.len())..];
        let prefix = front.split(|b| *b == b'(').next().unwrap_or(front);
        format!(
            "{} {}",
            self.message(),
            String::from_utf8_lossy(prefix).to_uppercase()
        )
    }

    /// The refusal as an editor shows it, three lines: number, place and message; the line of the text around the
    /// place; a caret under the character at fault.
    ///
    /// The caret line has one character for each character of the line before the place: a tab for a tab, U+3000,
    /// which is two columns wide, for one that a terminal shows over two columns, and a space for any other. Of a
    /// long line a part around the place is shown.
    pub fn explain<T: AsRef<[u8]> + ?Sized>(&self, text: &T) -> String {
        crate::explain::explain(self, text.as_ref())
    }
}

impl fmt::Display for Refusal {
    fn fmt(&self, f: &mut fmt::Formatter<'_>) -> fmt::Result {
        write!(
            f,
            "{} (refused {} at byte {})",
            self.message(),
            self.number,
            self.place
        )
    }
}

impl std::error::Error for Refusal {}

impl fmt::Display for Expected {
    fn fmt(&self, f: &mut fmt::Formatter<'_>) -> fmt::Result {
        f.write_str(WORDS[*self as usize - 1])
    }
}
