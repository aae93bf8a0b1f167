//! What is wrong with a bad number, and where: request 2026-02, written from document 02
//! alone.
//!
//! "Nothing left after the dropped plus (place: that plus), and a number that goes wrong. For
//! the second the place is the first byte at which no lexeme can go on, or the token's end
//! where more was needed." What a lexeme is, `f64` says: document 01's grammar is that of
//! its `FromStr`.

pub const NOTHING_AFTER_PLUS: u32 = 28;
pub const GOES_WRONG: u32 = 29;

/// What makes a lexeme of the beginning of one. There is one for each place in which a lexeme
/// can be cut: behind its last byte; where a digit is due; inside `inf` or `nan`; inside the
/// rest of `infinity`.
const ENDINGS: [&str; 10] = ["", "0", "nf", "f", "an", "n", "nity", "ity", "ty", "y"];

/// The refusal of a bad number, and its place counted from the token's start.
pub fn refusal(token: &str) -> (u32, usize) {
    let rest = token.strip_prefix('+').unwrap_or(token);
    assert!(!is_lexeme(rest), "{token:?} is no bad number");
    if rest.is_empty() {
        return (NOTHING_AFTER_PLUS, 0);
    }
    let rest_start = token.len() - rest.len();
    (GOES_WRONG, rest_start + longest_beginning(rest))
}

/// How long the longest beginning of a text is that is the beginning of a lexeme too: there
/// the byte stands at which no lexeme can go on or, where there is none, more was needed.
fn longest_beginning(text: &str) -> usize {
    // Lexemes are ASCII, and so none goes on at a character of several bytes.
    let ascii_bytes = text.bytes().take_while(u8::is_ascii).count();
    let lengths: Vec<usize> = (1..=ascii_bytes).collect();
    // What is longer than a text that no lexeme begins with is none's beginning either, so
    // that this finds the first such text by halving.
    lengths.partition_point(|length| begins_lexeme(&text[..*length]))
}

fn begins_lexeme(text: &str) -> bool {
    let mut completed = ENDINGS.iter().map(|ending| [text, ending].concat());
    completed.any(|text| is_lexeme(&text))
}

fn is_lexeme(text: &str) -> bool {
    text.parse::<f64>().is_ok()
}

#[cfg(test)]
mod tests {
    use super::*;

    #[test]
    fn worked_examples() {
        for (token, number, place) in [
            ("+", 28, 0),
            ("++", 29, 2),
            ("+++", 29, 2),
            ("+-", 29, 2),
            ("-", 29, 1),
            ("+q", 29, 1),
            ("+infi", 29, 5),
            ("-infx", 29, 4),
            ("4x", 29, 1),
            ("+4x", 29, 2),
            ("++4x", 29, 3),
            ("1e", 29, 2),
            ("1e+", 29, 3),
            ("1e++5", 29, 3),
            ("1e5e5", 29, 3),
            ("1e5.0", 29, 3),
            (".", 29, 1),
            ("+.", 29, 2),
            (".e5", 29, 1),
            ("..", 29, 1),
            ("1..", 29, 2),
            ("1.2.3", 29, 3),
            ("--1", 29, 1),
            ("-+1", 29, 1),
            ("+-+1", 29, 2),
            ("+e5", 29, 1),
            ("0x10", 29, 1),
            ("1_0", 29, 1),
            ("1inf", 29, 1),
            ("-1nan", 29, 2),
        ] {
            assert_eq!(refusal(token), (number, place), "{token:?}");
        }
    }

    #[test]
    fn words_in_any_case() {
        for (token, place) in [
            ("+i", 2),
            ("-I", 2),
            ("+iN", 3),
            ("-InFi", 5),
            ("+INFIN", 6),
            ("+infini", 7),
            ("-INFINIT", 8),
            ("-infinityx", 9),
            ("-InFiNiTy0", 9),
            ("+infe5", 4),
            ("-INFX", 4),
            ("+inF1", 4),
            ("+n", 2),
            ("-N", 2),
            ("+Na", 3),
            ("-NANx", 4),
            ("+nan1", 4),
            ("+nann", 4),
            ("-naN.", 4),
            ("-inn", 3),
            ("-nf", 2),
            ("-an", 1),
            ("-y", 1),
            ("1E", 2),
            ("1.5E-", 5),
        ] {
            assert_eq!(refusal(token), (GOES_WRONG, place), "{token:?}");
        }
    }

    #[test]
    fn characters_of_several_bytes() {
        for (token, place) in [
            ("1京", 1),
            ("1京2", 1),
            ("+京", 1),
            ("-¾", 1),
            ("1.5京", 3),
            ("1e京", 2),
            ("-inf京", 4),
            ("-infi京nity", 5),
            ("+na🌍n", 3),
            ("12🌍", 2),
            ("1e+🌍5", 3),
            ("1x京", 1),
            // A full-width digit, and letters whose other case is ASCII.
            ("1１", 1),
            ("-İnf", 1),
            ("-ınf", 1),
        ] {
            assert_eq!(refusal(token), (GOES_WRONG, place), "{token:?}");
        }
    }

    #[test]
    fn long_numbers() {
        let digits = "7".repeat(60_000);
        assert_eq!(refusal(&format!("{digits}x")), (GOES_WRONG, 60_000));
        assert_eq!(refusal(&format!("+{digits}e")), (GOES_WRONG, 60_002));
        assert_eq!(refusal(&format!("1e{digits}.")), (GOES_WRONG, 60_002));
        assert_eq!(refusal(&"+".repeat(60_000)), (GOES_WRONG, 2));
    }

    /// What has been read of a lexeme, by what may follow.
    #[derive(Clone, Copy)]
    enum Read {
        Nothing,
        Sign,
        Whole,
        BarePoint,
        Fraction,
        ExponentLetter,
        ExponentSign,
        Exponent,
        /// So many letters of a word, which has one more to come or is whole.
        Word(&'static str, usize),
    }

    impl Read {
        fn after(self, byte: u8) -> Option<Read> {
            let byte = byte.to_ascii_lowercase();
            match (self, byte) {
                (Read::Nothing, b'+' | b'-') => Some(Read::Sign),
                (Read::Nothing | Read::Sign, b'i') => Some(Read::Word("infinity", 1)),
                (Read::Nothing | Read::Sign, b'n') => Some(Read::Word("nan", 1)),
                (Read::Nothing | Read::Sign, b'.') => Some(Read::BarePoint),
                (Read::Nothing | Read::Sign | Read::Whole, b'0'..=b'9') => Some(Read::Whole),
                (Read::Whole, b'.') => Some(Read::Fraction),
                (Read::BarePoint | Read::Fraction, b'0'..=b'9') => Some(Read::Fraction),
                (Read::Whole | Read::Fraction, b'e') => Some(Read::ExponentLetter),
                (Read::ExponentLetter, b'+' | b'-') => Some(Read::ExponentSign),
                (Read::ExponentLetter | Read::ExponentSign | Read::Exponent, b'0'..=b'9') => {
                    Some(Read::Exponent)
                }
                (Read::Word(word, letters), _) if word.as_bytes().get(letters) == Some(&byte) => {
                    Some(Read::Word(word, letters + 1))
                }
                _ => None,
            }
        }

        fn is_whole(self) -> bool {
            match self {
                Read::Whole | Read::Fraction | Read::Exponent => true,
                Read::Word(_, letters) => letters == 3 || letters == "infinity".len(),
                _ => false,
            }
        }
    }

    /// How many bytes can begin a lexeme, and whether all of them are one.
    fn scanned(text: &str) -> (usize, bool) {
        let mut read = Read::Nothing;
        for (place, byte) in text.bytes().enumerate() {
            match read.after(byte) {
                Some(more) => read = more,
                None => return (place, false),
            }
        }
        (text.len(), read.is_whole())
    }

    /// Calls for every text that is made of a text and up to so many bytes more.
    fn each_text(text: &mut String, more: usize, call: &mut impl FnMut(&str)) {
        const ALPHABET: &str = "+-.0eEinfatyx";
        call(text);
        if more == 0 {
            return;
        }
        for character in ALPHABET.chars() {
            text.push(character);
            each_text(text, more - 1, call);
            text.pop();
        }
    }

    fn agrees_with_scanner(text: &str) {
        let (beginning, is_whole) = scanned(text);
        assert_eq!(is_lexeme(text), is_whole, "{text:?}");
        assert_eq!(longest_beginning(text), beginning, "{text:?}");
    }

    #[test]
    fn every_short_text_as_a_scanner_says() {
        each_text(&mut String::new(), 5, &mut agrees_with_scanner);
        for front in ["-infin", "+infi", "1.5e-", "-0.00", "INFI", "-na"] {
            each_text(&mut front.to_string(), 3, &mut agrees_with_scanner);
        }
    }

    #[test]
    fn every_byte_as_a_scanner_says() {
        for front in [
            "", "-", "1", "1.", ".", "1e", "1e-", "-i", "-infinit", "nan",
        ] {
            for byte in 0..=127_u8 {
                agrees_with_scanner(&format!("{front}{}", char::from(byte)));
                agrees_with_scanner(&format!("{front}{}5", char::from(byte)));
            }
        }
    }
}
