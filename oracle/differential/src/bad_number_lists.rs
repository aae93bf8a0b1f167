//! Fixed records of bad numbers (request 2026-02), all under letter `r`: what goes wrong in
//! which place, at each step that takes a number; every byte behind each beginning of a
//! lexeme; the plus with nothing behind it before each byte that ends a token.

use crate::cases::Case;
use driver::record::Request;

/// Bad numbers: a plus with nothing behind it, the examples of request 2026-02, and others
/// that go wrong in other places.
const BAD: [&str; 20] = [
    "+",
    "++",
    "+q",
    "+infi",
    "-infx",
    "4x",
    "1e",
    "1e+",
    ".",
    ".e5",
    "--1",
    "1.2.3",
    "1京2",
    "-i🌍",
    "-",
    "+-",
    "+.",
    "-1.5E-",
    "+INFINITYy",
    "-NaN0",
];

/// What stands around a bad number: at the root; where a header is looked for, or a
/// parenthesis; as X, Y, Z and M; as the closing one, of a good body and of a refused one; in
/// bodies of other kinds.
const STEPS: [(&str, &str); 25] = [
    ("", ""),
    (" \t", "(1 2)"),
    ("POINT ", ""),
    ("POINTZ ", " 1"),
    ("POINT ZM\n", ")"),
    ("POINT(", ")"),
    ("POINT( ", " 2)"),
    ("POINT(1 ", ")"),
    ("POINT Z(1 2 ", "\n)"),
    ("POINTM(1 2 ", ")"),
    ("POINT ZM(1 2 3 ", "\t)"),
    ("POINT(1 2 ", ""),
    ("POINT(1 2 ", ")"),
    ("LINESTRING(1 2,3 4\r", ","),
    ("POINT(x ", ")"),
    ("POINT(1 x ", "("),
    ("POINT(1x ", ""),
    ("LINESTRING(1 2,+3 ", ")"),
    ("POLYGON(", ")"),
    ("MULTIPOINT(1 2,", ")"),
    ("MULTIPOLYGON(((1 ", ")))"),
    ("GEOMETRYCOLLECTION(", ")"),
    ("GEOMETRYCOLLECTION(POINT ", ")"),
    ("GEOMETRYCOLLECTION(POINT(1 ", "))"),
    ("GEOMETRYCOLLECTION(POINT(1 2) ", ")"),
];

/// Beginnings of lexemes, behind which every byte is tried.
const BEGINNINGS: [&str; 11] = [
    "1", "1e", "1e+", "-", ".", "-i", "-in", "-inf", "-infi", "-na", "-nan",
];

/// All bytes that end a token.
const STOPS: [&str; 8] = [" ", "\t", "\n", "\r", "\0", "(", ")", ","];
/// Where a plus stands in front of each of them: at the root, instead of a parenthesis, as X,
/// as the closing one.
const BEFORE_PLUS: [&str; 4] = ["", "MULTIPOINTZ ", "LINESTRING(", "POINT(-1 2 "];

pub fn cases() -> Vec<Case> {
    let mut texts = at_each_step();
    texts.extend(behind_beginnings());
    texts.extend(lone_pluses());
    texts.into_iter().map(read).collect()
}

fn at_each_step() -> Vec<Vec<u8>> {
    let texts = STEPS
        .iter()
        .flat_map(|(before, after)| BAD.map(|bad| [before, bad, after].concat().into_bytes()));
    texts.collect()
}

/// Each byte behind each beginning, as Y: a lexeme is accepted then, and where there is none
/// the closing parenthesis lets the refusal stand.
fn behind_beginnings() -> Vec<Vec<u8>> {
    let texts = BEGINNINGS.iter().flat_map(|beginning| {
        (0..=u8::MAX).map(|byte| [b"POINT(1 ", beginning.as_bytes(), &[byte], b")"].concat())
    });
    texts.collect()
}

/// With a closing parenthesis behind what ends the token, or with nothing behind the plus.
fn lone_pluses() -> Vec<Vec<u8>> {
    let texts = BEFORE_PLUS.iter().flat_map(|before| {
        let stopped = STOPS.map(|stop| [before, "+", stop, ")"].concat());
        stopped.into_iter().chain([[before, "+"].concat()])
    });
    texts.map(String::into_bytes).collect()
}

/// With room for all that these texts hold.
fn read(text: Vec<u8>) -> Case {
    let request = Request::Read {
        nodes: 12,
        numbers: 12,
    };
    Case { request, text }
}

#[cfg(test)]
mod tests {
    use super::*;
    use crate::expected::expected;

    /// How many of the texts get an answer that begins so.
    fn count(texts: Vec<Vec<u8>>, beginning: &str) -> usize {
        let lines = texts.into_iter().map(|text| expected(&read(text)).line);
        lines.filter(|line| line.starts_with(beginning)).count()
    }

    #[test]
    fn each_step_lets_the_bad_number_stand() {
        let step = |index: usize| at_each_step()[index * BAD.len()..][..BAD.len()].to_vec();
        for (index, (before, after)) in STEPS.iter().enumerate() {
            // Where a header is looked for it is 10, and `2` can't be the closing token.
            let numbers = match (*before, *after) {
                ("POINT ", _) => [0, 0, 20, 0],
                ("POINT( ", " 2)") => [0, 0, 0, 20],
                _ => [1, 19, 0, 0],
            };
            for (beginning, number) in ["28 ", "29 ", "10 ", "13 "].iter().zip(numbers) {
                assert_eq!(
                    count(step(index), beginning),
                    number,
                    "{before:?} {after:?}"
                );
            }
        }
    }

    #[test]
    fn pluses_before_what_lets_them_stand() {
        // All at the root and for a parenthesis and for a closing token; as X those before a
        // blank, which leaves the `)` to be taken, before `)` and, with nothing to take, none.
        assert_eq!(count(lone_pluses(), "28 "), 3 * 9 + 5);
    }

    #[test]
    fn bytes_behind_beginnings() {
        let all = behind_beginnings();
        assert_eq!(all.len(), BEGINNINGS.len() * 256);
        // No byte from 80 on is a character by itself.
        assert_eq!(count(all, "2 "), BEGINNINGS.len() * 128);
    }
}
