//! The tokens of a text.
use doorhollow::{read, tokens, Token, TokenKind, TEXT_LIMIT};
use TokenKind::{BadNumber, Comma, Number, ParenClose, ParenOpen, Word};

fn found<T: AsRef<[u8]> + ?Sized>(text: &T) -> Vec<(usize, TokenKind<'_>)> {
    tokens(text)
        .map(|Token { place, kind }| (place, kind))
        .collect()
}

#[test]
fn every_kind_with_its_place() {
    assert_eq!(
        found("\tMultiPoint Z ( 1 -2.5e1,\r\n+3 4x)"),
        [
            (1, Word(b"MultiPoint")),
            (12, Word(b"Z")),
            (14, ParenOpen),
            (16, Number("1")),
            (18, Number("-2.5e1")),
            (24, Comma),
            (27, Number("3")),
            (30, BadNumber),
            (32, ParenClose),
        ]
    );
}

#[test]
fn one_plus_is_dropped_and_is_the_place() {
    assert_eq!(found("+5"), [(0, Number("5"))]);
    assert_eq!(found("++5"), [(0, Number("+5"))]);
    assert_eq!(found(" +inf"), [(1, Number("inf"))]);
    assert_eq!(found("+++5"), [(0, BadNumber)]);
    assert_eq!(found("+"), [(0, BadNumber)]);
    assert_eq!(found("inf"), [(0, Word(b"inf"))]);
}

#[test]
fn there_are_none_in_blanks() {
    for text in ["", " ", "\t\r\n  "] {
        assert_eq!(found(text), [], "{text:?}");
    }
}

#[test]
fn they_end_at_a_nul_for_good() {
    let mut two = tokens("a 1\0 2");
    assert_eq!(two.by_ref().count(), 2);
    assert_eq!(two.next(), None);
    assert_eq!(two.next(), None);
    assert_eq!(found("\0a"), []);
    assert_eq!(found("4\x005"), [(0, Number("4"))]);
}

#[test]
fn words_are_any_bytes() {
    assert_eq!(
        found(b"\xFF\xFE(\x01 caf\xC3\xA9"),
        [
            (0, Word(b"\xFF\xFE")),
            (2, ParenOpen),
            (3, Word(b"\x01")),
            (5, Word("café".as_bytes())),
        ]
    );
    assert_eq!(found(b"1\xFF"), [(0, BadNumber)]);
}

#[test]
fn a_text_over_the_limit_has_tokens() {
    let text = "12,".repeat(TEXT_LIMIT / 2);
    assert!(text.len() > TEXT_LIMIT);
    assert_eq!(tokens(&text).count(), 2 * (TEXT_LIMIT / 2));
    let last = tokens(&text).last().unwrap();
    assert_eq!((last.place, last.kind), (text.len() - 1, Comma));
}

#[test]
fn numbers_are_those_that_a_tree_has() {
    for text in [
        "POINT(1 2)",
        "MULTIPOINT ZM(1 2 3 +inf,(5 6 7 ++8))",
        "GEOMETRYCOLLECTION(POINT(1 -.5),LINESTRING M(1 2 +3e4,-4 5. -nan))",
    ] {
        let tree = read(text).unwrap();
        let of_tree: Vec<_> = (0..tree.number_count())
            .map(|index| tree.number(index).unwrap())
            .collect();
        let of_text: Vec<_> = tokens(text)
            .filter_map(|token| match token.kind {
                Number(number) => Some(number),
                _ => None,
            })
            .collect();
        assert_eq!(of_text, of_tree, "{text}");
    }
}

/// The token that a word is: a number's text is what a double is parsed from, behind one plus.
fn kind_of(word: &str) -> TokenKind<'_> {
    if !word.starts_with(|c: char| c.is_ascii_digit() || "+-.".contains(c)) {
        return Word(word.as_bytes());
    }
    let number = word.strip_prefix('+').unwrap_or(word);
    match number.parse::<f64>() {
        Ok(_) => Number(number),
        Err(_) => BadNumber,
    }
}

/// The tokens by way of the standard library: marks and blanks are cut off, one by one.
fn expected(text: &str) -> Vec<(usize, TokenKind<'_>)> {
    let before_nul = text.split('\0').next().unwrap();
    let mut all = Vec::new();
    let mut place = 0;
    for piece in before_nul.split_inclusive([' ', '(', ')', ',']) {
        let word = piece.trim_end_matches([' ', '(', ')', ',']);
        if !word.is_empty() {
            all.push((place, kind_of(word)));
        }
        let mark = match &piece[word.len()..] {
            "(" => Some(ParenOpen),
            ")" => Some(ParenClose),
            "," => Some(Comma),
            _ => None,
        };
        all.extend(mark.map(|mark| (place + word.len(), mark)));
        place += piece.len();
    }
    all
}

/// Every text of five pieces.
#[test]
fn they_are_those_that_the_standard_library_tells() {
    let pieces = [
        "+", "-", ".", "e", "1", "x", "inf", " ", ",", "(", ")", "京", "\0",
    ];
    for i in 0..pieces.len().pow(5) {
        let piece = |k: u32| pieces[i / pieces.len().pow(k) % pieces.len()];
        let text: String = (0..5).map(piece).collect();
        assert_eq!(found(&text), expected(&text), "{text:?}");
    }
}
