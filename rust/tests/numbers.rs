//! Numbers that go wrong: what they are refused with and where, and what was expected there.
use doorhollow::Expected::{self, ADigit, DigitOrSign, NothingMore, NumberOrWord, RestOfWord};
use doorhollow::{read, refusals, Refusal};

const MESSAGE: &str = "Unable to parse input number as the desired output type";

/// The examples of the request, and more of each sort: a token, its refusal's number and place, what was expected.
const EXAMPLES: [(&str, u32, usize, Expected); 30] = [
    ("+", 28, 0, NumberOrWord),
    ("++", 29, 2, NumberOrWord),
    ("+-", 29, 2, NumberOrWord),
    ("+q", 29, 1, NumberOrWord),
    ("+infi", 29, 5, RestOfWord),
    ("4x", 29, 1, NothingMore),
    ("1e", 29, 2, DigitOrSign),
    ("1E", 29, 2, DigitOrSign),
    ("1ex", 29, 2, DigitOrSign),
    ("1e+", 29, 3, ADigit),
    ("1e+x", 29, 3, ADigit),
    (".", 29, 1, ADigit),
    ("-.", 29, 2, ADigit),
    ("+.", 29, 2, ADigit),
    (".e5", 29, 1, ADigit),
    ("-", 29, 1, NumberOrWord),
    ("--1", 29, 1, NumberOrWord),
    ("-infx", 29, 4, NothingMore),
    ("-infinityy", 29, 9, NothingMore),
    ("-in", 29, 3, RestOfWord),
    ("-INFINIT", 29, 8, RestOfWord),
    ("+nA", 29, 3, RestOfWord),
    ("+nan1", 29, 4, NothingMore),
    ("1.2.3", 29, 3, NothingMore),
    ("1e5.0", 29, 3, NothingMore),
    ("0x1", 29, 1, NothingMore),
    ("1-", 29, 1, NothingMore),
    ("-京", 29, 1, NumberOrWord),
    ("1京", 29, 1, NothingMore),
    ("+1e京", 29, 3, DigitOrSign),
];

fn words(expected: Expected) -> &'static str {
    match expected {
        NothingMore => "nothing more was expected",
        ADigit => "a digit was expected",
        DigitOrSign => "a digit or a sign was expected after e",
        NumberOrWord => "a digit, a point, inf, infinity or nan was expected after the sign",
        RestOfWord => "inf, infinity or nan was expected after the sign",
    }
}

/// The text is refused so, and told so.
fn expect(text: &str, number: u32, place: usize, expected: Expected) {
    let refusal = read(text).expect_err(text);
    assert_eq!(refusal, Refusal { number, place }, "{text:?}");
    assert_eq!(refusal.message(), MESSAGE);
    assert_eq!(refusal.expected(text), Some(expected), "{text:?}");
    assert_eq!(expected.to_string(), words(expected));
    let told = format!("{MESSAGE}: {}", words(expected));
    assert_eq!(refusal.message_in(text), told);
    let first = format!("refused {number} {place}: {told}");
    assert_eq!(refusal.explain(text).lines().next(), Some(first.as_str()));
}

#[test]
fn a_text_that_begins_with_such_a_number() {
    for (token, number, place, expected) in EXAMPLES {
        expect(token, number, place, expected);
    }
}

#[test]
fn such_a_number_wherever_it_stands() {
    let before = [
        "POINT(1 ",
        "POINT( 1\t",
        "LINESTRING(1 2,3\n",
        "POLYGON((1 2,3 4),(5 ",
        "GEOMETRYCOLLECTION(",
        "GEOMETRYCOLLECTION(POINT(京 ",
    ];
    for start in before {
        for (token, number, place, expected) in EXAMPLES {
            let end = ")".repeat(start.matches('(').count());
            expect(
                &format!("{start}{token}{end}"),
                number,
                start.len() + place,
                expected,
            );
        }
    }
}

#[test]
fn the_caret_stands_under_the_byte() {
    let explained = |text: &str| read(text).unwrap_err().explain(text);
    assert_eq!(
        explained("POINT(1 4x)"),
        format!("refused 29 9: {MESSAGE}: nothing more was expected\nPOINT(1 4x)\n         ^\n")
    );
    assert_eq!(
        explained("POINT(京 1e)"),
        format!(
            "refused 29 12: {MESSAGE}: a digit or a sign was expected after e\n\
             POINT(京 1e)\n      \u{3000}   ^\n"
        )
    );
    assert_eq!(
        explained("LINESTRING(1 2,\n\t3 +)"),
        format!(
            "refused 28 19: {MESSAGE}: {}\n\t3 +)\n\t  ^\n",
            words(NumberOrWord)
        )
    );
}

#[test]
fn of_other_refusals_nothing_is_told() {
    for text in [
        "",
        "POINT",
        "POINT 4x",
        "POINT(x 2)",
        "POINT(4x 2)",
        "POINT(1 x)",
    ] {
        let refusal = read(text).unwrap_err();
        assert_eq!(refusal.expected(text), None, "{text:?}");
        assert_eq!(refusal.message_in(text), refusal.message());
    }
    for number in (0..28).chain(30..40) {
        assert_eq!(Refusal { number, place: 1 }.expected("4x"), None);
    }
    // any place and any text may be asked for
    for place in [0, 1, 5, usize::MAX] {
        let refusal = Refusal {
            number: refusals::NUMBER_GOES_WRONG,
            place,
        };
        assert!(refusal.expected("").is_some());
    }
}

/// Every text of four pieces, in each of a few frames: 253,125 in all.
#[test]
fn six_is_never_answered() {
    let pieces = [
        "+", "-", ".", "e", "1", "x", "inf", "nan", " ", ",", "(", ")", "POINT", "京", "\0",
    ];
    let frames = [
        "",
        "POINT(",
        "POINT(1 ",
        "LINESTRING(1 2,",
        "GEOMETRYCOLLECTION(",
    ];
    let mut seen = [0usize; 30];
    for frame in frames {
        for i in 0..pieces.len().pow(4) {
            let piece = |k: u32| pieces[i / pieces.len().pow(k) % pieces.len()];
            let text = format!("{frame}{}{}{}{})", piece(0), piece(1), piece(2), piece(3));
            if let Err(refusal) = read(&text) {
                seen[refusal.number as usize] += 1;
                let is_number = matches!(refusal.number, 28 | 29);
                assert_eq!(refusal.expected(&text).is_some(), is_number, "{text:?}");
            }
        }
    }
    assert_eq!(seen[6], 0);
    assert!(seen[28] > 0 && seen[29] > 0);
}
