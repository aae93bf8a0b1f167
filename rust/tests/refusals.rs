//! What a refusal shows: the messages of the crate wkt, and the caret.
use doorhollow::{infer_type, read, Refusal};

fn explained(text: impl AsRef<[u8]>) -> String {
    let text = text.as_ref();
    read(text).expect_err("refused").explain(text)
}

#[test]
fn messages_are_those_of_the_crate_wkt() {
    let messages = [
        (7, "Encountered non-ascii word"),
        (8, "Invalid WKT format"),
        (9, "Invalid type encountered"),
        (10, "End of stream"),
        (11, "Unexpected word before open paren"),
        (12, "Missing open parenthesis for type"),
        (13, "Missing closing parenthesis for type"),
        (14, "Expected a number for the X coordinate"),
        (15, "Expected a number for the Y coordinate"),
        (16, "Expected a number for the Z coordinate"),
        (17, "Expected a number for the M coordinate"),
        (18, "Expected a word in GEOMETRYCOLLECTION"),
        (
            20,
            "Invalid WKT; no whitespace between geometry type and EMPTY.",
        ),
        (21, "Invalid WKT; no '(' character and not EMPTY"),
        (
            28,
            "Unable to parse input number as the desired output type",
        ),
        (
            29,
            "Unable to parse input number as the desired output type",
        ),
    ];
    for (number, message) in messages {
        assert_eq!(Refusal { number, place: 0 }.message(), message);
    }
    let refusal = infer_type("\tLinearring(1 2)").unwrap_err();
    assert_eq!(
        refusal.message_in("\tLinearring(1 2)"),
        "Unsupported WKT prefix LINEARRING"
    );
    assert_eq!(
        refusal.to_string(),
        "Unsupported WKT prefix (refused 19 at byte 1)"
    );
}

#[test]
fn every_refusal_has_a_message() {
    let without: Vec<u32> = (0..=32)
        .filter(|number| {
            let refusal = Refusal {
                number: *number,
                place: 0,
            };
            refusal.message() == "Unknown refusal"
        })
        .collect();
    assert_eq!(without, [0, 6, 32], "6 is no longer given");
}

#[test]
fn a_caret_stands_under_the_character() {
    let expected = "refused 13 8: Missing closing parenthesis for type\n\
                    POINT(x 2)\n\
                    \x20       ^\n";
    assert_eq!(explained("POINT(x 2)"), expected);
}

#[test]
fn wide_text_is_counted_by_characters() {
    let expected = "refused 13 22: Missing closing parenthesis for type\n\
                    GEOMETRYCOLLECTION(京(1 2))\n\
                    \x20                  \u{3000}^\n";
    assert_eq!(explained("GEOMETRYCOLLECTION(京(1 2))"), expected);
    let caret = expected.lines().last().unwrap();
    assert_eq!(
        caret.chars().count(),
        "GEOMETRYCOLLECTION(京(".chars().count()
    );
}

#[test]
fn tabs_lines_and_the_end() {
    assert!(explained("LINESTRING(1 2,\r\n\té 3)\r\n").ends_with("\n\té 3)\n\t  ^\n"));
    assert_eq!(
        explained("POINT\n"),
        "refused 10 6: End of stream\nPOINT\n     ^\n"
    );
    assert_eq!(explained(""), "refused 8 0: Invalid WKT format\n\n^\n");
}

#[test]
fn what_a_terminal_acts_on_is_not_shown() {
    assert!(explained("POINT(1 \0)").ends_with("\nPOINT(1 ?)\n        ^\n"));
    assert!(explained(b"POINT(1 2\xFF\xFE x)").ends_with("\nPOINT(1 2?? x)\n         ^\n"));
    assert!(explained("POINT(\u{9b}31m 1 2)").contains("\nPOINT(?31m 1 2)\n"));
}

#[test]
fn long_lines_are_cut() {
    let text = format!(
        "LINESTRING({}1 x,{}1 2)",
        "1 2,".repeat(40),
        "3 4,".repeat(40)
    );
    let told = explained(&text);
    let lines: Vec<&str> = told.lines().collect();
    assert_eq!(lines[1].len(), 3 + 32 + 32 + 3);
    assert_eq!(
        lines[1].as_bytes()[lines[2].len() - 1],
        text.as_bytes()[read(&text).unwrap_err().place]
    );
    let over = "京".repeat(1_400_000);
    assert!(explained(&over).starts_with("refused 1 4194304: "));
}

#[test]
fn the_program_explain_says_the_same() {
    let folder = concat!(env!("CARGO_MANIFEST_DIR"), "/../crates/explain");
    let text = std::fs::read(format!("{folder}/stdin")).unwrap();
    let expected = std::fs::read_to_string(format!("{folder}/stdout")).unwrap();
    assert_eq!(explained(text), expected);
}
