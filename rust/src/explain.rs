//! A refusal with its line and a caret, by the rules of the program `explain`.
use crate::Refusal;

/// How many bytes of a line are shown before a place and from it on, up to the character's end.
const SHOWN_BYTES: usize = 32;

const DOTS: &str = "...";

const WIDE_BLANK: char = '\u{3000}';

fn is_break(b: &u8) -> bool {
    matches!(b, b'\n' | b'\r')
}

/// The place of the first byte from `from` on that a character begins with, or the end.
fn next_begin(bytes: &[u8], from: usize) -> usize {
    (from..bytes.len())
        .find(|&i| !(0x80..0xC0).contains(&bytes[i]))
        .unwrap_or(bytes.len())
}

/// The place that is shown: that of the text's end is behind its last line.
fn shown_place(text: &[u8], place: usize) -> usize {
    if place < text.len() {
        return place;
    }
    text.iter()
        .rposition(|b| !is_break(b))
        .map_or(0, |last| last + 1)
}

/// Whether a terminal shows the character over two columns: East Asian text and pictures.
fn is_wide(c: char) -> bool {
    matches!(c,
        '\u{1100}'..='\u{113F}'
        | '\u{2E80}'..='\u{A4FF}'
        | '\u{AC00}'..='\u{D7FF}'
        | '\u{F900}'..='\u{FAFF}'
        | '\u{FF00}'..='\u{FF60}'
        | '\u{1F000}'..='\u{3FFFF}')
}

/// A blank as wide as the character is shown.
fn blank_under(c: char) -> char {
    match c {
        '\t' => '\t',
        c if is_wide(c) => WIDE_BLANK,
        _ => ' ',
    }
}

/// The characters of a part of a line, or the blanks under them. A control, and bytes that are no whole character,
/// are shown as `?`.
fn put_part(out: &mut String, part: &[u8], under: bool) {
    let mut i = 0;
    while i < part.len() {
        let next = next_begin(part, i + 1);
        let bytes = &part[i..next];
        let c = std::str::from_utf8(bytes)
            .ok()
            .and_then(|shown| shown.chars().next());
        out.push(match c {
            Some(c) if under => blank_under(c),
            None if under => ' ',
            Some(c) if !c.is_control() || c == '\t' => c,
            _ => '?',
        });
        i = next;
    }
}

/// As many of the mark's characters as bytes are cut, and what is left of the bytes before the place.
fn put_before(out: &mut String, before: &[u8], under: bool, mark: &str) {
    let from = next_begin(before, before.len().saturating_sub(SHOWN_BYTES));
    out.push_str(&mark[..from.min(mark.len())]);
    put_part(out, &before[from..], under);
}

pub(crate) fn explain(refusal: &Refusal, text: &[u8]) -> String {
    let shown = shown_place(text, refusal.place);
    let start = text[..shown]
        .iter()
        .rposition(is_break)
        .map_or(0, |last| last + 1);
    let end = text[shown..]
        .iter()
        .position(is_break)
        .map_or(text.len(), |first| shown + first);
    let (before, behind) = (&text[start..shown], &text[shown..end]);
    let to = next_begin(behind, SHOWN_BYTES.min(behind.len()));
    let mut out = format!(
        "refused {} {}: {}\n",
        refusal.number,
        refusal.place,
        refusal.message_in(text)
    );
    put_before(&mut out, before, false, DOTS);
    put_part(&mut out, &behind[..to], false);
    out.push_str(&DOTS[..(behind.len() - to).min(DOTS.len())]);
    out.push('\n');
    put_before(&mut out, before, true, "   ");
    out.push_str("^\n");
    out
}
