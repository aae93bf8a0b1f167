//! How much stack the entries take: the program of `stack.c` calls every entry on a text with a
//! stack of 256 KiB, and says how much of it each call has written to.

use crate::measure::printed;
use crate::tables::{head, row, title, NOTHING};
use crate::texts::{Kind, KINDS, LIMIT};
use std::path::Path;
use std::process::Command;

const SIZES: [usize; 2] = [65_536, LIMIT];

/// What a call answered, and the bytes of its stack that it wrote to.
#[derive(Clone, Debug, PartialEq, Eq)]
struct Called {
    entry: String,
    number: u64,
    bytes: u64,
}

/// Ends with an error where a call didn't come back, or took more for the longer text.
pub fn print(program: &Path) -> Result<(), String> {
    title("Bytes of stack that a call takes, of 262144");
    head(&["text", "entry", "64 KiB", "4 MiB"]);
    let mut failures = Vec::new();
    for (name, text_of) in texts() {
        let [shorter, longer] = SIZES.map(|size| calls_of(program, &text_of(size)));
        match (shorter, longer) {
            (Ok(shorter), Ok(longer)) => failures.extend(print_calls(name, &shorter, &longer)),
            (shorter, longer) => {
                failures.extend(shorter.err());
                failures.extend(longer.err());
            }
        }
    }
    if failures.is_empty() {
        println!("\nstack: passed");
        return Ok(());
    }
    println!("\nstack: FAILED");
    Err(failures.join("\n"))
}

type TextOf = Box<dyn Fn(usize) -> String>;

/// Every kind, and a text that is one long number.
fn texts() -> Vec<(&'static str, TextOf)> {
    let by_kind = |kind: Kind| -> (&'static str, TextOf) {
        (kind.name(), Box::new(move |size| kind.text(size)))
    };
    let mut all: Vec<_> = KINDS.into_iter().map(by_kind).collect();
    all.push((
        "one number",
        Box::new(|size| Kind::Wrong.accepted_text(size)),
    ));
    all
}

/// What the program says of a text, a line for each call.
fn calls_of(program: &Path, text: &str) -> Result<Vec<Called>, String> {
    let mut limited = Command::new("sh");
    limited.args(["-c", "ulimit -s 256 && exec \"$0\""]);
    let said = printed(limited.arg(program), text)?;
    let calls = said.lines().map(called);
    let calls: Option<Vec<Called>> = calls.collect();
    calls.ok_or_else(|| format!("{} says: {said}", program.display()))
}

/// A line is `ENTRY NUMBER BYTES`.
fn called(line: &str) -> Option<Called> {
    let mut words = line.split_whitespace();
    Some(Called {
        entry: words.next()?.to_string(),
        number: words.next()?.parse().ok()?,
        bytes: words.next()?.parse().ok()?,
    })
}

/// The rows of a text, and what is wrong with them.
fn print_calls(name: &str, shorter: &[Called], longer: &[Called]) -> Vec<String> {
    let mut failures = Vec::new();
    for call in shorter {
        let again = longer.iter().find(|other| other.entry == call.entry);
        row(&[
            name.to_string(),
            format!("`{}`", call.entry),
            shown(call),
            again.map_or(NOTHING.to_string(), shown),
        ]);
        if again.is_some_and(|again| again.bytes > call.bytes) {
            failures.push(format!(
                "{} takes more stack for a longer text {name}",
                call.entry
            ));
        }
    }
    failures
}

/// The bytes, and the refusal if there is one.
fn shown(call: &Called) -> String {
    match call.number {
        0 => call.bytes.to_string(),
        number => format!("{} (refused {number})", call.bytes),
    }
}
