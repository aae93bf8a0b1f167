//! The list of the program `tokens`: the Rust's own tests and the edges of document 01 as
//! records of letter `t`, and the Rust's tokens for each, once for each way in which that
//! program comes by them.

use crate::cases::{self, Case};
use crate::lists;
use driver::answer::BAD_RECORD;
use driver::record::Request;
use std::path::Path;
use std::{fs, io};

/// The ways, as the program names them.
const WAYS: [&str; 9] = [
    "next",
    "peek",
    "peek again",
    "next after peeks",
    "take",
    "look",
    "look again",
    "take after looks",
    "nth",
];

/// Texts that aren't UTF-8.
const ANY_BYTES: [&[u8]; 4] = [
    b"\xff",
    b"1\xff 2",
    b"(\x80,\xc3)",
    b"+\xf0\x9f 4 \xe4\xba(",
];

/// What follows a count where the record has no answer: nothing, another letter, and a
/// count of tokens that is cut.
const BAD: [&[u8]; 3] = [b"", b"p\0\0\0\0\x01\0\0\0a", b"t\0\0\0\0\x01\0\0"];

/// Writes `stdin` and `stdout` into the directory.
pub fn write(directory: &Path) -> io::Result<()> {
    let cases = cases();
    let mut stream = cases::encode(&cases);
    let mut lines = String::new();
    for tokens in lists::answers(&cases)?.lines() {
        for way in WAYS {
            let line = format!("{way}: {tokens}");
            lines += line.trim_end();
            lines += "\n";
        }
    }
    for record in BAD {
        stream.extend((record.len() as u32).to_le_bytes());
        stream.extend(record);
        lines += &format!("{BAD_RECORD}\n");
    }
    // The last record is cut.
    stream.extend([9, 0, 0, 0, b't']);
    lines += &format!("{BAD_RECORD}\n");
    fs::create_dir_all(directory)?;
    fs::write(directory.join("stdin"), stream)?;
    fs::write(directory.join("stdout"), lines)?;
    println!("{} records with their answers", cases.len() + BAD.len() + 1);
    Ok(())
}

fn cases() -> Vec<Case> {
    let texts = [lists::tested(), lists::edges(), lists::places()];
    let is_taken = |case: &Case| matches!(case.request, Request::Take { .. });
    let taken = texts.into_iter().flatten().filter(is_taken);
    let any_bytes = ANY_BYTES.iter().map(|text| Case {
        request: Request::Take { place: 0, count: 6 },
        text: text.to_vec(),
    });
    let none = Case {
        request: Request::Take { place: 0, count: 0 },
        text: b"POINT".to_vec(),
    };
    taken.chain(any_bytes).chain([none]).collect()
}
