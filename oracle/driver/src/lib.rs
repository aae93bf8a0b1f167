//! Answers replay records with the Rust crate wkt 0.14.0: its tokenizer, its
//! reader and its `infer_type`. Nothing here decides an answer by itself; what the
//! Rust doesn't tell (the places of tokens) is recovered from how far it has read.

pub mod answer;
pub mod inferred;
pub mod kept;
pub mod reader;
pub mod record;
pub mod tokens;

// The copy of the tokenizer inside this crate asks for `crate::WktNum`.
use wkt::WktNum;
