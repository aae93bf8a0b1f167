//! The line that answers a record.

use crate::inferred;
use crate::reader;
use crate::record::{Record, Request};
use crate::tokens::{self, Demand};

pub const BAD_RECORD: &str = "bad record";
/// The Rust takes only `&str`.
pub const NOT_UTF8: &str = "not utf8";
/// The Rust can't start inside a character.
pub const NOT_COMPARABLE: &str = "not comparable";

/// The Rust's reader and the dropping of its trees recurse at every collection; the
/// deepest text that it is given (40,000 collections) needs far less than this.
pub const STACK_BYTES: usize = 1 << 30;

pub fn line(record: &Record) -> String {
    let Ok(text) = std::str::from_utf8(record.text) else {
        return NOT_UTF8.to_string();
    };
    match record.request {
        Request::Take { place, count } => token_line(text, place, count, Demand::Take),
        Request::LookAndTake { place, count } => {
            token_line(text, place, count, Demand::LookAndTake)
        }
        // The Rust has neither stores nor a strict check nor a stored form nor boxes.
        Request::Write { .. }
        | Request::Check { .. }
        | Request::WriteStored { .. }
        | Request::ReadStored { .. }
        | Request::Move(_)
        | Request::Boxes { .. } => BAD_RECORD.to_string(),
        // The Rust's trees have no limit, so the slices' lengths mean nothing to it.
        Request::Read { .. } => reader::line(&reader::read(text)),
        Request::Infer => inferred::line(&inferred::infer(text)),
    }
}

fn token_line(text: &str, place: u32, count: u32, demand: Demand) -> String {
    let place = usize::try_from(place).unwrap_or(usize::MAX);
    match tokens::take(text, place, count as usize, demand) {
        Some(tokens) => tokens::line(&tokens),
        None => NOT_COMPARABLE.to_string(),
    }
}
