//! Reads records from standard input and prints the Rust's answer to each, a line
//! each: letters `t`, `p`, `r` and `i` of the replay program.

use driver::answer::{self, BAD_RECORD, STACK_BYTES};
use driver::record::{self, Record};
use std::io::{self, BufWriter, Read, Write};
use std::thread;

fn main() -> io::Result<()> {
    let answering = thread::Builder::new()
        .stack_size(STACK_BYTES)
        .spawn(answer_all)?;
    match answering.join() {
        Ok(result) => result,
        Err(panic) => std::panic::resume_unwind(panic),
    }
}

fn answer_all() -> io::Result<()> {
    let mut stream = Vec::new();
    io::stdin().lock().read_to_end(&mut stream)?;
    let mut out = BufWriter::new(io::stdout().lock());
    for bytes in record::split(&stream) {
        let line = match bytes.and_then(Record::decode) {
            Some(record) => answer::line(&record),
            None => BAD_RECORD.to_string(),
        };
        writeln!(out, "{line}")?;
    }
    out.flush()
}
