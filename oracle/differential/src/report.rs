//! What a run prints.

use crate::cases::{self, Case};
use crate::check::Tally;
use crate::expected::expected;
use crate::replay::Replay;
use driver::answer::STACK_BYTES;
use driver::record::{Move, Request, Rows};
use std::{io, thread};

/// Of a longer text the first half of so many bytes is printed, and the last.
const PRINTED_BYTES: usize = 2_000;
/// Of a longer line what stands around the first difference.
const PRINTED_LINE: usize = 1_000;
/// And so is a longer slice.
const PRINTED_PLACES: usize = 300;

/// How many records of each letter agreed, and how they were answered.
pub fn print_tally(tally: &Tally) {
    for (letter, count) in tally {
        let letter = char::from(*letter);
        println!("{letter}: {} records agreed", count.agreed());
        if !count.outcomes.is_empty() {
            let outcomes = count.outcomes.iter();
            let outcomes = outcomes.map(|(outcome, records)| format!("{outcome}: {records}"));
            println!("   {}", outcomes.collect::<Vec<_>>().join(", "));
        }
        if count.at_model_place + count.at_model_limit > 0 {
            println!("   {} with the Rust alone", count.by_rust);
            println!(
                "   {} with its refusal and the model's place",
                count.at_model_place
            );
            println!("   {} with the model at a limit", count.at_model_limit);
        }
    }
}

/// Prints a case with both answers.
pub fn print_difference(replay: &Replay, case: &Case) -> io::Result<()> {
    let replies = replay.answer(&cases::encode(std::slice::from_ref(case)))?;
    let answered = match replies.lines().first() {
        Some(line) => String::from_utf8_lossy(line).into_owned(),
        None => format!("nothing; it ended with {}", replies.status),
    };
    let expected = expected_line(case)?;
    println!("difference at {}", described(&case.request));
    println!("text     {} bytes", case.text.len());
    print_bytes(&case.text);
    let (ours, theirs) = (expected.bytes(), answered.bytes());
    let same = ours.zip(theirs).take_while(|(our, their)| our == their);
    let first = same.count();
    println!("expected {}", around(&expected, first));
    println!("replay   {}", around(&answered, first));
    Ok(())
}

/// The first and the last of many bytes.
fn print_bytes(bytes: &[u8]) {
    let half = PRINTED_BYTES / 2;
    if bytes.len() > PRINTED_BYTES {
        print_part("from 0 on: ", &bytes[..half]);
        let start = bytes.len() - half;
        print_part(&format!("from {start} on: "), &bytes[start..]);
        return;
    }
    print_part("", bytes);
}

fn print_part(place: &str, bytes: &[u8]) {
    let hex: Vec<String> = bytes.iter().map(|byte| format!("{byte:02x}")).collect();
    println!("         {place}\"{}\"", bytes.escape_ascii());
    println!("hex      {}", hex.join(" "));
}

/// A line or, where it is long, what of it stands around a place.
fn around(line: &str, place: usize) -> String {
    if line.len() <= PRINTED_LINE {
        return line.to_string();
    }
    let half = PRINTED_LINE / 2;
    let start = place.saturating_sub(half);
    let bytes = line.bytes().skip(start).take(PRINTED_LINE);
    let part = String::from_utf8_lossy(&bytes.collect::<Vec<u8>>()).into_owned();
    format!("{} bytes, from {start} on: {part}", line.len())
}

fn described(request: &Request) -> String {
    let letter = char::from(request.letter());
    match request {
        Request::Take { place, count } | Request::LookAndTake { place, count } => {
            format!("{letter}, place {place}, count {count}")
        }
        Request::Read { nodes, numbers } => {
            format!("{letter}, node slice {nodes}, number slice {numbers}")
        }
        Request::ReadStored {
            version,
            nodes,
            numbers,
        } => format!("{letter}, version {version}, node slice {nodes}, number slice {numbers}"),
        Request::Move(asked) => format!("{letter}, {}", described_move(asked)),
        Request::Write { output, rows } => {
            format!("{letter}, output {output}, {}", described_rows(rows))
        }
        Request::WriteStored {
            version,
            output,
            rows,
        } => {
            let rows = described_rows(rows);
            format!("{letter}, version {version}, output {output}, {rows}")
        }
        Request::Check { rows } => format!("{letter}, {}", described_rows(rows)),
        Request::Boxes { table, rows } => {
            format!("{letter}, table {table}, {}", described_rows(rows))
        }
        Request::Infer => letter.to_string(),
    }
}

fn described_move(asked: &Move) -> String {
    let Move {
        from,
        to,
        nodes,
        numbers,
        output,
    } = asked;
    let slices = format!("node slice {nodes}, number slice {numbers}");
    format!("version {from} to {to}, {slices}, output {output}")
}

fn described_rows(rows: &Rows) -> String {
    let places = |slice: &[u32]| {
        let printed = slice.iter().take(PRINTED_PLACES).map(u32::to_string);
        format!(
            "{} ({})",
            slice.len(),
            printed.collect::<Vec<_>>().join(" ")
        )
    };
    let (nodes, numbers) = (places(&rows.nodes), places(&rows.numbers));
    format!("node slice {nodes}, number slice {numbers}")
}

fn expected_line(case: &Case) -> io::Result<String> {
    thread::scope(|scope| {
        let answering = thread::Builder::new()
            .stack_size(STACK_BYTES)
            .spawn_scoped(scope, || expected(case).line)?;
        Ok(answering.join().expect("the Rust answers every record"))
    })
}
