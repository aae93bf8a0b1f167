//! Where the instructions of one work go, function by function.

use crate::jobs::Work;
use crate::measure::{collected, once_words, printed, this_program, under_callgrind};
use crate::samples::Sample;
use crate::tables::{head, row, title};
use std::path::Path;
use std::process::Command;

/// Functions with less than this percentage are summed up.
const LEAST_SHARE: f64 = 0.5;

struct Spent {
    function: String,
    instructions: u64,
}

/// `counts` is a file for callgrind's counts.
pub fn print(work: Work, sample: &Sample, counts: &Path) -> Result<(), String> {
    let mut program = under_callgrind(&this_program()?, counts);
    let total = collected(program.args(once_words(work, sample)), "")?;
    let mut annotate = Command::new("callgrind_annotate");
    let listing = printed(annotate.arg("--threshold=100").arg(counts), "")?;
    title(&format!(
        "`{}` of the text `{}`, by function",
        work.name(),
        sample.kind.name()
    ));
    head(&["function", "instructions per byte", "share"]);
    for Spent {
        function,
        instructions,
    } in spent(&listing, total)
    {
        row(&[
            function,
            format!("{:.2}", instructions as f64 / work.bytes_of(sample) as f64),
            format!("{:.1} %", percentage(instructions, total)),
        ]);
    }
    Ok(())
}

/// The functions with a share worth a line, and the rest as one.
fn spent(listing: &str, total: u64) -> Vec<Spent> {
    let functions = listing.lines().filter_map(spent_in);
    let mut large: Vec<Spent> = functions
        .filter(|spent| percentage(spent.instructions, total) >= LEAST_SHARE)
        .collect();
    let listed: u64 = large.iter().map(|spent| spent.instructions).sum();
    large.push(Spent {
        function: "all others".to_string(),
        instructions: total - listed,
    });
    large
}

fn percentage(instructions: u64, total: u64) -> f64 {
    100.0 * instructions as f64 / total as f64
}

/// A line of the listing is `1,234 (5.6%)  FILE:FUNCTION [OBJECT]`, and a function's name
/// may have colons.
fn spent_in(line: &str) -> Option<Spent> {
    let (instructions, rest) = line.trim_start().split_once(" (")?;
    let (_, place) = rest.split_once("%)")?;
    let (_, function) = place.split_once(':')?;
    let function = function.split(" [").next()?;
    Some(Spent {
        function: format!("`{function}`"),
        instructions: instructions.replace(',', "").parse().ok()?,
    })
}
