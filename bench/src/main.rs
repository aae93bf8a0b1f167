//! Measures the proved library beside the Rust that it replaces, in one process.
//! `bench/run` builds it and says how it is called.

mod boxes;
mod functions;
mod jobs;
mod library;
mod measure;
mod moves;
mod others;
mod samples;
mod scale;
mod stack;
mod tables;
mod texts;

use jobs::{Job, Work};
use samples::Sample;
use std::path::Path;
use std::process::ExitCode;
use texts::{Kind, USUAL};

const USAGE: &str = "usage: bench/run [--quick | --times | --stored | --moves | --boxes | --scale \
                     | --stack | --functions TEXT [WORK]]";

fn main() -> ExitCode {
    let words: Vec<String> = std::env::args().skip(1).collect();
    let words: Vec<&str> = words.iter().map(String::as_str).collect();
    match answer(&words) {
        Ok(()) => ExitCode::SUCCESS,
        Err(why) => {
            eprintln!("bench: {why}");
            ExitCode::FAILURE
        }
    }
}

fn answer(words: &[&str]) -> Result<(), String> {
    match words {
        ["quick"] => tables::quick(),
        ["times"] => tables::times(),
        ["stored"] => tables::stored(),
        ["moves"] => tables::moves(),
        ["scale"] => scale::print(),
        ["stack", program] => stack::print(Path::new(program)),
        ["boxes", others] => tables::boxes(Path::new(others)),
        ["full", others] => tables::full(Path::new(others)),
        ["functions", counts, kind] => functions(counts, kind, Work::Exact.name()),
        ["functions", counts, kind, work] => functions(counts, kind, work),
        ["once", work, kind, size] => once(work, kind, size),
        _ => Err(USAGE.to_string()),
    }
}

fn functions(counts: &str, kind: &str, work: &str) -> Result<(), String> {
    let work = work_named(work)?;
    let sample = Sample::compared(kind_named(kind)?, USUAL)?;
    applicable(work, &sample)?;
    functions::print(work, &sample, Path::new(counts))
}

/// What callgrind counts. A text that is longer than usual was compared before, by who asks for
/// this: under callgrind it would take minutes.
fn once(work: &str, kind: &str, size: &str) -> Result<(), String> {
    let work = work_named(work)?;
    let kind = kind_named(kind)?;
    let size = size.parse().map_err(|_| format!("{size} isn't a size"))?;
    let sample = match size {
        0..=USUAL => Sample::compared(kind, size)?,
        _ => Sample::with(&work.parts(), kind, size)?,
    };
    applicable(work, &sample)?;
    Job::new(work, &sample).run();
    Ok(())
}

fn applicable(work: Work, sample: &Sample) -> Result<(), String> {
    let why = || format!("{} has no {}", sample.kind.name(), work.name());
    work.applies_to(sample).then_some(()).ok_or_else(why)
}

fn kind_named(name: &str) -> Result<Kind, String> {
    let names = texts::KINDS.map(Kind::name).join(", ");
    Kind::named(name).ok_or_else(|| format!("there is no text {name}, only {names}"))
}

fn work_named(name: &str) -> Result<Work, String> {
    let names = jobs::WORKS.map(Work::name).join(", ");
    Work::named(name).ok_or_else(|| format!("there is no work {name}, only {names}"))
}
