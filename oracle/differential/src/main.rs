//! Holds the replay programs beside the Rust, and beside the models of stores, of the stored
//! form, of moves and of boxes where the Rust has none: makes texts from a seed, runs both on the same
//! records and stops at the first difference, made as small as it gets. With `--list` it
//! writes a fixed list of records and their answers instead, with `--stored-list` that of
//! the program `replay_stored`, with `--box-list` that of the program `replay_store`, and
//! with `--tokens` that of the program `tokens`. With `--long` it holds a native program beside
//! them, on records that are too large for the others, and with `--envelopes` boxes beside the
//! envelopes of GEOS.

mod any_bytes;
mod bad_number_lists;
mod bad_numbers;
mod box_cases;
mod box_lists;
mod box_numbers;
mod boxes;
#[cfg(test)]
mod by_hand;
mod cases;
mod check;
mod compare_boxes;
mod damage;
mod exact;
mod expected;
mod grammar;
mod lists;
mod long;
mod long_cases;
mod long_edges;
mod long_moves;
mod long_stored;
mod long_texts;
mod model;
mod move_cases;
mod move_lists;
mod moves;
mod numbers;
mod random;
mod range_lists;
mod replay;
mod report;
mod shrink;
mod smaller_forms;
mod smaller_stores;
mod store_cases;
mod store_lists;
mod stored;
mod stored_cases;
mod stored_lists;
mod stores;
mod texts;
mod token_list;

use cases::{Case, Letter, BOXES_PROGRAM, PROGRAMS, USUAL_LETTERS};
use check::{check, Fault, Tally};
use random::Random;
use replay::Replay;
use std::io;
use std::path::{Path, PathBuf};
use std::process::ExitCode;
use texts::Texts;

/// One run of a replay program answers the records of so many texts.
const TEXTS_PER_RUN: usize = 20_000;

const USAGE: &str = "usage: differential [--letters LETTERS] --run PROGRAM SEED COUNT
       differential [--letters LETTERS] --replay PROGRAM SEED COUNT
       differential --long [--letters LETTERS] --replay PROGRAM SEED COUNT
       differential --list SEED COUNT DIRECTORY
       differential --stored-list SEED COUNT DIRECTORY
       differential --box-list SEED COUNT DIRECTORY
       differential --tokens DIRECTORY
       differential --envelopes PROGRAM [--run PROGRAM | --replay PROGRAM] FILES";

/// What is written or compared.
#[derive(Clone, Copy, PartialEq, Eq)]
enum Mode {
    Compare,
    Long,
    List,
    StoredList,
    BoxList,
    Tokens,
    Envelopes,
}

struct Options {
    mode: Mode,
    letters: Option<String>,
    /// Runs the program whose name it is given.
    run: Option<PathBuf>,
    /// Answers all letters itself.
    replay: Option<PathBuf>,
    /// Answers texts with the envelopes of GEOS.
    envelopes: Option<PathBuf>,
    rest: Vec<String>,
}

fn options(mut arguments: impl Iterator<Item = String>) -> Option<Options> {
    let mut options = Options {
        mode: Mode::Compare,
        letters: None,
        run: None,
        replay: None,
        envelopes: None,
        rest: Vec::new(),
    };
    while let Some(argument) = arguments.next() {
        match argument.as_str() {
            "--letters" => options.letters = Some(arguments.next()?),
            "--run" => options.run = Some(PathBuf::from(arguments.next()?)),
            "--replay" => options.replay = Some(PathBuf::from(arguments.next()?)),
            "--long" => options.mode = Mode::Long,
            "--list" => options.mode = Mode::List,
            "--stored-list" => options.mode = Mode::StoredList,
            "--box-list" => options.mode = Mode::BoxList,
            "--tokens" => options.mode = Mode::Tokens,
            "--envelopes" => {
                options.mode = Mode::Envelopes;
                options.envelopes = Some(PathBuf::from(arguments.next()?));
            }
            _ => options.rest.push(argument),
        }
    }
    Some(options)
}

/// A program, and the letters that it is asked.
struct Asked {
    replay: Replay,
    letters: Vec<Letter>,
}

/// The programs to compare with; `None` for letters that nobody knows.
fn asked(options: &Options) -> Option<Vec<Asked>> {
    if options.replay.is_some() {
        let (_, known) = PROGRAMS[0];
        return Some(vec![asked_alone(options, known)?]);
    }
    let run = options.run.as_ref()?;
    let all = PROGRAMS.map(|(_, known)| known).concat();
    let letters = options.letters.as_deref().unwrap_or(USUAL_LETTERS);
    if !letters.chars().all(|letter| all.contains(letter)) {
        return None;
    }
    let programs = PROGRAMS.iter().map(|(name, known)| Asked {
        replay: Replay::new(run, &[name]),
        letters: letters
            .chars()
            .filter(|letter| known.contains(*letter))
            .filter_map(Letter::from_char)
            .collect(),
    });
    Some(programs.filter(|asked| !asked.letters.is_empty()).collect())
}

/// One program for the letters that are asked for, or else for these.
fn asked_alone(options: &Options, known: &str) -> Option<Asked> {
    let program = options.replay.as_ref()?;
    let letters = options.letters.as_deref().unwrap_or(known);
    let letters = letters.chars().map(Letter::from_char);
    Some(Asked {
        replay: Replay::new(program, &[]),
        letters: letters.collect::<Option<_>>()?,
    })
}

/// Boxes of the model and, if there is one, of a program beside GEOS; `None` without files.
fn envelopes(options: &Options) -> Option<io::Result<bool>> {
    let by_name = |run| Replay::new(run, &[BOXES_PROGRAM]);
    let by_itself = |program| Replay::new(program, &[]);
    let (run, replay) = (options.run.as_deref(), options.replay.as_deref());
    let program = replay.map(by_itself).or_else(|| run.map(by_name));
    let files: Vec<PathBuf> = options.rest.iter().map(PathBuf::from).collect();
    let geos = options.envelopes.as_deref()?;
    (!files.is_empty()).then(|| compare_boxes::compare(geos, program.as_ref(), &files))
}

fn main() -> ExitCode {
    let ended = options(std::env::args().skip(1)).and_then(run);
    match ended {
        Some(Ok(true)) => ExitCode::SUCCESS,
        Some(Ok(false)) => ExitCode::FAILURE,
        Some(Err(error)) => {
            eprintln!("differential: {error}");
            ExitCode::FAILURE
        }
        None => {
            eprintln!("{USAGE}");
            ExitCode::from(2)
        }
    }
}

/// Whether all went well; `None` for arguments that mean nothing.
fn run(options: Options) -> Option<io::Result<bool>> {
    if options.mode == Mode::Tokens {
        let [directory] = options.rest.as_slice() else {
            return None;
        };
        return Some(token_list::write(directory.as_ref()).map(|()| true));
    }
    if options.mode == Mode::Envelopes {
        return envelopes(&options);
    }
    let seed = options.rest.first()?.parse().ok()?;
    let count = options.rest.get(1)?.parse().ok()?;
    let directory = options.rest.get(2).map(Path::new);
    match (options.mode, directory, options.rest.get(3)) {
        (Mode::List, Some(directory), None) => {
            Some(lists::write(seed, count, directory).map(|()| true))
        }
        (Mode::StoredList, Some(directory), None) => {
            Some(stored_lists::write(seed, count, directory).map(|()| true))
        }
        (Mode::BoxList, Some(directory), None) => {
            Some(box_lists::write(seed, count, directory).map(|()| true))
        }
        (Mode::Compare, None, None) => Some(compare(&asked(&options)?, seed, count)),
        (Mode::Long, None, None) => {
            let Asked { replay, letters } = asked_alone(&options, long::LETTERS)?;
            Some(long::compare(&replay, &letters, seed, count))
        }
        _ => None,
    }
}

/// Compares on so many texts; false after the first difference, which is printed.
fn compare(programs: &[Asked], seed: u64, count: usize) -> io::Result<bool> {
    for asked in programs {
        asked.replay.build()?;
    }
    let mut tally = Tally::new();
    for asked in programs {
        if !compare_one(asked, seed, count, &mut tally)? {
            return Ok(false);
        }
    }
    println!("seed {seed}, {count} texts, no difference");
    report::print_tally(&tally);
    Ok(true)
}

fn compare_one(asked: &Asked, seed: u64, count: usize, tally: &mut Tally) -> io::Result<bool> {
    let Asked { replay, letters } = asked;
    let mut texts = Texts::new(seed);
    // Places and rooms are drawn apart, so that the texts are the same for any letters.
    let mut random = Random::new(!seed);
    let mut cases = largest(letters);
    let mut left = count;
    loop {
        if let Some(fault) = check(replay, &cases, tally)? {
            explain(replay, &cases, fault)?;
            return Ok(false);
        }
        if left == 0 {
            return Ok(true);
        }
        let now = left.min(TEXTS_PER_RUN);
        cases = next_cases(&mut texts, &mut random, letters, now);
        left -= now;
    }
}

/// The largest records of these letters.
fn largest(letters: &[Letter]) -> Vec<Case> {
    let is_asked = |case: &Case| letters.iter().any(|letter| letter.asks(&case.request));
    let cases = store_lists::largest().into_iter();
    let cases = cases.chain(stored_lists::largest());
    let cases = cases.chain(move_lists::largest());
    let cases = cases.chain(box_lists::largest());
    cases.filter(is_asked).collect()
}

fn next_cases(
    texts: &mut Texts,
    random: &mut Random,
    letters: &[Letter],
    count: usize,
) -> Vec<Case> {
    let mut cases = Vec::with_capacity(count * letters.len());
    for _ in 0..count {
        let text = texts.next();
        for letter in letters {
            cases.push(letter.case(random, text.clone()));
        }
    }
    cases
}

fn explain(replay: &Replay, cases: &[Case], fault: Fault) -> io::Result<()> {
    let case = match fault {
        Fault::Different(index) => shrink::single_case(replay, &cases[index..=index])?,
        Fault::Broken(message) => {
            println!("{message}");
            shrink::single_case(replay, cases)?
        }
    };
    match case {
        Some(case) => report::print_difference(replay, &shrink::smallest(replay, case)?),
        None => {
            println!("no single record shows it by itself");
            Ok(())
        }
    }
}
