//! The readers of GEOS, OGR and Boost, each a program of its own (`others/`), where
//! `bench/run` could build it.

use crate::measure::{collected, printed, under_callgrind, ROUNDS};
use crate::samples::Sample;
use std::path::{Path, PathBuf};
use std::process::Command;

/// The names of the programs and of what they run.
const GEOS: (&str, &str) = ("geos", "GEOS");
const OTHERS: [(&str, &str); 3] = [GEOS, ("ogr", "OGR (GDAL)"), ("boost", "Boost.Geometry")];

pub struct Other {
    /// With its version.
    pub title: String,
    program: PathBuf,
}

pub enum Outcome {
    /// Instructions and nanoseconds per byte.
    Measured { counted: f64, took: f64 },
    /// Why there is nothing to compare.
    Left(&'static str),
}

/// The programs in the folder, and the titles of those that aren't there.
pub fn built(folder: &Path) -> Result<(Vec<Other>, Vec<&'static str>), String> {
    let mut found = Vec::new();
    let mut missing = Vec::new();
    for (name, title) in OTHERS {
        match built_as(name, title, folder)? {
            Some(other) => found.push(other),
            None => missing.push(title),
        }
    }
    Ok((found, missing))
}

/// The one that is asked for envelopes.
pub fn geos(folder: &Path) -> Result<Option<Other>, String> {
    let (name, title) = GEOS;
    built_as(name, title, folder)
}

fn built_as(name: &str, title: &str, folder: &Path) -> Result<Option<Other>, String> {
    let program = folder.join(name);
    match program.exists() {
        true => Other::new(program, title).map(Some),
        false => Ok(None),
    }
}

impl Other {
    fn new(program: PathBuf, title: &str) -> Result<Self, String> {
        let version = printed(&mut Command::new(&program), "")?;
        Ok(Other {
            title: format!("{title} {}", version.trim().replace('_', ".")),
            program,
        })
    }

    pub fn measure(&self, sample: &Sample) -> Result<Outcome, String> {
        let (outcome, _) = self.measure_with(&[], sample)?;
        Ok(outcome)
    }

    /// The same with the geometry's envelope, which has to be the library's box of the whole.
    pub fn measure_envelope(&self, sample: &Sample) -> Result<Outcome, String> {
        let (outcome, envelope) = self.measure_with(&["envelope"], sample)?;
        if let Outcome::Measured { .. } = outcome {
            let named = |why| format!("text {} beside {}: {why}", sample.kind.name(), self.title);
            sample.agree_on_envelope(&envelope).map_err(named)?;
        }
        Ok(outcome)
    }

    /// What the program takes with these words, and the numbers that it prints behind the time.
    fn measure_with(&self, words: &[&str], sample: &Sample) -> Result<(Outcome, Vec<f64>), String> {
        let mut timed = Command::new(&self.program);
        timed.arg(ROUNDS.to_string()).args(words);
        let said = printed(&mut timed, &sample.text)?;
        let otherwise = || format!("{timed:?} says: {said}");
        let mut said_words = said.split_whitespace();
        let (Some(answer), Some(coordinates)) = (said_words.next(), said_words.next()) else {
            return Err(otherwise());
        };
        let numbers: Result<Vec<f64>, _> = said_words.map(str::parse).collect();
        let numbers = numbers.map_err(|_| otherwise())?;
        let (least, others) = numbers.split_first().ok_or_else(otherwise)?;
        if let Some(why) = left_out(answer, coordinates, sample) {
            return Ok((Outcome::Left(why), Vec::new()));
        }
        let bytes = sample.text.len() as f64;
        let measured = Outcome::Measured {
            counted: self.count(words, sample)? as f64 / bytes,
            took: least / bytes,
        };
        Ok((measured, others.to_vec()))
    }

    fn count(&self, words: &[&str], sample: &Sample) -> Result<u64, String> {
        let mut counted = under_callgrind(&self.program, Path::new("/dev/null"));
        collected(counted.arg("1").args(words), &sample.text)
    }
}

/// A reader that answers something else does something else, and isn't measured.
fn left_out(answer: &str, coordinates: &str, sample: &Sample) -> Option<&'static str> {
    let same_count = coordinates == sample.coordinate_count().to_string();
    match (answer, sample.is_accepted()) {
        ("not-offered", _) => Some("not offered"),
        ("refused", true) => Some("refuses it"),
        ("accepted", false) => Some("accepts it"),
        ("accepted", true) if !same_count => Some("reads other coordinates"),
        _ => None,
    }
}
