//! Instructions by callgrind, and time.

use crate::jobs::{Job, Work, MEASURED};
use crate::samples::Sample;
use crate::texts::{Kind, USUAL};
use std::collections::HashMap;
use std::io::{self, Write};
use std::path::{Path, PathBuf};
use std::process::{Command, Output, Stdio};
use std::time::{Duration, Instant};

/// How often each work is timed. The least of all counts: whatever else the machine does
/// can only make a run longer.
pub const ROUNDS: usize = 1_000;

/// The same for texts of this size: longer ones than usual are timed as much less often.
pub fn rounds_of(size: usize) -> usize {
    (ROUNDS * USUAL).div_ceil(size.max(USUAL))
}

/// The least time of each work, in nanoseconds per byte. The works take turns, so that
/// a busy spell of the machine meets all of them.
pub fn nanoseconds(works: &[Work], sample: &Sample) -> Vec<f64> {
    let mut jobs: Vec<Job> = works.iter().map(|work| Job::new(*work, sample)).collect();
    let mut least = vec![Duration::MAX; works.len()];
    for _ in 0..rounds_of(sample.size) {
        for (job, least) in jobs.iter_mut().zip(&mut least) {
            let start = Instant::now();
            job.run();
            *least = start.elapsed().min(*least);
        }
    }
    let per_byte =
        |(work, least): (&Work, Duration)| least.as_nanos() as f64 / work.bytes_of(sample) as f64;
    works.iter().zip(least).map(per_byte).collect()
}

/// Instructions per byte. They are the same in every run, so each is counted once.
#[derive(Default)]
pub struct Counter {
    counted: HashMap<(Work, Kind, usize), f64>,
}

impl Counter {
    pub fn instructions(&mut self, work: Work, sample: &Sample) -> Result<f64, String> {
        let key = (work, sample.kind, sample.size);
        if let Some(known) = self.counted.get(&key) {
            return Ok(*known);
        }
        let counted = count(work, sample)?;
        self.counted.insert(key, counted);
        Ok(counted)
    }
}

/// Runs this program once more, under callgrind, for one work alone.
fn count(work: Work, sample: &Sample) -> Result<f64, String> {
    let mut program = under_callgrind(&this_program()?, Path::new("/dev/null"));
    program.args(once_words(work, sample));
    let counted = collected(&mut program, "")?;
    Ok(counted as f64 / work.bytes_of(sample) as f64)
}

/// The words with which this program does one work once.
pub fn once_words(work: Work, sample: &Sample) -> [String; 4] {
    [
        "once".to_string(),
        work.name().to_string(),
        sample.kind.name().to_string(),
        sample.size.to_string(),
    ]
}

pub fn this_program() -> Result<PathBuf, String> {
    std::env::current_exe().map_err(|error| format!("this program isn't found: {error}"))
}

/// The program under callgrind, counting only while it is in the measured function.
pub fn under_callgrind(program: &Path, counts: &Path) -> Command {
    let mut command = Command::new("valgrind");
    command
        .arg("--tool=callgrind")
        .arg(format!("--callgrind-out-file={}", counts.display()))
        .arg(format!("--toggle-collect={MEASURED}"))
        .arg(program);
    command
}

/// The count that callgrind prints at the end of a program.
pub fn collected(command: &mut Command, input: &str) -> Result<u64, String> {
    let output = output(command, input)?;
    let said = String::from_utf8_lossy(&output.stderr);
    let count = said.split("Collected : ").nth(1);
    count
        .and_then(|rest| rest.split_whitespace().next())
        .and_then(|count| count.parse().ok())
        .ok_or_else(|| format!("{command:?} says no count:\n{said}"))
}

/// What a command prints, which must succeed.
pub fn printed(command: &mut Command, input: &str) -> Result<String, String> {
    let output = output(command, input)?;
    Ok(String::from_utf8_lossy(&output.stdout).into_owned())
}

fn output(command: &mut Command, input: &str) -> Result<Output, String> {
    let output = fed(command, input).map_err(|error| format!("{command:?}: {error}"))?;
    if output.status.success() {
        return Ok(output);
    }
    let said = String::from_utf8_lossy(&output.stderr);
    Err(format!("{command:?} failed:\n{said}"))
}

/// The programs fed here print nothing before they have read everything.
fn fed(command: &mut Command, input: &str) -> io::Result<Output> {
    let piped = command.stdin(Stdio::piped()).stdout(Stdio::piped());
    let mut child = piped.stderr(Stdio::piped()).spawn()?;
    if let Some(mut stdin) = child.stdin.take() {
        stdin.write_all(input.as_bytes())?;
    }
    child.wait_with_output()
}
