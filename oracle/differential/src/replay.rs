//! A replay program, run as a child process.

use std::io::{self, Read, Write};
use std::path::{Path, PathBuf};
use std::process::{Command, ExitStatus, Stdio};
use std::thread;

pub struct Replay {
    program: PathBuf,
    /// Its arguments.
    words: Vec<String>,
}

pub struct Replies {
    output: Vec<u8>,
    pub status: ExitStatus,
}

impl Replay {
    pub fn new(program: &Path, words: &[&str]) -> Self {
        Replay {
            program: program.to_path_buf(),
            words: words.iter().map(|word| word.to_string()).collect(),
        }
    }

    /// Given no record it answers nothing: what has to be built is built now.
    pub fn build(&self) -> io::Result<()> {
        let status = self.answer(&[])?.status;
        if status.success() {
            return Ok(());
        }
        let words = [&[self.program.display().to_string()], &self.words[..]].concat();
        let message = format!("`{}` ended with {status}", words.join(" "));
        Err(io::Error::other(message))
    }

    /// Answers a stream of records. The stream is written from a thread of its own,
    /// so that the program never waits for its output to be read.
    pub fn answer(&self, stream: &[u8]) -> io::Result<Replies> {
        let mut child = Command::new(&self.program)
            .args(&self.words)
            .stdin(Stdio::piped())
            .stdout(Stdio::piped())
            .spawn()?;
        let mut input = child.stdin.take().expect("standard input is piped");
        let mut printed = child.stdout.take().expect("standard output is piped");
        let mut output = Vec::new();
        thread::scope(|scope| {
            // A program that ends early closes its input: its status and its lines
            // tell of that.
            scope.spawn(move || input.write_all(stream).ok());
            printed.read_to_end(&mut output)
        })?;
        let status = child.wait()?;
        Ok(Replies { output, status })
    }
}

impl Replies {
    /// The whole lines; one that lacks its end isn't among them.
    pub fn lines(&self) -> Vec<&[u8]> {
        let mut lines: Vec<&[u8]> = self.output.split(|byte| *byte == b'\n').collect();
        lines.pop();
        lines
    }
}
