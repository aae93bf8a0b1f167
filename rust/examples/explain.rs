//! Reads WKT from standard input and prints its canonical text; or explains the refusal on standard error, and stops
//! with status 1.
use std::io::{self, Read};
use std::process::ExitCode;

fn main() -> ExitCode {
    let mut text = Vec::new();
    if let Err(error) = io::stdin().read_to_end(&mut text) {
        eprintln!("standard input can't be read: {error}");
        return ExitCode::FAILURE;
    }
    match doorhollow::read(&text) {
        Ok(tree) => {
            println!("{tree}");
            ExitCode::SUCCESS
        }
        Err(refusal) => {
            eprint!("{}", refusal.explain(&text));
            ExitCode::FAILURE
        }
    }
}
