//! Moves the stored files of a folder from one version to the other; `--help` says how.
use doorhollow::shelf::{move_folder, Progress, Summary};
use doorhollow::Version;
use std::env;
use std::ffi::OsString;
use std::io::{self, IsTerminal, Write};
use std::path::Path;
use std::process::ExitCode;

const HELP: &str = "\
usage: move_shelf up FOLDER      moves its stored files from version 1 to version 2
       move_shelf back FOLDER    moves them from version 2 to version 1

Each file is written beside, synced and renamed. Whenever this is stopped, each is
the old one or the new one; run it again, and it goes on. A file that is of the
version already is left, and one that is refused or can't be read or written stays
as it was. Folders, links and names that begin with a dot are passed over. No other
program may write to the files meanwhile.

A terminal gets a line of progress on standard error. The counts go to standard
output, and a line for each file that was refused or failed to standard error.

The status is 0, or 1 where a file was refused or failed, or 2 where the arguments
are wrong or the folder can't be read.";

/// The status for wrong arguments and for a folder that can't be read.
const NOT_BEGUN: u8 = 2;

fn main() -> ExitCode {
    let arguments: Vec<OsString> = env::args_os().skip(1).collect();
    match arguments.as_slice() {
        [word] if word == "--help" => {
            println!("{HELP}");
            ExitCode::SUCCESS
        }
        [word, folder] if word == "up" => run(folder.as_ref(), Version::Two),
        [word, folder] if word == "back" => run(folder.as_ref(), Version::One),
        _ => {
            eprintln!("{HELP}");
            ExitCode::from(NOT_BEGUN)
        }
    }
}

fn run(folder: &Path, to: Version) -> ExitCode {
    let on_terminal = io::stderr().is_terminal();
    let moved = move_folder(folder, to, |progress| {
        if on_terminal {
            show(progress);
        }
    });
    if on_terminal {
        rewrite_line("");
    }
    match moved {
        Ok(summary) => tell(&summary),
        Err(error) => {
            eprintln!("move_shelf: {error}");
            ExitCode::from(NOT_BEGUN)
        }
    }
}

fn show(progress: Progress<'_>) {
    rewrite_line(&progress.to_string());
}

/// Puts the terminal's line anew: back to its first column, and what stood there erased.
fn rewrite_line(line: &str) {
    // A line that can't be shown is no reason to stop.
    let _ = io::stderr().write_all(format!("\r\x1b[K{line}").as_bytes());
}

fn tell(summary: &Summary) -> ExitCode {
    println!("{}", summary.counts());
    for refused in &summary.refused {
        eprintln!("{refused}");
    }
    for failed in &summary.failed {
        eprintln!("{failed}");
    }
    if summary.is_whole() {
        ExitCode::SUCCESS
    } else {
        ExitCode::FAILURE
    }
}
