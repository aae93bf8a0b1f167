//! A shelf, which is a folder of stored files, moved from one version to the other.
//!
//! [`move_folder`] goes over the files in the order of their names. Each is read, moved by [`move_stored`], written to a
//! new file beside it, which is synced to the disk, and renamed. So whenever the run is stopped, by a signal, a panic or a
//! power cut, each file is the old one or the new one, whole. The same call then goes on: a file that is of the version
//! already is left as it is. Nothing else keeps track of a run.
//!
//! A shelf's files are the regular files that stand directly in the folder, but for those whose names begin with a dot.
//! Folders, links, devices and hidden files are passed over. What a link leads to is moved on the shelf where it stands.
//!
//! A file's permissions are kept. Its owner and its times are those of the new one. What another program writes to it
//! between its reading and its renaming is lost, so none may write to the shelf meanwhile. Two runs at once do no harm:
//! what they write are the same trees.
//!
//! A run that was stopped leaves one new file beside at most, named `.NAME.PROCESS-TRY.new`. The next run removes it if
//! the file NAME is still there and the process certainly has ended. Only Linux tells that, in `/proc`; elsewhere, and
//! where it isn't certain, the new file is kept and counted. Should its process go on after all, on another machine or in
//! another container that shares the folder, that run can't rename it any more: it reports a failed file, the old file
//! stands, and nothing is lost.
use crate::beside::{parts_of_new_name, put_in_place, sync_folder};
use crate::stored::read_file;
use crate::{move_stored, read_stored_as, FileError, Refusal, Version};
use std::ffi::{OsStr, OsString};
use std::fs::{self, DirEntry};
use std::path::Path;
use std::{fmt, io};

/// How far a run is, before each file.
#[derive(Clone, Copy, Debug, PartialEq, Eq)]
pub struct Progress<'a> {
    /// How many files are done.
    pub done: usize,
    /// How many there are in all.
    pub total: usize,
    /// The name of the file that comes now.
    pub name: &'a OsStr,
}

/// How many characters of a name a line of progress has: with them it fits a terminal of 80 columns, even where each of
/// them takes two.
const PROGRESS_NAME: usize = 25;

/// A line of progress, as `17 of 10000: NAME`, with the front of a long name.
impl fmt::Display for Progress<'_> {
    fn fmt(&self, f: &mut fmt::Formatter<'_>) -> fmt::Result {
        let name = shown(self.name);
        let front: String = name.chars().take(PROGRESS_NAME).collect();
        write!(f, "{} of {}: {front}", self.done, self.total)
    }
}

/// A file that was refused. It is as it was.
#[derive(Clone, Debug, PartialEq, Eq)]
pub struct Refused {
    /// Its name in the folder.
    pub name: OsString,
    /// With the place in the file's bytes.
    pub refusal: Refusal,
}

/// `refused 25 at byte 8: NAME`
impl fmt::Display for Refused {
    fn fmt(&self, f: &mut fmt::Formatter<'_>) -> fmt::Result {
        let Refusal { number, place } = self.refusal;
        let name = shown(&self.name);
        write!(f, "refused {number} at byte {place}: {name}")
    }
}

/// A file that couldn't be read or written. It is as it was.
#[derive(Debug)]
pub struct Failed {
    /// Its name in the folder; `.` is the folder itself, where that couldn't be synced after the last file.
    pub name: OsString,
    /// What the system says.
    pub error: io::Error,
}

/// `failed: NAME: ` and what the system says.
impl fmt::Display for Failed {
    fn fmt(&self, f: &mut fmt::Formatter<'_>) -> fmt::Result {
        write!(f, "failed: {}: {}", shown(&self.name), self.error)
    }
}

/// What a run came to. Each file is counted once: as moved, left, refused or failed.
#[derive(Debug, Default)]
pub struct Summary {
    /// How many files were moved.
    pub moved: usize,
    /// How many were of the version already. They were read, to be sure.
    pub left: usize,
    /// Those that were refused, in the order of their names.
    pub refused: Vec<Refused>,
    /// Those that couldn't be read or written, in the order of their names.
    pub failed: Vec<Failed>,
    /// How many folders, links, hidden files and the like were passed over.
    pub passed_over: usize,
    /// How many new files were removed that a stopped run had left beside.
    pub leftovers_removed: usize,
    /// How many were let be: their run may still go on, or the file is missing that they were to replace.
    pub leftovers_kept: usize,
}

impl Summary {
    /// Whether every file is of the version now: none was refused, and none failed.
    pub fn is_whole(&self) -> bool {
        self.refused.is_empty() && self.failed.is_empty()
    }

    /// The first lines of the summary, which count: `moved 9998, left 0, refused 2, failed 0, passed over 0`, and a line
    /// more for the new files of other runs, where there were any.
    pub fn counts(&self) -> String {
        let mut lines = format!(
            "moved {}, left {}, refused {}, failed {}, passed over {}",
            self.moved,
            self.left,
            self.refused.len(),
            self.failed.len(),
            self.passed_over
        );
        if self.leftovers_removed + self.leftovers_kept > 0 {
            lines.push_str(&format!(
                "\nnew files of other runs: removed {}, kept {}",
                self.leftovers_removed, self.leftovers_kept
            ));
        }
        lines
    }

    fn note(&mut self, name: OsString, outcome: Result<Outcome, FileError>) {
        match outcome {
            Ok(Outcome::Moved) => self.moved += 1,
            Ok(Outcome::Left) => self.left += 1,
            Err(FileError::Refused { refusal, .. }) => self.refused.push(Refused { name, refusal }),
            Err(FileError::Failed { error, .. }) => self.failed.push(Failed { name, error }),
        }
    }

    fn remove_leftovers(&mut self, folder: &Path, contents: &Contents) {
        for leftover in &contents.leftovers {
            if !contents.is_of_ended_run(leftover) {
                self.leftovers_kept += 1;
                continue;
            }
            match fs::remove_file(folder.join(leftover)) {
                Ok(()) => self.leftovers_removed += 1,
                // Another run has taken it away.
                Err(error) if error.kind() == io::ErrorKind::NotFound => {}
                Err(_) => self.leftovers_kept += 1,
            }
        }
    }
}

/// The lines of [`counts`](Summary::counts), and a line for each file that was refused or failed.
impl fmt::Display for Summary {
    fn fmt(&self, f: &mut fmt::Formatter<'_>) -> fmt::Result {
        f.write_str(&self.counts())?;
        for refused in &self.refused {
            write!(f, "\n{refused}")?;
        }
        for failed in &self.failed {
            write!(f, "\n{failed}")?;
        }
        Ok(())
    }
}

/// A name as a line shows it: with `?` for each control, so that it stays in its line.
fn shown(name: &OsStr) -> String {
    let name = name.to_string_lossy();
    name.chars()
        .map(|c| if c.is_control() { '?' } else { c })
        .collect()
}

/// Moves the files of a folder to a version, and tells of the progress before each: see [the module](self).
///
/// ```
/// use doorhollow::{load, shelf, Version};
///
/// let folder = std::env::temp_dir().join(format!("doorhollow-shelf-{}", std::process::id()));
/// std::fs::create_dir(&folder)?;
/// for (name, text) in [("first", "POINT(1 2)"), ("second", "LINESTRING(3 4,5 6)")] {
///     doorhollow::read(text)?.save(&folder.join(name))?;
/// }
/// std::fs::write(folder.join("third"), "no tree")?;
///
/// let mut lines = Vec::new();
/// let summary = shelf::move_folder(&folder, Version::Two, |progress| lines.push(progress.to_string()))?;
/// assert_eq!(lines, ["0 of 3: first", "1 of 3: second", "2 of 3: third"]);
/// assert_eq!(
///     summary.to_string(),
///     "moved 2, left 0, refused 1, failed 0, passed over 0\nrefused 25 at byte 0: third"
/// );
/// assert_eq!(load(&folder.join("second"))?.version(), Version::Two);
/// assert_eq!(load(&folder.join("second"))?.tree().to_wkt(), "LINESTRING(3 4,5 6)");
///
/// // once more, there is nothing to do
/// let summary = shelf::move_folder(&folder, Version::Two, |_| {})?;
/// assert_eq!((summary.moved, summary.left, summary.refused.len()), (0, 2, 1));
/// # std::fs::remove_dir_all(&folder)?;
/// # Ok::<(), Box<dyn std::error::Error>>(())
/// ```
///
/// A file of the other version is moved, with the refusals of [`move_stored`]; one that names this version is left if
/// it reads as such, and else refused as by [`read_stored_as`]. A file that is refused or that fails is
/// reported and stays as it was, and the run goes on with the next. So it is with a name that is too long to have a new
/// file beside it. Of a file that is too long for its version, no more is read than shows that.
///
/// The error is that of a folder that can't be listed. Then nothing was changed. The folder is synced once, at the end: a
/// crash of the machine before that may bring old files back, and the next run moves them again.
pub fn move_folder<P: AsRef<Path> + ?Sized>(
    folder: &P,
    to: Version,
    mut progress: impl FnMut(Progress<'_>),
) -> Result<Summary, FileError> {
    let folder = folder.as_ref();
    let contents = Contents::of(folder).map_err(|error| FileError::failed(folder, error))?;
    let mut summary = Summary {
        passed_over: contents.passed_over,
        ..Summary::default()
    };
    summary.remove_leftovers(folder, &contents);
    let total = contents.files.len();
    for (done, name) in contents.files.into_iter().enumerate() {
        progress(Progress {
            done,
            total,
            name: &name,
        });
        let outcome = move_file(&folder.join(&name), to);
        summary.note(name, outcome);
    }
    if let Err(error) = sync_folder(folder) {
        let name = OsString::from(".");
        summary.failed.push(Failed { name, error });
    }
    Ok(summary)
}

enum Outcome {
    Moved,
    Left,
}

fn move_file(path: &Path, to: Version) -> Result<Outcome, FileError> {
    let failed = |error| FileError::failed(path, error);
    let refused = |refusal| FileError::refused(path, refusal);
    let bytes = read_file(path).map_err(failed)?;
    if Version::of(&bytes) == to {
        read_stored_as(&bytes, to).map_err(refused)?;
        return Ok(Outcome::Left);
    }
    let moved = move_stored(&bytes, to).map_err(refused)?;
    put_in_place(path, &moved).map_err(failed)?;
    Ok(Outcome::Moved)
}

/// What stands in a folder.
#[derive(Default)]
struct Contents {
    // In the order of their names.
    files: Vec<OsString>,
    // The names of new files that runs have beside, or had.
    leftovers: Vec<OsString>,
    passed_over: usize,
}

impl Contents {
    fn of(folder: &Path) -> io::Result<Contents> {
        let mut contents = Contents::default();
        for entry in fs::read_dir(folder)? {
            contents.add(&entry?);
        }
        contents.files.sort();
        // While another run renames, a name may be listed twice.
        contents.files.dedup();
        Ok(contents)
    }

    fn add(&mut self, entry: &DirEntry) {
        let name = entry.file_name();
        // Where the sort can't be told it is taken for a file, and reading it tells what is wrong.
        let is_other = entry.file_type().is_ok_and(|sort| !sort.is_file());
        if is_other {
            self.passed_over += 1;
        } else if parts_of_new_name(&name).is_some() {
            self.leftovers.push(name);
        } else if name.as_encoded_bytes().starts_with(b".") {
            self.passed_over += 1;
        } else {
            self.files.push(name);
        }
    }

    /// Whether a new file certainly takes no name any more, and the file that it was to replace is still there.
    fn is_of_ended_run(&self, leftover: &OsStr) -> bool {
        parts_of_new_name(leftover)
            .is_some_and(|(name, process)| self.has_file(name) && has_ended(process))
    }

    fn has_file(&self, name: &[u8]) -> bool {
        self.files
            .binary_search_by(|file| file.as_encoded_bytes().cmp(name))
            .is_ok()
    }
}

/// Whether it is certain that no process of this machine has the number: where that can't be told, it isn't.
#[cfg(target_os = "linux")]
fn has_ended(process: u32) -> bool {
    let is_there = |path: String| Path::new(&path).try_exists();
    matches!(is_there("/proc/self".to_string()), Ok(true))
        && matches!(is_there(format!("/proc/{process}")), Ok(false))
}

#[cfg(not(target_os = "linux"))]
fn has_ended(_process: u32) -> bool {
    false
}
