//! New files that are written beside the ones whose names they take.
use std::ffi::{OsStr, OsString};
use std::fs::{self, File, OpenOptions};
use std::io::{self, Write};
use std::path::{Path, PathBuf};
use std::process;

/// Puts bytes in the place of a file, or of none: all of them or nothing, and for good.
pub(crate) fn replace(path: &Path, bytes: &[u8]) -> io::Result<()> {
    put_in_place(path, bytes)?;
    sync_folder(folder_of(path))
}

/// The same without the folder's sync: as long as that wasn't done, a crash of the machine may bring the old file back.
pub(crate) fn put_in_place(path: &Path, bytes: &[u8]) -> io::Result<()> {
    let name = path
        .file_name()
        .ok_or_else(|| io::Error::new(io::ErrorKind::InvalidInput, "no file is named"))?;
    let (beside, file) = new_file(folder_of(path), name)?;
    let renamed = fill(file, path, bytes).and_then(|()| fs::rename(&beside, path));
    if renamed.is_err() {
        // What went wrong is told, whether or not the new file can be taken away.
        let _ = fs::remove_file(&beside);
    }
    renamed
}

fn folder_of(path: &Path) -> &Path {
    match path.parent() {
        Some(folder) if !folder.as_os_str().is_empty() => folder,
        _ => Path::new("."),
    }
}

// A file that wasn't there, named after the one that it will take the place of.
fn new_file(folder: &Path, name: &OsStr) -> io::Result<(PathBuf, File)> {
    let mut tried = 0;
    loop {
        let beside = folder.join(new_name(name, process::id(), tried));
        match OpenOptions::new()
            .write(true)
            .create_new(true)
            .open(&beside)
        {
            Ok(file) => return Ok((beside, file)),
            Err(error) if error.kind() == io::ErrorKind::AlreadyExists && tried < 1_000 => {
                tried += 1
            }
            Err(error) => return Err(error),
        }
    }
}

// `.NAME.PROCESS-TRY.new`
fn new_name(name: &OsStr, process: u32, tried: u32) -> OsString {
    let mut beside = OsString::from(".");
    beside.push(name);
    beside.push(format!(".{process}-{tried}.new"));
    beside
}

/// The name of the old file, as bytes, and the process, where a name is one that a process gives a new file.
pub(crate) fn parts_of_new_name(beside: &OsStr) -> Option<(&[u8], u32)> {
    let inner = beside
        .as_encoded_bytes()
        .strip_prefix(b".")?
        .strip_suffix(b".new")?;
    let dot = inner.iter().rposition(|byte| *byte == b'.')?;
    let (name, run) = (&inner[..dot], std::str::from_utf8(&inner[dot + 1..]).ok()?);
    let (process, tried) = run.split_once('-')?;
    let (process, tried): (u32, u32) = (process.parse().ok()?, tried.parse().ok()?);
    // `+1` and `01` are parsed too, and no process writes them.
    (format!("{process}-{tried}") == run).then_some((name, process))
}

fn fill(mut file: File, old: &Path, bytes: &[u8]) -> io::Result<()> {
    file.write_all(bytes)?;
    if let Ok(old) = fs::metadata(old) {
        file.set_permissions(old.permissions())?;
    }
    file.sync_all()
}

/// A new name is safe once its folder is. Only a Unix opens a folder as a file.
#[cfg(unix)]
pub(crate) fn sync_folder(folder: &Path) -> io::Result<()> {
    File::open(folder)?.sync_all()
}

#[cfg(not(unix))]
pub(crate) fn sync_folder(_folder: &Path) -> io::Result<()> {
    Ok(())
}

#[cfg(test)]
mod tests {
    use super::*;

    #[test]
    fn a_new_name_tells_its_parts() {
        for name in ["shape", "a b", ".hidden", "x.1-2.new", "Küste", "."] {
            let beside = new_name(OsStr::new(name), 4_294_967_295, 10);
            let parts = parts_of_new_name(&beside);
            assert_eq!(parts, Some((name.as_bytes(), 4_294_967_295)), "{name}");
        }
    }

    #[test]
    fn other_names_tell_nothing() {
        let others = [
            "shape",
            ".shape",
            ".new",
            ".1-2.new",
            "shape.1-2.new",
            ".shape.1-2.old",
            ".shape.1.new",
            ".shape.-.new",
            ".shape.1-.new",
            ".shape.-2.new",
            ".shape.01-2.new",
            ".shape.+1-2.new",
            ".shape.1-2-3.new",
            ".shape.4294967296-0.new",
            ".shape.a-0.new",
            ".shape.1-2.new~",
        ];
        for name in others {
            assert_eq!(parts_of_new_name(OsStr::new(name)), None, "{name}");
        }
    }
}
