//! A folder of stored files moved from one version to the other, also where the run is stopped.
use doorhollow::shelf::{move_folder, Progress, Summary};
use doorhollow::{load, read, FileError, Version};
use std::ffi::{OsStr, OsString};
use std::fs::{self, File};
use std::panic::{catch_unwind, AssertUnwindSafe};
use std::path::{Path, PathBuf};
use std::process::{Command, Stdio};
use std::{env, io, process, thread};
use Version::{One, Two};

/// A folder for one test, which goes with it.
struct Folder(PathBuf);

impl Folder {
    fn new(name: &str) -> Folder {
        let folder = env::temp_dir().join(format!("doorhollow-shelf-{name}-{}", process::id()));
        let _ = fs::remove_dir_all(&folder);
        fs::create_dir(&folder).unwrap();
        Folder(folder)
    }

    /// With so many files of a version, all of them different.
    fn with_files(name: &str, count: usize, version: Version) -> Folder {
        let folder = Folder::new(name);
        for index in 0..count {
            let text = format!("LINESTRING({}{index} 7)", "1 2,".repeat(index % 10));
            folder.put(&format!("shape-{index:03}"), &stored(&text, version));
        }
        folder
    }

    fn file(&self, name: &str) -> PathBuf {
        self.0.join(name)
    }

    fn put(&self, name: &str, bytes: &[u8]) {
        fs::write(self.file(name), bytes).unwrap();
    }

    fn get(&self, name: &str) -> Vec<u8> {
        fs::read(self.file(name)).unwrap()
    }

    fn names(&self) -> Vec<OsString> {
        let entries = fs::read_dir(&self.0).unwrap();
        let mut names: Vec<OsString> = entries.map(|entry| entry.unwrap().file_name()).collect();
        names.sort();
        names
    }

    /// The names and the bytes of all files.
    fn bytes(&self) -> Vec<(OsString, Vec<u8>)> {
        let read = |name: OsString| {
            let bytes = fs::read(self.0.join(&name)).unwrap();
            (name, bytes)
        };
        self.names().into_iter().map(read).collect()
    }

    fn moved(&self, to: Version) -> Summary {
        move_folder(&self.0, to, |_| {}).unwrap()
    }

    fn count_of(&self, version: Version) -> usize {
        let is_of = |name: &OsString| load(&self.0.join(name)).unwrap().version() == version;
        self.names().iter().filter(|name| is_of(name)).count()
    }
}

impl Drop for Folder {
    fn drop(&mut self) {
        let _ = fs::remove_dir_all(&self.0);
    }
}

fn stored(text: &str, version: Version) -> Vec<u8> {
    read(text).unwrap().to_stored_as(version).unwrap()
}

/// Moved, left, refused, failed, passed over.
fn counts(summary: &Summary) -> [usize; 5] {
    [
        summary.moved,
        summary.left,
        summary.refused.len(),
        summary.failed.len(),
        summary.passed_over,
    ]
}

#[test]
fn a_folder_is_moved_up_and_back() {
    let folder = Folder::with_files("up-and-back", 30, One);
    let first = folder.bytes();
    let summary = folder.moved(Two);
    assert_eq!(counts(&summary), [30, 0, 0, 0, 0]);
    assert!(summary.is_whole());
    for (name, bytes) in &first {
        let moved = load(&folder.0.join(name)).unwrap();
        let tree = doorhollow::read_stored(bytes).unwrap();
        assert_eq!(moved.bytes(), tree.to_stored_as(Two).unwrap());
    }
    assert_eq!(counts(&folder.moved(Two)), [0, 30, 0, 0, 0], "once more");
    assert_eq!(counts(&folder.moved(One)), [30, 0, 0, 0, 0]);
    assert_eq!(folder.bytes(), first);
    assert_eq!(counts(&folder.moved(One)), [0, 30, 0, 0, 0], "once more");
    assert_eq!(folder.bytes(), first);
}

#[test]
fn files_of_both_versions_and_others() {
    let folder = Folder::new("mixed");
    let (first, second) = (stored("POINT(1 2)", One), stored("POINT(1 2)", Two));
    folder.put("a of version 1", &first);
    folder.put("b of version 2", &second);
    folder.put("c cut", &first[..22]);
    folder.put("d cut", &second[..28]);
    folder.put("e of version 3", b"\x01\0\x05\x03\0\0\0\0");
    folder.put("f empty", b"");
    folder.put("g ill", &[&first[..22], b"x"].concat());
    let summary = folder.moved(Two);
    assert_eq!(counts(&summary), [1, 1, 5, 0, 0]);
    assert!(!summary.is_whole());
    let told = "moved 1, left 1, refused 5, failed 0, passed over 0
refused 25 at byte 19: c cut
refused 25 at byte 25: d cut
refused 26 at byte 3: e of version 3
refused 25 at byte 0: f empty
refused 22 at byte 0: g ill";
    assert_eq!(summary.to_string(), told);
    assert_eq!(summary.refused[1].name, "d cut");
    assert_eq!(folder.get("a of version 1"), second);
    assert_eq!(folder.get("b of version 2"), second);
    assert_eq!(folder.get("c cut"), &first[..22], "it stays as it was");
    assert_eq!(folder.get("d cut"), &second[..28], "it stays as it was");
    assert_eq!(counts(&folder.moved(Two)), [0, 2, 5, 0, 0], "once more");
    // the other way the same files are refused, with the same numbers and places
    let back = folder.moved(One);
    assert_eq!(counts(&back), [2, 0, 5, 0, 0]);
    assert_eq!(back.refused, summary.refused);
    assert_eq!(folder.get("b of version 2"), first);
}

#[test]
fn what_does_not_fit_version_1_stays_in_version_2() {
    let folder = Folder::new("large");
    let large = stored(&format!("LINESTRING({}1 2)", "1 2,".repeat(32_767)), Two);
    folder.put("large", &large);
    folder.put("small", &stored("POINT(1 2)", Two));
    let summary = folder.moved(One);
    let told = "moved 1, left 0, refused 1, failed 0, passed over 0\nrefused 27 at byte 0: large";
    assert_eq!(summary.to_string(), told);
    assert_eq!(folder.get("large"), large);
    assert_eq!(folder.get("small"), stored("POINT(1 2)", One));
    assert_eq!(counts(&folder.moved(Two)), [1, 1, 0, 0, 0]);
}

#[test]
fn a_file_that_is_too_long_is_refused() {
    let folder = Folder::new("long");
    for (name, version) in [("a", One), ("b", Two)] {
        folder.put(name, &stored("POINT(1 2)", version));
        let file = File::options().write(true).open(folder.file(name)).unwrap();
        // a terabyte, of which no more is read than the limit and a byte
        file.set_len(1 << 40).unwrap();
    }
    let lines = "refused 1 at byte 1048576: a\nrefused 1 at byte 67108864: b";
    for to in Version::ALL {
        let told = folder.moved(to).to_string();
        assert!(told.ends_with(lines), "{told}");
    }
}

#[test]
fn progress_is_told_before_each_file_in_the_order_of_the_names() {
    let folder = Folder::new("progress");
    for name in ["b", "a", "C", "é", "a2"] {
        folder.put(name, &stored("POINT(1 2)", One));
    }
    let mut told = Vec::new();
    let note = |progress: Progress<'_>| {
        let version = load(&folder.0.join(progress.name)).unwrap().version();
        assert_eq!(version, One, "the file in hand isn't moved yet");
        assert_eq!(folder.count_of(Two), progress.done);
        told.push(progress.to_string());
    };
    move_folder(&folder.0, Two, note).unwrap();
    let lines = [
        "0 of 5: C",
        "1 of 5: a",
        "2 of 5: a2",
        "3 of 5: b",
        "4 of 5: é",
    ];
    assert_eq!(told, lines);
}

#[test]
fn names_stay_in_their_line() {
    let long = "é".repeat(100);
    let name = OsStr::new(&long);
    let (done, total) = (9_999, 10_000);
    let line = Progress { done, total, name }.to_string();
    assert_eq!(line, format!("9999 of 10000: {}", "é".repeat(25)));
    let name = OsStr::new("a\nb\r\x1b[31mc\t\u{85}");
    let line = Progress { done, total, name }.to_string();
    assert_eq!(line, "9999 of 10000: a?b??[31mc??");
    let refusal = doorhollow::Refusal {
        number: 25,
        place: 8,
    };
    let name = name.to_os_string();
    let line = doorhollow::shelf::Refused { name, refusal }.to_string();
    assert_eq!(line, "refused 25 at byte 8: a?b??[31mc??");
    let error = io::Error::other("it broke");
    let name = OsString::from("a\nb");
    let line = doorhollow::shelf::Failed { name, error }.to_string();
    assert_eq!(line, "failed: a?b: it broke");
}

#[test]
fn an_empty_folder_and_none_at_all() {
    let folder = Folder::new("empty");
    let summary = move_folder(&folder.0, Two, |_| panic!("there is no file")).unwrap();
    assert_eq!(counts(&summary), [0; 5]);
    assert!(summary.is_whole());
    folder.put("file", b"");
    for path in [folder.file("missing"), folder.file("file")] {
        match move_folder(&path, Two, |_| {}).unwrap_err() {
            FileError::Failed { path: told, .. } => assert_eq!(told, path),
            other => panic!("{other}"),
        }
    }
}

#[test]
fn folders_and_hidden_files_are_passed_over() {
    let folder = Folder::new("passed-over");
    let first = stored("POINT(1 2)", One);
    let hidden = [".hidden", "..twice", ".new", ".shape.old"];
    for name in hidden {
        folder.put(name, &first);
    }
    fs::create_dir(folder.file("folder")).unwrap();
    folder.put("folder/inside", &first);
    fs::create_dir(folder.file(".shape.1-0.new")).unwrap();
    folder.put("shape", &first);
    assert_eq!(counts(&folder.moved(Two)), [1, 0, 0, 0, 6]);
    assert_eq!(Version::of(&folder.get("shape")), Two);
    assert_eq!(folder.get("folder/inside"), first);
    for name in hidden {
        assert_eq!(folder.get(name), first);
    }
    assert_eq!(folder.names().len(), 7, "nothing went, and nothing came");
}

#[cfg(unix)]
#[test]
fn links_are_passed_over_and_permissions_stay() {
    use std::os::unix::fs::{symlink, PermissionsExt};
    let (folder, elsewhere) = (Folder::new("links"), Folder::new("elsewhere"));
    let first = stored("POINT(1 2)", One);
    elsewhere.put("shape", &first);
    symlink(elsewhere.file("shape"), folder.file("link")).unwrap();
    symlink(folder.file("nothing"), folder.file("to nothing")).unwrap();
    symlink(&elsewhere.0, folder.file("to a folder")).unwrap();
    for (name, mode) in [("a", 0o640), ("b", 0o400), ("c", 0o777)] {
        folder.put(name, &first);
        fs::set_permissions(folder.file(name), fs::Permissions::from_mode(mode)).unwrap();
    }
    assert_eq!(counts(&folder.moved(Two)), [3, 0, 0, 0, 3]);
    assert_eq!(elsewhere.get("shape"), first);
    let sort = fs::symlink_metadata(folder.file("link")).unwrap();
    assert!(sort.file_type().is_symlink());
    for (name, mode) in [("a", 0o640), ("b", 0o400), ("c", 0o777)] {
        let kept = fs::metadata(folder.file(name)).unwrap().permissions();
        assert_eq!(kept.mode() & 0o777, mode, "{name}");
    }
    // a link to the folder itself is followed
    symlink(&folder.0, elsewhere.file("shelf")).unwrap();
    let summary = move_folder(&elsewhere.file("shelf"), One, |_| {}).unwrap();
    assert_eq!(summary.moved, 3);
}

#[test]
fn a_file_that_cannot_be_read_is_told_and_the_others_are_moved() {
    let folder = Folder::with_files("unread", 5, One);
    // it is there when the folder is listed, and gone when it is to be read
    let take_away = |progress: Progress<'_>| {
        if progress.done == 2 {
            fs::remove_file(folder.0.join(progress.name)).unwrap();
        }
    };
    let summary = move_folder(&folder.0, Two, take_away).unwrap();
    assert_eq!(counts(&summary), [4, 0, 0, 1, 0]);
    assert!(!summary.is_whole());
    assert_eq!(summary.failed[0].name, "shape-002");
    assert_eq!(summary.failed[0].error.kind(), io::ErrorKind::NotFound);
    let told = summary.to_string();
    assert!(told.contains("\nfailed: shape-002: "), "{told}");
    assert_eq!(folder.count_of(Two), 4);
}

// A name has up to 255 bytes, and that of the new file beside it more.
#[cfg(target_os = "linux")]
#[test]
fn a_file_that_cannot_be_written_is_told_and_stays() {
    let folder = Folder::with_files("unwritten", 3, One);
    let name = "n".repeat(250);
    let first = stored("POINT(1 2)", One);
    folder.put(&name, &first);
    let before = folder.names();
    let summary = folder.moved(Two);
    assert_eq!(counts(&summary), [3, 0, 0, 1, 0]);
    assert_eq!(summary.failed[0].name, OsStr::new(&name));
    assert_eq!(folder.get(&name), first);
    assert_eq!(folder.names(), before, "nothing is left beside it");
}

#[test]
fn a_run_that_panics_goes_on_when_run_again() {
    let folder = Folder::with_files("panic", 20, One);
    let first = folder.bytes();
    for (to, stop) in [(Two, 7), (Two, 12), (One, 1), (One, 18)] {
        let before = folder.count_of(to);
        let run = || {
            move_folder(&folder.0, to, |progress| {
                assert!(progress.done < stop, "stopped");
            })
        };
        assert!(catch_unwind(AssertUnwindSafe(run)).is_err());
        assert_eq!(folder.count_of(to), stop.max(before));
        assert_eq!(folder.names().len(), 20, "nothing went, and nothing came");
        if stop > 10 {
            assert_eq!(counts(&folder.moved(to)), [20 - stop, stop, 0, 0, 0]);
        }
    }
    assert_eq!(folder.bytes(), first);
}

const CHILD_FOLDER: &str = "DOORHOLLOW_TEST_SHELF";

/// This test is run by the next one, as a process of its own that ends at once in the middle; otherwise it does nothing.
#[test]
fn as_a_child() {
    let Some(folder) = env::var_os(CHILD_FOLDER) else {
        return;
    };
    let stop = |progress: Progress<'_>| {
        if progress.done == 9 {
            process::exit(9);
        }
    };
    move_folder(Path::new(&folder), Two, stop).unwrap();
}

#[test]
fn a_process_that_is_ended_goes_on_when_run_again() {
    let folder = Folder::with_files("abort", 20, One);
    let first = folder.bytes();
    let status = Command::new(env::current_exe().unwrap())
        .args(["--exact", "as_a_child"])
        .env(CHILD_FOLDER, &folder.0)
        .stdout(Stdio::null())
        .stderr(Stdio::null())
        .status()
        .unwrap();
    assert_eq!(status.code(), Some(9));
    assert_eq!((folder.count_of(One), folder.count_of(Two)), (11, 9));
    assert_eq!(counts(&folder.moved(Two)), [11, 9, 0, 0, 0]);
    assert_eq!(counts(&folder.moved(One)), [20, 0, 0, 0, 0]);
    assert_eq!(folder.bytes(), first);
}

/// The number of a process that has ended.
#[cfg(target_os = "linux")]
fn ended_process() -> u32 {
    let mut child = Command::new("true").spawn().unwrap();
    child.wait().unwrap();
    child.id()
}

#[cfg(target_os = "linux")]
#[test]
fn what_a_stopped_run_left_beside_is_taken_away() {
    let folder = Folder::with_files("leftovers", 3, One);
    let second = stored("POINT(1 2)", Two);
    let ended = ended_process();
    for tried in [0, 1] {
        folder.put(&format!(".shape-001.{ended}-{tried}.new"), &second[..9]);
    }
    // their run may go on: that of this process, and that of one that is there as long as the machine
    let kept = [
        format!(".shape-001.{}-0.new", process::id()),
        ".shape-001.1-0.new".to_string(),
        // and where the old file is missing, the new one may be all there is
        format!(".missing.{ended}-0.new"),
    ];
    for name in &kept {
        folder.put(name, &second);
    }
    let summary = folder.moved(Two);
    assert_eq!(counts(&summary), [3, 0, 0, 0, 0]);
    let removed_and_kept = (summary.leftovers_removed, summary.leftovers_kept);
    assert_eq!(removed_and_kept, (2, 3));
    let told = "moved 3, left 0, refused 0, failed 0, passed over 0
new files of other runs: removed 2, kept 3";
    assert_eq!(summary.to_string(), told);
    assert_eq!(folder.names().len(), 3 + kept.len());
    for name in &kept {
        assert_eq!(folder.get(name), second);
    }
    assert_eq!(folder.moved(Two).leftovers_removed, 0, "once more");
}

#[test]
fn runs_at_once_do_no_harm() {
    let folder = Folder::with_files("at-once", 40, One);
    let first = folder.bytes();
    let run = |to: Version| {
        for _ in 0..5 {
            let summary = folder.moved(to);
            assert!(summary.is_whole(), "{summary}");
            // a list that is made while files are renamed may lack some of them
            assert!(summary.moved + summary.left <= 40, "{summary}");
            assert_eq!(summary.leftovers_removed, 0);
        }
    };
    thread::scope(|scope| {
        for to in [Two, One, Two] {
            scope.spawn(move || run(to));
        }
    });
    assert_eq!(folder.count_of(One) + folder.count_of(Two), 40);
    folder.moved(One);
    assert_eq!(folder.bytes(), first);
}
