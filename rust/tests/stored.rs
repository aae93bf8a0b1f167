//! Trees as stored bytes, and in files.
use doorhollow::{
    load, read, read_stored, read_stored_into, refusals, FileError, Refusal, Version,
};
use std::fs::{self, File};
use std::path::{Path, PathBuf};

const TEXTS: [&str; 8] = [
    "POINT(1 2)",
    "POINT Z EMPTY",
    "GEOMETRYCOLLECTION EMPTY",
    "LINESTRING M(1 2 +3,-4 5e1 .5)",
    "POLYGON((0 0,1 0,1 1,0 0),EMPTY)",
    "MULTIPOINT ZM(1 2 3 +inf,(5 6 7 ++8))",
    "MULTIPOLYGON(((0 0,1 0,1 1,0 0)),EMPTY)",
    "GEOMETRYCOLLECTION(POINT(1 2),GEOMETRYCOLLECTION Z(MULTILINESTRING((3 4,5 6),(7 8))))",
];

/// A folder for one test, which goes with it.
struct Folder(PathBuf);

impl Folder {
    fn new(name: &str) -> Folder {
        let folder = std::env::temp_dir().join(format!("doorhollow-{name}-{}", std::process::id()));
        let _ = fs::remove_dir_all(&folder);
        fs::create_dir(&folder).unwrap();
        Folder(folder)
    }

    fn file(&self, name: &str) -> PathBuf {
        self.0.join(name)
    }

    fn names(&self) -> Vec<String> {
        let mut names: Vec<String> = fs::read_dir(&self.0)
            .unwrap()
            .map(|entry| entry.unwrap().file_name().into_string().unwrap())
            .collect();
        names.sort();
        names
    }
}

impl Drop for Folder {
    fn drop(&mut self) {
        let _ = fs::remove_dir_all(&self.0);
    }
}

fn refused_in(path: &Path) -> Refusal {
    match load(path).unwrap_err() {
        FileError::Refused {
            path: told,
            refusal,
        } => {
            assert_eq!(told, path);
            refusal
        }
        other => panic!("{other}"),
    }
}

#[test]
fn the_same_tree_comes_back() {
    for text in TEXTS {
        let tree = read(text).unwrap();
        let kept = tree.to_stored().unwrap();
        assert_eq!(kept.len(), tree.stored_length(Version::One), "{text}");
        let back = read_stored(&kept).unwrap();
        assert_eq!(back.node_rows(), tree.node_rows(), "{text}");
        let numbers = |tree: &doorhollow::Tree<'_>| -> Vec<String> {
            (0..tree.number_count())
                .map(|number| tree.number(number).unwrap().to_string())
                .collect()
        };
        assert_eq!(numbers(&back), numbers(&tree), "{text}");
        assert_eq!(back.to_wkt(), tree.to_wkt(), "{text}");
        assert_eq!(back.to_stored().unwrap(), kept, "{text}");
        assert_eq!(back.strict(), tree.strict(), "{text}");
    }
}

#[test]
fn bytes_are_those_of_the_form() {
    let kept = read("POINT Z(1 2 +inf)").unwrap().to_stored().unwrap();
    let expected =
        b"\x01\0\x05\x01\0\x01\0\x03\x02\0\x04\x01\x01\0\x01\x03\0\x011\x03\0\x012\x03\0\x03inf";
    assert_eq!(kept, expected);
    let back = read_stored(&kept).unwrap();
    assert_eq!(back.number_span(2), Some(26..29));
    assert_eq!(back.text(), &kept[..]);
}

#[test]
fn rows_that_are_lent() {
    let kept = read("MULTIPOINT(1 2,3 4)").unwrap().to_stored().unwrap();
    let mut nodes = [7; 9];
    let mut numbers = [7; 9];
    let tree = read_stored_into(&kept, Version::One, &mut nodes, &mut numbers).unwrap();
    assert_eq!((tree.node_count(), tree.number_count()), (3, 4));
    assert_eq!(numbers[8], 0);
    let refused = |node_places: usize, number_places: usize| {
        let mut nodes = [7; 9];
        let mut numbers = [7; 9];
        let (lent, places) = (&mut nodes[..node_places], &mut numbers[..number_places]);
        let refusal = read_stored_into(&kept, Version::One, lent, places).unwrap_err();
        assert!(lent.iter().chain(places.iter()).all(|place| *place == 0));
        (refusal.number, refusal.place)
    };
    assert_eq!(refused(6, 8), (refusals::NO_NODE_ROW, 8 + 2 * 7));
    assert_eq!(refused(9, 7), (refusals::NO_NUMBER_ROW, 8 + 3 * 7 + 3 * 4));
    let mut out = vec![7; kept.len()];
    let tree = read_stored(&kept).unwrap();
    let written = tree.write_stored_into(Version::One, &mut out);
    assert_eq!(written, Ok(kept.len()));
    assert_eq!(out, kept);
    let short = tree
        .write_stored_into(Version::One, &mut out[1..])
        .unwrap_err();
    assert_eq!((short.number, short.place), (refusals::NO_ROOM, 0));
    assert!(out[1..].iter().all(|byte| *byte == 0));
}

#[test]
fn a_file_is_saved_and_loaded() {
    let folder = Folder::new("saved");
    let path = folder.file("shape");
    for text in TEXTS {
        let tree = read(text).unwrap();
        tree.save(&path).unwrap();
        let loaded = load(&path).unwrap();
        assert_eq!(loaded.tree().to_wkt(), tree.to_wkt());
        assert_eq!(loaded.bytes(), fs::read(&path).unwrap());
        assert_eq!(loaded.version(), Version::One);
    }
    assert_eq!(folder.names(), ["shape"], "nothing is left beside it");
}

#[test]
fn files_of_both_versions_are_loaded() {
    let folder = Folder::new("versions");
    let path = folder.file("shape");
    for text in TEXTS {
        let tree = read(text).unwrap();
        for version in Version::ALL {
            let kept = tree.to_stored_as(version).unwrap();
            fs::write(&path, &kept).unwrap();
            let loaded = load(&path).unwrap();
            assert_eq!(loaded.version(), version);
            assert_eq!(loaded.bytes(), kept);
            assert_eq!(loaded.tree().node_rows(), tree.node_rows(), "{text}");
            assert_eq!(loaded.tree().to_wkt(), tree.to_wkt());
        }
    }
}

#[test]
fn what_does_not_fit_version_1_is_saved_in_version_2() {
    let folder = Folder::new("large");
    let path = folder.file("shape");
    let line = format!("LINESTRING({}1 2)", "1 2,".repeat(1_000_000));
    let lines = format!("MULTILINESTRING({}(1 2))", "EMPTY,".repeat(65_535));
    for text in [line, lines] {
        let tree = read(&text).unwrap();
        tree.save(&path).unwrap();
        let loaded = load(&path).unwrap();
        assert_eq!(loaded.version(), Version::Two);
        assert_eq!(loaded.bytes().len(), tree.stored_length(Version::Two));
        assert!(loaded.tree().node_rows() == tree.node_rows());
        assert!(loaded.tree().to_wkt() == text);
    }
    // in the place of one of version 2, and of one that fits no version
    read("POINT(1 2)").unwrap().save(&path).unwrap();
    assert_eq!(load(&path).unwrap().version(), Version::One);
    let long = format!("POINT(1 {})", "2".repeat(65_536));
    let error = read(&long).unwrap().save(&path).unwrap_err();
    let number = refusals::DOES_NOT_FIT;
    assert!(
        matches!(error, FileError::Refused { refusal, .. } if refusal == Refusal { number, place: 0 }),
        "{error}"
    );
    let kept = load(&path).unwrap();
    assert_eq!(kept.tree().to_wkt(), "POINT(1 2)", "the old file stays");
    assert_eq!(folder.names(), ["shape"], "nothing is left beside it");
}

#[test]
fn a_file_that_is_refused_says_number_and_place() {
    let folder = Folder::new("refused");
    let path = folder.file("shape");
    let kept = read("POINT(1 2)").unwrap().to_stored().unwrap();
    let number_and_place = |bytes: &[u8]| {
        fs::write(&path, bytes).unwrap();
        let refusal = refused_in(&path);
        (refusal.number, refusal.place)
    };
    assert_eq!(number_and_place(b""), (refusals::FAULTY_FIELD, 0));
    assert_eq!(number_and_place(&kept[..22]), (refusals::FAULTY_FIELD, 19));
    let extra = [&kept[..], b"x"].concat();
    assert_eq!(
        number_and_place(&extra),
        (refusals::FAULTY_FIELD, kept.len())
    );
    assert_eq!(
        number_and_place(b"\x01\xFF\xFF\x03"),
        (refusals::UNKNOWN_VERSION, 3)
    );
    assert_eq!(
        number_and_place(b"\x01\xFF\xFF\x02"),
        (refusals::FAULTY_FIELD, 0),
        "version 2 is known"
    );
    let mut ill = kept.clone();
    ill[18] = b'x';
    assert_eq!(number_and_place(&ill), (refusals::ILL_FORMED_STORE, 0));
    let told = load(&path).unwrap_err().to_string();
    assert!(told.starts_with(path.to_str().unwrap()), "{told}");
    assert!(told.ends_with("(refused 22 at byte 0)"), "{told}");
}

/// The refusal of a file that begins with bytes, and goes on with zeros up to a length.
fn refused_of_length(path: &Path, front: &[u8], length: u64) -> (u32, usize) {
    fs::write(path, front).unwrap();
    File::options()
        .write(true)
        .open(path)
        .unwrap()
        .set_len(length)
        .unwrap();
    let refusal = refused_in(path);
    (refusal.number, refusal.place)
}

#[test]
fn a_file_that_is_too_long_for_its_version_is_refused() {
    let folder = Folder::new("long");
    let path = folder.file("shape");
    let tree = read("POINT(1 2)").unwrap();
    for version in Version::ALL {
        let kept = tree.to_stored_as(version).unwrap();
        let limit = version.limit();
        let over = (refusals::TEXT_TOO_LONG, limit);
        let extra = (refusals::FAULTY_FIELD, kept.len());
        // a terabyte, of which no more is read than the limit and a byte
        assert_eq!(refused_of_length(&path, &kept, 1 << 40), over);
        assert_eq!(refused_of_length(&path, &kept, limit as u64 + 1), over);
        assert_eq!(refused_of_length(&path, &kept, limit as u64), extra);
    }
    let unknown = [1, 0, 0, 3];
    let over = (refusals::TEXT_TOO_LONG, 1_048_576);
    assert_eq!(refused_of_length(&path, &unknown, 2_000_000), over);
}

#[test]
fn a_file_that_cannot_be_had() {
    let folder = Folder::new("failed");
    let tree = read("POINT(1 2)").unwrap();
    assert!(matches!(
        load(&folder.file("none")),
        Err(FileError::Failed { .. })
    ));
    assert!(matches!(load(&folder.0), Err(FileError::Failed { .. })));
    let nowhere = folder.file("no folder").join("shape");
    assert!(matches!(tree.save(&nowhere), Err(FileError::Failed { .. })));
    fs::create_dir(folder.file("taken")).unwrap();
    assert!(matches!(
        tree.save(&folder.file("taken")),
        Err(FileError::Failed { .. })
    ));
    assert_eq!(folder.names(), ["taken"], "nothing is left beside it");
}

#[cfg(unix)]
#[test]
fn links_and_permissions_stay() {
    use std::os::unix::fs::{symlink, PermissionsExt};
    let folder = Folder::new("links");
    let (path, link) = (folder.file("shape"), folder.file("link"));
    read("POINT(1 2)").unwrap().save(&path).unwrap();
    fs::set_permissions(&path, fs::Permissions::from_mode(0o640)).unwrap();
    symlink(&path, &link).unwrap();
    read("POINT(3 4)").unwrap().save(&link).unwrap();
    assert!(fs::symlink_metadata(&link)
        .unwrap()
        .file_type()
        .is_symlink());
    assert_eq!(load(&path).unwrap().tree().to_wkt(), "POINT(3 4)");
    assert_eq!(
        fs::metadata(&path).unwrap().permissions().mode() & 0o777,
        0o640
    );
}
