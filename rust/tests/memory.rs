//! How much memory reading and writing take, and how much they leave: an allocator counts for each thread.
use doorhollow::{
    load, move_stored, move_stored_into, read, read_into, read_stored, read_stored_as,
    read_stored_into, Version, TEXT_LIMIT,
};
use std::alloc::{GlobalAlloc, Layout, System};
use std::cell::Cell;

struct Counting;

// What was taken before the count began, or by another thread, may be given back: so there may be less than nothing.
thread_local! {
    static HELD: Cell<isize> = const { Cell::new(0) };
    static MOST: Cell<isize> = const { Cell::new(0) };
}

fn take(bytes: usize) {
    HELD.set(HELD.get() + bytes as isize);
    MOST.set(MOST.get().max(HELD.get()));
}

fn give_back(bytes: usize) {
    HELD.set(HELD.get() - bytes as isize);
}

// SAFETY: all is left to the system's allocator, and counting allocates nothing.
unsafe impl GlobalAlloc for Counting {
    unsafe fn alloc(&self, layout: Layout) -> *mut u8 {
        take(layout.size());
        System.alloc(layout)
    }

    unsafe fn alloc_zeroed(&self, layout: Layout) -> *mut u8 {
        take(layout.size());
        System.alloc_zeroed(layout)
    }

    unsafe fn realloc(&self, old: *mut u8, layout: Layout, size: usize) -> *mut u8 {
        give_back(layout.size());
        take(size);
        System.realloc(old, layout, size)
    }

    unsafe fn dealloc(&self, old: *mut u8, layout: Layout) {
        give_back(layout.size());
        System.dealloc(old, layout)
    }
}

#[global_allocator]
static COUNTING: Counting = Counting;

/// What work answers, how many bytes it held at most, and how many are held by what it answers.
fn measured<T>(work: impl FnOnce() -> T) -> (T, usize, usize) {
    HELD.set(0);
    MOST.set(0);
    let answer = work();
    let (most, held) = (MOST.get(), HELD.get());
    (answer, most as usize, usize::try_from(held).unwrap())
}

// Four bytes for each place of the rows of one node and of two numbers.
const POINT_ROWS: usize = 4 * (3 + 2 * 2);

fn point_of_length(length: usize) -> String {
    let point = "POINT(1 2)";
    format!("{point}{}", " ".repeat(length - point.len()))
}

#[test]
fn a_text_over_the_limit_gets_no_row() {
    let text = point_of_length(TEXT_LIMIT + 1);
    let (answer, most, _) = measured(|| read(&text).map(drop));
    assert_eq!(answer.unwrap_err().number, 1);
    assert_eq!(most, 0);
}

#[test]
fn rows_that_are_not_used_are_given_back() {
    let text = point_of_length(TEXT_LIMIT);
    let (tree, most, held) = measured(|| read(&text).unwrap());
    assert_eq!(tree.node_count(), 1);
    assert_eq!((most, held), (10 * TEXT_LIMIT, POINT_ROWS));
}

#[test]
fn lent_rows_are_all_there_is() {
    let text = point_of_length(1_000_000);
    let (mut nodes, mut numbers, mut kept) = ([0; 3], [0; 4], [0; 29]);
    let (tree, most, _) = measured(|| read_into(&text, &mut nodes, &mut numbers).unwrap());
    assert_eq!(most, 0);
    let two = Version::Two;
    let (written, most, _) = measured(|| tree.write_stored_into(two, &mut kept));
    assert_eq!((written, most), (Ok(29), 0));
    let (tree, most, _) =
        measured(|| read_stored_into(&kept, two, &mut nodes, &mut numbers).unwrap());
    assert_eq!((tree.number(1), most), (Some("2"), 0));
    let mut back = [0; 23];
    let (moved, most, _) = measured(|| {
        move_stored_into(&kept, Version::One, &mut nodes, &mut numbers, &mut back).unwrap()
    });
    assert_eq!((moved.length, most), (23, 0));
}

#[test]
fn a_tree_is_stored_in_as_much_as_it_needs() {
    let text = format!("LINESTRING({}1 2)", "1 2,".repeat(200_000));
    let tree = read(&text).unwrap();
    let length = tree.stored_length(Version::Two);
    assert!(tree.stored_length(Version::One) > Version::One.limit());
    let (answer, most, _) = measured(|| tree.to_stored_as(Version::One));
    assert_eq!((answer.unwrap_err().number, most), (27, 0));
    let (kept, most, held) = measured(|| tree.to_stored().unwrap());
    assert_eq!((kept.len(), most, held), (length, length, length));
    let rows = 4 * (3 + 2 * tree.number_count());
    let (_back, most, held) = measured(|| read_stored(&kept).unwrap());
    assert_eq!((most, held), (rows, rows));
}

#[test]
fn stored_bytes_are_moved_in_as_much_as_they_need() {
    let texts = [
        "POINT(1 2)",
        "GEOMETRYCOLLECTION(POINT Z(1 2 3),POLYGON EMPTY)",
    ];
    for text in texts {
        let tree = read(text).unwrap();
        let rows = 4 * (3 * tree.node_count() + 2 * tree.number_count());
        for version in Version::ALL {
            let kept = tree.to_stored_as(version.other()).unwrap();
            let length = tree.stored_length(version);
            let (moved, most, held) = measured(|| move_stored(&kept, version).unwrap());
            assert_eq!((moved.len(), most, held), (length, rows + length, length));
        }
    }
    // what is too long for version 1 gets no room
    let text = format!("LINESTRING({}1 2)", "1 2,".repeat(200_000));
    let tree = read(&text).unwrap();
    let kept = tree.to_stored_as(Version::Two).unwrap();
    let (answer, most, _) = measured(|| move_stored(&kept, Version::One));
    assert_eq!(answer.unwrap_err().number, 27);
    assert_eq!(most, 4 * (3 + 2 * tree.number_count()));
}

#[test]
fn stored_bytes_over_the_limit_get_no_row() {
    for version in Version::ALL {
        let mut bytes = vec![0xFF; version.limit() + 1];
        bytes[..4].copy_from_slice(&[1, 0, 0, version.number()]);
        let (answer, most, _) = measured(|| read_stored_as(&bytes, version).map(drop));
        assert_eq!(answer.unwrap_err().number, 1, "{version}");
        assert_eq!(most, 0, "{version}");
        let (answer, most, _) = measured(|| move_stored(&bytes, version.other()));
        assert_eq!(answer.unwrap_err().number, 1, "{version}");
        assert_eq!(most, 0, "{version}");
    }
}

#[test]
fn a_head_that_tells_of_too_much_gets_no_more_rows_than_there_are_bytes_for() {
    let bytes = b"\x01\0\x09\x02\xFF\xFF\xFF\xFF\xFF\xFF\xFF\xFF";
    let (answer, most, _) = measured(|| read_stored(bytes).map(drop));
    assert_eq!(answer.unwrap_err().number, 25);
    // one node of nine bytes, or four numbers of three
    let rows = 4 * (3 + 4 * 2);
    assert_eq!(most, rows);
    let (answer, most, _) = measured(|| move_stored(bytes, Version::One));
    assert_eq!(answer.unwrap_err().number, 25);
    // and a head and a node of version 1
    assert_eq!(most, rows + 8 + 7);
}

/// A file that goes with the test.
struct Temporary(std::path::PathBuf);

impl Drop for Temporary {
    fn drop(&mut self) {
        let _ = std::fs::remove_file(&self.0);
    }
}

#[test]
fn a_loaded_tree_holds_its_bytes_and_its_rows() {
    let name = format!("doorhollow-memory-{}", std::process::id());
    let file = Temporary(std::env::temp_dir().join(name));
    let tree = read("POINT(1 2)").unwrap();
    for version in Version::ALL {
        let kept = tree.to_stored_as(version).unwrap();
        std::fs::write(&file.0, &kept).unwrap();
        let (loaded, _, held) = measured(|| load(&file.0).unwrap());
        assert_eq!(loaded.bytes(), kept);
        assert_eq!(held, kept.len() + POINT_ROWS, "{version}");
    }
}

#[cfg(unix)]
#[test]
fn an_endless_file_is_read_no_further_than_the_limit() {
    let (answer, most, _) = measured(|| load("/dev/zero").unwrap_err().to_string());
    assert!(answer.ends_with("(refused 1 at byte 1048576)"), "{answer}");
    // a vector grows by doubling
    assert!(most < 3 * Version::One.limit(), "{most} bytes were held");
}
