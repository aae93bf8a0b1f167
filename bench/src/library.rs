//! The proved library's entries for C. A slice goes as a pointer and a length.

const ANSWER_PLACES: usize = 4;
const MOVE_PLACES: usize = 5;

type ReadStored = unsafe extern "C" fn(
    *const u8,
    usize,
    *mut u32,
    usize,
    *mut u32,
    usize,
    *mut [u64; ANSWER_PLACES],
);

type WriteStored = unsafe extern "C" fn(
    *const u8,
    usize,
    *const u32,
    usize,
    *const u32,
    usize,
    *mut u8,
    usize,
    *mut [u64; ANSWER_PLACES],
);

type MoveStored = unsafe extern "C" fn(
    *const u8,
    usize,
    *mut u32,
    usize,
    *mut u32,
    usize,
    *mut u8,
    usize,
    *mut [u64; MOVE_PLACES],
);

extern "C" {
    fn doorhollow_read(
        text: *const u8,
        text_length: usize,
        nodes: *mut u32,
        nodes_length: usize,
        numbers: *mut u32,
        numbers_length: usize,
        answer: *mut [u64; ANSWER_PLACES],
    );
    fn doorhollow_write(
        text: *const u8,
        text_length: usize,
        nodes: *const u32,
        nodes_length: usize,
        numbers: *const u32,
        numbers_length: usize,
        out: *mut u8,
        out_length: usize,
        answer: *mut [u64; ANSWER_PLACES],
    );
    fn doorhollow_read_stored_1(
        bytes: *const u8,
        byte_count: usize,
        nodes: *mut u32,
        nodes_length: usize,
        numbers: *mut u32,
        numbers_length: usize,
        answer: *mut [u64; ANSWER_PLACES],
    );
    fn doorhollow_read_stored_2(
        bytes: *const u8,
        byte_count: usize,
        nodes: *mut u32,
        nodes_length: usize,
        numbers: *mut u32,
        numbers_length: usize,
        answer: *mut [u64; ANSWER_PLACES],
    );
    fn doorhollow_write_stored_1(
        text: *const u8,
        text_length: usize,
        nodes: *const u32,
        nodes_length: usize,
        numbers: *const u32,
        numbers_length: usize,
        out: *mut u8,
        out_length: usize,
        answer: *mut [u64; ANSWER_PLACES],
    );
    fn doorhollow_write_stored_2(
        text: *const u8,
        text_length: usize,
        nodes: *const u32,
        nodes_length: usize,
        numbers: *const u32,
        numbers_length: usize,
        out: *mut u8,
        out_length: usize,
        answer: *mut [u64; ANSWER_PLACES],
    );
    fn doorhollow_move_stored_1_to_2(
        bytes: *const u8,
        byte_count: usize,
        nodes: *mut u32,
        nodes_length: usize,
        numbers: *mut u32,
        numbers_length: usize,
        out: *mut u8,
        out_length: usize,
        answer: *mut [u64; MOVE_PLACES],
    );
    fn doorhollow_move_stored_2_to_1(
        bytes: *const u8,
        byte_count: usize,
        nodes: *mut u32,
        nodes_length: usize,
        numbers: *mut u32,
        numbers_length: usize,
        out: *mut u8,
        out_length: usize,
        answer: *mut [u64; MOVE_PLACES],
    );
    fn doorhollow_boxes(
        text: *const u8,
        text_length: usize,
        nodes: *const u32,
        nodes_length: usize,
        numbers: *const u32,
        numbers_length: usize,
        table: *mut i64,
        table_length: usize,
        answer: *mut [u64; ANSWER_PLACES],
    );
}

/// The versions of the stored form.
#[derive(Clone, Copy, Debug, PartialEq, Eq, Hash)]
pub enum Version {
    One,
    Two,
}

pub const VERSIONS: [Version; 2] = [Version::One, Version::Two];

impl Version {
    pub fn number(self) -> usize {
        match self {
            Version::One => 1,
            Version::Two => 2,
        }
    }

    /// The one that stored bytes of this version are moved to.
    pub fn other(self) -> Version {
        match self {
            Version::One => Version::Two,
            Version::Two => Version::One,
        }
    }

    fn reader(self) -> ReadStored {
        match self {
            Version::One => doorhollow_read_stored_1,
            Version::Two => doorhollow_read_stored_2,
        }
    }

    fn writer(self) -> WriteStored {
        match self {
            Version::One => doorhollow_write_stored_1,
            Version::Two => doorhollow_write_stored_2,
        }
    }

    fn mover(self) -> MoveStored {
        match self {
            Version::One => doorhollow_move_stored_1_to_2,
            Version::Two => doorhollow_move_stored_2_to_1,
        }
    }
}

#[derive(Clone, Copy, Debug, PartialEq, Eq)]
pub struct ReadAnswer {
    pub number: u64,
    pub place: u64,
    pub nodes: u64,
    pub numbers: u64,
}

#[derive(Clone, Copy, Debug, PartialEq, Eq)]
pub struct WriteAnswer {
    pub number: u64,
    pub place: u64,
    pub length: u64,
}

pub fn read(text: &[u8], nodes: &mut [u32], numbers: &mut [u32]) -> ReadAnswer {
    let mut answer = [0; ANSWER_PLACES];
    // SAFETY: each pointer comes from a slice, with that slice's length, and the slices
    // that are written to are lent for writing.
    unsafe {
        doorhollow_read(
            text.as_ptr(),
            text.len(),
            nodes.as_mut_ptr(),
            nodes.len(),
            numbers.as_mut_ptr(),
            numbers.len(),
            &mut answer,
        );
    }
    let [number, place, nodes, numbers] = answer;
    ReadAnswer {
        number,
        place,
        nodes,
        numbers,
    }
}

pub fn write(text: &[u8], nodes: &[u32], numbers: &[u32], out: &mut [u8]) -> WriteAnswer {
    let mut answer = [0; ANSWER_PLACES];
    // SAFETY: as in `read`.
    unsafe {
        doorhollow_write(
            text.as_ptr(),
            text.len(),
            nodes.as_ptr(),
            nodes.len(),
            numbers.as_ptr(),
            numbers.len(),
            out.as_mut_ptr(),
            out.len(),
            &mut answer,
        );
    }
    let [number, place, length, _] = answer;
    WriteAnswer {
        number,
        place,
        length,
    }
}

pub fn read_stored(
    version: Version,
    bytes: &[u8],
    nodes: &mut [u32],
    numbers: &mut [u32],
) -> ReadAnswer {
    let mut answer = [0; ANSWER_PLACES];
    let reader = version.reader();
    // SAFETY: as in `read`.
    unsafe {
        reader(
            bytes.as_ptr(),
            bytes.len(),
            nodes.as_mut_ptr(),
            nodes.len(),
            numbers.as_mut_ptr(),
            numbers.len(),
            &mut answer,
        );
    }
    let [number, place, nodes, numbers] = answer;
    ReadAnswer {
        number,
        place,
        nodes,
        numbers,
    }
}

pub fn write_stored(
    version: Version,
    text: &[u8],
    nodes: &[u32],
    numbers: &[u32],
    out: &mut [u8],
) -> WriteAnswer {
    let mut answer = [0; ANSWER_PLACES];
    let writer = version.writer();
    // SAFETY: as in `read`.
    unsafe {
        writer(
            text.as_ptr(),
            text.len(),
            nodes.as_ptr(),
            nodes.len(),
            numbers.as_ptr(),
            numbers.len(),
            out.as_mut_ptr(),
            out.len(),
            &mut answer,
        );
    }
    let [number, place, length, _] = answer;
    WriteAnswer {
        number,
        place,
        length,
    }
}

/// Moves stored bytes of a version to the other one. The number of the answer.
pub fn move_stored(
    from: Version,
    bytes: &[u8],
    nodes: &mut [u32],
    numbers: &mut [u32],
    out: &mut [u8],
) -> u64 {
    let mut answer = [0; MOVE_PLACES];
    let mover = from.mover();
    // SAFETY: as in `read`.
    unsafe {
        mover(
            bytes.as_ptr(),
            bytes.len(),
            nodes.as_mut_ptr(),
            nodes.len(),
            numbers.as_mut_ptr(),
            numbers.len(),
            out.as_mut_ptr(),
            out.len(),
            &mut answer,
        );
    }
    let [number, ..] = answer;
    number
}

/// The number of the answer.
pub fn boxes(text: &[u8], nodes: &[u32], numbers: &[u32], table: &mut [i64]) -> u64 {
    let mut answer = [0; ANSWER_PLACES];
    // SAFETY: as in `read`.
    unsafe {
        doorhollow_boxes(
            text.as_ptr(),
            text.len(),
            nodes.as_ptr(),
            nodes.len(),
            numbers.as_ptr(),
            numbers.len(),
            table.as_mut_ptr(),
            table.len(),
            &mut answer,
        );
    }
    let [number, ..] = answer;
    number
}
