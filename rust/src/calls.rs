//! The calls of the proved library: all that is unsafe stands here.
use crate::{Dimension, Fault, Kind, Moved, Refusal, Version};

/// How many places of a slice a node's row takes: kind, dimension, parts.
pub const NODE_WIDTH: usize = 3;

/// How many places of a slice a number's row takes: start and length of its text.
pub const NUMBER_WIDTH: usize = 2;

/// How many places of a table the row of a box takes: whether there is one, and its four sides.
pub const BOX_WIDTH: usize = 5;

const ANSWER_PLACES: usize = 4;

type Answer = [u64; ANSWER_PLACES];

const MOVE_PLACES: usize = 5;

type MoveAnswer = [u64; MOVE_PLACES];

extern "C" {
    fn doorhollow_enough_rows(text_length: usize) -> usize;

    fn doorhollow_read(
        text: *const u8,
        text_length: usize,
        nodes: *mut u32,
        node_places: usize,
        numbers: *mut u32,
        number_places: usize,
        answer: *mut Answer,
    );

    fn doorhollow_write(
        text: *const u8,
        text_length: usize,
        nodes: *const u32,
        node_places: usize,
        numbers: *const u32,
        number_places: usize,
        out: *mut u8,
        room: usize,
        answer: *mut Answer,
    );

    fn doorhollow_read_stored_1(
        bytes: *const u8,
        byte_count: usize,
        nodes: *mut u32,
        node_places: usize,
        numbers: *mut u32,
        number_places: usize,
        answer: *mut Answer,
    );

    fn doorhollow_read_stored_2(
        bytes: *const u8,
        byte_count: usize,
        nodes: *mut u32,
        node_places: usize,
        numbers: *mut u32,
        number_places: usize,
        answer: *mut Answer,
    );

    fn doorhollow_write_stored_1(
        text: *const u8,
        text_length: usize,
        nodes: *const u32,
        node_places: usize,
        numbers: *const u32,
        number_places: usize,
        out: *mut u8,
        room: usize,
        answer: *mut Answer,
    );

    fn doorhollow_write_stored_2(
        text: *const u8,
        text_length: usize,
        nodes: *const u32,
        node_places: usize,
        numbers: *const u32,
        number_places: usize,
        out: *mut u8,
        room: usize,
        answer: *mut Answer,
    );

    fn doorhollow_move_stored_1_to_2(
        bytes: *const u8,
        byte_count: usize,
        nodes: *mut u32,
        node_places: usize,
        numbers: *mut u32,
        number_places: usize,
        out: *mut u8,
        room: usize,
        answer: *mut MoveAnswer,
    );

    fn doorhollow_move_stored_2_to_1(
        bytes: *const u8,
        byte_count: usize,
        nodes: *mut u32,
        node_places: usize,
        numbers: *mut u32,
        number_places: usize,
        out: *mut u8,
        room: usize,
        answer: *mut MoveAnswer,
    );

    fn doorhollow_strict(
        text: *const u8,
        text_length: usize,
        nodes: *const u32,
        node_places: usize,
        numbers: *const u32,
        number_places: usize,
        answer: *mut Answer,
    );

    fn doorhollow_boxes(
        text: *const u8,
        text_length: usize,
        nodes: *const u32,
        node_places: usize,
        numbers: *const u32,
        number_places: usize,
        table: *mut i64,
        table_places: usize,
        answer: *mut Answer,
    );

    fn doorhollow_infer_type(text: *const u8, text_length: usize, answer: *mut Answer);

    fn doorhollow_expected(text: *const u8, text_length: usize, number: u32, place: usize) -> u32;

    fn doorhollow_token(
        text: *const u8,
        text_length: usize,
        from: usize,
        answer: *mut Answer,
    ) -> usize;
}

// The entries that read are called alike, and so are those that write, and those that move.
type Reader = unsafe extern "C" fn(
    text: *const u8,
    text_length: usize,
    nodes: *mut u32,
    node_places: usize,
    numbers: *mut u32,
    number_places: usize,
    answer: *mut Answer,
);
type Writer = unsafe extern "C" fn(
    text: *const u8,
    text_length: usize,
    nodes: *const u32,
    node_places: usize,
    numbers: *const u32,
    number_places: usize,
    out: *mut u8,
    room: usize,
    answer: *mut Answer,
);
type Mover = unsafe extern "C" fn(
    bytes: *const u8,
    byte_count: usize,
    nodes: *mut u32,
    node_places: usize,
    numbers: *mut u32,
    number_places: usize,
    out: *mut u8,
    room: usize,
    answer: *mut MoveAnswer,
);

// The number and the place stand in front of every answer but that of the strict check, which has no place.
fn accepted<const PLACES: usize>(answer: [u64; PLACES]) -> Result<[u64; PLACES], Refusal> {
    match answer[0] {
        0 => Ok(answer),
        number => Err(Refusal {
            number: number as u32,
            place: answer[1] as usize,
        }),
    }
}

/// How many node rows, and how many number rows, are enough for a text of so many bytes. It is proved that `read_into`
/// with that much room answers neither 3 nor 4.
pub fn enough_rows(text_length: usize) -> usize {
    // SAFETY: a number goes in, and a number comes out.
    unsafe { doorhollow_enough_rows(text_length) }
}

/// The counts of the used rows.
///
/// # Safety
///
/// The reader is one of the library's entries.
unsafe fn read_by(
    reader: Reader,
    text: &[u8],
    nodes: &mut [u32],
    numbers: &mut [u32],
) -> Result<(usize, usize), Refusal> {
    let mut answer = [0; ANSWER_PLACES];
    // SAFETY: each pointer and length is a slice's, the answer has its four places, and none of the slices that are
    // written overlaps another one, as each is borrowed for itself.
    unsafe {
        reader(
            text.as_ptr(),
            text.len(),
            nodes.as_mut_ptr(),
            nodes.len(),
            numbers.as_mut_ptr(),
            numbers.len(),
            &mut answer,
        );
    }
    accepted(answer).map(|answer| (answer[2] as usize, answer[3] as usize))
}

/// The counts of the used rows.
pub(crate) fn read(
    text: &[u8],
    nodes: &mut [u32],
    numbers: &mut [u32],
) -> Result<(usize, usize), Refusal> {
    // SAFETY: it is an entry.
    unsafe { read_by(doorhollow_read, text, nodes, numbers) }
}

/// The counts of the used rows.
pub(crate) fn read_stored(
    version: Version,
    bytes: &[u8],
    nodes: &mut [u32],
    numbers: &mut [u32],
) -> Result<(usize, usize), Refusal> {
    let reader: Reader = match version {
        Version::One => doorhollow_read_stored_1,
        Version::Two => doorhollow_read_stored_2,
    };
    // SAFETY: both are entries.
    unsafe { read_by(reader, bytes, nodes, numbers) }
}

/// How many bytes were written.
///
/// # Safety
///
/// The writer is one of the library's entries.
unsafe fn write_by(
    writer: Writer,
    text: &[u8],
    nodes: &[u32],
    numbers: &[u32],
    out: &mut [u8],
) -> Result<usize, Refusal> {
    let mut answer = [0; ANSWER_PLACES];
    // SAFETY: as in `read_by`.
    unsafe {
        writer(
            text.as_ptr(),
            text.len(),
            nodes.as_ptr(),
            nodes.len(),
            numbers.as_ptr(),
            numbers.len(),
            out.as_mut_ptr(),
            out.len(),
            &mut answer,
        );
    }
    accepted(answer).map(|answer| answer[2] as usize)
}

/// Writes the canonical text of rows into a room, and answers how many bytes it has. The rows are the used ones only.
/// What lies after the text is zero, and after a refusal, 22 or 23, all of the room.
pub fn write_rows(
    text: &[u8],
    nodes: &[u32],
    numbers: &[u32],
    out: &mut [u8],
) -> Result<usize, Refusal> {
    // SAFETY: it is an entry.
    unsafe { write_by(doorhollow_write, text, nodes, numbers, out) }
}

/// Writes rows as stored bytes of a version into a room, and answers how many they are. The rows are the used ones
/// only. What lies after the bytes is zero, and after a refusal, 22, 27 or 23, all of the room.
pub fn write_stored_rows(
    version: Version,
    text: &[u8],
    nodes: &[u32],
    numbers: &[u32],
    out: &mut [u8],
) -> Result<usize, Refusal> {
    let writer: Writer = match version {
        Version::One => doorhollow_write_stored_1,
        Version::Two => doorhollow_write_stored_2,
    };
    // SAFETY: both are entries.
    unsafe { write_by(writer, text, nodes, numbers, out) }
}

/// What was written, and how many rows are used.
///
/// # Safety
///
/// The mover is one of the library's entries.
unsafe fn move_by(
    mover: Mover,
    bytes: &[u8],
    nodes: &mut [u32],
    numbers: &mut [u32],
    out: &mut [u8],
) -> Result<Moved, Refusal> {
    let mut answer = [0; MOVE_PLACES];
    // SAFETY: as in `read_by`, but that the answer has five places.
    unsafe {
        mover(
            bytes.as_ptr(),
            bytes.len(),
            nodes.as_mut_ptr(),
            nodes.len(),
            numbers.as_mut_ptr(),
            numbers.len(),
            out.as_mut_ptr(),
            out.len(),
            &mut answer,
        );
    }
    accepted(answer).map(|[_, _, length, nodes, numbers]| Moved {
        length: length as usize,
        nodes: nodes as usize,
        numbers: numbers as usize,
    })
}

/// Moves stored bytes of the other version to this one.
pub(crate) fn move_stored(
    to: Version,
    bytes: &[u8],
    nodes: &mut [u32],
    numbers: &mut [u32],
    out: &mut [u8],
) -> Result<Moved, Refusal> {
    let mover: Mover = match to {
        Version::One => doorhollow_move_stored_2_to_1,
        Version::Two => doorhollow_move_stored_1_to_2,
    };
    // SAFETY: both are entries.
    unsafe { move_by(mover, bytes, nodes, numbers, out) }
}

/// Checks rows by the strict rules. `Ok(None)` says that none is broken; refusal 22, that the rows are no store.
pub fn strict_rows(text: &[u8], nodes: &[u32], numbers: &[u32]) -> Result<Option<Fault>, Refusal> {
    let mut answer = [0; ANSWER_PLACES];
    // SAFETY: as in `read_by`.
    unsafe {
        doorhollow_strict(
            text.as_ptr(),
            text.len(),
            nodes.as_ptr(),
            nodes.len(),
            numbers.as_ptr(),
            numbers.len(),
            &mut answer,
        );
    }
    let [number, letter, row, _] = answer;
    match (number, letter) {
        (0, 0) => Ok(None),
        (0, letter) => Ok(Some(Fault {
            rule: letter as u8 as char,
            row: row as usize,
        })),
        (number, _) => Err(Refusal {
            number: number as u32,
            place: 0,
        }),
    }
}

/// Fills a table with a row for each node: 1, lowest X, highest X, lowest Y, highest Y, in the units of
/// [`Bounds`](crate::Bounds), or five zeros for a node without coordinates. The rows that are lent are the used ones only.
/// What lies after the filled rows is zero, and after a refusal, 22, 23, 30 or 31, all of the table.
pub fn box_rows(
    text: &[u8],
    nodes: &[u32],
    numbers: &[u32],
    table: &mut [i64],
) -> Result<(), Refusal> {
    let mut answer = [0; ANSWER_PLACES];
    // SAFETY: as in `read_by`.
    unsafe {
        doorhollow_boxes(
            text.as_ptr(),
            text.len(),
            nodes.as_ptr(),
            nodes.len(),
            numbers.as_ptr(),
            numbers.len(),
            table.as_mut_ptr(),
            table.len(),
            &mut answer,
        );
    }
    accepted(answer).map(|_| ())
}

pub(crate) fn infer_type(text: &[u8]) -> Result<(Kind, Dimension), Refusal> {
    let mut answer = [0; ANSWER_PLACES];
    // SAFETY: as in `read_by`.
    unsafe { doorhollow_infer_type(text.as_ptr(), text.len(), &mut answer) }
    accepted(answer).map(|answer| {
        let kind = Kind::from_number(answer[2]).expect("an accepted answer has a kind");
        let dimension =
            Dimension::from_number(answer[3]).expect("an accepted answer has a dimension");
        (kind, dimension)
    })
}

/// The number of what was expected where a text was refused, or 0.
pub(crate) fn expected(text: &[u8], number: u32, place: usize) -> u32 {
    // SAFETY: pointer and length are a slice's, and a number comes out.
    unsafe { doorhollow_expected(text.as_ptr(), text.len(), number, place) }
}

/// The sort, the place, the start and the length of the token from a place on, and the place to ask from for the next.
pub(crate) fn token(text: &[u8], from: usize) -> (Answer, usize) {
    let mut answer = [0; ANSWER_PLACES];
    // SAFETY: as in `read_by`.
    let next = unsafe { doorhollow_token(text.as_ptr(), text.len(), from, &mut answer) };
    (answer, next)
}
