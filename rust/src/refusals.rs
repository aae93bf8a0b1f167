//! The numbers of the refusals by name, with their messages: made by tools/refusals from crates/refusals/table.txt.

/// `More bytes than may be read; the place is the limit`
pub const TEXT_TOO_LONG: u32 = 1;

/// `The text is not well-formed UTF-8`
pub const ILL_FORMED_UTF8: u32 = 2;

/// `No room for another node`
pub const NO_NODE_ROW: u32 = 3;

/// `No room for another number`
pub const NO_NUMBER_ROW: u32 = 4;

/// `More than 32 collections are open`
pub const TOO_DEEP: u32 = 5;

/// `Encountered non-ascii word`
pub const NON_ASCII_ROOT: u32 = 7;

/// `Invalid WKT format`
pub const NO_ROOT: u32 = 8;

/// `Invalid type encountered`
pub const UNKNOWN_NAME: u32 = 9;

/// `End of stream`
pub const NO_HEADER: u32 = 10;

/// `Unexpected word before open paren`
pub const UNKNOWN_HEADER: u32 = 11;

/// `Missing open parenthesis for type`
pub const NOT_OPENED: u32 = 12;

/// `Missing closing parenthesis for type`
pub const NOT_CLOSED: u32 = 13;

/// `Expected a number for the X coordinate`
pub const NO_X: u32 = 14;

/// `Expected a number for the Y coordinate`
pub const NO_Y: u32 = 15;

/// `Expected a number for the Z coordinate`
pub const NO_Z: u32 = 16;

/// `Expected a number for the M coordinate`
pub const NO_M: u32 = 17;

/// `Expected a word in GEOMETRYCOLLECTION`
pub const NO_CHILD: u32 = 18;

/// `Unsupported WKT prefix`
pub const UNSUPPORTED_NAME: u32 = 19;

/// `Invalid WKT; no whitespace between geometry type and EMPTY.`
pub const EMPTY_WITHOUT_SPACE: u32 = 20;

/// `Invalid WKT; no '(' character and not EMPTY`
pub const NEITHER_PAREN_NOR_EMPTY: u32 = 21;

/// `The rows are not a well-formed store`
pub const ILL_FORMED_STORE: u32 = 22;

/// `What is written is longer than the room`
pub const NO_ROOM: u32 = 23;

/// `The part that names the type is not ASCII`
pub const NON_ASCII: u32 = 24;

/// `A field is cut, missing, extra or of wrong tag or length`
pub const FAULTY_FIELD: u32 = 25;

/// `The stored bytes are of another version`
pub const UNKNOWN_VERSION: u32 = 26;

/// `A count, a number's text or the whole is too large for the stored form`
pub const DOES_NOT_FIT: u32 = 27;

/// `Unable to parse input number as the desired output type`
pub const NOTHING_AFTER_PLUS: u32 = 28;

/// `Unable to parse input number as the desired output type`
pub const NUMBER_GOES_WRONG: u32 = 29;

/// `An X or Y is inf or nan, which has no place in a box`
pub const NO_FINITE_NUMBER: u32 = 30;

/// `An X or Y has an exponent beyond 9,999 or is over 10,000,000,000`
pub const NUMBER_TOO_LARGE: u32 = 31;

pub(crate) fn message(number: u32) -> &'static str {
    match number {
        TEXT_TOO_LONG => "More bytes than may be read; the place is the limit",
        ILL_FORMED_UTF8 => "The text is not well-formed UTF-8",
        NO_NODE_ROW => "No room for another node",
        NO_NUMBER_ROW => "No room for another number",
        TOO_DEEP => "More than 32 collections are open",
        NON_ASCII_ROOT => "Encountered non-ascii word",
        NO_ROOT => "Invalid WKT format",
        UNKNOWN_NAME => "Invalid type encountered",
        NO_HEADER => "End of stream",
        UNKNOWN_HEADER => "Unexpected word before open paren",
        NOT_OPENED => "Missing open parenthesis for type",
        NOT_CLOSED => "Missing closing parenthesis for type",
        NO_X => "Expected a number for the X coordinate",
        NO_Y => "Expected a number for the Y coordinate",
        NO_Z => "Expected a number for the Z coordinate",
        NO_M => "Expected a number for the M coordinate",
        NO_CHILD => "Expected a word in GEOMETRYCOLLECTION",
        UNSUPPORTED_NAME => "Unsupported WKT prefix",
        EMPTY_WITHOUT_SPACE => "Invalid WKT; no whitespace between geometry type and EMPTY.",
        NEITHER_PAREN_NOR_EMPTY => "Invalid WKT; no '(' character and not EMPTY",
        ILL_FORMED_STORE => "The rows are not a well-formed store",
        NO_ROOM => "What is written is longer than the room",
        NON_ASCII => "The part that names the type is not ASCII",
        FAULTY_FIELD => "A field is cut, missing, extra or of wrong tag or length",
        UNKNOWN_VERSION => "The stored bytes are of another version",
        DOES_NOT_FIT => "A count, a number's text or the whole is too large for the stored form",
        NOTHING_AFTER_PLUS => "Unable to parse input number as the desired output type",
        NUMBER_GOES_WRONG => "Unable to parse input number as the desired output type",
        NO_FINITE_NUMBER => "An X or Y is inf or nan, which has no place in a box",
        NUMBER_TOO_LARGE => "An X or Y has an exponent beyond 9,999 or is over 10,000,000,000",
        _ => "Unknown refusal",
    }
}
