//! The versions of the stored form, and what each has of its own.
use std::fmt;

/// What a field has before its content: a tag of one byte, and a length of two.
pub(crate) const FIELD_HEAD: usize = 3;

/// Where stored bytes name their version: behind the tag and the length of the head.
pub(crate) const VERSION_PLACE: usize = FIELD_HEAD;

const NODE_COUNT_PLACE: usize = VERSION_PLACE + 1;

/// A version of the stored form.
///
/// Stored bytes are fields: a tag of one byte, a length of two, the higher first, and the content. Tag 1 once, first:
/// the version in one byte, how many nodes there are, how many numbers; then tag 2 for each node: its kind and its
/// dimension in one byte each, its parts; then tag 3 for each number: its text. The two counts and the parts have two
/// bytes each in version 1 and four in version 2. A length has two in both, so that a number's text of more than 65,535
/// bytes fits neither.
///
/// ```
/// use doorhollow::Version;
///
/// let point = doorhollow::read("POINT(1 2)")?;
/// let first = point.to_stored_as(Version::One)?;
/// assert_eq!(first, b"\x01\0\x05\x01\0\x01\0\x02\x02\0\x04\x01\0\0\x01\x03\0\x011\x03\0\x012");
/// let second = point.to_stored_as(Version::Two)?;
/// assert_eq!(second[..12], *b"\x01\0\x09\x02\0\0\0\x01\0\0\0\x02");
/// assert_eq!(second[12..], *b"\x02\0\x06\x01\0\0\0\0\x01\x03\0\x011\x03\0\x012");
/// assert_eq!((Version::of(&first), Version::of(&second)), (Version::One, Version::Two));
/// # Ok::<(), doorhollow::Refusal>(())
/// ```
#[derive(Clone, Copy, Debug, PartialEq, Eq, PartialOrd, Ord, Hash)]
pub enum Version {
    /// Counts up to 65,535, and at most 1,048,576 bytes in all.
    One = 1,
    /// Counts up to 4,294,967,295, and at most 67,108,864 bytes in all.
    Two = 2,
}

impl Version {
    /// Both, the smaller one first.
    pub const ALL: [Version; 2] = [Version::One, Version::Two];

    /// The version that stored bytes name: 2 where their byte 3 is 2, and else 1, whose reader says what is wrong with
    /// bytes that name no version.
    pub fn of(bytes: &[u8]) -> Version {
        match bytes.get(VERSION_PLACE) {
            Some(&number) if number == Version::Two.number() => Version::Two,
            _ => Version::One,
        }
    }

    /// The one that isn't this one.
    pub const fn other(self) -> Version {
        match self {
            Version::One => Version::Two,
            Version::Two => Version::One,
        }
    }

    /// The number that stored bytes name it by.
    pub const fn number(self) -> u8 {
        self as u8
    }

    /// The most bytes that a stored tree may have.
    pub const fn limit(self) -> usize {
        match self {
            Version::One => 1_048_576,
            Version::Two => 67_108_864,
        }
    }

    /// How many bytes a count has, and so the parts of a node.
    const fn width(self) -> usize {
        match self {
            Version::One => 2,
            Version::Two => 4,
        }
    }

    /// How many bytes the field of the head has.
    pub(crate) const fn head_length(self) -> usize {
        NODE_COUNT_PLACE + 2 * self.width()
    }

    /// How many bytes the field of a node has: kind, dimension and parts behind what every field has.
    pub(crate) const fn node_length(self) -> usize {
        FIELD_HEAD + 2 + self.width()
    }

    fn count_at(self, bytes: &[u8], place: usize) -> usize {
        let count = bytes.get(place..place + self.width()).unwrap_or_default();
        count
            .iter()
            .fold(0, |high, low| high << 8 | usize::from(*low))
    }

    /// As many node rows and number rows as the head tells of, and no more than the bytes have fields: with these
    /// nothing is refused for want of rows. Bytes over the limit are refused without any row.
    pub(crate) fn rows_for(self, bytes: &[u8]) -> (usize, usize) {
        if bytes.len() > self.limit() {
            return (0, 0);
        }
        let nodes = self.count_at(bytes, NODE_COUNT_PLACE);
        let numbers = self.count_at(bytes, NODE_COUNT_PLACE + self.width());
        (
            nodes.min(bytes.len() / self.node_length()),
            numbers.min(bytes.len() / FIELD_HEAD),
        )
    }
}

impl fmt::Display for Version {
    fn fmt(&self, f: &mut fmt::Formatter<'_>) -> fmt::Result {
        write!(f, "version {}", self.number())
    }
}
