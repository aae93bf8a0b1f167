//! Trees kept as bytes, and in files.
use crate::beside::replace;
use crate::version::{FIELD_HEAD, VERSION_PLACE};
use crate::{calls, filled_rows, Refusal, Tree, Version, NUMBER_WIDTH};
use std::borrow::Cow;
use std::fmt;
use std::fs::{self, File};
use std::io::{self, Read};
use std::path::{Path, PathBuf};

/// Reads a tree from stored bytes of either version, which it borrows: the numbers' texts lie in them, so
/// [`Tree::text`] is the stored bytes, and no well-known text.
///
/// ```
/// let kept = doorhollow::read("POINT(1 2)")?.to_stored()?;
/// assert_eq!(kept, b"\x01\0\x05\x01\0\x01\0\x02\x02\0\x04\x01\0\0\x01\x03\0\x011\x03\0\x012");
/// assert_eq!(doorhollow::read_stored(&kept)?.to_wkt(), "POINT(1 2)");
/// # Ok::<(), doorhollow::Refusal>(())
/// ```
///
/// The version is that of [`Version::of`]. Refusals: 1, 22, 25 and 26.
pub fn read_stored(bytes: &[u8]) -> Result<Tree<'_>, Refusal> {
    read_stored_as(bytes, Version::of(bytes))
}

/// Reads a tree from stored bytes of one version, as [`read_stored`] does; those of the other are refused with 26.
pub fn read_stored_as(bytes: &[u8], version: Version) -> Result<Tree<'_>, Refusal> {
    let (nodes, numbers) = read_rows(bytes, version)?;
    Ok(Tree::new(bytes, Cow::Owned(nodes), Cow::Owned(numbers)))
}

/// Reads stored bytes of a version into rows that the caller lends, and allocates nothing, as
/// [`read_into`](crate::read_into) does with a text. As many node rows are enough as the bytes divided by 7 for version
/// 1 and by 9 for version 2, and as many number rows as the bytes divided by 3. Refusals: 1, 3, 4, 22, 25 and 26.
pub fn read_stored_into<'a>(
    bytes: &'a [u8],
    version: Version,
    nodes: &'a mut [u32],
    numbers: &'a mut [u32],
) -> Result<Tree<'a>, Refusal> {
    let used = calls::read_stored(version, bytes, nodes, numbers)?;
    Ok(Tree::lent(bytes, nodes, numbers, used))
}

fn read_rows(bytes: &[u8], version: Version) -> Result<(Vec<u32>, Vec<u32>), Refusal> {
    let (node_rows, number_rows) = version.rows_for(bytes);
    filled_rows(node_rows, number_rows, |nodes, numbers| {
        calls::read_stored(version, bytes, nodes, numbers)
    })
}

impl Tree<'_> {
    /// The tree as stored bytes: of version 1 where it fits that, and else of version 2. Refusal 27 where it fits
    /// neither.
    pub fn to_stored(&self) -> Result<Vec<u8>, Refusal> {
        // Rows that were read are a store, and the room is as long as the bytes: so 27 is all that version 1 refuses.
        self.to_stored_as(Version::One)
            .or_else(|_| self.to_stored_as(Version::Two))
    }

    /// The tree as stored bytes of a version. Refusal 27 where it is too large for that: a count over 65,535 in version
    /// 1, a number's text over 65,535 bytes, or more bytes in all than [`Version::limit`].
    pub fn to_stored_as(&self, version: Version) -> Result<Vec<u8>, Refusal> {
        let length = self.stored_length(version);
        // More bytes than the limit are refused without any room.
        let room = if length <= version.limit() { length } else { 0 };
        let mut out = vec![0; room];
        let length = self.write_stored_into(version, &mut out)?;
        out.truncate(length);
        Ok(out)
    }

    /// Writes the stored bytes of a version into a room that the caller lends, and answers how many they are. Refusals
    /// 27 and 23; then the room is all zero.
    pub fn write_stored_into(&self, version: Version, out: &mut [u8]) -> Result<usize, Refusal> {
        let (nodes, numbers) = (self.node_rows(), self.number_rows());
        calls::write_stored_rows(version, self.text(), nodes, numbers, out)
    }

    /// How many stored bytes the tree has in a version that it fits.
    pub fn stored_length(&self, version: Version) -> usize {
        let texts: usize = self
            .number_rows()
            .chunks_exact(NUMBER_WIDTH)
            .map(|row| FIELD_HEAD + row[1] as usize)
            .sum();
        version.head_length() + self.node_count() * version.node_length() + texts
    }

    /// Saves the tree in a file as stored bytes, of version 1 where it fits that, and else of version 2.
    ///
    /// The bytes are written to a new file beside it, which is synced to the disk and then takes the name: whenever a
    /// crash comes, the file is the old one or the new one. A link is followed, and an old file's permissions are kept.
    pub fn save<P: AsRef<Path> + ?Sized>(&self, path: &P) -> Result<(), FileError> {
        let path = path.as_ref();
        let bytes = self
            .to_stored()
            .map_err(|refusal| FileError::refused(path, refusal))?;
        // Where there is no file yet, there is no link to follow.
        let target = fs::canonicalize(path).unwrap_or_else(|_| path.to_path_buf());
        replace(&target, &bytes).map_err(|error| FileError::failed(path, error))
    }
}

/// A tree that was loaded from a file, with the stored bytes that its numbers' texts lie in.
#[derive(Clone, Debug)]
pub struct Loaded {
    bytes: Vec<u8>,
    nodes: Vec<u32>,
    numbers: Vec<u32>,
}

impl Loaded {
    /// The tree.
    pub fn tree(&self) -> Tree<'_> {
        Tree::new(
            &self.bytes,
            Cow::Borrowed(&self.nodes),
            Cow::Borrowed(&self.numbers),
        )
    }

    /// The stored bytes, as they stood in the file.
    pub fn bytes(&self) -> &[u8] {
        &self.bytes
    }

    /// The version of the stored bytes.
    pub fn version(&self) -> Version {
        Version::of(&self.bytes)
    }
}

/// Loads a tree that was saved, in either version. Of a file that is too long for the version that it names no more is
/// read than shows that.
pub fn load<P: AsRef<Path> + ?Sized>(path: &P) -> Result<Loaded, FileError> {
    let path = path.as_ref();
    let bytes = read_file(path).map_err(|error| FileError::failed(path, error))?;
    let (nodes, numbers) = read_rows(&bytes, Version::of(&bytes))
        .map_err(|refusal| FileError::refused(path, refusal))?;
    Ok(Loaded {
        bytes,
        nodes,
        numbers,
    })
}

/// The bytes of a file, but of one that is too long for the version that it names no more than one byte over the limit.
pub(crate) fn read_file(path: &Path) -> io::Result<Vec<u8>> {
    let file = File::open(path)?;
    let mut bytes = Vec::new();
    read_up_to(VERSION_PLACE + 1, &file, &mut bytes)?;
    let limit = Version::of(&bytes).limit();
    read_up_to(limit + 1, &file, &mut bytes)?;
    bytes.shrink_to_fit();
    Ok(bytes)
}

// Reads on until there are so many bytes, or the file ends.
fn read_up_to(length: usize, file: &File, bytes: &mut Vec<u8>) -> io::Result<usize> {
    let left = length - bytes.len();
    file.take(left as u64).read_to_end(bytes)
}

/// Why a tree wasn't saved or loaded, or a folder of them wasn't [moved](crate::shelf::move_folder), and where.
#[derive(Debug)]
pub enum FileError {
    /// The file couldn't be read or written, or the folder couldn't be listed.
    Failed {
        /// The file or the folder.
        path: PathBuf,
        /// What the system says.
        error: io::Error,
    },
    /// The file's bytes are no stored tree, or the tree doesn't fit one.
    Refused {
        /// The file.
        path: PathBuf,
        /// With the place in the file's bytes.
        refusal: Refusal,
    },
}

impl FileError {
    pub(crate) fn failed(path: &Path, error: io::Error) -> FileError {
        let path = path.to_path_buf();
        FileError::Failed { path, error }
    }

    pub(crate) fn refused(path: &Path, refusal: Refusal) -> FileError {
        let path = path.to_path_buf();
        FileError::Refused { path, refusal }
    }
}

impl fmt::Display for FileError {
    fn fmt(&self, f: &mut fmt::Formatter<'_>) -> fmt::Result {
        match self {
            FileError::Failed { path, error } => write!(f, "{}: {error}", path.display()),
            FileError::Refused { path, refusal } => write!(f, "{}: {refusal}", path.display()),
        }
    }
}

impl std::error::Error for FileError {
    fn source(&self) -> Option<&(dyn std::error::Error + 'static)> {
        match self {
            FileError::Failed { error, .. } => Some(error),
            FileError::Refused { refusal, .. } => Some(refusal),
        }
    }
}
