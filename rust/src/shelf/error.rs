use crate::{Error, Key, Root};
use std::fmt;
use std::io;
use std::path::PathBuf;

/// Why a call over a shelf has no answer.
#[derive(Debug)]
#[non_exhaustive]
pub enum ShelfError {
    /// The library refused: a call over a part, or over the list where no part is named.
    Refused { error: Error, part: Option<u16> },
    /// A file of the folder can't be read or written.
    File { path: PathBuf, error: io::Error },
    /// The folder is no shelf.
    NoShelf { folder: PathBuf, why: &'static str },
    /// The list is a store of the old form, and was to be one of today's.
    OldForm { error: Error },
    /// The list names the part in a version, and it has no file.
    LostPart { part: u16, version: u32 },
    /// The part's file has another root in a version than the list: it is older, newer, another part's, or changed.
    OtherPart { part: u16, version: u32 },
    /// The part holds a grant whose key doesn't begin with the part's bits.
    Stray { part: u16, key: Key },
    /// The list has a key that isn't some part's: it is that of a shelf with other bits.
    OtherBits { key: Key },
    /// The name of the part's file says something else than its header and its counts.
    OtherName { part: u16 },
    /// Two files of the part have another root each in a version, and there is no list to say which one counts.
    TwoParts { part: u16, version: u32 },
    /// A rescue would give back a list with this root, which isn't the one that was signed.
    OtherRoot { root: Root },
    /// One publishing takes so many rounds: more than 1,024 records go to a part, or more than 1,024 parts change.
    Rounds { rounds: usize },
}

impl From<Error> for ShelfError {
    fn from(error: Error) -> ShelfError {
        let part = None;
        ShelfError::Refused { error, part }
    }
}

impl ShelfError {
    pub(crate) fn of(part: u16) -> impl Fn(Error) -> ShelfError {
        let part = Some(part);
        move |error| ShelfError::Refused { error, part }
    }

    /// The number of refusal that it comes to: a part that isn't the one that the list names makes the shelf unsound.
    pub fn refusal(&self) -> Option<Error> {
        match self {
            ShelfError::Refused { error, .. } | ShelfError::OldForm { error } => Some(*error),
            ShelfError::File { .. } | ShelfError::NoShelf { .. } | ShelfError::OtherRoot { .. } => {
                None
            }
            ShelfError::Rounds { .. } => Some(Error::BatchForm),
            _ => Some(Error::Unsound),
        }
    }
}

impl fmt::Display for ShelfError {
    fn fmt(&self, f: &mut fmt::Formatter<'_>) -> fmt::Result {
        match self {
            ShelfError::Refused { error, part: None } => write!(f, "the list: {error}"),
            ShelfError::Refused { error, part: Some(part) } => write!(f, "part {part:03x}: {error}"),
            ShelfError::File { path, error } => write!(f, "{}: {error}", path.display()),
            ShelfError::NoShelf { folder, why } => write!(f, "{} is no shelf: {why}", folder.display()),
            ShelfError::OldForm { error } => write!(f, "the list: {error}: it is of the old form"),
            ShelfError::LostPart { part, version } => write!(
                f,
                "part {part:03x} is lost: the list names it in version {version}, and it has no file"
            ),
            ShelfError::OtherPart { part, version } => write!(
                f,
                "the file of part {part:03x} has another root in version {version} than the list names"
            ),
            ShelfError::Stray { part, key } => {
                write!(f, "part {part:03x} holds {key}, which begins with other bits")
            }
            ShelfError::OtherBits { key } => {
                write!(f, "the list has {key}, which is no part's key with these bits")
            }
            ShelfError::OtherName { part } => {
                write!(f, "the file of part {part:03x} is not what its name says")
            }
            ShelfError::TwoParts { part, version } => write!(
                f,
                "two files of part {part:03x} have another root each in version {version}, and no list says which one counts: move one of them away"
            ),
            ShelfError::OtherRoot { root } => write!(f, "its root is {root}"),
            ShelfError::Rounds { rounds } => write!(
                f,
                "it takes {rounds} publishings: one takes at most 1,024 records for a part, and 1,024 parts"
            ),
        }
    }
}

impl std::error::Error for ShelfError {}
