//! Why a command did not do what was asked, and the exit status that says so.

use crate::plain::shown;
use grants::{Error, Missing};
use std::fmt;
use std::io;
use std::path::Path;

#[derive(Debug)]
pub enum Fail {
    /// The command line is wrong: 2.
    Usage(String),
    /// A file, or standard input or output, could not be read or written: 3.
    File(String),
    /// A store or a shelf was written while it was read: 3. To be tried again.
    Meanwhile(String),
    /// The book beside the store can't say it, or a signed root is past its date: 4.
    Book(String),
    /// What would be published looks wrong, and an option that the sentence names lets it through: 5.
    Held(String),
    /// The library refused, or would have: 10 and the number. The sentence says what to do.
    Refused(Error, String),
    /// The same, the records that are missing, and where none is, what is wrong.
    Damaged(Error, String, Vec<Missing>, Vec<Wrong>),
}

/// What is wrong with the record in a slot.
#[derive(Debug)]
pub struct Wrong {
    pub slot: u32,
    pub why: String,
}

impl Fail {
    pub fn status(&self) -> u8 {
        match self {
            Fail::Usage(_) => 2,
            Fail::File(_) | Fail::Meanwhile(_) => 3,
            Fail::Book(_) => 4,
            Fail::Held(_) => 5,
            Fail::Refused(error, _) | Fail::Damaged(error, ..) => 10 + error.number() as u8,
        }
    }

    /// Whether what is missing is listed: of a check, not of a read, whose sentence names it.
    pub fn lists(&self) -> bool {
        matches!(self, Fail::Damaged(Error::Unsound, ..))
    }

    pub fn number(&self) -> Option<u32> {
        match self {
            Fail::Refused(error, _) | Fail::Damaged(error, ..) => Some(error.number()),
            _ => None,
        }
    }
}

impl fmt::Display for Fail {
    fn fmt(&self, f: &mut fmt::Formatter<'_>) -> fmt::Result {
        match self {
            Fail::Usage(sentence)
            | Fail::File(sentence)
            | Fail::Meanwhile(sentence)
            | Fail::Book(sentence) => f.write_str(sentence),
            Fail::Held(sentence) => write!(f, "held back: {sentence} Nothing was changed."),
            Fail::Refused(error, advice) | Fail::Damaged(error, advice, ..) => {
                write!(f, "refused with {}: {error}. {advice}", error.number())
            }
        }
    }
}

/// What a person would say of an error of the system.
pub fn why(error: &io::Error) -> String {
    match error.kind() {
        io::ErrorKind::NotFound => "there is no such file".to_string(),
        io::ErrorKind::IsADirectory => "it is a directory".to_string(),
        io::ErrorKind::NotADirectory => "a part of the path is no directory".to_string(),
        io::ErrorKind::PermissionDenied => "permission denied".to_string(),
        io::ErrorKind::StorageFull => "the disk is full".to_string(),
        io::ErrorKind::FileTooLarge => "it would be larger than files may be here".to_string(),
        io::ErrorKind::ReadOnlyFilesystem => "the file system is read-only".to_string(),
        io::ErrorKind::InvalidFilename => "the name is longer than names may be here".to_string(),
        _ => error.to_string(),
    }
}

/// 'cannot read STORE: it is a directory', and so on.
pub fn file(verb: &str, path: &Path, error: &io::Error) -> Fail {
    Fail::File(format!("cannot {verb} {}: {}", shown(path), why(error)))
}
