//! What the words of a command stand for: its store, a key by digits or by name, a version by number or by day.

use crate::args::{number, Args};
use crate::book::{self, Book, Said};
use crate::fail::Fail;
pub use crate::kept::{read_kept, read_store, refused, Bytes, Kept, LENGTH_ADVICE};
use crate::out::beside;
use crate::plain::{counted, quoted, shown, words, Word};
use grants::{from_hex, to_hex, Error, HexError, Key};
use std::cell::OnceCell;
use std::collections::BTreeMap;
use std::path::Path;

/// The store of a command that writes it.
pub fn writable(args: &Args) -> Result<&Path, Fail> {
    let path = args.path(0);
    if path.as_os_str() == "-" {
        return Err(Fail::Usage(
            "a store that is written must be a file, not standard input".to_string(),
        ));
    }
    Ok(path)
}

/// The bytes of a key or root, however many they are: the library judges that.
pub fn hex(what: &str, text: &str) -> Result<Vec<u8>, Fail> {
    from_hex(text).map_err(|e| match e {
        HexError::Digit(_) => Fail::Usage(format!("the {what} is wrong: {e}")),
        HexError::Count { digits, .. } => Fail::Refused(
            Error::NotThirtyTwoBytes,
            format!(
                "The {what} has {}. {LENGTH_ADVICE}",
                counted(digits, "hex digit")
            ),
        ),
    })
}

/// The 32 bytes of a key or root that the tool itself needs.
pub fn hex32(what: &str, text: &str) -> Result<[u8; 32], Fail> {
    let bytes: Result<[u8; 32], _> = hex(what, text)?.try_into();
    bytes.map_err(|_| Fail::Refused(Error::NotThirtyTwoBytes, LENGTH_ADVICE.to_string()))
}

/// Keys as they are asked for, with a book that is read once, and only where a name is.
pub struct Keys<'a> {
    args: &'a Args,
    store: Option<&'a Path>,
    book: OnceCell<Book>,
}

impl<'a> Keys<'a> {
    pub fn new(args: &'a Args, store: Option<&'a Path>) -> Keys<'a> {
        let book = OnceCell::new();
        Keys { args, store, book }
    }

    fn book(&self) -> Result<&Book, Fail> {
        if self.book.get().is_none() {
            let _ = self.book.set(Book::of(self.args, self.store)?);
        }
        Ok(self.book.get_or_init(Book::default))
    }

    /// A key: 64 hex digits, a name that the book has, or a name in double quotes, which need not be in the book. So a slip in a digit is never
    /// taken for a name.
    pub fn key(&self, text: &str) -> Result<Vec<u8>, Fail> {
        if text.starts_with('"') {
            return match words(text).as_deref() {
                Ok([Word::Quoted(name)]) => by_name(self.book()?, name),
                _ => Err(Fail::Usage(
                    "the key is wrong: a name stands between two double quotes".to_string(),
                )),
            };
        }
        if let Ok(key) = text.parse::<Key>() {
            return Ok(key.as_bytes().to_vec());
        }
        let book = self.book()?;
        if book.knows(text) {
            return by_name(book, text);
        }
        hex("key", text).map_err(|fail| match fail {
            Fail::Usage(wrong) => Fail::Usage(format!(
                "{wrong}, and {} has no name {}; a name between double quotes stands for its SHA-256",
                book.shown(),
                quoted(text)
            )),
            fail => fail,
        })
    }
}

pub fn key(args: &Args, i: usize, store: Option<&Path>) -> Result<Vec<u8>, Fail> {
    Keys::new(args, store).key(&args.text(i))
}

/// What a name stands for; where that is the book's word alone, it is said.
fn by_name(book: &Book, name: &str) -> Result<Vec<u8>, Fail> {
    let key = book.meaning(name)?;
    if key != grants::sha256(name.as_bytes()) {
        note(book, &format!("{} is {}", quoted(name), to_hex(&key)));
    }
    Ok(key.to_vec())
}

/// Says beside the answer what it takes from the book.
pub fn note(book: &Book, what: &str) {
    beside(format_args!("by {}, {what}", book.shown()));
}

/// The version that is asked for, else the latest; 0 where the header is wrong, which the call that follows will say.
pub fn version(args: &Args, i: usize, store: &Kept, path: &Path) -> Result<u32, Fail> {
    match (args.word(i), args.said("--at")?) {
        (Some(_), Some(_)) => Err(Fail::Usage(
            "VERSION and --at both say which version: name one of them".to_string(),
        )),
        (Some(word), None) => number("VERSION", word),
        (None, Some(day)) => on_day(args, store, path, "--at", &day),
        (None, None) => Ok(store.header().map_or(0, |header| header.latest)),
    }
}

/// The version that was the latest at the end of a day, by the book's dates of versions whose roots the library confirms.
pub fn on_day(args: &Args, store: &Kept, path: &Path, what: &str, day: &str) -> Result<u32, Fail> {
    let (_, end) = book::date(what, day)?;
    let book = Book::of(args, Some(path))?;
    let refused = store.refused(path);
    let header = store.header().map_err(&refused)?;
    let spans = store.publishings().map_err(&refused)?;
    // The publishing that holds at oldest may be older than that.
    let eldest = spans[0].published.unwrap_or(header.oldest);
    let mut dated: BTreeMap<u32, i64> = BTreeMap::new();
    for version in book.versions() {
        if version >= eldest.max(1) && version <= header.latest {
            let root = store.root(version.max(header.oldest)).map_err(&refused)?;
            if let Said::This(entry) = book.said(version, root) {
                dated.insert(version, entry.time);
            }
        }
    }
    let by_then = dated.iter().rev().find(|(_, time)| **time <= end);
    let found = by_then.map(|(version, _)| *version);
    let cannot = |why: String| {
        Fail::Book(format!(
            "cannot tell which version was the latest on {day}: {why}"
        ))
    };
    if dated
        .range(..found.unwrap_or(0))
        .any(|(_, time)| *time > end)
    {
        return Err(cannot(format!(
            "the dates in {} don't ascend",
            book.shown()
        )));
    }
    if found.is_none() && header.oldest > 0 {
        return Err(cannot(match dated.first_key_value() {
            Some((first, _)) if *first == eldest => format!(
                "it was older than version {eldest}, the oldest that {} keeps",
                shown(path)
            ),
            _ => no_date(&book, eldest),
        }));
    }
    let version = found.unwrap_or(0);
    // The publishing after it must have a date, or it may have been the latest by then.
    let after = spans
        .iter()
        .map(|span| span.first)
        .find(|first| *first > version.max(header.oldest));
    if let Some(after) = after.filter(|after| dated.range(version + 1..=*after).next().is_none()) {
        return Err(cannot(no_date(&book, after)));
    }
    note(&book, &format!("version {version} was the latest on {day}"));
    Ok(version.max(header.oldest))
}

fn no_date(book: &Book, version: u32) -> String {
    format!(
        "{} has no date for version {version} that agrees with its root",
        book.shown()
    )
}
