//! The book: a text file beside the store, with names for keys and values, and for each published version its time, author and message.
//! It is for people. What a store holds is the library's word alone: a line about a version counts only where its root is the one that the library reads.

use crate::args::Args;
use crate::fail::Fail;
use crate::files;
use crate::plain::{quoted, shown, words, Word};
use grants::{dates, Key, Root};
use std::collections::HashMap;
use std::ffi::OsStr;
use std::path::{Path, PathBuf};

const LIMIT: u64 = 64 << 20;
const ENDING: &str = ".book";
const HEAD: &str = "# Names and dates of a grant store, for people. Lines are only ever added. What a grant is worth, the store says.\n";

/// What a line says of a version.
#[derive(Clone, Debug, PartialEq, Eq)]
pub struct Entry {
    pub version: u32,
    pub root: Root,
    pub time: i64,
    pub author: String,
    pub message: String,
}

/// What the book says of a version whose root is known.
#[derive(Clone, Copy, Debug, PartialEq, Eq)]
pub enum Said<'a> {
    Nothing,
    This(&'a Entry),
    /// There are lines for the version, and none of them has its root.
    Disagrees,
}

#[derive(Default)]
pub struct Book {
    /// Its name as a person would say it, and the file that this leads to.
    given: PathBuf,
    place: Option<PathBuf>,
    text: String,
    entries: HashMap<u32, Vec<Entry>>,
    names: HashMap<[u8; 32], String>,
    meant: HashMap<String, Vec<[u8; 32]>>,
    /// Lines that say nothing that can be read.
    pub unread: Vec<usize>,
}

impl Book {
    /// The book of a store, or the one that `--book` names. None is as good as an empty one.
    pub fn of(args: &Args, store: Option<&Path>) -> Result<Book, Fail> {
        let mut book = Book::default();
        match (args.value("--book"), store) {
            _ if args.has("--no-book") => return Ok(book),
            (Some(named), _) => {
                book.given = PathBuf::from(named);
                book.place = Some(book.given.clone());
            }
            (None, Some(store)) if store.as_os_str() != "-" => {
                let store = &files::main_file(store);
                book.given =
                    PathBuf::from([store.as_os_str(), OsStr::new(ENDING)].join(OsStr::new("")));
                book.place = files::beside_store(store, ENDING);
                // Reading what is no file might wait for ever, and it stands there by no one's word.
                if let Some(place) = &book.place {
                    files::regular_or_nothing("read", &book.given, place)?;
                }
            }
            _ => return Ok(book),
        }
        if let Some(place) = book.place.clone().filter(|place| place.exists()) {
            let bytes = files::read(&place, LIMIT + 1).map_err(|fail| match fail {
                Fail::File(why) if args.takes("--no-book") => {
                    Fail::File(format!("{why} (the book; --no-book does without)"))
                }
                Fail::File(why) => Fail::File(format!("{why} (the book)")),
                fail => fail,
            })?;
            if bytes.len() as u64 > LIMIT {
                return Err(Fail::File(format!(
                    "cannot read {}: a book has at most {LIMIT} bytes",
                    book.shown()
                )));
            }
            book.text = String::from_utf8(bytes).map_err(|_| {
                Fail::File(format!(
                    "{} is no text in UTF-8: move it away, or mend it",
                    shown(&book.given)
                ))
            })?;
            book.read();
        }
        Ok(book)
    }

    /// An empty book for a store, or a shelf, that has none yet.
    pub fn beside(store: &Path) -> Book {
        let store = files::main_file(store);
        let given = PathBuf::from([store.as_os_str(), OsStr::new(ENDING)].join(OsStr::new("")));
        let place = Some(given.clone());
        Book { given, place, ..Book::default() }
    }

    /// The same book beside another store, where there is one to copy.
    pub fn copied_beside(&self, args: &Args, store: &Path) -> Result<(), Fail> {
        if !self.is_there() || args.value("--book").is_some() {
            return Ok(());
        }
        let copy = PathBuf::from([store.as_os_str(), OsStr::new(ENDING)].join(OsStr::new("")));
        files::write(args, &copy, self.text.as_bytes(), &[&self.given])
    }

    /// Whether it could be written, asked before the store is.
    pub fn may_be_written(&self) -> Result<(), Fail> {
        match &self.place {
            Some(place) => files::may_replace(&self.given, place),
            None => Ok(()),
        }
    }

    fn read(&mut self) {
        let text = std::mem::take(&mut self.text);
        for (i, line) in text.trim_start_matches('\u{feff}').lines().enumerate() {
            let understood = words(line).ok().and_then(|words| self.take(&words));
            if understood.is_none() {
                self.unread.push(i + 1);
            }
        }
        self.text = text;
    }

    fn take(&mut self, words: &[Word]) -> Option<()> {
        use Word::{Plain, Quoted};
        match words {
            [] => {}
            [Plain(what), Plain(word), Quoted(name)] if what == "name" => {
                let word: Key = word.parse().ok()?;
                self.note(word.into(), name);
            }
            [Plain(what), Plain(version), Plain(root), Plain(time), Quoted(author), Quoted(message)]
                if what == "version" =>
            {
                let entry = Entry {
                    version: version.parse().ok()?,
                    root: root.parse().ok()?,
                    time: dates::parse(time)?.0,
                    author: author.clone(),
                    message: message.clone(),
                };
                self.entries.entry(entry.version).or_default().push(entry);
            }
            // The store was made afresh: what was said of versions is of another history.
            [Plain(what), Plain(time)] if what == "fresh" => {
                dates::parse(time)?;
                self.entries.clear();
            }
            _ => return None,
        }
        Some(())
    }

    fn note(&mut self, word: [u8; 32], name: &str) {
        self.names.entry(word).or_insert_with(|| name.to_string());
        let meant = self.meant.entry(name.to_string()).or_default();
        if !meant.contains(&word) {
            meant.push(word);
        }
    }

    /// Whether there is a file that it could be written to.
    pub fn has_place(&self) -> bool {
        self.place.is_some()
    }

    pub fn is_there(&self) -> bool {
        !self.text.is_empty()
    }

    pub fn shown(&self) -> String {
        match self.place {
            Some(_) => shown(&self.given),
            None => "the book".to_string(),
        }
    }

    /// The name of a key or a value.
    pub fn name(&self, word: &[u8; 32]) -> Option<&str> {
        self.names.get(word).map(String::as_str)
    }

    /// Every name with what it stands for, by name.
    pub fn names(&self) -> Vec<([u8; 32], &str)> {
        let all = self.meant.iter();
        let mut names: Vec<_> = all
            .flat_map(|(name, words)| words.iter().map(|word| (*word, name.as_str())))
            .collect();
        names.sort_by_key(|(word, name)| (*name, *word));
        names
    }

    pub fn knows(&self, name: &str) -> bool {
        self.meant.contains_key(name)
    }

    /// What a name stands for: the bytes that the book gives it, else its SHA-256.
    pub fn meaning(&self, name: &str) -> Result<[u8; 32], Fail> {
        match self.meant.get(name).map(Vec::as_slice) {
            None | Some([]) => Ok(grants::sha256(name.as_bytes())),
            Some([word]) => Ok(*word),
            Some(_) => Err(Fail::Book(format!(
                "{} gives the name {} to two keys: say which by its 64 hex digits",
                self.shown(),
                quoted(name)
            ))),
        }
    }

    /// What is said of a version with this root; the last line counts.
    pub fn said(&self, version: u32, root: Root) -> Said<'_> {
        let Some(entries) = self.entries.get(&version) else {
            return Said::Nothing;
        };
        match entries.iter().rev().find(|entry| entry.root == root) {
            Some(entry) => Said::This(entry),
            None => Said::Disagrees,
        }
    }

    /// The versions that are spoken of.
    pub fn versions(&self) -> Vec<u32> {
        self.entries.keys().copied().collect()
    }

    /// The highest version that is spoken of.
    pub fn latest(&self) -> Option<u32> {
        self.entries.keys().max().copied()
    }

    /// Puts a name into the book, to be written with the rest.
    pub fn add_name(&mut self, word: [u8; 32], name: &str) {
        if self
            .meant
            .get(name)
            .is_none_or(|meant| !meant.contains(&word))
        {
            self.note(word, name);
            self.add(&format!("name {} {}", grants::to_hex(&word), quoted(name)));
        }
    }

    pub fn add_version(&mut self, entry: Entry) {
        self.add(&format!(
            "version {} {} {} {} {}",
            entry.version,
            entry.root,
            dates::text(entry.time),
            quoted(&entry.author),
            quoted(&entry.message)
        ));
        self.entries.entry(entry.version).or_default().push(entry);
    }

    pub fn add_fresh(&mut self, time: i64) {
        self.add(&format!("fresh {}", dates::text(time)));
        self.entries.clear();
    }

    fn add(&mut self, line: &str) {
        if self.text.is_empty() {
            self.text.push_str(HEAD);
        } else if !self.text.ends_with('\n') {
            self.text.push('\n');
        }
        self.text.push_str(line);
        self.text.push('\n');
    }

    /// Replaces the file as a whole. The store's lock is held.
    pub fn write(&self) -> Result<(), Fail> {
        match &self.place {
            Some(place) => files::replace(&self.given, place, self.text.as_bytes()),
            None => Ok(()),
        }
    }
}

/// Writes the book after the store, whose lock is held.
pub fn write_book(book: &Book) -> Result<(), Fail> {
    book.write().map_err(|fail| {
        Fail::File(format!(
            "{fail}; the store is changed all the same, its book is not"
        ))
    })
}

/// Refuses a `--book` that is one of these files: it would get lines of a book.
pub fn is_none_of(args: &Args, given: &[&Path]) -> Result<(), Fail> {
    match args.value("--book").map(Path::new) {
        Some(named) if given.iter().any(|file| files::one_file(named, file)) => {
            Err(Fail::Usage(format!(
                "{} is read by this command as something else than a book: name another one",
                shown(named)
            )))
        }
        _ => Ok(()),
    }
}

/// Who publishes: `--author`, else GRANTS_AUTHOR, else the user's name, by the environment or by the system.
pub fn author(args: &Args) -> Result<String, Fail> {
    if let Some(author) = args.said("--author")? {
        return Ok(author);
    }
    let named = ["GRANTS_AUTHOR", "USER", "LOGNAME"];
    let mut found = named.iter().filter_map(|name| std::env::var(name).ok());
    let found = found.find(|name| !name.is_empty());
    // What a timer starts has none of them.
    Ok(found.unwrap_or_else(files::own_user))
}

/// When it is published: `--date`, else now.
pub fn time(args: &Args) -> Result<i64, Fail> {
    match args.said("--date")? {
        Some(text) => Ok(date("--date", &text)?.0),
        None => Ok(dates::now()),
    }
}

/// The first and last second that a date names.
pub fn date(what: &str, text: &str) -> Result<(i64, i64), Fail> {
    dates::parse(text).ok_or_else(|| {
        Fail::Usage(format!(
            "{what} wants a date as 2026-05-03 or 2026-05-03T09:30:00Z, and {text:?} is none"
        ))
    })
}

#[cfg(test)]
mod tests {
    use super::*;

    #[test]
    fn what_is_added_is_read_again() {
        let mut book = Book::default();
        book.add_name([7; 32], "a \"name\" \\ # with\nall");
        book.add_name([7; 32], "a \"name\" \\ # with\nall");
        book.add_name([8; 32], "other");
        let entry = |version: u32, root: u8| Entry {
            version,
            root: Root::from([root; 32]),
            time: 1_777_800_600,
            author: "mira".to_string(),
            message: "two\nlines".to_string(),
        };
        book.add_version(entry(1, 1));
        book.add_version(entry(1, 2));
        let mut again = Book {
            text: book.text.clone(),
            ..Book::default()
        };
        again.read();
        assert_eq!(again.text.lines().count(), 5);
        assert!(again.unread.is_empty());
        assert_eq!(again.name(&[7; 32]), Some("a \"name\" \\ # with\nall"));
        assert_eq!(again.meaning("other").unwrap(), [8; 32]);
        assert_eq!(again.meaning("abc").unwrap(), grants::sha256(b"abc"));
        assert_eq!(again.said(1, Root::from([1; 32])), Said::This(&entry(1, 1)));
        assert_eq!(again.said(1, Root::from([3; 32])), Said::Disagrees);
        assert_eq!(again.said(2, Root::from([1; 32])), Said::Nothing);
        again.add_name([9; 32], "other");
        assert!(again.meaning("other").is_err());
        again.add_fresh(0);
        assert_eq!(again.said(1, Root::from([1; 32])), Said::Nothing);
    }
}
