//! A store in a file, or a shelf in a folder: what the commands ask of either, and what to do about a refusal.

use crate::fail::{file, Fail};
use crate::files::{self, is_shelf, STORE_LIMIT};
pub use crate::held::Bytes;
use crate::held::{self, Grants, Ledger};
use crate::plain::shown;
use crate::progress;
use grants::{
    Changes, Error, Finding, Header, Key, Lookup, Palette, Publishing, Proof, RangeFigures, Record, Root, Shelf, ShelfError,
    Store, Value, OLD_SLOT_BYTES,
};
use std::collections::BTreeSet;
use std::ops::Deref;
use std::path::Path;

/// What an editor does without a proof.
const EMPTY_ADVICE: &str =
    "The version's root is 32 zero bytes: signed, it is itself the proof that nothing is granted.";

pub const LENGTH_ADVICE: &str = "Write it as 64 hex digits.";

pub enum Kept {
    Store(Looked),
    Shelf(Shelf),
}

/// A store, and how it is read: long work makes itself a table.
pub struct Looked {
    store: Bytes,
    lookup: Lookup,
}

impl From<Bytes> for Looked {
    fn from(store: Bytes) -> Looked {
        let lookup = held::lookup();
        Looked { store, lookup }
    }
}

impl Deref for Looked {
    type Target = Bytes;

    fn deref(&self) -> &Bytes {
        &self.store
    }
}

impl Looked {
    pub fn into_store(self) -> Bytes {
        self.store
    }
}

/// What is read, wherever it is; of a shelf the list, and its parts when they are asked for.
pub fn read_kept(path: &Path) -> Result<Kept, Fail> {
    match is_shelf(path) {
        true => read_shelf(path).map(Kept::Shelf),
        false => read_store(path).map(|store| Kept::Store(store.into())),
    }
}

pub fn read_shelf(path: &Path) -> Result<Shelf, Fail> {
    let mut shelf = Shelf::open(path).map_err(|e| opening(path, e))?;
    shelf.tell(progress::parts);
    Ok(shelf)
}

/// Why a shelf can't be opened.
fn opening(path: &Path, error: ShelfError) -> Fail {
    match error {
        ShelfError::OldForm { error } => Fail::Refused(error, old_form(&trimmed(path), "shelf")),
        error => shelf_refused(None, path, error),
    }
}

/// The bytes of a store.
pub fn read_store(path: &Path) -> Result<Bytes, Fail> {
    files::read(path, STORE_LIMIT).map(Store::over)
}

/// A folder's name without what follows it.
pub fn trimmed(path: &Path) -> String {
    let name = shown(path);
    match name.trim_end_matches('/') {
        "" => name,
        short => short.to_string(),
    }
}

impl Kept {
    /// The store, or the list of a shelf: its publishings are those of the whole.
    pub fn first(&self) -> &Bytes {
        match self {
            Kept::Store(store) => &store.store,
            Kept::Shelf(shelf) => shelf.list(),
        }
    }

    pub fn header(&self) -> Result<Header, ShelfError> {
        Ok(self.first().header()?)
    }

    /// The publishings that are kept: those of a shelf are its list's.
    pub fn publishings(&self) -> Result<Vec<Publishing>, ShelfError> {
        Ok(self.first().publishings()?)
    }

    /// The records that tell the publishings.
    pub fn slots(&self) -> Result<Vec<Option<Record>>, ShelfError> {
        Ok(self.first().slots()?)
    }

    pub fn root(&self, version: u32) -> Result<Root, ShelfError> {
        match self {
            Kept::Store(looked) => Ok(looked.lookup.root(&looked.store, version)?),
            Kept::Shelf(shelf) => shelf.root(version),
        }
    }

    pub fn check(&self) -> Result<(), ShelfError> {
        match self {
            Kept::Store(store) => Ok(store.check()?),
            Kept::Shelf(shelf) => shelf.check(),
        }
    }

    pub fn get(&self, version: u32, key: impl AsRef<[u8]>) -> Result<Option<Value>, ShelfError> {
        match self {
            Kept::Store(looked) => Ok(looked.lookup.get(&looked.store, version, key)?),
            Kept::Shelf(shelf) => shelf.get(version, key),
        }
    }

    pub fn prove(&self, version: u32, key: &[u8]) -> Result<Proof, ShelfError> {
        match self {
            Kept::Store(looked) => Ok(looked.lookup.prove(&looked.store, version, key)?),
            Kept::Shelf(shelf) => shelf.prove(version, key),
        }
    }

    pub fn prove_pocket(&self, version: u32, key: &[u8]) -> Result<Proof, ShelfError> {
        match self {
            Kept::Store(store) => Ok(store.prove_pocket(version, key)?),
            Kept::Shelf(shelf) => shelf.prove_pocket(version, key),
        }
    }

    /// What a proof is worth to whom has what it speaks of.
    pub fn finding(&self, version: u32, key: &[u8], proof: &[u8]) -> Result<Finding, ShelfError> {
        match self {
            Kept::Store(store) => Ok(store.finding(version, key, proof)?),
            Kept::Shelf(shelf) => shelf.finding(version, key, proof),
        }
    }

    pub fn palette(&self, version: u32, keys: &[Key]) -> Result<Palette, ShelfError> {
        match self {
            Kept::Store(looked) => Ok(looked.lookup.palette(&looked.store, version, keys)?),
            Kept::Shelf(shelf) => shelf.palette(version, keys),
        }
    }

    /// The proofs of a palette, cut apart.
    pub fn pieces<'a>(&self, palette: &'a Palette) -> Vec<&'a [u8]> {
        match self {
            Kept::Store(_) => palette.proofs().collect(),
            Kept::Shelf(_) => grants::shelf_pieces(palette.as_bytes()),
        }
    }

    pub fn count(&self, version: u32) -> Result<u64, ShelfError> {
        match self {
            Kept::Store(looked) => Ok(looked.lookup.count(&looked.store, version)?),
            Kept::Shelf(shelf) => shelf.count(version),
        }
    }

    pub fn at(&self, version: u32, position: u64) -> Result<(Key, Value), ShelfError> {
        match self {
            Kept::Store(looked) => Ok(looked.lookup.at(&looked.store, version, position)?),
            Kept::Shelf(shelf) => shelf.at(version, position),
        }
    }

    pub fn changes(&self, first: u32, second: u32, limit: u32) -> Result<Changes, ShelfError> {
        match self {
            Kept::Store(store) => Ok(store.changes(first, second, limit)?),
            Kept::Shelf(shelf) => shelf.changes(first, second, limit),
        }
    }

    pub fn figures(&self, first: u32, last: u32) -> Result<RangeFigures, ShelfError> {
        match self {
            Kept::Store(store) => Ok(store.figures(first, last)?),
            Kept::Shelf(shelf) => shelf.figures(first, last),
        }
    }

    /// The grants of a version, by key, of what the library calls sound; the records are those of [`Kept::slots`].
    pub fn grants(&self, slots: &[Option<Record>], version: u32) -> Result<Grants, ShelfError> {
        match self {
            Kept::Store(looked) => Ok(held::grants(&looked.store, &looked.lookup, slots, version)?),
            Kept::Shelf(shelf) => Ok(shelf.grants(version)?.into_iter().collect()),
        }
    }

    /// The kept versions in which a key may have become another; the oldest is one. The records are those of [`Kept::slots`].
    pub fn turns(&self, slots: &[Option<Record>], key: &[u8]) -> Result<BTreeSet<u32>, ShelfError> {
        let Header { oldest, latest, .. } = self.header()?;
        let touched = match self {
            Kept::Store(_) => held::touched(slots),
            Kept::Shelf(shelf) => held::touched(&part_slots(shelf, key)?),
        };
        let mut turns = BTreeSet::from([oldest]);
        for (version, keys) in touched {
            if version > oldest
                && version <= latest
                && keys.iter().any(|k| k.as_bytes()[..] == key[..])
            {
                turns.insert(version);
            }
        }
        Ok(turns)
    }

    /// What came and went with each of these versions. The records are those of [`Kept::slots`].
    pub fn ledger(
        &self,
        slots: &[Option<Record>],
        versions: &[u32],
    ) -> Result<Ledger, ShelfError> {
        let store = self.first();
        let oldest = store.header()?.oldest;
        let mut ledger = Ledger::of(store, slots, versions, oldest)?;
        if let Kept::Shelf(shelf) = self {
            ledger.keep_records();
            let of = |store: &Bytes| Ledger::of(store, &store.slots()?, versions, oldest);
            for part in shelf.each_file(|at| of(&at.store))? {
                ledger.add(part);
            }
        }
        Ok(ledger)
    }

    /// Whether another store, or another list of a shelf, is there by now than the one that was read.
    pub fn was_replaced(&self, path: &Path) -> bool {
        match self {
            Kept::Store(store) => {
                let now = (path.as_os_str() != "-").then(|| files::read(path, STORE_LIMIT));
                now.is_some_and(|now| now.is_ok_and(|now| now != store.as_bytes()))
            }
            Kept::Shelf(shelf) => replaced(shelf, path),
        }
    }

    pub fn shelf(&self) -> Option<&Shelf> {
        match self {
            Kept::Store(_) => None,
            Kept::Shelf(shelf) => Some(shelf),
        }
    }

    /// What to do about a refusal of a call over it.
    pub fn refused<'a>(&'a self, path: &'a Path) -> impl Fn(ShelfError) -> Fail + 'a {
        move |error| match (self, error) {
            (Kept::Store(store), ShelfError::Refused { error, .. }) => refused(store, path)(error),
            (Kept::Store(_), error) => Fail::File(error.to_string()),
            (Kept::Shelf(shelf), error) => shelf_refused(Some(shelf), path, error),
        }
    }
}

/// The records of the part that a key belongs to; none where it has no file.
fn part_slots(shelf: &Shelf, key: &[u8]) -> Result<Vec<Option<Record>>, ShelfError> {
    let key: [u8; 32] = key.try_into().map_err(|_| Error::NotThirtyTwoBytes)?;
    let part = shelf.bits().part_of(Key::from(key));
    match shelf.newest(part)? {
        Some(at) => at.store.slots().map_err(|error| ShelfError::Refused {
            error,
            part: Some(part),
        }),
        None => Ok(vec![]),
    }
}

/// What to do about a refusal of a call over this store.
pub fn refused(store: &Bytes, path: &Path) -> impl Fn(Error) -> Fail {
    let name = shown(path);
    let length = store.as_bytes().len();
    let header = store.header().ok();
    let old = store.is_old_form();
    move |error| {
        let advice = match error {
            Error::Size | Error::Header if old => old_form(&name, "store"),
            Error::Size => format!("{name} has {}: is it the right file, and whole?", bytes(length)),
            Error::Header => format!("{name} is no grant store, or its first 24 bytes are damaged: take another copy, or see what can be rescued (grants rescue)."),
            Error::Unsound | Error::Spoilt { .. } | Error::Lost => format!("{name} is damaged: take another copy, or see what can be rescued (grants rescue); `grants check` lists what is missing. Nothing was changed."),
            Error::NoRoom => format!("Prune versions that no one asks for any more (grants prune), or give the store more slots (grants grow). {name} is as it was."),
            error => either(error, &name, header),
        };
        Fail::Refused(error, advice)
    }
}

/// What is said of a refusal that isn't about the bytes, for stores and shelves alike.
fn either(error: Error, name: &str, header: Option<Header>) -> String {
    match error {
        Error::NotAboveLatest => match header {
            Some(h) if h.latest < u32::MAX => format!("{name} is at version {}: give a higher number, or none for the next one. {name} is as it was.", h.latest),
            _ => format!("{name} is at version {}, and no number is above that: format a new store and publish its grants there (grants export, grants import). {name} is as it was.", u32::MAX),
        },
        Error::VersionNotKept => match header {
            Some(h) => format!("{name} keeps versions {} to {}.", h.oldest, h.latest),
            None => String::new(),
        },
        Error::NotThirtyTwoBytes => LENGTH_ADVICE.to_string(),
        Error::EmptyVersion => EMPTY_ADVICE.to_string(),
        _ => String::new(),
    }
}

/// What was read doesn't belong together.
pub fn meanwhile(path: &Path) -> Fail {
    Fail::Meanwhile(format!(
        "{} was written while it was read: run the command again",
        trimmed(path)
    ))
}

/// What to do about an error of a shelf.
pub fn shelf_refused(shelf: Option<&Shelf>, path: &Path, error: ShelfError) -> Fail {
    let name = trimmed(path);
    let refusal = error.refusal();
    let (part, sentence) = match &error {
        ShelfError::File { path, error } => return file("use", path, error),
        ShelfError::NoShelf { why, .. } => {
            return Fail::File(format!(
                "cannot read {name}: it is a folder and no shelf: {why}; `grants format DIR --bits B` makes one"
            ))
        }
        ShelfError::OtherRoot { root } => {
            return Fail::Book(format!(
                "the root would be {root}: this is not what was signed, and nothing was written. Take another copy, or another --latest"
            ))
        }
        ShelfError::Refused { part, .. } => (*part, String::new()),
        error => (None, error.to_string()),
    };
    let refusal = refusal.unwrap_or(Error::Unsound);
    let odd = match refusal {
        Error::Size | Error::Header | Error::Unsound | Error::Spoilt { .. } | Error::Lost => true,
        // Of a part alone, since the list has the version.
        Error::VersionNotKept => part.is_some(),
        _ => false,
    };
    if odd && shelf.is_some_and(|shelf| replaced(shelf, path)) {
        return meanwhile(path);
    }
    let what = match part {
        Some(part) => format!("part {part:03x} of {name}"),
        None => format!("the list of {name}"),
    };
    let advice = match refusal {
        Error::Unsound if !sentence.is_empty() => format!(
            "{name} is no whole shelf: {sentence}. Take that file from another copy, or see what can be rescued (grants rescue). Nothing was changed."
        ),
        Error::Size | Error::Header | Error::Unsound | Error::Spoilt { .. } | Error::Lost => format!(
            "That is {what}, which is damaged: take its file from another copy, or see what can be rescued (grants rescue). Nothing was changed."
        ),
        Error::NoRoom => room_advice(part, &name, &what),
        Error::BatchForm if !sentence.is_empty() => format!(
            "{sentence}. Hand it in parts, or say --split to publish it under as many numbers. {name} is as it was."
        ),
        Error::BatchForm => format!("A binary batch is records of 72 bytes, as docs/FORMAT.md has them. {name} is as it was."),
        Error::BatchOrder => format!("Sort binary records by key and name each key once; a batch as text is sorted for you. {name} is as it was."),
        error => either(error, &name, shelf.map(Shelf::header)),
    };
    Fail::Refused(refusal, advice)
}

fn room_advice(part: Option<u16>, name: &str, what: &str) -> String {
    let more = match part {
        Some(_) => format!("give the parts more slots (grants grow {name} CAPACITY), or make a shelf of more bits of it (grants shelf {name} NEW --bits B)"),
        None => format!("give the list more slots (grants grow {name}/{} CAPACITY)", grants::LIST_FILE),
    };
    format!("That is {what}. Prune versions that no one asks for any more (grants prune), {more}. {name} is as it was.")
}

/// Whether another list is there than the one that was read, of whatever form. One of the old form is read as it would be brought over, so its bytes tell nothing.
fn replaced(shelf: &Shelf, path: &Path) -> bool {
    let now = files::read(&path.join(grants::LIST_FILE), STORE_LIMIT);
    !shelf.is_old_form() && now.is_ok_and(|now| now != shelf.list().as_bytes())
}

/// What a store or shelf of the form before the counts is, and what brings it over.
fn old_form(name: &str, what: &str) -> String {
    format!("{name} is a {what} of the old form (slots of {OLD_SLOT_BYTES} bytes); `grants move` brings it over.")
}

fn bytes(length: usize) -> String {
    match length as u64 {
        STORE_LIMIT => format!("more than {} bytes", STORE_LIMIT - 1),
        length => format!("{length} bytes"),
    }
}
