//! A store or a shelf of the old form brought over into that of today, or back. What is moved is the library's word; here each publishing's root, by the bytes of
//! the one and of the other, is compared before anything is written.

use crate::args::Args;
use crate::asked::{refused, Bytes, writable};
use crate::book::Book;
use crate::fail::Fail;
use crate::files::{self, Locked, STORE_LIMIT};
use crate::json::object;
use crate::kept::{shelf_refused, trimmed};
use crate::out::Out;
use crate::plain::{counted, shown};
use crate::progress;
use grants::{
    sha256, Error, NewFolder, Root, Shelf, ShelfError, Store, HEADER_BYTES, LIST_FILE,
    OLD_SLOT_BYTES,
};
use std::ffi::OsStr;
use std::path::{Path, PathBuf};

/// Which form, as a person would say it, and how many bytes its slots have.
pub const NEW: &str = "new";
pub const OLD: &str = "old";

/// Where the old file is kept.
const KEPT: &str = ".old";

/// A store of the old form in that of today, in memory; or why it can't be.
pub fn brought_over(store: &Bytes, path: &Path) -> Result<Bytes, Fail> {
    store.move_over().map_err(|error| match error {
        Error::Unsound => Fail::Refused(
            error,
            format!(
                "{} is a store of the old form, and damaged: take another copy. Nothing was changed.",
                shown(path)
            ),
        ),
        error => refused(store, path)(error),
    })
}

/// The root of a version by the bytes of a store of the old form: the SHA-256 of the message of the root record whose lifetime covers it.
fn old_root(bytes: &[u8], version: u32) -> Root {
    let u16_at = |slot: &[u8], at: usize| u16::from_le_bytes([slot[at], slot[at + 1]]);
    let u32_at = |slot: &[u8], at: usize| {
        u32::from_le_bytes([slot[at], slot[at + 1], slot[at + 2], slot[at + 3]])
    };
    let mut slots = bytes[HEADER_BYTES..].chunks_exact(OLD_SLOT_BYTES);
    let root = slots.find(|slot| {
        let (since, until) = (u32_at(slot, 40), u32_at(slot, 44));
        let lives = since != 0 && since <= version && (until == 0 || version < until);
        lives && u16_at(slot, 6) == 0
    });
    let Some(slot) = root else {
        return Root::from([0; 32]);
    };
    let mut message = [0; 65];
    // A leaf's key and value, or an inner record's two hashes.
    let (first, second) = match u16_at(slot, 4) {
        2 => {
            message[0] = 1;
            (48, 80)
        }
        _ => (52, 88),
    };
    message[1..33].copy_from_slice(&slot[first..first + 32]);
    message[33..].copy_from_slice(&slot[second..second + 32]);
    Root::from(sha256(&message))
}

/// The first publishing of a sound store whose root by the old form's bytes is another one; and how many it has.
fn compared(new: &Bytes, old: &[u8]) -> Result<(Option<u32>, usize), Error> {
    let spans = new.publishings()?;
    for span in &spans {
        if new.root(span.first)? != old_root(old, span.first) {
            return Ok((Some(span.first), spans.len()));
        }
    }
    Ok((None, spans.len()))
}

fn another_root(version: u32, name: &str) -> Fail {
    Fail::Book(format!(
        "version {version} would get another root: {name} is as it was. This is a fault of the tool"
    ))
}

/// What is to be moved, into which form and where to.
struct Asked<'a> {
    path: &'a Path,
    into: Option<&'a Path>,
    over: bool,
    dry: bool,
    /// Where what is replaced is kept.
    kept: Option<PathBuf>,
}

impl<'a> Asked<'a> {
    fn of(args: &'a Args) -> Result<Asked<'a>, Fail> {
        let (path, into) = (args.path(0), args.word(1).map(Path::new));
        let over = match args.value("--to").map(|word| word.to_string_lossy()) {
            Some(word) if word == NEW => true,
            Some(word) if word == OLD => false,
            Some(word) => {
                return Err(Fail::Usage(format!(
                    "--to {word}: a store is moved to `new` or to `old`"
                )))
            }
            None => {
                return Err(Fail::Usage(
                    "--to is missing: `new`, the form of today, or `old`".to_string(),
                ))
            }
        };
        if into.is_some_and(|into| into.as_os_str() == "-") {
            return Err(Fail::Usage(
                "a store that is written must be a file, not standard output".to_string(),
            ));
        }
        let keep = into.is_none() && !args.has("--no-keep");
        // Without what may follow a folder's name.
        let bare: PathBuf = path.components().collect();
        let beside = || PathBuf::from([bare.as_os_str(), OsStr::new(KEPT)].join(OsStr::new("")));
        Ok(Asked {
            path,
            into,
            over,
            dry: args.has("--dry-run"),
            kept: keep.then(beside),
        })
    }

    fn form(&self) -> &'static str {
        if self.over {
            NEW
        } else {
            OLD
        }
    }

    /// The right to replace it, where it is to be replaced.
    fn locked(&self, args: &Args) -> Result<Option<Locked>, Fail> {
        match self.into {
            None if !self.dry => Ok(Some(Locked::take(args, writable(args)?)?)),
            _ => Ok(None),
        }
    }

    /// Nothing may be where it is to be kept.
    fn may_be_kept(&self) -> Result<(), Fail> {
        let name = trimmed(self.path);
        match &self.kept {
            Some(kept) if files::already_there(kept) => Err(Fail::File(format!(
                "{} is there already, where {name} would be kept: move it away, or say --no-keep. {name} is as it was",
                shown(kept)
            ))),
            _ => Ok(()),
        }
    }
}

/// What was moved, as it is told.
struct Told {
    capacity: Option<u32>,
    parts: Option<usize>,
    oldest: u32,
    latest: u32,
    publishings: usize,
    bytes: u64,
}

impl Told {
    fn answer(&self, asked: &Asked, out: &mut Out) -> Result<u8, Fail> {
        let kept = asked.kept.as_deref().map(shown);
        let size = match self.parts {
            Some(parts) => ("parts", parts.into()),
            None => ("capacity", self.capacity.into()),
        };
        let fields = object(vec![
            ("form", asked.form().into()),
            size,
            ("oldest", self.oldest.into()),
            ("latest", self.latest.into()),
            ("publishings", self.publishings.into()),
            ("bytes", crate::json::Json::Number(self.bytes)),
            ("kept", kept.clone().into()),
            ("written", (!asked.dry).into()),
        ]);
        let would = if asked.dry { " would be" } else { " is" };
        let beside = match (kept, asked.dry) {
            (Some(kept), false) => format!("; {kept} has it as it was"),
            (Some(kept), true) => format!("; {kept} would have it as it was"),
            (None, _) => String::new(),
        };
        let parts = self.parts.map_or(String::new(), |parts| {
            format!(", a list and {}", counted(parts, "part"))
        });
        out.answer(
            0,
            fields,
            format_args!(
                "{}{would} of the {} form{parts}, {} bytes; {} of versions {} to {} compared, each with its root as it was{beside}",
                trimmed(asked.into.unwrap_or(asked.path)),
                asked.form(),
                self.bytes,
                counted(self.publishings, "publishing"),
                self.oldest,
                self.latest,
            ),
        )
    }
}

pub fn moved(args: &Args, out: &mut Out) -> Result<u8, Fail> {
    let asked = Asked::of(args)?;
    match files::is_shelf(asked.path) {
        true => of_shelf(args, &asked, out),
        false => of_store(args, &asked, out),
    }
}

/// It is not of the form that it is to be moved from.
fn not_of_form(source: &Bytes, asked: &Asked) -> Fail {
    let (name, form) = (shown(asked.path), asked.form());
    let error = match asked.over {
        true => source.move_over().map(drop),
        false => source.move_back().map(drop),
    };
    match error {
        // It is already what it shall be.
        Err(error) if source.is_old_form() || source.header().is_ok() => Fail::Refused(
            error,
            format!("{name} is a store of the {form} form already, and is as it was."),
        ),
        Err(error) => refused(source, asked.path)(error),
        Ok(()) => Fail::Book(format!("{name} can't be told from a store of the {form} form")),
    }
}

fn of_store(args: &Args, asked: &Asked, out: &mut Out) -> Result<u8, Fail> {
    let path = asked.path;
    let book = Book::of(args, Some(path))?;
    let mut locked = asked.locked(args)?;
    let bytes = match &locked {
        Some(locked) => locked.read()?,
        None => files::read(path, STORE_LIMIT)?,
    };
    let source = Store::over(bytes);
    if source.is_old_form() != asked.over {
        return Err(not_of_form(&source, asked));
    }
    let (new, old) = match asked.over {
        true => (brought_over(&source, path)?, source.as_bytes().to_vec()),
        false => {
            let old = source.move_back().map_err(refused(&source, path))?;
            (Store::over(source.as_bytes().to_vec()), old)
        }
    };
    let sure = refused(&new, path);
    let header = new.header().map_err(&sure)?;
    let publishings = match compared(&new, &old).map_err(&sure)? {
        (Some(version), _) => return Err(another_root(version, &shown(path))),
        (None, publishings) => publishings,
    };
    let target = if asked.over { new.as_bytes() } else { &old[..] };
    asked.may_be_kept()?;
    if !asked.dry {
        match (&mut locked, asked.into) {
            (Some(locked), _) => {
                if let Some(kept) = &asked.kept {
                    files::create(kept, source.as_bytes())?;
                }
                locked.replace(target)?;
            }
            (None, Some(into)) => {
                files::write(args, into, target, &[path])?;
                book.copied_beside(args, into)?;
            }
            (None, None) => {}
        }
        out.changed = true;
    }
    let told = Told {
        capacity: Some(header.capacity),
        parts: None,
        oldest: header.oldest,
        latest: header.latest,
        publishings,
        bytes: target.len() as u64,
    };
    told.answer(asked, out)
}

/// The shelf as it is read in the form of today, if it is of the form that it is to be moved from.
fn shelf_to_move(asked: &Asked) -> Result<Shelf, Fail> {
    let (of, other): (fn(&Path) -> _, fn(&Path) -> _) = match asked.over {
        true => (Shelf::open_old, Shelf::open),
        false => (Shelf::open, Shelf::open_old),
    };
    let mut shelf = of(asked.path).map_err(|e: ShelfError| match e.refusal() {
        Some(error) if other(asked.path).is_ok() => Fail::Refused(
            error,
            format!(
                "{} is a shelf of the {} form already, and is as it was.",
                trimmed(asked.path),
                asked.form()
            ),
        ),
        _ => shelf_refused(None, asked.path, e),
    })?;
    shelf.tell(progress::parts);
    Ok(shelf)
}

fn of_shelf(args: &Args, asked: &Asked, out: &mut Out) -> Result<u8, Fail> {
    let mut locked = asked.locked(args)?;
    let shelf = shelf_to_move(asked)?;
    let refused = |e: ShelfError| shelf_refused(Some(&shelf), asked.path, e);
    shelf.check().map_err(refused)?;
    let old_list = shelf.old_list().map_err(refused)?;
    let (other, publishings) = compared(shelf.list(), &old_list).map_err(|e| refused(e.into()))?;
    // The bytes of a part in its new form, and where its root would be another.
    let parts = shelf.each_both(|file, new, old| {
        let (other, _) = compared(new, old).map_err(|error| ShelfError::Refused {
            error,
            part: Some(file.part),
        })?;
        let bytes = if asked.over { new.as_bytes() } else { old };
        Ok((other, bytes.len() as u64))
    });
    let parts = parts.map_err(refused)?;
    if let Some(version) = parts.iter().find_map(|(other, _)| *other).or(other) {
        return Err(another_root(version, &trimmed(asked.path)));
    }
    let list = match asked.over {
        true => shelf.list().as_bytes(),
        false => &old_list[..],
    };
    asked.may_be_kept()?;
    if !asked.dry {
        match (&mut locked, asked.into) {
            (Some(locked), _) => moved_in_place(&shelf, asked, list, locked)?,
            (None, Some(into)) => moved_into(args, &shelf, asked, list, into)?,
            (None, None) => {}
        }
        out.changed = true;
    }
    let header = shelf.header();
    let told = Told {
        capacity: None,
        parts: Some(parts.len()),
        oldest: header.oldest,
        latest: header.latest,
        publishings,
        bytes: list.len() as u64 + parts.iter().map(|(_, bytes)| bytes).sum::<u64>(),
    };
    told.answer(asked, out)
}

/// Writes the parts of the other form beside those that are there; the list, replaced last, makes them the shelf.
fn moved_in_place(
    shelf: &Shelf,
    asked: &Asked,
    list: &[u8],
    locked: &mut Locked,
) -> Result<(), Fail> {
    let refused = |e: ShelfError| shelf_refused(Some(shelf), asked.path, e);
    shelf.clean().map_err(refused)?;
    if let Some(kept) = &asked.kept {
        let copy = shelf.copied(kept).map_err(refused)?;
        let book = asked.path.join(format!("{LIST_FILE}.book"));
        if files::already_there(&book) {
            copy.link(&book).map_err(refused)?;
        }
        copy.rename(kept).map_err(refused)?;
    }
    let done = shelf
        .put_moved(None)
        .map_err(refused)
        .and_then(|_| locked.sync())
        .and_then(|()| locked.replace(list));
    // Whatever came of it, what is of no use to the shelf as it is now goes.
    let now = Shelf::open(asked.path).or_else(|_| Shelf::open_old(asked.path));
    let _ = now.and_then(|now| now.clean());
    done
}

/// The shelf in the other form in a new folder, which is there when it is whole.
fn moved_into(
    args: &Args,
    shelf: &Shelf,
    asked: &Asked,
    list: &[u8],
    into: &Path,
) -> Result<(), Fail> {
    let into: PathBuf = into.components().collect();
    if files::already_there(&into) {
        return Err(Fail::File(format!(
            "{} is there already and was left alone: a shelf is written to a folder that isn't there yet",
            trimmed(&into)
        )));
    }
    let refused = |e: ShelfError| shelf_refused(Some(shelf), asked.path, e);
    let new = NewFolder::beside(&into).map_err(refused)?;
    shelf.put_settings(&new).map_err(refused)?;
    shelf.put_moved(Some(&new)).map_err(refused)?;
    new.put(LIST_FILE, list).map_err(refused)?;
    let book = Book::of(args, Some(asked.path))?;
    book.copied_beside(args, &new.path().join(LIST_FILE))?;
    new.rename(&into).map_err(refused)
}
