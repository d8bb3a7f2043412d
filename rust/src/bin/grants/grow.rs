//! The same versions in a store of another capacity: each publishing is made again under its own number, and its root compared.

use crate::args::{number, Args};
use crate::asked::{refused, Bytes, writable};
use crate::fail::Fail;
use crate::files::{is_shelf, Locked};
use crate::held;
use crate::json::object;
use crate::kept::{read_shelf, shelf_refused, trimmed};
use crate::out::Out;
use crate::plain::{counted, shown};
use crate::progress;
use grants::{Batch, Error, Shelf, Store, MOST_VISITS};
use std::path::Path;

pub fn grow(args: &Args, out: &mut Out) -> Result<u8, Fail> {
    let path = writable(args)?;
    let capacity = number("CAPACITY", args.word(1).unwrap_or_default())?;
    let mut locked = Locked::take(args, path)?;
    if is_shelf(path) {
        return parts(path, capacity, out);
    }
    let store = Store::over(locked.read()?);
    let name = shown(path);
    let header = store.header().map_err(refused(&store, path))?;
    let again = larger(&store, capacity, path, &name)?;
    locked.replace(again.as_bytes())?;
    out.changed = true;
    let slots = again.slots().map_err(refused(&again, path))?;
    let free = slots.iter().filter(|slot| slot.is_none()).count();
    out.answer(
        0,
        object(vec![
            ("capacity", capacity.into()),
            ("free", free.into()),
            ("oldest", header.oldest.into()),
            ("latest", header.latest.into()),
        ]),
        format_args!(
            "{name}: {}, {free} free; versions {} to {} with their roots as they were",
            counted(capacity as usize, "slot"),
            header.oldest,
            header.latest
        ),
    )
}

/// The store's versions in another one with so many slots.
fn larger(store: &Bytes, capacity: u32, path: &Path, name: &str) -> Result<Bytes, Fail> {
    let fresh = Store::with_capacity(capacity).map_err(|e| {
        Fail::Refused(
            e,
            format!("{capacity} slots were asked for: a store has 1 to 16,384."),
        )
    })?;
    republished(store, fresh).map_err(|why| match why {
        Cannot::Refused(e @ (Error::Size | Error::Header | Error::Unsound)) => refused(store, path)(e),
        Cannot::Refused(e) => {
            let kept = store.header().map_or((0, 0), |header| (header.oldest, header.latest));
            Fail::Refused(e, format!(
                "{capacity} slots are too few for versions {} to {} of {name}, which is as it was.",
                kept.0, kept.1
            ))
        }
        Cannot::Because(why) => Fail::Book(format!(
            "{why}: {name} is as it was. `grants export` and `grants import` bring the grants of one version into a larger store, under a number of its own."
        )),
    })
}

/// Every part of a shelf with so many slots, one after the other: a part has the same versions before and after, so it is a whole shelf at every moment.
fn parts(path: &Path, capacity: u32, out: &mut Out) -> Result<u8, Fail> {
    let mut shelf = read_shelf(path)?;
    let refused = |shelf: &Shelf, e| shelf_refused(Some(shelf), path, e);
    let files: Vec<_> = shelf.files().copied().collect();
    for (done, file) in files.iter().enumerate() {
        let part = shelf.newest(file.part).map_err(|e| refused(&shelf, e))?;
        let Some(part) = part else { continue };
        let name = format!("part {:03x} of {}", file.part, trimmed(path));
        let again = larger(&part.store, capacity, path, &name)?;
        shelf.replace_part(file.part, &again).map_err(|e| refused(&shelf, e))?;
        out.changed = true;
        progress::parts(done + 1, files.len());
    }
    shelf.set_slots(capacity).map_err(|e| shelf_refused(None, path, e))?;
    let header = shelf.header();
    out.answer(
        0,
        object(vec![
            ("capacity", capacity.into()),
            ("parts", files.len().into()),
            ("oldest", header.oldest.into()),
            ("latest", header.latest.into()),
        ]),
        format_args!(
            "{}: {} with {} each; versions {} to {} with their roots as they were",
            trimmed(path),
            counted(files.len(), "part"),
            counted(capacity as usize, "slot"),
            header.oldest,
            header.latest
        ),
    )
}

enum Cannot {
    Refused(Error),
    Because(String),
}

impl From<Error> for Cannot {
    fn from(error: Error) -> Cannot {
        Cannot::Refused(error)
    }
}

/// A fresh store with the kept versions of another one.
fn republished(store: &Bytes, mut fresh: Bytes) -> Result<Bytes, Cannot> {
    let slots = store.slots()?;
    let header = store.header()?;
    // The oldest version in parts, the last of them under its own number.
    let mut oldest = Batch::new();
    for (key, value) in held::grants(store, &held::lookup(), &slots, header.oldest)? {
        let _ = oldest.insert(key, value);
    }
    if header.oldest > 0 {
        let parts = oldest.split();
        if parts.len() as u32 > header.oldest {
            return Err(Cannot::Because(format!(
                "version {} holds more than that many batches can make",
                header.oldest
            )));
        }
        let first = header.oldest - (parts.len() as u32 - 1);
        for (number, part) in (first..).zip(&parts) {
            fresh.apply(number, part)?;
        }
        fresh.prune(header.oldest)?;
    }
    same_root(store, &fresh, header.oldest)?;
    for one in held::spans(header, &slots, []).iter().skip(1) {
        let version = one.first;
        // What a publishing changed is the library's list.
        let batch = store.changes(version - 1, version, MOST_VISITS)?.to_batch();
        fresh.apply(version, &batch).map_err(|e| match e {
            Error::BatchForm => {
                Cannot::Because(format!("version {version} changed more than one batch can"))
            }
            e => Cannot::Refused(e),
        })?;
        same_root(store, &fresh, version)?;
    }
    fresh.check()?;
    Ok(fresh)
}

fn same_root(store: &Bytes, fresh: &Bytes, version: u32) -> Result<(), Cannot> {
    if store.root(version)? == fresh.root(version)? {
        return Ok(());
    }
    Err(Cannot::Because(format!(
        "version {version} would get another root"
    )))
}
