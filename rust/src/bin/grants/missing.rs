//! Which records a damaged store misses, in words for support and in JSON. The refusal is the library's; the places are read from the slots, for display.

use crate::asked::{refused, Bytes, Kept};
use crate::fail::{Fail, Wrong};
use crate::faults;
use crate::json::Json;
use crate::kept::{self, trimmed};
use crate::plain::{at, counted, shown};
use grants::{Error, Key, Met, Missing, Shelf, ShelfError, Store};
use std::path::Path;

/// What is done about a damaged store.
const ADVICE: &str =
    "take another copy, and keep this one: what is whole in it can be rescued (grants rescue)";

/// 'the record of version 4 at place 0110', 'the root of version 9'.
fn named(missing: &Missing) -> String {
    match missing.version {
        Some(version) => format!("the record of version {version} at place {}", missing.place),
        None => format!("the root of version {}", missing.wanted_in),
    }
}

/// 'spoilt, in slot 12' or 'lost'.
fn harm(missing: &Missing) -> String {
    match missing.slot {
        Some(slot) => format!("spoilt, in slot {slot}"),
        None => "lost, in no slot".to_string(),
    }
}

pub fn line(missing: &Missing) -> String {
    let wanted = match missing.version {
        Some(_) => format!("; version {} wants it", missing.wanted_in),
        None => String::new(),
    };
    format!("{} is {}{wanted}", named(missing), harm(missing))
}

pub fn object(missing: &Missing) -> Json {
    Json::Object(vec![
        ("place", missing.place.to_string().into()),
        ("version", missing.version.into()),
        ("slot", missing.slot.into()),
        ("wanted_in", missing.wanted_in.into()),
    ])
}

/// What to do about a refused read of a version, and of a key where one was asked for.
pub fn refused_read<'a>(
    store: &'a Kept,
    path: &'a Path,
    version: u32,
    key: Option<&'a [u8]>,
) -> impl Fn(ShelfError) -> Fail + 'a {
    move |error| {
        let wants = match (store, &error) {
            (Kept::Store(store), ShelfError::Refused { error, .. }) => {
                store_read(store, &shown(path), version, key, *error)
            }
            (Kept::Shelf(shelf), ShelfError::Refused { error, part }) => {
                shelf_read(shelf, path, version, key, *part, *error)
            }
            _ => None,
        };
        wants.unwrap_or_else(|| store.refused(path)(error))
    }
}

/// Which record a read of a store met that is lost or spoilt.
fn store_read(
    store: &Bytes,
    name: &str,
    version: u32,
    key: Option<&[u8]>,
    error: Error,
) -> Option<Fail> {
    if !matches!(error, Error::Lost | Error::Spoilt { .. }) {
        return None;
    }
    // Of the root alone: any key's way begins there.
    let key: Option<[u8; 32]> = key.map_or(Some([0; 32]), |key| key.try_into().ok());
    let missing = store.missing_for(version, Key::from(key?));
    let missing = missing.filter(|missing| missing.slot == error.slot())?;
    Some(wants(error, name, version, missing))
}

/// The same of the list of a shelf, by the part's key there, or of the part.
fn shelf_read(
    shelf: &Shelf,
    path: &Path,
    version: u32,
    key: Option<&[u8]>,
    part: Option<u16>,
    error: Error,
) -> Option<Fail> {
    let (store, name) = store_of(shelf, path, part)?;
    let bits = shelf.bits();
    let listed = key.and_then(|key| <[u8; 32]>::try_from(key).ok());
    let listed = listed.map(|key| bits.list_key(bits.part_of(Key::from(key))));
    let (version, key) = match part {
        Some(_) => (version.min(store.header().ok()?.latest), key),
        None => (version, listed.as_ref().map(|key| &key.as_bytes()[..])),
    };
    store_read(&store, &name, version, key, error)
}

/// A store of a shelf, the list or a part, and what it is called.
fn store_of(shelf: &Shelf, path: &Path, part: Option<u16>) -> Option<(Bytes, String)> {
    let shelf_name = trimmed(path);
    match part {
        Some(part) => Some((shelf.part(part).ok()??, format!("part {part:03x} of {shelf_name}"))),
        None => {
            let list = Store::over(shelf.list().as_bytes().to_vec());
            Some((list, format!("the list of {shelf_name}")))
        }
    }
}

/// Which record a version wants and can't find.
fn wants(error: Error, name: &str, version: u32, missing: Missing) -> Fail {
    let advice = format!("Version {version} of {name} wants {}, which is {}: {ADVICE}. `grants check` lists all that is missing.", named(&missing), harm(&missing));
    Fail::Damaged(error, advice, vec![missing], vec![])
}

/// What to do about a position of a version that was refused.
pub fn refused_at<'a>(
    store: &'a Kept,
    path: &'a Path,
    version: u32,
    position: u64,
) -> impl Fn(ShelfError) -> Fail + 'a {
    move |error| match (store, error) {
        (_, ShelfError::Refused { error: Error::NoSuchPosition, .. }) => {
            no_position(store, path, version)
        }
        (Kept::Store(store), ShelfError::Refused { error, .. }) => {
            store_at(store, path, version, position)(error)
        }
        (_, error) => store.refused(path)(error),
    }
}

fn no_position(store: &Kept, path: &Path, version: u32) -> Fail {
    let name = shown(path);
    let advice = match store.count(version) {
        Ok(0) => format!("Version {version} of {name} holds no grant."),
        Ok(n) => format!(
            "Version {version} of {name} has {}: their positions are 0 to {}.",
            counted(n, "grant"),
            n - 1
        ),
        Err(_) => String::new(),
    };
    Fail::Refused(Error::NoSuchPosition, advice)
}

fn store_at<'a>(
    store: &'a Bytes,
    path: &'a Path,
    version: u32,
    position: u64,
) -> impl Fn(Error) -> Fail + 'a {
    move |error| {
        let name = shown(path);
        let damaged = matches!(error, Error::Lost | Error::Spoilt { .. } | Error::Unsound);
        let why = match damaged.then(|| store.met_at(version, position)).flatten() {
            Some(Met::Missing(missing)) if missing.slot == error.slot() => {
                return wants(error, &name, version, missing)
            }
            Some(Met::NoChild { place }) => {
                format!(
                    "the counts lead to {}, where the record above has no child",
                    at(place)
                )
            }
            Some(Met::LeftOver { place, positions }) => format!(
                "the counts lead to the leaf at {} with {} left over",
                at(place),
                counted(positions, "position")
            ),
            Some(Met::Stray { place }) => {
                format!(
                    "the key of the leaf at {} doesn't begin with its place",
                    at(place)
                )
            }
            _ => return refused(store, path)(error),
        };
        Fail::Refused(
            error,
            format!("On the way to position {position} of version {version} of {name}, {why}: {ADVICE}."),
        )
    }
}

/// 'slot 5: its hash is not the one in slot 9, the record above it'.
pub fn wrong_line(wrong: &Wrong) -> String {
    format!("slot {}: {}", wrong.slot, wrong.why)
}

pub fn wrong_object(wrong: &Wrong) -> Json {
    Json::Object(vec![
        ("slot", wrong.slot.into()),
        ("why", wrong.why.clone().into()),
    ])
}

/// Check of an unsound store or shelf: of the store that isn't sound, all that is missing, and where nothing is, what is wrong.
pub fn checked(store: &Kept, path: &Path, error: ShelfError) -> Fail {
    match (store, &error) {
        (Kept::Store(store), ShelfError::Refused { error: Error::Unsound, .. }) => {
            unsound(store, &shown(path))
        }
        (Kept::Shelf(shelf), ShelfError::Refused { error: Error::Unsound, part }) => {
            match store_of(shelf, path, *part) {
                Some((store, name)) => unsound(&store, &name),
                None => kept::shelf_refused(Some(shelf), path, error),
            }
        }
        _ => store.refused(path)(error),
    }
}

fn unsound(store: &Bytes, name: &str) -> Fail {
    let missing = store.missing().unwrap_or_default();
    let wrong = match missing.len() {
        0 => faults::of(store),
        _ => vec![],
    };
    let what = match (missing.len(), &wrong[..]) {
        (0, []) => "No record is missing, but something is wrong".to_string(),
        (0, [one]) => format!("No record is missing, but one is wrong: {}", wrong_line(one)),
        (0, [first, ..]) => format!("No record is missing, but {} things are wrong, listed on standard output, the first in slot {}", wrong.len(), first.slot),
        (n, _) => format!("{} missing, listed on standard output", are(n)),
    };
    Fail::Damaged(
        Error::Unsound,
        format!("{name} is damaged: {ADVICE}. {what}. Nothing was changed."),
        missing,
        wrong,
    )
}

fn are(n: usize) -> String {
    let verb = if n == 1 { "is" } else { "are" };
    format!("{} {verb}", counted(n, "record"))
}
