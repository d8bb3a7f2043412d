//! A line of the book for a version that has none: its writer was stopped between the store and the book, or ran without it.

use crate::args::{number, Args};
use crate::asked::{Kept, writable};
use crate::book::{self, Book, Entry, Said};

use crate::fail::Fail;
use crate::files::Locked;
use crate::json::object;
use crate::out::Out;
use crate::plain::{quoted, shown};
use grants::{dates, Error, Root, Store};
use std::path::Path;

pub fn note(args: &Args, out: &mut Out) -> Result<u8, Fail> {
    let path = writable(args)?;
    let version = number("VERSION", args.word(1).unwrap_or_default())?;
    // Now is not when it was published.
    if !args.has("--date") {
        return Err(Fail::Usage(
            "--date is missing: when the version was published".to_string(),
        ));
    }
    let (time, author) = (book::time(args)?, book::author(args)?);
    let message = args.said("--message")?.unwrap_or_default();
    let locked = Locked::take(args, path)?;
    let list = Store::over(locked.read()?);
    let root = published_root(&Kept::Store(list.into()), path, version)?;
    book::is_none_of(args, &[path])?;
    let mut book = Book::of(args, Some(path))?;
    if let (Said::This(entry), false) = (book.said(version, root), args.has("--again")) {
        return Err(Fail::Book(format!(
            "{} has a line for version {version} that agrees, of {}, by {}: --again adds one that counts in its place",
            book.shown(),
            dates::text(entry.time),
            quoted(&entry.author)
        )));
    }
    let line = format!(
        "version {version} {root} {} {} {}",
        dates::text(time),
        quoted(&author),
        quoted(&message)
    );
    let fields = object(vec![
        ("version", version.into()),
        ("root", root.to_string().into()),
        ("time", dates::text(time).into()),
        ("author", author.as_str().into()),
        ("message", message.as_str().into()),
    ]);
    book.add_version(Entry {
        version,
        root,
        time,
        author,
        message,
    });
    book.may_be_written()?;
    book.write()?;
    out.answer(0, fields, line)
}

/// The root of what was published under a number, as long as a kept version reads as it.
fn published_root(store: &Kept, path: &Path, version: u32) -> Result<Root, Fail> {
    let refused = store.refused(path);
    let spans = store.publishings().map_err(&refused)?;
    let header = store.header().map_err(&refused)?;
    if let Some(span) = spans.iter().find(|span| span.published == Some(version)) {
        return store.root(span.first).map_err(&refused);
    }
    if version < header.oldest || version > header.latest {
        return Err(refused(Error::VersionNotKept.into()));
    }
    let reads_as = spans.iter().rev().find(|span| span.first <= version);
    let reads_as = match reads_as.and_then(|span| span.published) {
        Some(number) => format!("it reads as version {number}"),
        None => "it is empty from the beginning".to_string(),
    };
    Err(Fail::Book(format!(
        "{} shows no publishing under the number {version}: {reads_as}",
        shown(path)
    )))
}
