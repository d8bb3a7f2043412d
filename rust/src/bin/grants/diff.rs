//! What changed between two versions, as lines, as JSON, as a batch, and as the library's own records.

use crate::args::{number, Args};
use crate::asked::{read_kept, version, Kept};
use crate::book::{Book, Said};
use crate::fail::Fail;
use crate::files;
use crate::held;
use crate::json::Json;
use crate::listing::{csv, remark, when};
use crate::out::Out;
use crate::plain::{counted, quoted, shown};
use grants::{Change, Changes, Error, Key, Value, BATCH_RECORDS, MOST_VISITS};
use std::path::Path;

/// Of each kind.
struct Counts {
    added: usize,
    removed: usize,
    changed: usize,
}

impl Counts {
    fn of(changes: &Changes) -> Counts {
        let count = |is: fn(&Change) -> bool| changes.iter().filter(is).count();
        Counts {
            added: count(|c| matches!(c, Change::Added { .. })),
            removed: count(|c| matches!(c, Change::Removed { .. })),
            changed: count(|c| matches!(c, Change::Changed { .. })),
        }
    }

    fn line(&self) -> String {
        format!(
            "{} added, {} removed, {} changed",
            self.added, self.removed, self.changed
        )
    }
}

/// A change with the names that the book has for it.
struct Shown<'a> {
    change: Change,
    book: &'a Book,
}

impl Shown<'_> {
    fn name(&self, word: Option<&[u8; 32]>) -> Option<String> {
        word.and_then(|word| self.book.name(word))
            .map(str::to_string)
    }

    /// The key, then its value before and after.
    fn words(&self) -> (Key, Option<Value>, Option<Value>) {
        match self.change {
            Change::Added { key, value } => (key, None, Some(value)),
            Change::Removed { key, value } => (key, Some(value), None),
            Change::Changed { key, old, new } => (key, Some(old), Some(new)),
        }
    }

    /// The names of the same three.
    fn names(&self) -> [Option<String>; 3] {
        let (key, old, new) = self.words();
        let value = |value: Option<Value>| self.name(value.as_ref().map(Value::as_bytes));
        [self.name(Some(key.as_bytes())), value(old), value(new)]
    }

    fn line(&self) -> String {
        let line = match self.change {
            Change::Added { key, value } => format!("+ {key} {value}"),
            Change::Removed { key, value } => format!("- {key} {value}"),
            Change::Changed { key, old, new } => format!("~ {key} {old} -> {new}"),
        };
        let names = self.names();
        if names.iter().all(Option::is_none) {
            return line;
        }
        let [key, old, new] = names.map(|name| name.map_or("?".to_string(), |n| quoted(&n)));
        let values = match self.change {
            Change::Added { .. } => new,
            Change::Removed { .. } => old,
            Change::Changed { .. } => format!("{old} -> {new}"),
        };
        format!("{line}  {key} = {values}")
    }

    fn csv(&self) -> String {
        let (key, old, new) = self.words();
        let what = match self.change {
            Change::Added { .. } => "added",
            Change::Removed { .. } => "removed",
            Change::Changed { .. } => "changed",
        };
        let hex = |value: Option<Value>| value.map_or(String::new(), |value| value.to_string());
        let [a, b, c] = self.names().map(|name| csv(&name.unwrap_or_default()));
        format!("{what},{key},{},{},{a},{b},{c}", hex(old), hex(new))
    }

    fn object(&self) -> Json {
        let (key, old, new) = self.words();
        let [key_name, old_name, new_name] = self.names();
        Json::Object(vec![
            ("key", key.to_string().into()),
            ("old", old.map(|value| value.to_string()).into()),
            ("new", new.map(|value| value.to_string()).into()),
            ("key_name", key_name.into()),
            ("old_name", old_name.into()),
            ("new_name", new_name.into()),
        ])
    }
}

/// The two versions that are compared: those that are named, one of a day and the latest, or what the last publishing changed.
fn versions(args: &Args, store: &Kept, path: &Path) -> Result<(u32, u32), Fail> {
    let latest = store.header().map_or(0, |header| header.latest);
    let second = match args.word(2) {
        Some(word) => number("SECOND", word)?,
        None => latest,
    };
    if args.word(1).is_some() && !args.has("--at") {
        return Ok((number("FIRST", args.word(1).unwrap_or_default())?, second));
    }
    if args.has("--at") {
        return Ok((version(args, 1, store, path)?, second));
    }
    let refused = store.refused(path);
    let last = store.publishings().map_err(&refused)?;
    let header = store.header().map_err(&refused)?;
    let last = last.last().map_or(header.oldest, |span| span.first);
    Ok((last.saturating_sub(1).max(header.oldest), latest))
}

/// '2 (2026-05-10 10:00, tove: Lyrics withdrawn)', with what the book says of it.
fn dated(store: &Kept, book: &Book, version: u32) -> String {
    let slots = store.slots().unwrap_or_default();
    let number = held::published(&slots, version);
    let Ok(root) = store.root(version) else {
        return version.to_string();
    };
    match book.said(number, root) {
        Said::Nothing => version.to_string(),
        Said::Disagrees => format!("{version} (the book disagrees)"),
        said => {
            let parts = [when(said), remark(said)];
            let parts: Vec<String> = parts.into_iter().filter(|p| !p.is_empty()).collect();
            format!("{version} ({})", parts.join(", "))
        }
    }
}

/// The lines of a batch that `apply` takes.
fn batch(changes: &Changes) -> Result<String, Fail> {
    let batch = changes.to_batch();
    if batch.len() > BATCH_RECORDS {
        return Err(Fail::Refused(
            Error::BatchForm,
            format!(
                "{} changed, and a batch has at most {BATCH_RECORDS} keys: publish them in parts.",
                counted(batch.len(), "key")
            ),
        ));
    }
    let mut text = String::new();
    for (key, value) in batch.iter() {
        text += &match value {
            Some(value) => format!("+ {key} {value}\n"),
            None => format!("- {key}\n"),
        };
    }
    text += &format!("end {}\n", batch.len());
    Ok(text)
}

pub fn diff(args: &Args, out: &mut Out) -> Result<u8, Fail> {
    let path = args.path(0);
    let store = read_kept(path)?;
    let (first, second) = versions(args, &store, path)?;
    let limit = match args.value("--limit") {
        Some(word) => number("--limit", word)?,
        None => MOST_VISITS,
    };
    let changes = store.changes(first, second, limit).map_err(|e| match e.refusal() {
        Some(error @ Error::TooManyVisits) => Fail::Refused(
            error,
            format!("The limit was {limit}; {MOST_VISITS} is always enough."),
        ),
        _ => store.refused(path)(e),
    })?;
    if let Some(to) = args.value("--records").map(Path::new) {
        files::write(args, to, changes.as_bytes(), &[path])?;
        return out.answer(
            0,
            Json::Object(vec![("records", changes.records().into())]),
            format_args!("{}: {}", shown(to), counted(changes.records(), "record")),
        );
    }
    let other = ["--batch", "--csv"].into_iter().find(|form| args.has(form));
    if let Some(form) = other.filter(|_| out.json) {
        return Err(Fail::Usage(format!(
            "{form} and --json are two forms: choose one"
        )));
    }
    let book = Book::of(args, Some(path))?;
    let list = Compared {
        store,
        versions: (first, second),
        changes,
        book,
    };
    match other {
        Some("--batch") => list.batch(out),
        Some(_) => list.csv(out),
        None if out.json => out.answer(0, list.json(args.has("--stat")), ""),
        None => list.lines(args.has("--stat"), out),
    }
}

/// Two versions compared, to be shown in one of the forms.
struct Compared {
    store: Kept,
    versions: (u32, u32),
    changes: Changes,
    book: Book,
}

impl Compared {
    fn shown(&self) -> impl Iterator<Item = Shown<'_>> {
        self.changes.iter().map(|change| Shown {
            change,
            book: &self.book,
        })
    }

    fn batch(&self, out: &mut Out) -> Result<u8, Fail> {
        let text = batch(&self.changes)?;
        let mut answer = out.decided(0);
        answer.raw(text.as_bytes())?;
        answer.end()
    }

    fn csv(&self, out: &mut Out) -> Result<u8, Fail> {
        let mut answer = out.decided(0);
        answer.line("change,key,old,new,key_name,old_name,new_name")?;
        for change in self.shown() {
            answer.line(change.csv())?;
        }
        answer.end()
    }

    fn json(&self, counts_alone: bool) -> Json {
        let counts = Counts::of(&self.changes);
        let mut fields = vec![
            ("first", self.versions.0.into()),
            ("second", self.versions.1.into()),
            ("added", counts.added.into()),
            ("removed", counts.removed.into()),
            ("changed", counts.changed.into()),
        ];
        if !counts_alone {
            let list = self.shown().map(|change| change.object()).collect();
            fields.push(("changes", Json::List(list)));
        }
        Json::Object(fields)
    }

    fn lines(&self, counts_alone: bool, out: &mut Out) -> Result<u8, Fail> {
        let mut answer = out.decided(0);
        for change in self.shown().filter(|_| !counts_alone) {
            answer.line(change.line())?;
        }
        let dated = |version| dated(&self.store, &self.book, version);
        answer.line(format_args!(
            "version {} to {}: {}",
            dated(self.versions.0),
            dated(self.versions.1),
            Counts::of(&self.changes).line()
        ))?;
        answer.end()
    }
}
