//! Publishing: a batch, or whatever makes the store hold the grants of a file.

use crate::args::{number, Args};
use crate::asked::{note, read_kept, refused, Bytes, Kept, writable};
use crate::book::{self, write_book, Book, Entry, Said};

use crate::effect::{self, Ask, Effect};
use crate::fail::Fail;
use crate::files::{self, is_shelf, Locked, BATCH_LIMIT, SHELF_BATCH_LIMIT};
use crate::guards::{self, Removals};
use crate::held;
use crate::json::{object, Json};
use crate::kept::{read_shelf, shelf_refused, trimmed};
use crate::lines::{self, Named};
use crate::out::{beside, Out};
use crate::plain::{counted, quoted, shown};
use crate::room::{self, Words};
use grants::{
    dates, to_hex, Applied, Batch, Error, Key, Root, Rounds, Shelf, ShelfError, Store, BATCH_RECORDS,
};
use std::path::Path;

const DAY: i64 = 86_400;
const RECORD: usize = grants::RECORD_BYTES;
/// The kind of a record that inserts (docs/FORMAT.md).
const INSERT: u8 = 1;
/// How many records that change nothing are named on standard error, the others counted; --json has all of them.
const MOST_NAMED: usize = 20;

/// What is to be published: records of 72 bytes, and the names that were used.
struct Asked {
    bytes: Vec<u8>,
    /// Whether more records than one publishing takes may be published under several numbers.
    split: bool,
    names: Vec<Named>,
    removals: Removals,
}

impl Asked {
    fn records(&self) -> usize {
        self.bytes.len().div_ceil(RECORD)
    }

    /// Whether the list is there already, so that no version is published.
    fn is_there(&self) -> bool {
        self.removals == Removals::LeftOut && self.bytes.is_empty()
    }

    /// The batches of a store, one for each version.
    fn batches(&self) -> Vec<&[u8]> {
        match self.split && !self.bytes.is_empty() {
            _ if self.is_there() => vec![],
            true => self.bytes.chunks(BATCH_RECORDS * RECORD).collect(),
            false => vec![&self.bytes],
        }
    }

    /// The records, as the library takes them once it has found them in form.
    fn asks(&self) -> impl Iterator<Item = Ask> + '_ {
        self.bytes.chunks_exact(RECORD).map(|record| {
            let word =
                |from: usize| <[u8; 32]>::try_from(&record[from..from + 32]).unwrap_or([0; 32]);
            let value = (record[4] == INSERT).then(|| word(40).into());
            (word(8).into(), value)
        })
    }

    /// A key with the name that the batch or the book has for it.
    fn shown(&self, key: &Key, book: &Book) -> String {
        let used = self
            .names
            .iter()
            .find(|named| named.word == *key.as_bytes());
        let name = used.map(|named| named.name.as_str());
        match name.or(book.name(key.as_bytes())) {
            Some(name) => format!("{} ({key})", quoted(name)),
            None => key.to_string(),
        }
    }
}

fn read_batch(path: &Path, to: &Path) -> Result<Vec<u8>, Fail> {
    let (limit, what) = match is_shelf(to) {
        true => (SHELF_BATCH_LIMIT, "shelf"),
        false => (BATCH_LIMIT, "store"),
    };
    let bytes = files::read(path, limit + 1)?;
    if bytes.len() as u64 > limit {
        return Err(Fail::File(format!(
            "cannot read {}: it has more than {limit} bytes, far more than a {what} takes",
            shown(path)
        )));
    }
    Ok(bytes)
}

fn as_text<'a>(bytes: &'a [u8], path: &Path) -> Result<&'a str, Fail> {
    std::str::from_utf8(bytes).map_err(|_| {
        Fail::Refused(
            Error::BatchForm,
            format!(
                "{} is neither text nor binary records. Nothing was changed.",
                shown(path)
            ),
        )
    })
}

/// The lines of a batch as text, with the names that may be taken by the book's word alone.
fn text_lines(args: &Args, text: &str, book: &Book) -> Result<lines::Lines, Fail> {
    lines::batch(text, book, &args.all_said("--by-book")?)
}

/// The batch that a file holds.
fn asked(args: &Args, bytes: &[u8], book: &Book) -> Result<Asked, Fail> {
    let split = args.has("--split");
    if args.has("--binary") || bytes.contains(&0) {
        if args.has("--end") {
            return Err(Fail::Usage(
                "--end goes with a batch as text: binary records have no end line".to_string(),
            ));
        }
        return Ok(Asked {
            bytes: bytes.to_vec(),
            split,
            names: vec![],
            removals: Removals::Named,
        });
    }
    let lines = text_lines(args, as_text(bytes, args.path(1))?, book)?;
    if args.has("--end") && !lines.ended {
        return Err(Fail::Held(
            "the batch has no end line, so it may have been cut off.".to_string(),
        ));
    }
    Ok(Asked {
        bytes: lines.batch.to_bytes(),
        split,
        names: lines.names,
        removals: Removals::Named,
    })
}

/// The numbers that so many batches get: the last of them what was asked for, else one after the other from latest. Where there is none it is 0,
/// which the library refuses as it does every number up to latest.
fn numbers(args: &Args, latest: u32, batches: usize) -> Result<Vec<u32>, Fail> {
    let last = match args.value("--number") {
        Some(word) => Some(number("N", word)?),
        None => latest.checked_add(batches as u32),
    };
    let before = (0..batches as u32).rev();
    Ok(before
        .map(|n| last.and_then(|last| last.checked_sub(n)).unwrap_or(0))
        .collect())
}

/// Publishes in memory: all batches or none.
fn publish(
    args: &Args,
    store: &mut Bytes,
    asked: &Asked,
    path: &Path,
) -> Result<Vec<Applied>, Fail> {
    let before = Store::over(store.as_bytes().to_vec());
    let refused = refused(store, path);
    let batches = asked.batches();
    let latest = store.header().map_or(0, |header| header.latest);
    let numbers = numbers(args, latest, batches.len())?;
    let name = shown(path);
    let mut published: Vec<Applied> = vec![];
    for (i, batch) in batches.iter().enumerate() {
        if i > 0 && !in_order(batches[i - 1], batch) {
            return Err(Fail::Refused(Error::BatchOrder, order(&name)));
        }
        let made = store.apply_bytes(numbers[i], batch).map_err(|e| match e {
            Error::BatchForm if asked.records() > BATCH_RECORDS && batches.len() == 1 => Fail::Refused(e, format!(
                "This one has {}: hand it in parts, or say --split to publish it as {} versions. {name} is as it was.",
                asked.records(), asked.records().div_ceil(BATCH_RECORDS)
            )),
            Error::BatchForm => Fail::Refused(e, form(&name)),
            Error::BatchOrder => Fail::Refused(e, order(&name)),
            Error::NoRoom => match room::advice(&before, &Words::of_store(&name), &numbers, &batches) {
                Ok(advice) => Fail::Refused(e, advice),
                Err(_) => refused(e),
            },
            Error::NotAboveLatest if numbers.len() > 1 && args.has("--number") => Fail::Refused(e, too_few(&name, &numbers)),
            e => refused(e),
        })?;
        published.push(made);
    }
    Ok(published)
}

fn form(name: &str) -> String {
    format!("A binary batch is records of 72 bytes, as docs/FORMAT.md has them. {name} is as it was.")
}

fn order(name: &str) -> String {
    format!("Sort binary records by key and name each key once; a batch as text is sorted for you. {name} is as it was.")
}

fn too_few(name: &str, numbers: &[u32]) -> String {
    format!(
        "{} versions take as many numbers up to the one given, each above the latest version of {name}, which is as it was.",
        numbers.len()
    )
}

/// What the library says of records for a shelf, which hands each part its own alone: whether they are in form, and their keys ascending.
fn judged(bytes: &[u8], name: &str) -> Result<(), Fail> {
    let mut before: &[u8] = &[];
    for batch in bytes.chunks(BATCH_RECORDS * RECORD) {
        let scratch = Store::with_capacity(1).map(|mut store| store.apply_bytes(1, batch));
        match scratch {
            Ok(Err(e @ Error::BatchForm)) => return Err(Fail::Refused(e, form(name))),
            Ok(Err(e @ Error::BatchOrder)) => return Err(Fail::Refused(e, order(name))),
            _ if !before.is_empty() && !in_order(before, batch) => {
                return Err(Fail::Refused(Error::BatchOrder, order(name)))
            }
            _ => before = batch,
        }
    }
    Ok(())
}

/// Publishes in files that no reader uses before the list is replaced; without `keep` in memory alone.
fn shelve(args: &Args, shelf: &Shelf, asked: &Asked, keep: bool) -> Result<grants::Made, Fail> {
    let path = args.path(0);
    let name = trimmed(path);
    let refused = |e: ShelfError| shelf_refused(Some(shelf), path, e);
    judged(&asked.bytes, &name)?;
    let rounds = Rounds::of(shelf.bits(), &asked.bytes).map_err(|e| refused(e.into()))?;
    if rounds.len() > 1 && !asked.split {
        return Err(refused(ShelfError::Rounds { rounds: rounds.len() }));
    }
    let numbers = numbers(args, shelf.header().latest, rounds.len())?;
    shelf.make(&rounds, &numbers, keep).map_err(|e| match e.refusal() {
        Some(error @ Error::NotAboveLatest) if numbers.len() > 1 && args.has("--number") => {
            Fail::Refused(error, too_few(&name, &numbers))
        }
        Some(Error::NoRoom) => no_room(shelf, &rounds, &numbers, e, path),
        _ => refused(e),
    })
}

/// What to do where a store of the shelf has too few free slots.
fn no_room(shelf: &Shelf, rounds: &Rounds, numbers: &[u32], e: ShelfError, path: &Path) -> Fail {
    let advice = |part: u16| {
        let store = match shelf.newest(part)? {
            Some(at) => at.store,
            None => Store::with_capacity(shelf.slots())?,
        };
        let runs = rounds.of_part(part);
        let (numbers, runs): (Vec<u32>, Vec<&[u8]>) = runs.map(|(i, run)| (numbers[i], run)).unzip();
        let words = Words::of_part(part, &trimmed(path));
        Ok::<_, ShelfError>(room::advice(&store, &words, &numbers, &runs)?)
    };
    match e {
        ShelfError::Refused { error, part: Some(part) } => match advice(part) {
            Ok(advice) => Fail::Refused(error, advice),
            Err(_) => shelf_refused(Some(shelf), path, e),
        },
        e => shelf_refused(Some(shelf), path, e),
    }
}

/// Whether the library takes the records on both sides of a seam for ascending.
fn in_order(left: &[u8], right: &[u8]) -> bool {
    let mut seam = left[left.len() - RECORD..].to_vec();
    seam.extend_from_slice(&right[..RECORD.min(right.len())]);
    let scratch = Store::with_capacity(1).map(|mut store| store.apply_bytes(1, &seam));
    !matches!(scratch, Ok(Err(Error::BatchOrder)))
}

/// What was made: the store, or the list of a shelf, that is to come in the old one's place; its versions, and what they do to the grants.
struct Made {
    new: Bytes,
    published: Vec<Applied>,
    effect: Effect,
    /// The version that was the latest before, with its root.
    was: (u32, Root),
    /// Free slots: the store's, or those of the fullest store of the shelf that changes.
    free: usize,
    /// Of a shelf, the parts that change and the bytes of their files.
    parts: Option<(usize, u64)>,
}

/// What the book is told of a publishing beside its root.
struct Remark {
    time: i64,
    author: String,
    message: String,
}

impl Remark {
    fn of(args: &Args) -> Result<Remark, Fail> {
        Ok(Remark {
            time: book::time(args)?,
            author: book::author(args)?,
            message: args.said("--message")?.unwrap_or_default(),
        })
    }
}

/// What is said of a date that was given: before that of the version before, or more than a day ahead.
fn odd_date(made: &Made, remark: &Remark, book: &Book) -> Option<String> {
    let (version, root) = made.was;
    let date = dates::text(remark.time);
    if remark.time > dates::now() + DAY {
        return Some(format!("{date} lies ahead"));
    }
    match book.said(version, root) {
        Said::This(entry) if entry.time > remark.time => Some(format!(
            "{date} is before {}, the date of version {version}: --at can't tell what was the latest in between",
            dates::text(entry.time)
        )),
        _ => None,
    }
}

/// What is said of a list that takes several versions, though no one asked for it.
fn split(made: &Made, asked: &Asked) -> Option<String> {
    let versions = made.published.len();
    (asked.removals == Removals::LeftOut && versions > 1).then(|| {
        format!(
            "{} changes make {versions} versions: a version takes {BATCH_RECORDS} at most{}",
            asked.records(),
            if made.parts.is_some() { " for a part" } else { "" }
        )
    })
}

/// What is said where the version before has no line in the book: its writer was stopped too early, or ran without the book.
fn lost_line(made: &Made, book: &Book, store: &Path) -> Option<String> {
    let (version, root) = made.was;
    if version == 0 || !book.has_place() || book.said(version, root) != Said::Nothing {
        return None;
    }
    Some(match book.is_there() {
        true => format!(
            "{} has no line for version {version}; `grants note {} {version} --date DATE` adds one",
            book.shown(),
            shown(store)
        ),
        false => format!(
            "{} is not there, and is begun with this version",
            book.shown()
        ),
    })
}

/// Publishes, unless something holds it back, so that only the new file has to be put in its place. Where nothing is asked for, the root is the one that is there.
fn make(args: &Args, kept: Kept, asked: &Asked, book: &Book, keep: bool) -> Result<Made, Fail> {
    let made = match kept {
        Kept::Store(store) => made_store(args, store.into_store(), asked)?,
        Kept::Shelf(shelf) => made_shelf(args, &shelf, asked, keep)?,
    };
    let root = made.published.last().map_or(made.was.1, |made| made.root);
    guards::hold(args, &made.effect, asked.removals, root, &|key| {
        asked.shown(key, book)
    })?;
    Ok(made)
}

fn made_store(args: &Args, mut store: Bytes, asked: &Asked) -> Result<Made, Fail> {
    let path = args.path(0);
    // Where this is refused, so is the publishing, and for the same cause.
    let now = effect::latest(&store);
    let was = store
        .header()
        .and_then(|header| Ok((header.latest, store.root(header.latest)?)));
    let published = publish(args, &mut store, asked, path)?;
    let refused = refused(&store, path);
    let effect = Effect::of(&now.map_err(&refused)?, asked.asks());
    let slots = store.slots().map_err(&refused)?;
    Ok(Made {
        published,
        effect,
        was: was.map_err(&refused)?,
        free: slots.iter().filter(|slot| slot.is_none()).count(),
        parts: None,
        new: store,
    })
}

fn made_shelf(args: &Args, shelf: &Shelf, asked: &Asked, keep: bool) -> Result<Made, Fail> {
    let latest = shelf.header().latest;
    let was = shelf.root(latest).map_err(|e| shelf_refused(Some(shelf), args.path(0), e))?;
    let before = shelf.files().map(|file| file.grants as usize).sum();
    let (was, list) = ((latest, was), shelf.list().as_bytes().to_vec());
    if asked.is_there() {
        let effect = Effect { before, ..Effect::default() };
        let (published, new) = (vec![], Store::over(list));
        return Ok(Made { new, published, effect, was, free: 0, parts: Some((0, 0)) });
    }
    let made = shelve(args, shelf, asked, keep)?;
    let grants::Effect { added, removed, changed, idle } = made.effect;
    Ok(Made {
        new: made.list,
        published: made.published,
        effect: Effect { before, added, removed, changed, idle },
        was,
        free: made.free,
        parts: Some((made.parts, made.bytes)),
    })
}

/// Removes at its end what is of no use to the shelf as it then is. The lock must outlive it.
struct Cleaned<'a>(&'a Path);

impl Drop for Cleaned<'_> {
    fn drop(&mut self) {
        if is_shelf(self.0) {
            // What can't be removed now, the next writer removes.
            let _ = Shelf::open(self.0).and_then(|shelf| shelf.clean());
        }
    }
}

/// What a writer is at work on, under the lock and rid of what another one left.
fn taken(path: &Path, locked: &Locked) -> Result<Kept, Fail> {
    if !is_shelf(path) {
        return Ok(Kept::Store(Store::over(locked.read()?).into()));
    }
    let shelf = read_shelf(path)?;
    shelf.clean().map_err(|e| shelf_refused(Some(&shelf), path, e))?;
    Ok(Kept::Shelf(shelf))
}

/// Says beside the answer which names are the book's word alone, and which records change nothing.
fn said_beside(made: &Made, asked: &Asked, book: &Book) {
    for named in asked.names.iter().filter(|named| named.by_book()) {
        note(
            book,
            &format!("{} is {}", quoted(&named.name), to_hex(&named.word)),
        );
    }
    let idle = &made.effect.idle;
    for one in idle.iter().take(MOST_NAMED) {
        let line = guards::idle(one, &|key| asked.shown(key, book));
        beside(format_args!("no change: {line}"));
    }
    if let Some(more) = idle.len().checked_sub(MOST_NAMED + 1) {
        beside(format_args!("no change: and {} more", more + 1));
    }
}

/// Replaces the store, then its book, and says what was published.
fn keep(
    args: &Args,
    remark: &Remark,
    locked: &mut Locked,
    mut book: Book,
    asked: &Asked,
    made: &Made,
    out: &mut Out,
) -> Result<u8, Fail> {
    let said = [
        lost_line(made, &book, args.path(0)),
        odd_date(made, remark, &book),
        split(made, asked),
    ];
    for named in asked.names.iter().filter(|named| made.uses(named)) {
        book.add_name(named.word, &named.name);
    }
    for made in &made.published {
        book.add_version(Entry {
            version: made.version,
            root: made.root,
            time: remark.time,
            author: remark.author.clone(),
            message: remark.message.clone(),
        });
    }
    book.may_be_written()?;
    if made.parts.is_some() {
        locked.sync()?;
    }
    locked.replace(made.new.as_bytes())?;
    out.changed = true;
    write_book(&book)?;
    // Where something failed before, its sentence stands alone.
    said_beside(made, asked, &book);
    for one in said.into_iter().flatten() {
        beside(format_args!("note: {one}"));
    }
    told(made, asked, false, out)
}

impl Made {
    /// Whether something stands for a name: not where it was to be removed and wasn't there.
    fn uses(&self, named: &Named) -> bool {
        let idle = |(key, value): &Ask| value.is_none() && *key.as_bytes() == named.word;
        !named.deleted || !self.effect.idle.iter().any(idle)
    }
}

/// What was published, or would be; then it says how many slots would be left.
fn told(made: &Made, asked: &Asked, dry: bool, out: &mut Out) -> Result<u8, Fail> {
    if out.json {
        return out.answer(0, told_in_json(made, asked, dry), "");
    }
    let mut answer = out.decided(0);
    let would = if dry { "would be " } else { "" };
    for made in &made.published {
        answer.line(format_args!(
            "{would}version {}, {}, root {}",
            made.version,
            counted(made.new_records as usize, "new record"),
            made.root
        ))?;
    }
    if made.published.is_empty() {
        let what = if made.parts.is_some() { "shelf" } else { "store" };
        answer.line(format_args!(
            "the {what} holds these grants already; no version was published"
        ))?;
    }
    answer.line(made.effect.line())?;
    if let Some((parts, bytes)) = made.parts {
        let verb = if dry { "would change" } else { "changed" };
        answer.line(format_args!("{} {verb}, {bytes} bytes", counted(parts, "part")))?;
    }
    if dry {
        let of = if made.parts.is_some() { " in the fullest store that changes" } else { "" };
        answer.line(format_args!(
            "{} would be left{of}; nothing was changed",
            counted(made.free, "free slot")
        ))?;
    }
    answer.end()
}

fn told_in_json(made: &Made, asked: &Asked, dry: bool) -> Json {
    let list = made.published.iter().map(|made| {
        object(vec![
            ("version", made.version.into()),
            ("root", made.root.to_string().into()),
            ("new_records", made.new_records.into()),
        ])
    });
    let by_book = asked.names.iter().filter(|named| named.by_book());
    let by_book = by_book.map(|named| {
        object(vec![
            ("name", named.name.as_str().into()),
            ("bytes", to_hex(&named.word).into()),
        ])
    });
    let mut fields = vec![("published", Json::List(list.collect()))];
    fields.extend(made.effect.fields());
    fields.push(("by_book", Json::List(by_book.collect())));
    if let Some((parts, bytes)) = made.parts {
        fields.push(("parts_changed", parts.into()));
        fields.push(("part_bytes", Json::Number(bytes)));
    }
    if dry {
        fields.push(("dry_run", true.into()));
        fields.push(("free", made.free.into()));
    }
    object(fields)
}

/// The same in memory alone, of a store that need not be one that may be written.
fn tried(args: &Args, kept: Kept, asked: &Asked, book: &Book, out: &mut Out) -> Result<u8, Fail> {
    let made = make(args, kept, asked, book, false)?;
    said_beside(&made, asked, book);
    told(&made, asked, true, out)
}

pub fn apply(args: &Args, out: &mut Out) -> Result<u8, Fail> {
    let path = writable(args)?;
    let remark = Remark::of(args)?;
    let bytes = read_batch(args.path(1), path)?;
    book::is_none_of(args, &[path, args.path(1)])?;
    let known = Book::of(args, Some(path))?;
    let first = asked(args, &bytes, &known)?;
    if args.has("--dry-run") {
        return tried(args, read_kept(path)?, &first, &known, out);
    }
    let mut locked = Locked::take(args, path)?;
    let _cleaned = Cleaned(path);
    // Another writer may have given names while this one waited.
    let book = Book::of(args, Some(path))?;
    let asked = asked(args, &bytes, &book)?;
    let made = make(args, taken(path, &locked)?, &asked, &book, true)?;
    keep(args, &remark, &mut locked, book, &asked, &made, out)
}

/// What makes the latest version hold exactly these grants.
fn difference(store: &Kept, path: &Path, lines: lines::Lines) -> Result<Asked, Fail> {
    let refused = store.refused(path);
    let latest = store.header().map_err(&refused)?.latest;
    let slots = store.slots().map_err(&refused)?;
    let now = store.grants(&slots, latest).map_err(&refused)?;
    let mut batch = Batch::new();
    let mut wanted = held::Grants::new();
    for (key, value) in lines.batch.iter() {
        let value = value.ok_or_else(|| {
            Fail::Refused(
                Error::BatchForm,
                format!("A file to import has '+' lines alone, and it deletes {key}. Nothing was changed."),
            )
        })?;
        wanted.insert(key, value);
        if now.get(&key) != Some(&value) {
            let _ = batch.insert(key, value);
        }
    }
    for key in now.keys().filter(|key| !wanted.contains_key(key)) {
        let _ = batch.delete(*key);
    }
    Ok(Asked {
        bytes: batch.to_bytes(),
        split: true,
        names: lines.names,
        removals: Removals::LeftOut,
    })
}

pub fn import(args: &Args, out: &mut Out) -> Result<u8, Fail> {
    let path = writable(args)?;
    let remark = Remark::of(args)?;
    let bytes = read_batch(args.path(1), path)?;
    let text = as_text(&bytes, args.path(1))?;
    book::is_none_of(args, &[path, args.path(1)])?;
    let known = Book::of(args, Some(path))?;
    let first = text_lines(args, text, &known)?;
    guards::whole(args, first.batch.len(), first.ended)?;
    if args.has("--dry-run") {
        let store = read_kept(path)?;
        let asked = difference(&store, path, first)?;
        return tried(args, store, &asked, &known, out);
    }
    let mut locked = Locked::take(args, path)?;
    let _cleaned = Cleaned(path);
    let book = Book::of(args, Some(path))?;
    let store = taken(path, &locked)?;
    let asked = difference(&store, path, text_lines(args, text, &book)?)?;
    let made = make(args, store, &asked, &book, true)?;
    if made.published.is_empty() {
        said_beside(&made, &asked, &book);
        return told(&made, &asked, false, out);
    }
    keep(args, &remark, &mut locked, book, &asked, &made, out)
}
