//! What is done with a shelf alone: making one, empty or of a store; pruning, and telling how full it is.

use crate::args::{number, Args};
use crate::asked::{read_kept, Bytes, Kept};
use crate::book::{self, write_book, Book, Entry, Said};
use crate::fail::Fail;
use crate::files::{self, already_there, is_shelf, Locked};
use crate::held::{self, Life, Span};
use crate::json::{object, Json};
use crate::kept::{read_shelf, shelf_refused, trimmed};
use crate::out::Out;
use crate::plain::counted;
use grants::{
    dates, old_store_bytes, Batch, Bits, Error, Header, PartAt, Rounds, Shelf, ShelfError, Slot,
    Store, LIST_FILE, MOST_SLOTS,
};
use std::collections::BTreeMap;
use std::fs;
use std::path::{Path, PathBuf};

/// What a shelf that is to be made is like.
struct Wanted {
    folder: PathBuf,
    bits: u32,
    slots: u32,
    list_slots: u32,
}

impl Wanted {
    fn of(args: &Args, folder: &Path) -> Result<Wanted, Fail> {
        let said = |name: &str| args.value(name).map(|word| number(name, word)).transpose();
        let bits = said("--bits")?.ok_or_else(|| args.missing("--bits B"))?;
        let wanted = Wanted {
            // Without what may follow the name.
            folder: folder.components().collect(),
            bits,
            slots: said("--slots")?.unwrap_or(MOST_SLOTS),
            list_slots: said("--list-slots")?.unwrap_or(MOST_SLOTS),
        };
        let there = already_there(&wanted.folder);
        let empty = fs::read_dir(&wanted.folder).is_ok_and(|mut files| files.next().is_none());
        match there && !empty && !wanted.afresh(args) {
            true => Err(Fail::File(format!(
                "{} is there already and was left alone: a shelf is made in a folder that isn't there yet{}",
                trimmed(folder),
                match args.has("--force") || !is_shelf(&wanted.folder) {
                    true => "",
                    false => "; --force makes one that is there afresh",
                }
            ))),
            false => Ok(wanted),
        }
    }

    /// Whether a shelf that is there is to be made afresh.
    fn afresh(&self, args: &Args) -> bool {
        args.has("--force") && is_shelf(&self.folder)
    }

    fn made(&self) -> Result<Shelf, Fail> {
        let folder = &self.folder;
        self.judged(Shelf::create(
            folder,
            self.bits,
            self.slots,
            self.list_slots,
        ))
    }

    fn judged<T>(&self, made: Result<T, ShelfError>) -> Result<T, Fail> {
        made.map_err(|e| match e.refusal() {
            Some(error @ Error::Size) => Fail::Refused(
                error,
                format!(
                    "{} and {} slots were asked for: a store has 1 to 16,384.",
                    self.slots, self.list_slots
                ),
            ),
            Some(error) => Fail::Refused(
                error,
                format!("{} were asked for.", counted(self.bits as usize, "bit")),
            ),
            None => shelf_refused(None, &self.folder, e),
        })
    }
}

pub fn format(args: &Args, path: &Path, out: &mut Out) -> Result<u8, Fail> {
    if args.word(1).is_some() || args.has("--for") {
        return Err(Fail::Usage(
            "with --bits the slots are those of --slots: CAPACITY and --for are for a store"
                .to_string(),
        ));
    }
    let wanted = Wanted::of(args, path)?;
    let shelf = match wanted.afresh(args) {
        true => remade(args, &wanted, out)?,
        false => wanted.made()?,
    };
    out.changed = true;
    let Wanted {
        bits,
        slots,
        list_slots,
        ..
    } = wanted;
    let parts = shelf.bits().parts();
    out.answer(
        0,
        object(vec![
            ("bits", bits.into()),
            ("parts", parts.into()),
            ("slots", slots.into()),
            ("list_slots", list_slots.into()),
        ]),
        format_args!(
            "{}: a shelf of {}, so up to {} with {} each; the list has {list_slots}",
            trimmed(path),
            counted(bits as usize, "bit"),
            counted(parts as usize, "part"),
            counted(slots as usize, "slot"),
        ),
    )
}

/// An empty shelf in the place of one that is there: from when its list is the empty one, it has the new bits and slots, and nothing that was there counts.
fn remade(args: &Args, wanted: &Wanted, out: &mut Out) -> Result<Shelf, Fail> {
    let folder = &wanted.folder;
    let refused = |e: ShelfError| shelf_refused(None, folder, e);
    let list = wanted.judged(Store::with_capacity(wanted.list_slots).map_err(Into::into))?;
    book::is_none_of(args, &[&folder.join(LIST_FILE)])?;
    Book::of(args, Some(folder))?.may_be_written()?;
    let main = folder.join(LIST_FILE);
    let mut locked = match already_there(&main) {
        true => Some(Locked::take(args, folder)?),
        false => None,
    };
    wanted.judged(Shelf::begin_afresh(folder, wanted.bits, wanted.slots))?;
    let locked = match locked.take() {
        Some(mut locked) => {
            locked.replace(list.as_bytes())?;
            locked
        }
        // Its list was lost.
        None => {
            files::create(&main, list.as_bytes())?;
            Locked::take(args, folder)?
        }
    };
    out.changed = true;
    let shelf = Shelf::open(folder).map_err(refused)?;
    shelf.clean().map_err(refused)?;
    let mut book = Book::of(args, Some(folder))?;
    if book.latest().is_some() && locked.still_holds(list.as_bytes()) {
        book.add_fresh(dates::now());
        write_book(&book)?;
    }
    Ok(shelf)
}

/// The list of a shelf that was pruned, and how many records were freed.
pub fn pruned(path: &Path, version: u32, locked: &mut Locked) -> Result<(Bytes, u64), Fail> {
    let shelf = read_shelf(path)?;
    let done = in_place(&shelf, path, version, locked);
    // Whatever came of it, what is of no use to the shelf as it is now goes.
    let _ = Shelf::open(path).and_then(|shelf| shelf.clean());
    done
}

fn in_place(
    shelf: &Shelf,
    path: &Path,
    version: u32,
    locked: &mut Locked,
) -> Result<(Bytes, u64), Fail> {
    let refused = |e: ShelfError| shelf_refused(Some(shelf), path, e);
    shelf.clean().map_err(refused)?;
    let pruned = shelf.pruned(version).map_err(refused)?;
    locked.sync()?;
    locked.replace(pruned.list.as_bytes())?;
    Ok((pruned.list, pruned.freed))
}

/// How full a store of the shelf is; and how many records each of the last publishings made in it.
struct Filled {
    part: u16,
    used: usize,
    free: usize,
    grants: u64,
    bytes: usize,
    made: Vec<usize>,
}

impl Filled {
    fn of(part: u16, store: &Bytes, latest: u32, old: bool, last: &[u32]) -> Result<Filled, Error> {
        let slots = store.slots_found()?;
        let free = slots.iter().filter(|slot| **slot == Slot::Free).count();
        let records = slots.iter().filter_map(|slot| match slot {
            Slot::Record(record) => Some(record),
            _ => None,
        });
        Ok(Filled {
            part,
            used: slots.len() - free,
            free,
            grants: store.count(latest)?,
            bytes: match old {
                true => old_store_bytes(slots.len() as u32),
                false => store.as_bytes().len(),
            },
            made: held::made(records, last),
        })
    }

    /// A guess how many publishings there is room for: those of the last that changed it make as many records as the one in the middle, and come as often. None where none did.
    fn left(&self) -> Option<usize> {
        let touched: Vec<usize> = self.made.iter().copied().filter(|n| *n > 0).collect();
        let often = touched.len() as f64 / self.made.len() as f64;
        let each = held::middle(touched)? * often;
        Some((self.free as f64 / each) as usize)
    }
}

/// How full a shelf is.
struct Fullness {
    list: Filled,
    parts: Vec<Filled>,
    header: Header,
    kept: u64,
    publishings: Option<usize>,
}

impl Fullness {
    fn of(shelf: &Shelf) -> Result<Fullness, ShelfError> {
        let (header, old) = (shelf.header(), shelf.is_old_form());
        let spans = shelf.list().publishings().ok();
        // Where the list isn't sound nothing is guessed.
        let last = spans.as_deref().map_or(vec![], held::last);
        let filled = |at: &PartAt| Filled::of(at.part, &at.store, at.version, old, &last);
        Ok(Fullness {
            list: Filled::of(0, shelf.list(), header.latest, old, &last)?,
            parts: shelf.each_file(filled)?,
            header,
            kept: u64::from(header.latest - header.oldest) + 1,
            publishings: spans.map(|all| all.len()),
        })
    }

    /// How many publishings there is room for, by the store of the shelf that is full first, and which one that is.
    fn left(&self) -> Option<(usize, String)> {
        let parts = self.parts.iter().map(|part| (part.left(), format!("part {:03x}", part.part)));
        let all = [(self.list.left(), "the list".to_string())].into_iter().chain(parts);
        all.filter_map(|(left, name)| Some((left?, name))).min()
    }

    fn fullest(&self) -> Option<&Filled> {
        self.parts.iter().min_by_key(|part| part.free)
    }

    fn used(&self) -> usize {
        self.parts.iter().map(|part| part.used).sum()
    }

    fn grants(&self) -> u64 {
        self.parts.iter().map(|part| part.grants).sum()
    }

    fn bytes(&self) -> usize {
        self.list.bytes + self.parts.iter().map(|part| part.bytes).sum::<usize>()
    }

    fn json(&self, shelf: &Shelf) -> Json {
        let fullest = self.fullest();
        object(vec![
            ("form", if shelf.is_old_form() { "old shelf" } else { "shelf" }.into()),
            ("bits", shelf.bits().get().into()),
            ("slots", shelf.slots().into()),
            ("parts", self.parts.len().into()),
            ("used", self.used().into()),
            ("fullest", fullest.map(|part| u32::from(part.part)).into()),
            ("free", fullest.map(|part| part.free).into()),
            ("list_used", self.list.used.into()),
            ("list_free", self.list.free.into()),
            ("oldest", self.header.oldest.into()),
            ("latest", self.header.latest.into()),
            ("kept", Json::Number(self.kept)),
            ("publishings", self.publishings.into()),
            ("grants", Json::Number(self.grants())),
            ("bytes", self.bytes().into()),
            ("publishings_left", self.left().map(|(left, _)| left).into()),
        ])
    }

    fn lines(&self, shelf: &Shelf) -> String {
        let Header { oldest, latest, .. } = self.header;
        let fullest = self.fullest().map_or("-".to_string(), |part| {
            format!("{} in the fullest part, {:03x}", part.free, part.part)
        });
        let gaps = self.publishings.filter(|n| *n as u64 != self.kept);
        let among = gaps.map_or(String::new(), |n| format!(", {}", counted(n, "publishing")));
        let left = self.left().map_or(String::new(), |(left, full)| {
            let left = counted(left, "publishing");
            format!("\nleft      about {left}, if they go as the last ones did; then {full} is full")
        });
        [
            format!(
                "form      a shelf of {}{}",
                counted(shelf.bits().get() as usize, "bit"),
                match shelf.is_old_form() {
                    true => ", old, slots of 120 bytes (grants move brings it over)",
                    false => "",
                }
            ),
            format!(
                "parts     {} of {}, a new one with {}",
                self.parts.len(),
                shelf.bits().parts(),
                counted(shelf.slots() as usize, "slot")
            ),
            format!("used      {}, {} in the list", self.used(), self.list.used),
            format!("free      {fullest}; {} in the list", self.list.free),
            format!(
                "kept      {oldest} to {latest}, {}{among}",
                counted(self.kept, "version")
            ),
            format!("grants    {} in version {latest}", self.grants()),
            format!("bytes     {}{left}", self.bytes()),
        ]
        .join("\n")
    }
}

pub fn stat(path: &Path, out: &mut Out) -> Result<u8, Fail> {
    // One of the old form is told of as what it is brought over.
    let shelf = match Shelf::open_old(path) {
        Ok(old) => old,
        Err(_) => read_shelf(path)?,
    };
    let full = Fullness::of(&shelf).map_err(|e| shelf_refused(Some(&shelf), path, e))?;
    match out.json {
        true => out.answer(0, full.json(&shelf), ""),
        false => out.answer(0, Json::Null, full.lines(&shelf)),
    }
}

/// What a store or a shelf held in its kept versions: each publishing's number, and how long each grant stood.
struct Past {
    oldest: u32,
    latest: u32,
    spans: Vec<Span>,
    lives: Vec<Life>,
}

impl Past {
    fn of(kept: &Kept, path: &Path) -> Result<Past, Fail> {
        let refused = kept.refused(path);
        kept.check().map_err(&refused)?;
        let header = kept.header().map_err(&refused)?;
        let slots = kept.slots().map_err(&refused)?;
        let lives = match kept {
            Kept::Store(_) => held::lives(&slots, header.oldest),
            Kept::Shelf(shelf) => shelf_lives(shelf).map_err(&refused)?,
        };
        let spans = held::spans(header, &slots, []);
        Ok(Past {
            oldest: header.oldest,
            latest: header.latest,
            spans,
            lives,
        })
    }

    /// What each number publishes: the oldest version in as many numbers before it as it takes, then what changed.
    fn publishings(&self, bits: Bits) -> Result<(Rounds, Vec<u32>), Fail> {
        let mut batches: BTreeMap<u32, Batch> = BTreeMap::new();
        for span in self.spans.iter().filter(|span| span.first > 0) {
            batches.entry(span.first).or_default();
        }
        // Where a value follows another, the insert alone; so deletes come first.
        for life in &self.lives {
            if let Some(until) = life.until {
                let _ = batches.entry(until).or_default().delete(life.key);
            }
        }
        for life in self.lives.iter().filter(|life| life.since > 0) {
            batches
                .entry(life.since)
                .or_default()
                .put(life.key, life.value);
        }
        let (mut all, mut numbers) = (vec![], vec![]);
        for (version, batch) in batches {
            let rounds =
                Rounds::of(bits, &batch.to_bytes()).map_err(|e| Fail::Refused(e, String::new()))?;
            let before = rounds.len() as u32 - 1;
            if before > 0 && (version != self.oldest || before >= version) {
                return Err(Fail::Refused(
                    Error::BatchForm,
                    format!("Version {version} changed more than one publishing of such a shelf can: take more bits. Nothing was written."),
                ));
            }
            numbers.extend(version - before..=version);
            all.push(rounds);
        }
        Ok((Rounds::joined(all), numbers))
    }
}

fn shelf_lives(shelf: &Shelf) -> Result<Vec<Life>, ShelfError> {
    let oldest = shelf.header().oldest;
    let each = shelf.each_file(|at| Ok(held::lives(&at.store.slots()?, oldest)))?;
    Ok(each.into_iter().flatten().collect())
}

/// A shelf with the kept versions of a store, or of another shelf, under their numbers; the grants of every version are compared before it gets its name.
pub fn shelf(args: &Args, out: &mut Out) -> Result<u8, Fail> {
    let path = args.path(0);
    let wanted = Wanted::of(args, args.path(1))?;
    let source = read_kept(path)?;
    let past = Past::of(&source, path)?;
    let begun = Shelf::begin(&wanted.folder, wanted.bits, wanted.slots, wanted.list_slots);
    let mut shelf = wanted.judged(begun)?;
    let done = fill(&wanted, &mut shelf, &past)
        .and_then(|()| booked(args, &source, &past, &shelf))
        .and_then(|()| {
            shelf
                .rename(&wanted.folder)
                .map_err(|e| shelf_refused(None, &wanted.folder, e))
        });
    if let Err(fail) = done {
        shelf.give_up();
        return Err(fail);
    }
    out.changed = true;
    told(&wanted, &past, &shelf, out)
}

fn told(wanted: &Wanted, past: &Past, shelf: &Shelf, out: &mut Out) -> Result<u8, Fail> {
    let root = shelf
        .root(past.latest)
        .map_err(|e| shelf_refused(Some(shelf), &wanted.folder, e))?;
    let parts = shelf.files().count();
    let grants: u64 = shelf.files().map(|file| file.grants).sum();
    out.answer(
        0,
        object(vec![
            ("bits", wanted.bits.into()),
            ("parts", parts.into()),
            ("grants", Json::Number(grants)),
            ("oldest", past.oldest.into()),
            ("latest", past.latest.into()),
            ("publishings", past.spans.len().into()),
            ("root", root.to_string().into()),
        ]),
        format_args!(
            "{}: {} in {}, versions {} to {} with the grants that they had\nroot of version {}: {root}",
            trimmed(&wanted.folder),
            counted(grants, "grant"),
            counted(parts, "part"),
            past.oldest,
            past.latest,
            past.latest
        ),
    )
}

/// Publishes the past in a shelf that has no name yet, and compares the grants of its versions.
fn fill(wanted: &Wanted, shelf: &mut Shelf, past: &Past) -> Result<(), Fail> {
    shelf.tell(crate::progress::parts);
    let name = trimmed(&wanted.folder);
    let refused = |e: ShelfError| {
        match e.refusal() {
        Some(error @ Error::NoRoom) => Fail::Refused(
            error,
            format!("Such a shelf doesn't hold it: take more bits, or more slots (--slots, --list-slots). {name} was not made."),
        ),
        Some(error) => Fail::Refused(error, format!("{e}. {name} was not made.")),
        None => shelf_refused(None, &wanted.folder, e),
    }
    };
    let (rounds, numbers) = past.publishings(shelf.bits())?;
    if !numbers.is_empty() {
        let made = shelf.make(&rounds, &numbers, true).map_err(refused)?;
        shelf.take(&made.list).map_err(refused)?;
    }
    if past.oldest > 0 {
        let pruned = shelf.pruned(past.oldest).map_err(refused)?;
        shelf.take(&pruned.list).map_err(refused)?;
    }
    shelf.check().map_err(refused)?;
    match shelf_lives(shelf).map_err(refused)? == past.lives {
        true => Ok(()),
        false => Err(Fail::Book(format!("the shelf would hold other grants: this is a fault of the tool, and {name} was not made"))),
    }
}

/// The names of the source's book, and its dates and messages with the roots of the shelf.
fn booked(args: &Args, source: &Kept, past: &Past, shelf: &Shelf) -> Result<(), Fail> {
    let old = Book::of(args, Some(args.path(0)))?;
    let mut book = Book::beside(shelf.folder());
    for (word, name) in old.names() {
        book.add_name(word, name);
    }
    for span in &past.spans {
        let version = span.published.unwrap_or(span.first);
        let roots = source
            .root(span.first)
            .ok()
            .zip(shelf.root(span.first).ok());
        let Some((was, root)) = roots else { continue };
        if let Said::This(entry) = old.said(version, was) {
            book.add_version(Entry {
                root,
                ..entry.clone()
            });
        }
    }
    match old.is_there() {
        true => book.write(),
        false => Ok(()),
    }
}
