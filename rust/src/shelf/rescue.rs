//! Rescue of a shelf: its list, and of each part that the list names a file that has the roots that it names. Where the list is lost, another one is made of the parts: what a
//! publishing put into the list are the parts' new roots, which the parts have.

use super::files::{file, names, read, settings, Settings};
use super::work::each;
use super::{Bits, Bytes, PartFile, Shelf, ShelfError, LIST_FILE};
use crate::records::Record;
use crate::{Batch, Place, Rescued, Root, Store, BATCH_RECORDS, MOST_SLOTS};
use std::collections::{BTreeMap, BTreeSet};
use std::path::{Path, PathBuf};

/// What came back: versions `first` to the `latest` that was asked for.
#[derive(Clone, Copy, Debug, PartialEq, Eq)]
pub struct RescuedShelf {
    pub first: u32,
    pub root: Root,
    pub parts: usize,
    /// Over list and parts: records kept as they were, kept with another retired-since, and used slots left out.
    pub same: u64,
    pub other: u64,
    pub out: u64,
    /// Whether the list was made anew of the parts.
    pub rebuilt: bool,
}

/// What the parts of a folder have without a list: the run of versions that they all have, and each publishing in which a part became another, with the root that the list had then.
/// A part that has lost its file leaves no trace, so a root counts only where it is the one that was signed.
#[derive(Clone, Debug, PartialEq, Eq)]
pub struct PartsAlone {
    pub first: u32,
    pub latest: u32,
    pub parts: usize,
    /// The version, its root, and how many parts changed.
    pub publishings: Vec<(u32, Root, usize)>,
}

/// A part that came back, up to the version that it was published as.
struct Saved {
    part: u16,
    store: Bytes,
    first: u32,
    latest: u32,
    counts: [u64; 3],
}

/// A root that the list names for a part, from a version on and before another.
type Named = (Root, u32, Option<u32>);

/// The roots of each part over the versions that a list has.
fn named(bits: Bits, list: &Bytes) -> Result<BTreeMap<u16, Vec<Named>>, ShelfError> {
    let mut parts: BTreeMap<u16, Vec<Named>> = BTreeMap::new();
    let slots = list.slots()?;
    for record in slots.iter().flatten() {
        if let Some((key, value)) = Record::grant(record) {
            let root = Root::from(<[u8; 32]>::from(value));
            let lives = parts.entry(bits.part_of(key)).or_default();
            lives.push((root, record.version, record.retired_since));
        }
    }
    Ok(parts)
}

/// What a rescue of a shelf is asked for, of a folder with any contents: the run of versions that ends at `latest`, none before `oldest`; which it is, its root says, which is to be compared with
/// the one that was signed, best by `root`.
#[derive(Clone, Copy, Debug)]
pub struct ShelfRescue<'a> {
    pub folder: &'a Path,
    /// Another copy of the shelf, whose files are used where those of the first are lost or spoilt.
    pub with: Option<&'a Path>,
    /// Its bits, where the file 'shelf' is lost that says them.
    pub bits: Option<u32>,
    pub oldest: u32,
    pub latest: u32,
    pub root: Option<Root>,
}

/// The files of each part, by their names, with where they are: one file, or one in each copy.
type Files = BTreeMap<PartFile, Vec<PathBuf>>;

impl ShelfRescue<'_> {
    fn folders(&self) -> impl Iterator<Item = &Path> {
        [self.folder].into_iter().chain(self.with)
    }

    fn files(&self) -> Result<Files, ShelfError> {
        let mut files = Files::new();
        for folder in self.folders() {
            for name in names(folder, false)? {
                files.entry(name).or_default().push(folder.join(name.to_string()));
            }
        }
        Ok(files)
    }

    /// The bits and slots that a folder says, or those that are given; a new part then gets as many slots as it may have.
    fn settings(&self) -> Result<(Bits, u32), ShelfError> {
        let said = self.folders().find_map(|folder| settings(folder).ok());
        match (said, self.bits) {
            (Some(said), None) => Ok(said.own()),
            (Some(said), Some(bits)) => Ok((Bits::new(bits)?, said.own().1)),
            (None, Some(bits)) => Ok((Bits::new(bits)?, MOST_SLOTS)),
            (None, None) => settings(self.folder).map(Settings::own),
        }
    }

    /// The run that the list has, or those of two copies.
    fn list(&self) -> Result<(Bytes, Rescued), ShelfError> {
        let path = self.folder.join(LIST_FILE);
        let own = read(&path);
        let other = self.with.and_then(|with| read(&with.join(LIST_FILE)).ok());
        let run = |list: &Bytes| Ok(list.rescue(self.oldest, self.latest)?);
        match (own, other) {
            (Ok(own), None) => run(&own),
            (Ok(own), Some(other)) => {
                match own.rescue_with(&other, self.oldest, self.latest, self.root) {
                    Some(came) => Ok((came.store, came.what)),
                    None => run(&own),
                }
            }
            (Err(_), Some(other)) => run(&other),
            (Err(e), None) => Err(file(&path)(e)),
        }
    }

    /// Makes in another folder a shelf of what the list and the parts' files have. A file that a writer left is used where it has what the list names. Refused: 2, 3 (the list, or a part that it
    /// names in `latest`, has no such version).
    pub fn by_list(&self, to: &Path) -> Result<RescuedShelf, ShelfError> {
        let (bits, slots) = self.settings()?;
        let (mut list, what) = self.list()?;
        let signed = list.root(self.latest)?;
        if self.root.is_some_and(|root| root != signed) {
            return Err(ShelfError::OtherRoot { root: signed });
        }
        let named: Vec<_> = named(bits, &list)?.into_iter().collect();
        let files = self.files()?;
        let saved = each(
            &named,
            |_, _| {},
            |(part, lives)| self.saved(&files, *part, lives),
        )?;
        let mut first = what.first;
        for ((_, lives), part) in named.iter().zip(&saved) {
            first = first.max(needed(lives, part.as_ref(), self.latest));
        }
        let saved: Vec<Saved> = saved.into_iter().flatten().collect();
        list.prune(first)?;
        let counts = [what.same, what.other, what.out].map(u64::from);
        let Came { saved, .. } = made(to, bits, slots, &list, Came { saved, first })?;
        Ok(told(first, signed, &saved, counts, false))
    }

    /// The newest of a part's files that has, in `latest`, the root that is named there. Of a part that the list names no more, one that is sound and holds nothing there, so that the versions
    /// before come back too; none where there is none, since a rescue makes no store whose latest version is empty.
    fn saved(
        &self,
        files: &Files,
        part: u16,
        lives: &[Named],
    ) -> Result<Option<Saved>, ShelfError> {
        let version = self.latest;
        let at_last = |(_, from, until): &&Named| {
            *from <= version && until.is_none_or(|until| version < until)
        };
        let named = lives.iter().find(at_last).map(|(root, ..)| *root);
        for (name, paths) in files.iter().rev().filter(|(name, _)| name.part == part) {
            let own = version.min(name.latest);
            let came = match named {
                Some(root) => best(part, &stores(paths), self.oldest.min(own), own, Some(root)),
                None => whole_with(part, &stores(paths), own, Some(Root::EMPTY)),
            };
            if came.is_some() {
                return Ok(came);
            }
        }
        match named {
            Some(_) => Err(ShelfError::LostPart { part, version }),
            None => Ok(None),
        }
    }

    /// The same without the list, which is lost: another one is made of the roots that the parts have in the versions that all of them have. **Nothing but the signed root shows that no part is
    /// missing.** Refused: 2, 3 (a part has no such version).
    pub fn by_parts(&self, to: &Path) -> Result<RescuedShelf, ShelfError> {
        if self.oldest > self.latest {
            return Err(crate::Error::Header.into());
        }
        let (bits, slots) = self.settings()?;
        let came = self.alone()?;
        let (list, _) = rebuilt(bits, &came, self.latest)?;
        let signed = list.root(self.latest)?;
        if self.root.is_some_and(|root| root != signed) {
            return Err(ShelfError::OtherRoot { root: signed });
        }
        let first = came.first;
        let Came { saved, .. } = made(to, bits, slots, &list, came)?;
        Ok(told(first, signed, &saved, [0; 3], true))
    }

    /// What [`ShelfRescue::by_parts`] would make. Refused: 3.
    pub fn parts_alone(&self) -> Result<PartsAlone, ShelfError> {
        let (bits, _) = self.settings()?;
        let came = self.alone()?;
        let (list, publishings) = rebuilt(bits, &came, self.latest)?;
        let publishings = publishings
            .into_iter()
            .map(|(version, parts)| Ok((version, list.root(version)?, parts)))
            .collect::<Result<_, ShelfError>>()?;
        Ok(PartsAlone {
            first: came.first,
            latest: self.latest,
            parts: came.saved.len(),
            publishings,
        })
    }

    /// The latest version of each part's files, each once, descending: the last of them that was published is the shelf's latest, but for empty publishings.
    pub fn latest_of_parts(&self) -> Result<Vec<u32>, ShelfError> {
        let latest: BTreeSet<u32> = self.files()?.keys().map(|file| file.latest).collect();
        Ok(latest.into_iter().rev().collect())
    }

    /// Every part as it is in the latest version, without a list that names its root.
    fn alone(&self) -> Result<Came, ShelfError> {
        let files: Vec<(PartFile, Vec<PathBuf>)> = self.files()?.into_iter().collect();
        let parts: Vec<&[_]> = files.chunk_by(|(a, _), (b, _)| a.part == b.part).collect();
        let each = each(&parts, |_, _| {}, |files| self.part_alone(files))?;
        let first = each.iter().map(|part| part.first).max().unwrap_or(0);
        let saved = each.into_iter().filter_map(|part| part.saved).collect();
        let first = first.max(self.oldest);
        Ok(Came { saved, first })
    }

    /// The newest that a part's files have: where two of them are as new, they must have one root, and the longer run counts. An older file may stand for a newer one that is spoilt only where
    /// the signed root is there, which says in the end whether that was right.
    fn part_alone(&self, files: &[(PartFile, Vec<PathBuf>)]) -> Result<Alone, ShelfError> {
        let (part, version) = (files[0].0.part, self.latest);
        let mut best: Option<Alone> = None;
        for (name, paths) in files.iter().rev() {
            let own = version.min(name.latest);
            if best.as_ref().is_some_and(|best| best.latest > own) {
                break;
            }
            let came = Alone::of(part, &stores(paths), self.oldest.min(own), own);
            best = match (best, came) {
                (None, None) if self.root.is_none() => {
                    return Err(ShelfError::LostPart { part, version: own })
                }
                (best, None) => best,
                (None, came) => came,
                (Some(best), Some(came)) if best.root != came.root => {
                    return Err(ShelfError::TwoParts { part, version });
                }
                (Some(best), Some(came)) => {
                    Some(if came.first < best.first { came } else { best })
                }
            };
        }
        best.ok_or(ShelfError::LostPart { part, version })
    }
}

/// The copies of a file that can be read.
fn stores(paths: &[PathBuf]) -> Vec<Bytes> {
    paths.iter().filter_map(|path| read(path).ok()).collect()
}

/// What the copies of a part's file give of a run that ends at a version, with this root there if it is known: one that is whole, one that is rescued, or both together.
fn best(
    part: u16,
    stores: &[Bytes],
    oldest: u32,
    latest: u32,
    root: Option<Root>,
) -> Option<Saved> {
    if let Some(came) = whole_with(part, stores, latest, root) {
        return Some(came);
    }
    let [first, second] = stores else {
        let mut rescued = stores.iter().filter_map(|store| rescued(part, store, oldest, latest));
        return rescued.find(|came| came.has(root));
    };
    let came = first.rescue_with(second, oldest, latest, root)?;
    Some(Saved::of(part, came.store, came.what, latest))
}

impl Shelf {
    /// [`ShelfRescue::by_list`] of one folder. Refused: 2, 3.
    pub fn rescue(
        folder: &Path,
        oldest: u32,
        latest: u32,
        to: &Path,
        root: Option<Root>,
    ) -> Result<RescuedShelf, ShelfError> {
        let (with, bits) = (None, None);
        ShelfRescue { folder, with, bits, oldest, latest, root }.by_list(to)
    }

    /// Puts what came back into a shelf that has no name yet, and sees whether it is sound.
    fn filled(&mut self, list: &Bytes, saved: &mut [Saved], first: u32) -> Result<(), ShelfError> {
        for part in saved {
            let of = ShelfError::of(part.part);
            let to = first.min(part.latest);
            if to > part.first {
                part.store.prune(to).map_err(&of)?;
            }
            self.put_part(part.part, &part.store)?;
        }
        self.take(list)?;
        self.check()
    }
}

/// The parts that came back, and the first version that all of them have.
struct Came {
    saved: Vec<Saved>,
    first: u32,
}

/// The shelf of a list and of the parts that came back with it, in a folder that is there when it is whole.
fn made(
    to: &Path,
    bits: Bits,
    slots: u32,
    list: &Bytes,
    mut came: Came,
) -> Result<Came, ShelfError> {
    let mut shelf = Shelf::begin(to, bits.get(), slots, list.header()?.capacity)?;
    let done = shelf
        .filled(list, &mut came.saved, came.first)
        .and_then(|()| shelf.rename(to));
    match done {
        Ok(()) => Ok(came),
        Err(error) => {
            shelf.give_up();
            Err(error)
        }
    }
}

fn told(first: u32, root: Root, saved: &[Saved], list: [u64; 3], rebuilt: bool) -> RescuedShelf {
    let mut counts = list;
    for part in saved {
        let sums = counts.iter_mut().zip(part.counts);
        sums.for_each(|(sum, n)| *sum += n);
    }
    let [same, other, out] = counts;
    RescuedShelf {
        first,
        root,
        parts: saved.len(),
        same,
        other,
        out,
        rebuilt,
    }
}

/// A part without its list: what came back of it, none where it has no grant there; the versions from which on and up to which it is known; and its root in the last of these.
struct Alone {
    saved: Option<Saved>,
    first: u32,
    latest: u32,
    root: Root,
}

impl Alone {
    /// What the copies of a file have of a version that it is to end at.
    fn of(part: u16, stores: &[Bytes], oldest: u32, latest: u32) -> Option<Alone> {
        // A rescue makes no store whose latest version is empty.
        let mut ends = stores.iter().filter(|store| whole(part, store, latest).is_none());
        if let Some(first) = ends.find_map(|store| empty_since(store, latest)) {
            let (saved, root) = (None, Root::EMPTY);
            return Some(Alone { saved, first, latest, root });
        }
        let saved = best(part, stores, oldest, latest, None)?;
        let (first, root) = (saved.first, saved.store.root(latest).ok()?);
        let saved = Some(saved);
        Some(Alone { saved, first, latest, root })
    }
}

/// The kept version since which a sound store holds nothing up to this one; none where it does.
fn empty_since(store: &Bytes, version: u32) -> Option<u32> {
    let slots = store.slots().ok()?;
    if store.root(version).ok()? != Root::EMPTY {
        return None;
    }
    let roots = slots.iter().flatten().filter(|record| record.place == Place::EMPTY);
    let ends = roots.filter_map(|root| root.retired_since);
    let last = ends.filter(|since| *since <= version).max();
    Some(last.unwrap_or(store.header().ok()?.oldest))
}

/// The list that these parts make from their first version to the latest, and the publishings in which a part became another, each with how many did.
fn rebuilt(
    bits: Bits,
    came: &Came,
    latest: u32,
) -> Result<(Bytes, Vec<(u32, usize)>), ShelfError> {
    let first = came.first;
    let mut turns = BTreeSet::new();
    let mut roots: Vec<BTreeMap<u32, Root>> = vec![];
    for part in &came.saved {
        let own = part.roots(first, latest)?;
        turns.extend(own.keys().copied());
        roots.push(own);
    }
    turns.extend([first, latest]);
    let mut list = Store::with_capacity(MOST_SLOTS)?;
    let mut publishings = vec![];
    let mut now: BTreeMap<u16, Root> = BTreeMap::new();
    for version in turns {
        let mut asked = vec![];
        for (part, roots) in came.saved.iter().zip(&roots) {
            let Some((_, root)) = roots.range(..=version).next_back() else {
                continue;
            };
            let before = now.insert(part.part, *root).unwrap_or(Root::EMPTY);
            if before != *root {
                asked.push((part.part, *root));
            }
        }
        if version > 0 {
            publishings.push((version, asked.len()));
            publish(bits, &mut list, version, &asked)?;
        }
    }
    if first > 0 {
        list.prune(first)?;
    }
    Ok((list, publishings))
}

/// Puts the parts' roots into the list as one version; of the first version, which may be what many publishings made, in as many numbers before it as it takes.
fn publish(
    bits: Bits,
    list: &mut Bytes,
    version: u32,
    asked: &[(u16, Root)],
) -> Result<(), ShelfError> {
    let runs = asked.chunks(BATCH_RECORDS).collect::<Vec<_>>();
    let before = runs.len().saturating_sub(1) as u32;
    let mut numbers = version.saturating_sub(before)..=version;
    for run in runs {
        let mut batch = Batch::new();
        for (part, root) in run {
            let key = bits.list_key(*part);
            let asked = match *root == Root::EMPTY {
                true => batch.delete(key),
                false => batch.insert(key, *root.as_bytes()),
            };
            // Parts whose keys agree have more bits than these.
            asked.map_err(|_| ShelfError::OtherBits { key })?;
        }
        list.apply(numbers.next().unwrap_or(version), &batch)?;
    }
    if asked.is_empty() {
        list.apply(version, &Batch::new())?;
    }
    Ok(())
}

/// The first version from which on, up to the latest, a part has the roots that the list names; of one that the list names no more, that from which on it doesn't.
fn needed(lives: &[Named], part: Option<&Saved>, latest: u32) -> u32 {
    let ends = |(_, from, until): &Named| [Some(*from), *until];
    let Some(part) = part else {
        return lives
            .iter()
            .filter_map(|(_, _, until)| *until)
            .max()
            .unwrap_or(0);
    };
    let slots = part.store.slots().unwrap_or_default();
    let roots = slots
        .iter()
        .flatten()
        .filter(|record| record.place == Place::EMPTY);
    let own = roots.flat_map(|root| [Some(root.version), root.retired_since]);
    let turns = lives
        .iter()
        .flat_map(ends)
        .chain(own)
        .flatten()
        .chain([part.first]);
    let turns: BTreeSet<u32> = turns
        .filter(|turn| (part.first..=latest).contains(turn))
        .collect();
    let agree = turns
        .into_iter()
        .rev()
        .take_while(|turn| part.agrees(lives, *turn));
    agree.last().unwrap_or(latest)
}

/// The copy of a part's file that is sound and ends at this version, with this root there if it is known.
fn whole_with(part: u16, stores: &[Bytes], latest: u32, root: Option<Root>) -> Option<Saved> {
    let mut whole = stores.iter().filter_map(|store| whole(part, store, latest));
    whole.find(|came| came.has(root))
}

impl Saved {
    /// Whether it has this root in its latest version, where one is known.
    fn has(&self, root: Option<Root>) -> bool {
        root.is_none_or(|root| self.store.root(self.latest) == Ok(root))
    }

    fn of(part: u16, store: Bytes, what: Rescued, latest: u32) -> Saved {
        let counts = [what.same, what.other, what.out].map(u64::from);
        let first = what.first;
        Saved { part, store, first, latest, counts }
    }

    /// The versions of a run in which it may become another, each with its root: the first of the run, and each of its own publishings in it.
    fn roots(&self, first: u32, latest: u32) -> Result<BTreeMap<u32, Root>, ShelfError> {
        let of = ShelfError::of(self.part);
        let slots = self.store.slots().map_err(&of)?;
        let roots = slots.iter().flatten().filter(|record| record.place == Place::EMPTY);
        let own = roots.flat_map(|root| [Some(root.version), root.retired_since]);
        let turns = own.flatten().filter(|turn| (first..=latest).contains(turn) && *turn <= self.latest);
        let mut roots = BTreeMap::new();
        for turn in turns.chain([first]) {
            roots.insert(turn, self.store.root(turn.min(self.latest)).map_err(&of)?);
        }
        Ok(roots)
    }

    /// Whether it has the root that the list names in a version.
    fn agrees(&self, lives: &[Named], version: u32) -> bool {
        let covers = |(_, from, until): &&Named| {
            *from <= version && until.is_none_or(|until| version < until)
        };
        let named = lives
            .iter()
            .find(covers)
            .map_or(Root::EMPTY, |(root, ..)| *root);
        self.store.root(version.min(self.latest)) == Ok(named)
    }
}

/// A part's file as it is, where it is sound and ends at this version.
fn whole(part: u16, store: &Bytes, latest: u32) -> Option<Saved> {
    let used = store.slots().ok()?.iter().flatten().count() as u64;
    let header = store
        .header()
        .ok()
        .filter(|header| header.latest == latest)?;
    let store = Store::over(store.as_bytes().to_vec());
    Some(Saved {
        part,
        store,
        first: header.oldest,
        latest,
        counts: [used, 0, 0],
    })
}

fn rescued(part: u16, store: &Bytes, oldest: u32, latest: u32) -> Option<Saved> {
    let (store, what) = store.rescue(oldest, latest).ok()?;
    Some(Saved::of(part, store, what, latest))
}
