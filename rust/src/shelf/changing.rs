//! What a publishing does to a part's grants; and pruning.

use super::reading::grants;
use super::work::each;
use super::{Bytes, PartFile, Shelf, ShelfError};
use crate::form::{at, INSERT_KIND, RECORD_BYTES};
use crate::records::u16_at;
use crate::{Error, Key, Store, Value};
use std::ops::Range;

/// Up to so many keys are read one by one; for more, the part's records are read once.
const ONE_BY_ONE: usize = 8;

/// How many keys are added, removed and given another value, and which records change nothing: a key to remove that isn't there, a value that is.
#[derive(Clone, Debug, Default, PartialEq, Eq)]
pub struct Effect {
    pub added: usize,
    pub removed: usize,
    pub changed: usize,
    pub idle: Vec<(Key, Option<Value>)>,
}

impl Effect {
    pub fn changes(&self) -> usize {
        self.added + self.removed + self.changed
    }

    pub(super) fn add(&mut self, other: Effect) {
        self.added += other.added;
        self.removed += other.removed;
        self.changed += other.changed;
        self.idle.extend(other.idle);
    }
}

/// A batch record as it is applied: the key, and its value, none for a delete.
fn ask(record: &[u8]) -> (Key, Option<Value>) {
    let word = |at: Range<usize>| <[u8; 32]>::try_from(&record[at]).expect("32 bytes");
    let inserts = u16_at(record, at::KIND) == INSERT_KIND;
    (
        word(at::RECORD_KEY).into(),
        inserts.then(|| word(at::RECORD_VALUE).into()),
    )
}

/// What a run does to the grants of a store's version.
pub(super) fn effect(store: &Bytes, version: u32, run: &[u8]) -> Result<Effect, Error> {
    let all = match run.len() / RECORD_BYTES > ONE_BY_ONE {
        true => Some(grants(&store.slots()?, version)),
        false => None,
    };
    let mut effect = Effect::default();
    for (key, value) in run.chunks_exact(RECORD_BYTES).map(ask) {
        let old = match &all {
            Some(all) => all.get(&key).copied(),
            None => store.get(version, key)?,
        };
        match (old, value) {
            (None, Some(_)) => effect.added += 1,
            (Some(_), None) => effect.removed += 1,
            (Some(old), Some(new)) if old != new => effect.changed += 1,
            _ => effect.idle.push((key, value)),
        }
    }
    Ok(effect)
}

/// What pruning made: the new list, which is in force once it is in the old one's place, and how many records of parts and list were freed.
#[derive(Debug)]
pub struct Pruned {
    pub list: Store<Vec<u8>>,
    pub freed: u64,
}

impl Shelf {
    /// The list pruned to a version, and each part to that version or its latest, whichever is less; the parts' new files are written, and the list is the caller's to put in
    /// its place, who holds the lock. Refused: 3, 8.
    pub fn pruned(&self, version: u32) -> Result<Pruned, ShelfError> {
        let mut list = Store::over(self.list.as_bytes().to_vec());
        let freed = list.prune(version)?;
        let older = |file: &&PartFile| file.oldest < version.min(file.latest);
        let files: Vec<PartFile> = self.files.values().filter(older).copied().collect();
        let each = each(&files, self.progress, |file| {
            self.part_pruned(file, version)
        })?;
        let freed = u64::from(freed) + each.into_iter().map(u64::from).sum::<u64>();
        Ok(Pruned { list, freed })
    }

    fn part_pruned(&self, file: &PartFile, version: u32) -> Result<u32, ShelfError> {
        let (part, latest) = (file.part, self.header.latest);
        let Some(mut at) = self.newest_to_change(part)? else {
            return Err(ShelfError::LostPart {
                part,
                version: latest,
            });
        };
        let freed = at
            .store
            .prune(version.min(at.version))
            .map_err(ShelfError::of(part))?;
        self.put_part(part, &at.store)?;
        Ok(freed)
    }

    /// Keeps no version older than this one, all of it or nothing; the answer is how many records were freed. Refused: 3, 8.
    pub fn prune(&mut self, version: u32) -> Result<u64, ShelfError> {
        let mut lock = self.locked()?;
        let pruned = match self.pruned(version) {
            Ok(pruned) => pruned,
            Err(error) => {
                self.clean()?;
                return Err(error);
            }
        };
        lock.replace(&self.folder, &pruned.list)?;
        self.again()?;
        self.clean()?;
        Ok(pruned.freed)
    }
}
