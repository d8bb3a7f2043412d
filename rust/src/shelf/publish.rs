//! Publishing as one number: every part that changes applies its run as that number, then the list applies the new roots as that number.

use super::changing::{effect, Effect};
use super::work::each;
use super::{Bits, Bytes, PartFile, Shelf, ShelfError};
use crate::form::{at, RECORD_BYTES};
use crate::records;
use crate::{Applied, Batch, Error, Key, Root, Store, BATCH_RECORDS};
use std::collections::BTreeMap;

/// The most parts that may change in one publishing: the list applies a record for each.
pub const ROUND_PARTS: usize = BATCH_RECORDS;

/// A part's records, by the round that publishes them.
type Runs = BTreeMap<usize, Vec<u8>>;

/// Batch records by part, in as few publishings as there may be: in each, a part applies at most [`BATCH_RECORDS`] records and at most [`ROUND_PARTS`] parts change.
#[derive(Clone, Debug, PartialEq, Eq)]
pub struct Rounds {
    rounds: usize,
    parts: Vec<(u16, Runs)>,
}

impl Rounds {
    /// Records of 72 bytes (docs/FORMAT.md) with their keys ascending; the library judges that where they are applied. Refused: 4 (no whole records), 5 (a part's
    /// records don't stand together).
    pub fn of(bits: Bits, records: &[u8]) -> Result<Rounds, Error> {
        let part = |record: &[u8]| {
            let key: [u8; 32] = record[at::RECORD_KEY].try_into().expect("32 bytes");
            bits.part_of(Key::from(key))
        };
        if records.len() % RECORD_BYTES != 0 {
            return Err(Error::BatchForm);
        }
        let records: Vec<&[u8]> = records.chunks_exact(RECORD_BYTES).collect();
        let runs: Vec<&[&[u8]]> = records.chunk_by(|a, b| part(a) == part(b)).collect();
        if !runs.is_sorted_by(|a, b| part(a[0]) < part(b[0])) {
            return Err(Error::BatchOrder);
        }
        let mut parts = vec![];
        let mut first = 0;
        for block in runs.chunks(ROUND_PARTS) {
            let most = block
                .iter()
                .map(|run| run.len().div_ceil(BATCH_RECORDS))
                .max();
            for run in block {
                let rounds = (first..).zip(run.chunks(BATCH_RECORDS));
                parts.push((
                    part(run[0]),
                    rounds.map(|(round, run)| (round, run.concat())).collect(),
                ));
            }
            first += most.unwrap_or(0);
        }
        // No records are one publishing, as an empty batch is.
        Ok(Rounds {
            rounds: first.max(1),
            parts,
        })
    }

    /// These one after the other.
    pub fn joined(all: impl IntoIterator<Item = Rounds>) -> Rounds {
        let mut parts: BTreeMap<u16, Runs> = BTreeMap::new();
        let mut rounds = 0;
        for one in all {
            for (part, runs) in one.parts {
                let later = runs.into_iter().map(|(round, run)| (rounds + round, run));
                parts.entry(part).or_default().extend(later);
            }
            rounds += one.rounds;
        }
        Rounds {
            rounds,
            parts: parts.into_iter().collect(),
        }
    }

    /// How many publishings.
    pub fn len(&self) -> usize {
        self.rounds
    }

    pub fn is_empty(&self) -> bool {
        self.parts.is_empty()
    }

    /// A part's records, with the round that publishes them, 0 the first.
    pub fn of_part(&self, part: u16) -> impl Iterator<Item = (usize, &[u8])> {
        let runs = self.parts.iter().filter(move |(own, _)| *own == part);
        runs.flat_map(|(_, runs)| runs.iter().map(|(round, run)| (*round, &run[..])))
    }
}

/// What was made: the new list, which is in force once it is in the old one's place, and what is told of it.
#[derive(Debug)]
pub struct Made {
    pub list: Store<Vec<u8>>,
    /// For each number its root, and the new records of parts and list.
    pub published: Vec<Applied>,
    pub effect: Effect,
    /// The parts that changed, and the bytes that their files take.
    pub parts: usize,
    pub bytes: u64,
    /// The free slots of the fullest of them, and of the list.
    pub free: usize,
}

/// What became of one part.
struct PartMade {
    part: u16,
    /// By round: the root, and how many records are new.
    rounds: BTreeMap<usize, (Root, u32)>,
    effect: Effect,
    bytes: u64,
    free: usize,
}

fn free(store: &Bytes) -> usize {
    records::chunks(store.as_bytes())
        .filter(|slot| records::zero(slot))
        .count()
}

impl Shelf {
    /// Makes what is asked for under these numbers, one for each round, ascending. With `keep` the parts' new files are written; they count from when the list takes its place,
    /// which is the caller's to do, who holds the lock. Refused: 3, 4, 5, 18, 7.
    pub fn make(&self, rounds: &Rounds, numbers: &[u32], keep: bool) -> Result<Made, ShelfError> {
        let latest = self.header.latest;
        if numbers.first().is_none_or(|number| *number <= latest) {
            return Err(Error::NotAboveLatest.into());
        }
        self.list.check()?;
        let parts = each(&rounds.parts, self.progress, |(part, runs)| {
            self.part_made(*part, runs, numbers, keep)
        })?;
        let mut list = Store::over(self.list.as_bytes().to_vec());
        let mut published = vec![];
        for (round, number) in numbers.iter().enumerate() {
            published.push(self.list_made(&mut list, &parts, round, *number)?);
        }
        let mut effect = Effect::default();
        let (mut changed, mut bytes, mut least) = (0, 0, free(&list));
        for part in parts {
            changed += usize::from(part.bytes > 0);
            bytes += part.bytes;
            least = least.min(part.free);
            effect.add(part.effect);
        }
        Ok(Made {
            list,
            published,
            effect,
            parts: changed,
            bytes,
            free: least,
        })
    }

    /// A part with its runs applied. Runs that change nothing are passed over, and so is a part that has no others.
    fn part_made(
        &self,
        part: u16,
        runs: &Runs,
        numbers: &[u32],
        keep: bool,
    ) -> Result<PartMade, ShelfError> {
        let of = ShelfError::of(part);
        let (mut store, mut version) = match self.newest_to_change(part)? {
            Some(at) => (at.store, at.version),
            None => (Store::with_capacity(self.slots).map_err(&of)?, 0),
        };
        let mut made = PartMade {
            part,
            rounds: BTreeMap::new(),
            effect: Effect::default(),
            bytes: 0,
            free: usize::MAX,
        };
        for (round, run) in runs {
            let effect = effect(&store, version, run).map_err(&of)?;
            if effect.changes() > 0 {
                let applied = store.apply_bytes(numbers[*round], run).map_err(&of)?;
                made.rounds
                    .insert(*round, (applied.root, applied.new_records));
                version = applied.version;
            }
            made.effect.add(effect);
        }
        if !made.rounds.is_empty() {
            made.bytes = store.as_bytes().len() as u64;
            made.free = free(&store);
            if keep {
                self.put_part(part, &store)?;
            }
        }
        Ok(made)
    }

    /// The list with the roots of one round.
    fn list_made(
        &self,
        list: &mut Bytes,
        parts: &[PartMade],
        round: usize,
        number: u32,
    ) -> Result<Applied, ShelfError> {
        let mut batch = Batch::new();
        let mut new_records = 0;
        for made in parts {
            let Some((root, new)) = made.rounds.get(&round) else {
                continue;
            };
            let key = self.bits.list_key(made.part);
            let asked = match *root == Root::EMPTY {
                true => batch.delete(key),
                false => batch.insert(key, *root.as_bytes()),
            };
            asked.expect("each part once");
            new_records += new;
        }
        let mut applied = list.apply(number, &batch)?;
        applied.new_records += new_records;
        Ok(applied)
    }

    /// Publishes a version: all of it or nothing, while no other process writes the shelf. Refused: 3, 4, 18, 7; and where it takes several numbers
    /// ([`ShelfError::Rounds`]).
    pub fn publish(&mut self, number: u32, batch: &Batch) -> Result<Applied, ShelfError> {
        let rounds = Rounds::of(self.bits, &batch.to_bytes())?;
        if rounds.len() > 1 {
            return Err(ShelfError::Rounds {
                rounds: rounds.len(),
            });
        }
        let mut lock = self.locked()?;
        let made = match self.make(&rounds, &[number], true) {
            Ok(made) => made,
            Err(error) => {
                self.clean()?;
                return Err(error);
            }
        };
        lock.replace(&self.folder, &made.list)?;
        self.again()?;
        self.clean()?;
        Ok(made.published[0])
    }

    /// The part's file that is in use.
    pub fn file(&self, part: u16) -> Option<&PartFile> {
        self.files.get(&part)
    }
}
