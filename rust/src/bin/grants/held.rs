//! What the versions of a sound store hold. Records say when keys may have come and gone; the values are those that the library reads.

use grants::{Error, Key, Lookup, Place, Record, Store, Value};
use std::collections::{BTreeMap, BTreeSet};

/// A store as it was read.
pub type Bytes = Store<Vec<u8>>;

pub type Grants = BTreeMap<Key, Value>;

/// How a store is read in long work: by a table from when that pays. For measurements and tests, an environment variable does without.
pub fn lookup() -> Lookup {
    match std::env::var_os("GRANTS_NO_TABLE") {
        Some(_) => Lookup::plain(),
        None => Lookup::new(),
    }
}

/// The grants of a version, by key.
pub fn grants(
    store: &Bytes,
    lookup: &Lookup,
    slots: &[Option<Record>],
    version: u32,
) -> Result<Grants, Error> {
    let mut grants = Grants::new();
    let records = slots.iter().flatten();
    for record in records.filter(|record| record.stands_in(version)) {
        if let Some((key, _)) = record.grant() {
            if let Some(value) = lookup.get(store, version, key)? {
                grants.insert(key, value);
            }
        }
    }
    Ok(grants)
}

/// The keys whose leaf begins or ends with a version: no other key is another there than in the version before.
pub fn touched(slots: &[Option<Record>]) -> BTreeMap<u32, BTreeSet<Key>> {
    let mut touched: BTreeMap<u32, BTreeSet<Key>> = BTreeMap::new();
    for record in slots.iter().flatten() {
        if let Some((key, _)) = record.grant() {
            for version in [Some(record.version), record.retired_since]
                .into_iter()
                .flatten()
            {
                touched.entry(version).or_default().insert(key);
            }
        }
    }
    touched
}

/// A key's value before and after.
type Change = (Key, Option<Value>, Option<Value>);

pub use grants::{publishings as spans, Publishing as Span};

/// How many publishings a guess goes by.
const LAST: usize = 10;

/// The last publishings, newest first; the oldest kept one isn't among them, since what it made may be pruned.
pub fn last(spans: &[Span]) -> Vec<u32> {
    let last = spans.iter().skip(1).rev().take(LAST);
    last.map(|span| span.first).collect()
}

/// How many records each of these versions made.
pub fn made<'a>(records: impl Iterator<Item = &'a Record>, versions: &[u32]) -> Vec<usize> {
    let mut made = vec![0; versions.len()];
    for record in records {
        if let Some(i) = versions.iter().position(|v| *v == record.version) {
            made[i] += 1;
        }
    }
    made
}

/// The number in the middle, of two the lesser; none where there is none or it is 0.
pub fn middle(mut made: Vec<usize>) -> Option<f64> {
    made.sort_unstable();
    let usual = made[made.len().checked_sub(1)? / 2];
    (usual > 0).then_some(usual as f64)
}

/// How many records one of the last publishings made: the one in the middle, by their number, so that a list that came all at once counts for no more than
/// another one. None where no publishing is kept but the oldest, or none made a record.
pub fn usual(slots: &[Option<Record>], spans: &[Span]) -> Option<f64> {
    middle(made(slots.iter().flatten(), &last(spans)))
}

/// The number under which a kept version was published: its own, or the one before it that it reads as.
pub fn published(slots: &[Option<Record>], version: u32) -> u32 {
    let mut roots = slots
        .iter()
        .flatten()
        .filter(|record| record.place == Place::EMPTY);
    let root = roots.find(|root| root.stands_in(version));
    let ended = slots
        .iter()
        .flatten()
        .filter_map(|record| record.retired_since)
        .filter(|since| *since <= version)
        .max();
    root.map(|root| root.version).or(ended).unwrap_or(version)
}

/// What a version changed, where the one before it is kept too. The library has a call for it, which checks the store each time; of hundreds of versions, reads by a table are much quicker.
fn changes(
    store: &Bytes,
    lookup: &Lookup,
    touched: &BTreeMap<u32, BTreeSet<Key>>,
    version: u32,
) -> Result<Vec<Change>, Error> {
    let mut changes = vec![];
    for key in touched.get(&version).into_iter().flatten() {
        let before = lookup.get(store, version - 1, key)?;
        let after = lookup.get(store, version, key)?;
        if before != after {
            changes.push((*key, before, after));
        }
    }
    Ok(changes)
}

/// How many keys came, went and changed with each version, and how many records; how many grants some versions have.
#[derive(Default)]
pub struct Ledger {
    /// Keys added, removed and given another value.
    pub tallies: BTreeMap<u32, [usize; 3]>,
    /// Records that come, less those that go; what is before the first version counts there.
    pub records: BTreeMap<u32, i64>,
    /// The records that a publishing made, and that are still kept.
    pub made: BTreeMap<u32, i64>,
    pub grants: BTreeMap<u32, u64>,
}

impl Ledger {
    /// What a sound store has for these versions, ascending; before its oldest nothing is known, and after its latest nothing comes or goes.
    pub fn of(
        store: &Bytes,
        slots: &[Option<Record>],
        versions: &[u32],
        oldest: u32,
    ) -> Result<Ledger, Error> {
        let latest = store.header()?.latest;
        let mut ledger = Ledger::default();
        let first = versions.first().copied().unwrap_or(0);
        ledger.records = records(slots, first);
        for record in slots.iter().flatten() {
            *ledger.made.entry(record.version).or_default() += 1;
        }
        let (touched, lookup) = (touched(slots), lookup());
        for version in versions {
            let count = lookup.count(store, (*version).min(latest))?;
            ledger.grants.insert(*version, count);
            if *version > oldest && *version <= latest {
                ledger.tallies.insert(*version, tally(store, &lookup, &touched, *version)?);
            }
        }
        Ok(ledger)
    }

    /// Of a list the records count, its keys don't.
    pub fn keep_records(&mut self) {
        self.tallies.clear();
        self.grants.clear();
    }

    pub fn add(&mut self, other: Ledger) {
        for (version, tally) in other.tallies {
            let sum = self.tallies.entry(version).or_default();
            sum.iter_mut().zip(tally).for_each(|(sum, n)| *sum += n);
        }
        for (sums, others) in [(&mut self.records, other.records), (&mut self.made, other.made)] {
            for (version, n) in others {
                *sums.entry(version).or_default() += n;
            }
        }
        for (version, n) in other.grants {
            *self.grants.entry(version).or_default() += n;
        }
    }
}

/// How many keys a version added, removed and gave another value.
fn tally(
    store: &Bytes,
    lookup: &Lookup,
    touched: &BTreeMap<u32, BTreeSet<Key>>,
    version: u32,
) -> Result<[usize; 3], Error> {
    let mut tally = [0; 3];
    for change in changes(store, lookup, touched, version)? {
        match change {
            (_, None, Some(_)) => tally[0] += 1,
            (_, Some(_), None) => tally[1] += 1,
            _ => tally[2] += 1,
        }
    }
    Ok(tally)
}

/// How many records come and go with each version from the first one asked for: a version may be one of thousands of millions, a record is one of
/// some thousand.
fn records(slots: &[Option<Record>], first: u32) -> BTreeMap<u32, i64> {
    let mut records: BTreeMap<u32, i64> = BTreeMap::new();
    for record in slots.iter().flatten() {
        *records.entry(record.version.max(first)).or_default() += 1;
        if let Some(since) = record.retired_since {
            *records.entry(since.max(first)).or_default() -= 1;
        }
    }
    records
}

/// How long a grant stood: from a version on, and before another.
#[derive(Clone, Copy, Debug, PartialEq, Eq, PartialOrd, Ord)]
pub struct Life {
    pub key: Key,
    pub since: u32,
    pub until: Option<u32>,
    pub value: Value,
}

/// The lives of a sound store's grants from the oldest kept version on, by key and version. A leaf that was moved lives on.
pub fn lives(slots: &[Option<Record>], oldest: u32) -> Vec<Life> {
    let mut lives = vec![];
    for record in slots.iter().flatten() {
        if let Some((key, value)) = record.grant() {
            let (since, until) = (record.version.max(oldest), record.retired_since);
            lives.push(Life { key, since, until, value });
        }
    }
    lives.sort();
    lives.dedup_by(|next, life| {
        let on = next.key == life.key && next.value == life.value && life.until == Some(next.since);
        if on {
            life.until = next.until;
        }
        on
    });
    lives
}
