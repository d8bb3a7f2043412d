use crate::form::{at, INSERT_KIND, MOST_SLOTS, RECORD_BYTES};
use crate::records::u16_at;
use crate::{Batch, Key, Value};

/// A limit that no comparison passes: a store of 16,384 slots has at most so many visits.
pub const MOST_VISITS: u32 = 32_769;

/// Room for every list: it has at most one record for each slot of a store.
pub(crate) const LIST_BYTES: usize = MOST_SLOTS as usize * RECORD_BYTES;

/// What became of a key from one version to another.
#[derive(Clone, Copy, Debug, PartialEq, Eq)]
pub enum Change {
    Added { key: Key, value: Value },
    Removed { key: Key, value: Value },
    Changed { key: Key, old: Value, new: Value },
}

impl Change {
    pub fn key(&self) -> Key {
        match *self {
            Change::Added { key, .. }
            | Change::Removed { key, .. }
            | Change::Changed { key, .. } => key,
        }
    }
}

/// Every key added, removed or given another value from one version to another, in key order, each once.
///
/// ```
/// use grants::{Batch, Change, Error, Store, MOST_VISITS};
///
/// let mut store = Store::with_capacity(20)?;
/// let mut batch = Batch::new();
/// batch.insert([1; 32], [7; 32]).unwrap().insert([2; 32], [8; 32]).unwrap();
/// store.apply(1, &batch)?;
/// let mut batch = Batch::new();
/// batch.delete([1; 32]).unwrap().insert([2; 32], [9; 32]).unwrap();
/// store.apply(2, &batch)?;
/// let changes = store.changes(1, 2, MOST_VISITS)?;
/// assert_eq!(
///     changes.iter().collect::<Vec<_>>(),
///     [
///         Change::Removed { key: [1; 32].into(), value: [7; 32].into() },
///         Change::Changed { key: [2; 32].into(), old: [8; 32].into(), new: [9; 32].into() },
///     ]
/// );
/// assert_eq!(changes.records(), 3);
/// assert_eq!(store.changes(1, 2, 2), Err(Error::TooManyVisits));
/// # Ok::<(), Error>(())
/// ```
#[derive(Clone, Debug, PartialEq, Eq)]
pub struct Changes {
    bytes: Vec<u8>,
}

impl Changes {
    pub(crate) fn of(bytes: Vec<u8>) -> Changes {
        Changes { bytes }
    }

    /// The list as records of 72 bytes (docs/FORMAT.md): a delete carries the old value, a change is a delete and then an insert.
    pub fn as_bytes(&self) -> &[u8] {
        &self.bytes
    }

    /// The number of records; a key given another value has two.
    pub fn records(&self) -> usize {
        self.bytes.len() / RECORD_BYTES
    }

    pub fn is_empty(&self) -> bool {
        self.bytes.is_empty()
    }

    pub fn iter(&self) -> impl Iterator<Item = Change> + '_ {
        let mut records = self.bytes.chunks_exact(RECORD_BYTES).map(record).peekable();
        std::iter::from_fn(move || {
            let (inserts, key, value) = records.next()?;
            if inserts {
                return Some(Change::Added { key, value });
            }
            let new = records.next_if(|(inserts, next, _)| *inserts && *next == key);
            Some(match new {
                Some((_, _, new)) => Change::Changed {
                    key,
                    old: value,
                    new,
                },
                None => Change::Removed { key, value },
            })
        })
    }

    /// The batch that makes the second version's grants of the first's: a delete without its value, a change as its insert.
    pub fn to_batch(&self) -> Batch {
        let mut batch = Batch::new();
        for change in self.iter() {
            // The list has each key once, so the batch takes it.
            let _ = match change {
                Change::Added { key, value } => batch.insert(key, value),
                Change::Changed { key, new, .. } => batch.insert(key, new),
                Change::Removed { key, .. } => batch.delete(key),
            };
        }
        batch
    }
}

/// Whether a record inserts, its key and its value.
fn record(bytes: &[u8]) -> (bool, Key, Value) {
    let (mut key, mut value) = ([0; 32], [0; 32]);
    key.copy_from_slice(&bytes[at::RECORD_KEY]);
    value.copy_from_slice(&bytes[at::RECORD_VALUE]);
    (
        u16_at(bytes, at::KIND) == INSERT_KIND,
        key.into(),
        value.into(),
    )
}
