use crate::form::{DELETE_KIND, DELETE_LENGTH, INSERT_KIND, RECORD_BYTES};
use crate::{Key, Value};
use std::collections::btree_map::{BTreeMap, Entry};
use std::fmt;

/// The most records that one batch may have.
pub const BATCH_RECORDS: usize = 1_024;

/// What to publish next: keys to insert and keys to delete. It sorts as it is built, and takes no key twice.
///
/// ```
/// use grants::{Batch, Key};
///
/// let mut batch = Batch::new();
/// batch.insert([2; 32], [7; 32])?.delete([1; 32])?;
/// assert_eq!(batch.len(), 2);
/// // The smaller key comes first, as docs/RULES.md wants it.
/// assert_eq!(batch.to_bytes()[8..40], [1; 32]);
///
/// let doubled = batch.insert([1; 32], [9; 32]).unwrap_err();
/// assert_eq!(doubled.key, Key::from([1; 32]));
/// # Ok::<(), grants::DoubledKey>(())
/// ```
#[derive(Clone, Debug, Default, PartialEq, Eq)]
pub struct Batch {
    asks: BTreeMap<Key, Option<Value>>,
}

impl Batch {
    pub fn new() -> Batch {
        Batch::default()
    }

    /// The key gets this value, whether or not it has one.
    pub fn insert(
        &mut self,
        key: impl Into<Key>,
        value: impl Into<Value>,
    ) -> Result<&mut Batch, DoubledKey> {
        self.ask(key.into(), Some(value.into()))
    }

    /// The key has no value from now on; where it has none already, nothing changes.
    pub fn delete(&mut self, key: impl Into<Key>) -> Result<&mut Batch, DoubledKey> {
        self.ask(key.into(), None)
    }

    /// The key gets this value, whatever the batch had for it before.
    pub fn put(&mut self, key: impl Into<Key>, value: impl Into<Value>) {
        self.asks.insert(key.into(), Some(value.into()));
    }

    fn ask(&mut self, key: Key, value: Option<Value>) -> Result<&mut Batch, DoubledKey> {
        match self.asks.entry(key) {
            Entry::Occupied(_) => return Err(DoubledKey { key }),
            Entry::Vacant(entry) => entry.insert(value),
        };
        Ok(self)
    }

    /// The number of records. More than [`BATCH_RECORDS`] are refused when they are applied; see [`Batch::split`].
    pub fn len(&self) -> usize {
        self.asks.len()
    }

    pub fn is_empty(&self) -> bool {
        self.asks.is_empty()
    }

    /// Keys with their new values, none for a delete, in ascending order.
    pub fn iter(&self) -> impl Iterator<Item = (Key, Option<Value>)> + '_ {
        self.asks.iter().map(|(key, value)| (*key, *value))
    }

    /// The batch as records of 72 bytes (docs/FORMAT.md).
    pub fn to_bytes(&self) -> Vec<u8> {
        let mut bytes = Vec::with_capacity(self.len() * RECORD_BYTES);
        for (key, value) in self.iter() {
            let (length, kind) = match value {
                Some(_) => (RECORD_BYTES as u32, INSERT_KIND),
                None => (DELETE_LENGTH as u32, DELETE_KIND),
            };
            bytes.extend_from_slice(&length.to_le_bytes());
            bytes.extend_from_slice(&kind.to_le_bytes());
            bytes.extend_from_slice(&[0; 2]);
            bytes.extend_from_slice(key.as_ref());
            bytes.extend_from_slice(value.map_or([0; 32], Into::into).as_ref());
        }
        bytes
    }

    /// The same records in batches of at most [`BATCH_RECORDS`], to be published as several versions. An empty batch stays one batch.
    ///
    /// ```
    /// use grants::Batch;
    ///
    /// let mut batch = Batch::new();
    /// for n in 0..2_000u32 {
    ///     let mut key = [0; 32];
    ///     key[..4].copy_from_slice(&n.to_be_bytes());
    ///     batch.insert(key, [1; 32])?;
    /// }
    /// let parts = batch.split();
    /// assert_eq!(parts.iter().map(Batch::len).collect::<Vec<_>>(), [1_024, 976]);
    /// # Ok::<(), grants::DoubledKey>(())
    /// ```
    pub fn split(self) -> Vec<Batch> {
        let mut parts = vec![Batch::new()];
        for (key, value) in self.asks {
            if parts.last().is_some_and(|part| part.len() == BATCH_RECORDS) {
                parts.push(Batch::new());
            }
            if let Some(part) = parts.last_mut() {
                part.asks.insert(key, value);
            }
        }
        parts
    }
}

/// A batch takes a key once.
#[derive(Clone, Copy, Debug, PartialEq, Eq)]
pub struct DoubledKey {
    pub key: Key,
}

impl fmt::Display for DoubledKey {
    fn fmt(&self, f: &mut fmt::Formatter<'_>) -> fmt::Result {
        write!(f, "the batch has the key {} twice", self.key)
    }
}

impl std::error::Error for DoubledKey {}
