//! Reads of one store that make themselves a table where that pays.

use crate::{Error, Index, Key, Palette, Proof, Root, Store, Value};
use std::sync::atomic::{AtomicUsize, Ordering};
use std::sync::OnceLock;

/// A store of fewer slots is read without a table: a read by scans takes little longer than one by it.
const LEAST_SLOTS: usize = 512;

/// After how many reads of keys or positions a table is built: by then they have taken about as long as building it takes, which is as many slots longer as a scan is. `examples/lookup.rs` measures it.
fn enough(slots: usize) -> usize {
    20 + 60_000 / slots.max(1)
}

/// A read that ends at the root's record is one scan; a tenth of a read that goes down a tree.
const TO_ROOT: usize = 1;
const DOWN: usize = 10;

/// How one store is read: by looking at every slot, and by a table ([`Index`]) from when as much was asked as building one costs. Every answer and every refusal is that of the plain call: the
/// library builds a table of a sound store alone, and of such a store it is proved that reads by any table are the plain ones (`sound_indexed_as_plain`, docs/CONTRACTS.md). A store that isn't sound is read
/// without one.
///
/// ```
/// use grants::{Batch, Error, Lookup, Store};
///
/// let mut store = Store::with_capacity(20)?;
/// let mut batch = Batch::new();
/// batch.insert([1; 32], [7; 32]).unwrap();
/// store.apply(1, &batch)?;
/// let lookup = Lookup::new();
/// for n in 0..100 {
///     assert_eq!(lookup.get(&store, 1, [n; 32])?, store.get(1, [n; 32])?);
/// }
/// # Ok::<(), Error>(())
/// ```
#[derive(Debug, Default)]
pub struct Lookup {
    asked: AtomicUsize,
    /// None where the store isn't sound, or is too small.
    table: OnceLock<Option<Index>>,
    never: bool,
}

impl Lookup {
    pub fn new() -> Lookup {
        Lookup::default()
    }

    /// One that makes no table, to compare with.
    pub fn plain() -> Lookup {
        let never = true;
        Lookup { never, ..Lookup::default() }
    }

    /// The table, if it pays to have one for so much more that is asked.
    fn table<B: AsRef<[u8]>>(&self, store: &Store<B>, more: usize) -> Option<&Index> {
        if let Some(known) = self.table.get() {
            // Of another store it would be of no use, and of another length refused.
            let fits = |table: &&Index| table.entries().len() == slots(store);
            return known.as_ref().filter(fits);
        }
        let slots = slots(store);
        let asked = self.asked.fetch_add(more, Ordering::Relaxed).saturating_add(more);
        if self.never || slots < LEAST_SLOTS || asked < DOWN * enough(slots) {
            return None;
        }
        self.table.get_or_init(|| Index::of(store).ok()).as_ref()
    }

    /// [`Store::root`]. Refused: 1, 2, 8, 3.
    pub fn root<B: AsRef<[u8]>>(&self, store: &Store<B>, version: u32) -> Result<Root, Error> {
        match self.table(store, TO_ROOT) {
            Some(table) => table.root(store, version),
            None => store.root(version),
        }
    }

    /// [`Store::get`]. Refused: 12, 1, 2, 8, 3 or 17.
    pub fn get<B: AsRef<[u8]>>(
        &self,
        store: &Store<B>,
        version: u32,
        key: impl AsRef<[u8]>,
    ) -> Result<Option<Value>, Error> {
        match self.table(store, DOWN) {
            Some(table) => table.get(store, version, key),
            None => store.get(version, key),
        }
    }

    /// [`Store::count`]. Refused: 1, 2, 8, 3.
    pub fn count<B: AsRef<[u8]>>(&self, store: &Store<B>, version: u32) -> Result<u64, Error> {
        match self.table(store, TO_ROOT) {
            Some(table) => table.count(store, version),
            None => store.count(version),
        }
    }

    /// [`Store::at`]. Refused: 1, 2, 8, 3, 20, 3 or 17.
    pub fn at<B: AsRef<[u8]>>(
        &self,
        store: &Store<B>,
        version: u32,
        position: u64,
    ) -> Result<(Key, Value), Error> {
        match self.table(store, DOWN) {
            Some(table) => table.at(store, version, position),
            None => store.at(version, position),
        }
    }

    /// [`Store::prove`]. Refused: 12, 1, 2, 8, 14, 3 or 17.
    pub fn prove<B: AsRef<[u8]>>(
        &self,
        store: &Store<B>,
        version: u32,
        key: impl AsRef<[u8]>,
    ) -> Result<Proof, Error> {
        match self.table(store, DOWN) {
            Some(table) => table.prove(store, version, key),
            None => store.prove(version, key),
        }
    }

    /// [`Store::palette`]. Refused: 12, 1, 2, 8, then of the first key refused 14, 3 or 17.
    pub fn palette<B: AsRef<[u8]>>(
        &self,
        store: &Store<B>,
        version: u32,
        keys: &[Key],
    ) -> Result<Palette, Error> {
        match self.table(store, DOWN * keys.len()) {
            Some(table) => table.palette(store, version, keys),
            None => store.palette(version, keys),
        }
    }
}

/// How many slots a store's bytes are.
fn slots<B: AsRef<[u8]>>(store: &Store<B>) -> usize {
    let bytes = store.as_bytes().len();
    bytes.saturating_sub(crate::HEADER_BYTES) / crate::SLOT_BYTES
}
