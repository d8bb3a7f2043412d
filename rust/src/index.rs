use crate::palette::{Palette, PALETTE_KEYS};
use crate::proof::{self, Proof, PROOF_BYTES};
use crate::store::{list, Applied, Store};
use crate::{ffi, Batch, Error, Key, Root, Value, HEADER_BYTES, SLOT_BYTES};

/// A table beside a store (docs/RULES.md): its reads find records by halving instead of looking at every slot. Whatever a table holds, on a sound store every
/// read answers as the store's own; a table that isn't right costs time and nothing else. Whoever keeps one with its store publishes and prunes through it, and it
/// stays right.
///
/// ```
/// use grants::{Batch, Error, Index, Store};
///
/// let mut store = Store::with_capacity(20)?;
/// let mut index = Index::of(&store)?;
/// let mut batch = Batch::new();
/// batch.insert([1; 32], [7; 32]).unwrap().insert([0x81; 32], [8; 32]).unwrap();
/// index.apply(&mut store, 1, &batch)?;
/// assert_eq!(index.get(&store, 1, [1; 32])?, store.get(1, [1; 32])?);
/// assert_eq!(index.prove(&store, 1, [2; 32])?, store.prove(1, [2; 32])?);
/// index.check(&store)?;
///
/// // Published without it, the table is stale: reads answer as before, and it is told so where it is kept.
/// store.apply(2, &Batch::new())?;
/// assert_eq!(index.check(&store), Err(Error::WrongIndex));
/// assert_eq!(index.root(&store, 2)?, store.root(2)?);
/// assert_eq!(index.apply(&mut store, 3, &Batch::new()), Err(Error::WrongIndex));
/// index = Index::of(&store)?;
/// index.apply(&mut store, 3, &Batch::new())?;
/// # Ok::<(), Error>(())
/// ```
#[derive(Clone, Debug, PartialEq, Eq)]
pub struct Index {
    table: Vec<u32>,
}

impl Index {
    /// The right table of a sound store. Refused: 1, 2, 3.
    pub fn of<B: AsRef<[u8]>>(store: &Store<B>) -> Result<Index, Error> {
        let bytes = store.as_bytes();
        let mut table = vec![0; bytes.len().saturating_sub(HEADER_BYTES) / SLOT_BYTES];
        ffi::index(bytes, &mut table)?;
        Ok(Index { table })
    }

    /// A table of any numbers, as it was kept; [`Index::check`] says whether it is right.
    pub fn from_entries(table: Vec<u32>) -> Index {
        Index { table }
    }

    pub fn entries(&self) -> &[u32] {
        &self.table
    }

    /// Whether it is the right table of a sound store. Refused: 1, 2, 3, 16.
    pub fn check<B: AsRef<[u8]>>(&self, store: &Store<B>) -> Result<(), Error> {
        ffi::index_check(store.as_bytes(), &self.table)
    }

    /// [`Store::root`] by the table. Refused: 1, 2, 8, 3.
    pub fn root<B: AsRef<[u8]>>(&self, store: &Store<B>, version: u32) -> Result<Root, Error> {
        ffi::root_indexed(store.as_bytes(), &self.table, version).map(Root::from)
    }

    /// [`Store::get`] by the table. Refused: 12, 1, 2, 8, 3 or 17.
    pub fn get<B: AsRef<[u8]>>(
        &self,
        store: &Store<B>,
        version: u32,
        key: impl AsRef<[u8]>,
    ) -> Result<Option<Value>, Error> {
        ffi::get_indexed(store.as_bytes(), &self.table, version, key.as_ref()).map(proof::found)
    }

    /// [`Store::count`] by the table. Refused: 1, 2, 8, 3.
    pub fn count<B: AsRef<[u8]>>(&self, store: &Store<B>, version: u32) -> Result<u64, Error> {
        ffi::count_indexed(store.as_bytes(), &self.table, version).map(u64::from_le_bytes)
    }

    /// [`Store::at`] by the table. Refused: 1, 2, 8, 3, 20, 3 or 17.
    pub fn at<B: AsRef<[u8]>>(
        &self,
        store: &Store<B>,
        version: u32,
        position: u64,
    ) -> Result<(Key, Value), Error> {
        let grant = ffi::at_indexed(store.as_bytes(), &self.table, version, position)?;
        let (mut key, mut value) = ([0; 32], [0; 32]);
        key.copy_from_slice(&grant[..32]);
        value.copy_from_slice(&grant[32..]);
        Ok((Key::from(key), Value::from(value)))
    }

    /// [`Store::prove`] by the table: the same bytes. Refused: 12, 1, 2, 8, 14, 3 or 17.
    pub fn prove<B: AsRef<[u8]>>(
        &self,
        store: &Store<B>,
        version: u32,
        key: impl AsRef<[u8]>,
    ) -> Result<Proof, Error> {
        let mut room = vec![0; PROOF_BYTES];
        let length = ffi::prove_indexed(
            store.as_bytes(),
            &self.table,
            version,
            key.as_ref(),
            &mut room,
        )?;
        room.truncate(u32::from_le_bytes(length) as usize);
        Ok(Proof::from_bytes(room))
    }

    /// [`Store::palette`] by the table: the same bytes. Refused: 12, 1, 2, 8, then of the first key refused 14, 3 or 17.
    pub fn palette<B: AsRef<[u8]>>(
        &self,
        store: &Store<B>,
        version: u32,
        keys: &[Key],
    ) -> Result<Palette, Error> {
        let mut room = vec![0; PROOF_BYTES * keys.len().min(PALETTE_KEYS)];
        let length = ffi::palette_indexed(
            store.as_bytes(),
            &self.table,
            version,
            &list(keys),
            &mut room,
        )?;
        room.truncate(u32::from_le_bytes(length) as usize);
        room.shrink_to_fit();
        Ok(Palette::from_bytes(room))
    }

    /// [`Store::format`], and the table of the fresh store. Refused: 1.
    pub fn format<B: AsRef<[u8]> + AsMut<[u8]>>(
        &mut self,
        store: &mut Store<B>,
    ) -> Result<(), Error> {
        ffi::format_indexed(store.as_bytes_mut(), &mut self.table)
    }

    /// [`Store::apply`] with the table, which is left the right one. Refused: 1, 2, 3, 16, 4, 5, 18, 7.
    pub fn apply<B: AsRef<[u8]> + AsMut<[u8]>>(
        &mut self,
        store: &mut Store<B>,
        number: u32,
        batch: &Batch,
    ) -> Result<Applied, Error> {
        let batch = batch.to_bytes();
        ffi::apply_indexed(store.as_bytes_mut(), &mut self.table, number, &batch)
            .map(Applied::read)
    }

    /// [`Store::prune`] with the table, which is left the right one. Refused: 1, 2, 3, 16, 8.
    pub fn prune<B: AsRef<[u8]> + AsMut<[u8]>>(
        &mut self,
        store: &mut Store<B>,
        version: u32,
    ) -> Result<u32, Error> {
        ffi::prune_indexed(store.as_bytes_mut(), &mut self.table, version).map(u32::from_le_bytes)
    }
}
