use crate::changes::{Changes, LIST_BYTES};
use crate::figures::{RangeFigures, RANGE_VERSIONS};
use crate::form::{
    at, store_bytes, HEADER_BYTES, MOST_SLOTS, OLD_HEADER_KIND, OLD_SLOT_BYTES, RECORD_BYTES,
    SLOT_BYTES,
};
use crate::palette::{Palette, PALETTE_KEYS};
use crate::records::{self, Record};
use crate::{ffi, proof, Batch, Error, Key, Proof, Root, Value, POCKET_BYTES, PROOF_BYTES};

const MOST_OLD: usize = MOST_SLOTS as usize;

pub(crate) fn list(keys: &[Key]) -> Vec<u8> {
    keys.iter().flat_map(|key| *key.as_bytes()).collect()
}

/// A store over bytes, borrowed or owned: `&[u8]`, `&mut [u8]`, `Vec<u8>`, an array, a mapped file.
///
/// Nothing is judged when a `Store` is made. Each call takes any bytes, tests what docs/RULES.md wants tested, and answers or refuses; a refused
/// call changes no byte.
///
/// ```
/// use grants::{Batch, Error, Store, Value};
///
/// let mut store = Store::with_capacity(20)?;
/// let mut batch = Batch::new();
/// batch.insert([1; 32], [7; 32]).unwrap().insert([2; 32], [8; 32]).unwrap();
/// let made = store.apply(1, &batch)?;
/// assert_eq!(made.version, 1);
/// assert_eq!(store.root(1)?, made.root);
/// assert_eq!(store.get(1, [2; 32])?, Some(Value::from([8; 32])));
/// assert_eq!(store.get(1, [3; 32])?, None);
/// assert_eq!(store.get(5, [3; 32]), Err(Error::VersionNotKept));
/// # Ok::<(), Error>(())
/// ```
#[derive(Clone, Debug, PartialEq, Eq)]
pub struct Store<B> {
    bytes: B,
}

/// What an accepted batch made.
#[derive(Clone, Copy, Debug, PartialEq, Eq)]
pub struct Applied {
    /// The number that was given.
    pub version: u32,
    pub root: Root,
    /// How many records are new.
    pub new_records: u32,
}

impl Applied {
    pub(crate) fn read(answer: [u8; 40]) -> Applied {
        let mut root = [0; 32];
        root.copy_from_slice(&answer[4..36]);
        Applied {
            version: records::u32_at(&answer, 0),
            root: Root::from(root),
            new_records: records::u32_at(&answer, 36),
        }
    }
}

/// What the header of a store says.
#[derive(Clone, Copy, Debug, PartialEq, Eq)]
pub struct Header {
    pub capacity: u32,
    /// The oldest version that is kept.
    pub oldest: u32,
    pub latest: u32,
}

impl Store<Vec<u8>> {
    /// A fresh, empty store of this many slots, 1 to 16,384. Refused: 1.
    ///
    /// ```
    /// use grants::{Error, Store};
    ///
    /// assert_eq!(Store::with_capacity(20)?.header()?.latest, 0);
    /// assert_eq!(Store::with_capacity(0), Err(Error::Size));
    /// assert_eq!(Store::with_capacity(16_385), Err(Error::Size));
    /// # Ok::<(), Error>(())
    /// ```
    pub fn with_capacity(capacity: u32) -> Result<Store<Vec<u8>>, Error> {
        // One slot too many is refused as any larger number is, and takes little memory.
        let bytes = store_bytes(capacity.min(MOST_SLOTS + 1));
        let mut store = Store::over(vec![0; bytes]);
        store.format()?;
        Ok(store)
    }
}

impl<B> Store<B> {
    pub fn over(bytes: B) -> Store<B> {
        Store { bytes }
    }

    pub fn into_bytes(self) -> B {
        self.bytes
    }
}

impl<B: AsRef<[u8]>> Store<B> {
    pub fn as_bytes(&self) -> &[u8] {
        self.bytes.as_ref()
    }

    /// Whether the store is sound: every kept version is a whole tree with every hash true. Refused: 1, 2, 3.
    pub fn check(&self) -> Result<(), Error> {
        ffi::check(self.as_bytes())
    }

    /// The root of a version, [`Root::EMPTY`] where it holds no grant. A version between two publishings has the root of the earlier one.
    /// Refused: 1, 2, 8, 3 ([`Error::Spoilt`]: the root's record is spoilt; a lost one is taken for an empty version).
    pub fn root(&self, version: u32) -> Result<Root, Error> {
        ffi::root(self.as_bytes(), version).map(Root::from)
    }

    /// A key in a version: its value, or none where the key is absent. Where a record on the way is missing, the refusal says whether it is lost or
    /// spoilt, and in which slot; [`Store::missing_for`] says which record it is. Refused: 12, 1, 2, 8, 3 or 17.
    ///
    /// ```
    /// use grants::{store_bytes, Batch, Error, Store};
    ///
    /// let mut store = Store::with_capacity(4)?;
    /// let mut batch = Batch::new();
    /// batch.insert([0x00; 32], [7; 32]).unwrap().insert([0x80; 32], [8; 32]).unwrap();
    /// store.apply(1, &batch)?;
    /// let mut bytes = store.into_bytes();
    /// let second = store_bytes(1)..store_bytes(2);  // slot 1, the second leaf
    /// bytes[second.start] = 0;  // its length
    /// let store = Store::over(bytes);
    /// assert_eq!(store.get(1, [0x80; 32]), Err(Error::Spoilt { slot: 1 }));
    /// let mut bytes = store.into_bytes();
    /// bytes[second].fill(0);
    /// let store = Store::over(bytes);
    /// assert_eq!(store.get(1, [0x80; 32]), Err(Error::Lost));
    /// assert_eq!(store.missing_for(1, [0x80; 32]).unwrap().place.to_string(), "1");
    /// assert!(store.get(1, [0x00; 32])?.is_some());
    /// # Ok::<(), Error>(())
    /// ```
    pub fn get(&self, version: u32, key: impl AsRef<[u8]>) -> Result<Option<Value>, Error> {
        ffi::get(self.as_bytes(), version, key.as_ref()).map(proof::found)
    }

    /// The proof that a key is in a version, or that it isn't. In a version without a grant there is none (14): its root, [`Root::EMPTY`], is
    /// itself the proof that nothing is granted. Refused: 12, 1, 2, 8, 14, 3 or 17.
    pub fn prove(&self, version: u32, key: impl AsRef<[u8]>) -> Result<Proof, Error> {
        let mut room = vec![0; PROOF_BYTES];
        let length = self.prove_into(version, key, &mut room)?;
        room.truncate(length);
        Ok(Proof::from_bytes(room))
    }

    /// The same, written to the front of `room`; the answer is the proof's length, and the rest of `room` stays. Refused: 12, 1, 2, 8, 14, 3 or 17, 9.
    ///
    /// ```
    /// use grants::{Batch, Error, Store};
    ///
    /// let mut store = Store::with_capacity(1)?;
    /// let mut room = [9; 113];
    /// assert_eq!(store.prove_into(0, [1; 32], &mut room), Err(Error::EmptyVersion));
    ///
    /// let mut batch = Batch::new();
    /// batch.insert([2; 32], [7; 32]).unwrap();
    /// store.apply(1, &batch)?;
    /// assert_eq!(store.prove_into(1, [1; 32], &mut room)?, 112);
    /// assert_eq!(room[112], 9);
    /// assert_eq!(store.prove_into(1, [1; 32], &mut room[..111]), Err(Error::ProofTooLong));
    /// # Ok::<(), Error>(())
    /// ```
    pub fn prove_into(
        &self,
        version: u32,
        key: impl AsRef<[u8]>,
        room: &mut [u8],
    ) -> Result<usize, Error> {
        let length = ffi::prove(self.as_bytes(), version, key.as_ref(), room)?;
        Ok(u32::from_le_bytes(length) as usize)
    }

    /// The same as [`Store::prove`] in the pocket profile: where a leaf that the proof shows has more than 32 steps it is refused with 19. The proof has at most
    /// [`POCKET_BYTES`]. Refused: 12, 1, 2, 8, 14, 3 or 17, 19.
    pub fn prove_pocket(&self, version: u32, key: impl AsRef<[u8]>) -> Result<Proof, Error> {
        let mut room = vec![0; POCKET_BYTES];
        let length = ffi::pocket_prove(self.as_bytes(), version, key.as_ref(), &mut room)?;
        room.truncate(u32::from_le_bytes(length) as usize);
        Ok(Proof::from_bytes(room))
    }

    /// The figures of the kept versions from first to last, 1 to [`RANGE_VERSIONS`](crate::RANGE_VERSIONS) of them: of each what is counted over its tree, and
    /// what is counted over all. Refused: 1, 2, 3, 8.
    pub fn figures(&self, first: u32, last: u32) -> Result<RangeFigures, Error> {
        let versions = last
            .checked_sub(first)
            .map_or(0, |more| more.min(RANGE_VERSIONS - 1) + 1);
        let mut room = vec![0; 16 * versions as usize];
        let totals = ffi::figures(self.as_bytes(), first, last, &mut room)?;
        Ok(RangeFigures::read(first, &room, totals))
    }

    /// The proofs for several keys of a version, in the order asked, a key asked for twice twice. Where the proof for one of them is refused, the first
    /// such refusal in the order asked is the answer. Without keys it is empty, and accepted in an empty version too. Refused: 12 (more than
    /// [`PALETTE_KEYS`]), 1, 2, 8, then of the first key refused 14, 3.
    ///
    /// ```
    /// use grants::{Error, Key, Store, PALETTE_KEYS};
    ///
    /// let store = Store::with_capacity(1)?;
    /// assert_eq!(store.palette(0, &[])?.as_bytes(), []);
    /// assert_eq!(store.palette(0, &[Key::from([1; 32])]), Err(Error::EmptyVersion));
    /// let many = [Key::from([1; 32]); PALETTE_KEYS + 1];
    /// assert_eq!(store.palette(0, &many), Err(Error::NotThirtyTwoBytes));
    /// # Ok::<(), Error>(())
    /// ```
    pub fn palette(&self, version: u32, keys: &[Key]) -> Result<Palette, Error> {
        let mut room = vec![0; PROOF_BYTES * keys.len().min(PALETTE_KEYS)];
        let length = self.palette_into(version, &list(keys), &mut room)?;
        room.truncate(length);
        room.shrink_to_fit();
        Ok(Palette::from_bytes(room))
    }

    /// The same of keys of 32 bytes one after the other, written to the front of `room`; the answer is the length of all together, and the rest of
    /// `room` stays. Refused: 12, 1, 2, 8, then of the first key refused 14, 3; then 9.
    pub fn palette_into(&self, version: u32, keys: &[u8], room: &mut [u8]) -> Result<usize, Error> {
        let length = ffi::palette(self.as_bytes(), version, keys, room)?;
        Ok(u32::from_le_bytes(length) as usize)
    }

    /// What changed from one kept version to another, in any order of the two, if comparing them takes no more visits than the limit;
    /// [`MOST_VISITS`](crate::MOST_VISITS) is always enough. Refused: 1, 2, 3, 8, 13.
    pub fn changes(&self, first: u32, second: u32, limit: u32) -> Result<Changes, Error> {
        let mut room = vec![0; LIST_BYTES];
        let records = ffi::changes(self.as_bytes(), first, second, limit, &mut room)?;
        room.truncate(RECORD_BYTES * u32::from_le_bytes(records) as usize);
        room.shrink_to_fit();
        Ok(Changes::of(room))
    }

    /// Capacity, oldest and latest. Refused: 1, 2.
    pub fn header(&self) -> Result<Header, Error> {
        let bytes = self.as_bytes();
        // A root read tests the header, then the version, then the root's record: 1 and 2 are said of the header.
        match ffi::root(bytes, 0) {
            Ok(_) | Err(Error::VersionNotKept | Error::Spoilt { .. }) => Ok(records::header(bytes)),
            Err(refused) => Err(refused),
        }
    }

    /// Whether this is a store of the old form, which had slots of 120 bytes and no counts: by its size and by the kind in its header, and by the capacity
    /// too where a store of today may have that size. Every call refuses one, with 1 or with 2; `grants move` of the command line tool brings it over.
    ///
    /// ```
    /// use grants::{old_store_bytes, store_bytes, Error, Store};
    ///
    /// let mut old = vec![0; old_store_bytes(16)];
    /// old[..12].copy_from_slice(&[24, 0, 0, 0, 1, 0, 0, 0, 16, 0, 0, 0]);
    /// let old = Store::over(old);
    /// assert!(old.is_old_form());
    /// // A store of 15 slots has as many bytes today.
    /// assert_eq!((old.as_bytes().len(), old.check()), (store_bytes(15), Err(Error::Header)));
    /// assert!(!Store::with_capacity(15)?.is_old_form());
    /// # Ok::<(), Error>(())
    /// ```
    pub fn is_old_form(&self) -> bool {
        let bytes = self.as_bytes();
        let slots = |each: usize| {
            bytes
                .len()
                .checked_sub(HEADER_BYTES)
                .map(|n| (n / each, n % each))
        };
        let Some((old @ 1..=MOST_OLD, 0)) = slots(OLD_SLOT_BYTES) else {
            return false;
        };
        let either = slots(SLOT_BYTES).is_some_and(|(_, over)| over == 0);
        records::u32_at(bytes, at::LENGTH) as usize == HEADER_BYTES
            && records::u16_at(bytes, at::KIND) == OLD_HEADER_KIND
            && (!either || records::u32_at(bytes, at::CAPACITY) as usize == old)
    }

    /// The slots in order: the record that is in each, none where it is free. For a sound store only, so that there is nothing to judge: each
    /// slot is free or in form. Refused: 1, 2, 3.
    ///
    /// ```
    /// use grants::{Batch, Error, Key, Store};
    ///
    /// let mut store = Store::with_capacity(2)?;
    /// let mut batch = Batch::new();
    /// batch.insert([1; 32], [7; 32]).unwrap();
    /// store.apply(1, &batch)?;
    /// let slots = store.slots()?;
    /// let record = slots[0].unwrap();
    /// assert_eq!(record.version, 1);
    /// assert_eq!(record.grant(), Some((Key::from([1; 32]), [7; 32].into())));
    /// assert_eq!(slots[1], None);
    /// # Ok::<(), Error>(())
    /// ```
    pub fn slots(&self) -> Result<Vec<Option<Record>>, Error> {
        let bytes = self.as_bytes();
        ffi::check(bytes)?;
        Ok(records::slots(bytes))
    }
}

impl<B: AsRef<[u8]> + AsMut<[u8]>> Store<B> {
    /// Makes a fresh, empty store of whatever bytes are there, if their number is right. Refused: 1.
    ///
    /// ```
    /// use grants::{Error, Store};
    ///
    /// let mut lent = [0xaa; grants::store_bytes(4)];
    /// let mut store = Store::over(&mut lent[..]);
    /// assert_eq!(store.check(), Err(Error::Header));
    /// store.format()?;
    /// assert_eq!(store.check(), Ok(()));
    /// # Ok::<(), Error>(())
    /// ```
    pub fn format(&mut self) -> Result<(), Error> {
        ffi::format(self.bytes.as_mut())
    }

    /// Publishes a version under a number of the caller's, any above latest: the latest grants with the batch applied. A version between two
    /// publishings reads as the earlier one. Refused: 1, 2, 3, 4, 5, 18, 7.
    ///
    /// ```
    /// use grants::{Batch, Error, Store, Value};
    ///
    /// let mut store = Store::with_capacity(4)?;
    /// let mut batch = Batch::new();
    /// batch.insert([1; 32], [7; 32]).unwrap();
    /// store.apply(2026_05, &batch)?;
    /// store.apply(2026_11, &Batch::new())?;
    /// assert_eq!(store.get(2026_08, [1; 32])?, Some(Value::from([7; 32])));
    ///
    /// // Refused, and nothing changed.
    /// let before = store.clone();
    /// assert_eq!(store.apply(2026_11, &batch), Err(Error::NotAboveLatest));
    /// batch.insert([2; 32], [8; 32]).unwrap();
    /// assert_eq!(store.apply(2026_12, &batch), Err(Error::NoRoom));
    /// assert_eq!(store, before);
    /// # Ok::<(), Error>(())
    /// ```
    pub fn apply(&mut self, number: u32, batch: &Batch) -> Result<Applied, Error> {
        self.apply_bytes(number, &batch.to_bytes())
    }

    /// The same under the number after latest, which is in [`Applied::version`]. Refused: 1, 2, 3, 4, 5, 18 (latest is 4,294,967,295), 7.
    ///
    /// ```
    /// use grants::{Batch, Error, Store};
    ///
    /// let mut store = Store::with_capacity(4)?;
    /// store.apply(41, &Batch::new())?;
    /// assert_eq!(store.apply_next(&Batch::new())?.version, 42);
    /// store.apply(u32::MAX, &Batch::new())?;
    /// assert_eq!(store.apply_next(&Batch::new()), Err(Error::NotAboveLatest));
    /// # Ok::<(), Error>(())
    /// ```
    pub fn apply_next(&mut self, batch: &Batch) -> Result<Applied, Error> {
        // Where there is no next number it is 0, which is never above latest; where there is no header, the call says so first.
        let next = self
            .header()
            .map_or(0, |header| header.latest.wrapping_add(1));
        self.apply(next, batch)
    }

    /// Publishes batch records of 72 bytes (docs/FORMAT.md), from anybody. Refused: 1, 2, 3, 4, 5, 18, 7.
    pub fn apply_bytes(&mut self, number: u32, batch: &[u8]) -> Result<Applied, Error> {
        ffi::apply(self.bytes.as_mut(), number, batch).map(Applied::read)
    }

    /// For calls that are lent more than the store.
    pub(crate) fn as_bytes_mut(&mut self) -> &mut [u8] {
        self.bytes.as_mut()
    }

    /// Frees every record retired since the version or earlier, and keeps no older version; the answer is how many it freed. Between two
    /// publishings it keeps the earlier one's tree. Refused: 1, 2, 3, 8.
    ///
    /// ```
    /// use grants::{Batch, Error, Store};
    ///
    /// let mut store = Store::with_capacity(4)?;
    /// let mut batch = Batch::new();
    /// batch.insert([1; 32], [7; 32]).unwrap();
    /// store.apply(1, &batch)?;
    /// store.apply(2, &Batch::new())?;
    /// assert_eq!(store.prune(2)?, 1);
    /// assert_eq!(store.root(1), Err(Error::VersionNotKept));
    /// # Ok::<(), Error>(())
    /// ```
    pub fn prune(&mut self, version: u32) -> Result<u32, Error> {
        ffi::prune(self.bytes.as_mut(), version).map(u32::from_le_bytes)
    }
}
