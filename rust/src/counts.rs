//! How many grants a version has, and the grant at a position, without reading every leaf.

use crate::{ffi, Error, Key, Store, Value};
use std::fmt;
use std::ops::Range;

impl<B: AsRef<[u8]>> Store<B> {
    /// How many grants a version has, by the counts in its root's record: 0 where it has none. Of a sound store that is their number; of one that isn't,
    /// it may be anything up to 8,589,934,590. Refused: 1, 2, 8, 3 ([`Error::Spoilt`]: the root's record is spoilt).
    ///
    /// ```
    /// use grants::{Batch, Error, Store};
    ///
    /// let mut store = Store::with_capacity(20)?;
    /// let mut batch = Batch::new();
    /// batch.insert([1; 32], [7; 32]).unwrap().insert([2; 32], [8; 32]).unwrap();
    /// store.apply(1, &batch)?;
    /// assert_eq!((store.count(0)?, store.count(1)?), (0, 2));
    /// assert_eq!(store.count(2), Err(Error::VersionNotKept));
    /// # Ok::<(), Error>(())
    /// ```
    pub fn count(&self, version: u32) -> Result<u64, Error> {
        ffi::count(self.as_bytes(), version).map(u64::from_le_bytes)
    }

    /// The grant at a position of a version, 0 the one with the least key. Refused: 1, 2, 8, 3 ([`Error::Spoilt`]: the root's record is spoilt), 20 (the
    /// position isn't below [`Store::count`]), then 3 or 17 for what it met on its way; [`Store::met_at`] says what that was.
    ///
    /// ```
    /// use grants::{Batch, Error, Store};
    ///
    /// let mut store = Store::with_capacity(20)?;
    /// let mut batch = Batch::new();
    /// batch.insert([1; 32], [7; 32]).unwrap().insert([2; 32], [8; 32]).unwrap();
    /// store.apply(1, &batch)?;
    /// assert_eq!(store.at(1, 0)?, ([1; 32].into(), [7; 32].into()));
    /// assert_eq!(store.at(1, 1)?, ([2; 32].into(), [8; 32].into()));
    /// assert_eq!(store.at(1, 2), Err(Error::NoSuchPosition));
    /// # Ok::<(), Error>(())
    /// ```
    pub fn at(&self, version: u32, position: u64) -> Result<(Key, Value), Error> {
        grant(self.as_bytes(), version, position)
    }

    /// The grants of a version in key order, each read by its position when it is asked for: `skip` and `nth` pass over grants without reading them.
    /// Refused: as [`Store::count`].
    ///
    /// ```
    /// use grants::{Batch, Error, Key, Store};
    ///
    /// let mut store = Store::with_capacity(40)?;
    /// let mut batch = Batch::new();
    /// for n in 0..9 {
    ///     batch.insert([n; 32], [7; 32]).unwrap();
    /// }
    /// store.apply(1, &batch)?;
    /// let page: Result<Vec<_>, Error> = store.positions(1)?.skip(4).take(2).collect();
    /// let keys: Vec<Key> = page?.into_iter().map(|(key, _)| key).collect();
    /// assert_eq!(keys, [Key::from([4; 32]), Key::from([5; 32])]);
    /// assert_eq!(store.positions(1)?.next_back().unwrap()?.0, Key::from([8; 32]));
    /// # Ok::<(), Error>(())
    /// ```
    pub fn positions(&self, version: u32) -> Result<Positions<'_>, Error> {
        Ok(Positions {
            store: self.as_bytes(),
            version,
            left: 0..self.count(version)?,
        })
    }
}

fn grant(store: &[u8], version: u32, position: u64) -> Result<(Key, Value), Error> {
    let grant = ffi::at(store, version, position)?;
    let (mut key, mut value) = ([0; 32], [0; 32]);
    key.copy_from_slice(&grant[..32]);
    value.copy_from_slice(&grant[32..]);
    Ok((key.into(), value.into()))
}

/// The grants of a version by position, from either end ([`Store::positions`]). The first that is refused ends it: the counts of a damaged store may promise
/// thousands of millions.
#[derive(Clone)]
pub struct Positions<'a> {
    store: &'a [u8],
    version: u32,
    left: Range<u64>,
}

impl Positions<'_> {
    fn read(&mut self, position: u64) -> Result<(Key, Value), Error> {
        let read = grant(self.store, self.version, position);
        if read.is_err() {
            self.left = 0..0;
        }
        read
    }
}

impl Iterator for Positions<'_> {
    type Item = Result<(Key, Value), Error>;

    fn next(&mut self) -> Option<Self::Item> {
        let position = self.left.next()?;
        Some(self.read(position))
    }

    fn nth(&mut self, n: usize) -> Option<Self::Item> {
        let position = self.left.nth(n)?;
        Some(self.read(position))
    }

    fn size_hint(&self) -> (usize, Option<usize>) {
        (0, self.left.size_hint().1)
    }
}

impl DoubleEndedIterator for Positions<'_> {
    fn next_back(&mut self) -> Option<Self::Item> {
        let position = self.left.next_back()?;
        Some(self.read(position))
    }

    fn nth_back(&mut self, n: usize) -> Option<Self::Item> {
        let position = self.left.nth_back(n)?;
        Some(self.read(position))
    }
}

impl fmt::Debug for Positions<'_> {
    fn fmt(&self, f: &mut fmt::Formatter<'_>) -> fmt::Result {
        f.debug_struct("Positions")
            .field("version", &self.version)
            .field("left", &self.left)
            .finish_non_exhaustive()
    }
}
