//! Rescue from a damaged store, and its slots one by one.

use crate::form::{store_bytes, MOST_SLOTS};
use crate::records::{self, u32_at};
use crate::{ffi, Error, Record, Store};

/// What a rescue gave back: versions `first` to the `latest` that was asked for. The three numbers are those of the two buffers compared.
#[derive(Clone, Copy, Debug, PartialEq, Eq)]
pub struct Rescued {
    /// The first version of the run.
    pub first: u32,
    /// Records kept as they were.
    pub same: u32,
    /// Records kept with another retired-since.
    pub other: u32,
    /// Used slots left out.
    pub out: u32,
}

/// A slot of a store with any contents.
#[derive(Clone, Copy, Debug, PartialEq, Eq)]
pub enum Slot {
    /// All zero.
    Free,
    /// A record in form (docs/FORMAT.md), true or not.
    Record(Record),
    OffForm,
}

impl<B: AsRef<[u8]>> Store<B> {
    /// A sound store of the longest run of versions, none before `oldest`, that ends at `latest` and whose trees are whole. The header isn't looked
    /// at: `latest` is where the run must end. Records keep their slots; retired-since is set afresh. Refused: 1, 2 (oldest above latest), 3 (no
    /// version).
    ///
    /// **Compare the root of `latest` with the one that was signed.** A root record whose retired-since was damaged to 0 or upwards covers later
    /// versions too, and makes withdrawn grants seem in force there; nothing but `latest` and the signed root guards against it.
    ///
    /// ```
    /// use grants::{store_bytes, Batch, Error, Store};
    ///
    /// let mut store = Store::with_capacity(4)?;
    /// let mut batch = Batch::new();
    /// batch.insert([1; 32], [7; 32]).unwrap();
    /// store.apply(1, &batch)?;
    /// let signed = store.apply(2, &Batch::new())?.root;
    ///
    /// // The header is lost, and the record of version 1.
    /// let mut bytes = store.into_bytes();
    /// bytes[..store_bytes(1)].fill(0xff);
    /// let damaged = Store::over(bytes);
    /// assert_eq!(damaged.check(), Err(Error::Header));
    ///
    /// let (rescued, what) = damaged.rescue(0, 2)?;
    /// assert_eq!(rescued.root(2)?, signed);
    /// assert_eq!((what.first, what.same, what.other, what.out), (2, 1, 0, 1));
    /// assert_eq!(damaged.rescue(0, 1).unwrap_err(), Error::Unsound);
    /// # Ok::<(), Error>(())
    /// ```
    pub fn rescue(&self, oldest: u32, latest: u32) -> Result<(Store<Vec<u8>>, Rescued), Error> {
        let bytes = self.as_bytes();
        // One slot too many is refused as any larger number is, and takes little memory.
        let mut target = vec![0; bytes.len().min(store_bytes(MOST_SLOTS + 1))];
        let rescued = self.rescue_into(oldest, latest, &mut target)?;
        Ok((Store::over(target), rescued))
    }

    /// The same into a buffer of equal length, whose bytes don't matter before; refused, it stays as it was. Refused: 1, 2, 3.
    pub fn rescue_into(
        &self,
        oldest: u32,
        latest: u32,
        target: &mut [u8],
    ) -> Result<Rescued, Error> {
        let answer = ffi::rescue(self.as_bytes(), oldest, latest, target)?;
        Ok(Rescued {
            first: u32_at(&answer, 0),
            same: u32_at(&answer, 4),
            other: u32_at(&answer, 8),
            out: u32_at(&answer, 12),
        })
    }

    /// The slots in order, of a store with any contents: to say what a rescue found. Refused: 1.
    pub fn slots_found(&self) -> Result<Vec<Slot>, Error> {
        let bytes = self.as_bytes();
        // A root read tests the size first.
        match ffi::root(bytes, 0) {
            Err(Error::Size) => Err(Error::Size),
            _ => Ok(records::chunks(bytes).map(found).collect()),
        }
    }
}

/// What a slot's bytes are.
pub(crate) fn found(slot: &[u8]) -> Slot {
    if records::zero(slot) {
        return Slot::Free;
    }
    match records::slot(slot).filter(|record| records::in_form(slot, record)) {
        Some(record) => Slot::Record(record),
        None => Slot::OffForm,
    }
}
