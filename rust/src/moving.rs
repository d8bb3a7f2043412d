//! Stores of the old form, whose slots have 120 bytes and no counts, moved over into the form of today, and back.

use crate::form::{old_store_bytes, store_bytes, HEADER_BYTES, MOST_SLOTS, OLD_SLOT_BYTES, SLOT_BYTES};
use crate::{ffi, Error, Store};

/// How many slots these bytes are, as slots of this size; one too many is refused as any larger number is, and takes little memory.
fn slots(bytes: &[u8], size: usize) -> u32 {
    let many = bytes.len().saturating_sub(HEADER_BYTES) / size;
    many.min(MOST_SLOTS as usize + 1) as u32
}

impl<B: AsRef<[u8]>> Store<B> {
    /// This store of the old form, moved over: slots, versions, roots, reads and proofs as they were, and the counts of its inner records with them.
    /// Refused: 1, 2, 3, by the old form.
    ///
    /// ```
    /// use grants::{Batch, Error, Store};
    ///
    /// let mut store = Store::with_capacity(4)?;
    /// let mut batch = Batch::new();
    /// batch.insert([1; 32], [7; 32]).unwrap();
    /// let root = store.apply(1, &batch)?.root;
    ///
    /// // Back into the old form, and over again: the same bytes.
    /// let old = store.move_back()?;
    /// assert!(Store::over(&old[..]).is_old_form());
    /// let again = Store::over(old).move_over()?;
    /// assert_eq!(again.root(1)?, root);
    /// assert_eq!(again.as_bytes(), store.as_bytes());
    /// # Ok::<(), Error>(())
    /// ```
    pub fn move_over(&self) -> Result<Store<Vec<u8>>, Error> {
        let source = self.as_bytes();
        let mut target = vec![0; store_bytes(slots(source, OLD_SLOT_BYTES))];
        ffi::over(source, &mut target)?;
        Ok(Store::over(target))
    }

    /// The bytes of this store in the old form. Refused: 1, 2, 3.
    pub fn move_back(&self) -> Result<Vec<u8>, Error> {
        let source = self.as_bytes();
        let mut target = vec![0; old_store_bytes(slots(source, SLOT_BYTES))];
        ffi::back(source, &mut target)?;
        Ok(target)
    }
}
