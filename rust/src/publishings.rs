//! Which publishings a store keeps, by its root records.

use crate::{Error, Header, Place, Record, Store};
use std::collections::{BTreeMap, BTreeSet};

/// Kept versions that read alike: a publishing up to the version before the next one.
#[derive(Clone, Copy, Debug, PartialEq, Eq)]
pub struct Publishing {
    pub first: u32,
    pub last: u32,
    /// The number of its root's record, which is before the first where that is the oldest kept version; none where it holds nothing, but the first one where something stood
    /// before.
    pub published: Option<u32>,
}

/// The kept versions of a sound store as publishings. One is found by its root's record, one that left nothing by the end of the root before it; latest is one too, and so are the
/// numbers that someone else knows of. No number in between is looked at: thousands of millions may lie there.
pub fn publishings(
    header: Header,
    slots: &[Option<Record>],
    known: impl IntoIterator<Item = u32>,
) -> Vec<Publishing> {
    let roots = || {
        slots
            .iter()
            .flatten()
            .filter(|record| record.place == Place::EMPTY)
    };
    let ends = roots()
        .flat_map(|root| [Some(root.version), root.retired_since])
        .flatten();
    let kept = |version: &u32| header.oldest <= *version && *version <= header.latest;
    let firsts: BTreeSet<u32> = [header.oldest, header.latest]
        .into_iter()
        .chain(ends)
        .chain(known)
        .filter(kept)
        .collect();
    let mut begins: BTreeMap<u32, u32> = BTreeMap::new();
    for root in roots() {
        begins.insert(root.version.max(header.oldest), root.version);
    }
    let lasts = firsts
        .iter()
        .skip(1)
        .map(|next| next - 1)
        .chain([header.latest]);
    firsts
        .iter()
        .zip(lasts)
        .map(|(&first, last)| Publishing {
            first,
            last,
            published: begins
                .get(&first)
                .copied()
                .or((first > header.oldest).then_some(first)),
        })
        .collect()
}

impl<B: AsRef<[u8]>> Store<B> {
    /// The publishings that the store keeps, oldest first. Refused: 1, 2, 3.
    ///
    /// ```
    /// use grants::{Batch, Error, Store};
    ///
    /// let mut store = Store::with_capacity(20)?;
    /// let mut batch = Batch::new();
    /// batch.insert([1; 32], [7; 32]).unwrap();
    /// store.apply(3, &batch)?;
    /// store.apply(9, &Batch::new())?;
    /// let firsts: Vec<(u32, u32)> = store.publishings()?.iter().map(|one| (one.first, one.last)).collect();
    /// assert_eq!(firsts, [(0, 2), (3, 8), (9, 9)]);
    /// # Ok::<(), Error>(())
    /// ```
    pub fn publishings(&self) -> Result<Vec<Publishing>, Error> {
        let slots = self.slots()?;
        Ok(publishings(self.header()?, &slots, []))
    }
}
