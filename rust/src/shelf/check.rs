//! Whether a shelf is sound: its list and every part are, and in every kept version each part has the root that the list names.

use super::work::each;
use super::{Bytes, Shelf, ShelfError};
use crate::records::Record;
use crate::{Key, Place, Root};
use std::collections::{BTreeMap, BTreeSet};

/// A root that the list has for a part, from a version on and before another.
struct Named {
    root: Root,
    from: u32,
    until: Option<u32>,
}

impl Named {
    fn of(record: &Record, root: Root) -> Named {
        Named {
            root,
            from: record.version,
            until: record.retired_since,
        }
    }

    fn covers(&self, version: u32) -> bool {
        self.from <= version && self.until.is_none_or(|until| version < until)
    }
}

impl Shelf {
    /// Whether the shelf is sound. Refused: 3, and what of it is wrong ([`ShelfError`]).
    pub fn check(&self) -> Result<(), ShelfError> {
        let mut parts: BTreeMap<u16, Vec<Named>> = BTreeMap::new();
        for record in self.list.slots()?.iter().flatten() {
            if let Some((key, value)) = record.grant() {
                let part = self.part_named(key)?;
                let root = Root::from(<[u8; 32]>::from(value));
                parts.entry(part).or_default().push(Named::of(record, root));
            }
        }
        for part in self.files.keys() {
            parts.entry(*part).or_default();
        }
        let parts: Vec<_> = parts.into_iter().collect();
        each(&parts, self.progress, |(part, named)| {
            self.check_part(*part, named)
        })?;
        Ok(())
    }

    fn part_named(&self, key: Key) -> Result<u16, ShelfError> {
        let part = self.bits.part_of(key);
        match self.bits.list_key(part) == key {
            true => Ok(part),
            false => Err(ShelfError::OtherBits { key }),
        }
    }

    fn check_part(&self, part: u16, named: &[Named]) -> Result<(), ShelfError> {
        let Some(store) = self.part(part)? else {
            let version = named
                .first()
                .map_or(0, |named| named.from.max(self.header.oldest));
            return Err(ShelfError::LostPart { part, version });
        };
        let slots = store.slots().map_err(ShelfError::of(part))?;
        let mut keys = slots
            .iter()
            .flatten()
            .filter_map(Record::grant)
            .map(|(key, _)| key);
        if let Some(key) = keys.find(|key| self.bits.part_of(*key) != part) {
            return Err(ShelfError::Stray { part, key });
        }
        for version in self.turns(&slots, named) {
            self.same_root(part, &store, named, version)?;
        }
        self.check_name(part, &store)
    }

    /// The kept versions in which the part, or what the list names for it, may become another.
    fn turns(&self, slots: &[Option<Record>], named: &[Named]) -> BTreeSet<u32> {
        let (oldest, latest) = (self.header.oldest, self.header.latest);
        let roots = slots
            .iter()
            .flatten()
            .filter(|record| record.place == Place::EMPTY);
        let own = roots.flat_map(|root| [Some(root.version), root.retired_since]);
        let listed = named
            .iter()
            .flat_map(|named| [Some(named.from), named.until]);
        let turns = own.chain(listed).flatten().chain([oldest, latest]);
        turns
            .filter(|version| (oldest..=latest).contains(version))
            .collect()
    }

    fn same_root(
        &self,
        part: u16,
        store: &Bytes,
        named: &[Named],
        version: u32,
    ) -> Result<(), ShelfError> {
        let header = store.header().map_err(ShelfError::of(part))?;
        let at = version.min(header.latest);
        let wanted = named.iter().find(|named| named.covers(version));
        let wanted = wanted.map_or(Root::EMPTY, |named| named.root);
        // Before its first version it is empty.
        let own = match at < header.oldest {
            true => Root::EMPTY,
            false => store.root(at).map_err(ShelfError::of(part))?,
        };
        match own == wanted && header.latest <= self.header.latest {
            true => Ok(()),
            false => Err(ShelfError::OtherPart { part, version }),
        }
    }

    /// Whether the name of a part's file says what the file holds.
    pub(super) fn check_name(&self, part: u16, store: &Bytes) -> Result<(), ShelfError> {
        let of = ShelfError::of(part);
        let header = store.header().map_err(&of)?;
        let grants = store.count(header.latest).map_err(&of)?;
        match self.files.get(&part) {
            Some(file)
                if (file.latest, file.oldest, file.grants)
                    == (header.latest, header.oldest, grants) =>
            {
                Ok(())
            }
            _ => Err(ShelfError::OtherName { part }),
        }
    }
}
