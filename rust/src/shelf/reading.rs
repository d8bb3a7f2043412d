//! Reads: the list says which root a part has in a version, and what a part's file says is used only where it has that root.

use super::proof::{records, shelf_verify};
use super::work::each;
use super::{Shelf, ShelfError};
use crate::changes::Changes;
use crate::figures::{Figures, RangeFigures};
use crate::records::Record;
use crate::{
    Error, Finding, Header, Key, Lookup, Palette, Proof, Root, Store, Value, MOST_VISITS, PALETTE_KEYS,
};
use std::collections::BTreeMap;

/// A part in a version of the shelf: its store, and the version of its own that the shelf's reads as.
#[derive(Debug)]
pub struct PartAt {
    pub part: u16,
    pub store: Store<Vec<u8>>,
    pub version: u32,
}

/// The grants of records, those of a version.
pub(super) fn grants(slots: &[Option<Record>], version: u32) -> BTreeMap<Key, Value> {
    let standing = slots
        .iter()
        .flatten()
        .filter(|record| record.stands_in(version));
    standing.filter_map(Record::grant).collect()
}

impl Shelf {
    /// The root of a version: the one hash that is signed. Refused: 8, 3.
    pub fn root(&self, version: u32) -> Result<Root, ShelfError> {
        Ok(self.lookup.root(&self.list, version)?)
    }

    /// The root that the list has for a part in a version, none where the part has no grant there. Refused: 8, 3 or 17.
    pub fn part_root(&self, version: u32, part: u16) -> Result<Option<Root>, ShelfError> {
        let list_key = self.bits.list_key(part);
        let value = self.lookup.get(&self.list, version, list_key)?;
        Ok(value.map(|value| Root::from(<[u8; 32]>::from(value))))
    }

    /// A part's store, if in this version it has the root that is given, or none of it where it has no file and is empty.
    pub(super) fn part_with(
        &self,
        part: u16,
        version: u32,
        root: Option<Root>,
    ) -> Result<Option<PartAt>, ShelfError> {
        let Some(store) = self.part(part)? else {
            return match root {
                None => Ok(None),
                Some(_) => Err(ShelfError::LostPart { part, version }),
            };
        };
        let of = ShelfError::of(part);
        let header = store.header().map_err(&of)?;
        let at = version.min(header.latest);
        // Before its first version it is empty.
        let own = match at < header.oldest {
            true => Root::EMPTY,
            false => store.root(at).map_err(&of)?,
        };
        match own == root.unwrap_or(Root::EMPTY) {
            true => Ok(Some(PartAt {
                part,
                store,
                version: at,
            })),
            false => Err(ShelfError::OtherPart { part, version }),
        }
    }

    /// A part in a version; none where it holds no grant there, and then its file isn't read.
    pub fn part_at(&self, version: u32, part: u16) -> Result<Option<PartAt>, ShelfError> {
        match self.part_root(version, part)? {
            None => Ok(None),
            root => self.part_with(part, version, root),
        }
    }

    /// Every part that the list names in a version, with its root, in the order of keys. Refused: 3 (the list isn't sound), 8.
    pub fn parts(&self, version: u32) -> Result<Vec<(u16, Root)>, ShelfError> {
        let slots = self.list.slots()?;
        self.root(version)?;
        let named = grants(&slots, version).into_iter();
        named
            .map(|(key, root)| {
                let part = self.bits.part_of(key);
                match self.bits.list_key(part) == key {
                    true => Ok((part, Root::from(<[u8; 32]>::from(root)))),
                    false => Err(ShelfError::OtherBits { key }),
                }
            })
            .collect()
    }

    /// What the work gives for each part that has a grant in a version, in the order of keys; as many at once as there are cores.
    pub fn each_part<T: Send>(
        &self,
        version: u32,
        work: impl Fn(&PartAt) -> Result<T, Error> + Sync,
    ) -> Result<Vec<T>, ShelfError> {
        each(
            &self.parts(version)?,
            self.progress,
            |(part, root)| match self.part_with(*part, version, Some(*root))? {
                Some(at) => work(&at).map_err(ShelfError::of(*part)),
                None => Err(ShelfError::LostPart {
                    part: *part,
                    version,
                }),
            },
        )
    }

    /// A part in the latest version, whether or not it holds a grant there, with all that the shelf keeps of it; none where it has no file.
    pub fn newest(&self, part: u16) -> Result<Option<PartAt>, ShelfError> {
        let Header { latest, oldest, .. } = self.header;
        let at = self.part_with(part, latest, self.part_root(latest, part)?)?;
        let own = at.as_ref().map(|at| at.store.header()).transpose();
        // One that was pruned since the shelf was opened has less.
        match own.map_err(ShelfError::of(part))? {
            Some(own) if own.oldest > oldest => Err(ShelfError::OtherPart { part, version: oldest }),
            _ => Ok(at),
        }
    }

    /// The same for who changes it: nothing is built on a part that is newer than the list, or whose name says something else than it holds, which is what a publishing counts by.
    pub(super) fn newest_to_change(&self, part: u16) -> Result<Option<PartAt>, ShelfError> {
        let version = self.header.latest;
        let Some(at) = self.newest(part)? else {
            return Ok(None);
        };
        let header = at.store.header().map_err(ShelfError::of(part))?;
        if header.latest > version {
            return Err(ShelfError::OtherPart { part, version });
        }
        self.check_name(part, &at.store)?;
        Ok(Some(at))
    }

    /// What the work gives for each part that has a file, in the order of keys.
    pub fn each_file<T: Send>(
        &self,
        work: impl Fn(&PartAt) -> Result<T, Error> + Sync,
    ) -> Result<Vec<T>, ShelfError> {
        let parts: Vec<u16> = self.files.keys().copied().collect();
        let version = self.header.latest;
        each(&parts, self.progress, |part| match self.newest(*part)? {
            Some(at) => work(&at).map_err(ShelfError::of(*part)),
            None => Err(ShelfError::LostPart {
                part: *part,
                version,
            }),
        })
    }

    fn part_of(&self, key: &[u8]) -> Result<u16, ShelfError> {
        let key: [u8; 32] = key.try_into().map_err(|_| Error::NotThirtyTwoBytes)?;
        Ok(self.bits.part_of(Key::from(key)))
    }

    /// A key in a version: its value, or none where it is absent. Refused: 12, 8, 3 or 17.
    pub fn get(&self, version: u32, key: impl AsRef<[u8]>) -> Result<Option<Value>, ShelfError> {
        let part = self.part_of(key.as_ref())?;
        match self.part_at(version, part)? {
            None => Ok(None),
            Some(at) => at.store.get(at.version, key).map_err(ShelfError::of(part)),
        }
    }

    /// The proof that a key is in a version, or that it isn't, for [`shelf_verify`](super::shelf_verify). Refused: 12, 8, 14 (the shelf holds no grant), 3 or 17.
    pub fn prove(&self, version: u32, key: impl AsRef<[u8]>) -> Result<Proof, ShelfError> {
        let key: [u8; 32] = key
            .as_ref()
            .try_into()
            .map_err(|_| Error::NotThirtyTwoBytes)?;
        self.palette(version, &[Key::from(key)])
            .map(|proofs| Proof::from_bytes(proofs.into_bytes()))
    }

    /// The same within the pocket profile: each leaf that either record shows has at most 32 steps. Refused: 12, 8, 14, 3 or 17, 19.
    pub fn prove_pocket(&self, version: u32, key: impl AsRef<[u8]>) -> Result<Proof, ShelfError> {
        let part = self.part_of(key.as_ref())?;
        let list_key = self.bits.list_key(part);
        let mut proof = self.list.prove_pocket(version, list_key)?.into_bytes();
        if let Some(at) = self.part_at(version, part)? {
            let second = at.store.prove_pocket(at.version, key);
            proof.extend(second.map_err(ShelfError::of(part))?.into_bytes());
        }
        Ok(Proof::from_bytes(proof))
    }

    /// What a proof for a key of a version is worth to whom has the shelf too, as [`Store::finding`] says it of a store's: the first record is held against the list, and where it
    /// tells the truth and there is a second one, that against the part. Refused: 12, 3, 8, 14, 10, 11.
    pub fn finding(
        &self,
        version: u32,
        key: impl AsRef<[u8]>,
        proof: impl AsRef<[u8]>,
    ) -> Result<Finding, ShelfError> {
        let part = self.part_of(key.as_ref())?;
        // In form, and accepted against the list's root; then the two are held against their stores one by one.
        shelf_verify(self.root(version)?, self.bits.get(), &key, &proof)?;
        let (first, second) = records(proof.as_ref());
        let of_list = self.list.finding(version, self.bits.list_key(part), first)?;
        if of_list != Finding::Truth || second.is_empty() {
            return Ok(of_list);
        }
        let Some(at) = self.part_at(version, part)? else {
            return Err(ShelfError::LostPart { part, version });
        };
        let of_part = at.store.finding(at.version, key, second);
        of_part.map_err(ShelfError::of(part))
    }

    /// The proofs for several keys of a version, in the order asked, each as [`Shelf::prove`] gives it; a part is read once. Refused: 12 (more than
    /// [`PALETTE_KEYS`]), 8, 14, 3 or 17.
    pub fn palette(&self, version: u32, keys: &[Key]) -> Result<Palette, ShelfError> {
        if keys.len() > PALETTE_KEYS {
            return Err(Error::NotThirtyTwoBytes.into());
        }
        let mut asked: BTreeMap<u16, Vec<usize>> = BTreeMap::new();
        for (i, key) in keys.iter().enumerate() {
            asked.entry(self.bits.part_of(*key)).or_default().push(i);
        }
        let asked: Vec<_> = asked.into_iter().collect();
        let proofs = each(&asked, self.progress, |(part, wanted)| {
            let keys: Vec<Key> = wanted.iter().map(|i| keys[*i]).collect();
            let proofs = self.proofs(version, *part, &keys)?;
            Ok::<_, ShelfError>(wanted.iter().copied().zip(proofs).collect::<Vec<_>>())
        })?;
        let mut proofs: Vec<(usize, Vec<u8>)> = proofs.into_iter().flatten().collect();
        proofs.sort_by_key(|(i, _)| *i);
        let bytes: Vec<u8> = proofs.into_iter().flat_map(|(_, proof)| proof).collect();
        Ok(Palette::from_bytes(bytes))
    }

    /// The proofs of keys of one part: the list's record, then the part's where the part is in the list.
    fn proofs(&self, version: u32, part: u16, keys: &[Key]) -> Result<Vec<Vec<u8>>, ShelfError> {
        let list_key = self.bits.list_key(part);
        let first = self.lookup.prove(&self.list, version, list_key)?;
        let first = first.into_bytes();
        let Some(at) = self.part_at(version, part)? else {
            return Ok(vec![first; keys.len()]);
        };
        let row = Lookup::new()
            .palette(&at.store, at.version, keys)
            .map_err(ShelfError::of(part))?;
        Ok(row
            .proofs()
            .map(|second| [&first, second].concat())
            .collect())
    }

    /// How many grants a version has: those of its parts. Refused: 3, 8.
    pub fn count(&self, version: u32) -> Result<u64, ShelfError> {
        let counts = self.each_part(version, |at| at.store.count(at.version))?;
        Ok(counts.into_iter().sum())
    }

    /// The grants of a version from one position to before another, 0 the least key; fewer where there are fewer. Refused: 3 or 17, 8.
    pub fn range(&self, version: u32, from: u64, to: u64) -> Result<Vec<(Key, Value)>, ShelfError> {
        let mut grants = vec![];
        let mut before = 0;
        for (part, root) in self.parts(version)? {
            let Some(at) = self
                .part_with(part, version, Some(root))?
                .filter(|_| before < to)
            else {
                break;
            };
            let of = ShelfError::of(part);
            let count = at.store.count(at.version).map_err(&of)?;
            let inside = from.saturating_sub(before)..count.min(to - before);
            for position in inside {
                grants.push(at.store.at(at.version, position).map_err(&of)?);
            }
            before += count;
        }
        Ok(grants)
    }

    /// The grant at a position of a version. Refused: 3 or 17, 8, 20.
    pub fn at(&self, version: u32, position: u64) -> Result<(Key, Value), ShelfError> {
        let found = self.range(version, position, position.saturating_add(1))?;
        found.first().copied().ok_or(Error::NoSuchPosition.into())
    }

    /// The grants of a version, in key order. Each part is checked. Refused: 3, 8.
    pub fn grants(&self, version: u32) -> Result<Vec<(Key, Value)>, ShelfError> {
        let each = self.each_part(version, |at| {
            Ok(grants(&at.store.slots()?, at.version)
                .into_iter()
                .collect::<Vec<_>>())
        })?;
        Ok(each.into_iter().flatten().collect())
    }

    /// What changed from one kept version to another, as [`Store::changes`] has it; the limit holds for each part. Refused: 3, 8, 13.
    pub fn changes(&self, first: u32, second: u32, limit: u32) -> Result<Changes, ShelfError> {
        let parts = self.list.changes(first, second, MOST_VISITS)?;
        let parts: Vec<Key> = parts.iter().map(|change| change.key()).collect();
        let each = each(&parts, self.progress, |key| {
            let part = self.bits.part_of(*key);
            self.part_changes(part, first, second, limit)
        })?;
        Ok(Changes::of(each.concat()))
    }

    fn part_changes(
        &self,
        part: u16,
        first: u32,
        second: u32,
        limit: u32,
    ) -> Result<Vec<u8>, ShelfError> {
        let now = self.part_with(part, second, self.part_root(second, part)?)?;
        let Some(now) = now else {
            return Err(ShelfError::LostPart {
                part,
                version: second,
            });
        };
        let was = self.part_with(part, first, self.part_root(first, part)?)?;
        let was = was.map_or(0, |was| was.version);
        let changes = now
            .store
            .changes(was, now.version, limit)
            .map_err(ShelfError::of(part))?;
        Ok(changes.as_bytes().to_vec())
    }

    /// The figures of the kept versions from first to last: those of all parts together, each grant's path with the steps that it has in the list. The list's own
    /// records aren't counted. Refused: 3, 8.
    pub fn figures(&self, first: u32, last: u32) -> Result<RangeFigures, ShelfError> {
        let own = self.list.figures(first, last)?;
        let versions = own.each.len();
        let files: Vec<u16> = self.files.keys().copied().collect();
        let depths = self.depths()?;
        let each = each(&files, self.progress, |part| {
            self.part_figures(*part, first, last)
        })?;
        let mut sum = RangeFigures {
            first,
            each: vec![Figures::default(); versions],
            distinct: 0,
            records: 0,
        };
        for (part, figures) in files.iter().zip(each) {
            sum.distinct = sum.distinct.saturating_add(figures.distinct);
            for (i, version) in (first..=last).enumerate() {
                let Some(one) = figures.of(version.min(figures.last())) else {
                    continue;
                };
                let depth = depths.get(part).map_or(0, |lives| depth_at(lives, version));
                add(&mut sum.each[i], one, depth);
                sum.records = sum.records.saturating_add(one.records());
            }
        }
        Ok(sum)
    }

    /// A part's figures of the versions that the shelf's range reads as.
    fn part_figures(&self, part: u16, first: u32, last: u32) -> Result<RangeFigures, ShelfError> {
        let root = self.part_root(last, part)?;
        let Some(at) = self.part_with(part, last, root)? else {
            return Err(ShelfError::LostPart {
                part,
                version: last,
            });
        };
        let from = first.min(at.version);
        at.store
            .figures(from, at.version)
            .map_err(ShelfError::of(part))
    }

    /// How many steps each part has in the list, by the versions from which and before which.
    fn depths(&self) -> Result<BTreeMap<u16, Vec<(u32, Option<u32>, u32)>>, ShelfError> {
        let mut depths: BTreeMap<u16, Vec<_>> = BTreeMap::new();
        for record in self.list.slots()?.iter().flatten() {
            if let Some((key, _)) = record.grant() {
                let lives = depths.entry(self.bits.part_of(key)).or_default();
                lives.push((
                    record.version,
                    record.retired_since,
                    record.place.count() as u32,
                ));
            }
        }
        Ok(depths)
    }
}

impl RangeFigures {
    fn last(&self) -> u32 {
        self.first + (self.each.len() as u32).saturating_sub(1)
    }
}

fn depth_at(lives: &[(u32, Option<u32>, u32)], version: u32) -> u32 {
    let mut standing = lives
        .iter()
        .filter(|(from, until, _)| *from <= version && until.is_none_or(|until| version < until));
    standing.next().map_or(0, |(_, _, depth)| *depth)
}

fn add(sum: &mut Figures, one: Figures, depth: u32) {
    sum.leaves = sum.leaves.saturating_add(one.leaves);
    sum.inner_nodes = sum.inner_nodes.saturating_add(one.inner_nodes);
    if one.leaves > 0 {
        sum.longest_path = sum.longest_path.max(one.longest_path + depth);
    }
    sum.path_sum = sum
        .path_sum
        .saturating_add(one.path_sum)
        .saturating_add(one.leaves.saturating_mul(depth));
}
