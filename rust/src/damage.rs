//! Which records a damaged store misses, to tell a person. What a store is worth is the library's word: check, and the refusals of the reads. Here the
//! slots are looked at once more for their places and versions, which a refusal doesn't carry; nothing is promised of it.

use crate::records::{self, Body, Header, Place, Record};
use crate::{rescue, Found, Key, Slot, Store};
use std::collections::{BTreeMap, BTreeSet, HashSet};

/// A record that a kept version wants and that no slot in form is.
#[derive(Clone, Copy, Debug, PartialEq, Eq)]
pub struct Missing {
    pub place: Place,
    /// The record's version, as the record above it has it. None for a root: of it only is known that it lives in `wanted_in`.
    pub version: Option<u32>,
    /// Where it is spoilt, the lowest used slot, not in form, whose fields agree; none where it is lost.
    pub slot: Option<u32>,
    /// The newest kept version that wants it.
    pub wanted_in: u32,
}

/// What the way to a position met that can't be.
#[derive(Clone, Copy, Debug, PartialEq, Eq)]
pub enum Met {
    /// A record that is lost or spoilt.
    Missing(Missing),
    /// The counts lead to a child at this place, and the record above it has none.
    NoChild { place: Place },
    /// The counts lead to the leaf at this place with so many positions left over.
    LeftOver { place: Place, positions: u64 },
    /// The leaf at this place has a key that doesn't begin with it.
    Stray { place: Place },
}

/// What finding a node tells apart.
enum Sight {
    Matches(usize),
    Spoilt(u32),
    Nothing,
}

struct Slots {
    found: Found,
    /// The used slots that are not in form, their fields as they stand.
    spoilt: Vec<(u32, Record)>,
}

impl Slots {
    fn of(store: &[u8]) -> Slots {
        let found = Found::of(records::chunks(store).map(rescue::found).collect());
        let slots = records::chunks(store).zip(&found.slots).zip(0..);
        let spoilt = slots.filter(|((_, slot), _)| **slot == Slot::OffForm);
        let spoilt = spoilt.map(|((bytes, _), i)| (i, records::fields(bytes))).collect();
        Slots { found, spoilt }
    }

    fn record(&self, i: usize) -> Record {
        self.found.record(i).expect("in form")
    }

    fn sight(&self, found: Option<usize>, agrees: impl Fn(&Record) -> bool) -> Sight {
        let spoilt = || self.spoilt.iter().find(|(_, record)| agrees(record));
        match found {
            Some(i) => Sight::Matches(i),
            None => spoilt().map_or(Sight::Nothing, |(slot, _)| Sight::Spoilt(*slot)),
        }
    }

    fn node(&self, version: u32, place: Place) -> Sight {
        let found = self.found.lowest(version, place);
        self.sight(found, |record| {
            record.version == version && record.place == place
        })
    }

    fn root(&self, version: u32) -> Sight {
        let mut roots = self.found.roots();
        let found = roots.find(|(_, root)| root.stands_in(version));
        self.sight(found.map(|(i, _)| i), |record| {
            record.place == Place::EMPTY && record.stands_in(version)
        })
    }

    /// A child that stands in its slot, or how it is missing.
    fn step(&self, (version, place): (u32, Place), wanted_in: u32) -> Result<Record, Missing> {
        let missing = |slot| Missing {
            place,
            version: Some(version),
            slot,
            wanted_in,
        };
        match self.node(version, place) {
            Sight::Matches(i) => Ok(self.record(i)),
            Sight::Spoilt(slot) => Err(missing(Some(slot))),
            Sight::Nothing => Err(missing(None)),
        }
    }

    /// All that is missing below a record, each once, in the order of places.
    fn below(
        &self,
        top: usize,
        wanted_in: u32,
        seen: &mut HashSet<(u32, Place)>,
        missing: &mut Vec<Missing>,
    ) {
        let from = missing.len();
        let mut todo = vec![self.record(top)];
        while let Some(record) = todo.pop() {
            for child in record.children().into_iter().flatten() {
                if seen.insert(child) {
                    match self.step(child, wanted_in) {
                        Ok(below) => todo.push(below),
                        Err(one) => missing.push(one),
                    }
                }
            }
        }
        missing[from..].sort_by_key(|one| one.place);
    }

    /// The kept versions at which a record's life begins or ends, oldest first: those from one up to the next have the same root and the same records.
    fn turns(&self, header: Header) -> BTreeMap<u32, i64> {
        let mut turns = BTreeMap::from([(header.oldest, 0)]);
        let spoilt = self.spoilt.iter().map(|(_, record)| (*record, 0));
        let records = self.found.records().map(|(_, record)| (record, 1));
        for (record, one) in records.chain(spoilt) {
            let until = record.retired_since.unwrap_or(u32::MAX);
            if record.version <= header.latest && header.oldest < until && record.version < until {
                *turns.entry(record.version.max(header.oldest)).or_default() += one;
                if until <= header.latest {
                    *turns.entry(until).or_default() -= one;
                }
            }
        }
        turns
    }
}

pub(crate) fn missing(store: &[u8], header: Header) -> Vec<Missing> {
    let slots = Slots::of(store);
    let mut spans = vec![];
    let mut living = 0;
    for (first, more) in slots.turns(header) {
        living += more;
        spans.push((first, living));
    }
    let mut missing = vec![];
    let mut seen = HashSet::new();
    let mut roots = BTreeSet::new();
    let mut last = header.latest;
    // Whether the span after this one has lost its root too: it is said once.
    let mut lost = false;
    for (first, living) in spans.into_iter().rev() {
        let root = slots.root(first);
        let was_lost = std::mem::replace(&mut lost, false);
        let mut say = |slot| {
            missing.push(Missing {
                place: Place::EMPTY,
                version: None,
                slot,
                wanted_in: last,
            })
        };
        match root {
            Sight::Matches(i) if roots.insert(i) => slots.below(i, last, &mut seen, &mut missing),
            Sight::Matches(_) => {}
            Sight::Spoilt(slot) if roots.insert(slot as usize) => say(Some(slot)),
            Sight::Spoilt(_) => {}
            Sight::Nothing => {
                // An empty version has no root; one in which records live has lost it.
                lost = living > 0;
                if lost && !was_lost {
                    say(None);
                }
            }
        }
        last = first.wrapping_sub(1);
    }
    missing
}

/// What the way to a position meets first: at an inner record it goes left if the position is below the left count, else right with the rest.
pub(crate) fn met_at(store: &[u8], version: u32, position: u64) -> Option<Met> {
    let slots = Slots::of(store);
    let mut record = match slots.root(version) {
        Sight::Matches(i) => slots.record(i),
        Sight::Spoilt(slot) => {
            return Some(Met::Missing(Missing {
                place: Place::EMPTY,
                version: None,
                slot: Some(slot),
                wanted_in: version,
            }))
        }
        Sight::Nothing => return None,
    };
    let mut rest = position;
    if rest >= record.counted() {
        return None;
    }
    loop {
        let place = record.place;
        let left = match record.body {
            Body::Leaf { .. } if rest > 0 => {
                let positions = rest;
                return Some(Met::LeftOver { place, positions });
            }
            Body::Leaf { key, .. } => {
                return (!place.begins(key)).then_some(Met::Stray { place });
            }
            Body::Inner { counts, .. } => u64::from(counts[0]),
        };
        let right = rest >= left;
        if right {
            rest -= left;
        }
        let Some(child) = record.children()[usize::from(right)] else {
            let place = place.longer(right)?;
            return Some(Met::NoChild { place });
        };
        match slots.step(child, version) {
            Ok(below) => record = below,
            Err(missing) => return Some(Met::Missing(missing)),
        }
    }
}

/// The first that proving a key meets: on the way to it, to its left neighbour, to its right one.
pub(crate) fn missing_for(store: &[u8], version: u32, key: Key) -> Option<Missing> {
    let slots = Slots::of(store);
    let mut record = match slots.root(version) {
        Sight::Matches(i) => slots.record(i),
        Sight::Spoilt(slot) => {
            return Some(Missing {
                place: Place::EMPTY,
                version: None,
                slot: Some(slot),
                wanted_in: version,
            })
        }
        Sight::Nothing => return None,
    };
    let mut passed = vec![];
    loop {
        let side = key
            .as_bytes()
            .get(record.place.count() / 8)
            .is_some_and(|b| b >> (7 - record.place.count() % 8) & 1 == 1);
        passed.push((record, side));
        let Some(child) = record.children()[usize::from(side)] else {
            break;
        };
        match slots.step(child, version) {
            Ok(below) => record = below,
            Err(missing) => return Some(missing),
        }
    }
    let end = record.grant().map(|(found, _)| found);
    if end == Some(key) {
        return None;
    }
    for right in [false, true] {
        // The leaf where the way ended may be this neighbour.
        if end.is_some_and(|end| if right { end > key } else { end < key }) {
            continue;
        }
        let turn = passed.iter().rev().filter(|(_, side)| *side != right);
        let Some(mut child) = turn
            .filter_map(|(record, _)| record.children()[usize::from(right)])
            .next()
        else {
            continue;
        };
        loop {
            let below = match slots.step(child, version) {
                Ok(below) => below,
                Err(missing) => return Some(missing),
            };
            match below.children()[usize::from(!right)].or(below.children()[usize::from(right)]) {
                Some(next) => child = next,
                None => break,
            }
        }
    }
    None
}

impl<B: AsRef<[u8]>> Store<B> {
    /// Every record that a kept version wants and that no slot in form is, the newest version's first: for support, when [`Store::check`] gives 3. A
    /// version without a root is told where records live in it. Nothing is promised: a store may miss none and not be sound all the same. Refused: 1, 2.
    ///
    /// ```
    /// use grants::{Batch, Error, Store, HEADER_BYTES};
    ///
    /// let mut store = Store::with_capacity(4)?;
    /// let mut batch = Batch::new();
    /// batch.insert([0x00; 32], [7; 32]).unwrap().insert([0x80; 32], [8; 32]).unwrap();
    /// store.apply(3, &batch)?;
    /// assert_eq!(store.missing()?, []);
    /// let mut bytes = store.into_bytes();
    /// bytes[HEADER_BYTES] = 0;  // slot 0, the first leaf: its length
    /// let missing = Store::over(bytes).missing()?;
    /// assert_eq!(missing.len(), 1);
    /// assert_eq!(missing[0].place.to_string(), "0");
    /// assert_eq!((missing[0].version, missing[0].slot, missing[0].wanted_in), (Some(3), Some(0), 3));
    /// # Ok::<(), Error>(())
    /// ```
    pub fn missing(&self) -> Result<Vec<Missing>, crate::Error> {
        let header = self.header()?;
        Ok(missing(self.as_bytes(), header))
    }

    /// The first record that is missing on the way to a key in a kept version, then to its neighbours: which one a read was refused for with 17, or with 3
    /// and a slot. None where none is missing.
    pub fn missing_for(&self, version: u32, key: impl Into<Key>) -> Option<Missing> {
        let header = self.header().ok()?;
        let kept = header.oldest <= version && version <= header.latest;
        kept.then(|| missing_for(self.as_bytes(), version, key.into()))?
    }

    /// What the way to a position of a kept version meets first that can't be: what [`Store::at`] was refused for with 17 or 3. None where it meets
    /// nothing such, so also where the position isn't below the number.
    ///
    /// ```
    /// use grants::{Batch, Error, Met, Store, HEADER_BYTES, SLOT_BYTES};
    ///
    /// let mut store = Store::with_capacity(3)?;
    /// let mut batch = Batch::new();
    /// batch.insert([0x00; 32], [7; 32]).unwrap().insert([0x80; 32], [8; 32]).unwrap();
    /// store.apply(1, &batch)?;
    /// assert_eq!(store.met_at(1, 1), None);
    /// let mut bytes = store.into_bytes();
    /// bytes[HEADER_BYTES + 2 * SLOT_BYTES + 124] = 2;  // slot 2, the root: its right count
    /// let store = Store::over(bytes);
    /// assert_eq!((store.count(1)?, store.at(1, 2)), (3, Err(Error::Unsound)));
    /// let Some(Met::LeftOver { place, positions: 1 }) = store.met_at(1, 2) else { panic!() };
    /// assert_eq!(place.to_string(), "1");
    /// # Ok::<(), Error>(())
    /// ```
    pub fn met_at(&self, version: u32, position: u64) -> Option<Met> {
        let header = self.header().ok()?;
        let kept = header.oldest <= version && version <= header.latest;
        kept.then(|| met_at(self.as_bytes(), version, position))?
    }
}
