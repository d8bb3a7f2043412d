//! Rescue from two damaged copies of one store, each with what the other lost. Here records are picked from both; what comes of it is judged by the library alone, as it judges each
//! copy by itself, and the longest run is taken.

use crate::form::{HEADER_BYTES, SLOT_BYTES};
use crate::publishings::publishings;
use crate::{Body, Found, Place, Record, Rescued, Root, Slot, Store};
use std::collections::{BTreeMap, HashMap, HashSet};

type Bytes = Store<Vec<u8>>;

/// A record in form of one of the copies.
#[derive(Clone, Copy)]
struct Held {
    record: Record,
    hash: [u8; 32],
    /// Whether it is of the copy that is filled up, and its slot there.
    own: bool,
    slot: usize,
}

/// The records in form of both copies. A version and place may have several, of which the hash in the record above tells the true one.
struct Pool {
    held: Vec<Held>,
    by: HashMap<(u32, Place), Vec<usize>>,
    /// How many grants the tree below a record has, if it is whole.
    whole: HashMap<usize, Option<u64>>,
}

impl Pool {
    /// The own copy's records come first.
    fn of(own: &[Slot], other: &[Slot]) -> Pool {
        let mut pool = Pool {
            held: vec![],
            by: HashMap::new(),
            whole: HashMap::new(),
        };
        for (slots, own) in [(own, true), (other, false)] {
            for (slot, found) in slots.iter().enumerate() {
                if let Slot::Record(record) = *found {
                    let (hash, at) = (record.hash(), (record.version, record.place));
                    pool.by.entry(at).or_default().push(pool.held.len());
                    pool.held.push(Held { record, hash, own, slot });
                }
            }
        }
        pool
    }

    /// The records that may be a child of this one, by what it says of it; none on a side without a child.
    fn children(&self, i: usize) -> [Option<Vec<usize>>; 2] {
        let record = self.held[i].record;
        let Body::Inner { left, right, .. } = record.body else {
            return [None, None];
        };
        [(left, false), (right, true)].map(|(child, side)| {
            let (child, place) = (child?, record.place.longer(side)?);
            let there = self.by.get(&(child.version, place)).into_iter().flatten();
            Some(there.copied().filter(|j| self.held[*j].hash == child.hash).collect())
        })
    }

    /// How many grants are at and below a record whose tree is whole. A child's place is longer than its parent's, so this ends.
    fn grants(&mut self, i: usize) -> Option<u64> {
        if let Some(known) = self.whole.get(&i) {
            return *known;
        }
        let record = self.held[i].record;
        let grants = match record.body {
            Body::Leaf { key, .. } => record.place.begins(key).then_some(1),
            Body::Inner { counts, .. } => {
                let sides = self.children(i);
                let below = [self.side(sides[0].as_deref(), counts[0]), self.side(sides[1].as_deref(), counts[1])];
                match below {
                    [Some(_), Some(_)] => Some(u64::from(counts[0]) + u64::from(counts[1])),
                    _ => None,
                }
            }
        };
        self.whole.insert(i, grants);
        grants
    }

    /// The child that is whole and has as many grants as are counted; none of it on a side that has none.
    fn side(&mut self, children: Option<&[usize]>, count: u32) -> Option<Option<usize>> {
        match children {
            None => (count == 0).then_some(None),
            Some(children) => {
                let fits = |pool: &mut Pool, j: usize| pool.grants(j) == Some(u64::from(count));
                children.iter().copied().find(|j| fits(self, *j)).map(Some)
            }
        }
    }

    /// The records of a whole tree.
    fn tree(&mut self, root: usize) -> Vec<usize> {
        let (mut tree, mut todo) = (vec![], vec![root]);
        while let Some(i) = todo.pop() {
            tree.push(i);
            if let Body::Inner { counts, .. } = self.held[i].record.body {
                let sides = self.children(i);
                for (side, count) in sides.iter().zip(counts) {
                    todo.extend(self.side(side.as_deref(), count).flatten());
                }
            }
        }
        tree
    }

    /// The root records by version, those of the own copy first; the signed one of the latest version before them.
    fn roots(&self, latest: u32, signed: Option<Root>) -> BTreeMap<u32, Vec<usize>> {
        let mut roots: BTreeMap<u32, Vec<usize>> = BTreeMap::new();
        for ((version, place), there) in &self.by {
            if *place == Place::EMPTY && *version <= latest {
                roots.insert(*version, there.clone());
            }
        }
        if let (Some(signed), Some((_, newest))) = (signed, roots.iter_mut().next_back()) {
            newest.sort_by_key(|i| self.held[*i].hash != *signed.as_bytes());
        }
        roots
    }

    /// One record for each version and place: those of the whole trees, the newest first, and the root records of the others, so that no version reads as an older one.
    fn picked(&mut self, latest: u32, signed: Option<Root>) -> HashMap<(u32, Place), usize> {
        let mut picked: HashMap<(u32, Place), usize> = HashMap::new();
        for (version, roots) in self.roots(latest, signed).into_iter().rev() {
            let whole = roots.iter().copied().find(|i| self.grants(*i).is_some());
            let Some(root) = whole else {
                picked.insert((version, Place::EMPTY), roots[0]);
                continue;
            };
            for i in self.tree(root) {
                let record = self.held[i].record;
                picked.entry((record.version, record.place)).or_insert(i);
            }
        }
        picked
    }
}

/// A copy filled up from another: its bytes, and which of its slots have which slots of the other one.
#[derive(Debug)]
pub struct Filled {
    pub store: Store<Vec<u8>>,
    pub taken: BTreeMap<usize, usize>,
}

fn slot_bytes(store: &[u8], slot: usize) -> &[u8] {
    let at = HEADER_BYTES + slot * SLOT_BYTES;
    &store[at..at + SLOT_BYTES]
}

/// Where records of another copy may go: no slot of use is written.
struct Room {
    found: Found,
    /// The slots whose records stay, and those that were given away.
    kept: HashSet<usize>,
    /// The others, those to be given last first.
    rest: Vec<usize>,
}

impl Room {
    fn of(slots: Vec<Slot>, kept: HashSet<usize>) -> Room {
        let mut rest: Vec<usize> = (0..slots.len()).rev().collect();
        rest.sort_by_key(|i| match slots[*i] {
            Slot::Record(_) => 0,
            Slot::OffForm => 1,
            Slot::Free => 2,
        });
        let found = Found::of(slots);
        Room { found, kept, rest }
    }

    /// The slot for a record. The lowest one of a version and place counts, so a false record there makes way; else where it was in the other copy, if that is lost here; else any.
    fn give(&mut self, held: &Held) -> Option<usize> {
        let own = self.found.lowest(held.record.version, held.record.place);
        let there = self.found.slots.get(held.slot);
        let same = Some(held.slot).filter(|_| matches!(there, Some(Slot::Free | Slot::OffForm)));
        let mut given = [own, same].into_iter().flatten().find(|i| !self.kept.contains(i));
        while given.is_none() {
            given = Some(self.rest.pop()?).filter(|i| !self.kept.contains(i));
        }
        self.kept.extend(given);
        given
    }
}

/// What a rescue from two copies gave: it is what the library made of `source`, which is one of them, filled up from the other where that made the run longer.
#[derive(Debug)]
pub struct RescuedFromTwo {
    pub store: Store<Vec<u8>>,
    pub what: Rescued,
    pub source: Store<Vec<u8>>,
    /// Whether it is the other copy that was filled up.
    pub from_other: bool,
    /// Which slots of the source have which slots of the copy that it isn't.
    pub taken: BTreeMap<usize, usize>,
}

/// Whether every version that a copy has alone has the same root in what was rescued of both: the other copy may add to it and contradicts it in nothing.
fn agrees(rescued: &Bytes, alone: &Bytes) -> bool {
    let (Ok(header), Ok(slots)) = (alone.header(), alone.slots()) else {
        return true;
    };
    publishings(header, &slots, []).iter().all(|one| match rescued.root(one.first) {
        Ok(root) => alone.root(one.first) == Ok(root),
        Err(_) => true,
    })
}

impl<B: AsRef<[u8]>> Store<B> {
    fn copied(&self) -> Bytes {
        Store::over(self.as_bytes().to_vec())
    }

    /// This copy of a store with what it lost and another one has, for a rescue that ends at a version: the records of the trees that are whole in both together. None where it has no room
    /// for them, or either has no store's length. What it is worth, [`Store::rescue`] says.
    pub fn filled_from<C: AsRef<[u8]>>(
        &self,
        other: &Store<C>,
        latest: u32,
        signed: Option<Root>,
    ) -> Option<Filled> {
        let (slots, others) = (self.slots_found().ok()?, other.slots_found().ok()?);
        let mut pool = Pool::of(&slots, &others);
        let picked = pool.picked(latest, signed);
        let picked: Vec<Held> = picked.values().map(|i| pool.held[*i]).collect();
        let stay = picked.iter().filter(|held| held.own).map(|held| held.slot);
        let mut room = Room::of(slots, stay.collect());
        let mut wanted: Vec<&Held> = picked.iter().filter(|held| !held.own).collect();
        wanted.sort_by_key(|held| held.slot);
        let mut bytes = self.as_bytes().to_vec();
        let mut taken = BTreeMap::new();
        for held in wanted {
            let slot = room.give(held)?;
            let to = HEADER_BYTES + slot * SLOT_BYTES;
            bytes[to..to + SLOT_BYTES].copy_from_slice(slot_bytes(other.as_bytes(), held.slot));
            taken.insert(slot, held.slot);
        }
        let store = Store::over(bytes);
        Some(Filled { store, taken })
    }

    /// The longest run that [`Store::rescue`] gives of this copy, of another one, or of either filled up from the other; of equal ones that which takes the least from the other. Where this
    /// copy alone gives a run, every version of it keeps its root, unless `signed` is another one for `latest`. None where no run has the signed root, or there is none.
    ///
    /// ```
    /// use grants::{Batch, Error, Store, HEADER_BYTES, SLOT_BYTES};
    ///
    /// let mut store = Store::with_capacity(8)?;
    /// let mut batch = Batch::new();
    /// batch.insert([0x00; 32], [7; 32]).unwrap().insert([0x80; 32], [8; 32]).unwrap();
    /// let signed = store.apply(1, &batch)?.root;
    /// let slot = |i: usize| HEADER_BYTES + i * SLOT_BYTES..HEADER_BYTES + (i + 1) * SLOT_BYTES;
    ///
    /// // Two copies that have lost a slot each.
    /// let (mut one, mut two) = (store.as_bytes().to_vec(), store.as_bytes().to_vec());
    /// one[slot(0)].fill(0);
    /// two[slot(1)].fill(0xff);
    /// let (one, two) = (Store::over(one), Store::over(two));
    /// assert!(one.rescue(1, 1).is_err() && two.rescue(1, 1).is_err());
    ///
    /// let both = one.rescue_with(&two, 1, 1, Some(signed)).unwrap();
    /// assert_eq!(both.store.root(1)?, signed);
    /// assert_eq!(both.taken, [(0, 0)].into());
    /// # Ok::<(), Error>(())
    /// ```
    pub fn rescue_with<C: AsRef<[u8]>>(
        &self,
        other: &Store<C>,
        oldest: u32,
        latest: u32,
        signed: Option<Root>,
    ) -> Option<RescuedFromTwo> {
        let plain = |store| Filled { store, taken: BTreeMap::new() };
        let own = Some((false, Some(plain(self.copied()))));
        let others = (0..3).map(|n| match n {
            0 => (false, self.filled_from(other, latest, signed)),
            1 => (true, other.filled_from(self, latest, signed)),
            _ => (true, Some(plain(other.copied()))),
        });
        let (mut alone, mut best) = (None, None::<RescuedFromTwo>);
        for (n, (from_other, one)) in own.into_iter().chain(others).enumerate() {
            let Some(Filled { store: source, taken }) = one else {
                continue;
            };
            let Ok((store, what)) = source.rescue(oldest, latest) else {
                continue;
            };
            // What was signed for the latest version counts for more than what this copy says of it.
            let is_signed = signed.is_none_or(|signed| store.root(latest) == Ok(signed));
            if n == 0 && is_signed {
                alone = Some(store.copied());
            }
            let agrees = alone.as_ref().is_none_or(|alone| agrees(&store, alone));
            if is_signed && agrees && best.as_ref().is_none_or(|best| what.first < best.what.first) {
                best = Some(RescuedFromTwo { store, what, source, from_other, taken });
            }
            // No run is longer than the one that was asked for, and version 0 has no record.
            if best.as_ref().is_some_and(|best| best.what.first <= oldest.max(1)) {
                break;
            }
        }
        best
    }
}
