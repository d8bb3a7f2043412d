//! 02, requests 2026-08 and 2026-13: the longest run of versions of a damaged store.
//!
//! `rescue` is the definition word for word: every run is tried, each as a store that is sound or not. `walked` goes from latest back, tree by tree,
//! and counts the places that it looks at; it is held to the first.

use crate::bytes::{self, Body, Place, Record, Slot, Store, FORM, SLOT};
use crate::sound::sound;
use crate::positions::number;
use crate::tree::{record_hash, Index};
use crate::Refusal;
use std::collections::{BTreeMap, BTreeSet, HashMap};

/// The run's first version; records kept as they were, kept with another retired-since, used slots left out.
pub type Rescued = (u32, u32, u32, u32);

/// The records in form of a buffer of right size, with nothing looked at in its header.
fn source(s: &[u8]) -> Store {
    Store { form: FORM, oldest: 0, latest: 0, slots: s[bytes::HEADER..].chunks_exact(SLOT).map(bytes::slot).collect() }
}

/// A version's root is the newest root record not above it, and none where that one was retired by then; of a pair the lowest slot.
fn root(store: &Store, index: &Index, v: u32) -> Option<usize> {
    let roots = store.slots.iter().filter_map(|s| match s {
        Slot::Used(r) if r.place == Place::EMPTY && r.version <= v => Some(r.version),
        _ => None,
    });
    let (i, r) = index.find(store, roots.max()?, Place::EMPTY)?;
    (r.retired == 0 || v < r.retired).then_some(i)
}

/// The slots of the tree below a root record: each child by its version and place, the lowest slot in form; what is not found is not there.
fn tree(store: &Store, index: &Index, root: usize) -> BTreeSet<usize> {
    let mut nodes = BTreeSet::new();
    let mut todo = vec![root];
    while let Some(i) = todo.pop() {
        let Slot::Used(r) = &store.slots[i] else { continue };
        nodes.insert(i);
        if let Body::Inner(children) = &r.body {
            for (c, b) in children.iter().zip([false, true]) {
                if c.version != 0 {
                    todo.extend(index.find(store, c.version, r.place.longer(b)).map(|(j, _)| j));
                }
            }
        }
    }
    nodes
}

/// Versions at which something begins or ends: from one of them up to the next, all versions have the same root and the same records not above
/// them, so that they begin a sound store together or not at all.
fn steps(store: &Store, oldest: u32, latest: u32) -> Vec<u32> {
    let mut steps = BTreeSet::from([oldest]);
    for s in &store.slots {
        if let Slot::Used(r) = s {
            steps.extend([r.version, r.retired].into_iter().filter(|v| oldest < *v && *v <= latest));
        }
    }
    steps.into_iter().collect()
}

/// The store of a run, if each of its versions has a root: the records of its trees in their slots, retired-since set afresh.
fn run(store: &Store, index: &Index, steps: &[u32], first: u32, latest: u32) -> Option<Store> {
    // For each record of a tree of the run the last version whose tree has it.
    let mut last: BTreeMap<usize, u32> = BTreeMap::new();
    let begins: Vec<u32> = steps.iter().copied().filter(|v| *v >= first).collect();
    for (n, &v) in begins.iter().enumerate() {
        let end = begins.get(n + 1).map_or(latest, |next| next - 1);
        for i in tree(store, index, root(store, index, v)?) {
            last.insert(i, end);
        }
    }
    let mut slots = vec![Slot::Free; store.slots.len()];
    for (i, end) in last {
        if let Slot::Used(r) = &store.slots[i] {
            slots[i] = Slot::Used(Record { retired: if end == latest { 0 } else { end + 1 }, ..*r });
        }
    }
    Some(Store { form: FORM, oldest: first, latest, slots })
}

/// The buffers compared: records kept as they were, kept with another retired-since, used slots left out.
pub fn counts(before: &[u8], after: &[u8]) -> (u32, u32, u32) {
    let (mut same, mut other, mut out) = (0, 0, 0);
    for (a, b) in before[bytes::HEADER..].chunks_exact(SLOT).zip(after[bytes::HEADER..].chunks_exact(SLOT)) {
        let used = a.iter().any(|x| *x != 0);
        let kept = b.iter().any(|x| *x != 0);
        same += (used && kept && a == b) as u32;
        other += (used && kept && a != b) as u32;
        out += (used && !kept) as u32;
    }
    (same, other, out)
}

fn written(s: &[u8], target: &mut [u8], made: &Store) -> Rescued {
    target.copy_from_slice(&bytes::store_bytes(made));
    let (same, other, out) = counts(s, target);
    (made.oldest, same, other, out)
}

fn refused(s: &[u8], oldest: u32, latest: u32, target: &[u8]) -> Result<(), Refusal> {
    bytes::capacity(s.len())?;
    bytes::capacity(target.len())?;
    if s.len() != target.len() {
        return Err(1);
    }
    if oldest > latest {
        return Err(2);
    }
    Ok(())
}

/// The longest run is the one that begins first: every first version is tried from oldest on.
pub fn rescue(s: &[u8], oldest: u32, latest: u32, target: &mut [u8]) -> Result<Rescued, Refusal> {
    refused(s, oldest, latest, target)?;
    let store = source(s);
    let index = Index::of(&store);
    let steps = steps(&store, oldest, latest);
    let made = steps.iter().filter_map(|&first| run(&store, &index, &steps, first, latest)).find(sound).ok_or(3u32)?;
    Ok(written(s, target, &made))
}

/// The same from latest back, each version's tree beside the next one's alone; and how many records were looked for before any was written.
pub fn walked(s: &[u8], oldest: u32, latest: u32, target: &mut [u8]) -> Result<(Rescued, usize), Refusal> {
    refused(s, oldest, latest, target)?;
    let store = source(s);
    let index = Index::of(&store);
    let mut roots: Vec<(u32, u32)> = vec![];
    for s in store.slots.iter().rev() {
        if let Slot::Used(r) = s {
            if r.place == Place::EMPTY {
                roots.push((r.version, r.retired));
            }
        }
    }
    // Stable: of a version the lowest slot comes last.
    roots.sort_by_key(|(v, _)| *v);
    let root = |v: u32| {
        let n = roots.partition_point(|(w, _)| *w <= v);
        let (w, retired) = *roots.get(n.checked_sub(1)?)?;
        (retired == 0 || v < retired).then_some(w)
    };
    let mut walk = Walk { store: &store, index: &index, looks: 0, met: vec![] };
    let mut a = root(latest).ok_or(3u32)?;
    let mut floor = walk.join(Place::EMPTY, a, 0, 0).filter(|f| *f <= latest).ok_or(3u32)?;
    let mut kept: HashMap<usize, u32> = walk.met.drain(..).map(|i| (i, 0)).collect();
    let first = loop {
        let first = oldest.max(floor).max(a);
        if first == oldest || a < first {
            break first;
        }
        let Some(b) = root(first - 1) else { break first };
        let Some(f) = walk.join(Place::EMPTY, b, a, first).map(|f| f.max(floor)).filter(|f| *f < first) else { break first };
        kept.extend(walk.met.drain(..).map(|i| (i, first)));
        (a, floor) = (b, f);
    };
    let mut slots = vec![Slot::Free; store.slots.len()];
    for (i, retired) in kept {
        if let Slot::Used(r) = &store.slots[i] {
            slots[i] = Slot::Used(Record { retired, ..*r });
        }
    }
    Ok((written(s, target, &Store { form: FORM, oldest: first, latest, slots }), walk.looks))
}

struct Walk<'a> {
    store: &'a Store,
    index: &'a Index,
    looks: usize,
    met: Vec<usize>,
}

impl<'a> Walk<'a> {
    fn look(&mut self, version: u32, place: Place) -> Option<(usize, &'a Record)> {
        self.looks += (version != 0) as usize;
        self.index.find(self.store, version, place)
    }

    /// Whether the tree of version a joins the next one's, of version b, where that differs: the greatest version of a child newer than its
    /// parent, or none where it doesn't join.
    fn join(&mut self, place: Place, a: u32, b: u32, next: u32) -> Option<u32> {
        if a == b {
            return Some(0);
        }
        if b != 0 && b != next {
            return None;
        }
        let kids = |r: Option<&Record>| match r.map(|r| r.body) {
            Some(Body::Inner([l, r])) => [l.version, r.version],
            _ => [0, 0],
        };
        let mut floor = 0;
        let mut ours = [0, 0];
        if a != 0 {
            let (i, r) = self.look(a, place)?;
            self.met.push(i);
            match &r.body {
                Body::Leaf { key, .. } if !place.begins(key) => return None,
                Body::Leaf { .. } => {}
                Body::Inner(children) => {
                    let alone = children.iter().any(|c| c.version == 0);
                    for (c, side) in children.iter().zip([false, true]) {
                        if c.version == 0 {
                            if c.leaves != 0 {
                                return None;
                            }
                            continue;
                        }
                        let (_, q) = self.look(c.version, place.longer(side))?;
                        if record_hash(q) != c.hash || alone && matches!(q.body, Body::Leaf { .. }) || c.leaves as u64 != number(q) {
                            return None;
                        }
                        if c.version > a {
                            floor = floor.max(c.version);
                        }
                    }
                    ours = kids(Some(r));
                }
            }
        }
        if place.count < 256 {
            let theirs = kids(self.look(b, place).map(|(_, r)| r));
            for (n, side) in [(0, false), (1, true)] {
                floor = floor.max(self.join(place.longer(side), ours[n], theirs[n], next)?);
            }
        }
        Some(floor)
    }
}
