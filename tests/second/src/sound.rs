//! 01, 'Sound': every kept version's tree is followed from its root, which 02, 2026-13, finds by its lifetime; by 2026-09 each count is the number of
//! leaves below that child, 0 for none.

use crate::bytes::{self, Body, Form, Record, Slot, Store, FORM};
use crate::tree::{lives, record_hash, Index};
use crate::Refusal;
use std::collections::{BTreeSet, HashSet};

/// Accepted exactly if the store is sound, else 1, 2 or 3.
pub fn check(s: &[u8]) -> Result<(), Refusal> {
    check_in(FORM, s)
}

pub fn check_in(form: Form, s: &[u8]) -> Result<(), Refusal> {
    let store = bytes::store_in(form, s)?;
    if sound(&store) {
        Ok(())
    } else {
        Err(3)
    }
}

pub fn sound(store: &Store) -> bool {
    let mut nodes = HashSet::new();
    let mut records = vec![];
    for (i, s) in store.slots.iter().enumerate() {
        match s {
            Slot::Free => {}
            Slot::Spoiled(_) => return false,
            Slot::Used(r) => {
                let ended = r.retired == 0 || (r.retired > r.version && r.retired > store.oldest && r.retired <= store.latest);
                if !nodes.insert((r.version, r.place)) || r.version > store.latest || !ended {
                    return false;
                }
                records.push((i, r));
            }
        }
    }
    // From one version at which a record's life begins or ends up to the next one, the same records live and the same root is found: the first of
    // them stands for all.
    let mut versions = BTreeSet::from([store.oldest]);
    for (_, r) in &records {
        versions.extend([r.version, r.retired].iter().filter(|&&v| store.oldest <= v && v <= store.latest));
    }
    let index = Index::of(store);
    versions.iter().all(|&v| stands(store, &index, &records, v))
}

fn stands(store: &Store, index: &Index, records: &[(usize, &Record)], v: u32) -> bool {
    let mut seen = HashSet::new();
    if let Some((i, r)) = index.root(store, v) {
        if follow(store, index, i, r, &mut seen).is_none() {
            return false;
        }
    }
    records.iter().all(|(i, r)| seen.contains(i) == lives(r, v))
}

/// How many leaves stand at a record and below it; none where the tree there isn't right.
fn follow(store: &Store, index: &Index, i: usize, r: &Record, seen: &mut HashSet<usize>) -> Option<usize> {
    seen.insert(i);
    let children = match &r.body {
        Body::Leaf { key, .. } => return r.place.begins(key).then_some(1),
        Body::Inner(children) => children,
    };
    let alone = children.iter().any(|c| c.version == 0);
    let mut leaves = 0;
    for (c, b) in children.iter().zip([false, true]) {
        let mut below = 0;
        if c.version != 0 {
            let (j, q) = index.find(store, c.version, r.place.longer(b))?;
            let lone_leaf = alone && matches!(q.body, Body::Leaf { .. });
            if lone_leaf || record_hash(q) != c.hash {
                return None;
            }
            below = follow(store, index, j, q, seen)?;
        }
        if store.form == Form::Counted && c.leaves as usize != below {
            return None;
        }
        leaves += below;
    }
    Some(leaves)
}
