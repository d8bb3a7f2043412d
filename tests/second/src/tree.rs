//! 01, 'The tree of a set of grants', and finding a node in a store.

use crate::bytes::{bit, Body, Child, Fields, Place, Record, Slot, Store, NO_CHILD};
use crate::sha256::{inner_hash, leaf_hash};
use crate::{Bytes32, ZEROS};
use std::cmp::Ordering;
use std::collections::{BTreeMap, HashMap};

pub type Grants = BTreeMap<Bytes32, Bytes32>;

/// Which slot is found for a version and place: the lowest that matches. Roots are found by their lifetimes (02, 2026-13): their slots, ascending.
pub struct Index {
    nodes: HashMap<(u32, Place), usize>,
    roots: Vec<usize>,
    /// The used slots that are not in form, ascending.
    spoiled: Vec<(usize, Fields)>,
    /// The table that a read looks in first (02, 2026-05); without one it scans.
    table: Vec<u32>,
}

/// What finding a node tells apart (02, 2026-07), with the lowest such slot.
pub enum Sight<'a> {
    /// A slot in form matches.
    Matches(usize, &'a Record),
    /// No slot in form matches, but a used slot's version, bit count and bits fields agree.
    Agrees(usize),
    /// No slot matches.
    Nothing,
}

/// 01's lifetime: from its version until the version before retired-since, to latest where that is 0.
pub fn lives(r: &Record, version: u32) -> bool {
    r.version <= version && (r.retired == 0 || version < r.retired)
}

impl Index {
    pub fn of(store: &Store) -> Index {
        let mut nodes = HashMap::new();
        let mut roots = vec![];
        let mut spoiled = vec![];
        for (i, s) in store.slots.iter().enumerate() {
            match s {
                Slot::Free => {}
                Slot::Used(r) => {
                    nodes.entry((r.version, r.place)).or_insert(i);
                    if r.place == Place::EMPTY {
                        roots.push(i);
                    }
                }
                Slot::Spoiled(fields) => spoiled.push((i, *fields)),
            }
        }
        Index { nodes, roots, spoiled, table: vec![] }
    }

    /// The same, looking in a table first.
    pub fn by(store: &Store, table: &[u32]) -> Index {
        Index { table: table.to_vec(), ..Index::of(store) }
    }

    /// What the search in the table ends on, where it ends on a match.
    fn searched<'a>(&self, store: &'a Store, look: impl Fn(&Record) -> Ordering) -> Option<(usize, &'a Record)> {
        if self.table.is_empty() {
            return None;
        }
        crate::indexed::search(store, &self.table, look)
    }

    /// The root of a version: the root record, if any, whose lifetime covers it; of several the lowest slot's.
    pub fn root<'a>(&self, store: &'a Store, version: u32) -> Option<(usize, &'a Record)> {
        self.roots.iter().find_map(|&i| match &store.slots[i] {
            Slot::Used(r) if lives(r, version) => Some((i, r)),
            _ => None,
        })
    }

    pub fn find<'a>(&self, store: &'a Store, version: u32, place: Place) -> Option<(usize, &'a Record)> {
        let i = *self.nodes.get(&(version, place))?;
        match &store.slots[i] {
            Slot::Used(r) => Some((i, r)),
            _ => None,
        }
    }

    fn sight<'a>(&self, matches: Option<(usize, &'a Record)>, agrees: impl Fn(&Fields) -> bool) -> Sight<'a> {
        match (matches, self.spoiled.iter().find(|(_, f)| agrees(f))) {
            (Some((i, r)), _) => Sight::Matches(i, r),
            (None, Some((i, _))) => Sight::Agrees(*i),
            (None, None) => Sight::Nothing,
        }
    }

    /// A node by its version and place.
    pub fn see<'a>(&self, store: &'a Store, version: u32, place: Place) -> Sight<'a> {
        let agrees = |f: &Fields| f.version == version && f.count as usize == place.count && f.bits == place.bits;
        let searched = self.searched(store, |r| crate::indexed::order(r, version, place));
        self.sight(searched.or_else(|| self.find(store, version, place)), agrees)
    }

    /// The root of a version, which matches or agrees by empty place and a lifetime that covers it (02, 2026-13).
    pub fn see_root<'a>(&self, store: &'a Store, version: u32) -> Sight<'a> {
        let agrees = |f: &Fields| {
            let covers = f.version <= version && (f.retired == 0 || version < f.retired);
            f.count == 0 && f.bits == ZEROS && covers
        };
        let searched = self.searched(store, |r| crate::indexed::root_order(r, version));
        self.sight(searched.or_else(|| self.root(store, version)), agrees)
    }
}

pub fn record_hash(r: &Record) -> Bytes32 {
    match &r.body {
        Body::Leaf { key, value } => leaf_hash(key, value),
        Body::Inner([l, r]) => inner_hash(&l.hash, &r.hash),
    }
}

/// The nodes of a sound store's version, by place, with their slots.
pub fn version_tree(store: &Store, index: &Index, version: u32) -> HashMap<Place, (usize, Record)> {
    let mut nodes = HashMap::new();
    let mut todo: Vec<(usize, &Record)> = index.root(store, version).into_iter().collect();
    while let Some((i, r)) = todo.pop() {
        nodes.insert(r.place, (i, *r));
        if let Body::Inner(children) = r.body {
            for (c, b) in children.iter().zip([false, true]) {
                if c.version != 0 {
                    todo.extend(index.find(store, c.version, r.place.longer(b)));
                }
            }
        }
    }
    nodes
}

pub fn grants_of<'a>(nodes: impl Iterator<Item = &'a Record>) -> Grants {
    nodes
        .filter_map(|r| match r.body {
            Body::Leaf { key, value } => Some((key, value)),
            Body::Inner(_) => None,
        })
        .collect()
}

/// The tree of a set of grants, by place, each node with its version; and the root's child record.
pub struct Made {
    pub nodes: HashMap<Place, Record>,
    pub root: Child,
}

/// `grants` ascend and all begin with `place`; `old` gives the version that a node keeps there, if it keeps one.
pub fn make(grants: &[(Bytes32, Bytes32)], new: u32, keeps: &dyn Fn(Place, &[(Bytes32, Bytes32)]) -> Option<u32>) -> Made {
    let mut nodes = HashMap::new();
    let root = make_at(grants, Place::EMPTY, new, keeps, &mut nodes);
    Made { nodes, root }
}

fn make_at(
    grants: &[(Bytes32, Bytes32)],
    place: Place,
    new: u32,
    keeps: &dyn Fn(Place, &[(Bytes32, Bytes32)]) -> Option<u32>,
    nodes: &mut HashMap<Place, Record>,
) -> Child {
    if grants.is_empty() {
        return NO_CHILD;
    }
    let version = if place.count == 0 { new } else { keeps(place, grants).unwrap_or(new) };
    let body = if let [(key, value)] = grants {
        Body::Leaf { key: *key, value: *value }
    } else {
        let middle = grants.partition_point(|(k, _)| !bit(k, place.count));
        let l = make_at(&grants[..middle], place.longer(false), new, keeps, nodes);
        let r = make_at(&grants[middle..], place.longer(true), new, keeps, nodes);
        Body::Inner([l, r])
    };
    let r = Record { place, version, retired: 0, body };
    nodes.insert(place, r);
    Child { version, hash: record_hash(&r), leaves: grants.len() as u32 }
}

/// The order of placing: under an inner node first all strictly below its left child, then strictly below its right, then the left child,
/// then the right; the root last.
pub fn placing(made: &Made) -> Vec<Record> {
    fn below(nodes: &HashMap<Place, Record>, p: Place, out: &mut Vec<Record>) {
        let Some(Record { body: Body::Inner(_), .. }) = nodes.get(&p) else { return };
        let sides = [p.longer(false), p.longer(true)];
        for q in sides {
            below(nodes, q, out);
        }
        out.extend(sides.iter().filter_map(|q| nodes.get(q)));
    }
    let mut out = vec![];
    below(&made.nodes, Place::EMPTY, &mut out);
    out.extend(made.nodes.get(&Place::EMPTY));
    out
}
