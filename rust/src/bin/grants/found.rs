//! What is found in the slots of a store with any contents: its records in form, its root records, and which trees are whole. It is looked up for a person who rescues; what comes
//! back is the library's word.

use crate::plain::at;
use grants::{Body, Place, Record, Slot};
use std::collections::{BTreeMap, HashMap};

/// Why a slot is left out.
pub const WHYS: [&str; 5] = [
    "off form",
    "a second copy",
    "newer than latest",
    "only in versions before the run",
    "of no tree",
];

/// A whole tree: the greatest version in it, and how many grants.
#[derive(Clone, Copy)]
pub struct Whole {
    pub greatest: u32,
    pub grants: u64,
}

/// What is found in a store's slots, with the trees below its root records.
pub struct Found {
    pub there: grants::Found,
    /// Each root record that a version may have, by its version.
    pub roots: BTreeMap<u32, (usize, Record)>,
    /// Whether the tree below a record is whole, and what is known of it then; or what is wrong first.
    trees: HashMap<usize, Result<Whole, String>>,
}

impl Found {
    pub fn of(slots: Vec<Slot>) -> Found {
        let there = grants::Found::of(slots);
        let mut roots = BTreeMap::new();
        for (i, root) in there.roots() {
            roots.entry(root.version).or_insert((i, root));
        }
        let trees = HashMap::new();
        Found { there, roots, trees }
    }

    /// A version's root: the newest root record not above it, unless that one was retired by then; else why there is none.
    pub fn root(&self, version: u32) -> Result<(usize, Record), String> {
        let newest = self.roots.range(..=version).next_back();
        let (_, (i, root)) =
            newest.ok_or(format!("no root record of version {version} or before"))?;
        match root.retired_since {
            Some(since) if since <= version => Err(format!(
                "the newest root record not above version {version}, that of {}, is retired since {since}",
                root.version
            )),
            _ => Ok((*i, *root)),
        }
    }

    /// What is known of the tree below a record, if it is whole.
    pub fn whole(&mut self, i: usize, record: Record) -> Result<Whole, String> {
        if let Some(known) = self.trees.get(&i) {
            return known.clone();
        }
        let answer = self.whole_anew(record);
        self.trees.insert(i, answer.clone());
        answer
    }

    fn whole_anew(&mut self, record: Record) -> Result<Whole, String> {
        let mut whole = Whole {
            greatest: record.version,
            grants: 1,
        };
        let (left, right, counts) = match record.body {
            Body::Leaf { key, .. } => {
                return match record.place.begins(key) {
                    true => Ok(whole),
                    false => Err(format!(
                        "the key of the leaf at {} doesn't begin with its place",
                        at(record.place)
                    )),
                };
            }
            Body::Inner {
                left,
                right,
                counts,
            } => (left, right, counts),
        };
        whole.grants = 0;
        for (child, side) in [(left, false), (right, true)] {
            let count = counts[usize::from(side)];
            let counted = |grants: u64| match grants == u64::from(count) {
                true => Ok(()),
                false => Err(format!(
                    "the record at {} counts {count} below its {} child, where there are {grants}",
                    at(record.place),
                    if side { "right" } else { "left" }
                )),
            };
            let (Some(child), Some(place)) = (child, record.place.longer(side)) else {
                counted(0)?;
                continue;
            };
            let Some((j, kid)) = self.there.node(child.version, place) else {
                return Err(format!(
                    "the record of version {} at {} is lost",
                    child.version,
                    at(place)
                ));
            };
            if kid.hash() != child.hash {
                return Err(format!(
                    "the record of version {} at {} has another hash than the one above it says",
                    child.version,
                    at(place)
                ));
            }
            if (left.is_none() || right.is_none()) && kid.grant().is_some() {
                return Err(format!("the leaf at {} stands alone", at(place)));
            }
            let below = self.whole(j, kid)?;
            counted(below.grants)?;
            whole.greatest = whole.greatest.max(below.greatest);
            whole.grants += below.grants;
        }
        Ok(whole)
    }

    /// Whether a version can be rescued alone, and if not, why.
    pub fn stands(&mut self, version: u32) -> Result<(), String> {
        let (i, root) = self.root(version)?;
        let Whole { greatest, .. } = self
            .whole(i, root)
            .map_err(|why| format!("in the tree of {}, {why}", root.version))?;
        match greatest <= version {
            true => Ok(()),
            false => Err(format!(
                "the tree of {} has a record of version {greatest}",
                root.version
            )),
        }
    }

    /// The slots of those below a record, each side's.
    fn below(&self, record: &Record) -> impl Iterator<Item = usize> + '_ {
        let children = record.children().into_iter().flatten();
        children.filter_map(|(version, place)| self.there.lowest(version, place))
    }

    /// The nodes of a record's tree, by place.
    fn nodes(&self, i: usize) -> HashMap<Place, usize> {
        let mut nodes = HashMap::new();
        let mut todo = vec![i];
        while let Some(i) = todo.pop() {
            let Some(record) = self.there.record(i) else {
                continue;
            };
            nodes.insert(record.place, i);
            todo.extend(self.below(&record));
        }
        nodes
    }

    /// Why a run that begins at `first` begins no earlier.
    pub fn no_earlier(&mut self, first: u32, oldest: u32) -> String {
        if first == oldest {
            return format!("{oldest} is the oldest asked for");
        }
        let before = first - 1;
        if before == 0 {
            return "version 0 has no record".to_string();
        }
        if let Err(why) = self.stands(before) {
            return format!("version {before} can't be rescued: {why}");
        }
        let roots = (self.root(before), self.root(first));
        if let (Ok((a, _)), Ok((b, _))) = roots {
            let earlier = self.nodes(a);
            let lacking = self.nodes(b).into_iter().find(|(place, i)| {
                earlier.get(place) != Some(i) && self.there.record(*i).is_some_and(|r| r.version < first)
            });
            if let Some(version) = lacking.and_then(|(_, i)| self.there.record(i)).map(|r| r.version) {
                return format!(
                    "the tree of {first} has a record of version {version} that the tree of {before} doesn't have"
                );
            }
        }
        format!("a record of the run's trees is newer than version {before}")
    }

    /// Which slots, in the order of `WHYS`, were left out.
    pub fn left_out(&self, kept: &[Option<Record>], latest: u32) -> Vec<Vec<usize>> {
        let mut reached = vec![false; self.there.slots.len()];
        let mut todo: Vec<usize> = self.roots.range(..=latest).map(|(_, (i, _))| *i).collect();
        while let Some(i) = todo.pop() {
            if std::mem::replace(&mut reached[i], true) {
                continue;
            }
            todo.extend(self.there.record(i).iter().flat_map(|record| self.below(record)));
        }
        let mut out = vec![vec![]; WHYS.len()];
        for (i, slot) in self.there.slots.iter().enumerate() {
            let why = match slot {
                Slot::Free => continue,
                Slot::Record(_) if kept[i].is_some() => continue,
                Slot::OffForm => 0,
                Slot::Record(r) if self.there.lowest(r.version, r.place) != Some(i) => 1,
                Slot::Record(r) if r.version > latest => 2,
                Slot::Record(_) if reached[i] => 3,
                Slot::Record(_) => 4,
            };
            out[why].push(i);
        }
        out
    }
}
