//! Where a store that misses no record is wrong, slot by slot, in words for support. That it isn't sound is the library's word; here the slots are
//! looked at once more, rule by rule (docs/RULES.md, Sound), and nothing is promised of it.

use crate::fail::Wrong;
use crate::held::Bytes;
use crate::plain::{at, counted};
use grants::{Body, Child, Found, Header, Place, Record, Slot};

struct Look {
    header: Header,
    there: Found,
    /// How many leaves are below each record, itself among them.
    leaves: Vec<u64>,
    wrong: Vec<Wrong>,
}

/// All that is wrong, in the order of slots.
pub fn of(store: &Bytes) -> Vec<Wrong> {
    let (Ok(header), Ok(slots)) = (store.header(), store.slots_found()) else {
        return vec![];
    };
    let mut look = Look::new(header, slots);
    look.alone();
    look.trees();
    look.wrong.sort_by_key(|wrong| wrong.slot);
    look.wrong
}

impl Look {
    fn new(header: Header, slots: Vec<Slot>) -> Look {
        let mut look = Look {
            header,
            leaves: vec![0; slots.len()],
            wrong: vec![],
            there: Found::of(slots),
        };
        let off_form = look.there.slots.iter().zip(0..).filter(|(slot, _)| **slot == Slot::OffForm);
        for i in off_form.map(|(_, i)| i).collect::<Vec<usize>>() {
            look.says(i, "its bytes are no record".to_string());
        }
        for (i, record) in look.found() {
            let first = look.there.lowest(record.version, record.place);
            if let Some(first) = first.filter(|first| *first != i) {
                look.says(
                    i,
                    format!("its version and place are those of slot {first}"),
                );
            }
        }
        // A child's place is longer than its parent's.
        let mut deepest_first = look.found();
        deepest_first.sort_by_key(|(_, record)| std::cmp::Reverse(record.place.count()));
        for (i, record) in deepest_first {
            let below = look.children(&record).into_iter().flatten();
            let below = below.filter_map(|(_, _, kid)| kid).map(|j| look.leaves[j]);
            look.leaves[i] = match record.body {
                Body::Leaf { .. } => 1,
                Body::Inner { .. } => below.sum(),
            };
        }
        look
    }

    fn says(&mut self, slot: usize, why: String) {
        let slot = slot as u32;
        self.wrong.push(Wrong { slot, why });
    }

    fn found(&self) -> Vec<(usize, Record)> {
        self.there.records().collect()
    }

    /// What a record says of its children, with their places and the slots that they are in.
    fn children(&self, record: &Record) -> [Option<(Child, Place, Option<usize>)>; 2] {
        let Body::Inner { left, right, .. } = record.body else {
            return [None, None];
        };
        [(left, false), (right, true)].map(|(child, side)| {
            let (child, place) = (child?, record.place.longer(side)?);
            Some((
                child,
                place,
                self.there.lowest(child.version, place),
            ))
        })
    }

    /// The kept versions in a record's lifetime, if there are any.
    fn lifetime(&self, record: &Record) -> Option<(u32, u32)> {
        let first = record.version.max(self.header.oldest);
        let last = record
            .retired_since
            .map_or(u32::MAX, |since| since.saturating_sub(1));
        let last = last.min(self.header.latest);
        (first <= last).then_some((first, last))
    }

    /// What a record shows by itself.
    fn alone(&mut self) {
        let Header { oldest, latest, .. } = self.header;
        for (i, record) in self.found() {
            let version = record.version;
            if version == 0 || version > latest {
                self.says(
                    i,
                    format!("its version is {version}, and the latest one is {latest}"),
                );
            }
            let Some(since) = record.retired_since else {
                continue;
            };
            if since <= version {
                self.says(
                    i,
                    format!("it is of version {version}, and retired since {since}"),
                );
            } else if since <= oldest {
                self.says(
                    i,
                    format!("it is retired since {since}, and {oldest} is the oldest kept version"),
                );
            } else if since > latest {
                self.says(
                    i,
                    format!("it is retired since {since}, and the latest version is {latest}"),
                );
            }
        }
    }

    /// What the trees of the kept versions show.
    fn trees(&mut self) {
        let mut roots: Vec<(u32, u32, usize)> = vec![];
        for (i, record) in self.found() {
            if let (Place::EMPTY, Some((first, last))) = (record.place, self.lifetime(&record)) {
                roots.push((first, last, i));
            }
        }
        roots.sort();
        for pair in roots.windows(2) {
            let ((_, last, a), (first, _, b)) = (pair[0], pair[1]);
            if first <= last {
                self.says(
                    b,
                    format!("it is a root of version {first}, and so is that in slot {a}"),
                );
            }
        }
        let kids: Vec<[Option<usize>; 2]> = (0..self.there.slots.len())
            .map(|i| match self.there.record(i) {
                Some(record) => self.children(&record).map(|child| child?.2),
                None => [None, None],
            })
            .collect();
        // In how many kept versions' trees a record is, and whether it was said that it is in one too many.
        let mut versions = vec![0u64; self.there.slots.len()];
        let mut said = vec![false; self.there.slots.len()];
        for (first, last, root) in roots {
            let mut todo = vec![root];
            while let Some(i) = todo.pop() {
                todo.extend(kids[i].into_iter().flatten());
                if versions[i] == 0 {
                    self.node(i);
                }
                versions[i] += u64::from(last - first) + 1;
                let Some(record) = self.there.record(i) else {
                    continue;
                };
                let stands = record.stands_in(first) && record.stands_in(last);
                if !stands && !std::mem::replace(&mut said[i], true) {
                    self.says(
                        i,
                        format!(
                            "it is in the tree of version {}, outside its lifetime",
                            if record.stands_in(first) { last } else { first }
                        ),
                    );
                }
            }
        }
        for (i, record) in self.found() {
            let Some((first, last)) = self.lifetime(&record) else {
                continue;
            };
            let lives = u64::from(last - first) + 1;
            let second = self.there.lowest(record.version, record.place) != Some(i);
            if versions[i] < lives && !said[i] && !second {
                let which = match lives {
                    1 => format!("version {first}"),
                    _ => format!("versions {first} to {last}"),
                };
                let trees = match versions[i] {
                    0 => "in no tree".to_string(),
                    n => format!("in the trees of {n} of them"),
                };
                self.says(
                    i,
                    format!("by its lifetime it is in {which}, and it is {trees}"),
                );
            }
        }
    }

    /// What a record of a tree says of those below it.
    fn node(&mut self, i: usize) {
        let Some(record) = self.there.record(i) else {
            return;
        };
        let counts = match record.body {
            Body::Inner { counts, .. } => counts,
            Body::Leaf { key, .. } => {
                if !record.place.begins(key) {
                    self.says(
                        i,
                        format!("its key doesn't begin with {}", at(record.place)),
                    );
                }
                return;
            }
        };
        let children = self.children(&record);
        let only = children.iter().flatten().count() == 1;
        for ((child, count), side) in children.into_iter().zip(counts).zip(["left", "right"]) {
            let mut leaves = 0;
            if let Some((child, place, slot)) = child {
                let Some((j, kid)) = slot.and_then(|j| Some((j, self.there.record(j)?))) else {
                    self.says(
                        i,
                        format!(
                            "its {side} child, of version {} at {}, is in no slot",
                            child.version,
                            at(place)
                        ),
                    );
                    continue;
                };
                leaves = self.leaves[j];
                if kid.hash() != child.hash {
                    self.says(
                        j,
                        format!("its hash is not the one in slot {i}, the record above it"),
                    );
                }
                if only && kid.grant().is_some() {
                    self.says(
                        j,
                        format!("it is a leaf, and the only child of the record in slot {i}"),
                    );
                }
            }
            if leaves != u64::from(count) {
                self.says(
                    i,
                    format!(
                        "it counts {} below its {side} side, where there {}",
                        counted(u64::from(count), "grant"),
                        are(leaves)
                    ),
                );
            }
        }
    }
}

fn are(n: u64) -> String {
    match n {
        1 => "is 1".to_string(),
        _ => format!("are {n}"),
    }
}
