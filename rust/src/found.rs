//! The slots of a store with any contents, and which record of a version and place counts.

use crate::{Body, Place, Record, Slot};
use std::collections::HashMap;

/// What is found in the slots of a store with any contents. Where two slots have a record of one version and place, the lowest one counts, in reads and in a rescue. Nothing is judged here: it is for
/// who tells a person what is there.
#[derive(Clone, Debug)]
pub struct Found {
    pub slots: Vec<Slot>,
    lowest: HashMap<(u32, Place), usize>,
}

impl Found {
    pub fn of(slots: Vec<Slot>) -> Found {
        let mut lowest = HashMap::new();
        for (i, slot) in slots.iter().enumerate() {
            if let Slot::Record(record) = slot {
                lowest.entry((record.version, record.place)).or_insert(i);
            }
        }
        Found { slots, lowest }
    }

    /// The record in form of a slot.
    pub fn record(&self, slot: usize) -> Option<Record> {
        match self.slots.get(slot) {
            Some(Slot::Record(record)) => Some(*record),
            _ => None,
        }
    }

    /// Every record in form, with its slot.
    pub fn records(&self) -> impl Iterator<Item = (usize, Record)> + '_ {
        (0..self.slots.len()).filter_map(|i| Some((i, self.record(i)?)))
    }

    /// The lowest slot that has a record of a version and place.
    pub fn lowest(&self, version: u32, place: Place) -> Option<usize> {
        self.lowest.get(&(version, place)).copied()
    }

    /// The same with the record.
    pub fn node(&self, version: u32, place: Place) -> Option<(usize, Record)> {
        let i = self.lowest(version, place)?;
        Some((i, self.record(i)?))
    }

    /// The root records, with their slots.
    pub fn roots(&self) -> impl Iterator<Item = (usize, Record)> + '_ {
        self.records().filter(|(_, record)| record.place == Place::EMPTY)
    }
}

impl Record {
    /// The children of an inner record, left and right: their versions and places.
    pub fn children(&self) -> [Option<(u32, Place)>; 2] {
        let Body::Inner { left, right, .. } = self.body else {
            return [None, None];
        };
        let child = |child: Option<crate::Child>, side| Some((child?.version, self.place.longer(side)?));
        [child(left, false), child(right, true)]
    }
}
