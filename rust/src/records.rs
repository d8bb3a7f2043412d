//! Reading the records of a sound store, to list or draw them. Nothing is judged here: the library has said before that every slot is free or
//! in form, and which records stand in a version follows from their lifetimes, by the last rule of 'Sound' in docs/RULES.md.

use crate::form::{self, at};
pub(crate) use crate::Header;
use crate::{Key, Value};
use std::fmt;

pub(crate) fn u32_at(bytes: &[u8], at: usize) -> u32 {
    u32::from_le_bytes([bytes[at], bytes[at + 1], bytes[at + 2], bytes[at + 3]])
}

pub(crate) fn u16_at(bytes: &[u8], at: usize) -> u16 {
    u16::from_le_bytes([bytes[at], bytes[at + 1]])
}

fn word_at(bytes: &[u8], at: usize) -> [u8; 32] {
    let mut word = [0; 32];
    word.copy_from_slice(&bytes[at..at + 32]);
    word
}

/// A string of bits: where a node stands in the tree. Ordered so that a place comes before those below it, left before right.
#[derive(Clone, Copy, Debug, PartialEq, Eq, PartialOrd, Ord, Hash)]
pub struct Place {
    // Unused bits are zero, so comparing the bits and then the count is the order of bit strings.
    bits: [u8; 32],
    count: u16,
}

impl Place {
    /// Where the root stands.
    pub const EMPTY: Place = Place {
        bits: [0; 32],
        count: 0,
    };

    /// How many bits, 0 to 256.
    pub fn count(&self) -> usize {
        usize::from(self.count)
    }

    /// Bit i: false is left, true is right.
    pub fn bit(&self, i: usize) -> bool {
        self.bits[i / 8] >> (7 - i % 8) & 1 == 1
    }

    /// Whether a key begins with it.
    pub fn begins(&self, key: Key) -> bool {
        let key = key.as_bytes();
        (0..self.count()).all(|i| self.bit(i) == (key[i / 8] >> (7 - i % 8) & 1 == 1))
    }

    /// The place one bit longer, to the left or to the right. A place of 256 bits is the longest.
    pub fn longer(&self, right: bool) -> Option<Place> {
        let (byte, mask) = (self.count() / 8, 0x80 >> (self.count % 8));
        let mut longer = *self;
        let bits = longer.bits.get_mut(byte)?;
        *bits |= if right { mask } else { 0 };
        longer.count += 1;
        Some(longer)
    }
}

/// The bits, as 0 and 1.
impl fmt::Display for Place {
    fn fmt(&self, f: &mut fmt::Formatter<'_>) -> fmt::Result {
        let bits: String = (0..self.count())
            .map(|i| if self.bit(i) { '1' } else { '0' })
            .collect();
        f.pad(&bits)
    }
}

/// What an inner record says of a child: its version and its hash.
#[derive(Clone, Copy, Debug, PartialEq, Eq)]
pub struct Child {
    pub version: u32,
    pub hash: [u8; 32],
}

#[derive(Clone, Copy, Debug, PartialEq, Eq)]
pub enum Body {
    Leaf {
        key: Key,
        value: Value,
    },
    Inner {
        left: Option<Child>,
        right: Option<Child>,
        /// How many grants are below the left and below the right child, as the record says.
        counts: [u32; 2],
    },
}

/// One node of one or more versions.
#[derive(Clone, Copy, Debug, PartialEq, Eq)]
pub struct Record {
    pub place: Place,
    pub version: u32,
    /// The version that it is retired since, if it is retired.
    pub retired_since: Option<u32>,
    pub body: Body,
}

impl Record {
    /// Whether the record is in a kept version's tree: its version is at most that one, and it isn't retired by it.
    pub fn stands_in(&self, version: u32) -> bool {
        self.version <= version && self.retired_since.is_none_or(|since| version < since)
    }

    /// How many grants are at or below the record, as it says: 1 for a leaf, the sum of its counts for an inner record.
    pub fn counted(&self) -> u64 {
        match self.body {
            Body::Leaf { .. } => 1,
            Body::Inner { counts, .. } => counts.iter().copied().map(u64::from).sum(),
        }
    }

    /// The SHA-256 of its message (docs/RULES.md): byte 1, key, value; or byte 0 and the hashes of its children, zeros for one that isn't there.
    pub fn hash(&self) -> [u8; 32] {
        let none = [0; 32];
        let (first, left, right) = match self.body {
            Body::Leaf { key, value } => (1, <[u8; 32]>::from(key), <[u8; 32]>::from(value)),
            Body::Inner { left, right, .. } => (
                0,
                left.map_or(none, |child| child.hash),
                right.map_or(none, |child| child.hash),
            ),
        };
        let mut message = [first; crate::MESSAGE_BYTES];
        message[1..33].copy_from_slice(&left);
        message[33..].copy_from_slice(&right);
        crate::sha256(&message)
    }

    /// The grant of a leaf.
    pub fn grant(&self) -> Option<(Key, Value)> {
        match self.body {
            Body::Leaf { key, value } => Some((key, value)),
            Body::Inner { .. } => None,
        }
    }
}

pub(crate) fn header(store: &[u8]) -> Header {
    Header {
        capacity: u32_at(store, at::CAPACITY),
        oldest: u32_at(store, at::OLDEST),
        latest: u32_at(store, at::LATEST),
    }
}

/// The bytes of each slot.
pub(crate) fn chunks(store: &[u8]) -> impl Iterator<Item = &[u8]> {
    store[form::HEADER_BYTES..].chunks_exact(form::SLOT_BYTES)
}

pub(crate) fn slots(store: &[u8]) -> Vec<Option<Record>> {
    chunks(store).map(slot).collect()
}

pub(crate) fn slot(slot: &[u8]) -> Option<Record> {
    (u16_at(slot, at::KIND) != 0).then(|| fields(slot))
}

/// The fields of a slot as they stand, whatever they are.
pub(crate) fn fields(slot: &[u8]) -> Record {
    let body = match u16_at(slot, at::KIND) {
        form::LEAF_KIND => Body::Leaf {
            key: Key::from(word_at(slot, at::KEY)),
            value: Value::from(word_at(slot, at::VALUE)),
        },
        _ => Body::Inner {
            left: child(slot, at::CHILDREN[0]),
            right: child(slot, at::CHILDREN[1]),
            counts: at::COUNTS.map(|at| u32_at(slot, at)),
        },
    };
    Record {
        place: Place {
            bits: word_at(slot, at::BITS),
            count: u16_at(slot, at::BIT_COUNT),
        },
        version: u32_at(slot, at::VERSION),
        retired_since: Some(u32_at(slot, at::RETIRED_SINCE)).filter(|since| *since != 0),
        body,
    }
}

fn child(slot: &[u8], at: usize) -> Option<Child> {
    Some(Child {
        version: u32_at(slot, at),
        hash: word_at(slot, at + at::CHILD_HASH.start),
    })
    .filter(|child| child.version != 0)
}

pub(crate) fn zero(bytes: &[u8]) -> bool {
    bytes.iter().all(|b| *b == 0)
}

/// Whether a slot is a record in form ('Records' of docs/RULES.md), of which these are the fields. Counts are free in form.
pub(crate) fn in_form(slot: &[u8], record: &Record) -> bool {
    let (length, kind) = (u32_at(slot, at::LENGTH) as usize, u16_at(slot, at::KIND));
    let most = match (length, kind) {
        (form::LEAF_LENGTH, form::LEAF_KIND) => form::LEAF_BITS,
        (form::INNER_LENGTH, form::INNER_KIND) => form::INNER_BITS,
        _ => return false,
    };
    let body = match record.body {
        Body::Leaf { .. } => zero(&slot[form::LEAF_LENGTH..]),
        Body::Inner { left, right, .. } => {
            let mut children = [left, right].into_iter().zip(at::CHILDREN);
            (left.is_some() || right.is_some())
                && children
                    .all(|(child, at)| child.is_some() || zero(&slot[at..at + at::CHILD_HASH.end]))
        }
    };
    let place = record.place;
    body && record.version != 0
        && place.count() <= most
        && (place.count()..form::LEAF_BITS).all(|i| !place.bit(i))
}
