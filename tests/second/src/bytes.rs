//! 01, 'Bytes', and 02, 2026-09: header, slots, batch records.

pub use crate::form::{Form, FORM, HEADER, MOST_SLOTS, SLOT};

use crate::form::{header, slot as at, Head, LEAF};
use crate::{Bytes32, Refusal, ZEROS};

pub const ASK: usize = 72;
pub const MOST_ASKS: usize = 1_024;

pub fn u16_at(s: &[u8], at: usize) -> u16 {
    u16::from_le_bytes([s[at], s[at + 1]])
}

pub fn u32_at(s: &[u8], at: usize) -> u32 {
    u32::from_le_bytes([s[at], s[at + 1], s[at + 2], s[at + 3]])
}

pub fn b32_at(s: &[u8], at: usize) -> Bytes32 {
    s[at..at + 32].try_into().unwrap()
}

/// Bit i of a key; bit 0 is the top bit of byte 0.
pub fn bit(key: &Bytes32, i: usize) -> bool {
    key[i / 8] >> (7 - i % 8) & 1 == 1
}

/// A string of at most 256 bits, unused bits zero.
#[derive(Clone, Copy, PartialEq, Eq, Hash, PartialOrd, Ord, Debug)]
pub struct Place {
    pub bits: Bytes32,
    pub count: usize,
}

impl Place {
    pub const EMPTY: Place = Place { bits: ZEROS, count: 0 };

    pub fn longer(mut self, b: bool) -> Place {
        if b {
            self.bits[self.count / 8] |= 0x80 >> (self.count % 8);
        }
        self.count += 1;
        self
    }

    pub fn begins(&self, key: &Bytes32) -> bool {
        (0..self.count).all(|i| bit(&self.bits, i) == bit(key, i))
    }
}

#[derive(Clone, Copy, PartialEq, Eq, Debug)]
pub struct Child {
    pub version: u32,
    pub hash: Bytes32,
    /// The count beside it: how many leaves are below this child. In the plain form 0, and nothing is said.
    pub leaves: u32,
}

pub const NO_CHILD: Child = Child { version: 0, hash: ZEROS, leaves: 0 };

#[derive(Clone, Copy, PartialEq, Eq, Debug)]
pub enum Body {
    Leaf { key: Bytes32, value: Bytes32 },
    /// Left, then right.
    Inner([Child; 2]),
}

#[derive(Clone, Copy, PartialEq, Eq, Debug)]
pub struct Record {
    pub place: Place,
    pub version: u32,
    pub retired: u32,
    pub body: Body,
}

#[derive(Clone, Copy, PartialEq, Eq, Debug)]
pub enum Slot {
    Free,
    Used(Record),
    /// Used, but not in form: the fields by which 02, 2026-07, tells what it was, as they stand.
    Spoiled(Fields),
}

#[derive(Clone, Copy, PartialEq, Eq, Debug)]
pub struct Fields {
    pub count: u16,
    pub bits: Bytes32,
    pub version: u32,
    pub retired: u32,
}

fn zero(s: &[u8]) -> bool {
    s.iter().all(|&b| b == 0)
}

fn head_at(s: &[u8]) -> Head {
    Head { length: u32_at(s, at::LENGTH), kind: u16_at(s, at::KIND) }
}

fn put_head(s: &mut [u8], head: Head) {
    s[at::LENGTH..][..4].copy_from_slice(&head.length.to_le_bytes());
    s[at::KIND..][..2].copy_from_slice(&head.kind.to_le_bytes());
}

/// A child's count may be any number, a missing child's too: that it is true is a part of soundness, not of form.
fn child_at(form: Form, s: &[u8], side: usize) -> Option<Child> {
    let leaves = match form {
        Form::Plain => 0,
        Form::Counted => u32_at(s, at::LEAVES[side]),
    };
    let c = Child { version: u32_at(s, at::CHILD[side]), hash: b32_at(s, at::CHILD_HASH[side]), leaves };
    (c.version != 0 || c.hash == ZEROS).then_some(c)
}

fn record(form: Form, s: &[u8]) -> Option<Record> {
    let head = head_at(s);
    let most = match head {
        LEAF => 256,
        inner if inner == form.inner() => 255,
        _ => return None,
    };
    let count = u16_at(s, at::BIT_COUNT) as usize;
    let bits = b32_at(s, at::BITS);
    let version = u32_at(s, at::VERSION);
    if count > most || (count..256).any(|i| bit(&bits, i)) || version == 0 {
        return None;
    }
    let body = if head == LEAF {
        if !zero(&s[at::TAIL..]) {
            return None;
        }
        Body::Leaf { key: b32_at(s, at::KEY), value: b32_at(s, at::VALUE) }
    } else {
        let children = [child_at(form, s, 0)?, child_at(form, s, 1)?];
        if children[0].version == 0 && children[1].version == 0 {
            return None;
        }
        Body::Inner(children)
    };
    Some(Record { place: Place { bits, count }, version, retired: u32_at(s, at::RETIRED), body })
}

pub fn slot(s: &[u8]) -> Slot {
    slot_in(FORM, s)
}

pub fn slot_in(form: Form, s: &[u8]) -> Slot {
    assert_eq!(s.len(), form.slot());
    if zero(s) {
        return Slot::Free;
    }
    let fields = Fields {
        count: u16_at(s, at::BIT_COUNT),
        bits: b32_at(s, at::BITS),
        version: u32_at(s, at::VERSION),
        retired: u32_at(s, at::RETIRED),
    };
    record(form, s).map_or(Slot::Spoiled(fields), Slot::Used)
}

pub fn slot_bytes(r: &Record) -> [u8; SLOT] {
    slot_bytes_in(FORM, r).try_into().unwrap()
}

pub fn slot_bytes_in(form: Form, r: &Record) -> Vec<u8> {
    let mut s = vec![0; form.slot()];
    s[at::BIT_COUNT..][..2].copy_from_slice(&(r.place.count as u16).to_le_bytes());
    s[at::BITS..][..32].copy_from_slice(&r.place.bits);
    s[at::VERSION..][..4].copy_from_slice(&r.version.to_le_bytes());
    s[at::RETIRED..][..4].copy_from_slice(&r.retired.to_le_bytes());
    match r.body {
        Body::Leaf { key, value } => {
            put_head(&mut s, LEAF);
            s[at::KEY..][..32].copy_from_slice(&key);
            s[at::VALUE..][..32].copy_from_slice(&value);
        }
        Body::Inner(children) => {
            put_head(&mut s, form.inner());
            for (side, c) in children.iter().enumerate() {
                s[at::CHILD[side]..][..4].copy_from_slice(&c.version.to_le_bytes());
                s[at::CHILD_HASH[side]..][..32].copy_from_slice(&c.hash);
                if form == Form::Counted {
                    s[at::LEAVES[side]..][..4].copy_from_slice(&c.leaves.to_le_bytes());
                }
            }
        }
    }
    s
}

/// A store with a right header.
#[derive(Clone, PartialEq, Eq, Debug)]
pub struct Store {
    pub form: Form,
    pub oldest: u32,
    pub latest: u32,
    pub slots: Vec<Slot>,
}

/// 1, then 2.
pub fn capacity(length: usize) -> Result<usize, Refusal> {
    capacity_in(FORM, length)
}

pub fn capacity_in(form: Form, length: usize) -> Result<usize, Refusal> {
    if length < HEADER || (length - HEADER) % form.slot() != 0 {
        return Err(1);
    }
    let n = (length - HEADER) / form.slot();
    if n == 0 || n > MOST_SLOTS {
        return Err(1);
    }
    Ok(n)
}

pub fn store(s: &[u8]) -> Result<Store, Refusal> {
    store_in(FORM, s)
}

pub fn store_in(form: Form, s: &[u8]) -> Result<Store, Refusal> {
    let n = capacity_in(form, s.len())?;
    let (oldest, latest) = (u32_at(s, header::OLDEST), u32_at(s, header::LATEST));
    let right = head_at(s) == form.header()
        && zero(&s[header::GAP..header::CAPACITY])
        && u32_at(s, header::CAPACITY) as usize == n
        && zero(&s[header::TAIL..HEADER])
        && oldest <= latest;
    if !right {
        return Err(2);
    }
    Ok(Store { form, oldest, latest, slots: s[HEADER..].chunks_exact(form.slot()).map(|c| slot_in(form, c)).collect() })
}

pub fn put_header(s: &mut [u8], oldest: u32, latest: u32) {
    put_header_in(FORM, s, oldest, latest);
}

pub fn put_header_in(form: Form, s: &mut [u8], oldest: u32, latest: u32) {
    let n = ((s.len() - HEADER) / form.slot()) as u32;
    s[..HEADER].fill(0);
    put_head(s, form.header());
    for (field, number) in [(header::CAPACITY, n), (header::OLDEST, oldest), (header::LATEST, latest)] {
        s[field..][..4].copy_from_slice(&number.to_le_bytes());
    }
}

pub fn put_slot(s: &mut [u8], i: usize, slot: &[u8; SLOT]) {
    put_slot_in(FORM, s, i, slot);
}

pub fn put_slot_in(form: Form, s: &mut [u8], i: usize, slot: &[u8]) {
    s[HEADER + form.slot() * i..][..form.slot()].copy_from_slice(slot);
}

/// The bytes of a store, its free slots zero.
pub fn store_bytes(store: &Store) -> Vec<u8> {
    let form = store.form;
    let mut s = vec![0; HEADER + form.slot() * store.slots.len()];
    put_header_in(form, &mut s, store.oldest, store.latest);
    for (i, slot) in store.slots.iter().enumerate() {
        match slot {
            Slot::Free => {}
            Slot::Used(r) => put_slot_in(form, &mut s, i, &slot_bytes_in(form, r)),
            Slot::Spoiled(_) => panic!("a spoiled slot has no bytes of its own"),
        }
    }
    s
}

#[derive(Clone, Copy, PartialEq, Eq, Debug)]
pub struct Ask {
    pub key: Bytes32,
    /// None: a delete.
    pub value: Option<Bytes32>,
}

pub fn ask_bytes(a: &Ask) -> [u8; ASK] {
    let mut s = [0; ASK];
    let (length, kind) = if a.value.is_some() { (72u32, 1u16) } else { (40, 2) };
    s[0..4].copy_from_slice(&length.to_le_bytes());
    s[4..6].copy_from_slice(&kind.to_le_bytes());
    s[8..40].copy_from_slice(&a.key);
    s[40..].copy_from_slice(&a.value.unwrap_or(ZEROS));
    s
}

fn ask(s: &[u8]) -> Option<Ask> {
    if !zero(&s[6..8]) {
        return None;
    }
    let key = b32_at(s, 8);
    match (u32_at(s, 0), u16_at(s, 4)) {
        (72, 1) => Some(Ask { key, value: Some(b32_at(s, 40)) }),
        (40, 2) if zero(&s[40..]) => Some(Ask { key, value: None }),
        _ => None,
    }
}

/// 4, then 5.
pub fn batch(s: &[u8]) -> Result<Vec<Ask>, Refusal> {
    if s.len() % ASK != 0 || s.len() / ASK > MOST_ASKS {
        return Err(4);
    }
    let asks: Option<Vec<Ask>> = s.chunks_exact(ASK).map(ask).collect();
    let asks = asks.ok_or(4u32)?;
    if asks.windows(2).any(|w| w[0].key >= w[1].key) {
        return Err(5);
    }
    Ok(asks)
}
