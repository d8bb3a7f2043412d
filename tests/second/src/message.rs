//! 02, request 2026-02: our record as the protobuf CommitmentProof of ICS 23's published proto file, and back. Protobuf is written here by hand:
//! a field is a number, a kind (0 a number, 2 bytes or a message) and what it holds; defaults are left out, and a message has one encoding.
//!
//! | message | fields |
//! |---|---|
//! | CommitmentProof | exist 1, nonexist 2 |
//! | ExistenceProof | key 1, value 2, leaf 3, path 4 (repeated) |
//! | NonExistenceProof | key 1, left 2, right 3 |
//! | LeafOp | hash 1, prehash_key 2, prehash_value 3, length 4, prefix 5 |
//! | InnerOp | hash 1, prefix 2, suffix 3 |

use crate::check::{decode, Proof};
use crate::proof::{absence_bytes, presence_bytes, Presence, Step};
use crate::sha256::sha256;
use crate::{Bytes32, Refusal};
use std::ops::Range;

/// HashOp SHA256; LengthOp NO_PREFIX is 0, the default.
const SHA256: u64 = 1;
const MOST_KEY: usize = 256;
const MOST_VALUE: usize = 4_096;
const MOST_STEPS: usize = 256;

/// What a field holds.
pub enum Held<'a> {
    Number(u64),
    Bytes(&'a [u8]),
}

fn varint(out: &mut Vec<u8>, mut x: u64) {
    while x >= 128 {
        out.push(x as u8 | 128);
        x >>= 7;
    }
    out.push(x as u8);
}

/// A number or bytes, left out where it is the default.
fn put(out: &mut Vec<u8>, field: u64, held: Held) {
    match held {
        Held::Number(0) => {}
        Held::Bytes([]) => {}
        Held::Number(x) => {
            varint(out, field << 3);
            varint(out, x);
        }
        Held::Bytes(x) => put_message(out, field, x),
    }
}

/// A message is written even where it is empty: it has no default.
fn put_message(out: &mut Vec<u8>, field: u64, x: &[u8]) {
    varint(out, field << 3 | 2);
    varint(out, x.len() as u64);
    out.extend(x);
}

fn leaf_op() -> Vec<u8> {
    let mut out = vec![];
    for field in [1, 2, 3] {
        put(&mut out, field, Held::Number(SHA256));
    }
    put(&mut out, 4, Held::Number(0));
    put(&mut out, 5, Held::Bytes(&[1]));
    out
}

/// The node is the left child: the sibling follows it. The right one: the sibling stands before it.
fn inner_op(s: &Step) -> Vec<u8> {
    let (before, after): (Vec<u8>, &[u8]) = if s.side { ([&[0], &s.sibling[..]].concat(), &[]) } else { (vec![0], &s.sibling) };
    let mut out = vec![];
    put(&mut out, 1, Held::Number(SHA256));
    put(&mut out, 2, Held::Bytes(&before));
    put(&mut out, 3, Held::Bytes(after));
    out
}

fn existence(key: &[u8], value: &[u8], steps: &[Step]) -> Vec<u8> {
    let mut out = vec![];
    put(&mut out, 1, Held::Bytes(key));
    put(&mut out, 2, Held::Bytes(value));
    put_message(&mut out, 3, &leaf_op());
    for s in steps {
        put_message(&mut out, 4, &inner_op(s));
    }
    out
}

/// Raw key and value of a leaf; a leaf not lent has neither.
#[derive(Clone, Copy, Default, PartialEq, Eq, Debug)]
pub struct Leaf<'a> {
    pub key: &'a [u8],
    pub value: &'a [u8],
}

impl Leaf<'_> {
    fn none(&self) -> bool {
        self.key.is_empty() && self.value.is_empty()
    }

    fn shows(&self, p: &Presence) -> bool {
        raw(self.key, MOST_KEY, &p.key) && raw(self.value, MOST_VALUE, &p.value)
    }
}

fn raw(x: &[u8], most: usize, hash: &Bytes32) -> bool {
    (1..=most).contains(&x.len()) && sha256(x) == *hash
}

/// The message of a record, with what was lent in place of the hashes: 10, 15.
pub fn message(record: &[u8], asked: &[u8], first: Leaf, second: Leaf) -> Result<Vec<u8>, Refusal> {
    let mut out = vec![];
    match decode(record).ok_or(10u32)? {
        Proof::Present(p) => {
            if !raw(asked, MOST_KEY, &p.key) || !first.shows(&p) || !second.none() {
                return Err(15);
            }
            put_message(&mut out, 1, &existence(first.key, first.value, &p.steps));
        }
        Proof::Absent { key, left, right } => {
            let shown: Vec<(u64, &Presence)> = [(2, &left), (3, &right)].into_iter().filter_map(|(n, p)| Some((n, p.as_ref()?))).collect();
            let lent = [first, second];
            let fits = shown.iter().zip(lent).all(|((_, p), leaf)| leaf.shows(p)) && lent[shown.len()..].iter().all(Leaf::none);
            if !raw(asked, MOST_KEY, &key) || !fits {
                return Err(15);
            }
            let mut inside = vec![];
            put(&mut inside, 1, Held::Bytes(asked));
            for ((field, p), leaf) in shown.iter().zip(lent) {
                put_message(&mut inside, *field, &existence(leaf.key, leaf.value, &p.steps));
            }
            put_message(&mut out, 2, &inside);
        }
    }
    Ok(out)
}

fn fill(bytes: &[u8], room: &mut [u8]) -> Result<u32, Refusal> {
    if bytes.len() > room.len() {
        return Err(9);
    }
    room[..bytes.len()].copy_from_slice(bytes);
    Ok(bytes.len() as u32)
}

/// 10, 15, 9; the message at the front of the room, and its length.
pub fn ics23_write(record: &[u8], asked: &[u8], first: Leaf, second: Leaf, room: &mut [u8]) -> Result<u32, Refusal> {
    fill(&message(record, asked, first, second)?, room)
}

/// The fields of a message from its front, in any order and of any number, as any protobuf reader would see them: shortest varints or not.
pub fn fields(m: &[u8], mut each: impl FnMut(u64, Held, Range<usize>) -> Option<()>) -> Option<()> {
    let mut at = 0;
    let number = |at: &mut usize| -> Option<u64> {
        let mut x = 0u64;
        for i in 0..10 {
            let b = *m.get(*at)?;
            *at += 1;
            x |= u64::from(b & 127).checked_shl(7 * i)?;
            if b < 128 {
                return Some(x);
            }
        }
        None
    };
    while at < m.len() {
        let tag = number(&mut at)?;
        match tag & 7 {
            0 => {
                let from = at;
                let x = number(&mut at)?;
                each(tag >> 3, Held::Number(x), from..at)?;
            }
            2 => {
                let n = usize::try_from(number(&mut at)?).ok()?;
                let to = at.checked_add(n).filter(|&to| to <= m.len())?;
                each(tag >> 3, Held::Bytes(&m[at..to]), at..to)?;
                at = to;
            }
            _ => return None,
        }
    }
    Some(())
}

/// What stands in a message: where its raw parts are, and its steps.
struct Shown {
    key: Range<usize>,
    value: Range<usize>,
    steps: Vec<Step>,
}

fn step(m: &[u8]) -> Option<Step> {
    let (mut prefix, mut suffix): (&[u8], &[u8]) = (&[], &[]);
    let (mut before, mut after) = (0..0, 0..0);
    fields(m, |n, held, at| {
        match (n, held) {
            (1, Held::Number(_)) => {}
            (2, Held::Bytes(_)) => before = at,
            (3, Held::Bytes(_)) => after = at,
            _ => return None,
        }
        Some(())
    })?;
    prefix = if before.is_empty() { prefix } else { &m[before] };
    suffix = if after.is_empty() { suffix } else { &m[after] };
    match (prefix, suffix) {
        ([0], s) => Some(Step { side: false, sibling: s.try_into().ok()? }),
        ([0, s @ ..], []) => Some(Step { side: true, sibling: s.try_into().ok()? }),
        _ => None,
    }
}

/// Taken apart leniently; whether it is the one encoding is asked of the whole, by writing it again.
fn shown(m: &[u8], from: usize) -> Option<Shown> {
    let mut s = Shown { key: 0..0, value: 0..0, steps: vec![] };
    let there = |at: Range<usize>| from + at.start..from + at.end;
    fields(m, |n, held, at| {
        match (n, held) {
            (1, Held::Bytes(_)) => s.key = there(at),
            (2, Held::Bytes(_)) => s.value = there(at),
            (3, Held::Bytes(_)) => {}
            (4, Held::Bytes(op)) => s.steps.push(step(op)?),
            _ => return None,
        }
        Some(())
    })?;
    Some(s)
}

/// Where in a message the key asked for and the raw leaves stand; empty ranges at 0 where none is.
#[derive(Clone, PartialEq, Eq, Debug, Default)]
pub struct Parts {
    pub asked: Range<usize>,
    pub leaves: [[Range<usize>; 2]; 2],
}

/// Our own record of a message in the one encoding, and where its raw parts stand.
pub fn record(m: &[u8]) -> Option<(Vec<u8>, Parts)> {
    let mut whole = None;
    fields(m, |n, held, at| {
        match (n, held) {
            (1 | 2, Held::Bytes(_)) => whole = Some((n, at)),
            _ => return None,
        }
        Some(())
    })?;
    let (n, at) = whole?;
    let leaves: Vec<Shown>;
    let mut asked = 0..0;
    if n == 1 {
        leaves = vec![shown(&m[at.clone()], at.start)?];
        asked = leaves[0].key.clone();
    } else {
        let mut found = vec![];
        fields(&m[at.clone()], |n, held, inside| {
            let from = at.start + inside.start;
            match (n, held) {
                (1, Held::Bytes(x)) => asked = from..from + x.len(),
                (2 | 3, Held::Bytes(x)) => found.push((n, shown(x, from)?)),
                _ => return None,
            }
            Some(())
        })?;
        if found.is_empty() || found.len() > 2 {
            return None;
        }
        let flags = found.iter().map(|(n, _)| n).collect::<Vec<_>>();
        if !matches!(flags[..], [2] | [3] | [2, 3]) {
            return None;
        }
        let right_alone = *flags[0] == 3;
        leaves = found.into_iter().map(|(_, s)| s).collect();
        let presences: Vec<Presence> = leaves.iter().map(|s| own(m, s)).collect();
        let key = sha256(&m[asked.clone()]);
        let (l, r) = if right_alone { (None, presences.first()) } else { (presences.first(), presences.get(1)) };
        return finished(m, asked, &leaves, absence_bytes(&key, l, r));
    }
    let own = presence_bytes(&own(m, &leaves[0]));
    finished(m, asked, &leaves, own)
}

fn own(m: &[u8], s: &Shown) -> Presence {
    Presence { key: sha256(&m[s.key.clone()]), value: sha256(&m[s.value.clone()]), steps: s.steps.clone() }
}

/// The reader takes no other encoding, nor other raw lengths, nor more steps: what it read must be written just so.
fn finished(m: &[u8], asked: Range<usize>, leaves: &[Shown], own: Vec<u8>) -> Option<(Vec<u8>, Parts)> {
    if leaves.iter().any(|s| s.steps.len() > MOST_STEPS) {
        return None;
    }
    let leaf = |i: usize| leaves.get(i).map_or(Leaf::default(), |s| Leaf { key: &m[s.key.clone()], value: &m[s.value.clone()] });
    let again = message(&own, &m[asked.clone()], leaf(0), leaf(1)).ok()?;
    if again != m {
        return None;
    }
    let part = |i: usize| leaves.get(i).map_or([0..0, 0..0], |s| [s.key.clone(), s.value.clone()]);
    Some((own, Parts { asked, leaves: [part(0), part(1)] }))
}

/// 10, 9; the record at the front of the room. The record's length, and where the raw parts stand.
pub fn ics23_read(m: &[u8], room: &mut [u8]) -> Result<(u32, Parts), Refusal> {
    let (own, parts) = record(m).ok_or(10u32)?;
    Ok((fill(&own, room)?, parts))
}

/// The 44 bytes of the C answer: the record's length, then offset and length of asked, key1, value1, key2, value2.
pub fn answer(length: u32, parts: &Parts) -> [u8; 44] {
    let mut out = [0; 44];
    out[..4].copy_from_slice(&length.to_le_bytes());
    let [[k1, v1], [k2, v2]] = &parts.leaves;
    for (i, at) in [&parts.asked, k1, v1, k2, v2].into_iter().enumerate() {
        out[4 + 8 * i..][..4].copy_from_slice(&(at.start as u32).to_le_bytes());
        out[8 + 8 * i..][..4].copy_from_slice(&(at.len() as u32).to_le_bytes());
    }
    out
}
