//! 02, request 2026-12: what a forged proof would cost. The hash of a message is a parameter: under SHA-256 no proof that says something false can be
//! made today, so tests take a hash of a few bits.

use crate::bytes::{self, Body, Place, Record};
use crate::check::{accepted, decode, Proof};
use crate::proof::{self, Presence};
use crate::sha256;
use crate::sound::sound;
use crate::tree::{grants_of, version_tree, Grants, Index};
use crate::{Bytes32, Refusal, ZEROS};
use std::collections::HashMap;

/// Byte 1, key, value; or byte 0, left hash, right hash.
pub type Message = [u8; 65];

fn message(first: u8, a: &Bytes32, b: &Bytes32) -> Message {
    let mut m = [first; 65];
    m[1..33].copy_from_slice(a);
    m[33..].copy_from_slice(b);
    m
}

pub fn leaf_message(key: &Bytes32, value: &Bytes32) -> Message {
    message(1, key, value)
}

pub fn inner_message(left: &Bytes32, right: &Bytes32) -> Message {
    message(0, left, right)
}

/// How nodes are hashed.
pub trait Hashing {
    fn hash(&self, m: &Message) -> Bytes32;

    fn leaf(&self, key: &Bytes32, value: &Bytes32) -> Bytes32 {
        self.hash(&leaf_message(key, value))
    }

    fn inner(&self, left: &Bytes32, right: &Bytes32) -> Bytes32 {
        self.hash(&inner_message(left, right))
    }
}

pub struct Sha256;

impl Hashing for Sha256 {
    fn hash(&self, m: &Message) -> Bytes32 {
        sha256::sha256(m)
    }

    fn leaf(&self, key: &Bytes32, value: &Bytes32) -> Bytes32 {
        sha256::leaf_hash(key, value)
    }

    fn inner(&self, left: &Bytes32, right: &Bytes32) -> Bytes32 {
        sha256::inner_hash(left, right)
    }
}

/// What is found: nothing where the proof tells the truth; two different messages of equal hash; one whose hash is zero.
#[derive(Clone, Copy, PartialEq, Eq, Debug)]
pub enum Finding {
    Nothing,
    Two(Message, Message),
    Zero(Message),
}

/// The messages of a version's nodes, by place.
pub type Nodes = HashMap<Place, Message>;

/// What a proof says: of its key, and of each neighbour that it is present with its value.
pub fn says(p: &Proof) -> Vec<(Bytes32, Option<Bytes32>)> {
    match p {
        Proof::Present(p) => vec![(p.key, Some(p.value))],
        Proof::Absent { key, left, right } => {
            let shown = [left, right].into_iter().flatten().map(|p| (p.key, Some(p.value)));
            std::iter::once((*key, None)).chain(shown).collect()
        }
    }
}

pub fn is_true(grants: &Grants, p: &Proof) -> bool {
    says(p).iter().all(|(k, v)| grants.get(k) == v.as_ref())
}

fn paths(p: &Proof) -> Vec<&Presence> {
    match p {
        Proof::Present(p) => vec![p],
        Proof::Absent { left, right, .. } => [left, right].into_iter().flatten().collect(),
    }
}

/// The messages hashed on the way up a path, the leaf's first.
fn upwards(by: &impl Hashing, p: &Presence) -> Vec<Message> {
    let mut out = vec![leaf_message(&p.key, &p.value)];
    for s in &p.steps {
        let h = by.hash(&out[out.len() - 1]);
        out.push(if s.side { inner_message(&s.sibling, &h) } else { inner_message(&h, &s.sibling) });
    }
    out
}

/// The messages hashed while checking a proof.
pub fn checked(by: &impl Hashing, p: &Proof) -> Vec<Message> {
    paths(p).into_iter().flat_map(|p| upwards(by, p)).collect()
}

/// Down a path from the root, each of its messages beside the node that really stands there. Where they part they have one hash; where no node stands the
/// path's message has hash zero; where a sibling is shown as missing and a node stands, that node's message has.
fn down(by: &impl Hashing, nodes: &Nodes, p: &Presence) -> Finding {
    let messages = upwards(by, p);
    let mut place = Place::EMPTY;
    for i in (0..messages.len()).rev() {
        match nodes.get(&place) {
            None => return Finding::Zero(messages[i]),
            Some(m) if *m != messages[i] => return Finding::Two(*m, messages[i]),
            Some(_) => {}
        }
        if i > 0 {
            let s = &p.steps[i - 1];
            if s.sibling == ZEROS {
                if let Some(m) = nodes.get(&place.longer(!s.side)) {
                    return Finding::Zero(*m);
                }
            }
            place = place.longer(s.side);
        }
    }
    Finding::Nothing
}

/// What is found of a proof that is accepted.
pub fn found(by: &impl Hashing, nodes: &Nodes, grants: &Grants, p: &Proof) -> Finding {
    if is_true(grants, p) {
        return Finding::Nothing;
    }
    paths(p).into_iter().map(|p| down(by, nodes, p)).find(|f| *f != Finding::Nothing).unwrap_or(Finding::Nothing)
}

/// Whether what is named is a finding, from these messages alone.
pub fn holds(by: &impl Hashing, nodes: &Nodes, checked: &[Message], f: &Finding) -> bool {
    let among = |m: &Message| checked.contains(m) || nodes.values().any(|n| n == m);
    match f {
        Finding::Nothing => false,
        Finding::Two(m, n) => among(m) && among(n) && m != n && by.hash(m) == by.hash(n),
        Finding::Zero(m) => among(m) && by.hash(m) == ZEROS,
    }
}

fn record_message(r: &Record) -> Message {
    match &r.body {
        Body::Leaf { key, value } => leaf_message(key, value),
        Body::Inner([l, r]) => inner_message(&l.hash, &r.hash),
    }
}

/// 12; 1, 2, 3 by full soundness; 8, 14; 10, 11; else what is found.
pub fn finding(s: &[u8], version: u32, key: &[u8], proof: &[u8]) -> Result<Finding, Refusal> {
    let key: Bytes32 = key.try_into().map_err(|_| 12u32)?;
    let store = bytes::store(s)?;
    if !sound(&store) {
        return Err(3);
    }
    proof::kept(&store, version)?;
    let tree = version_tree(&store, &Index::of(&store), version);
    let grants = grants_of(tree.values().map(|(_, r)| r));
    let Some((_, top)) = tree.get(&Place::EMPTY) else { return Err(14) };
    let root = Sha256.hash(&record_message(top));
    let p = decode(proof).ok_or(10u32)?;
    accepted(&Sha256, &root, &key, &p).ok_or(11u32)?;
    let nodes: Nodes = tree.iter().map(|(place, (_, r))| (*place, record_message(r))).collect();
    Ok(found(&Sha256, &nodes, &grants, &p))
}
