//! 02, request 2026-01: what changed between two kept versions, and the places visited when their trees are compared.

use crate::bytes::{self, Body, Place, Record, ASK};
use crate::sound::sound;
use crate::tree::{grants_of, version_tree, Grants, Index};
use crate::{proof, Bytes32, Refusal};
use std::collections::HashMap;

type Nodes = HashMap<Place, (usize, Record)>;

/// Visit the empty place; where both trees have the same record, or neither has an inner node there, go no deeper; else visit both longer
/// places. A visit counts one.
pub fn visited(first: &Nodes, second: &Nodes) -> usize {
    let inner = |nodes: &Nodes, p: &Place| matches!(nodes.get(p), Some((_, Record { body: Body::Inner(_), .. })));
    let mut count = 0;
    let mut todo = vec![Place::EMPTY];
    while let Some(p) = todo.pop() {
        count += 1;
        let same = match (first.get(&p), second.get(&p)) {
            (Some((i, _)), Some((j, _))) => i == j,
            _ => false,
        };
        if !same && (inner(first, &p) || inner(second, &p)) {
            todo.extend([p.longer(false), p.longer(true)]);
        }
    }
    count
}

fn record(kind: u16, key: &Bytes32, value: &Bytes32) -> [u8; ASK] {
    let mut s = [0; ASK];
    s[0..4].copy_from_slice(&72u32.to_le_bytes());
    s[4..6].copy_from_slice(&kind.to_le_bytes());
    s[8..40].copy_from_slice(key);
    s[40..].copy_from_slice(value);
    s
}

/// Every key added, removed or given another value, in key order, each once; deletes carry the old value, changes are a delete and then an
/// insert.
pub fn list(first: &Grants, second: &Grants) -> Vec<u8> {
    let mut keys: Vec<&Bytes32> = first.keys().chain(second.keys()).collect();
    keys.sort();
    keys.dedup();
    let mut out = vec![];
    for k in keys {
        let (old, new) = (first.get(k), second.get(k));
        if old != new {
            out.extend(old.map(|v| record(2, k, v)).into_iter().chain(new.map(|v| record(1, k, v))).flatten());
        }
    }
    out
}

/// The number of records; the list is at the front of the room.
pub fn changes(s: &[u8], first: u32, second: u32, limit: u32, room: &mut [u8]) -> Result<u32, Refusal> {
    let store = bytes::store(s)?;
    if !sound(&store) {
        return Err(3);
    }
    proof::kept(&store, first)?;
    proof::kept(&store, second)?;
    let index = Index::of(&store);
    let (a, b) = (version_tree(&store, &index, first), version_tree(&store, &index, second));
    if visited(&a, &b) > limit as usize {
        return Err(13);
    }
    let list = list(&grants_of(a.values().map(|(_, r)| r)), &grants_of(b.values().map(|(_, r)| r)));
    if list.len() > room.len() {
        return Err(9);
    }
    room[..list.len()].copy_from_slice(&list);
    Ok((list.len() / ASK) as u32)
}

/// How many visits there are, and how many records: of kept versions of a sound store.
pub fn measures(s: &[u8], first: u32, second: u32) -> Result<(usize, usize), Refusal> {
    let store = bytes::store(s)?;
    proof::kept(&store, first)?;
    proof::kept(&store, second)?;
    let index = Index::of(&store);
    let (a, b) = (version_tree(&store, &index, first), version_tree(&store, &index, second));
    let list = list(&grants_of(a.values().map(|(_, r)| r)), &grants_of(b.values().map(|(_, r)| r)));
    Ok((visited(&a, &b), list.len() / ASK))
}
