//! Format, apply, prune, and the two reads.

use crate::bytes::{self, bit, Body, Form, Place, Slot, Store, FORM};
use crate::sound::sound;
use crate::tree::{grants_of, make, placing, record_hash, version_tree, Grants, Index};
use crate::{proof, Bytes32, Refusal, Stopped, ZEROS};
use std::collections::HashMap;

pub fn format(s: &mut [u8]) -> Result<(), Refusal> {
    format_in(FORM, s)
}

pub fn format_in(form: Form, s: &mut [u8]) -> Result<(), Refusal> {
    bytes::capacity_in(form, s.len())?;
    s.fill(0);
    bytes::put_header_in(form, s, 0, 0);
    Ok(())
}

/// The number given, the root and the count of new records. By 2026-13 the new version has the caller's number, any above latest, else 18.
pub fn apply(s: &mut [u8], number: u32, batch: &[u8]) -> Result<(u32, Bytes32, u32), Refusal> {
    apply_in(FORM, s, number, batch)
}

pub fn apply_in(form: Form, s: &mut [u8], number: u32, batch: &[u8]) -> Result<(u32, Bytes32, u32), Refusal> {
    if !sound(&bytes::store_in(form, s)?) {
        return Err(3);
    }
    apply_to_sound_in(form, s, number, batch)
}

/// The rest of apply, for a store that is known to be sound.
pub fn apply_to_sound(s: &mut [u8], new: u32, batch: &[u8]) -> Result<(u32, Bytes32, u32), Refusal> {
    apply_to_sound_in(FORM, s, new, batch)
}

fn apply_to_sound_in(form: Form, s: &mut [u8], new: u32, batch: &[u8]) -> Result<(u32, Bytes32, u32), Refusal> {
    let store = bytes::store_in(form, s)?;
    let asks = bytes::batch(batch)?;
    if new <= store.latest {
        return Err(18);
    }
    let index = Index::of(&store);
    let old = version_tree(&store, &index, store.latest);
    let before = grants_of(old.values().map(|(_, r)| r));
    let mut after: Grants = before.clone();
    for a in &asks {
        match a.value {
            Some(v) => after.insert(a.key, v),
            None => after.remove(&a.key),
        };
    }
    let before: Vec<(Bytes32, Bytes32)> = before.into_iter().collect();
    let after: Vec<(Bytes32, Bytes32)> = after.into_iter().collect();
    let keeps = |place: Place, grants: &[(Bytes32, Bytes32)]| {
        let (_, r) = old.get(&place)?;
        let from = before.partition_point(|(k, _)| k < &place.bits);
        let below = before[from..].iter().take_while(|(k, _)| place.begins(k));
        below.eq(grants.iter()).then_some(r.version)
    };
    let made = make(&after, new, &keeps);
    let fresh: Vec<_> = placing(&made).into_iter().filter(|r| r.version == new).collect();
    let free: Vec<usize> = (0..store.slots.len()).filter(|&i| store.slots[i] == Slot::Free).collect();
    if free.len() < fresh.len() {
        return Err(7);
    }
    for (place, (i, r)) in &old {
        if made.nodes.get(place).map(|q| q.version) != Some(r.version) {
            let mut r = *r;
            r.retired = new;
            bytes::put_slot_in(form, s, *i, &bytes::slot_bytes_in(form, &r));
        }
    }
    for (i, r) in free.iter().zip(&fresh) {
        bytes::put_slot_in(form, s, *i, &bytes::slot_bytes_in(form, r));
    }
    bytes::put_header_in(form, s, store.oldest, new);
    Ok((new, made.root.hash, fresh.len() as u32))
}

/// How many records were freed.
pub fn prune(s: &mut [u8], n: u32) -> Result<u32, Refusal> {
    prune_in(FORM, s, n)
}

pub fn prune_in(form: Form, s: &mut [u8], n: u32) -> Result<u32, Refusal> {
    let store = bytes::store_in(form, s)?;
    if !sound(&store) {
        return Err(3);
    }
    if n < store.oldest || n > store.latest {
        return Err(8);
    }
    let mut freed = 0;
    for (i, slot) in store.slots.iter().enumerate() {
        if let Slot::Used(r) = slot {
            if 0 < r.retired && r.retired <= n {
                bytes::put_slot_in(form, s, i, &vec![0; form.slot()]);
                freed += 1;
            }
        }
    }
    bytes::put_header_in(form, s, n, store.latest);
    Ok(freed)
}

pub fn root(s: &[u8], version: u32) -> Result<Bytes32, Stopped> {
    root_in(FORM, s, version)
}

pub fn root_in(form: Form, s: &[u8], version: u32) -> Result<Bytes32, Stopped> {
    let store = bytes::store_in(form, s)?;
    root_of(&store, &Index::of(&store), version)
}

pub fn root_of(store: &Store, index: &Index, version: u32) -> Result<Bytes32, Stopped> {
    proof::kept(store, version)?;
    Ok(proof::judged_root(store, index, version)?.map_or(ZEROS, record_hash))
}

/// The value, or None for absent.
pub fn get(s: &[u8], version: u32, key: &[u8]) -> Result<Option<Bytes32>, Stopped> {
    get_in(FORM, s, version, key)
}

pub fn get_in(form: Form, s: &[u8], version: u32, key: &[u8]) -> Result<Option<Bytes32>, Stopped> {
    let key: Bytes32 = key.try_into().map_err(|_| 12u32)?;
    let store = bytes::store_in(form, s)?;
    value_of(&store, &Index::of(&store), version, &key)
}

pub fn value_of(store: &Store, index: &Index, version: u32, key: &Bytes32) -> Result<Option<Bytes32>, Stopped> {
    proof::kept(store, version)?;
    let walk = proof::walk(store, index, version, key)?;
    Ok(walk.end.filter(|(k, _)| k == key).map(|(_, v)| v))
}

/// Every key's bits lead to its leaf: used by tests that ask for a key's path.
pub fn place_of(key: &Bytes32, count: usize) -> Place {
    (0..count).fold(Place::EMPTY, |p, i| p.longer(bit(key, i)))
}

/// The grants of a kept version of a sound store.
pub fn grants(s: &[u8], version: u32) -> Result<Grants, Refusal> {
    grants_in(FORM, s, version)
}

pub fn grants_in(form: Form, s: &[u8], version: u32) -> Result<Grants, Refusal> {
    let store = bytes::store_in(form, s)?;
    proof::kept(&store, version)?;
    let nodes: HashMap<_, _> = version_tree(&store, &Index::of(&store), version);
    Ok(grants_of(nodes.values().map(|(_, r)| r).filter(|r| matches!(r.body, Body::Leaf { .. }))))
}
