//! 02, request 2026-05: a table of slot numbers beside the records. Used slots in order of place (a shorter place before its extensions, then bits) and
//! then version, unused entries at the end all set to the capacity.

use crate::bytes::{self, Place, Record, Slot, Store};
use crate::sound::sound;
use crate::tree::{lives, Index};
use crate::{alone, calls, palette, positions, proof, Bytes32, Refusal, Stopped};
use std::cmp::Ordering;

/// A shorter place before its extensions, then by bits: bit by bit, and where one place ends first it is before the other.
fn places(p: Place, q: Place) -> Ordering {
    for i in 0..p.count.min(q.count) {
        match bytes::bit(&p.bits, i).cmp(&bytes::bit(&q.bits, i)) {
            Ordering::Equal => {}
            other => return other,
        }
    }
    p.count.cmp(&q.count)
}

/// How a record stands to a node: by place, and then by version.
pub fn order(r: &Record, version: u32, place: Place) -> Ordering {
    places(r.place, place).then(r.version.cmp(&version))
}

/// How a record stands to the root of a version (2026-13): other places and later versions are too great, a lifetime that covers it matches, else a root is
/// too small.
pub fn root_order(r: &Record, version: u32) -> Ordering {
    if r.place.count != 0 || version < r.version {
        Ordering::Greater
    } else if lives(r, version) {
        Ordering::Equal
    } else {
        Ordering::Less
    }
}

/// A search halves: between lo (first 0) and hi (first the capacity) it looks at (lo + hi) / 2, rounded down; an entry that names no slot in form counts as
/// too great. It ends at the first entry looked at that matches.
pub fn search<'a>(store: &'a Store, table: &[u32], look: impl Fn(&Record) -> Ordering) -> Option<(usize, &'a Record)> {
    let (mut lo, mut hi) = (0, store.slots.len());
    while lo < hi {
        let middle = (lo + hi) / 2;
        let i = table[middle] as usize;
        match store.slots.get(i) {
            Some(Slot::Used(r)) => match look(r) {
                Ordering::Equal => return Some((i, r)),
                Ordering::Less => lo = middle + 1,
                Ordering::Greater => hi = middle,
            },
            _ => hi = middle,
        }
    }
    None
}

/// The right table of a store.
pub fn right(store: &Store) -> Vec<u32> {
    let mut used: Vec<(usize, &Record)> = vec![];
    for (i, slot) in store.slots.iter().enumerate() {
        if let Slot::Used(r) = slot {
            used.push((i, r));
        }
    }
    used.sort_by(|(_, a), (_, b)| order(a, b.version, b.place));
    let mut table: Vec<u32> = used.iter().map(|(i, _)| *i as u32).collect();
    table.resize(store.slots.len(), store.slots.len() as u32);
    table
}

/// 1 for the store's length, or the table's; then 2.
fn opened(s: &[u8], table: &[u32]) -> Result<Store, Refusal> {
    if table.len() != bytes::capacity(s.len())? {
        return Err(1);
    }
    bytes::store(s)
}

/// And 3.
fn sound_one(s: &[u8], table: &[u32]) -> Result<Store, Refusal> {
    let store = opened(s, table)?;
    if sound(&store) {
        Ok(store)
    } else {
        Err(3)
    }
}

/// Builds the table of a sound store.
pub fn index(s: &[u8], table: &mut [u32]) -> Result<(), Refusal> {
    let store = sound_one(s, table)?;
    table.copy_from_slice(&right(&store));
    Ok(())
}

/// Tells whether it is right: 16 if not.
pub fn index_check(s: &[u8], table: &[u32]) -> Result<(), Refusal> {
    if right(&sound_one(s, table)?) == table {
        Ok(())
    } else {
        Err(16)
    }
}

pub fn format_indexed(s: &mut [u8], table: &mut [u32]) -> Result<(), Refusal> {
    let capacity = bytes::capacity(s.len())?;
    if table.len() != capacity {
        return Err(1);
    }
    calls::format(s)?;
    table.fill(capacity as u32);
    Ok(())
}

pub fn apply_indexed(s: &mut [u8], table: &mut [u32], number: u32, batch: &[u8]) -> Result<(u32, Bytes32, u32), Refusal> {
    index_check(s, table)?;
    let answer = calls::apply_to_sound(s, number, batch)?;
    table.copy_from_slice(&right(&bytes::store(s)?));
    Ok(answer)
}

pub fn prune_indexed(s: &mut [u8], table: &mut [u32], n: u32) -> Result<u32, Refusal> {
    index_check(s, table)?;
    let freed = calls::prune(s, n)?;
    table.copy_from_slice(&right(&bytes::store(s)?));
    Ok(freed)
}

fn looking(s: &[u8], table: &[u32]) -> Result<(Store, Index), Refusal> {
    let store = opened(s, table)?;
    let index = Index::by(&store, table);
    Ok((store, index))
}

fn whole(key: &[u8]) -> Result<Bytes32, Refusal> {
    key.try_into().map_err(|_| 12)
}

pub fn root_indexed(s: &[u8], table: &[u32], version: u32) -> Result<Bytes32, Stopped> {
    let (store, index) = looking(s, table)?;
    calls::root_of(&store, &index, version)
}

pub fn get_indexed(s: &[u8], table: &[u32], version: u32, key: &[u8]) -> Result<Option<Bytes32>, Stopped> {
    let key = whole(key)?;
    let (store, index) = looking(s, table)?;
    calls::value_of(&store, &index, version, &key)
}

pub fn count_indexed(s: &[u8], table: &[u32], version: u32) -> Result<u64, Stopped> {
    let (store, index) = looking(s, table)?;
    positions::count_of(&store, &index, version)
}

pub fn at_indexed(s: &[u8], table: &[u32], version: u32, position: u64) -> Result<(Bytes32, Bytes32), Stopped> {
    let (store, index) = looking(s, table)?;
    positions::grant_of(&store, &index, version, position)
}

pub fn prove_indexed(s: &[u8], table: &[u32], version: u32, key: &[u8], room: &mut [u8]) -> Result<u32, Stopped> {
    let key = whole(key)?;
    let (store, index) = looking(s, table)?;
    fill(proof::proof_of(&store, &index, version, &key)?, room)
}

pub fn palette_indexed(s: &[u8], table: &[u32], version: u32, keys: &[u8], room: &mut [u8]) -> Result<u32, Stopped> {
    if keys.len() % 32 != 0 || keys.len() / 32 > palette::KEYS {
        return Err(alone(12));
    }
    let (store, index) = looking(s, table)?;
    proof::kept(&store, version)?;
    let mut all = vec![];
    for key in keys.chunks(32) {
        all.extend(proof::proof_of(&store, &index, version, &whole(key)?)?);
    }
    fill(all, room)
}

fn fill(bytes: Vec<u8>, room: &mut [u8]) -> Result<u32, Stopped> {
    if bytes.len() > room.len() {
        return Err(alone(9));
    }
    room[..bytes.len()].copy_from_slice(&bytes);
    Ok(bytes.len() as u32)
}
