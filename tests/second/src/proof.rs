//! 01, 'Reading and proving': the walk, the neighbours, the proof; 02, 2026-03 and 2026-07.

use crate::bytes::{self, bit, Body, Child, Form, Place, Record, Store, FORM};
use crate::tree::{Index, Sight};
use crate::{alone, spoiled, Bytes32, Refusal, Stopped};

#[derive(Clone)]
pub struct Step {
    pub side: bool,
    pub sibling: Bytes32,
}

#[derive(Clone)]
pub struct Presence {
    pub key: Bytes32,
    pub value: Bytes32,
    /// From the leaf upwards.
    pub steps: Vec<Step>,
}

pub fn kept(store: &Store, version: u32) -> Result<(), Refusal> {
    if store.oldest <= version && version <= store.latest {
        Ok(())
    } else {
        Err(8)
    }
}

/// An inner node passed, and the side taken there.
#[derive(Clone, Copy)]
pub struct Pass {
    pub place: Place,
    pub children: [Child; 2],
    pub side: bool,
}

pub struct Walk {
    /// The root first.
    pub trail: Vec<Pass>,
    pub end: Option<(Bytes32, Bytes32)>,
}

/// A present child: 17 where no slot matches, 3 with the slot where one agrees.
pub fn judged<'a>(store: &'a Store, index: &Index, c: &Child, place: Place) -> Result<&'a Record, Stopped> {
    match index.see(store, c.version, place) {
        Sight::Matches(_, r) => leaf_begins(r),
        Sight::Agrees(i) => Err(spoiled(i)),
        Sight::Nothing => Err(alone(17)),
    }
}

/// 3 for a leaf whose key doesn't begin with its place; no slot is named, as the record is in form.
fn leaf_begins(r: &Record) -> Result<&Record, Stopped> {
    match &r.body {
        Body::Leaf { key, .. } if !r.place.begins(key) => Err(alone(3)),
        _ => Ok(r),
    }
}

/// The root of a version: none in an empty one, 3 with the slot where one agrees.
pub fn judged_root<'a>(store: &'a Store, index: &Index, version: u32) -> Result<Option<&'a Record>, Stopped> {
    match index.see_root(store, version) {
        Sight::Matches(_, r) => Ok(Some(r)),
        Sight::Agrees(i) => Err(spoiled(i)),
        Sight::Nothing => Ok(None),
    }
}

pub fn walk(store: &Store, index: &Index, version: u32, key: &Bytes32) -> Result<Walk, Stopped> {
    let mut trail = vec![];
    let Some(mut r) = judged_root(store, index, version)? else {
        return Ok(Walk { trail, end: None });
    };
    leaf_begins(r)?;
    loop {
        match r.body {
            Body::Leaf { key, value } => return Ok(Walk { trail, end: Some((key, value)) }),
            Body::Inner(children) => {
                let side = bit(key, r.place.count);
                trail.push(Pass { place: r.place, children, side });
                let c = &children[side as usize];
                if c.version == 0 {
                    return Ok(Walk { trail, end: None });
                }
                r = judged(store, index, c, r.place.longer(side))?;
            }
        }
    }
}

fn steps(trail: &[Pass]) -> Vec<Step> {
    trail.iter().rev().map(|p| Step { side: p.side, sibling: p.children[!p.side as usize].hash }).collect()
}

/// The neighbour on a side: false the left one.
fn neighbour(store: &Store, index: &Index, walk: &Walk, key: &Bytes32, side: bool) -> Result<Option<Presence>, Stopped> {
    if let Some((k, v)) = walk.end {
        if (!side && k < *key) || (side && *key < k) {
            return Ok(Some(Presence { key: k, value: v, steps: steps(&walk.trail) }));
        }
    }
    let turned = |p: &Pass| p.side != side && p.children[side as usize].version != 0;
    let Some(at) = walk.trail.iter().rposition(turned) else { return Ok(None) };
    let mut trail: Vec<Pass> = walk.trail[..=at].to_vec();
    trail[at].side = side;
    loop {
        let p = trail[trail.len() - 1];
        let r = judged(store, index, &p.children[p.side as usize], p.place.longer(p.side))?;
        match r.body {
            Body::Leaf { key, value } => return Ok(Some(Presence { key, value, steps: steps(&trail) })),
            Body::Inner(children) => {
                let toward = if children[!side as usize].version != 0 { !side } else { side };
                trail.push(Pass { place: r.place, children, side: toward });
            }
        }
    }
}

pub fn presence_bytes(p: &Presence) -> Vec<u8> {
    let length = 72 + 33 * p.steps.len() as u32;
    let mut out = length.to_le_bytes().to_vec();
    out.extend(16u16.to_le_bytes());
    out.extend((p.steps.len() as u16).to_le_bytes());
    out.extend(p.key);
    out.extend(p.value);
    for s in &p.steps {
        out.push(s.side as u8);
        out.extend(s.sibling);
    }
    out
}

pub fn absence_bytes(key: &Bytes32, left: Option<&Presence>, right: Option<&Presence>) -> Vec<u8> {
    let neighbours: Vec<u8> = [left, right].iter().flatten().flat_map(|p| presence_bytes(p)).collect();
    let flags = left.is_some() as u16 + 2 * right.is_some() as u16;
    let mut out = (40 + neighbours.len() as u32).to_le_bytes().to_vec();
    out.extend(17u16.to_le_bytes());
    out.extend(flags.to_le_bytes());
    out.extend(key);
    out.extend(neighbours);
    out
}

/// The proof for a key in a version. By 2026-03 there is none in an empty version, one whose root is not found: 14, tested after 8.
pub fn proof(s: &[u8], version: u32, key: &[u8]) -> Result<Vec<u8>, Stopped> {
    proof_in(FORM, s, version, key)
}

pub fn proof_in(form: Form, s: &[u8], version: u32, key: &[u8]) -> Result<Vec<u8>, Stopped> {
    let key: Bytes32 = key.try_into().map_err(|_| 12u32)?;
    let store = bytes::store_in(form, s)?;
    proof_of(&store, &Index::of(&store), version, &key)
}

pub fn proof_of(store: &Store, index: &Index, version: u32, key: &Bytes32) -> Result<Vec<u8>, Stopped> {
    kept(store, version)?;
    if matches!(index.see_root(store, version), Sight::Nothing) {
        return Err(alone(14));
    }
    let walk = walk(store, index, version, key)?;
    if let Some((k, v)) = walk.end {
        if k == *key {
            return Ok(presence_bytes(&Presence { key: k, value: v, steps: steps(&walk.trail) }));
        }
    }
    let left = neighbour(store, index, &walk, key, false)?;
    let right = neighbour(store, index, &walk, key, true)?;
    Ok(absence_bytes(key, left.as_ref(), right.as_ref()))
}

/// The proof fills the front of the room; its length.
pub fn prove(s: &[u8], version: u32, key: &[u8], room: &mut [u8]) -> Result<u32, Stopped> {
    let p = proof(s, version, key)?;
    if p.len() > room.len() {
        return Err(alone(9));
    }
    room[..p.len()].copy_from_slice(&p);
    Ok(p.len() as u32)
}
