//! 02, request 2026-09: how many grants a version holds, and the grant at a position, by the counts alone.

use crate::bytes::{self, Body, Record, Store};
use crate::proof::{judged, judged_root, kept};
use crate::tree::Index;
use crate::{alone, Bytes32, Stopped};

/// What a record says of the leaves at and below it: its counts summed in 64 bits, 1 for a leaf.
pub fn number(r: &Record) -> u64 {
    match &r.body {
        Body::Leaf { .. } => 1,
        Body::Inner([l, r]) => l.leaves as u64 + r.leaves as u64,
    }
}

/// 1, 2, 8, the root lookup. No root: 0.
pub fn count(s: &[u8], version: u32) -> Result<u64, Stopped> {
    let store = bytes::store(s)?;
    count_of(&store, &Index::of(&store), version)
}

pub fn count_of(store: &Store, index: &Index, version: u32) -> Result<u64, Stopped> {
    kept(store, version)?;
    Ok(judged_root(store, index, version)?.map_or(0, number))
}

/// Key and value. 1, 2, 8, the root lookup; 20 for a position not below the number; then the descent by counts, which gives 3 also where it meets a
/// missing child, or a leaf with a position left over. Position 0 has the least key.
pub fn at(s: &[u8], version: u32, position: u64) -> Result<(Bytes32, Bytes32), Stopped> {
    let store = bytes::store(s)?;
    grant_of(&store, &Index::of(&store), version, position)
}

pub fn grant_of(store: &Store, index: &Index, version: u32, position: u64) -> Result<(Bytes32, Bytes32), Stopped> {
    kept(store, version)?;
    let root = judged_root(store, index, version)?;
    if position >= root.map_or(0, number) {
        return Err(alone(20));
    }
    let mut r = root.expect("a number above 0 is a root's");
    let mut rest = position;
    loop {
        let children = match r.body {
            Body::Leaf { key, value } if rest == 0 => return Ok((key, value)),
            Body::Leaf { .. } => return Err(alone(3)),
            Body::Inner(children) => children,
        };
        let left = children[0].leaves as u64;
        let side = rest >= left;
        if side {
            rest -= left;
        }
        let c = &children[side as usize];
        if c.version == 0 {
            return Err(alone(3));
        }
        r = judged(store, index, c, r.place.longer(side))?;
    }
}
