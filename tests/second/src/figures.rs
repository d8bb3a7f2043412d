//! 02, request 2026-14: the figures of a range of kept versions, each counted over that version's tree.

use crate::bytes::{self, Body};
use crate::calls::place_of;
use crate::sound::sound;
use crate::tree::{version_tree, Index};
use crate::{proof, Refusal};
use std::collections::BTreeSet;

/// A range has 1 to 1,024 versions.
const MOST: u32 = 1_024;

/// Distinct records, and the sum of records over versions. For each version leaves, inner nodes, longest path and sum of path lengths are at the front of the room.
pub fn figures(s: &[u8], first: u32, last: u32, room: &mut [u8]) -> Result<(u32, u32), Refusal> {
    let store = bytes::store(s)?;
    if !sound(&store) {
        return Err(3);
    }
    proof::kept(&store, first)?;
    proof::kept(&store, last)?;
    if last < first || last - first >= MOST {
        return Err(8);
    }
    let index = Index::of(&store);
    let mut out = vec![];
    let mut distinct = BTreeSet::new();
    let mut records = 0;
    for version in first..=last {
        let tree = version_tree(&store, &index, version);
        // A path has a step for each inner node above its leaf.
        let paths: Vec<u32> = tree
            .values()
            .filter_map(|(_, r)| match r.body {
                Body::Leaf { key, .. } => Some((0..256).filter(|&n| n < r.place.count && tree.contains_key(&place_of(&key, n))).count() as u32),
                Body::Inner(_) => None,
            })
            .collect();
        let leaves = paths.len() as u32;
        for number in [leaves, tree.len() as u32 - leaves, paths.iter().copied().max().unwrap_or(0), paths.iter().sum()] {
            out.extend(number.to_le_bytes());
        }
        records += tree.len() as u32;
        distinct.extend(tree.values().map(|(slot, _)| *slot));
    }
    if room.len() < out.len() {
        return Err(9);
    }
    room[..out.len()].copy_from_slice(&out);
    Ok((distinct.len() as u32, records))
}
