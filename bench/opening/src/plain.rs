//! The check of a presence proof in plain safe Rust, after document 01: the record's form, the key, and the steps from the leaf to the root.

#[path = "../../../tests/common/plain_sha256.rs"]
mod plain_sha256;

use plain_sha256::{inner_hash, inner_hash_in_full, leaf_hash, leaf_hash_in_full};

type Bytes32 = [u8; 32];
type Node = fn(&Bytes32, &Bytes32) -> Bytes32;

pub const HEAD: usize = 72;
pub const STEP: usize = 33;
const MOST_STEPS: usize = 256;

#[inline(always)]
fn at(s: &[u8], from: usize) -> Bytes32 {
    s[from..from + 32].try_into().unwrap()
}

/// The value that the proof shows, or the number of refusal.
#[inline(always)]
fn value(root: &[u8], key: &[u8], proof: &[u8], leaf: Node, inner: Node) -> Result<Bytes32, u32> {
    if root.len() != 32 || key.len() != 32 {
        return Err(12);
    }
    if proof.len() < HEAD || proof[4..6] != [16, 0] {
        return Err(10);
    }
    let length = u32::from_le_bytes(proof[..4].try_into().unwrap()) as usize;
    let steps = u16::from_le_bytes(proof[6..8].try_into().unwrap()) as usize;
    if steps > MOST_STEPS || length != HEAD + STEP * steps || proof.len() != length {
        return Err(10);
    }
    if proof[HEAD..].chunks_exact(STEP).any(|step| step[0] > 1) {
        return Err(10);
    }
    let shown = at(proof, 40);
    let mut hash = leaf(&at(proof, 8), &shown);
    for step in proof[HEAD..].chunks_exact(STEP) {
        let sibling = at(step, 1);
        hash = if step[0] == 0 { inner(&hash, &sibling) } else { inner(&sibling, &hash) };
    }
    if proof[8..40] == *key && hash == *root {
        Ok(shown)
    } else {
        Err(11)
    }
}

/// With what is known of a node's second block folded in.
pub fn verify(root: &[u8], key: &[u8], proof: &[u8]) -> Result<Bytes32, u32> {
    value(root, key, proof, leaf_hash, inner_hash)
}

/// With two general compressions for each node.
pub fn verify_in_full(root: &[u8], key: &[u8], proof: &[u8]) -> Result<Bytes32, u32> {
    value(root, key, proof, leaf_hash_in_full, inner_hash_in_full)
}

/// The root that the steps of a presence proof lead to.
pub fn root_of(proof: &[u8]) -> Bytes32 {
    let mut hash = leaf_hash_in_full(&at(proof, 8), &at(proof, 40));
    for step in proof[HEAD..].chunks_exact(STEP) {
        let sibling = at(step, 1);
        hash = if step[0] == 0 { inner_hash_in_full(&hash, &sibling) } else { inner_hash_in_full(&sibling, &hash) };
    }
    hash
}

/// The general hash, so that no part of the plain program is unused.
pub fn sha256(message: &[u8]) -> Bytes32 {
    plain_sha256::sha256(message)
}
