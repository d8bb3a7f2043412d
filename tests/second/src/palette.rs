//! 02, request 2026-04: up to 256 proofs in one call.

use crate::{alone, bytes, proof, Stopped};

/// Most keys of one call.
pub const KEYS: usize = 256;

/// The proofs one after the other, in the order asked, repeats allowed. A list that isn't 0 to 256 whole keys gives 12; without keys 1, 2 and 8 are
/// still tested. The first refusal of a single call is the answer, with its slot.
pub fn proofs(s: &[u8], version: u32, keys: &[u8]) -> Result<Vec<Vec<u8>>, Stopped> {
    if keys.len() % 32 != 0 || keys.len() / 32 > KEYS {
        return Err(alone(12));
    }
    proof::kept(&bytes::store(s)?, version)?;
    keys.chunks(32).map(|key| proof::proof(s, version, key)).collect()
}

/// The length of all together, which fill the front of the room: 9 if they don't fit.
pub fn palette(s: &[u8], version: u32, keys: &[u8], room: &mut [u8]) -> Result<u32, Stopped> {
    let all = proofs(s, version, keys)?.concat();
    if all.len() > room.len() {
        return Err(alone(9));
    }
    room[..all.len()].copy_from_slice(&all);
    Ok(all.len() as u32)
}
