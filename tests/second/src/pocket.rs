//! 02, request 2026-14, the pocket profile: proofs of at most 32 steps for each leaf shown. Outside it 19, of the check after 10 and before 11, of the prover before 9.

use crate::check::shown;
use crate::{alone, proof, verify, Bytes32, Refusal, Stopped};

const STEPS: usize = 32;

/// Whether the bytes are a proof in form, and a leaf that it shows has more steps.
fn outside(p: &[u8]) -> bool {
    shown(p).is_some_and(|leaves| leaves.iter().any(|steps| *steps > STEPS))
}

pub fn pocket_prove(s: &[u8], version: u32, key: &[u8], room: &mut [u8]) -> Result<u32, Stopped> {
    let p = proof::proof(s, version, key)?;
    if outside(&p) {
        return Err(alone(19));
    }
    if p.len() > room.len() {
        return Err(alone(9));
    }
    room[..p.len()].copy_from_slice(&p);
    Ok(p.len() as u32)
}

pub fn pocket_verify(root: &[u8], key: &[u8], p: &[u8]) -> Result<Option<Bytes32>, Refusal> {
    match verify(root, key, p) {
        Ok(_) | Err(11) if outside(p) => Err(19),
        answer => answer,
    }
}
