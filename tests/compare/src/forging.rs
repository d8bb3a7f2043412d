//! 2026-12: what is found of a proof, beside the second program: true proofs, refused ones and any bytes. Under SHA-256 no proof that says something false is
//! accepted, so nothing is ever found; tests/second forges under toy hashes.

use crate::cases::{self, Random};
use crate::ours;
use crate::tally::Tally;
use second::bytes::{ask_bytes, u32_at, Ask, HEADER, SLOT};
use second::forged::Finding;
use second::{Bytes32, Refusal};

/// Both sides on one proof; the store stays as it is.
fn both(tally: &mut Tally, what: &str, seed: u64, s: &[u8], version: u32, key: &[u8], proof: &[u8]) -> Result<Finding, Refusal> {
    let before = s.to_vec();
    let answer = ours::finding(s, version, key, proof);
    assert!(s == before, "{what}: the store was written");
    tally.same(what, seed, answer, second::finding(s, version, key, proof));
    answer
}

fn key(first: u8) -> Bytes32 {
    let mut k = [0; 32];
    k[0] = first;
    k
}

/// M1: A, B, C and D; then a version whose grants are all deleted.
fn desk() -> Vec<u8> {
    let mut s = cases::fresh(20, 0, 0);
    let grants = [(0x00, 1), (0x40, 2), (0x60, 3), (0x80, 4)];
    let all = |value: &dyn Fn(u8) -> Option<Bytes32>| -> Vec<u8> {
        grants.iter().flat_map(|&(k, v)| ask_bytes(&Ask { key: key(k), value: value(v) })).collect()
    };
    second::apply(&mut s, 1, &all(&|v| Some([v; 32]))).unwrap();
    second::apply(&mut s, 2, &all(&|_| None)).unwrap();
    s
}

/// The desk's store: each key of it and beside it is proved and nothing is found; two refusals next to each other deserved at once, the whole order
/// through.
pub fn named(tally: &mut Tally) {
    let s = desk();
    for first in 0..=255 {
        let k = key(first);
        let proof = second::proof::proof(&s, 1, &k).unwrap();
        let answer = both(tally, "the desk", 0, &s, 1, &k, &proof);
        tally.equal("the desk, a true proof", 0, answer, Ok(Finding::Nothing));
    }
    let k = key(0x40);
    let proof = second::proof::proof(&s, 1, &k).unwrap();
    let other = second::proof::proof(&s, 1, &key(0x60)).unwrap();
    let mut header = s.clone();
    header[4] = 9;
    let mut unsound = s.clone();
    // The value of B, in slot 0.
    unsound[HEADER + 80] ^= 1;
    let mut bent = proof.clone();
    bent[40] ^= 1;
    let off = &proof[..proof.len() - 1];
    let rows: &[(&str, &[u8], u32, &[u8], &[u8], u32)] = &[
        ("12 before 1", &header[..s.len() - 1], 9, &k[..31], off, 12),
        ("1 before 2", &header[..s.len() - 1], 9, &k, off, 1),
        ("2 before 3", &header, 9, &k, off, 2),
        ("3 before 8", &unsound, 9, &k, off, 3),
        ("8 before 14", &s, 3, &k, off, 8),
        ("14 before 10", &s, 2, &k, off, 14),
        ("14 of version 0", &s, 0, &k, &proof, 14),
        ("10 before 11", &s, 1, &key(1), off, 10),
        ("11: another value", &s, 1, &k, &bent, 11),
        ("11: the proof of another key", &s, 1, &k, &other, 11),
        ("11: another key", &s, 1, &key(0x41), &proof, 11),
        ("10: no byte", &s, 1, &k, &[], 10),
    ];
    for (what, store, version, key, proof, wanted) in rows {
        let answer = both(tally, what, 0, store, *version, key, proof);
        tally.equal(what, 0, answer, Err(*wanted));
    }
}

/// A made store, sound or damaged: true proofs, proofs of other versions and keys, forged ones.
pub fn round(seed: u64, tally: &mut Tally) {
    let mut random = Random(seed);
    let (mut s, keys) = cases::store(&mut random);
    if random.one_in(4) {
        cases::damage(&mut random, &mut s);
    }
    let latest = if s.len() < HEADER { 1 } else { u32_at(&s, 16) };
    let mut proofs: Vec<Vec<u8>> = vec![];
    for _ in 0..6 {
        let version = latest.wrapping_sub(random.below(3) as u32);
        let mut k = keys[random.below(keys.len())];
        if random.one_in(3) {
            k[31] ^= 1 << random.below(3);
        }
        let Ok(proof) = second::proof::proof(&s, version, &k) else { continue };
        let answer = both(tally, "a true proof", seed, &s, version, &k, &proof);
        if second::check(&s).is_ok() {
            tally.equal("a true proof of a sound store", seed, answer, Ok(Finding::Nothing));
        }
        let _ = both(tally, "a proof of another version", seed, &s, version.wrapping_sub(1), &k, &proof);
        proofs.push(proof);
        let mut p = proofs[random.below(proofs.len())].clone();
        for _ in 0..random.below(3) {
            cases::forge(&mut random, &mut p, &proofs);
        }
        let _ = both(tally, "a forged proof", seed, &s, version, &k, &p);
    }
    if s.len() > HEADER + SLOT && random.one_in(6) {
        let n = random.below(s.len());
        s.truncate(n);
        let _ = both(tally, "a store cut short", seed, &s, latest, &keys[0], &[]);
    }
}
