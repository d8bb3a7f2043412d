//! Request 2026-14: the figures of a range and the pocket profile on both sides, on stores that were made, damaged or of any bytes.

use crate::both::lent;
use crate::cases::{self, Random};
use crate::ours;
use crate::tally::{Proof, Tally};
use second::bytes::{ask_bytes, Ask, HEADER, SLOT};
use second::{alone, Bytes32};

type Figured = Result<(u32, u32), u32>;

pub fn figures_with(tally: &mut Tally, case: &str, seed: u64, s: &[u8], first: u32, last: u32, room: &[u8]) -> Figured {
    let (x, a) = lent(room, |room| ours::figures(s, first, last, room));
    let mut b = room.to_vec();
    let y = second::figures(s, first, last, &mut b);
    assert!(y.is_ok() || b == room, "the second program refused and wrote");
    tally.wrote("figures", case, seed, (x, &a), (y, &b));
    y
}

/// The figures of a range, with a room near what is needed.
pub fn figures(tally: &mut Tally, random: &mut Random, case: &str, seed: u64, s: &[u8], first: u32, last: u32) {
    let all = 16 * (last.saturating_sub(first) as usize + 1).min(1_100);
    let length = match random.below(6) {
        0 => all - 1,
        1 => all,
        2 => random.below(all + 1),
        _ => all + random.below(40),
    };
    let room: Vec<u8> = (0..length).map(|_| random.byte()).collect();
    let _ = figures_with(tally, case, seed, s, first, last, &room);
}

/// A proof of the profile and its check, beside the full ones: inside the profile they agree in every byte.
pub fn pocket(tally: &mut Tally, random: &mut Random, seed: u64, s: &[u8], version: u32, key: &[u8]) {
    let proof = second::proof::proof(s, version, key);
    let length = match &proof {
        Ok(p) if random.one_in(6) => p.len() - 1,
        Ok(p) => p.len() + random.below(40),
        Err(_) => random.below(200),
    };
    let room = vec![random.byte(); length];
    let (x, a) = lent(&room, |room| ours::pocket_prove(s, version, key, room));
    let mut b = room.clone();
    let y = second::pocket_prove(s, version, key, &mut b);
    tally.count(format!("pocket prove {}", Proof::word(y, &b)));
    tally.equal("pocket prove", seed, (x, &a), (y, &b));
    if x != Err(alone(19)) {
        let (full, c) = lent(&room, |room| ours::prove(s, version, key, room));
        tally.equal("inside the profile the provers agree", seed, (x, a), (full, c));
    }
    let (Ok(root), Ok(mut proof)) = (second::root(s, version), proof) else { return };
    for _ in 0..3 {
        check(tally, seed, &root, key, &proof);
        cases::forge(random, &mut proof, &[]);
    }
}

fn check(tally: &mut Tally, seed: u64, root: &[u8], key: &[u8], proof: &[u8]) {
    let answer = ours::pocket_verify(root, key, proof);
    tally.same("pocket verify", seed, answer, second::pocket_verify(root, key, proof));
    if answer != Err(19) {
        tally.equal("inside the profile the checks agree", seed, answer, ours::verify(root, key, proof));
    }
}

pub fn round(seed: u64, tally: &mut Tally) {
    let mut random = Random(seed ^ 14);
    let (mut s, keys) = cases::store(&mut random);
    for _ in 0..[0, 0, 0, 1, 2][random.below(5)] {
        cases::damage(&mut random, &mut s);
    }
    for _ in 0..3 {
        let (v, w) = (crate::version(&mut random, &s), crate::version(&mut random, &s));
        figures(tally, &mut random, "of a made store", seed, &s, v.min(w), v.max(w));
        figures(tally, &mut random, "in any order", seed, &s, v, w);
        let k = crate::key(&mut random, &keys);
        pocket(tally, &mut random, seed, &s, v, &k);
    }
    // Keys that part at any bit, so that paths of 32 and 33 steps come up.
    let (s, keys) = parting(&mut random);
    for key in &keys {
        pocket(tally, &mut random, seed, &s, 1, key);
        let mut beside = *key;
        beside[31] ^= 1;
        pocket(tally, &mut random, seed, &s, 1, &beside);
    }
    figures(tally, &mut random, "of deep trees", seed, &s, 0, 1);
}

/// Keys that part from one another near bit 31, and a store of them.
fn parting(random: &mut Random) -> (Vec<u8>, Vec<Bytes32>) {
    let base = random.hash();
    let mut keys = vec![base];
    for _ in 0..2 + random.below(3) {
        let mut k = keys[random.below(keys.len())];
        let at = 29 + random.below(6);
        k[at / 8] ^= 0x80 >> (at % 8);
        keys.push(k);
    }
    keys.sort();
    keys.dedup();
    (of(64, &keys), keys)
}

fn of(capacity: usize, keys: &[Bytes32]) -> Vec<u8> {
    let mut s = vec![0; HEADER + SLOT * capacity];
    second::format(&mut s).expect("the right size");
    let batch: Vec<u8> = keys.iter().flat_map(|k| ask_bytes(&Ask { key: *k, value: Some([1; 32]) })).collect();
    second::apply(&mut s, 1, &batch).expect("room");
    s
}

/// A path of so many steps: two keys that part at the bit before.
fn steps(n: usize) -> (Vec<u8>, [Bytes32; 2]) {
    let mut keys = [[0; 32]; 2];
    keys[1][(n - 1) / 8] = 0x80 >> ((n - 1) % 8);
    (of(300, &keys), keys)
}

/// Two refusals deserved at once, and what is at an edge: the first in 02's order is given.
pub fn named(tally: &mut Tally) {
    let (s, keys) = steps(40);
    let mut bad_header = s.clone();
    bad_header[4] = 9;
    let bad_size = &bad_header[..s.len() - 1];
    let mut damaged = s.clone();
    damaged[HEADER] ^= 1;
    let room = [5; 32];
    for (what, store, first, last, room, wanted) in [
        ("figures: 1 before 2", bad_size, 0, 1, &room[..], Err(1)),
        ("figures: 2 before 3", &bad_header[..], 0, 2, &room[..], Err(2)),
        ("figures: 3 before 8", &damaged[..], 0, 2, &room[..], Err(3)),
        ("figures: 8 before 9", &s[..], 0, 2, &room[..0], Err(8)),
        ("figures: 8, first above last", &s[..], 1, 0, &room[..], Err(8)),
        ("figures: a byte short", &s[..], 0, 1, &room[1..], Err(9)),
        ("figures: room just enough", &s[..], 0, 1, &room[..], Ok((42, 42))),
        ("figures: one version", &s[..], 1, 1, &room[..], Ok((42, 42))),
        ("figures: an empty version", &s[..], 0, 0, &room[..], Ok((0, 0))),
    ] {
        let answer = figures_with(tally, what, 0, store, first, last, room);
        tally.equal(what, 0, answer, wanted);
    }
    // 1,024 versions are a range, 1,025 are not; versions between two publishings count like any other.
    let mut long = s.clone();
    second::apply(&mut long, 1_026, &[]).expect("room");
    for (first, last, wanted) in [(1, 1_024, Ok((42, 1_024 * 42))), (1, 1_025, Err(8)), (3, 1_026, Ok((43, 1_024 * 42))), (0, 1_023, Ok((42, 1_023 * 42)))] {
        let answer = figures_with(tally, "figures: 1,024 versions", 0, &long, first, last, &vec![5; 16 * 1_025]);
        tally.equal("figures: 1,024 versions", 0, answer, wanted);
    }
    let (path, short) = (vec![5; 8_520], [0; 0]);
    let mut lost = s.clone();
    // All slots but the root's: the leaves are lost.
    lost[HEADER..HEADER + SLOT * 2].fill(0);
    for (what, store, version, key, room, wanted) in [
        ("pocket prove: 12 before 1", bad_size, 1, &keys[0][..31], &path[..], Err(alone(12))),
        ("pocket prove: 1 before 2", bad_size, 1, &keys[0][..], &path[..], Err(alone(1))),
        ("pocket prove: 2 before 8", &bad_header[..], 2, &keys[0][..], &path[..], Err(alone(2))),
        ("pocket prove: 8 before 14", &s[..], 2, &keys[0][..], &path[..], Err(alone(8))),
        ("pocket prove: 14 before 19", &s[..], 0, &keys[0][..], &short[..], Err(alone(14))),
        ("pocket prove: 17 before 19", &lost[..], 1, &keys[0][..], &short[..], Err(alone(17))),
        ("pocket prove: 19 before 9", &s[..], 1, &keys[0][..], &short[..], Err(alone(19))),
    ] {
        let (x, a) = lent(room, |room| ours::pocket_prove(store, version, key, room));
        let y = second::pocket_prove(store, version, key, &mut room.to_vec());
        tally.equal(what, 0, (x, &a[..]), (wanted, room));
        tally.equal(what, 0, x, y);
    }
    for n in [31, 32, 33, 34] {
        let (s, keys) = steps(n);
        let root = second::root(&s, 1).expect("a root");
        let mut absent = keys[1];
        absent[31] ^= 1;
        for key in [keys[0], keys[1], absent] {
            let proof = second::proof::proof(&s, 1, &key).expect("a proof");
            let (x, _) = lent(&proof, |room| ours::pocket_prove(&s, 1, &key, room));
            tally.equal("pocket prove: 32 steps pass, 33 do not", 0, x, if n <= 32 { Ok(proof.len() as u32) } else { Err(alone(19)) });
            for (root, asked, what, wanted) in [
                (&root[..], &key[..], "pocket verify: as the full one, or 19", if n <= 32 { ours::verify(&root, &key, &proof) } else { Err(19) }),
                (&[3; 32][..], &key[..], "pocket verify: 19 before 11", Err(if n <= 32 { 11 } else { 19 })),
                (&root[..], &key[..31], "pocket verify: 12 before 19", Err(12)),
            ] {
                let answer = ours::pocket_verify(root, asked, &proof);
                tally.equal(what, 0, answer, wanted);
                tally.equal(what, 0, answer, second::pocket_verify(root, asked, &proof));
            }
            let torn = &proof[..proof.len() - 1];
            tally.equal("pocket verify: 10 before 19", 0, ours::pocket_verify(&root, &key, torn), Err(10));
        }
    }
}
