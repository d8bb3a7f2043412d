//! 02, request 2026-12, under toy hashes of 3 to 8 bits: proofs that are accepted and say something false are made by the thousand, and each is found out.

use second::bytes::{bit, Place};
use second::check::{accepted, Proof};
use second::forged::{checked, found, holds, inner_message, is_true, leaf_message, Finding, Hashing, Message, Nodes};
use second::proof::{Presence, Step};
use second::tree::Grants;
use second::{Bytes32, ZEROS};

/// A hash of so many bits, in the first byte; the other 31 are zero.
struct Toy {
    bits: u32,
    seed: u64,
}

impl Hashing for Toy {
    fn hash(&self, m: &Message) -> Bytes32 {
        let mut x = self.seed;
        for b in m {
            x = (x ^ *b as u64).wrapping_mul(0x100_0000_01b3);
        }
        x = (x ^ x >> 32).wrapping_mul(0x9E37_79B9_7F4A_7C15);
        let mut out = ZEROS;
        out[0] = (x >> (64 - self.bits)) as u8;
        out
    }
}

struct Random(u64);

impl Random {
    fn next(&mut self) -> u64 {
        self.0 = self.0.wrapping_add(0x9E37_79B9_7F4A_7C15);
        let mut z = self.0;
        z = (z ^ z >> 30).wrapping_mul(0xBF58_476D_1CE4_E5B9);
        z = (z ^ z >> 27).wrapping_mul(0x94D0_49BB_1331_11EB);
        z ^ z >> 31
    }

    fn below(&mut self, n: usize) -> usize {
        (self.next() % n as u64) as usize
    }

    /// A few of the first bits set, the rest zero, so that keys share beginnings.
    fn key(&mut self) -> Bytes32 {
        let mut k = ZEROS;
        k[0] = (self.next() as u8) & 0b1111_1000;
        k
    }

    fn value(&mut self) -> Bytes32 {
        let mut v = ZEROS;
        v[..2].copy_from_slice(&(self.next() as u16).to_le_bytes());
        v
    }
}

/// The tree of some grants, which all begin with a place, under a hash: its nodes by place, and the hash at that place.
fn tree(by: &Toy, grants: &[(Bytes32, Bytes32)], place: Place, nodes: &mut Nodes) -> Bytes32 {
    let m = match grants {
        [] => return ZEROS,
        [(k, v)] => leaf_message(k, v),
        _ => {
            let middle = grants.partition_point(|(k, _)| !bit(k, place.count));
            let l = tree(by, &grants[..middle], place.longer(false), nodes);
            inner_message(&l, &tree(by, &grants[middle..], place.longer(true), nodes))
        }
    };
    nodes.insert(place, m);
    by.hash(&m)
}

/// The path to a grant's leaf, as the prover would write it.
fn path(nodes: &Nodes, key: &Bytes32, value: &Bytes32) -> Presence {
    let mut steps = vec![];
    let mut place = Place::EMPTY;
    while nodes[&place][0] == 0 {
        let side = bit(key, place.count);
        let at = if side { 1 } else { 33 };
        steps.push(Step { side, sibling: nodes[&place][at..at + 32].try_into().unwrap() });
        place = place.longer(side);
    }
    steps.reverse();
    Presence { key: *key, value: *value, steps }
}

/// The true proof of a key.
fn proof(nodes: &Nodes, grants: &Grants, key: &Bytes32) -> Proof {
    if let Some(v) = grants.get(key) {
        return Proof::Present(path(nodes, key, v));
    }
    let left = grants.range(..*key).next_back().map(|(k, v)| path(nodes, k, v));
    let right = grants.range(*key..).next().map(|(k, v)| path(nodes, k, v));
    Proof::Absent { key: *key, left, right }
}

/// One thing about a path made another.
fn bend(random: &mut Random, by: &Toy, p: &mut Presence) {
    match random.below(8) {
        0 | 1 => p.value = random.value(),
        2 => p.key = random.key(),
        3 => drop(p.steps.pop()),
        4 => p.steps.push(Step { side: random.below(2) == 1, sibling: by.hash(&[random.below(256) as u8; 65]) }),
        n if p.steps.is_empty() => p.value[2] = n as u8,
        5 => {
            let i = random.below(p.steps.len());
            p.steps[i].sibling = by.hash(&[random.below(256) as u8; 65]);
        }
        6 => {
            let i = random.below(p.steps.len());
            p.steps[i].sibling = ZEROS;
        }
        _ => {
            let i = random.below(p.steps.len());
            p.steps[i].side ^= true;
        }
    }
}

/// A leaf of hash zero shown where a node has no child: its path is true above that. None where each node on the path has both children.
fn in_a_gap(random: &mut Random, by: &Toy, key: &Bytes32, p: &Presence) -> Option<Presence> {
    let i = p.steps.iter().position(|s| s.sibling == ZEROS)?;
    let below = by.hash(&checked(by, &Proof::Present(p.clone()))[i]);
    let mut steps = vec![Step { side: !p.steps[i].side, sibling: below }];
    steps.extend(p.steps[i + 1..].to_vec());
    (0..4_096).map(|_| random.value()).find(|v| by.leaf(key, v) == ZEROS).map(|value| Presence { key: *key, value, steps })
}

/// A proof for a key, made of true paths that are bent or not.
fn forge(random: &mut Random, by: &Toy, nodes: &Nodes, grants: &Grants, key: &Bytes32) -> Proof {
    let all: Vec<(&Bytes32, &Bytes32)> = grants.iter().collect();
    let some = |random: &mut Random| {
        let (k, v) = all[random.below(all.len())];
        let mut p = path(nodes, k, v);
        for _ in 0..random.below(3) {
            bend(random, by, &mut p);
        }
        p
    };
    match random.below(9) {
        0 | 1 => {
            let mut p = some(random);
            p.key = *key;
            Proof::Present(p)
        }
        4 => {
            let (k, v) = all[random.below(all.len())];
            let p = path(nodes, k, v);
            Proof::Present(in_a_gap(random, by, key, &p).unwrap_or(p))
        }
        2 | 3 => {
            let mut proof = proof(nodes, grants, key);
            match &mut proof {
                Proof::Present(p) => bend(random, by, p),
                Proof::Absent { left, right, .. } => [left, right].into_iter().flatten().for_each(|p| {
                    if random.below(2) == 0 {
                        bend(random, by, p);
                    }
                }),
            }
            proof
        }
        _ => {
            let left = (random.below(3) > 0).then(|| some(random));
            let right = (left.is_none() || random.below(2) == 0).then(|| some(random));
            Proof::Absent { key: *key, left, right }
        }
    }
}

/// How many were found out, by what was found: two messages; a zero hash of the proof's; a zero hash of a node's.
#[derive(Default)]
struct Found {
    two: usize,
    shown: usize,
    hidden: usize,
    truths: usize,
}

fn under(bits: u32, wanted: usize, seed: u64) -> Found {
    let mut random = Random(seed);
    let mut out = Found::default();
    while out.two + out.shown + out.hidden < wanted {
        let by = Toy { bits, seed: random.next() };
        let mut grants = Grants::new();
        for _ in 0..1 + random.below(9) {
            grants.insert(random.key(), random.value());
        }
        let list: Vec<(Bytes32, Bytes32)> = grants.iter().map(|(k, v)| (*k, *v)).collect();
        let mut nodes = Nodes::new();
        let root = tree(&by, &list, Place::EMPTY, &mut nodes);
        for _ in 0..400 {
            let key = if random.below(2) == 0 { random.key() } else { list[random.below(list.len())].0 };
            let p = forge(&mut random, &by, &nodes, &grants, &key);
            let Some(answer) = accepted(&by, &root, &key, &p) else { continue };
            let f = found(&by, &nodes, &grants, &p);
            if is_true(&grants, &p) {
                assert_eq!(f, Finding::Nothing);
                assert_eq!(answer, grants.get(&key).copied());
                out.truths += 1;
                continue;
            }
            let messages = checked(&by, &p);
            assert!(holds(&by, &nodes, &messages, &f), "{bits} bits: a forged proof was not found out: {f:?}");
            match f {
                Finding::Zero(m) if messages.contains(&m) => out.shown += 1,
                Finding::Zero(_) => out.hidden += 1,
                _ => out.two += 1,
            }
        }
    }
    out
}

#[test]
fn every_forged_proof_is_found_out() {
    let mut all = Found::default();
    for bits in 3..=8 {
        let f = under(bits, 4_000, bits as u64);
        println!("{bits} bits: {} pairs, {} zero hashes of the proof, {} of a node, {} true ones", f.two, f.shown, f.hidden, f.truths);
        all.two += f.two;
        all.shown += f.shown;
        all.hidden += f.hidden;
        all.truths += f.truths;
    }
    assert!(all.two > 5_000 && all.shown > 1_000 && all.hidden > 1_000 && all.truths > 10_000, "a way of forging was hardly met");
    assert!(all.two + all.shown + all.hidden >= 24_000);
}
