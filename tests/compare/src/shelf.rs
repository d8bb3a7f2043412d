//! A key of a shelf: the proved check beside the second program, on shelves of stores that the second program makes, and on proofs that are cut, joined and forged.

use crate::cases::{self, Random};
use crate::ours;
use crate::tally::Tally;
use second::bytes::{ask_bytes, Ask};
use second::shelf::part_key;
use second::{Bytes32, Refusal};
use std::collections::BTreeMap;

type Answer = Result<Option<Bytes32>, Refusal>;

fn both(tally: &mut Tally, what: &str, seed: u64, root: &[u8], bits: u32, key: &[u8], proof: &[u8]) -> Answer {
    let answer = ours::shelf_verify(root, bits, key, proof);
    tally.same(what, seed, answer, second::shelf_verify(root, bits, key, proof));
    answer
}

/// A store with these grants in version 1.
fn store(grants: &BTreeMap<Bytes32, Bytes32>) -> Vec<u8> {
    let asks: Vec<u8> = grants.iter().flat_map(|(&key, &value)| ask_bytes(&Ask { key, value: Some(value) })).collect();
    let mut s = cases::fresh(2_000, 0, 0);
    second::apply(&mut s, 1, &asks).expect("room for these keys");
    s
}

/// A shelf: the list, whose values are the parts' roots, and the parts by their keys in the list.
struct Shelf {
    bits: u32,
    grants: BTreeMap<Bytes32, Bytes32>,
    list: Vec<u8>,
    parts: BTreeMap<Bytes32, Vec<u8>>,
}

impl Shelf {
    fn of(bits: u32, grants: BTreeMap<Bytes32, Bytes32>) -> Shelf {
        let mut runs: BTreeMap<Bytes32, BTreeMap<Bytes32, Bytes32>> = BTreeMap::new();
        for (&key, &value) in &grants {
            runs.entry(part_key(&key, bits)).or_default().insert(key, value);
        }
        let parts: BTreeMap<Bytes32, Vec<u8>> = runs.iter().map(|(&key, run)| (key, store(run))).collect();
        let roots = parts.iter().map(|(&key, s)| (key, second::root(s, 1).unwrap())).collect();
        Shelf { bits, grants, list: store(&roots), parts }
    }

    fn random(random: &mut Random) -> Shelf {
        let bits = [0, 1, 2, 3, 4, 7, 8, 9, 12][random.below(9)];
        let grants = (0..1 + random.below(24)).map(|_| (random.hash(), random.hash())).collect();
        Shelf::of(bits, grants)
    }

    fn root(&self) -> Bytes32 {
        second::root(&self.list, 1).unwrap()
    }

    /// The list's record, then the part's where the list has it.
    fn proof(&self, key: &Bytes32) -> [Vec<u8>; 2] {
        let part = part_key(key, self.bits);
        let first = second::proof::proof(&self.list, 1, &part).unwrap();
        let second = self.parts.get(&part).map_or(vec![], |s| second::proof::proof(s, 1, key).unwrap());
        [first, second]
    }

    /// A key that is there, one beside it, or any.
    fn key(&self, random: &mut Random) -> Bytes32 {
        let known: Vec<&Bytes32> = self.grants.keys().collect();
        let mut key = *known[random.below(known.len())];
        match random.below(4) {
            0 => random.hash(),
            1 => {
                key[31 - random.below(4)] ^= 1 << random.below(8);
                key
            }
            2 => {
                key[random.below(2)] ^= 1 << random.below(8);
                key
            }
            _ => key,
        }
    }
}

/// Every key is shown as the grants have it; then the same proof with one thing wrong.
fn shown(tally: &mut Tally, random: &mut Random, seed: u64, shelf: &Shelf) {
    let (key, root) = (shelf.key(random), shelf.root());
    let [first, second] = shelf.proof(&key);
    let proof = [&first[..], &second].concat();
    let answer = both(tally, "a shelf's proof", seed, &root, shelf.bits, &key, &proof);
    tally.equal("a shelf's proof says what is granted", seed, answer, Ok(shelf.grants.get(&key).copied()));
    let other = shelf.key(random);
    let [their_first, their_second] = shelf.proof(&other);
    let pieces = [first.clone(), second.clone(), their_first.clone(), their_second.clone()];
    for (what, wrong) in [
        ("the list's record alone", first.clone()),
        ("the part's record alone", second.clone()),
        ("the records turned round", [&second[..], &first].concat()),
        ("the list's record twice", [&first[..], &first].concat()),
        ("another part's list record", [&their_first[..], &second].concat()),
        ("another key's part record", [&first[..], &their_second].concat()),
        ("a third record", [&proof[..], &second].concat()),
        ("a byte over", [&proof[..], &[0]].concat()),
    ] {
        let _ = both(tally, what, seed, &root, shelf.bits, &key, &wrong);
    }
    for _ in 0..3 {
        let mut wrong = proof.clone();
        cases::forge(random, &mut wrong, &pieces);
        let _ = both(tally, "a forged proof of a shelf", seed, &root, shelf.bits, &key, &wrong);
        let at = random.below(proof.len());
        wrong = proof.clone();
        wrong[at] ^= 1 << random.below(8);
        let _ = both(tally, "a shelf's proof with a bit changed", seed, &root, shelf.bits, &key, &wrong);
    }
    let _ = both(tally, "other bits", seed, &root, random.below(15) as u32, &key, &proof);
    let _ = both(tally, "another key", seed, &root, shelf.bits, &other, &proof);
    let _ = both(tally, "another root", seed, &random.hash(), shelf.bits, &key, &proof);
    // The part's own root in the list's place.
    if let Some(part) = shelf.parts.get(&part_key(&key, shelf.bits)) {
        let _ = both(tally, "the part's root", seed, &second::root(part, 1).unwrap(), shelf.bits, &key, &second);
    }
}

/// Refusals next to each other deserved at once, in their order; every end and every byte of a proof.
pub fn named(seed: u64, tally: &mut Tally) {
    let mut random = Random(seed ^ 77);
    let shelf = Shelf::of(3, (0..12u8).map(|n| ([n.wrapping_mul(37); 32], [n; 32])).collect());
    let (root, key) = (shelf.root(), [37; 32]);
    let [first, second] = shelf.proof(&key);
    let proof = [&first[..], &second].concat();
    let longer = [0; 33];
    for (what, root, bits, key, proof, wanted) in [
        ("shelf: 12 before 21, the root", &root[..31], 13, &key[..], &proof[..], Err(12)),
        ("shelf: 12 before 21, the key", &root[..], 13, &key[..31], &proof, Err(12)),
        ("shelf: 12, a longer key", &root, 3, &longer, &proof, Err(12)),
        ("shelf: 21 before 10", &root, 13, &key, &[], Err(21)),
        ("shelf: 21, all bits", &root, u32::MAX, &key, &proof, Err(21)),
        ("shelf: 10 before 11", &[9; 32], 3, &key, &proof[..proof.len() - 1], Err(10)),
        ("shelf: 11, the list's", &[9; 32], 3, &key, &proof, Err(11)),
        ("shelf: no byte", &root, 3, &key, &[], Err(10)),
        ("shelf: 12 bits", &root, 12, &key, &proof, Err(11)),
        ("shelf: whole", &root, 3, &key, &proof, Ok(Some([1; 32]))),
    ] {
        let answer = both(tally, what, seed, root, bits, key, proof);
        tally.equal(what, seed, answer, wanted);
    }
    for end in 0..proof.len() {
        let answer = both(tally, "cut short", seed, &root, 3, &key, &proof[..end]);
        tally.equal("a shelf's proof cut short", seed, answer, Err(10));
        let mut harmed = proof.clone();
        harmed[end] ^= 1 << random.below(8);
        let answer = both(tally, "a bit changed", seed, &root, 3, &key, &harmed);
        tally.equal("a shelf's proof with any bit changed is refused", seed, answer.is_err(), true);
    }
    for bits in 0..=13 {
        for n in 0..40u8 {
            let shelf = Shelf::of(bits.min(12), shelf.grants.clone());
            let key = [n.wrapping_mul(41); 32];
            let proof = shelf.proof(&key).concat();
            let answer = both(tally, "every number of bits", seed, &shelf.root(), bits, &key, &proof);
            let wanted = if bits > 12 { Err(21) } else { Ok(shelf.grants.get(&key).copied()) };
            tally.equal("every number of bits", seed, answer, wanted);
            if bits > 8 || n > 4 {
                break;
            }
        }
    }
}

pub fn round(seed: u64, tally: &mut Tally) {
    let mut random = Random(seed ^ 0x77);
    // A shelf takes its time: one for every few rounds, with several keys.
    if random.one_in(20) {
        let shelf = Shelf::random(&mut random);
        for _ in 0..4 {
            shown(tally, &mut random, seed, &shelf);
        }
    }
    let bytes: Vec<u8> = (0..random.below(300)).map(|_| random.byte()).collect();
    let _ = both(tally, "any bytes for a shelf", seed, &random.hash(), random.below(14) as u32, &random.hash(), &bytes);
}
