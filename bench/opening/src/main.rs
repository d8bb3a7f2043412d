//! Request 2026-11: an editor opens and checks 10,000 presence proofs of 20 steps each. The proved checker beside a plain safe Rust program, on
//! the same bytes, in turns, the best of each; above twice the plain time it fails. Half of the proofs are the library's own, from stores
//! whose leaves stand at 20 bits; half are made step by step, with siblings and sides of every kind. With a file's name the proofs are written
//! there too, for the program that asks the system's OpenSSL (openssl.c). Then the same proofs in rows of 256, each in one call, beside the single calls; above
//! its bar for this machine it fails too. Where a ratio is near its bar or above it, there are more turns.

mod plain;
#[path = "../../../tests/common/bars.rs"]
mod bars;
#[path = "../../../tests/common/random.rs"]
mod random;

use random::Random;
use std::hint::black_box;

const PROOFS: usize = 10_000;
const STEPS: usize = 20;
/// Leaves of one store: all at 20 bits, below 8 bits that they share, so 8,199 nodes.
const LEAVES: usize = 4_096;
const CAPACITY: usize = 16_384;
const LENGTH: usize = plain::HEAD + plain::STEP * STEPS;
/// The bar of request 2026-11.
const BAR: f64 = 2.0;
/// Proofs of one row.
const ROW: usize = 256;
/// For which machine, and for which level of it, the library was compiled.
const BUILT: (&str, &str) = (std::env::consts::ARCH, env!("GRANTS_LEVEL"));

/// The most that rows may take beside single calls. A Neoverse N1 took 0.75 before the lanes' words stood side by side (docs/FIGURES.md).
fn row_bar() -> f64 {
    match BUILT {
        ("x86_64", "x86-64-v4") => 0.28,
        ("x86_64", "x86-64-v3") => 0.36,
        ("x86_64", _) => 0.60,
        _ => 0.70,
    }
}

extern "C" {
    fn grants_format(store: *mut u8, length: usize) -> u32;
    fn grants_apply(store: *mut u8, length: usize, number: u32, batch: *const u8, batch_length: usize, answer: *mut u8) -> u32;
    fn grants_root(store: *const u8, length: usize, version: u32, root: *mut u8) -> u32;
    fn grants_prove(store: *const u8, length: usize, version: u32, key: *const u8, key_length: usize, room: *mut u8, room_length: usize, answer: *mut u8) -> u32;
    fn grants_verify_many(
        root: *const u8,
        root_length: usize,
        keys: *const u8,
        keys_length: usize,
        proofs: *const u8,
        proofs_length: usize,
        answers: *mut u8,
        answers_length: usize,
    ) -> u32;
    fn grants_verify(root: *const u8, root_length: usize, key: *const u8, key_length: usize, proof: *const u8, proof_length: usize, found: *mut u8) -> u32;
}

type Bytes32 = [u8; 32];

/// One thing that an editor checks.
struct Asked {
    root: Bytes32,
    key: Bytes32,
    proof: Vec<u8>,
}

fn ours(root: &[u8], key: &[u8], proof: &[u8]) -> Result<Bytes32, u32> {
    let mut found = [0; 33];
    // SAFETY: each pointer has its slice's length, and nothing overlaps.
    match unsafe { grants_verify(root.as_ptr(), root.len(), key.as_ptr(), key.len(), proof.as_ptr(), proof.len(), found.as_mut_ptr()) } {
        0 if found[0] == 1 => Ok(found[1..].try_into().unwrap()),
        0 => panic!("a presence proof shows that the key is absent"),
        n => Err(n),
    }
}

/// The key number i of a store: 8 bits that all share, then the 12 bits of i, then bits that differ.
fn key(random: &mut Random, shared: u8, i: usize) -> Bytes32 {
    let mut key = random.hash();
    key[0] = shared;
    key[1] = (i >> 4) as u8;
    key[2] = ((i & 15) << 4) as u8 | key[2] & 15;
    key
}

/// The library's own proofs of the grants of one store, each of 20 steps.
fn from_a_store(random: &mut Random, shared: u8, asked: &mut Vec<Asked>, most: usize) {
    let mut store = vec![0; 24 + 128 * CAPACITY];
    assert_eq!(unsafe { grants_format(store.as_mut_ptr(), store.len()) }, 0);
    let keys: Vec<Bytes32> = (0..LEAVES).map(|i| key(random, shared, i)).collect();
    let mut version = 0;
    for part in keys.chunks(1_024) {
        version += 1;
        let mut batch = vec![];
        for key in part {
            batch.extend(72u32.to_le_bytes());
            batch.extend([1, 0, 0, 0]);
            batch.extend(key);
            batch.extend(random.hash());
        }
        let mut answer = [0; 40];
        let number = unsafe { grants_apply(store.as_mut_ptr(), store.len(), version, batch.as_ptr(), batch.len(), answer.as_mut_ptr()) };
        assert_eq!(number, 0);
    }
    let mut root = [0; 32];
    assert_eq!(unsafe { grants_root(store.as_ptr(), store.len(), version, root.as_mut_ptr()) }, 0);
    for key in keys {
        if asked.len() == most {
            return;
        }
        let (mut room, mut length) = ([0; LENGTH], [0; 4]);
        let number = unsafe {
            grants_prove(store.as_ptr(), store.len(), version, key.as_ptr(), 32, room.as_mut_ptr(), room.len(), length.as_mut_ptr())
        };
        assert_eq!((number, u32::from_le_bytes(length) as usize), (0, LENGTH), "a proof of {STEPS} steps");
        asked.push(Asked { root, key, proof: room.to_vec() });
    }
}

/// A proof step by step: any sides, any siblings, one in eight of them missing.
fn made(random: &mut Random) -> Asked {
    let key = random.hash();
    let mut proof = (LENGTH as u32).to_le_bytes().to_vec();
    proof.extend([16, 0, STEPS as u8, 0]);
    proof.extend(key);
    proof.extend(random.hash());
    for _ in 0..STEPS {
        let sibling = random.hash();
        proof.push(sibling[0] & 1);
        proof.extend(if sibling[1] & 7 == 0 { [0; 32] } else { sibling });
    }
    Asked { root: plain::root_of(&proof), key, proof }
}

fn milliseconds(asked: &[Asked], check: impl Fn(&[u8], &[u8], &[u8]) -> Result<Bytes32, u32>) -> f64 {
    bars::milliseconds(&mut || {
        for a in asked {
            assert!(black_box(check(black_box(&a.root), black_box(&a.key), black_box(&a.proof))).is_ok());
        }
    })
}

/// Proofs in a row, under the root of the first.
struct Row {
    root: Bytes32,
    keys: Vec<u8>,
    proofs: Vec<u8>,
}

impl Row {
    fn of(part: &[Asked]) -> Row {
        Row { root: part[0].root, keys: part.iter().flat_map(|a| a.key).collect(), proofs: part.iter().flat_map(|a| a.proof.clone()).collect() }
    }

    /// 34 bytes for each key, by one call.
    fn at_once(&self, answers: &mut [u8]) {
        let Row { root, keys, proofs } = self;
        // SAFETY: each pointer has its slice's length, and nothing overlaps.
        let number = unsafe {
            grants_verify_many(root.as_ptr(), 32, keys.as_ptr(), keys.len(), proofs.as_ptr(), proofs.len(), answers.as_mut_ptr(), answers.len())
        };
        assert_eq!(number, 0);
    }

    /// The same by a call for each key.
    fn one_by_one(&self, answers: &mut [u8]) {
        for ((key, proof), answer) in self.keys.chunks(32).zip(self.proofs.chunks(LENGTH)).zip(answers.chunks_mut(34)) {
            // SAFETY: as above; 33 bytes are left after the first.
            answer[0] = unsafe { grants_verify(self.root.as_ptr(), 32, key.as_ptr(), 32, proof.as_ptr(), proof.len(), answer[1..].as_mut_ptr()) } as u8;
        }
    }
}

/// Turns of each measure, and the most where one is near its bar.
const TURNS: usize = 25;
const MOST_TURNS: usize = 200;
const NEAR: f64 = 0.95;

/// Both ways in turns, in milliseconds: the sum of each row's best, which other work on the machine disturbs least. Every byte of the answers is the same. And how many turns there were.
fn rows(asked: &[Asked]) -> ([f64; 2], usize) {
    let rows: Vec<Row> = asked.chunks(ROW).map(Row::of).collect();
    let mut best = [vec![f64::MAX; rows.len()], vec![f64::MAX; rows.len()]];
    let sums = |best: &[Vec<f64>; 2]| [best[0].iter().sum(), best[1].iter().sum::<f64>()];
    let mut turns = 0;
    while turns < TURNS || sums(&best)[0] > NEAR * row_bar() * sums(&best)[1] && turns < MOST_TURNS {
        turns += 1;
        for (i, row) in rows.iter().enumerate() {
            let mut answers = [vec![0; 34 * row.keys.len() / 32], vec![0; 34 * row.keys.len() / 32]];
            for (way, answers) in answers.iter_mut().enumerate() {
                let took = bars::milliseconds(&mut || if way == 0 { row.at_once(answers) } else { row.one_by_one(answers) });
                best[way][i] = best[way][i].min(took);
            }
            assert!(black_box(&answers[0]) == black_box(&answers[1]), "a row answers other than single calls");
        }
    }
    (sums(&best), turns)
}

/// Whole proofs and spoilt ones: all three programs answer the same.
fn compare_answers(random: &mut Random, asked: &[Asked]) {
    for a in asked {
        let answer = ours(&a.root, &a.key, &a.proof);
        assert_eq!(answer, Ok(a.proof[40..72].try_into().unwrap()));
        assert_eq!(answer, plain::verify(&a.root, &a.key, &a.proof));
        assert_eq!(answer, plain::verify_in_full(&a.root, &a.key, &a.proof));
        let mut spoilt = a.proof.clone();
        let at = random.hash();
        let at = u16::from_le_bytes([at[0], at[1]]) as usize % LENGTH;
        // A proof of kind 17 is for the proved checker alone.
        if at != 4 {
            spoilt[at] ^= 1;
            let answer = ours(&a.root, &a.key, &spoilt);
            assert!(answer.is_err());
            assert_eq!(answer, plain::verify(&a.root, &a.key, &spoilt));
            assert_eq!(answer, plain::verify_in_full(&a.root, &a.key, &spoilt));
        }
    }
}

fn main() {
    let mut random = Random(11);
    let abc = [0xba, 0x78, 0x16, 0xbf];
    assert_eq!(plain::sha256(b"abc")[..4], abc, "the plain program's own hash");
    let mut asked = vec![];
    from_a_store(&mut random, 0x00, &mut asked, LEAVES);
    from_a_store(&mut random, 0xa5, &mut asked, PROOFS / 2);
    while asked.len() < PROOFS {
        asked.push(made(&mut random));
    }
    assert!(asked.iter().all(|a| a.proof.len() == LENGTH));
    compare_answers(&mut random, &asked);
    if let Some(file) = std::env::args().nth(1) {
        let bytes: Vec<u8> = asked.iter().flat_map(|a| [&a.root[..], &a.proof].concat()).collect();
        std::fs::write(file, bytes).unwrap();
    }
    let (mut best, mut turns) = ([f64::MAX; 3], 0);
    while turns < TURNS || best[0] > NEAR * BAR * best[1] && turns < MOST_TURNS {
        turns += 1;
        best[0] = best[0].min(milliseconds(&asked, ours));
        best[1] = best[1].min(milliseconds(&asked, plain::verify));
        best[2] = best[2].min(milliseconds(&asked, plain::verify_in_full));
    }
    let [a, b, c] = best;
    println!("bench opening-10000x20 ratio {:.3} ours {a:.2}ms plain {b:.2}ms", a / b);
    println!("bench opening-10000x20-beside-two-general-blocks ratio {:.3} ours {a:.2}ms plain {c:.2}ms", a / c);
    bars::judge("opening-10000x20", a / b, BAR, turns);
    let ([at_once, single], turns) = rows(&asked);
    println!("bench opening-10000x20-rows-of-256 ratio {:.3} ours {at_once:.2}ms single {single:.2}ms built for {} {}", at_once / single, BUILT.0, BUILT.1);
    bars::judge("opening-10000x20-rows-of-256", at_once / single, row_bar(), turns);
    bars::end();
}
