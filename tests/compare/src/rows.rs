//! Many proofs at once: each row beside the single calls of the proved library and beside the second program, every byte of the answers and of what
//! lies behind them.

use crate::both::lent;
use crate::cases::{self, Random};
use crate::ours;
use crate::tally::Tally;
use second::bytes::{ask_bytes, Ask};
use second::many::{pieces, ANSWER};
use second::sha256::{inner_hash, leaf_hash};
use second::Bytes32;

/// A key with the bytes that are handed in as its proof.
type Case = (Bytes32, Vec<u8>);

/// The group sizes at which a row of eight lanes, and a row of 256 keys, has an edge; 257 keys are too many.
const SIZES: [usize; 21] = [0, 1, 2, 3, 4, 5, 6, 7, 8, 9, 10, 11, 12, 13, 14, 15, 16, 17, 255, 256, 257];

/// A presence proof in form of any key, with this many steps, and the root that it leads to.
fn path(random: &mut Random, steps: usize) -> (Bytes32, Case) {
    let (key, value) = (random.hash(), random.hash());
    let mut hash = leaf_hash(&key, &value);
    let mut p = (72 + 33 * steps as u32).to_le_bytes().to_vec();
    p.extend([16, 0]);
    p.extend((steps as u16).to_le_bytes());
    p.extend(key);
    p.extend(value);
    for _ in 0..steps {
        let (side, sibling) = (random.byte() % 2, random.hash());
        hash = if side == 1 { inner_hash(&sibling, &hash) } else { inner_hash(&hash, &sibling) };
        p.push(side);
        p.extend(sibling);
    }
    (hash, (key, p))
}

/// The call on a row, with this much room: our answers beside those of our single calls, then both beside the second program's.
fn row(tally: &mut Tally, what: &str, seed: u64, root: &[u8], keys: &[u8], row: &[u8], room: usize) -> Result<(), u32> {
    let before: Vec<u8> = (0..room).map(|i| 0x5A ^ i as u8).collect();
    let (x, a) = lent(&before, |answers| ours::verify_many(root, keys, row, answers));
    let mut b = before.clone();
    let y = second::verify_many(root, keys, row, &mut b);
    tally.wrote("verify_many", what, seed, (x, &a), (y, &b));
    if x.is_ok() {
        let mut single = before;
        let cut = pieces(row, keys.len() / 32).expect("as many pieces as keys");
        for (i, (key, proof)) in keys.chunks(32).zip(cut).enumerate() {
            let answer = &mut single[ANSWER * i..ANSWER * (i + 1)];
            answer.fill(0);
            match ours::verify(root, key, proof) {
                Err(number) => answer[0] = number as u8,
                Ok(None) => {}
                Ok(Some(value)) => {
                    answer[1] = 1;
                    answer[2..].copy_from_slice(&value);
                }
            }
        }
        tally.equal("many beside single calls", seed, a == single, true);
    }
    y
}

fn joined(cases: &[Case]) -> (Vec<u8>, Vec<u8>) {
    (cases.iter().flat_map(|c| c.0).collect(), cases.iter().flat_map(|c| c.1.iter().copied()).collect())
}

/// Paths of any lengths from 0 to 256 steps in rows of every size at an edge, under the root of one of them; some of the others are off form.
fn lengths(tally: &mut Tally, random: &mut Random, seed: u64) {
    for size in SIZES {
        let mut root = random.hash();
        let holding = random.below(size.max(1));
        let cases: Vec<Case> = (0..size)
            .map(|i| {
                let steps = match random.below(4) {
                    0 => [0, 1, 255, 256][random.below(4)],
                    1 if size < 20 => random.below(257),
                    _ => random.below(24),
                };
                let (top, mut case) = path(random, steps);
                if i == holding {
                    root = top;
                } else if random.one_in(5) {
                    let at = random.below(case.1.len() - 4) + 4;
                    case.1[at] ^= 1 << random.below(8);
                }
                case
            })
            .collect();
        let (keys, all) = joined(&cases);
        let wanted = if size > 256 { Err(12) } else { Ok(()) };
        let answer = row(tally, "of every length", seed, &root, &keys, &all, ANSWER * size);
        tally.equal("a row of every length", seed, answer, wanted);
    }
}

/// A store's keys, in their order, and the store; a few of them deep where that is asked for.
fn held(random: &mut Random, deep: usize) -> (Vec<Bytes32>, Vec<u8>) {
    let mut held: Vec<Bytes32> = (0..40).map(|_| random.hash()).collect();
    held.extend(cases::deep_keys(random).into_iter().take(deep));
    held.sort_unstable();
    held.dedup();
    let asks: Vec<u8> = held.iter().flat_map(|&key| ask_bytes(&Ask { key, value: Some([7; 32]) })).collect();
    let mut s = cases::fresh(2_000, 0, 0);
    second::apply(&mut s, 1, &asks).expect("room for these keys");
    (held, s)
}

/// The proofs for keys, present or absent, and the root that they hold under.
fn shown(s: &[u8], keys: impl IntoIterator<Item = Bytes32>) -> (Bytes32, Vec<Case>) {
    let cases = keys.into_iter().map(|key| (key, second::proof::proof(s, 1, &key).expect("a sound store"))).collect();
    (second::root(s, 1).expect("a sound store"), cases)
}

/// Rows of a store's proofs at every size, whole and with keys of others.
fn sizes(tally: &mut Tally, random: &mut Random, seed: u64) {
    let (held, s) = held(random, 4);
    let keys: Vec<Bytes32> = (0..257)
        .map(|_| {
            let mut key = held[random.below(held.len())];
            if random.one_in(2) {
                key[31 - random.below(4)] ^= 1 << random.below(8);
            }
            key
        })
        .collect();
    let (root, all) = shown(&s, keys);
    for size in SIZES {
        let mut cases = all[..size].to_vec();
        let (keys, bytes) = joined(&cases);
        let wanted = if size > 256 { Err(12) } else { Ok(()) };
        for room in [ANSWER * size, ANSWER * size + 9] {
            let answer = row(tally, "of a store", seed, &root, &keys, &bytes, room);
            tally.equal("a row of a store", seed, answer, wanted);
        }
        if (1..=256).contains(&size) {
            let answer = row(tally, "without room", seed, &root, &keys, &bytes, ANSWER * size - 1);
            tally.equal("a row without room", seed, answer, Err(9));
            let other = random.below(size);
            cases[other].0 = all[(other + 1) % all.len()].0;
            let _ = row(tally, "with another's key", seed, &root, &joined(&cases).0, &bytes, ANSWER * size);
        }
    }
}

/// One bit of each byte of a row changed in turn, its lengths and kinds among them: of a key that is present, one between two, one before all and one after all.
fn every_byte(tally: &mut Tally, random: &mut Random, seed: u64) {
    let (held, s) = held(random, 0);
    let mut between = held[20];
    between[31] ^= 1;
    let (root, cases) = shown(&s, [held[10], between, [0; 32], [0xFF; 32]]);
    let kinds: Vec<[u8; 2]> = cases.iter().map(|c| [c.1[4], c.1[6]]).collect();
    assert!(kinds[0][0] == 16 && kinds[1..] == [[17, 3], [17, 2], [17, 1]], "a present key, two neighbours, a right one, a left one");
    let (keys, bytes) = joined(&cases);
    for at in 0..bytes.len() {
        let mut harmed = bytes.clone();
        harmed[at] ^= 1 << random.below(8);
        let _ = row(tally, "a bit changed", seed, &root, &keys, &harmed, ANSWER * cases.len());
    }
    for end in 0..bytes.len() {
        let answer = row(tally, "cut short", seed, &root, &keys, &bytes[..end], ANSWER * cases.len());
        tally.equal("a row cut short", seed, answer, Err(10));
    }
}

/// Two refusals deserved at once, and the edges of each.
fn pairs(tally: &mut Tally) {
    let (root, key) = ([1; 32], [2; 32]);
    let four: &[u8] = &[4, 0, 0, 0];
    // Three bytes that say 3, and a piece of 256 behind them.
    let mut three = vec![3, 0, 0, 0, 1];
    three.resize(259, 0);
    let two = [key, key].concat();
    for (what, root, keys, bytes, room, wanted) in [
        ("many: 12 before 10, the root", &root[..31], &key[..], &[9u8][..], 0, Err(12)),
        ("many: 12 before 10, the list", &root[..], &key[..31], &[9], 0, Err(12)),
        ("many: 12 before 9, 257 keys", &root, &[3; 257 * 32], &[], 0, Err(12)),
        ("many: 10 before 9", &root, &key, &[], 33, Err(10)),
        ("many: a piece for no key", &root, &[], four, 34, Err(10)),
        ("many: a piece of 3", &root, &two, &three, 68, Err(10)),
        ("many: a length near 2^32", &root, &key, &[255; 8], 34, Err(10)),
        ("many: a byte over", &root, &key, &[4, 0, 0, 0, 0], 34, Err(10)),
        ("many: a byte short of room", &root, &key, four, 33, Err(9)),
        ("many: a piece that is no proof", &root, &key, four, 34, Ok(())),
        ("many: nothing", &root, &[], &[], 0, Ok(())),
    ] {
        let answer = row(tally, what, 0, root, keys, bytes, room);
        tally.equal(what, 0, answer, wanted);
    }
}

/// What is tried once, whatever the number of rounds.
pub fn named(seed: u64, tally: &mut Tally) {
    let mut random = Random(seed ^ 33);
    pairs(tally);
    for _ in 0..3 {
        lengths(tally, &mut random, seed);
    }
    sizes(tally, &mut random, seed);
    every_byte(tally, &mut random, seed);
    // Each number of steps in turn, in one row with its neighbours.
    for steps in 0..=256usize {
        let paths: Vec<(Bytes32, Case)> = (0..9).map(|i| path(&mut random, (steps + i).saturating_sub(4).min(256))).collect();
        let root = paths[steps % 9].0;
        let (keys, all) = joined(&paths.into_iter().map(|p| p.1).collect::<Vec<_>>());
        let answer = row(tally, "steps in turn", seed, &root, &keys, &all, ANSWER * 9);
        tally.equal("steps in turn", seed, answer, Ok(()));
    }
}

/// A row of a few paths and pieces of any kind, forged, under the root of one of them.
pub fn round(seed: u64, tally: &mut Tally) {
    let mut random = Random(seed ^ 0x33);
    let mut root = random.hash();
    let mut cases: Vec<Case> = vec![];
    for _ in 0..random.below(18) {
        let steps = random.below(12);
        let (top, case) = path(&mut random, steps);
        if random.one_in(3) {
            root = top;
        }
        cases.push(case);
    }
    let others: Vec<Vec<u8>> = cases.iter().map(|c| c.1.clone()).collect();
    for case in &mut cases {
        if random.one_in(4) {
            cases::forge(&mut random, &mut case.1, &others);
        }
        // Mostly its own length stays that of the piece, so that the row is whole.
        if case.1.len() >= 4 && !random.one_in(12) {
            let length = (case.1.len() as u32).to_le_bytes();
            case.1[..4].copy_from_slice(&length);
        }
        if random.one_in(9) {
            case.0 = random.hash();
        }
    }
    let (mut keys, mut all) = joined(&cases);
    if random.one_in(12) {
        keys.truncate(random.below(keys.len() + 1));
    }
    if random.one_in(12) {
        all.push(random.byte());
    }
    let room = match random.below(6) {
        0 => random.below(ANSWER * cases.len() + 1),
        1 => ANSWER * cases.len() + random.below(50),
        _ => ANSWER * cases.len(),
    };
    let root = if random.one_in(20) { &root[..random.below(32)] } else { &root[..] };
    let _ = row(tally, "of any pieces", seed, root, &keys, &all, room);
}
