//! One call on both sides: our answer and every byte that our call left, beside the second program's.

use crate::cases::{self, Random};
use crate::ours;
use crate::tally::{Proof, Tally, Word};
use second::bytes::{Form, HEADER, SLOT};
use second::{Bytes32, Stopped};

const EDGE: usize = 64;
const MARK: u8 = 0xC3;

/// A call on a copy that lies between marked edges: its answer, and the copy after it.
pub fn lent<T>(bytes: &[u8], call: impl FnOnce(&mut [u8]) -> T) -> (T, Vec<u8>) {
    let mut all = vec![MARK; bytes.len() + 2 * EDGE];
    let end = EDGE + bytes.len();
    all[EDGE..end].copy_from_slice(bytes);
    let answer = call(&mut all[EDGE..end]);
    assert!(all[..EDGE].iter().chain(&all[end..]).all(|&b| b == MARK), "bytes beside the lent ones were written");
    all.truncate(end);
    all.drain(..EDGE);
    (answer, all)
}

pub type Applied = Result<(u32, Bytes32, u32), u32>;

/// Apply with the number after latest.
pub fn apply_next(tally: &mut Tally, case: &str, seed: u64, s: &mut Vec<u8>, batch: &[u8]) -> Applied {
    let next = cases::next(s);
    apply(tally, case, seed, s, next, batch)
}

/// The store goes on as the second program leaves it.
pub fn apply(tally: &mut Tally, case: &str, seed: u64, s: &mut Vec<u8>, number: u32, batch: &[u8]) -> Applied {
    let read = batch.to_vec();
    let (x, a) = lent(s, |s| ours::apply(s, number, &read));
    assert!(read == batch, "the batch was written");
    let before = s.clone();
    let y = second::apply(s, number, batch);
    assert!(y.is_ok() || *s == before, "the second program refused and wrote");
    tally.wrote("apply", case, seed, (x, &a), (y, s));
    y
}

/// The store goes on as the second program leaves it.
pub fn prune(tally: &mut Tally, case: &str, seed: u64, s: &mut Vec<u8>, version: u32) -> Result<u32, u32> {
    let (x, a) = lent(s, |s| ours::prune(s, version));
    let y = second::prune(s, version);
    tally.wrote("prune", case, seed, (x, &a), (y, s));
    y
}

pub fn format(tally: &mut Tally, seed: u64, s: &mut Vec<u8>) {
    let (x, a) = lent(s, ours::format);
    let y = second::format(s);
    tally.wrote("format", "", seed, (x, &a), (y, s));
}

/// Root, key read, the number of grants and some of them by position, proof and the check of the proof. The proof with its root, where there is one.
pub fn reads(tally: &mut Tally, random: &mut Random, seed: u64, s: &[u8], version: u32, key: &[u8]) -> Option<(Bytes32, Vec<u8>)> {
    let root = second::root(s, version);
    tally.same("root", seed, ours::root(s, version), root);
    tally.same("get", seed, ours::get(s, version, key), second::get(s, version, key));
    let _ = counted(tally, seed, s, version);
    for _ in 0..2 {
        let position = cases::position(random, s, version);
        let _ = at(tally, seed, s, version, position);
    }
    let proof = second::proof::proof(s, version, key);
    let room = match &proof {
        Ok(p) if random.one_in(6) => p.len() - 1,
        Ok(p) if random.one_in(3) => p.len(),
        Ok(p) => p.len() + random.below(40),
        Err(_) => random.below(200),
    };
    let room = vec![random.byte(); room];
    let (x, a) = lent(&room, |room| ours::prove(s, version, key, room));
    let mut b = room;
    let y = second::prove(s, version, key, &mut b);
    tally.count(format!("prove {}", Proof::word(y, &b)));
    tally.equal("prove", seed, (x, a), (y, b));
    let (root, proof) = (root.ok()?, proof.ok()?);
    tally.same("verify", seed, ours::verify(&root, key, &proof), second::verify(&root, key, &proof));
    Some((root, proof))
}

pub fn counted(tally: &mut Tally, seed: u64, s: &[u8], version: u32) -> Result<u64, Stopped> {
    let (x, a) = lent(s, |s| ours::count(s, version));
    assert!(a == s, "the store was written");
    let y = second::count(s, version);
    tally.same("count", seed, x, y);
    y
}

pub fn at(tally: &mut Tally, seed: u64, s: &[u8], version: u32, position: u64) -> Result<(Bytes32, Bytes32), Stopped> {
    let (x, a) = lent(s, |s| ours::at(s, version, position));
    assert!(a == s, "the store was written");
    let y = second::at(s, version, position);
    tally.count(format!("at {}", y.word()));
    tally.equal(&format!("at {position} in {version}"), seed, x, y);
    y
}

/// The number, each position below it (the first twelve), the first one beyond, and some far beyond.
pub fn positions(tally: &mut Tally, seed: u64, s: &[u8], version: u32) {
    let n = counted(tally, seed, s, version).unwrap_or(1);
    for position in (0..n.min(12)).chain([n.saturating_sub(1), n, n + 1, 1 << 32, u64::MAX]) {
        let _ = at(tally, seed, s, version, position);
    }
}

/// A palette of keys, with a room near what is needed. Its bytes are those of single calls joined, and cut apart each is checked.
pub fn palette(tally: &mut Tally, random: &mut Random, case: &str, seed: u64, s: &[u8], version: u32, keys: &[u8]) -> Result<u32, Stopped> {
    let all = second::palette::proofs(s, version, keys).map_or(random.below(200), |proofs| proofs.concat().len());
    let length = match random.below(5) {
        0 => all.saturating_sub(1),
        1 => all,
        2 => random.below(all + 1),
        _ => all + random.below(40),
    };
    let room: Vec<u8> = (0..length).map(|_| random.byte()).collect();
    palette_with(tally, case, seed, s, version, keys, &room)
}

pub fn palette_with(tally: &mut Tally, case: &str, seed: u64, s: &[u8], version: u32, keys: &[u8], room: &[u8]) -> Result<u32, Stopped> {
    let (x, a) = lent(room, |room| ours::palette(s, version, keys, room));
    let mut b = room.to_vec();
    let y = second::palette(s, version, keys, &mut b);
    tally.wrote("palette", case, seed, (x, &a), (y, &b));
    if let (Ok(all), Ok(root)) = (x, second::root(s, version)) {
        let mut rest = &a[..all as usize];
        for key in keys.chunks(32) {
            let (proof, more) = rest.split_at(u32::from_le_bytes(rest[..4].try_into().unwrap()) as usize);
            rest = more;
            let mut single = vec![0; proof.len()];
            tally.equal("a proof of a palette", seed, (ours::prove(s, version, key, &mut single), &single[..]), (Ok(proof.len() as u32), proof));
            tally.same("verify", seed, ours::verify(&root, key, proof), second::verify(&root, key, proof));
        }
        tally.equal("nothing after the last proof", seed, rest.len(), 0);
    }
    y
}

/// A comparison of two versions, with a limit and a room near what is needed.
pub fn changes(tally: &mut Tally, random: &mut Random, case: &str, seed: u64, s: &[u8], first: u32, second: u32) -> Result<u32, u32> {
    let (visits, records) = second::changes::measures(s, first, second).unwrap_or((7, 3));
    let limit = match random.below(6) {
        0 => 0,
        1 => visits - 1,
        2 => visits,
        3 => u32::MAX as usize,
        _ => visits + random.below(9),
    };
    let length = match random.below(5) {
        0 => (72 * records).saturating_sub(1),
        1 => 72 * records,
        2 => random.below(72 * records + 1),
        _ => 72 * records + random.below(100),
    };
    let room: Vec<u8> = (0..length).map(|_| random.byte()).collect();
    changes_with(tally, case, seed, s, first, second, limit as u32, &room)
}

pub fn changes_with(
    tally: &mut Tally,
    case: &str,
    seed: u64,
    s: &[u8],
    first: u32,
    second: u32,
    limit: u32,
    room: &[u8],
) -> Result<u32, u32> {
    let (x, a) = lent(room, |room| ours::changes(s, first, second, limit, room));
    let mut b = room.to_vec();
    let y = second::changes(s, first, second, limit, &mut b);
    tally.wrote("changes", case, seed, (x, &a), (y, &b));
    y
}

/// A rescue into a target of these bytes. Each accepted one is then held to what 02 says of every rescue: the target is sound, its former bytes
/// don't matter, the numbers add up, and rescued again, with the same bounds or with its own, it gives the same bytes with nothing changed and
/// nothing left out.
pub fn rescue(tally: &mut Tally, case: &str, seed: u64, s: &[u8], oldest: u32, latest: u32, target: &[u8]) -> (Rescue, Vec<u8>) {
    let before = s.to_vec();
    let (x, a) = lent(target, |target| ours::rescue(s, oldest, latest, target));
    assert!(s == before, "the source was written");
    let mut b = target.to_vec();
    let y = second::rescue(s, oldest, latest, &mut b);
    assert!(y.is_ok() || b == target, "the second program refused and wrote");
    tally.wrote("rescue", case, seed, (x, &a), (y, &b));
    let mut c = target.to_vec();
    let walked = second::rescue::walked(s, oldest, latest, &mut c).map(|w| w.0);
    tally.equal("rescue by a walk", seed, (walked, &c), (y, &b));
    let Ok((first, same, other, out)) = x else { return (y, b) };
    let used = |s: &[u8]| s[HEADER..].chunks_exact(SLOT).filter(|slot| slot.iter().any(|b| *b != 0)).count() as u32;
    tally.equal("a rescue's numbers", seed, (same + other + out, same + other), (used(s), used(&a)));
    tally.equal("a rescued store", seed, ours::check(&a), Ok(()));
    for (from, o) in [(s, oldest), (&a[..], oldest), (&a[..], first)] {
        let (again, d) = lent(&vec![0xE7; a.len()], |target| ours::rescue(from, o, latest, target));
        let wanted = if from == s { x } else { Ok((first, same + other, 0, 0)) };
        tally.equal("a rescue again", seed, (again, d == a), (wanted, true));
    }
    (y, b)
}

/// A move of a store of a form into a target of these bytes. Each accepted one is then held to what 02 says of every move: the target's former bytes don't
/// matter, and moved on it is the source again, byte for byte.
pub fn moved(tally: &mut Tally, case: &str, seed: u64, from: Form, s: &[u8], target: &[u8]) -> (Result<(), u32>, Vec<u8>) {
    type Move = fn(&[u8], &mut [u8]) -> Result<(), u32>;
    let (name, ours, theirs, on): (&str, Move, Move, Move) = match from {
        Form::Plain => ("over", ours::over, second::over, ours::back),
        Form::Counted => ("back", ours::back, second::back, ours::over),
    };
    let before = s.to_vec();
    let (x, a) = lent(target, |target| ours(s, target));
    assert!(s == before, "the source was written");
    let mut b = target.to_vec();
    let y = theirs(s, &mut b);
    assert!(y.is_ok() || b == target, "the second program refused and wrote");
    tally.wrote(name, case, seed, (x, &a), (y, &b));
    if x.is_ok() {
        let (again, c) = lent(&vec![0xE7; a.len()], |target| ours(s, target));
        tally.equal("a move into other bytes", seed, (again, c == a), (Ok(()), true));
        let (there, d) = lent(&vec![0x18; s.len()], |target| on(&a, target));
        tally.equal("there and back", seed, (there, d == s), (Ok(()), true));
    }
    (y, b)
}

pub type Rescue = Result<(u32, u32, u32, u32), u32>;
