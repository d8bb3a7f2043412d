//! The proved library beside the second program, on random histories, damaged stores and forged proofs. Deterministic: the first argument
//! is the number of rounds (a round is some forty cases, every tenth a history besides, every 4,000th the largest store), the second the seed.
//! A third names a file: each call of the library is written to it, but those on the largest store, whose copies would fill it. A fourth, `messages`, runs the
//! calls on ICS 23 messages alone (tests/proto).

mod applying;
mod base;
mod both;
#[allow(dead_code)] // some are the bench's alone
mod cases;
mod counting;
mod finding;
mod forging;
#[path = "../../passes/src/hostile.rs"]
#[allow(dead_code)] // those of roots are the passes' alone
mod hostile;
mod indexing;
mod messages;
mod moving;
mod ours;
mod quarter;
mod rescuing;
mod rows;
mod shelf;
mod stack;
mod tally;

use cases::Random;
use second::bytes::{ask_bytes, Ask, HEADER, SLOT};
use tally::Tally;

/// Versions in and just out of the kept ones.
fn version(random: &mut Random, s: &[u8]) -> u32 {
    if s.len() < HEADER || random.one_in(12) {
        return random.below(10) as u32;
    }
    let field = |at: usize| u32::from_le_bytes(s[at..at + 4].try_into().unwrap());
    let (oldest, latest) = (field(12), field(16));
    match random.below(8) {
        0 => oldest.wrapping_sub(1),
        1 => latest.wrapping_add(1),
        2 => oldest,
        3 if oldest < latest => oldest + random.below((latest - oldest) as usize) as u32,
        4 | 5 if (s.len() - HEADER) % SLOT == 0 => cases::near(random, s),
        _ => latest,
    }
}

fn key(random: &mut Random, keys: &[[u8; 32]]) -> Vec<u8> {
    let mut k = if random.one_in(4) {
        let mut k = random.hash();
        k[1..].fill(0);
        k.to_vec()
    } else {
        keys[random.below(keys.len())].to_vec()
    };
    if random.one_in(8) {
        k[31] ^= 1 << random.below(3);
    }
    if random.one_in(20) {
        k.truncate(random.below(33));
    }
    k
}

/// A list of keys: some of the store's, some beside them, some twice; now and then none, a torn list, or one key too many.
fn list(random: &mut Random, keys: &[[u8; 32]]) -> Vec<u8> {
    let n = match random.below(12) {
        0 => 0,
        1 => [256, 257][random.below(2)],
        _ => 1 + random.below(9),
    };
    let mut list = vec![];
    for _ in 0..n {
        let mut k = key(random, keys);
        k.resize(32, 0);
        list.extend(k);
    }
    if random.one_in(12) {
        list.truncate(list.len().saturating_sub(1 + random.below(31)));
    }
    if n > 1 && random.one_in(3) {
        list.extend_from_within(..32);
    }
    list
}

fn round(seed: u64, tally: &mut Tally) {
    let mut random = Random(seed);
    let (mut s, keys) = cases::store(&mut random);
    for _ in 0..[0, 0, 1, 1, 2, 3][random.below(6)] {
        cases::damage(&mut random, &mut s);
    }
    if random.one_in(25) {
        let n = s.len() + random.below(130);
        s.resize(n - random.below(64).min(n), 0);
    }
    tally.same("check", seed, ours::check(&s), second::check(&s));
    let message = &s[..random.below(s.len().min(400))];
    tally.equal("sha256", seed, ours::sha256(message), second::sha256::sha256(message));
    let mut proofs = vec![];
    for _ in 0..5 {
        let v = version(&mut random, &s);
        let k = key(&mut random, &keys);
        if let Some((root, p)) = both::reads(tally, &mut random, seed, &s, v, &k) {
            proofs.push((root, k, p));
        }
    }
    for _ in 0..3 {
        let v = version(&mut random, &s);
        let list = list(&mut random, &keys);
        let _ = both::palette(tally, &mut random, "of a made store", seed, &s, v, &list);
    }
    for _ in 0..3 {
        let (v, w) = (version(&mut random, &s), version(&mut random, &s));
        let _ = both::changes(tally, &mut random, "of a made store", seed, &s, v, w);
    }
    let bytes: Vec<Vec<u8>> = proofs.iter().map(|(_, _, p)| p.clone()).collect();
    for (root, k, p) in &proofs {
        for _ in 0..4 {
            let (mut root, mut k, mut p) = (root.to_vec(), k.clone(), p.clone());
            for _ in 0..1 + random.below(2) {
                cases::forge(&mut random, &mut p, &bytes);
            }
            if random.one_in(6) {
                k = key(&mut random, &keys);
            }
            if random.one_in(10) {
                root = vec![0; random.below(34)];
            }
            tally.same("forged", seed, ours::verify(&root, &k, &p), second::verify(&root, &k, &p));
        }
    }
    for _ in 0..3 {
        let v = version(&mut random, &s);
        let _ = both::prune(tally, "of a made store", seed, &mut s.clone(), v);
        let mut b = cases::batch(&mut random, &keys);
        if random.one_in(4) {
            cases::spoil(&mut random, &mut b);
        }
        let n = if s.len() < HEADER { 1 } else { cases::number(&mut random, &s) };
        let _ = both::apply(tally, "to a made store", seed, &mut s.clone(), n, &b);
    }
    moving::round(tally, &mut random, seed, &s);
    indexing::round(tally, &mut random, seed, &s, &keys);
    both::format(tally, seed, &mut s);
}

/// Proofs off form by one thing each, and the longest ones in form.
fn edges(tally: &mut Tally) {
    let mut random = Random(5);
    let (root, key) = (random.hash(), random.hash());
    let steps = |n: usize, side: u8| {
        let mut p = (72 + 33 * n as u32).to_le_bytes().to_vec();
        p.extend([16, 0]);
        p.extend((n as u16).to_le_bytes());
        p.extend(key);
        p.extend([7; 32]);
        (0..n).for_each(|_| {
            p.push(side);
            p.extend([9; 32]);
        });
        p
    };
    let around = |flags: u8, inside: &[u8]| {
        let mut p = (40 + inside.len() as u32).to_le_bytes().to_vec();
        p.extend([17, 0, flags, 0]);
        p.extend(key);
        p.extend(inside);
        p
    };
    let (longest, over) = (steps(256, 1), steps(257, 1));
    let mut huge = around(3, &[steps(2, 0), steps(3, 1)].concat());
    huge[40..44].copy_from_slice(&u32::MAX.to_le_bytes());
    let mut plus_minus = around(3, &[steps(2, 0), steps(3, 1)].concat());
    plus_minus[40..44].copy_from_slice(&(72u32 + 33 * 3).to_le_bytes());
    for (what, proof) in [
        ("256 steps", longest.clone()),
        ("257 steps", over.clone()),
        ("side 2", steps(1, 2)),
        ("two neighbours of 256 steps", around(3, &[longest.clone(), longest.clone()].concat())),
        ("a neighbour of 257 steps", around(1, &over)),
        ("a nested absence proof", around(1, &around(0, &[]))),
        ("a nested length near 2^32", huge),
        ("nested lengths off by 33", plus_minus),
        ("flags without neighbours", around(3, &[])),
        ("neither flags nor neighbours", around(0, &[])),
        ("neighbours without flags", around(0, &steps(0, 0))),
        ("flags 4", around(4, &steps(0, 0))),
    ] {
        // A random root, and the zero root of an empty version; the key of the proof, and another.
        for root in [root, [0; 32]] {
            for key in [key, [3; 32]] {
                tally.same(what, 0, ours::verify(&root, &key, &proof), second::verify(&root, &key, &proof));
            }
        }
    }
    // 2026-03: flags 0 is off form whatever root and key; a neighbour under the zero root doesn't hold.
    let none = around(0, &[]);
    for (proof, wanted) in [(none, 10), (around(1, &steps(0, 0)), 11), (around(2, &steps(0, 0)), 11)] {
        tally.equal("under the zero root", 0, ours::verify(&[0; 32], &key, &proof), Err(wanted));
    }
}

/// Proving in an empty version, with room for any proof and with none: 14 between 8 and 3 or 17, also where the root's record is lost.
fn empty(tally: &mut Tally, s: &[u8], latest: u32, key: &[u8; 32]) {
    let mut rootless = s.to_vec();
    for at in (HEADER..s.len()).step_by(SLOT) {
        let version = u32::from_le_bytes(s[at + 40..at + 44].try_into().unwrap());
        if version == latest && s[at + 6..at + 8] == [0, 0] {
            rootless[at..at + SLOT].fill(0);
        }
    }
    // Nothing but the header is in form, and no slot has the empty place; the versions up to latest are kept.
    let mut damaged = rootless.clone();
    for at in (HEADER..s.len()).step_by(SLOT) {
        damaged[at + 4] = 9;
        damaged[at + 7] |= 2;
    }
    for (what, store, version, wanted) in [
        ("14 with the root lost", &rootless[..], latest, 14),
        ("14 before 3", &damaged[..], latest, 14),
        ("8 before 14", &damaged[..], latest + 1, 8),
    ] {
        for room in [0, 17_080] {
            let (mut x, mut y) = (vec![7; room], vec![7; room]);
            let answers = (ours::prove(store, version, key, &mut x), second::prove(store, version, key, &mut y));
            tally.equal(what, 0, answers.0, answers.1);
            tally.equal(what, 0, answers.0, Err(second::alone(wanted)));
            assert!(x == vec![7; room] && y == x, "{what}: a refusal wrote");
        }
        if wanted == 14 {
            tally.equal("get in an empty version", 0, ours::get(store, version, key), Ok(None));
            tally.equal("the root of an empty version", 0, ours::root(store, version), Ok([0; 32]));
        }
    }
}

/// Palettes that deserve two refusals at once, or are at an edge: the first in the order asked is given, and room is looked at last.
fn palettes(tally: &mut Tally, s: &[u8], bad_header: &[u8], out: u32, keys: &[[u8; 32]]) {
    let bad_size = &bad_header[..s.len() - 1];
    let latest = out - 1;
    // No root: the header alone is in form, and no slot has the empty place.
    let mut rootless = s.to_vec();
    for at in (HEADER..s.len()).step_by(SLOT) {
        rootless[at + 4] = 9;
        rootless[at + 7] |= 2;
    }
    // Two keys with leaves below the root: of the first the leaf is lost, of the second spoilt.
    let leaf = |key: &[u8; 32]| {
        (0..(s.len() - HEADER) / SLOT).find(|i| {
            let slot = &s[HEADER + SLOT * i..][..SLOT];
            slot[4] == 2 && slot[6..8] != [0, 0] && slot[48..80] == key[..] && slot[44..48] == [0; 4]
        })
    };
    let two: Vec<(&[u8; 32], usize)> = keys.iter().filter_map(|k| Some((k, leaf(k)?))).take(2).collect();
    let [(lost, gone), (spoilt, kept)] = two[..] else { panic!("two grants") };
    let mut harmed = s.to_vec();
    harmed[HEADER + SLOT * gone..][..SLOT].fill(0);
    harmed[HEADER + SLOT * kept + 4] = 9;
    let beside = second::spoiled(kept);
    let all = second::palette::proofs(s, latest, &keys.concat()).expect("a sound store").concat();
    let many = [keys[0]; 257].concat();
    let list = keys.concat();
    let (torn, some) = (&list[..list.len() - 1], &list[..]);
    let (first, second) = ([*lost, *spoilt].concat(), [*spoilt, *lost, *spoilt].concat());
    let room = vec![5; all.len()];
    let no = second::alone;
    for (what, store, version, keys, room, wanted) in [
        ("palette: 12 before 1, torn", bad_size, 1, torn, &room[..], Err(no(12))),
        ("palette: 12 before 1, 257 keys", bad_size, 1, &many[..], &room[..], Err(no(12))),
        ("palette: 12 before 2", bad_header, out, torn, &room[..], Err(no(12))),
        ("palette: 1 before 2", bad_size, 1, some, &room[..], Err(no(1))),
        ("palette: 2 before 8", bad_header, out, some, &room[..], Err(no(2))),
        ("palette: 8 before 14", &rootless[..], out, some, &room[..], Err(no(8))),
        ("palette: 14 before 9", &rootless[..], latest, some, &room[..0], Err(no(14))),
        ("palette: 17 first in the order asked, before 9", &harmed[..], latest, &first[..], &room[..0], Err(no(17))),
        ("palette: 3 first in the order asked, before 9", &harmed[..], latest, &second[..], &room[..0], Err(beside)),
        ("palette: no keys, 1", bad_size, 1, &[], &room[..], Err(no(1))),
        ("palette: no keys, 2", bad_header, 1, &[], &room[..], Err(no(2))),
        ("palette: no keys, 8", s, out, &[], &room[..], Err(no(8))),
        ("palette: no keys, accepted", s, latest, &[], &room[..], Ok(0)),
        ("palette: no keys, no room", s, latest, &[], &room[..0], Ok(0)),
        ("palette: no keys, an empty version", &rootless[..], latest, &[], &room[..], Ok(0)),
        ("palette: a byte short", s, latest, some, &room[1..], Err(no(9))),
        ("palette: room just enough", s, latest, some, &room[..], Ok(all.len() as u32)),
    ] {
        let answer = both::palette_with(tally, what, 0, store, version, keys, room);
        tally.equal(what, 0, answer, wanted);
    }
    let repeats = [keys[0], keys[1], keys[0]].concat();
    let each = second::palette::proofs(s, latest, &repeats).unwrap();
    assert!(each[0] == each[2]);
    let answer = both::palette_with(tally, "palette: a key twice", 0, s, latest, &repeats, &vec![5; each.concat().len() + 3]);
    tally.equal("palette: a key twice", 0, answer, Ok(each.concat().len() as u32));
    let most = both::palette_with(tally, "palette: 256 keys", 0, s, latest, &many[..256 * 32], &vec![5; 256 * each[0].len() + 9]);
    tally.equal("palette: 256 keys", 0, most, Ok(256 * each[0].len() as u32));
}

/// Two refusals deserved at once: the first in 01's order is given.
fn pairs(tally: &mut Tally) {
    let mut random = Random(3);
    let (s, keys) = loop {
        let (s, keys) = cases::store(&mut random);
        let latest = s[16];
        if latest > 2 && s[12] <= 1 && second::changes::measures(&s, 1, latest as u32).is_ok_and(|m| m.1 > 0) && second::root(&s, latest as u32).map_or(false, |r| r != [0; 32]) {
            break (s, keys);
        }
    };
    let key = keys[0];
    let short = &key[..31];
    let bad_size = &s[..s.len() - 1];
    let mut bad_header = s.clone();
    bad_header[4] = 9;
    let mut damaged = s.clone();
    for i in 0..(s.len() - HEADER) / SLOT {
        damaged[HEADER + SLOT * i] ^= 1;
    }
    let out = u32::from_le_bytes(s[16..20].try_into().unwrap()) + 1;
    let mut case = |what: &str, store: &[u8], version: u32, key: &[u8], wanted: u32| {
        tally.same(what, 0, ours::get(store, version, key), second::get(store, version, key));
        assert_eq!(second::get(store, version, key), Err(second::alone(wanted)), "{what}");
        if key.len() == 32 {
            tally.same(what, 0, ours::root(store, version), second::root(store, version));
        }
    };
    case("12 before 1", bad_size, 1, short, 12);
    case("1 before 2", &bad_header[..s.len() - 1], 1, &key, 1);
    case("2 before 8", &bad_header, out, &key, 2);
    case("8 before 3", &damaged, out, &key, 8);
    empty(tally, &s, out - 1, &key);
    palettes(tally, &s, &bad_header, out, &keys);
    tally.same("2 before 3", 0, ours::check(&bad_header), second::check(&bad_header));
    for (what, store, version, wanted) in [
        ("1 before 2", &bad_header[..s.len() - 1], 1, 1),
        ("2 before 3", &bad_header[..], 1, 2),
        ("3 before 8", &damaged[..], out, 3),
    ] {
        let answer = both::prune(tally, what, 0, &mut store.to_vec(), version);
        tally.equal(what, 0, answer, Err(wanted));
    }
    let (visits, records) = second::changes::measures(&s, 1, out - 1).unwrap();
    let room = vec![5; 72 * records];
    for (what, store, second, limit, room, wanted) in [
        ("changes: 1 before 2", &bad_header[..s.len() - 1], out - 1, 0, &room[..], Err(1)),
        ("changes: 2 before 3", &bad_header[..], out, 0, &room[1..], Err(2)),
        ("changes: 3 before 8", &damaged[..], out, 0, &room[1..], Err(3)),
        ("changes: 8 before 13", &s[..], out, 0, &room[1..], Err(8)),
        ("changes: 13 before 9", &s[..], out - 1, visits as u32 - 1, &room[1..], Err(13)),
        ("changes: a byte short", &s[..], out - 1, visits as u32, &room[1..], Err(9)),
        ("changes: limit and room just enough", &s[..], out - 1, visits as u32, &room[..], Ok(records as u32)),
    ] {
        let answer = both::changes_with(tally, what, 0, store, 1, second, limit, room);
        tally.equal(what, 0, answer, wanted);
    }
    let root = [1; 32];
    for (what, root, key, proof) in [
        ("12 before 10", &root[..31], &key[..], &[0u8; 9][..]),
        ("12 before 10", &root[..], short, &[0u8; 9][..]),
        ("10 before 11", &root[..], &key[..], &[0u8; 71][..]),
    ] {
        tally.same(what, 0, ours::verify(root, key, proof), second::verify(root, key, proof));
    }
}

/// Stores that are hard on a check that guesses, and sound ones with one slot changed: check, and the calls that begin with it.
fn hard(first: u64, tally: &mut Tally) {
    let mut random = Random(first);
    for capacity in [200, 1_024] {
        let (full, keys) = hostile::filled(&mut random, capacity, capacity / 64, capacity);
        let deep = hostile::deep(600);
        let made = hostile::hostile(&mut random, capacity).into_iter();
        let changed = [&full, &deep].map(|s| hostile::damaged(&mut random, s)).into_iter().flatten();
        let doubled = ("doubles", hostile::doubles(&full));
        for (name, s) in made.chain(changed).chain([doubled, ("full", full.clone()), ("deep", deep.clone())]) {
            tally.same(name, first, ours::check(&s), second::check(&s));
            let v = version(&mut random, &s);
            let _ = both::prune(tally, name, first, &mut s.clone(), v);
            let b = ask_bytes(&Ask { key: keys[0], value: None });
            let n = cases::number(&mut random, &s);
            let _ = both::apply(tally, name, first, &mut s.clone(), n, &b);
        }
    }
}

fn all(rounds: u64, first: u64, tally: &mut Tally) {
    base::same(tally);
    pairs(tally);
    edges(tally);
    hard(first, tally);
    applying::named(first, tally);
    finding::named(tally);
    counting::named(tally);
    forging::named(tally);
    rescuing::named(tally);
    rows::named(first, tally);
    shelf::named(first, tally);
    quarter::named(tally);
    moving::named(tally);
    indexing::named(tally);
    messages::named(tally);
    for n in 0..rounds {
        let seed = seed(first, n);
        round(seed, tally);
        rescuing::round(seed, tally);
        rows::round(seed, tally);
        shelf::round(seed, tally);
        quarter::round(seed, tally);
        messages::round(seed, tally);
        if n % 10 == 0 {
            applying::history(seed, tally);
            finding::round(seed, tally);
            counting::round(seed, tally);
            forging::round(seed, tally);
        }
        if n % 4_000 == 0 && !ours::record::running() {
            applying::large(seed, tally);
        }
    }
}

fn seed(first: u64, n: u64) -> u64 {
    first.wrapping_add(n).wrapping_mul(0x9E37_79B9_7F4A_7C15)
}

fn only_messages(rounds: u64, first: u64, tally: &mut Tally) {
    messages::named(tally);
    (0..rounds).for_each(|n| messages::round(seed(first, n), tally));
}

fn main() {
    std::env::args().nth(3).iter().for_each(|name| ours::record::start(name));
    let mut words = std::env::args().skip(1).take(2).map(|w| w.parse::<u64>().expect("a number"));
    let rounds = words.next().unwrap_or(4000);
    let first = words.next().unwrap_or(1);
    let mut tally = Tally::default();
    // A panic, such as that of a call that wrote where it must not, ends the run; it counts as one failure.
    let run = if std::env::args().nth(4).as_deref() == Some("messages") { only_messages } else { all };
    if std::panic::catch_unwind(std::panic::AssertUnwindSafe(|| run(rounds, first, &mut tally))).is_err() {
        tally.failed += 1;
    }
    ours::record::end();
    for (answer, times) in &tally.answers {
        println!("{answer}: {times}");
    }
    println!("compared: {} passed, {} failed", tally.passed, tally.failed);
    std::process::exit((tally.failed != 0) as i32);
}
