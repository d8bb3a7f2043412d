//! 2026-09: how many grants, and the grant at a position, beside the second program: on histories, on damaged counts and on any bytes. The named cases are
//! worked out by hand from 02's words.

use crate::both;
use crate::cases::{self, Random};
use crate::ours;
use crate::tally::Tally;
use second::bytes::{ask_bytes, u16_at, u32_at, Ask, HEADER, MOST_SLOTS, SLOT};
use second::form::slot::{BIT_COUNT, BITS, CHILD, KEY, KIND, LEAVES, RETIRED, VERSION};
use second::form::INNER;
use second::{alone, spoiled, Bytes32, Stopped, ZEROS};

fn key(first: u8) -> Bytes32 {
    let mut k = ZEROS;
    k[0] = first;
    k
}

/// A grant by its key's first byte and its value's bytes.
fn grant((first, value): (u8, u8)) -> (Bytes32, Bytes32) {
    (key(first), [value; 32])
}

fn publish(s: &mut [u8], number: u32, inserts: &[(u8, u8)], deletes: &[u8]) {
    let mut asks: Vec<Ask> = inserts.iter().map(|&g| Ask { key: grant(g).0, value: Some(grant(g).1) }).collect();
    asks.extend(deletes.iter().map(|&k| Ask { key: key(k), value: None }));
    asks.sort_by_key(|a| a.key);
    second::apply(s, number, &asks.iter().flat_map(ask_bytes).collect::<Vec<u8>>()).unwrap();
}

const A: (u8, u8) = (0x00, 1);
const B: (u8, u8) = (0x40, 2);
const C: (u8, u8) = (0x60, 3);
const D: (u8, u8) = (0x80, 4);
/// C's second value.
const C5: (u8, u8) = (0x60, 5);

/// M1 to M6, as many as these. After M1: 010 in slot 0, 011 in 1, 00 in 2, 01 in 3, 0 in 4, 1 in 5, the root in 6.
fn desk(versions: u32) -> Vec<u8> {
    let mut s = cases::fresh(20, 0, 0);
    for v in 1..=versions {
        match v {
            1 => publish(&mut s, v, &[A, B, C, D], &[]),
            2 => publish(&mut s, v, &[C5], &[B.0]),
            3 => publish(&mut s, v, &[], &[]),
            4 => publish(&mut s, v, &[], &[A.0]),
            5 => publish(&mut s, v, &[], &[D.0]),
            _ => publish(&mut s, v, &[], &[C.0]),
        }
    }
    s
}

/// M9: 0000 and 0001 in slots 0 and 1, 000 in 2; above it 00, 0 and the root in 3, 4, 5, each with one child.
fn lone() -> Vec<u8> {
    let mut s = cases::fresh(8, 0, 0);
    publish(&mut s, 1, &[(0x00, 1), (0x10, 2)], &[]);
    s
}

/// Two or four grants, as many left as right of every inner record: the leaves first, then the inner records, the root last.
fn even(grants: &[(u8, u8)]) -> Vec<u8> {
    let mut s = cases::fresh(8, 0, 0);
    publish(&mut s, 1, grants, &[]);
    s
}

fn at(slot: usize, field: usize) -> usize {
    HEADER + SLOT * slot + field
}

fn set(s: &mut [u8], slot: usize, counts: [u32; 2]) {
    for (field, n) in LEAVES.into_iter().zip(counts) {
        s[at(slot, field)..][..4].copy_from_slice(&n.to_le_bytes());
    }
}

fn lose(s: &mut [u8], slot: usize) {
    s[at(slot, 0)..at(slot + 1, 0)].fill(0);
}

fn spoil(s: &mut [u8], slot: usize) {
    s[at(slot, KIND)] = 9;
}

/// A leaf's key made one that doesn't begin with its place.
fn stray(s: &mut [u8], slot: usize) {
    s[at(slot, KEY)] ^= 0x80;
}

/// What both sides answer, and what 02 says.
fn told(tally: &mut Tally, what: &str, s: &[u8], version: u32, position: u64, wanted: Result<(u8, u8), Stopped>) {
    let answer = both::at(tally, 0, s, version, position);
    tally.equal(&format!("{what}, position {position} of {version}"), 0, answer, wanted.map(grant));
}

fn numbered(tally: &mut Tally, what: &str, s: &[u8], version: u32, wanted: Result<u64, Stopped>) {
    let answer = both::counted(tally, 0, s, version);
    tally.equal(&format!("{what}, the number of {version}"), 0, answer, wanted);
}

/// The desk's versions, kept all and after M7's prune; M8's one grant.
fn desks(tally: &mut Tally) {
    let held: [&[(u8, u8)]; 7] = [&[], &[A, B, C, D], &[A, C5, D], &[A, C5, D], &[C5, D], &[C5], &[]];
    let mut s = desk(6);
    let look = |tally: &mut Tally, s: &[u8], version: u32, held: &[(u8, u8)]| {
        let n = held.len() as u64;
        numbered(tally, "the desk", s, version, Ok(n));
        for (i, g) in held.iter().enumerate() {
            told(tally, "the desk", s, version, i as u64, Ok(*g));
        }
        for position in [n, n + 1, (1 << 32) - 1, 1 << 32, (1 << 32) + n, 1 << 33, 1 << 63, u64::MAX] {
            told(tally, "the desk", s, version, position, Err(alone(20)));
        }
    };
    for (v, held) in held.iter().enumerate() {
        look(tally, &s, v as u32, held);
    }
    assert_eq!(second::prune(&mut s, 4), Ok(10));
    for v in 4..=6 {
        look(tally, &s, v, held[v as usize]);
    }
    let mut last = key(0x80);
    last[31] = 1;
    second::apply(&mut s, 7, &ask_bytes(&Ask { key: last, value: Some([6; 32]) })).unwrap();
    numbered(tally, "M8", &s, 7, Ok(1));
    tally.equal("M8", 0, ours::at(&s, 7, 0), Ok((last, [6; 32])));
    for version in [0, 3, 8] {
        numbered(tally, "a version not kept", &s, version, Err(alone(8)));
        told(tally, "a version not kept", &s, version, 0, Err(alone(8)));
    }
}

/// Two refusals next to each other deserved at once, the whole order through; in the descent the first met.
fn pairs(tally: &mut Tally) {
    let s = desk(1);
    let short = s.len() - 1;
    type Harm<'a> = &'a dyn Fn(&mut Vec<u8>);
    let header: Harm = &|s| s[4] = 1;
    let lost_root: Harm = &|s| lose(s, 6);
    let bare: Harm = &|s| (0..6).for_each(|i| lose(s, i));
    let n = Ok(4);
    // (what, harm, version, position, the number, the position's refusal)
    let rows: &[(&str, Harm, u32, u64, Result<u64, Stopped>, Stopped)] = &[
        ("1 before 2", &|s| { header(s); s.truncate(short) }, 2, 9, Err(alone(1)), alone(1)),
        ("1: no byte", &|s| s.clear(), 1, 0, Err(alone(1)), alone(1)),
        ("1: no slot", &|s| s.truncate(HEADER), 1, 0, Err(alone(1)), alone(1)),
        ("1: a slot of the form before", &|s| s.truncate(HEADER + 120 * 20), 1, 0, Err(alone(1)), alone(1)),
        ("2 before 8", header, 2, 9, Err(alone(2)), alone(2)),
        ("2 before the root lookup", &|s| { header(s); spoil(s, 6) }, 1, 0, Err(alone(2)), alone(2)),
        ("8 before the root lookup", &|s| spoil(s, 6), 2, 9, Err(alone(8)), alone(8)),
        ("3 at the root before 20", &|s| spoil(s, 6), 1, u64::MAX, Err(spoiled(6)), spoiled(6)),
        ("3 at the root before 17", &|s| { spoil(s, 6); lose(s, 4) }, 1, 0, Err(spoiled(6)), spoiled(6)),
        ("a lost root: 20", lost_root, 1, 0, Ok(0), alone(20)),
        ("20 before 17", bare, 1, 4, n, alone(20)),
        ("20 before 3", &|s| (0..6).for_each(|i| spoil(s, i)), 1, 4, n, alone(20)),
        ("17", bare, 1, 3, n, alone(17)),
        ("3 with a slot", &|s| (0..6).for_each(|i| spoil(s, i)), 1, 3, n, spoiled(5)),
        ("17 above 3", &|s| { lose(s, 4); spoil(s, 3) }, 1, 1, n, alone(17)),
        ("3 above 17", &|s| { spoil(s, 4); lose(s, 3) }, 1, 1, n, spoiled(4)),
        ("17 at the leaf", &|s| lose(s, 0), 1, 1, n, alone(17)),
        ("3 at the leaf", &|s| spoil(s, 0), 1, 1, n, spoiled(0)),
        ("a stray leaf", &|s| stray(s, 0), 1, 1, n, alone(3)),
        ("a stray leaf with a position left over", &|s| { stray(s, 1); set(s, 3, [1, 2]); set(s, 4, [1, 3]); set(s, 6, [4, 1]) }, 1, 3, Ok(5), alone(3)),
        ("a leaf with a position left over", &|s| { set(s, 3, [1, 2]); set(s, 4, [1, 3]); set(s, 6, [4, 1]) }, 1, 3, Ok(5), alone(3)),
        ("a lost leaf with a position left over", &|s| { lose(s, 1); set(s, 6, [9, 1]) }, 1, 3, Ok(10), alone(17)),
        ("a spoilt leaf with a position left over", &|s| { spoil(s, 1); set(s, 6, [9, 1]) }, 1, 3, Ok(10), spoiled(1)),
    ];
    for (what, harm, version, position, number, stopped) in rows {
        let mut s = s.clone();
        harm(&mut s);
        numbered(tally, what, &s, *version, *number);
        told(tally, what, &s, *version, *position, Err(*stopped));
    }
    // What is not on the way down is not seen.
    let mut beside = s.clone();
    lose(&mut beside, 0);
    spoil(&mut beside, 2);
    stray(&mut beside, 5);
    for (position, wanted) in [(0, Err(spoiled(2))), (1, Err(alone(17))), (2, Ok(C)), (3, Err(alone(3))), (4, Err(alone(20)))] {
        told(tally, "beside the way down", &beside, 1, position, wanted);
    }
    // A store of the form before with as many bytes: 24 + 120 x 16 is 24 + 128 x 15.
    let mut old = cases::fresh(15, 0, 0);
    second::calls::format_in(second::form::Form::Plain, &mut old).unwrap();
    numbered(tally, "the form before", &old, 0, Err(alone(2)));
    told(tally, "the form before", &old, 0, 0, Err(alone(2)));
}

/// Counts that no history gives, worked out by hand: the sum in 64 bits, compared at the root alone; missing children that are met.
fn miscounted(tally: &mut Tally) {
    const MAX: u64 = u32::MAX as u64;
    let mut s = desk(1);
    let rows = |tally: &mut Tally, what: &str, s: &[u8], number: u64, rows: &[(u64, Result<(u8, u8), Stopped>)]| {
        numbered(tally, what, s, 1, Ok(number));
        for (position, wanted) in rows {
            told(tally, what, s, 1, *position, *wanted);
        }
    };
    let (left_over, past) = (Err(alone(3)), Err(alone(20)));
    set(&mut s, 6, [u32::MAX, u32::MAX]);
    let sum = 2 * MAX;
    let wide = [(0, Ok(A)), (1, Ok(B)), (2, Ok(C)), (3, left_over), (MAX - 1, left_over), (MAX, Ok(D)), (MAX + 1, left_over), (sum - 1, left_over), (sum, past), (1 << 33, past), (u64::MAX, past)];
    rows(tally, "2^32 - 1 on each side", &s, sum, &wide);
    // In 32 bits the sum would be 0.
    set(&mut s, 6, [1 << 31, 1 << 31]);
    rows(tally, "2^31 on each side", &s, 1 << 32, &[(0, Ok(A)), (1 << 31, Ok(D)), ((1 << 32) - 1, left_over), (1 << 32, past)]);
    set(&mut s, 6, [3, u32::MAX]);
    rows(tally, "2^32 - 1 on the right", &s, MAX + 3, &[(2, Ok(C)), (3, Ok(D)), (4, left_over), (MAX + 2, left_over), (MAX + 3, past)]);
    // A position is not compared with the sum of 0 or of 01: each says less than its parent does of it.
    set(&mut s, 6, [3, 1]);
    set(&mut s, 4, [1, 0]);
    set(&mut s, 3, [1, 0]);
    rows(tally, "too few below", &s, 4, &[(0, Ok(A)), (1, Ok(B)), (2, Ok(C)), (3, Ok(D)), (4, past)]);
    set(&mut s, 4, [0, 0]);
    set(&mut s, 3, [0, 0]);
    rows(tally, "none below", &s, 4, &[(0, Ok(C)), (1, left_over), (2, left_over), (3, Ok(D)), (4, past)]);
    set(&mut s, 6, [0, 0]);
    rows(tally, "none at the root", &s, 0, &[(0, past), (1, past)]);
    set(&mut s, 6, [0, 4]);
    rows(tally, "all on the right", &s, 4, &[(0, Ok(D)), (1, left_over), (4, past)]);
    let mut s = lone();
    set(&mut s, 5, [2, 5]);
    rows(tally, "a missing child with a count", &s, 7, &[(0, Ok((0x00, 1))), (1, Ok((0x10, 2))), (2, left_over), (6, left_over), (7, past)]);
    set(&mut s, 5, [2, 0]);
    set(&mut s, 3, [1, 0]);
    rows(tally, "a missing child met below", &s, 2, &[(0, Ok((0x00, 1))), (1, left_over), (2, past)]);
    set(&mut s, 3, [0, 2]);
    rows(tally, "a missing child has all", &s, 2, &[(0, left_over), (1, left_over), (2, past)]);
}

/// Positions at every edge of 32 bits and around the numbers of small stores.
fn edges() -> Vec<u64> {
    let around = |n: u64| n - 3..n + 3;
    (0..8).chain(around(1 << 31)).chain(around(1 << 32)).chain(around((1 << 32) + (1 << 31))).chain(around(1 << 33)).chain([1 << 63, u64::MAX]).collect()
}

/// Each inner record's counts made every pair of some numbers, of the desk's first version, of one with missing children and of even ones, in which
/// nothing but a wrong count is uneven; check and the calls that begin with it refuse each wrong pair, and no other.
fn every_pair(tally: &mut Tally) {
    let numbers = [0, 1, 2, 3, 4, 1 << 31, u32::MAX - 1, u32::MAX];
    for (s, slots) in [(desk(1), vec![3, 4, 6]), (lone(), vec![2, 3, 4, 5]), (even(&[A, D]), vec![2]), (even(&[A, B, D, (0xC0, 5)]), vec![4, 5, 6])] {
        for slot in slots {
            let right = LEAVES.map(|field| u32_at(&s, at(slot, field)));
            for counts in numbers.iter().flat_map(|&l| numbers.map(|r| [l, r])) {
                let mut t = s.clone();
                set(&mut t, slot, counts);
                let wanted = if counts == right { Ok(()) } else { Err(3) };
                tally.same("check", 0, ours::check(&t), second::check(&t));
                tally.equal(&format!("counts {counts:?} of slot {slot}"), 0, ours::check(&t), wanted);
                let applied = both::apply(tally, "wrong counts", 0, &mut t.clone(), 2, &[]);
                let pruned = both::prune(tally, "wrong counts", 0, &mut t.clone(), 1);
                let listed = both::changes_with(tally, "wrong counts", 0, &t, 0, 1, u32::MAX, &[5; 4 * 72]);
                tally.equal("wrong counts", 0, (applied.map(|_| ()), pruned.map(|_| ()), listed.map(|_| ())), (wanted, wanted, wanted));
                let (rescued, _) = both::rescue(tally, "wrong counts", 0, &t, 0, 1, &vec![3; t.len()]);
                tally.equal("wrong counts, rescued", 0, rescued.map(|r| r.0), wanted.map(|_| 1));
                both::counted(tally, 0, &t, 1).unwrap();
                for position in edges() {
                    let _ = both::at(tally, 0, &t, 1, position);
                }
            }
        }
    }
}

/// The deepest trees: two keys at 256 bits, and 257 keys that part from one key at each bit; every position, and the way down cut at each level.
fn deep(tally: &mut Tally) {
    let parted = |at: usize| {
        let mut k = ZEROS;
        k[at / 8] ^= 0x80 >> (at % 8);
        k
    };
    let two = vec![ZEROS, parted(255)];
    let chain: Vec<Bytes32> = [ZEROS].into_iter().chain((0..256).rev().map(parted)).collect();
    for keys in [two, chain] {
        let mut s = cases::fresh(600, 0, 0);
        let batch: Vec<u8> = keys.iter().flat_map(|k| ask_bytes(&Ask { key: *k, value: Some(*k) })).collect();
        second::apply(&mut s, 1, &batch).unwrap();
        let n = keys.len() as u64;
        numbered(tally, "a deep store", &s, 1, Ok(n));
        for (i, k) in keys.iter().enumerate() {
            let answer = both::at(tally, 0, &s, 1, i as u64);
            tally.equal("a deep store", 0, answer, Ok((*k, *k)));
        }
        // Slots that the way to position 0 or 1 passes, lost, spoilt and miscounted.
        for slot in (0..s.len() / SLOT).filter(|&i| u16_at(&s, at(i, KIND)) == INNER.kind).step_by(7) {
            for harm in 0..3 {
                let mut t = s.clone();
                match harm {
                    0 => lose(&mut t, slot),
                    1 => spoil(&mut t, slot),
                    _ => set(&mut t, slot, [0, 1]),
                }
                for position in [0, 1, n - 1, n] {
                    let _ = both::at(tally, 0, &t, 1, position);
                }
            }
        }
    }
}

/// A full store of 16,384 slots, and the last slot lost or spoilt.
fn largest(tally: &mut Tally) {
    let mut random = Random(9);
    let mut s = cases::fresh(MOST_SLOTS, 0, 0);
    let mut keys: Vec<Bytes32> = (0..1_000).map(|_| random.hash()).collect();
    keys.sort();
    let batch: Vec<u8> = keys.iter().flat_map(|k| ask_bytes(&Ask { key: *k, value: Some(*k) })).collect();
    second::calls::apply_to_sound(&mut s, 1, &batch).unwrap();
    // The root to the last slot.
    let root = (0..MOST_SLOTS).rfind(|&i| s[at(i, KIND)] != 0).unwrap();
    let bytes = s[at(root, 0)..at(root + 1, 0)].to_vec();
    lose(&mut s, root);
    s[at(MOST_SLOTS - 1, 0)..].copy_from_slice(&bytes);
    numbered(tally, "the largest store", &s, 1, Ok(1_000));
    for i in [0, 1, 499, 500, 998, 999] {
        tally.equal("the largest store", 0, ours::at(&s, 1, i as u64), Ok((keys[i], keys[i])));
    }
    told(tally, "the largest store", &s, 1, 1_000, Err(alone(20)));
    spoil(&mut s, MOST_SLOTS - 1);
    numbered(tally, "the last slot spoilt", &s, 1, Err(spoiled(MOST_SLOTS - 1)));
    told(tally, "the last slot spoilt", &s, 1, u64::MAX, Err(spoiled(MOST_SLOTS - 1)));
    lose(&mut s, MOST_SLOTS - 1);
    numbered(tally, "the last slot lost", &s, 1, Ok(0));
}

/// A made store with its counts harmed more and more, and other harm among it; then bytes of no store at all under a right header, most of them inner
/// records with any counts.
pub fn round(seed: u64, tally: &mut Tally) {
    let mut random = Random(seed ^ 0x0909);
    let (mut s, keys) = cases::store(&mut random);
    if s.len() > HEADER + SLOT * 60 {
        return;
    }
    for n in 0..1 + random.below(4) {
        cases::miscount(&mut random, &mut s);
        if n > 1 {
            cases::damage(&mut random, &mut s);
        }
        if second::bytes::store(&s).is_err() {
            break;
        }
        tally.same("check", seed, ours::check(&s), second::check(&s));
        for version in [cases::near(&mut random, &s), u32_at(&s, 12), u32_at(&s, 16)] {
            both::positions(tally, seed, &s, version);
            for _ in 0..4 {
                let position = cases::position(&mut random, &s, version);
                let _ = both::at(tally, seed, &s, version, position);
            }
            let asked = keys[random.below(keys.len())];
            both::reads(tally, &mut random, seed, &s, version, &asked);
        }
        let b = cases::batch(&mut random, &keys);
        let number = cases::number(&mut random, &s);
        let _ = both::apply(tally, "to a miscounted store", seed, &mut s.clone(), number, &b);
        let _ = both::rescue(tally, "a miscounted store", seed, &s, 0, u32_at(&s, 16), &vec![random.byte(); s.len()]);
    }
    let mut any = cases::fresh(2 + random.below(14), 0, 3);
    for i in 0..(any.len() - HEADER) / SLOT {
        let slot = &mut any[at(i, 0)..at(i + 1, 0)];
        slot[KEY..].iter_mut().for_each(|b| *b = if random.one_in(3) { random.byte() } else { 0 });
        let inner = !random.one_in(3);
        let head = if inner { INNER } else { second::form::LEAF };
        slot[..KIND].copy_from_slice(&head.length.to_le_bytes());
        slot[KIND] = head.kind as u8;
        slot[BIT_COUNT] = random.below(4) as u8;
        slot[BITS] = [0, 0x40, 0x80, 0xC0][random.below(4)] & !(0xFF >> slot[BIT_COUNT]);
        slot[VERSION] = 1 + random.below(2) as u8;
        slot[RETIRED] = [0, 0, 2, 3][random.below(4)];
        if inner {
            for side in [0, 1] {
                slot[CHILD[side]..][..4].copy_from_slice(&(random.below(3) as u32).to_le_bytes());
                let n = cases::wrong_count(&mut random, 1);
                slot[LEAVES[side]..][..4].copy_from_slice(&n.to_le_bytes());
                // A missing child in form has a zero hash.
                if slot[CHILD[side]] == 0 && !random.one_in(4) {
                    slot[second::form::slot::CHILD_HASH[side]..][..32].fill(0);
                }
            }
        } else if !random.one_in(4) {
            // a leaf in form, mostly with a key that begins with its place
            slot[second::form::slot::TAIL..].fill(0);
            slot[KEY] = slot[BITS] | random.byte() & (0xFF >> slot[BIT_COUNT]);
        }
    }
    for version in 0..=4 {
        both::positions(tally, seed, &any, version);
        for _ in 0..6 {
            let position = cases::position(&mut random, &any, version);
            let _ = both::at(tally, seed, &any, version, position);
        }
    }
}

pub fn named(tally: &mut Tally) {
    desks(tally);
    pairs(tally);
    miscounted(tally);
    every_pair(tally);
    deep(tally);
    // Its copies would fill a file of calls.
    if !ours::record::running() {
        largest(tally);
    }
}
