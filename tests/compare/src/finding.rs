//! 2026-07: which record is missing. Stores harmed in every way that 02 tells apart, each read on both sides: all 64 bits of what it returns, and every
//! byte of the room. The named cases are worked out by hand from 02's words.

use crate::cases::{self, Random};
use crate::tally::{Proof, Tally};
use crate::{both, ours};
use second::bytes::{ask_bytes, put_slot, slot, slot_bytes, u32_at, Ask, Slot, HEADER, SLOT};
use second::form::slot::TAIL;
use second::form::{INNER, LEAF};
use second::{alone, spoiled, Bytes32, Stopped, ZEROS};

fn key(first: u8) -> Bytes32 {
    let mut k = ZEROS;
    k[0] = first;
    k
}

fn at(i: usize, byte: usize) -> usize {
    HEADER + SLOT * i + byte
}

fn publish(s: &mut [u8], number: u32, inserts: &[u8], deletes: &[u8]) {
    let mut asks: Vec<Ask> = inserts.iter().map(|&k| Ask { key: key(k), value: Some([number as u8; 32]) }).collect();
    asks.extend(deletes.iter().map(|&k| Ask { key: key(k), value: None }));
    asks.sort_by_key(|a| a.key);
    let batch: Vec<u8> = asks.iter().flat_map(ask_bytes).collect();
    second::apply(s, number, &batch).unwrap();
}

/// The keys asked for: those of the stores below, and some that part from them at each level.
const ASKED: [u8; 9] = [0x00, 0x10, 0x20, 0x40, 0x50, 0x60, 0x80, 0xC0, 0xE0];

/// Versions 3, 4, 7 and 9 of twelve kept ones, one of them empty; a free slot before, between and after the used ones.
fn with_gaps() -> Vec<u8> {
    let mut s = cases::fresh(18, 0, 0);
    publish(&mut s, 3, &[0x00, 0x20, 0x80, 0xC0], &[]);
    publish(&mut s, 4, &[0x40], &[0x20]);
    publish(&mut s, 7, &[], &[0x00, 0x40, 0x80, 0xC0]);
    publish(&mut s, 9, &[0x80], &[]);
    publish(&mut s, 11, &[0x00], &[]);
    cases::scattered(&mut Random(7), &s, 3)
}

/// A, B, C and D of the desk: 010 in slot 0, 011 in 1, 00 in 2, 01 in 3, 0 in 4, 1 in 5, the root in 6; then free ones.
fn desk(free: usize) -> Vec<u8> {
    let mut s = cases::fresh(7 + free, 0, 0);
    publish(&mut s, 1, &[0x00, 0x40, 0x60, 0x80], &[]);
    s
}

/// Every read on both sides, in these versions and with these keys, the proof with no room, with too little by one byte and with enough.
fn look(tally: &mut Tally, what: &str, s: &[u8], versions: &[u32], keys: &[Bytes32]) {
    for &v in versions {
        tally.same("root", 0, ours::root(s, v), second::root(s, v));
        both::positions(tally, 0, s, v);
        for k in keys {
            tally.same("get", 0, ours::get(s, v, k), second::get(s, v, k));
            let most = second::proof::proof(s, v, k).map_or(300, |p| p.len());
            for room in [0, most - 1, most + 3] {
                let (mut a, mut b) = (vec![0xD2; room], vec![0xD2; room]);
                let (x, y) = (ours::prove(s, v, k, &mut a), second::prove(s, v, k, &mut b));
                tally.count(format!("prove {}", Proof::word(y, &b)));
                tally.equal(what, v as u64, (x, a), (y, b));
            }
        }
    }
}

fn used(s: &[u8]) -> Vec<usize> {
    (0..(s.len() - HEADER) / SLOT).filter(|&i| slot(&s[at(i, 0)..at(i + 1, 0)]) != Slot::Free).collect()
}

/// Each byte of each slot flipped, free ones too; each slot lost.
fn each_byte(tally: &mut Tally) {
    let keys = ASKED.map(key);
    let mut random = Random(29);
    for s in [desk(1), with_gaps()] {
        let latest = u32_at(&s, 16);
        for i in 0..(s.len() - HEADER) / SLOT {
            let mut lost = s.clone();
            lost[at(i, 0)..at(i + 1, 0)].fill(0);
            look(tally, "a slot lost", &lost, &(0..=latest + 1).collect::<Vec<_>>(), &keys);
            for byte in 0..SLOT {
                let mut harmed = s.clone();
                // Of a leaf's key, a bit of its place.
                harmed[at(i, byte)] ^= if byte == 48 { 0x80 >> random.below(3) } else { 1 << random.below(8) };
                let v = random.below(latest as usize + 1) as u32;
                // The fields that are looked at: in every version. The others: in latest and in another.
                let versions: Vec<u32> = if byte < 8 || (40..48).contains(&byte) { (0..=latest).collect() } else { vec![v, latest] };
                let some = [keys[random.below(9)], keys[random.below(9)], keys[random.below(9)]];
                look(tally, "a byte flipped", &harmed, &versions, if byte < 12 { &keys } else { &some });
            }
        }
    }
}

/// A slot made spoiled in one of the ways that leave its version, bit count and bits fields.
fn spoil(random: &mut Random, s: &mut [u8], i: usize) {
    match random.below(6) {
        0 => s[at(i, random.below(4))] ^= 1 << random.below(8),
        1 => s[at(i, 4 + random.below(2))] ^= 4 << random.below(6),
        2 => s[at(i, TAIL + random.below(SLOT - TAIL))] |= 1 << random.below(8),
        // leaf's length and kind to inner's, or back: its body is seldom in form then
        3 => s[at(i, 0)] ^= (LEAF.length ^ INNER.length) as u8,
        4 => s[at(i, 4)] ^= (LEAF.kind ^ INNER.kind) as u8,
        _ => {
            s[at(i, 48)..at(i, 52)].fill(0);
            s[at(i, 84)..at(i, 88)].fill(0);
        }
    }
}

/// One slot harmed, or two made to agree: which one is met, in form or spoiled, lower or higher, is left to chance.
fn harm(random: &mut Random, s: &mut [u8]) {
    let n = (s.len() - HEADER) / SLOT;
    let used = used(s);
    if used.is_empty() {
        return;
    }
    let (some, other, any) = (used[random.below(used.len())], used[random.below(used.len())], random.below(n));
    match random.below(9) {
        0 | 1 => s[at(some, 0)..at(some + 1, 0)].fill(0),
        2 | 3 => spoil(random, s, some),
        4 => {
            // a copy in another slot, one of the two spoiled, or both
            let copy = s[at(some, 0)..at(some + 1, 0)].to_vec();
            s[at(any, 0)..at(any + 1, 0)].copy_from_slice(&copy);
            let one = [some, any][random.below(2)];
            spoil(random, s, one);
            if random.one_in(3) {
                spoil(random, s, any);
            }
        }
        // the head of another slot
        5 => {
            let head = s[at(other, 6)..at(other, 48)].to_vec();
            s[at(any, 6)..at(any, 48)].copy_from_slice(&head);
        }
        // a head of zeros, or of an empty place, whose life is some slot's
        6 => {
            s[at(any, 6)..at(any, 40)].fill(0);
            for field in [40, 44] {
                let life = if random.one_in(3) { 0 } else { cases::near(random, s) };
                s[at(any, field)..at(any, field + 4)].copy_from_slice(&life.to_le_bytes());
            }
            if random.one_in(2) {
                spoil(random, s, any);
            }
        }
        // a leaf's key
        7 => s[at(some, 48)] ^= 0x80 >> random.below(3),
        _ => s[at(some, random.below(SLOT))] ^= 1 << random.below(8),
    }
}

/// A made store harmed more and more, and bytes of no store at all under a right header.
pub fn round(seed: u64, tally: &mut Tally) {
    let mut random = Random(seed ^ 0x0707);
    let (mut s, keys) = cases::store(&mut random);
    if s.len() > HEADER + SLOT * 60 && !random.one_in(8) {
        return;
    }
    for _ in 0..1 + random.below(4) {
        harm(&mut random, &mut s);
        let versions = [cases::near(&mut random, &s), u32_at(&s, 12), u32_at(&s, 16)];
        let mut some: Vec<Bytes32> = (0..3).map(|_| keys[random.below(keys.len())]).collect();
        some[2][random.below(2)] ^= 1 << random.below(8);
        look(tally, "a harmed store", &s, &versions, &some);
        both::reads(tally, &mut random, seed, &s, versions[0], &some[0]);
    }
    let mut any = cases::fresh(1 + random.below(12), random.below(2) as u32, 3);
    for byte in any[HEADER..].iter_mut() {
        *byte = [0, 0, 0, 0, 1, 2, 3, 0x80, random.byte()][random.below(9)];
    }
    for i in 0..(any.len() - HEADER) / SLOT {
        // Most heads name a small place in full, so that fields agree.
        if !random.one_in(4) {
            any[at(i, 6)] = random.below(3) as u8;
            any[at(i, 7)..at(i, 44)].fill(0);
            any[at(i, 8)] = [0, 0, 0x40, 0x80, 0xC0][random.below(5)];
            any[at(i, 40)] = random.below(4) as u8;
        }
        if random.one_in(3) {
            any[at(i, 0)..at(i, 6)].copy_from_slice(&[INNER.length as u8, 0, 0, 0, INNER.kind as u8, 0]);
        }
        if random.one_in(6) {
            any[at(i, 0)..at(i + 1, 0)].fill(0);
        }
    }
    look(tally, "any bytes", &any, &[0, 1, 2, 3], &[key(0x00), key(0x40), key(0x80), key(0xC0)]);
}

/// Two slots that agree with one node, each in form, spoiled or gone; and a third, free.
fn which_slot(tally: &mut Tally) {
    let node = |s: &[u8], i: usize| -> Vec<u8> { s[at(i, 0)..at(i + 1, 0)].to_vec() };
    for low in 0..3 {
        for high in 0..3 {
            // B's leaf at 010 (slot 0) and the root (slot 6), also in slots 8 and 9; then the same from above: their own slots freed, 7 and 8.
            for (first, second, of, v, k) in [(0, 8, 0, 1, 0x40), (7, 8, 0, 1, 0x40), (6, 9, 6, 1, 0x40), (7, 9, 6, 1, 0x40)] {
                let mut s = desk(4);
                let whole = node(&s, of);
                s[at(of, 0)..at(of + 1, 0)].fill(0);
                for (i, way) in [(first, low), (second, high)] {
                    match way {
                        0 => s[at(i, 0)..at(i + 1, 0)].fill(0),
                        1 => s[at(i, 0)..at(i + 1, 0)].copy_from_slice(&whole),
                        _ => {
                            s[at(i, 0)..at(i + 1, 0)].copy_from_slice(&whole);
                            s[at(i, 5)] = 1;
                        }
                    }
                }
                let wanted: Result<Option<Bytes32>, Stopped> = match (low, high) {
                    (1, _) | (_, 1) => Ok(Some([1; 32])),
                    (2, _) => Err(spoiled(first)),
                    (_, 2) => Err(spoiled(second)),
                    _ if of == 6 => Ok(None),
                    _ => Err(alone(17)),
                };
                let what = format!("slots {first} and {second} ({low}, {high}) for {of}");
                tally.equal(&what, 0, ours::get(&s, v, &key(k)), wanted);
                look(tally, &what, &s, &[0, v], &ASKED.map(key));
            }
        }
    }
}

/// Refusals next to each other deserved at once, each order of the table: what is given, worked out by hand.
fn neighbours(tally: &mut Tally) {
    // 000 and 001 below 00, 10 and 11 below 1: a key at 01 walks to a missing child of 0, with a descent on each side.
    let mut s = cases::fresh(12, 0, 0);
    publish(&mut s, 1, &[0x00, 0x20, 0x80, 0xC0], &[]);
    let asked = key(0x40);
    let of = |count: u16, bits: u8| {
        let here = |i: &usize| s[at(*i, 6)..at(*i, 9)] == [count as u8, 0, bits] && s[at(*i, 0)] != 0;
        (0..12).find(here).unwrap()
    };
    let (root, walked, left, right) = (of(0, 0), of(1, 0), of(3, 0x20), of(2, 0x80));
    let lost = |s: &mut [u8], i: usize| s[at(i, 0)..at(i + 1, 0)].fill(0);
    let kind = |s: &mut [u8], i: usize| s[at(i, 4)] = 7;
    let wrong = |s: &mut [u8], i: usize| s[at(i, 48)] ^= 0x80;
    let mut case = |what: &str, harm: &dyn Fn(&mut [u8]), version: u32, k: &[u8], got: Result<Option<Bytes32>, Stopped>, wanted: Stopped| {
        let mut s = s.clone();
        harm(&mut s);
        tally.equal(what, 0, ours::get(&s, version, k), got);
        tally.equal(what, 0, second::get(&s, version, k), got);
        for room in [0, 71, 17_080] {
            let (mut a, mut b) = (vec![0x3C; room], vec![0x3C; room]);
            tally.equal(what, 0, ours::prove(&s, version, k, &mut a), Err(wanted));
            tally.equal(what, 0, second::prove(&s, version, k, &mut b), Err(wanted));
            tally.equal(what, 0, (a.iter().all(|&x| x == 0x3C), b == a), (true, true));
        }
    };
    let none = Ok(None);
    case("8 before 3", &|s| kind(s, root), 2, &asked, Err(alone(8)), alone(8));
    case("12 before 3", &|s| kind(s, root), 1, &asked[..31], Err(alone(12)), alone(12));
    case("a spoiled root", &|s| kind(s, root), 1, &asked, Err(spoiled(root)), spoiled(root));
    case("a lost root", &|s| lost(s, root), 1, &asked, none, alone(14));
    case("14, with the child spoiled", &|s| { lost(s, root); kind(s, walked) }, 1, &asked, none, alone(14));
    case("14, with the child lost", &|s| { lost(s, root); lost(s, walked) }, 1, &asked, none, alone(14));
    case("3 at the root, 17 below it", &|s| { kind(s, root); lost(s, walked) }, 1, &asked, Err(spoiled(root)), spoiled(root));
    case("17 on the walk, 3 on both sides", &|s| { lost(s, walked); kind(s, left); kind(s, right) }, 1, &asked, Err(alone(17)), alone(17));
    case("3 on the walk, 17 on both sides", &|s| { kind(s, walked); lost(s, left); lost(s, right) }, 1, &asked, Err(spoiled(walked)), spoiled(walked));
    case("17 on the left, 3 on the right", &|s| { lost(s, left); kind(s, right) }, 1, &asked, none, alone(17));
    case("3 on the left, 17 on the right", &|s| { kind(s, left); lost(s, right) }, 1, &asked, none, spoiled(left));
    case("3 on the left, 3 on the right", &|s| { kind(s, left); kind(s, right) }, 1, &asked, none, spoiled(left));
    case("a wrong key on the left, a spoiled slot on the right", &|s| { wrong(s, left); kind(s, right) }, 1, &asked, none, alone(3));
    case("a spoiled slot on the left, a wrong key on the right", &|s| { kind(s, left); wrong(s, right) }, 1, &asked, none, spoiled(left));
    case("17 on the right alone", &|s| lost(s, right), 1, &asked, none, alone(17));
    case("3 on the right alone", &|s| kind(s, right), 1, &asked, none, spoiled(right));
    case("17 on the left, the rest lost or spoiled", &|s| { lost(s, left); lost(s, right); kind(s, of(2, 0xC0)) }, 1, &key(0x60), none, alone(17));
    // A presence proof makes no descent: the others may be lost.
    let mut beside = s.clone();
    lost(&mut beside, left);
    kind(&mut beside, right);
    for (room, wanted) in [(72 + 3 * 33 - 1, Err(alone(9))), (72 + 3 * 33, Ok(72 + 3 * 33))] {
        tally.equal("a presence proof", 0, ours::prove(&beside, 1, &key(0), &mut vec![0; room]), wanted);
    }
}

/// Version 0 and heads of zeros.
fn zero_heads(tally: &mut Tally) {
    let k = key(0x40);
    for free in [1, 3] {
        let s = desk(free);
        // A free slot does not agree with version 0, whose root every version below 1 lacks.
        tally.equal("version 0", 0, ours::root(&s, 0), Ok(ZEROS));
        for byte in [0, 4, 48, TAIL, SLOT - 1] {
            let mut s = s.clone();
            let i = 6 + free;
            s[at(i, byte)] = 1;
            tally.equal("a used slot with a head of zeros", 0, ours::root(&s, 0), Err(spoiled(i)));
            look(tally, "a used slot with a head of zeros", &s, &[0, 1], &[k, key(0x10)]);
            // Its retired-since ends it.
            for (retired, wanted) in [(1, Err(spoiled(i))), (0, Err(spoiled(i)))] {
                s[at(i, 44)] = retired;
                tally.equal("a head of zeros that ends", 0, ours::root(&s, 0), wanted);
            }
            // With the root of version 1 gone it agrees with that version too, until its retired-since.
            s[at(6, 0)..at(7, 0)].fill(0);
            tally.equal("a head of zeros and no root", 0, ours::root(&s, 1), Err(spoiled(i)));
            s[at(i, 44)] = 1;
            tally.equal("a head of zeros that ended", 0, ours::root(&s, 1), Ok(ZEROS));
            look(tally, "a head of zeros and no root", &s, &[0, 1], &[k, key(0x10)]);
        }
    }
}

/// A full store: the reads find the last slot lost or spoiled as well.
fn last_slot(tally: &mut Tally) {
    for n in [1, 2, 300, 16_384] {
        let mut s = cases::fresh(n, 0, 0);
        publish(&mut s, 1, &[0x40], &[]);
        let Slot::Used(r) = slot(&s[at(0, 0)..at(1, 0)]) else { unreachable!() };
        s[at(0, 0)..at(1, 0)].fill(0);
        put_slot(&mut s, n - 1, &slot_bytes(&r));
        tally.equal("the last slot", 0, ours::get(&s, 1, &key(0x40)), Ok(Some([1; 32])));
        s[at(n - 1, 4)] = 3;
        tally.equal("the last slot spoiled", 0, ours::root(&s, 1), Err(spoiled(n - 1)));
        look(tally, "the last slot spoiled", &s, &[0, 1], &[key(0x40), key(0)]);
    }
}

pub fn named(tally: &mut Tally) {
    which_slot(tally);
    neighbours(tally);
    zero_heads(tally);
    last_slot(tally);
    each_byte(tally);
}
