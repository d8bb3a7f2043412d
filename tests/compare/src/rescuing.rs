//! Rescue beside the second program: stores damaged in every way, and the cases that 02 names.

use crate::both;
use crate::cases::{self, Random};
use crate::ours;
use crate::tally::Tally;
use std::cmp::Reverse;
use std::collections::HashMap;
use second::bytes::{ask_bytes, bit, put_slot, slot, slot_bytes, u32_at, Ask, Body, Child, Place, Record, Slot, HEADER, NO_CHILD, SLOT};
use second::form::slot::{CHILD, CHILD_HASH, LEAVES};
use second::form::{INNER, LEAF};
use second::{Bytes32, ZEROS};

fn slots(s: &[u8]) -> usize {
    (s.len() - HEADER) / SLOT
}

fn at(i: usize) -> std::ops::Range<usize> {
    HEADER + SLOT * i..HEADER + SLOT * (i + 1)
}

/// A history with few empty versions, so that runs are long.
fn history(random: &mut Random) -> (Vec<u8>, Vec<Bytes32>) {
    let keys = if random.one_in(12) { cases::deep_keys(random) } else { cases::keys(random) };
    let mut s = cases::fresh(30 + random.below(60) + if keys.len() < 8 { 0 } else { 300 * random.below(2) }, 0, 0);
    let dense = random.one_in(2);
    for _ in 0..1 + random.below(9) {
        let mut asks: Vec<Ask> = vec![];
        for key in &keys {
            if random.one_in(3) {
                let value = (!random.one_in(4)).then(|| [random.below(5) as u8; 32]);
                asks.push(Ask { key: *key, value });
            }
        }
        let b: Vec<u8> = asks.iter().flat_map(ask_bytes).collect();
        let latest = u32_at(&s, 16);
        let n = if dense { latest + 1 } else { latest + 1 + [0, 0, 1, 2, 7, 90_000][random.below(6)] };
        let _ = second::apply(&mut s, n, &b);
        if random.one_in(12) {
            let to = cases::near(random, &s);
            let _ = second::prune(&mut s, to);
        }
    }
    (s, keys)
}

/// One thing changed, as a worn medium or a mixed-up copy would.
fn damage(random: &mut Random, s: &mut Vec<u8>, other: &[u8]) {
    let n = slots(s);
    let used: Vec<usize> = (0..n).filter(|i| s[at(*i)].iter().any(|b| *b != 0)).collect();
    let some = if used.is_empty() { random.below(n) } else { used[random.below(used.len())] };
    match random.below(13) {
        // a bit of a field: length, kind, bit count, bits, version, retired-since, body, counts
        0 | 1 => {
            let (from, length) = [(0, 4), (4, 2), (6, 2), (8, 32), (40, 4), (44, 4), (48, 36), (84, 36), (LEAVES[0], 4), (LEAVES[1], 4)][random.below(10)];
            let byte = if random.one_in(2) { 0 } else { random.below(length) };
            s[at(some)][from + byte] ^= 1 << random.below(8);
        }
        // lost
        2 => s[at(some)].fill(0),
        // doubled, above or below
        3 => {
            let copy = s[at(some)].to_vec();
            s[at(random.below(n))].copy_from_slice(&copy);
        }
        // a second copy with another body, another retired-since or another count
        4 => {
            let mut copy = s[at(some)].to_vec();
            copy[[44, 60, 100, LEAVES[0], LEAVES[1]][random.below(5)]] ^= 1 << random.below(4);
            let free: Vec<usize> = (0..n).filter(|i| !used.contains(i)).collect();
            if !free.is_empty() {
                s[at(free[random.below(free.len())])].copy_from_slice(&copy);
            }
        }
        // swapped
        5 => {
            let to = random.below(n);
            let (x, y) = (s[at(some)].to_vec(), s[at(to)].to_vec());
            s[at(some)].copy_from_slice(&y);
            s[at(to)].copy_from_slice(&x);
        }
        // slots of another store
        6 => {
            for _ in 0..1 + random.below(4) {
                let from = random.below(slots(other));
                s[at(random.below(n))].copy_from_slice(&other[at(from)]);
            }
        }
        // a root's retired-since: none, or a number that stands in the store
        7 => {
            let roots: Vec<usize> = used.iter().copied().filter(|&i| s[at(i)][6..40].iter().all(|b| *b == 0)).collect();
            if !roots.is_empty() {
                let since = if random.one_in(3) { 0 } else { cases::near(random, s) };
                s[at(roots[random.below(roots.len())])][44..48].copy_from_slice(&since.to_le_bytes());
            }
        }
        // any record's version or retired-since
        8 => {
            let to = cases::near(random, s);
            s[at(some)][[40, 44][random.below(2)]..][..4].copy_from_slice(&to.to_le_bytes());
        }
        // a record and what names it moved to another version: a child may then be newer than its parent, or a tree have a gap
        9 => moved(random, s, some),
        // a stretch of the store overwritten
        10 => {
            let from = HEADER + random.below(s.len() - HEADER);
            let to = (from + random.below(400)).min(s.len());
            s[from..to].iter_mut().for_each(|b| *b = if random.one_in(2) { 0 } else { random.byte() });
        }
        11 => cases::miscount(random, s),
        _ => cases::damage(random, s),
    }
}

fn moved(random: &mut Random, s: &mut [u8], some: usize) {
    let Slot::Used(r) = slot(&s[at(some)]) else { return };
    let to = [r.version + 1, r.version.saturating_sub(1).max(1), r.version + 2, cases::near(random, s).max(1)][random.below(4)];
    s[at(some)][40..44].copy_from_slice(&to.to_le_bytes());
    if r.place.count == 0 {
        return;
    }
    let right = bit(&r.place.bits, r.place.count - 1);
    for i in 0..slots(s) {
        let Slot::Used(q) = slot(&s[at(i)]) else { continue };
        let Body::Inner(children) = q.body else { continue };
        if q.place.longer(right) == r.place && children[right as usize].version == r.version {
            s[at(i)][CHILD[right as usize]..][..4].copy_from_slice(&to.to_le_bytes());
        }
    }
}

/// Every hash and every count that an inner record names made true of the child that is found, the lowest slot of a pair: what is wrong then is wrong in
/// form alone.
fn made_true(s: &mut [u8]) {
    let record = |s: &[u8], i: usize| if let Slot::Used(r) = slot(&s[at(i)]) { Some(r) } else { None };
    let mut order: Vec<(usize, Record)> = (0..slots(s)).filter_map(|i| Some((i, record(s, i)?))).collect();
    let mut found: HashMap<(u32, Place), usize> = HashMap::new();
    for (i, r) in &order {
        found.entry((r.version, r.place)).or_insert(*i);
    }
    order.sort_by_key(|(_, r)| Reverse(r.place.count));
    for (i, r) in order {
        let Body::Inner(children) = r.body else { continue };
        for (c, right) in children.iter().zip([false, true]) {
            let child = found.get(&(c.version, r.place.longer(right))).and_then(|j| record(s, *j));
            let number = child.filter(|_| c.version != 0).map_or(0, |q| second::positions::number(&q)) as u32;
            s[at(i)][LEAVES[right as usize]..][..4].copy_from_slice(&number.to_le_bytes());
            if let (true, Some(q)) = (c.version != 0, child) {
                s[at(i)][CHILD_HASH[right as usize]..][..32].copy_from_slice(&second::tree::record_hash(&q));
            }
        }
    }
}

/// One thing that no medium does by itself: a child taken away, so that a leaf may be left alone; a key that doesn't begin with its place; a second
/// record of a version and place, with another value or without a child, in a slot above or below. All hashes and counts are true.
fn forge(random: &mut Random, s: &mut [u8]) {
    let n = slots(s);
    let (used, free): (Vec<usize>, Vec<usize>) = (0..n).partition(|i| s[at(*i)].iter().any(|b| *b != 0));
    if used.is_empty() {
        return;
    }
    let some = used[random.below(used.len())];
    let Slot::Used(mut r) = slot(&s[at(some)]) else { return };
    let pair = random.one_in(3);
    match &mut r.body {
        Body::Inner(children) if children.iter().all(|c| c.version != 0) => children[random.below(2)] = NO_CHILD,
        Body::Inner(_) => {}
        Body::Leaf { value, .. } if pair || r.place.count == 0 => value[31] ^= 1,
        Body::Leaf { key, .. } => {
            let bit = random.below(r.place.count);
            key[bit / 8] ^= 128 >> (bit % 8);
        }
    }
    let to = if pair && !free.is_empty() { free[random.below(free.len())] } else { some };
    put_slot(s, to, &slot_bytes(&r));
    // A free slot is above most used ones: as often the two are exchanged.
    if to != some && random.one_in(2) {
        let (x, y) = (s[at(some)].to_vec(), s[at(to)].to_vec());
        s[at(some)].copy_from_slice(&y);
        s[at(to)].copy_from_slice(&x);
    }
    made_true(s);
}

/// Bounds around the store's own, and any.
fn bounds(random: &mut Random, s: &[u8]) -> (u32, u32) {
    let (oldest, latest) = (u32_at(s, 12), u32_at(s, 16));
    let l = match random.below(10) {
        0..=5 => latest,
        6 => latest.wrapping_sub(1),
        7 => latest.wrapping_add(1 + random.below(3) as u32),
        8 => cases::near(random, s),
        _ => [0, 1, u32::MAX][random.below(3)],
    };
    let o = match random.below(8) {
        0..=3 => 0,
        4 => oldest,
        5 | 6 => cases::near(random, s),
        _ => l.wrapping_add(random.below(3) as u32).wrapping_sub(1),
    };
    (o, l)
}

pub fn round(seed: u64, tally: &mut Tally) {
    let mut random = Random(seed ^ 0x08);
    let (s, _) = if random.one_in(6) { cases::store(&mut random) } else { history(&mut random) };
    let (other, _) = history(&mut random);
    for _ in 0..2 {
        let mut s = s.clone();
        let header = s[..HEADER].to_vec();
        for _ in 0..[0, 1, 1, 2, 3, 6][random.below(6)] {
            damage(&mut random, &mut s, &other);
        }
        let mut known = s.clone();
        known[..HEADER].copy_from_slice(&header);
        for _ in 0..2 {
            let (oldest, latest) = bounds(&mut random, &known);
            // The header isn't looked at.
            if random.one_in(3) {
                s[..HEADER].iter_mut().for_each(|b| *b = random.byte());
            }
            let target: Vec<u8> = (0..s.len()).map(|_| random.byte()).collect();
            let _ = both::rescue(tally, "a damaged store", seed, &s, oldest, latest, &target);
        }
    }
    if random.one_in(4) {
        // any bytes, and with them any fields of slots in form
        let mut s: Vec<u8> = (0..HEADER + SLOT * (1 + random.below(12))).map(|_| if random.one_in(3) { random.byte() } else { 0 }).collect();
        for i in 0..slots(&s) {
            if random.one_in(2) {
                s[at(i)][..8].copy_from_slice(&[LEAF, INNER].map(|h| [h.length as u8, 0, 0, 0, h.kind as u8, 0, 0, 0])[random.below(2)]);
                s[at(i)][8..48].fill(0);
                s[at(i)][40] = 1 + random.below(3) as u8;
            }
        }
        let target = vec![random.byte(); s.len()];
        let _ = both::rescue(tally, "any bytes", seed, &s, random.below(3) as u32, random.below(6) as u32, &target);
    }
    let mut forged = s.clone();
    for _ in 0..1 + random.below(2) {
        forge(&mut random, &mut forged);
    }
    let (oldest, latest) = bounds(&mut random, &s);
    let _ = both::rescue(tally, "a forged store", seed, &forged, oldest, latest, &vec![random.byte(); s.len()]);
    stays(tally, seed, &s);
}

/// A sound store, each of whose versions has a root, rescued with its own bounds is itself.
fn stays(tally: &mut Tally, seed: u64, s: &[u8]) {
    let (oldest, latest) = (u32_at(s, 12), u32_at(s, 16));
    let records = second::bytes::store(s).unwrap().slots;
    let begin = |x: &Slot| if let Slot::Used(r) = x { vec![r.version, r.retired] } else { vec![] };
    let mut versions: Vec<u32> = records.iter().flat_map(begin).filter(|v| oldest <= *v && *v <= latest).collect();
    versions.push(oldest);
    if versions.iter().any(|v| second::root(s, *v) == Ok(ZEROS)) {
        return;
    }
    let (answer, target) = both::rescue(tally, "a sound store", seed, s, oldest, latest, &vec![3; s.len()]);
    tally.count("rescue of a sound store whole".into());
    tally.equal("a sound store stays", seed, (answer, target == s), (Ok((oldest, cases::taken(s) as u32, 0, 0)), true));
}

fn key(first: u8) -> Bytes32 {
    let mut k = ZEROS;
    k[0] = first;
    k
}

fn insert(first: u8, value: u8) -> Vec<u8> {
    ask_bytes(&Ask { key: key(first), value: Some([value; 32]) }).to_vec()
}

/// The desk's store of five versions: slots 0 to 6 of version 1, 7 to 9 of 2, 10 of 3, 11 and 12 of 4, 13 of 5.
fn desk() -> Vec<u8> {
    let mut s = cases::fresh(20, 0, 0);
    let delete = |first: u8| ask_bytes(&Ask { key: key(first), value: None }).to_vec();
    let batches = [
        [insert(0, 1), insert(0x40, 2), insert(0x60, 3), insert(0x80, 4)].concat(),
        [delete(0x40), insert(0x60, 5)].concat(),
        vec![],
        delete(0),
        delete(0x80),
    ];
    for b in batches {
        let next = cases::next(&s);
        second::apply(&mut s, next, &b).unwrap();
    }
    s
}

/// Cases worked out from 02's words: where the slots are, what is done to them, and what comes back.
fn rows(tally: &mut Tally) {
    let s = desk();
    type Change = Box<dyn Fn(&mut Vec<u8>)>;
    let field = |slot: usize, offset: usize, value: u32| -> Change { Box::new(move |s: &mut Vec<u8>| s[at(slot)][offset..offset + 4].copy_from_slice(&value.to_le_bytes())) };
    let lost = |slot: usize| -> Change { Box::new(move |s: &mut Vec<u8>| s[at(slot)].fill(0)) };
    let copied = |from: usize, to: usize| -> Change {
        Box::new(move |s: &mut Vec<u8>| {
            let copy = s[at(from)].to_vec();
            s[at(to)].copy_from_slice(&copy);
        })
    };
    let root_slot = |version: u32| (0..20).find(|i| s[at(*i)][6..8] == [0, 0] && u32_at(&s[at(*i)], 40) == version).unwrap();
    let (second_root, fifth_root) = (root_slot(2), root_slot(5));
    for (what, changes, oldest, latest, wanted) in [
        ("nothing done", vec![], 0, 5, Ok((1, 14, 0, 0))),
        ("oldest 3", vec![], 3, 5, Ok((3, 8, 0, 6))),
        ("latest 4: what 5 retired is not retired", vec![], 0, 4, Ok((1, 10, 3, 1))),
        ("latest 0", vec![], 0, 0, Err(3)),
        ("above latest: the last root covers it", vec![], 0, 9, Ok((1, 14, 0, 0))),
        ("the root of 5 lost: 4 was retired since 5", vec![lost(fifth_root)], 0, 5, Err(3)),
        ("the root of 2 lost: 1 was retired since 2", vec![lost(second_root)], 0, 5, Ok((3, 8, 0, 5))),
        ("the root of 2 lost, that of 1 retired since 3: 2 would be 1 again, but 3 has records of 2", vec![lost(second_root), field(root_slot(1), 44, 3)], 0, 5, Ok((3, 8, 0, 5))),
        ("retired-since of a leaf wrong", vec![field(0, 44, 77)], 0, 5, Ok((1, 13, 1, 0))),
        ("a record of a later version left behind", vec![field(fifth_root, 40, 6)], 0, 5, Err(3)),
        ("a copy above", vec![copied(fifth_root, 19)], 0, 5, Ok((1, 14, 0, 1))),
        ("oldest above latest", vec![], 6, 5, Err(2)),
    ] {
        let mut d = s.clone();
        changes.iter().for_each(|change| change(&mut d));
        let (answer, _) = both::rescue(tally, what, 0, &d, oldest, latest, &vec![0x55; d.len()]);
        tally.equal(what, 0, answer, wanted);
    }
}

/// A store of eight slots with these records, every hash and every count true.
fn made(records: &[(usize, Record)]) -> Vec<u8> {
    let mut s = cases::fresh(8, 0, 0);
    records.iter().for_each(|(i, r)| put_slot(&mut s, *i, &slot_bytes(r)));
    made_true(&mut s);
    s
}

fn record(place: Place, version: u32, retired: u32, body: Body) -> Record {
    Record { place, version, retired, body }
}

fn leaf(right: bool, version: u32, retired: u32, first: u8, value: u8) -> Record {
    record(Place::EMPTY.longer(right), version, retired, Body::Leaf { key: key(first), value: [value; 32] })
}

fn inner(version: u32, retired: u32, left: u32, right: u32) -> Record {
    let child = |version: u32| Child { version, ..NO_CHILD };
    record(Place::EMPTY, version, retired, Body::Inner([child(left), child(right)]))
}

/// Trees whose every hash and count is true and that are no tree all the same: a leaf alone below an inner node, a leaf whose key doesn't begin with its place;
/// each in the latest version, and in one before it, where the run then begins.
fn forged(tally: &mut Tally) {
    let (left, right) = (leaf(false, 1, 0, 0, 1), leaf(true, 1, 0, 0x80, 1));
    let stray = |retired: u32| leaf(false, 1, retired, 0x90, 1);
    for (what, records, latest, wanted) in [
        ("two leaves below the root", vec![left, right, inner(1, 0, 1, 1)], 1, Ok((1, 3, 0, 0))),
        ("a lone leaf", vec![left, inner(1, 0, 1, 0)], 1, Err(3)),
        ("a lone leaf before", vec![left, inner(1, 2, 1, 0), leaf(true, 2, 0, 0x80, 1), inner(2, 0, 1, 2)], 2, Ok((2, 3, 0, 1))),
        ("a leaf at another key's place", vec![stray(0), right, inner(1, 0, 1, 1)], 1, Err(3)),
        ("a leaf at another key's place before", vec![stray(2), right, inner(1, 2, 1, 1), leaf(false, 2, 0, 0, 1), inner(2, 0, 2, 1)], 2, Ok((2, 3, 0, 2))),
    ] {
        let s = made(&records.into_iter().enumerate().collect::<Vec<_>>());
        let (answer, _) = both::rescue(tally, what, 0, &s, 0, latest, &vec![6; s.len()]);
        tally.equal(what, 0, answer, wanted);
    }
}

/// Two slots in form of one version and place: the lowest is used, whichever is right.
fn shared(tally: &mut Tally) {
    let (l, r, root) = (leaf(false, 1, 0, 0, 1), leaf(true, 1, 0, 0x80, 1), inner(1, 0, 1, 1));
    let s = made(&[(3, l), (4, r), (5, root)]);
    let hashed = |i: usize| if let Slot::Used(r) = slot(&s[at(i)]) { r } else { unreachable!() };
    let root = hashed(5);
    let (lower, upper) = (1, 7);
    for (what, i, second_record, latest, wanted, kept) in [
        ("the same leaf above", upper, l, 1, Ok((1, 3, 0, 1)), vec![3, 4, 5]),
        ("the same leaf below", lower, l, 1, Ok((1, 3, 0, 1)), vec![1, 4, 5]),
        ("a leaf with another value above", upper, leaf(false, 1, 0, 0, 2), 1, Ok((1, 3, 0, 1)), vec![3, 4, 5]),
        ("a leaf with another value below: its hash is false", lower, leaf(false, 1, 0, 0, 2), 1, Err(3), vec![]),
        ("a leaf with another retired-since below", lower, leaf(false, 1, 9, 0, 1), 1, Ok((1, 2, 1, 1)), vec![1, 4, 5]),
        ("another root above", upper, record(Place::EMPTY, 1, 0, l.body), 1, Ok((1, 3, 0, 1)), vec![3, 4, 5]),
        ("another root below", lower, record(Place::EMPTY, 1, 0, l.body), 1, Ok((1, 1, 0, 3)), vec![1]),
        ("the root above, retired by latest", upper, Record { retired: 2, ..root }, 2, Ok((1, 3, 0, 1)), vec![3, 4, 5]),
        ("the root below, retired by latest", lower, Record { retired: 2, ..root }, 2, Err(3), vec![]),
    ] {
        let mut d = s.clone();
        put_slot(&mut d, i, &slot_bytes(&second_record));
        let (answer, target) = both::rescue(tally, what, 0, &d, 0, latest, &vec![0; d.len()]);
        tally.equal(what, 0, answer, wanted);
        let used: Vec<usize> = (0..slots(&target)).filter(|i| target[at(*i)].iter().any(|b| *b != 0)).collect();
        tally.equal(what, 0, used, kept);
    }
}

/// Two refusals deserved at once, and each size.
fn pairs(tally: &mut Tally) {
    let s = desk();
    let rootless = vec![0; s.len()];
    for (what, source, oldest, latest, target, wanted) in [
        ("rescue: 1 before 2, the source", &s[..s.len() - 1], 6, 5, s.len() - 1, 1),
        ("rescue: 1 before 2, the target", &s[..], 6, 5, s.len() - 1, 1),
        ("rescue: 1 before 2, both right and not equal", &s[..], 6, 5, s.len() + SLOT, 1),
        ("rescue: 1 before 3", &rootless[..], 0, 5, s.len() - SLOT, 1),
        ("rescue: 2 before 3", &rootless[..], 6, 5, s.len(), 2),
        ("rescue: 2 before 3, latest 0", &rootless[..], 1, 0, s.len(), 2),
        ("rescue: 3", &rootless[..], 0, 5, s.len(), 3),
        ("rescue: no slot", &s[..HEADER], 0, 5, HEADER, 1),
        ("rescue: no byte", &s[..0], 0, 5, 0, 1),
    ] {
        let (answer, _) = both::rescue(tally, what, 0, source, oldest, latest, &vec![9; target]);
        tally.equal(what, 0, answer, Err(wanted));
    }
    let large = vec![0; HEADER + SLOT * 16_385];
    let mut target = large.clone();
    tally.equal("rescue: 16,385 slots", 0, ours::rescue(&large, 0, 5, &mut target), Err(1));
}

/// A long history. Each slot lost alone: what comes back begins at its record's retired-since, since every version before, down to the record's own,
/// has lost a node; a record of the latest tree takes all with it. Then slot after slot lost, those retired first before the others: the run begins
/// at the latest retired-since of them, and each version that comes back holds what it held.
fn worn(tally: &mut Tally) {
    // Its stores are large and its calls many: their copies would fill a file.
    if ours::record::running() {
        return;
    }
    let mut random = Random(88);
    let keys: Vec<Bytes32> = (0..12).map(|_| random.hash()).collect();
    let mut s = cases::fresh(700, 0, 0);
    for n in 1..=40u32 {
        let mut asks: Vec<Ask> = keys.iter().filter(|_| n == 1 || random.one_in(6)).map(|k| Ask { key: *k, value: Some([n as u8; 32]) }).collect();
        asks.sort_by_key(|a| a.key);
        let b: Vec<u8> = asks.iter().flat_map(ask_bytes).collect();
        second::apply(&mut s, 3 * n, &b).unwrap();
    }
    let latest = u32_at(&s, 16);
    let since = |i: usize| u32_at(&s[at(i)], 44);
    let mut order: Vec<usize> = (0..slots(&s)).filter(|i| s[at(*i)].iter().any(|b| *b != 0)).collect();
    let begins = |since: u32| if since == 0 { Err(3) } else { Ok(since) };
    for &i in &order {
        let mut d = s.clone();
        d[at(i)].fill(0);
        let (answer, _) = both::rescue(tally, "one slot lost", 88, &d, 0, latest, &vec![1; s.len()]);
        tally.equal("the run after a lost slot", 88, answer.map(|a| a.0), begins(since(i)));
    }
    order.sort_by_key(|i| since(*i).wrapping_sub(1));
    let (mut d, mut first) = (s.clone(), 0);
    for i in order {
        d[at(i)].fill(0);
        let (answer, target) = both::rescue(tally, "slot after slot lost", 88, &d, 0, latest, &vec![1; s.len()]);
        tally.equal("the run after lost slots", 88, answer.map(|a| a.0), begins(since(i)));
        let Ok((f, ..)) = answer else { break };
        if f == first {
            continue;
        }
        first = f;
        for v in f..=latest {
            tally.equal("grants of a rescued version", 88, second::calls::grants(&target, v), second::calls::grants(&s, v));
            tally.equal("root of a rescued version", 88, ours::root(&target, v), second::root(&s, v));
        }
    }
    tally.equal("the last run is of latest alone", 88, first, latest);
}

pub fn named(tally: &mut Tally) {
    rows(tally);
    forged(tally);
    shared(tally);
    pairs(tally);
    worn(tally);
}
