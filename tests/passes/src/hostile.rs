//! Full stores, and stores made to be slow for a check that guesses, or to mislead it.

use crate::cases::{self, leaf_roots, renewed, Random};
use second::bytes::{ask_bytes, put_slot, slot_bytes, u16_at, Ask, Body, Child, Place, Record, HEADER, NO_CHILD, SLOT};
use second::calls::apply_to_sound;
use second::form::slot::{KIND, LEAVES};
use second::form::{INNER, LEAF};
use second::Bytes32;

/// A sound store filled by batches of this many random keys, a third of them values of keys that are there, until a batch doesn't fit or so many
/// slots are used.
pub fn filled(random: &mut Random, capacity: usize, size: usize, most: usize) -> (Vec<u8>, Vec<Bytes32>) {
    let mut s = cases::fresh(capacity, 0, 0);
    let mut keys: Vec<Bytes32> = vec![];
    while cases::taken(&s) < most {
        let mut asks: Vec<Ask> = (0..size)
            .map(|_| {
                let key = if keys.len() > 8 && random.one_in(3) { keys[random.below(keys.len())] } else { random.hash() };
                keys.push(key);
                Ask { key, value: Some(random.hash()) }
            })
            .collect();
        asks.sort_by_key(|a| a.key);
        asks.dedup_by_key(|a| a.key);
        let batch: Vec<u8> = asks.iter().flat_map(ask_bytes).collect();
        let next = cases::next(&s);
        if apply_to_sound(&mut s, next, &batch).is_err() {
            break;
        }
    }
    (s, keys)
}

/// A sound store of two keys that share 255 bits and change in turn, one at a time.
pub fn deep(capacity: usize) -> Vec<u8> {
    let mut s = cases::fresh(capacity, 0, 0);
    let mut key = [0; 32];
    for n in 0u32.. {
        key[31] = (n % 2) as u8;
        let mut value = [0; 32];
        value[..4].copy_from_slice(&n.to_le_bytes());
        if apply_to_sound(&mut s, n + 1, &ask_bytes(&Ask { key, value: Some(value) })).is_err() {
            return s;
        }
    }
    unreachable!("the store fills")
}

fn place(key: &Bytes32, count: usize) -> Place {
    (0..count).fold(Place::EMPTY, |p, i| p.longer(second::bytes::bit(key, i)))
}

fn leaf(key: Bytes32, count: usize, version: u32, value: Bytes32) -> Record {
    Record { place: place(&key, count), version, retired: 0, body: Body::Leaf { key, value } }
}

fn store(latest: u32, records: &[Record]) -> Vec<u8> {
    let mut s = cases::fresh(records.len(), 0, latest);
    records.iter().enumerate().for_each(|(i, r)| put_slot(&mut s, i, &slot_bytes(r)));
    s
}

/// Stores of this many records, in form and with own fields that are right, and otherwise not sound.
pub fn hostile(random: &mut Random, n: usize) -> Vec<(&'static str, Vec<u8>)> {
    let low = |random: &mut Random| {
        let mut k = random.hash();
        k[0] = 0;
        k
    };
    let one_place: Vec<Record> = (0..n).map(|i| leaf(low(random), 8, 1 + i as u32, random.hash())).collect();
    let one_node: Vec<Record> = (0..n).map(|_| leaf(low(random), 8, 1, random.hash())).collect();
    let one_version: Vec<Record> = (0..n).map(|i| leaf(random.hash(), 16 + i % 16, 1, random.hash())).collect();
    let at_256: Vec<Record> = (0..n).map(|_| leaf(random.hash(), 256, 1, random.hash())).collect();
    let two_deep: Vec<Record> = (0..n)
        .map(|i| {
            let mut k = [0; 32];
            k[31] = (i % 2) as u8;
            leaf(k, 256, 1 + i as u32, random.hash())
        })
        .collect();
    // Parents at one place, which name leaves in any order.
    let third = n / 3;
    let mut left: Vec<u32> = (1..=third as u32).collect();
    let mut right = left.clone();
    for turned in [&mut left, &mut right] {
        for i in (1..turned.len()).rev() {
            turned.swap(i, random.below(i + 1));
        }
    }
    let mut turned = vec![];
    for i in 0..third {
        let version = 1 + i as u32;
        let children = [left[i], right[i]].map(|version| Child { version, hash: random.hash(), leaves: 1 });
        let [mut a, mut b] = [low(random), low(random)];
        a[1] &= 0x7F;
        b[1] |= 0x80;
        turned.push(Record { place: place(&a, 8), version, retired: 0, body: Body::Inner(children) });
        turned.push(leaf(a, 9, version, random.hash()));
        turned.push(leaf(b, 9, version, random.hash()));
    }
    // Inner records on one way down, each of which names the child of another's version.
    let versions = (n / 256).max(1) as u32;
    let mut crossed = vec![];
    for count in 1..255 {
        for version in 1..=versions {
            let child = Child { version: 1 + versions - version, hash: random.hash(), leaves: 1 };
            crossed.push(Record { place: place(&[0; 32], count), version, retired: 0, body: Body::Inner([child, NO_CHILD]) });
        }
    }
    vec![
        ("one-place", store(n as u32, &one_place)),
        ("one-node", store(n as u32, &one_node)),
        ("one-version", store(1, &one_version)),
        ("at-256-bits", store(1, &at_256)),
        ("two-places-at-256-bits", store(n as u32, &two_deep)),
        ("children-in-any-order", store(n as u32, &turned)),
        ("children-crossed", store(versions, &crossed)),
    ]
}

/// The store of a leaf's roots by its batches.
#[allow(dead_code)]
pub fn roots_by_batches(n: usize) -> Vec<u8> {
    let mut s = cases::fresh(n, 0, 0);
    for i in 0..n {
        let batch = if i == 0 { ask_bytes(&Ask { key: [7; 32], value: Some([9; 32]) }).to_vec() } else { vec![] };
        apply_to_sound(&mut s, renewed(i), &batch).unwrap();
    }
    s
}

/// A sound store of two leaves below a root that is renewed.
pub fn roots_over_two(n: usize) -> Vec<u8> {
    let leaves = [0, 0x80].map(|first| leaf([first; 32], 1, 1, [first; 32]));
    let children = leaves.each_ref().map(|r| Child { version: 1, hash: second::tree::record_hash(r), leaves: 1 });
    let roots = leaf_roots(n - 2).0.into_iter().map(|r| Record { body: Body::Inner(children), ..r });
    store(renewed(n - 3), &leaves.into_iter().chain(roots).collect::<Vec<_>>())
}

/// Stores of a leaf's roots, and the answer that check gives: 3 where two live together or one is gone by oldest.
pub fn rooted(n: usize) -> Vec<(&'static str, u32, Vec<u8>)> {
    let (latest, half) = (renewed(n - 1), n / 2);
    let with = |change: &dyn Fn(&mut [Record])| {
        let mut records = leaf_roots(n).0;
        change(&mut records);
        store(latest, &records)
    };
    let late = |r: &mut Record| r.retired += (r.retired != 0 && r.retired < latest) as u32;
    // Oldest inside the life of a root, and those before it free; one of them is put back.
    let oldest = renewed(half) + 1;
    let mut kept = cases::fresh(n, oldest, latest);
    leaf_roots(n).0.iter().enumerate().skip(half).for_each(|(i, r)| put_slot(&mut kept, i, &slot_bytes(r)));
    let back = |retired| {
        let mut s = kept.clone();
        put_slot(&mut s, 0, &slot_bytes(&Record { retired, ..leaf_roots(n).0[0] }));
        s
    };
    vec![
        ("roots-in-falling-order", 0, with(&|r| r.reverse())),
        ("a-root-that-ends-early", 0, with(&|r| r[half].retired -= 1)),
        ("a-root-older-than-oldest", 0, kept.clone()),
        ("two-roots-older-than-oldest", 3, back(oldest + 1)),
        ("a-root-gone-by-oldest", 3, back(oldest)),
        ("a-root-that-ends-late", 3, with(&|r| late(&mut r[half]))),
        ("the-first-root-ends-late", 3, with(&|r| late(&mut r[0]))),
        ("the-last-but-one-never-ends", 3, with(&|r| r[n - 2].retired = 0)),
        ("roots-that-all-end-late", 3, with(&|r| r.iter_mut().for_each(late))),
        ("roots-that-never-end", 3, with(&|r| r.iter_mut().for_each(|r| r.retired = 0))),
        ("the-first-root-around-all", 3, with(&|r| r[0].retired = latest)),
        ("a-root-between", 3, with(&|r| (r[0].version, r[0].retired) = (r[half].version + 1, r[half].version + 2))),
        ("a-root-twice", 3, with(&|r| r[0] = r[half])),
    ]
}

fn slot(i: usize) -> std::ops::Range<usize> {
    HEADER + SLOT * i..HEADER + SLOT * (i + 1)
}

/// A sound store with one slot changed, in each of these ways.
pub fn damaged(random: &mut Random, s: &[u8]) -> Vec<(&'static str, Vec<u8>)> {
    let used: Vec<usize> = (0..(s.len() - HEADER) / SLOT).filter(|&i| s[slot(i)].iter().any(|&b| b != 0)).collect();
    let of = |kind: u16| -> Vec<usize> { used.iter().copied().filter(|&i| u16_at(&s[slot(i)], KIND) == kind).collect() };
    let (inner, leaves) = (of(INNER.kind), of(LEAF.kind));
    let mut out: Vec<(&'static str, Vec<u8>)> = vec![];
    let mut with = |name, i: usize, change: &dyn Fn(&mut [u8])| {
        let mut t = s.to_vec();
        change(&mut t[slot(i)]);
        out.push((name, t));
    };
    let mut any = |among: &[usize]| among[random.below(among.len())];
    with("a-value", any(&leaves), &|x| x[100] ^= 1);
    with("a-key", any(&leaves), &|x| x[79] ^= 1);
    with("a-stored-hash", any(&inner), &|x| x[60] ^= 1);
    with("a-freed-leaf", any(&leaves), &|x| x.fill(0));
    with("a-freed-inner-record", any(&inner), &|x| x.fill(0));
    with("a-version", any(&used), &|x| x[40] ^= 1);
    with("a-child's-version", any(&inner), &|x| x[48] ^= 1);
    with("a-retired-since", any(&used), &|x| x[44] ^= 1);
    with("a-spoiled-slot", any(&used), &|x| x[0] ^= 1);
    with("a-left-count", any(&inner), &|x| x[LEAVES[0]] ^= 1);
    with("a-right-count", any(&inner), &|x| x[LEAVES[1]] ^= 1);
    with("a-count-of-2^31-more", any(&inner), &|x| x[LEAVES[0] + 3] ^= 128);
    with("a-leaf-moved-from-left-to-right", any(&inner), &|x| {
        x[LEAVES[0]] = x[LEAVES[0]].wrapping_sub(1);
        x[LEAVES[1]] = x[LEAVES[1]].wrapping_add(1);
    });
    let copy = s[slot(any(&used))].to_vec();
    with("a-doubled-record", any(&used), &|x| x.copy_from_slice(&copy));
    // The last ones, which a pass comes to last.
    with("the-last-value", *leaves.last().unwrap(), &|x| x[111] ^= 128);
    with("the-last-stored-hash", *inner.last().unwrap(), &|x| x[119] ^= 128);
    with("the-last-count", *inner.last().unwrap(), &|x| x[SLOT - 1] ^= 128);
    out
}

/// A sound store with every sixteenth record doubled.
pub fn doubles(s: &[u8]) -> Vec<u8> {
    let mut t = s.to_vec();
    for i in (16..(s.len() - HEADER) / SLOT).step_by(16) {
        t.copy_within(slot(i - 1), slot(i).start);
    }
    t
}
