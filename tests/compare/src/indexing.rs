//! 2026-05: a table beside the records, beside the second program: built, told right or wrong, kept by format, apply and prune, and read by; on histories, on
//! damaged stores, with right, stale and hostile tables, on any bytes. The named cases are worked out by hand from 02's words.

use crate::both::lent;
use crate::cases::{self, Random};
use crate::ours;
use crate::tally::{Tally, Word};
use second::bytes::{ask_bytes, u32_at, Ask, HEADER, SLOT};
use second::form::slot::{KIND, RETIRED, VERSION};
use second::{indexed, Bytes32, Stopped, ZEROS};

const EDGE: usize = 16;
const MARK: u32 = 0xC3C3_5A5A;

/// A call on a copy of a table that lies between marked edges: its answer, and the copy after it.
fn lent_table<T>(table: &[u32], call: impl FnOnce(&mut [u32]) -> T) -> (T, Vec<u32>) {
    let mut all = vec![MARK; table.len() + 2 * EDGE];
    let end = EDGE + table.len();
    all[EDGE..end].copy_from_slice(table);
    let answer = call(&mut all[EDGE..end]);
    assert!(all[..EDGE].iter().chain(&all[end..]).all(|&b| b == MARK), "entries beside the lent ones were written");
    all.truncate(end);
    all.drain(..EDGE);
    (answer, all)
}

/// Building and telling, on both sides.
fn tell(tally: &mut Tally, case: &str, seed: u64, s: &[u8], table: &[u32]) -> Result<(), u32> {
    let (x, a) = lent_table(table, |t| ours::index(s, t));
    let mut b = table.to_vec();
    let y = indexed::index(s, &mut b);
    tally.count(format!("index {}", y.word()));
    tally.equal(&format!("index {case}"), seed, (x, a), (y, b.clone()));
    if y.is_ok() {
        tally.equal("a built table is right", seed, ours::index_check(s, &b), Ok(()));
    }
    let z = indexed::index_check(s, table);
    tally.count(format!("index_check {}", z.word()));
    tally.equal(&format!("index_check {case}"), seed, ours::index_check(s, table), z);
    z
}

/// The six reads by a table, on both sides; of a sound store they answer as the plain ones, whatever the table.
fn reads(tally: &mut Tally, random: &mut Random, seed: u64, s: &[u8], table: &[u32], version: u32, key: &[u8], list: &[u8]) {
    let plain = indexed::index_check(s, table).is_ok() || (second::check(s).is_ok() && table.len() * SLOT + HEADER == s.len());
    let root = indexed::root_indexed(s, table, version);
    tally.count(format!("root_indexed {}", root.word()));
    tally.equal("root_indexed", seed, ours::root_indexed(s, table, version), root);
    let value = indexed::get_indexed(s, table, version, key);
    tally.count(format!("get_indexed {}", value.word()));
    tally.equal("get_indexed", seed, ours::get_indexed(s, table, version, key), value);
    let count = indexed::count_indexed(s, table, version);
    tally.equal("count_indexed", seed, ours::count_indexed(s, table, version), count);
    let position = cases::position(random, s, version);
    let at = indexed::at_indexed(s, table, version, position);
    tally.equal("at_indexed", seed, ours::at_indexed(s, table, version, position), at);
    let room = vec![random.byte(); [0, 72, 200, 700, 17_080][random.below(5)]];
    let (x, a) = lent(&room, |room| ours::prove_indexed(s, table, version, key, room));
    let mut b = room.clone();
    let y = indexed::prove_indexed(s, table, version, key, &mut b);
    tally.count(format!("prove_indexed {}", y.word()));
    tally.equal("prove_indexed", seed, (x, a), (y, b.clone()));
    let wide = vec![random.byte(); [0, 700, 3_000, 40_000][random.below(4)]];
    let (x, a) = lent(&wide, |room| ours::palette_indexed(s, table, version, list, room));
    let mut c = wide.clone();
    let z = indexed::palette_indexed(s, table, version, list, &mut c);
    tally.count(format!("palette_indexed {}", z.word()));
    tally.equal("palette_indexed", seed, (x, a), (z, c.clone()));
    if plain {
        let mut d = room.clone();
        let mut e = wide.clone();
        tally.equal("as the plain reads", seed, (ours::root(s, version), ours::get(s, version, key), ours::count(s, version), ours::at(s, version, position)), (root, value, count, at));
        tally.equal("as plain prove", seed, (ours::prove(s, version, key, &mut d), d), (y, b));
        tally.equal("as plain palette", seed, (ours::palette(s, version, list, &mut e), e), (z, c));
    }
}

/// A table near right: stale, harmed, of another length, or any numbers.
fn near(random: &mut Random, right: &[u32]) -> Vec<u32> {
    let mut t = right.to_vec();
    let n = t.len();
    match random.below(10) {
        0..=3 => {}
        4 => t.swap(random.below(n), random.below(n)),
        5 => t[random.below(n)] = [0, n as u32, n as u32 + 1, u32::MAX, random.below(n) as u32][random.below(5)],
        6 => t.rotate_left(random.below(n)),
        7 => t.reverse(),
        8 => t.iter_mut().for_each(|e| *e = random.below(n + 2) as u32),
        _ => t.resize([0, n - 1, n + 1][random.below(3)], n as u32),
    }
    t
}

/// Where a store holds no record twice, its right table even if it is not sound; else any order of the slots.
fn table_of(s: &[u8]) -> Option<Vec<u32>> {
    second::bytes::store(s).ok().map(|store| indexed::right(&store))
}

/// A made store, sound or damaged, with tables right and wrong.
pub fn round(tally: &mut Tally, random: &mut Random, seed: u64, s: &[u8], keys: &[Bytes32]) {
    let Some(right) = table_of(s) else {
        let table = vec![7; random.below(9)];
        let _ = tell(tally, "of no store", seed, s, &table);
        reads(tally, random, seed, s, &table, 0, &ZEROS, &[]);
        let ((x, t), a) = lent(s, |s| lent_table(&table, |t| ours::format_indexed(s, t)));
        let (mut b, mut u) = (s.to_vec(), table);
        let y = indexed::format_indexed(&mut b, &mut u);
        tally.equal("format_indexed", seed, (x, a, t), (y, b, u));
        return;
    };
    for _ in 0..3 {
        let table = near(random, &right);
        let _ = tell(tally, "of a made store", seed, s, &table);
        // From eight keys on what stands on their ways is found first.
        let list: Vec<u8> = (0..[0, 1, 3, 12][random.below(4)]).flat_map(|_| keys[random.below(keys.len())]).collect();
        let mut key = keys[random.below(keys.len())].to_vec();
        if random.one_in(20) {
            key.pop();
        }
        let version = cases::near(random, s);
        reads(tally, random, seed, s, &table, version, &key, &list);
        let mut batch = cases::batch(random, keys);
        if random.one_in(4) {
            cases::spoil(random, &mut batch);
        }
        let number = cases::number(random, s);
        let ((x, t), a) = lent(s, |s| lent_table(&table, |t| ours::apply_indexed(s, t, number, &batch)));
        let (mut b, mut u) = (s.to_vec(), table.clone());
        let y = indexed::apply_indexed(&mut b, &mut u, number, &batch);
        tally.count(format!("apply_indexed {}", y.word()));
        tally.equal("apply_indexed", seed, (x, a, t), (y, b.clone(), u.clone()));
        if y.is_ok() {
            let mut plain = s.to_vec();
            tally.equal("as plain apply", seed, (ours::apply(&mut plain, number, &batch), plain), (y, b.clone()));
            tally.equal("the table that apply left is right", seed, ours::index_check(&b, &u), Ok(()));
        }
        let ((x, t), a) = lent(s, |s| lent_table(&table, |t| ours::prune_indexed(s, t, version)));
        let (mut b, mut u) = (s.to_vec(), table.clone());
        let y = indexed::prune_indexed(&mut b, &mut u, version);
        tally.count(format!("prune_indexed {}", y.word()));
        tally.equal("prune_indexed", seed, (x, a, t), (y, b.clone(), u.clone()));
        if y.is_ok() {
            let mut plain = s.to_vec();
            tally.equal("as plain prune", seed, (ours::prune(&mut plain, version), plain), (y, b.clone()));
            tally.equal("the table that prune left is right", seed, ours::index_check(&b, &u), Ok(()));
        }
    }
    let table: Vec<u32> = (0..right.len()).map(|_| random.byte() as u32).collect();
    let ((x, t), a) = lent(s, |s| lent_table(&table, |t| ours::format_indexed(s, t)));
    let (mut b, mut u) = (s.to_vec(), table);
    let y = indexed::format_indexed(&mut b, &mut u);
    tally.equal("format_indexed", seed, (x, a, t), (y, b, u));
}

fn key(first: u8) -> Bytes32 {
    let mut k = ZEROS;
    k[0] = first;
    k
}

fn asks(changes: &[(u8, Option<u8>)]) -> Vec<u8> {
    changes.iter().flat_map(|&(k, v)| ask_bytes(&Ask { key: key(k), value: v.map(|v| [v; 32]) })).collect()
}

/// The desk's store: M1 puts 010, 011, 00, 01, 0, 1 and the root into slots 0 to 6, so by place: the root, 0, 00, 01, 010, 011, 1.
pub fn named(tally: &mut Tally) {
    let (mut s, mut t) = (vec![0x77; HEADER + SLOT * 20], vec![9; 20]);
    tally.equal("format_indexed", 0, ours::format_indexed(&mut s, &mut t), Ok(()));
    tally.equal("a fresh table: all the capacity", 0, t.clone(), vec![20; 20]);
    let used = |front: &[u32]| {
        let mut t = front.to_vec();
        t.resize(20, 20);
        t
    };
    let publish = |tally: &mut Tally, s: &mut Vec<u8>, t: &mut Vec<u32>, number: u32, changes: &[(u8, Option<u8>)], wanted: &[u32]| {
        let made = ours::apply_indexed(s, t, number, &asks(changes));
        tally.equal("the desk", number as u64, (made.map(|m| m.0), t.clone()), (Ok(number), used(wanted)));
    };
    publish(tally, &mut s, &mut t, 1, &[(0x00, Some(1)), (0x40, Some(2)), (0x60, Some(3)), (0x80, Some(4))], &[6, 4, 2, 3, 0, 1, 5]);
    // M2: leaf 01, inner 0 and the root of version 2 in slots 7 to 9: of one place the older version comes first.
    publish(tally, &mut s, &mut t, 2, &[(0x40, None), (0x60, Some(5))], &[6, 9, 4, 8, 2, 3, 7, 0, 1, 5]);
    publish(tally, &mut s, &mut t, 3, &[], &[6, 9, 10, 4, 8, 2, 3, 7, 0, 1, 5]);
    publish(tally, &mut s, &mut t, 4, &[(0x00, None)], &[6, 9, 10, 12, 4, 8, 11, 2, 3, 7, 0, 1, 5]);
    publish(tally, &mut s, &mut t, 5, &[(0x80, None)], &[6, 9, 10, 12, 13, 4, 8, 11, 2, 3, 7, 0, 1, 5]);
    publish(tally, &mut s, &mut t, 6, &[(0x60, None)], &[6, 9, 10, 12, 13, 4, 8, 11, 2, 3, 7, 0, 1, 5]);
    let before = (s.clone(), t.clone());
    // M7: pruned to 4, slots 5, 11, 12 and 13 stay: two roots, 0 and 1.
    tally.equal("M7", 0, (ours::prune_indexed(&mut s, &mut t, 4), t.clone()), (Ok(10), used(&[12, 13, 11, 5])));
    tally.equal("M7: the right table", 0, (ours::index_check(&s, &t), ours::index_check(&s, &before.1)), (Ok(()), Err(16)));
    // A stale table costs time and nothing else: every read of every kept version is the plain one.
    for version in 3..=7 {
        for k in [0x00, 0x40, 0x60, 0x80, 0xC0] {
            let mut random = Random(version as u64 * 256 + k as u64);
            for table in [&t, &before.1, &vec![20; 20], &vec![0; 20], &(0..20).rev().collect()] {
                reads(tally, &mut random, 0, &s, table, version, &key(k), &[key(k), key(0x80)].concat());
            }
        }
    }
    refusals(tally, &before.0, &before.1);
    pairs(tally);
}

/// Each pair of refusals next to each other, deserved at once.
fn refusals(tally: &mut Tally, s: &[u8], t: &[u32]) {
    let header = |s: &[u8]| {
        let mut s = s.to_vec();
        s[4] ^= 1;
        s
    };
    let unsound = |s: &[u8]| {
        let mut s = s.to_vec();
        s[HEADER + SLOT * 5 + RETIRED] ^= 1;
        s
    };
    let wrong = {
        let mut t = t.to_vec();
        t.swap(0, 1);
        t
    };
    let short = &t[..19];
    let rows: &[(&str, Vec<u8>, &[u32], u32)] = &[
        ("a store a byte short, a wrong header", header(s)[..s.len() - 1].to_vec(), t, 1),
        ("a table an entry short, a wrong header", header(s), short, 1),
        ("no table", s.to_vec(), &[], 1),
        ("a wrong header of an unsound store", unsound(&header(s)), t, 2),
        ("an unsound store with a wrong table", unsound(s), &wrong, 3),
        ("a wrong table", s.to_vec(), &wrong, 16),
        ("a right one", s.to_vec(), t, 0),
    ];
    let said = |number: u32| if number == 0 { Ok(()) } else { Err(number) };
    for (what, s, t, number) in rows {
        tally.equal(what, 0, ours::index_check(s, t), said(*number));
        let built = if *number == 16 { 0 } else { *number };
        tally.equal(what, 1, lent_table(t, |t| ours::index(s, t)).0, said(built));
        // 16 before 4, and before 18 and 8; a refused call writes neither.
        for (batch, number_given, after) in [(vec![1, 2, 3], 0, 4), (asks(&[(2, Some(1)), (1, Some(1))]), 0, 5), (vec![], 6, 18)] {
            let wanted = if *number == 0 { after } else { *number };
            let ((x, u), a) = lent(s, |s| lent_table(t, |t| ours::apply_indexed(s, t, number_given, &batch)));
            tally.equal(what, 2, (x.map(|_| ()), a == *s, u == *t), (Err(wanted), true, true));
        }
        let ((x, u), a) = lent(s, |s| lent_table(t, |t| ours::prune_indexed(s, t, 99)));
        tally.equal(what, 3, (x, a == *s, u == *t), (Err(if *number == 0 { 8 } else { *number }), true, true));
        // Reads: 12 before 1, 1 before 2, no 16.
        let number = if *number == 3 || *number == 16 { 0 } else { *number };
        let reading = |n: u32| -> Result<(), Stopped> { if n == 0 { Ok(()) } else { Err(n.into()) } };
        tally.equal(what, 4, ours::get_indexed(s, t, 6, &ZEROS).map(|_| ()), reading(number));
        tally.equal(what, 5, ours::get_indexed(s, t, 6, &ZEROS[1..]).map(|_| ()), reading(12));
        tally.equal(what, 6, ours::get_indexed(s, t, 7, &ZEROS).map(|_| ()), reading(if number == 0 { 8 } else { number }));
    }
    // 7 last: a full store.
    let (mut s, mut t) = (vec![0; HEADER + SLOT * 7], vec![0; 7]);
    ours::format_indexed(&mut s, &mut t).unwrap();
    ours::apply_indexed(&mut s, &mut t, 1, &asks(&[(0x00, Some(1)), (0x40, Some(2)), (0x60, Some(3)), (0x80, Some(4))])).unwrap();
    let before = (s.clone(), t.clone());
    tally.equal("M12", 0, ours::apply_indexed(&mut s, &mut t, 2, &[]), Err(7));
    tally.equal("M12: neither is written", 0, (s, t), before);
}

/// Two slots that match: a search may end on either, the scan on the lowest. One slot that matches and one that is spoilt: as the scan.
fn pairs(tally: &mut Tally) {
    let mut s = cases::fresh(20, 0, 0);
    second::apply(&mut s, 1, &asks(&[(0x00, Some(1)), (0x40, Some(2)), (0x60, Some(3)), (0x80, Some(4))])).unwrap();
    // Slot 9 is slot 5 (place 1) once more, with another value.
    let (from, to) = (HEADER + SLOT * 5, HEADER + SLOT * 9);
    s.copy_within(from..from + SLOT, to);
    s[to + 80] = 99;
    let table: Vec<u32> = [6, 4, 2, 3, 0, 1, 5, 9].into_iter().chain([20; 12]).collect();
    let mut other = table.clone();
    other.swap(6, 7);
    for t in [&table, &other] {
        let x = ours::get_indexed(&s, t, 1, &key(0x80));
        tally.equal("a pair", 0, x, indexed::get_indexed(&s, t, 1, &key(0x80)));
    }
    tally.equal("a pair by the scan", 0, ours::get(&s, 1, &key(0x80)), Ok(Some([4; 32])));
    s[to + KIND] = 9;
    for t in [&table, &other] {
        tally.equal("a pair, one of it spoilt", 0, ours::get_indexed(&s, t, 1, &key(0x80)), Ok(Some([4; 32])));
    }
    s[from + VERSION] = 2;
    tally.equal("none but a spoilt one", 0, ours::get_indexed(&s, &table, 1, &key(0x80)), Err(second::spoiled(9)));
    tally.equal("latest stays", 0, u32_at(&s, 16), 1);
}
