//! Random stores, damage and forgery, from one seed.

use second::bytes::{ask_bytes, bit, put_header, put_slot, slot_bytes, u16_at, u32_at, Ask, Body, Place, Record, Slot, ASK, HEADER, SLOT};
use second::form::slot::{KIND, LEAVES};
use second::form::INNER;
use second::Bytes32;

/// A linear congruential generator, its high bits.
pub struct Random(pub u64);

impl Random {
    pub fn next(&mut self) -> u32 {
        self.0 = self.0.wrapping_mul(6364136223846793005).wrapping_add(1442695040888963407);
        (self.0 >> 33) as u32
    }

    pub fn below(&mut self, n: usize) -> usize {
        self.next() as usize % n
    }

    /// True one time in n.
    pub fn one_in(&mut self, n: usize) -> bool {
        self.below(n) == 0
    }

    pub fn byte(&mut self) -> u8 {
        self.next() as u8
    }

    pub fn hash(&mut self) -> Bytes32 {
        let mut h = [0; 32];
        h.iter_mut().for_each(|b| *b = self.byte());
        h
    }
}

/// Keys that share long or short beginnings.
pub fn keys(random: &mut Random) -> Vec<Bytes32> {
    let n = 2 + random.below(12);
    let mut keys: Vec<Bytes32> = (0..n)
        .map(|_| {
            let mut k = [0; 32];
            match random.below(8) {
                0 => k[31] = random.below(8) as u8,
                1 => k[3] = random.byte(),
                2 => k = [0xFF; 32],
                _ => k[0] = random.byte() & 0xF8,
            }
            if random.one_in(6) {
                k[1] = 0x80;
            }
            k
        })
        .collect();
    keys.sort();
    keys.dedup();
    keys
}

/// A key, and keys that share its first bits and then differ: up to 255 of them shared.
pub fn deep_keys(random: &mut Random) -> Vec<Bytes32> {
    let base = [[0; 32], [0xFF; 32], random.hash()][random.below(3)];
    let mut keys = vec![base];
    for _ in 0..1 + random.below(6) {
        let at = if random.one_in(2) { 255 - random.below(6) } else { random.below(256) };
        let mut k = keys[random.below(keys.len())];
        k[at / 8] ^= 0x80 >> (at % 8);
        if random.one_in(3) {
            k[at / 8 + 1..].fill(random.byte());
        }
        keys.push(k);
    }
    keys.sort();
    keys.dedup();
    keys
}

pub fn batch(random: &mut Random, keys: &[Bytes32]) -> Vec<u8> {
    let share = 1 + random.below(4);
    let mut out = vec![];
    for k in keys {
        if random.below(4) < share {
            let value = (!random.one_in(3)).then(|| [random.below(4) as u8; 32]);
            out.extend(ask_bytes(&Ask { key: *k, value }));
        }
    }
    out
}

/// A batch changed in form or in order.
pub fn spoil(random: &mut Random, b: &mut Vec<u8>) {
    let n = b.len() / ASK;
    if n == 0 {
        b.extend((0..1 + random.below(ASK)).map(|_| 0));
        return;
    }
    let (some, other) = (random.below(n), random.below(n));
    let at = ASK * some;
    match random.below(9) {
        0 => b[at + random.below(8)] ^= 1 << random.below(8),
        1 => b[at + random.below(ASK)] ^= 1 << random.below(8),
        2 => b.truncate(b.len() - 1 - random.below(ASK - 1)),
        3 => b.extend((0..1 + random.below(ASK - 1)).map(|_| 0)),
        // the lengths of insert and delete, the kinds as they were
        4 => b[at] ^= 72 ^ 40,
        // the kinds, the lengths as they were
        5 => b[at + 4] ^= 1 ^ 2,
        // an insert made a delete, its value left
        6 => {
            b[at] = 40;
            b[at + 4] = 2;
        }
        7 => {
            let copy = b[at..at + ASK].to_vec();
            b.extend(copy);
        }
        _ => {
            let (x, y) = (b[at..at + ASK].to_vec(), b[ASK * other..][..ASK].to_vec());
            b[at..at + ASK].copy_from_slice(&y);
            b[ASK * other..][..ASK].copy_from_slice(&x);
        }
    }
}

/// A fresh store with all of these versions kept, each of them empty.
pub fn fresh(capacity: usize, oldest: u32, latest: u32) -> Vec<u8> {
    let mut s = vec![0; HEADER + SLOT * capacity];
    put_header(&mut s, oldest, latest);
    s
}

fn put(oldest: u32, latest: u32, slots: &[Option<Record>]) -> Vec<u8> {
    let mut s = fresh(slots.len(), oldest, latest);
    for (i, r) in slots.iter().enumerate() {
        if let Some(r) = r {
            put_slot(&mut s, i, &slot_bytes(r));
        }
    }
    s
}

/// The version of a root where an empty batch makes a new one at every fourth version.
pub fn renewed(i: usize) -> u32 {
    1 + 4 * i as u32
}

/// A leaf's roots, so renewed, and the key of the leaf.
pub fn leaf_roots(n: usize) -> (Vec<Record>, Bytes32) {
    let body = Body::Leaf { key: [7; 32], value: [9; 32] };
    let root = |i| Record { place: Place::EMPTY, version: renewed(i), retired: if i + 1 < n { renewed(i + 1) } else { 0 }, body };
    ((0..n).map(root).collect(), [7; 32])
}

/// A sound store of a leaf's roots, written as batches would, and free slots behind them: with none, no store has more roots.
pub fn roots(n: usize, free: usize) -> Vec<u8> {
    let slots: Vec<Option<Record>> = leaf_roots(n).0.into_iter().map(Some).chain((0..free).map(|_| None)).collect();
    put(0, renewed(n - 1), &slots)
}

/// Header and records of a sound store.
fn records(s: &[u8]) -> (u32, u32, Vec<Record>) {
    let st = second::bytes::store(s).unwrap();
    let records = st.slots.iter().filter_map(|x| if let Slot::Used(r) = x { Some(*r) } else { None }).collect();
    (st.oldest, st.latest, records)
}

/// How many slots are used.
pub fn taken(s: &[u8]) -> usize {
    used(s).len()
}

/// The same records in slots of any order, with this many free ones among them.
pub fn scattered(random: &mut Random, s: &[u8], free: usize) -> Vec<u8> {
    let (oldest, latest, records) = records(s);
    let mut slots: Vec<Option<Record>> = records.into_iter().map(Some).collect();
    slots.resize(slots.len() + free, None);
    for i in (1..slots.len()).rev() {
        slots.swap(i, random.below(i + 1));
    }
    put(oldest, latest, &slots)
}

/// Every version of a sound store raised by the same number: sound again.
pub fn raised(s: &[u8], by: u32) -> Vec<u8> {
    let st = second::bytes::store(s).unwrap();
    let up = |v: u32| if v == 0 { 0 } else { v + by };
    let slots: Vec<Option<Record>> = st
        .slots
        .iter()
        .map(|x| {
            let Slot::Used(mut r) = *x else { return None };
            r.version = up(r.version);
            r.retired = up(r.retired);
            if let Body::Inner(children) = &mut r.body {
                children.iter_mut().for_each(|c| c.version = up(c.version));
            }
            Some(r)
        })
        .collect();
    put(st.oldest + by, st.latest + by, &slots)
}

/// Other versions, at most oldest, for the records of a sound store that are at most oldest, its root among them: sound again, though no history
/// gives it. A child may then be above its parent.
pub fn relabelled(random: &mut Random, s: &[u8]) -> Vec<u8> {
    let (oldest, latest) = (u32_at(s, 12), u32_at(s, 16));
    let st = second::bytes::store(s).unwrap();
    let mut slots: Vec<Option<Record>> = st.slots.iter().map(|x| if let Slot::Used(r) = x { Some(*r) } else { None }).collect();
    for i in 0..slots.len() {
        let Some(r) = slots[i] else { continue };
        if r.version > oldest {
            continue;
        }
        let version = 1 + random.below(oldest as usize) as u32;
        if r.place.count == 0 {
            slots[i].as_mut().unwrap().version = version;
            continue;
        }
        let last = r.place.count - 1;
        let above = (0..last).fold(Place::EMPTY, |p, j| p.longer(bit(&r.place.bits, j)));
        for q in slots.iter_mut().flatten().filter(|q| q.place == above) {
            if let Body::Inner(children) = &mut q.body {
                let c = &mut children[bit(&r.place.bits, last) as usize];
                if c.version == r.version {
                    c.version = version;
                }
            }
        }
        slots[i].as_mut().unwrap().version = version;
    }
    put(oldest, latest, &slots)
}

/// The number after latest; 0, which no store takes, where there is none.
pub fn next(s: &[u8]) -> u32 {
    u32_at(s, 16).wrapping_add(1)
}

/// A number to publish under: mostly above latest, the next one or one after a gap, seldom so far that little is left.
pub fn number(random: &mut Random, s: &[u8]) -> u32 {
    let latest = u32_at(s, 16);
    let far = [2, 3, 4, 10, 1_000, 70_000, 300_000_000][random.below(7)];
    match random.below(24) {
        0 => latest,
        1 => latest.wrapping_sub(1 + random.below(3) as u32),
        2 => [0, 1, u32::MAX, u32::MAX - 1][random.below(4)],
        3..=9 => latest.wrapping_add(1),
        _ => latest.saturating_add(1 + random.below(far) as u32),
    }
}

/// A number that stands in the store, or one beside it: of the header, or a version or a retired-since.
pub fn near(random: &mut Random, s: &[u8]) -> u32 {
    let used = used(s);
    let at = if used.is_empty() || random.one_in(4) {
        [12, 16][random.below(2)]
    } else {
        slot(used[random.below(used.len())]).start + [40, 44][random.below(2)]
    };
    let n = u32_at(s, at);
    [n, n, n.wrapping_add(1), n.wrapping_sub(1)][random.below(4)]
}

/// A store made by calls, and the keys used: each number the next one, or gaps among them.
pub fn store(random: &mut Random) -> (Vec<u8>, Vec<Bytes32>) {
    let keys = keys(random);
    let capacity = if random.one_in(10) { 300 } else { 4 + random.below(40) };
    let mut s = vec![random.byte(); HEADER + SLOT * capacity];
    second::format(&mut s).unwrap();
    if random.one_in(12) {
        let high = u32::MAX - random.below(4) as u32;
        put_header(&mut s, high, high);
    }
    let dense = random.one_in(3);
    for _ in 0..random.below(9) {
        if random.one_in(4) {
            let st = second::bytes::store(&s).unwrap();
            let to = if dense || random.one_in(3) { st.oldest.saturating_add(random.below(4) as u32) } else { near(random, &s) };
            let _ = second::prune(&mut s, to);
        } else {
            let b = if random.one_in(8) { vec![] } else { batch(random, &keys) };
            let n = if dense { next(&s) } else { number(random, &s) };
            let _ = second::apply(&mut s, n, &b);
        }
    }
    (s, keys)
}

fn used(s: &[u8]) -> Vec<usize> {
    (0..(s.len() - HEADER) / SLOT).filter(|i| s[HEADER + SLOT * i..][..SLOT].iter().any(|&b| b != 0)).collect()
}

fn slot(i: usize) -> std::ops::Range<usize> {
    HEADER + SLOT * i..HEADER + SLOT * (i + 1)
}

/// A number for a count that is not the true one: beside it, small, or so great that two of them pass 32 bits.
pub fn wrong_count(random: &mut Random, n: u32) -> u32 {
    match random.below(8) {
        0 => n.wrapping_add(1),
        1 => n.wrapping_sub(1),
        2 => 0,
        3 => n ^ 1 << random.below(32),
        4 => u32::MAX - random.below(3) as u32,
        5 => 0x8000_0000,
        6 => n.wrapping_add(random.below(5) as u32),
        _ => random.below(6) as u32,
    }
}

/// Counts of an inner record changed, one of them, both, or exchanged; nothing else.
pub fn miscount(random: &mut Random, s: &mut [u8]) {
    let inner: Vec<usize> = used(s).into_iter().filter(|&i| u16_at(&s[slot(i)], KIND) == INNER.kind).collect();
    if inner.is_empty() {
        return;
    }
    let at = slot(inner[random.below(inner.len())]).start;
    let [l, r] = LEAVES.map(|field| u32_at(s, at + field));
    let counts = match random.below(5) {
        0 => [r, l],
        1 => [wrong_count(random, l), wrong_count(random, r)],
        // the same number in all
        2 => [l.wrapping_add(1), r.wrapping_sub(1)],
        3 => [wrong_count(random, l), r],
        _ => [l, wrong_count(random, r)],
    };
    for (field, n) in LEAVES.into_iter().zip(counts) {
        s[at + field..][..4].copy_from_slice(&n.to_le_bytes());
    }
}

/// A position: mostly below the number that the version's root says, at its ends, where its left part ends, or beyond it.
pub fn position(random: &mut Random, s: &[u8], version: u32) -> u64 {
    let n = second::count(s, version).unwrap_or(3);
    match random.below(10) {
        0 => n,
        1 => n.wrapping_add(1 + random.below(3) as u64),
        2 => [u64::MAX, 1 << 33, 1 << 32, (1 << 32) - 1, (1 << 32) + n, n << 32, 1 << 63][random.below(7)],
        3 => n.saturating_sub(1),
        4 => n / 2,
        5 => 0,
        _ => random.next() as u64 % n.max(1),
    }
}

/// One thing changed.
pub fn damage(random: &mut Random, s: &mut Vec<u8>) {
    let n = (s.len() - HEADER) / SLOT;
    let used = used(s);
    let some = if used.is_empty() { random.below(n) } else { used[random.below(used.len())] };
    let other = random.below(n);
    match random.below(20) {
        17 | 18 => miscount(random, s),
        19 => s[slot(some)][LEAVES[random.below(2)]..][..4].copy_from_slice(&(random.below(6) as u32).to_le_bytes()),
        12 | 13 => {
            // version or retired-since: a number that stands in the store, or one beside it
            let n = near(random, s).to_le_bytes();
            s[slot(some)][[40, 44][random.below(2)]..][..4].copy_from_slice(&n);
        }
        14 | 15 => {
            // a root's life, and with it which versions it covers
            let roots: Vec<usize> = used.iter().copied().filter(|&i| s[slot(i)][6..40].iter().all(|&b| b == 0)).collect();
            if roots.is_empty() {
                return;
            }
            let n = if random.one_in(3) { 0 } else { near(random, s) };
            s[slot(roots[random.below(roots.len())])][44..48].copy_from_slice(&n.to_le_bytes());
        }
        16 => {
            // oldest or latest: a number that stands in the store, or one beside it
            let n = near(random, s).to_le_bytes();
            s[[12, 16][random.below(2)]..][..4].copy_from_slice(&n);
        }
        0 => {
            let at = slot(some).start + random.below(SLOT);
            s[at] ^= 1 << random.below(8);
        }
        1 => {
            let at = random.below(HEADER);
            s[at] ^= 1 << random.below(8);
        }
        2 => {
            let copy = s[slot(some)].to_vec();
            s[slot(other)].copy_from_slice(&copy);
        }
        3 => {
            let (a, b) = (s[slot(some)].to_vec(), s[slot(other)].to_vec());
            s[slot(other)].copy_from_slice(&a);
            s[slot(some)].copy_from_slice(&b);
        }
        4 => s[slot(some)].fill(0),
        // version, retired-since, a child's version, bit count: small numbers
        5 => s[slot(some)][40] = random.below(6) as u8,
        6 => s[slot(some)][44] = random.below(8) as u8,
        7 => s[slot(some)][48] = random.below(6) as u8,
        8 => s[slot(some)][84] = random.below(6) as u8,
        9 => s[slot(some)][6] = random.below(10) as u8,
        10 => {
            let (oldest, latest) = (random.below(6) as u32, random.below(12) as u32);
            s[12..16].copy_from_slice(&oldest.to_le_bytes());
            s[16..20].copy_from_slice(&latest.to_le_bytes());
        }
        _ => {
            let at = slot(some).start + 52 + random.below(60);
            s[at] = random.byte();
        }
    }
}

/// A proof changed in some way.
pub fn forge(random: &mut Random, p: &mut Vec<u8>, others: &[Vec<u8>]) {
    match random.below(9) {
        0 if !p.is_empty() => {
            let at = random.below(p.len());
            p[at] ^= 1 << random.below(8);
        }
        1 if !p.is_empty() => {
            let at = random.below(p.len().min(48));
            p[at] = random.below(4) as u8;
        }
        2 => p.push(random.byte()),
        3 => {
            p.pop();
        }
        // the length field made to fit
        4 => {
            let n = p.len() as u32;
            if p.len() >= 4 {
                p[..4].copy_from_slice(&n.to_le_bytes());
            }
        }
        // one step fewer or more, with its numbers
        5 if p.len() >= 105 && p[4] == 16 => {
            p.truncate(p.len() - 33);
            let n = p.len();
            p[..4].copy_from_slice(&(n as u32).to_le_bytes());
            p[6..8].copy_from_slice(&(((n - 72) / 33) as u16).to_le_bytes());
        }
        6 if p.len() >= 72 && p[4] == 16 => {
            p.push(random.below(3) as u8);
            let fill = if random.one_in(2) { 0 } else { random.byte() };
            p.extend([fill; 32]);
            let n = p.len();
            p[..4].copy_from_slice(&(n as u32).to_le_bytes());
            p[6..8].copy_from_slice(&(((n - 72) / 33) as u16).to_le_bytes());
        }
        // another proof's neighbours
        7 if !others.is_empty() => {
            let q = &others[random.below(others.len())];
            let mut made = (40 + q.len() as u32).to_le_bytes().to_vec();
            made.extend([17, 0, random.below(5) as u8, 0]);
            made.extend(random.hash());
            made.extend(q);
            *p = made;
        }
        _ => {
            let n = random.below(120);
            *p = (0..n).map(|_| random.byte()).collect();
        }
    }
}
