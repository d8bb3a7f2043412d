//! Apply beside the second program: long histories, and the cases that 01 names.

use crate::cases::{self, Random};
use crate::tally::Tally;
use crate::{both, stack};
use second::bytes::{ask_bytes, u32_at, Ask, ASK, HEADER, MOST_ASKS, MOST_SLOTS, SLOT};
use second::calls::apply_to_sound;
use second::tree::Grants;
use second::{alone, Bytes32, Stopped, ZEROS};
use std::collections::BTreeMap;

fn asks_bytes(asks: &[Ask]) -> Vec<u8> {
    asks.iter().flat_map(ask_bytes).collect()
}

fn insert(key: Bytes32, value: u8) -> Ask {
    Ask { key, value: Some([value; 32]) }
}

fn delete(key: Bytes32) -> Ask {
    Ask { key, value: None }
}

/// A key by its first and its last byte.
fn key(first: u8, last: u8) -> Bytes32 {
    let mut k = ZEROS;
    k[0] = first;
    k[31] = last;
    k
}

fn latest(s: &[u8]) -> u32 {
    u32_at(s, 16)
}

/// Keys with their values, ascending and each once, as a batch.
fn sorted(mut asks: Vec<Ask>) -> Vec<u8> {
    asks.sort_by_key(|a| a.key);
    asks.dedup_by_key(|a| a.key);
    asks_bytes(&asks)
}

/// A history and what the documents say of it: the grants of latest, and the root and the grants that each kept publishing had when it was made. It lasts
/// up to the next one, so the one in force where a prune fell between two stands at oldest.
struct History {
    seed: u64,
    random: Random,
    s: Vec<u8>,
    keys: Vec<Bytes32>,
    grants: Grants,
    made: BTreeMap<u32, (Bytes32, Grants)>,
    /// Each number is the one after latest.
    dense: bool,
}

impl History {
    fn start(seed: u64) -> History {
        let mut random = Random(seed);
        let (keys, capacity) = match random.below(10) {
            0 => (cases::deep_keys(&mut random), 258 + random.below(500)),
            1 => (cases::keys(&mut random).into_iter().take(2).collect(), 1 + random.below(6)),
            2 => ((0..10 + random.below(40)).map(|_| random.hash()).collect(), 20 + random.below(120)),
            _ => (cases::keys(&mut random), 4 + random.below(70)),
        };
        let first = if random.one_in(8) { u32::MAX - random.below(30) as u32 } else { 0 };
        let oldest = if random.one_in(2) { first } else { 0 };
        let s = cases::fresh(capacity, oldest, first);
        let dense = random.one_in(4);
        let mut history = History { seed, random, s, keys, grants: Grants::new(), made: BTreeMap::from([(oldest, (ZEROS, Grants::new()))]), dense };
        history.keys.sort();
        history
    }

    /// Apply on both sides, then reads of what is and of what was.
    fn apply(&mut self, tally: &mut Tally, case: &str, batch: &[u8]) -> both::Applied {
        let n = if self.dense { cases::next(&self.s) } else { cases::number(&mut self.random, &self.s) };
        let answer = both::apply(tally, case, self.seed, &mut self.s, n, batch);
        if let Ok((version, root, _)) = answer {
            tally.equal("the number given", self.seed, version, n);
            for a in second::bytes::batch(batch).unwrap() {
                match a.value {
                    Some(v) => self.grants.insert(a.key, v),
                    None => self.grants.remove(&a.key),
                };
            }
            self.made.insert(version, (root, self.grants.clone()));
            self.look(tally);
        }
        answer
    }

    fn look(&mut self, tally: &mut Tally) {
        let (seed, random, s) = (self.seed, &mut self.random, &self.s);
        let now = latest(s);
        if random.one_in(6) {
            tally.same("check", seed, crate::ours::check(s), Ok(()));
            tally.equal("grants", seed, Ok(&self.grants), second::calls::grants(s, now).as_ref());
        }
        for _ in 0..2 {
            let mut k = self.keys[random.below(self.keys.len())];
            if random.one_in(5) {
                k[random.below(32)] ^= 1 << random.below(8);
            }
            tally.equal("a grant", seed, crate::ours::get(s, now, &k), Ok(self.grants.get(&k).copied()));
            both::reads(tally, random, seed, s, now, &k);
        }
        let n = random.below(self.made.len());
        let (&version, (root, grants)) = self.made.iter().nth(n).unwrap();
        let root = *root;
        tally.equal("a root of before", seed, crate::ours::root(s, version), Ok(root));
        // A version between two publishings reads as the earlier one.
        let last = self.made.range(version..).nth(1).map_or(now, |(v, _)| v - 1);
        let between = [last, version + random.below((last - version) as usize + 1) as u32][random.below(2)];
        tally.equal("a root between", seed, crate::ours::root(s, between), Ok(root));
        let k = self.keys[random.below(self.keys.len())];
        tally.equal("a key between", seed, crate::ours::get(s, between, &k), crate::ours::get(s, version, &k));
        both::reads(tally, random, seed, s, between, &k);
        // Number and positions are those of the ledger, in the latest version and in this one.
        for (version, grants) in [(now, &self.grants), (between, grants)] {
            tally.equal("the number of grants", seed, crate::ours::count(s, version), Ok(grants.len() as u64));
            for (i, (&k, &v)) in grants.iter().enumerate() {
                tally.equal("the grant at a position", seed, crate::ours::at(s, version, i as u64), Ok((k, v)));
            }
            tally.equal("past the last position", seed, crate::ours::at(s, version, grants.len() as u64), Err(alone(20)));
        }
    }

    fn batch(&mut self) -> Vec<u8> {
        cases::batch(&mut self.random, &self.keys)
    }

    /// Values already there, deletes of what is not there.
    fn no_change(&mut self) -> Vec<u8> {
        let mut asks = vec![];
        for k in &self.keys {
            if !self.random.one_in(3) {
                asks.push(Ask { key: *k, value: self.grants.get(k).copied() });
            }
        }
        sorted(asks)
    }

    fn step(&mut self, tally: &mut Tally) {
        let seed = self.seed;
        match self.random.below(20) {
            0..=2 => {
                let (oldest, now) = (u32_at(&self.s, 12), latest(&self.s));
                let made = self.made.keys().copied().filter(|v| *v >= oldest).nth(self.random.below(4)).unwrap_or(now);
                let near = cases::near(&mut self.random, &self.s);
                let to = [made, near, near, now, oldest, oldest.wrapping_sub(1), now.wrapping_add(1)][self.random.below(7)];
                if both::prune(tally, "in a history", seed, &mut self.s, to).is_ok() {
                    let in_force = self.made.range(..=to).next_back().unwrap().1.clone();
                    self.made.retain(|v, _| *v > to);
                    self.made.insert(to, in_force);
                    self.look(tally);
                }
            }
            3 | 4 => {
                let mut b = self.batch();
                cases::spoil(&mut self.random, &mut b);
                if self.random.one_in(3) {
                    cases::spoil(&mut self.random, &mut b);
                }
                let _ = self.apply(tally, "a spoiled batch", &b);
            }
            5 => {
                let (mut s, mut b) = (self.s.clone(), self.batch());
                for _ in 0..1 + self.random.below(2) {
                    cases::damage(&mut self.random, &mut s);
                }
                if self.random.one_in(3) {
                    s.truncate(s.len() - 1 - self.random.below(SLOT));
                }
                if self.random.one_in(2) {
                    cases::spoil(&mut self.random, &mut b);
                }
                let n = if s.len() < HEADER { 1 } else { cases::number(&mut self.random, &s) };
                let _ = both::apply(tally, "to a damaged store", seed, &mut s, n, &b);
            }
            6 => self.fit(tally),
            12 => {
                // any two kept versions, and each with itself and the other way round
                let (oldest, latest) = (u32_at(&self.s, 12), latest(&self.s));
                let mut any = || {
                    let near = cases::near(&mut self.random, &self.s).clamp(oldest, latest);
                    [near, oldest + self.random.below((latest - oldest) as usize + 1) as u32][self.random.below(2)]
                };
                let (v, w) = (any(), any());
                for (a, b) in [(v, w), (w, v), (v, latest), (v, v)] {
                    let _ = both::changes(tally, &mut self.random, "in a history", seed, &self.s, a, b);
                }
                // any keys in any order, some twice, in a version of before and in the latest
                for version in [v, latest] {
                    let list: Vec<u8> = (0..self.random.below(12)).flat_map(|_| self.keys[self.random.below(self.keys.len())]).collect();
                    let _ = both::palette(tally, &mut self.random, "in a history", seed, &self.s, version, &list);
                }
            }
            7 => {
                let b = self.no_change();
                let root = second::root(&self.s, latest(&self.s)).unwrap();
                if let Ok((_, r, count)) = self.apply(tally, "no change", &b) {
                    tally.equal("no change", seed, (r, count), (root, !self.grants.is_empty() as u32));
                }
            }
            8 => {
                let _ = self.apply(tally, "the empty batch", &[]);
            }
            9 if u32_at(&self.s, 12) > 0 => {
                self.s = cases::relabelled(&mut self.random, &self.s);
                assert_eq!(second::check(&self.s), Ok(()));
            }
            10 => {
                let free = self.s.len() / SLOT - cases::taken(&self.s);
                self.s = cases::scattered(&mut self.random, &self.s, free);
            }
            11 => {
                // all but one key, or all of them: a lone leaf moves up, the tree becomes empty
                let stays = self.random.below(2 * self.keys.len());
                let asks: Vec<Ask> = self.keys.iter().enumerate().filter(|(i, _)| *i != stays).map(|(_, k)| delete(*k)).collect();
                let _ = self.apply(tally, "deletes", &sorted(asks));
            }
            _ => {
                let b = self.batch();
                let _ = self.apply(tally, "in a history", &b);
            }
        }
    }

    /// As many free slots as new records, and one fewer.
    fn fit(&mut self, tally: &mut Tally) {
        let b = self.batch();
        let mut wide = cases::scattered(&mut self.random, &self.s, 2_100);
        let n = cases::next(&wide);
        let Ok((_, _, count)) = apply_to_sound(&mut wide, n, &b) else { return };
        for free in [count as usize, (count as usize).saturating_sub(1)] {
            if free + cases::taken(&self.s) == 0 {
                continue;
            }
            let mut s = cases::scattered(&mut self.random, &self.s, free);
            let answer = both::apply_next(tally, "fitted", self.seed, &mut s, &b);
            let wanted = if free == count as usize { Ok(count) } else { Err(7) };
            tally.equal("fitted", self.seed, answer.map(|a| a.2), wanted);
        }
    }
}

pub fn history(seed: u64, tally: &mut Tally) {
    let mut history = History::start(seed);
    for _ in 0..10 + history.random.below(40) {
        history.step(tally);
    }
}

/// The desk's example.
fn desk(tally: &mut Tally) {
    let (a, b, c, d, e) = (key(0, 0), key(0x40, 0), key(0x60, 0), key(0x80, 0), key(0x80, 1));
    let four = [insert(a, 1), insert(b, 2), insert(c, 3), insert(d, 4)];
    let mut made = |what: &str, s: &mut Vec<u8>, asks: &[Ask], wanted: Result<(u32, u32), u32>| {
        let answer = both::apply_next(tally, what, 0, s, &asks_bytes(asks));
        tally.equal(what, 0, answer.map(|x| (x.0, x.2)), wanted);
    };
    let mut s = cases::fresh(20, 0, 0);
    made("M1", &mut s, &four, Ok((1, 7)));
    made("M2", &mut s, &[delete(b), insert(c, 5)], Ok((2, 3)));
    made("M3", &mut s, &[], Ok((3, 1)));
    made("M4", &mut s, &[delete(a)], Ok((4, 2)));
    made("M5", &mut s, &[delete(d)], Ok((5, 1)));
    made("M6", &mut s, &[delete(c)], Ok((6, 0)));
    assert_eq!(second::prune(&mut s, 4), Ok(10));
    made("M8", &mut s, &[insert(e, 6)], Ok((7, 1)));
    assert_ne!(s[HEADER..][..SLOT], [0; SLOT], "M8 uses slot 0 again");
    let two = [insert(key(0, 0), 1), insert(key(0x10, 0), 2)];
    made("M9", &mut cases::fresh(6, 0, 0), &two, Ok((1, 6)));
    made("M9", &mut cases::fresh(5, 0, 0), &two, Err(7));
    made("M10", &mut cases::fresh(258, 0, 0), &[insert(key(0, 0), 1), insert(key(0, 1), 2)], Ok((1, 258)));
    made("M10", &mut cases::fresh(257, 0, 0), &[insert(key(0, 0), 1), insert(key(0, 1), 2)], Err(7));
    let mut s = cases::fresh(7, 0, 0);
    made("M12", &mut s, &four, Ok((1, 7)));
    made("M12", &mut s, &[], Err(7));
    made("M12", &mut s, &[delete(a), delete(b), delete(c), delete(d)], Ok((2, 0)));
    made("the empty batch, an empty tree, no free slot", &mut s, &[], Ok((3, 0)));
    made("an insert, an empty tree, no free slot", &mut s, &four[..1], Err(7));
    made("the empty batch, a fresh store", &mut cases::fresh(1, 0, 0), &[], Ok((1, 0)));
}

/// A store of some versions, a batch of three records that changes it, and how many new records that makes.
fn example(random: &mut Random) -> (Vec<u8>, Vec<u8>, usize) {
    loop {
        let (s, keys) = cases::store(random);
        let b = cases::batch(random, &keys);
        if s.len() > HEADER + 40 * SLOT || b.len() != 3 * ASK || second::calls::grants(&s, latest(&s)).unwrap().len() < 2 {
            continue;
        }
        let s = cases::scattered(random, &s, 80);
        match apply_to_sound(&mut s.clone(), cases::next(&s), &b) {
            Ok((_, _, count)) if count > 0 => return (s, b, count as usize),
            _ => {}
        }
    }
}

/// Every set of refusals deserved at once: the first in the order of checks is given.
fn deserved(tally: &mut Tally, random: &mut Random) {
    const ORDER: [u32; 7] = [1, 2, 3, 4, 5, 18, 7];
    let (s, b, count) = example(random);
    for set in 0..128u32 {
        let deserves = |n: u32| ORDER.iter().position(|m| *m == n).is_some_and(|i| set >> i & 1 == 1);
        let mut b = b.clone();
        let mut s = cases::scattered(random, &s, if deserves(7) { count - 1 } else { count });
        let now = latest(&s);
        // A store may stand near the last number; there is one above latest in any case, since the example publishes.
        let mut number = [now + 1, now.saturating_add(2), now.saturating_add(4_000_000), u32::MAX][random.below(4)];
        if deserves(18) {
            number = [now, now - 1, 0, random.below(now as usize) as u32][random.below(4)];
            if random.one_in(4) {
                s = cases::raised(&s, u32::MAX - now);
                number = [u32::MAX, u32::MAX - 1, 0][random.below(3)];
            }
        }
        if deserves(5) {
            b.rotate_left(ASK);
        }
        if deserves(4) {
            b[2 * ASK + 6] = 1;
        }
        if deserves(3) {
            let used = s[HEADER..].chunks(SLOT).position(|slot| slot[4] != 0).unwrap();
            s[HEADER + SLOT * used + 4] = 9;
        }
        if deserves(2) {
            s[4] = 2;
        }
        if deserves(1) {
            s.pop();
        }
        let answer = both::apply(tally, &format!("refusals {set:07b}"), 0, &mut s, number, &b);
        let wanted = if set == 0 { 0 } else { ORDER[set.trailing_zeros() as usize] };
        tally.equal(&format!("refusals {set:07b}"), 0, answer.map_or_else(|n| n, |_| 0), wanted);
    }
}

/// Every byte of a batch changed, and every byte of a store.
fn bytes(tally: &mut Tally, random: &mut Random) {
    let (s, _, _) = example(random);
    // a second byte that no key of the store has, so that no path is long
    let [x, y, z] = [0x10, 0x20, 0x30].map(|first| {
        let mut k = key(first, 2);
        k[1] = 0x55;
        k
    });
    let b = asks_bytes(&[insert(x, 1), delete(y), insert(z, 3)]);
    for at in 0..b.len() {
        for change in [1, 2, 3, 0x20, 0x80, 0xFF] {
            let mut b = b.clone();
            b[at] ^= change;
            let answer = both::apply_next(tally, &format!("batch byte {at}"), 0, &mut s.clone(), &b);
            let field = at % ASK;
            let number = answer.err();
            let right = match field {
                0..=7 => number == Some(4),
                8..=39 => number.is_none() || number == Some(5),
                _ if at / ASK == 1 => number == Some(4),
                _ => number.is_none(),
            };
            assert!(right, "batch byte {at}: {answer:?}");
        }
    }
    for length in 0..b.len() + ASK {
        let mut b = b.clone();
        b.resize(length, 0);
        let answer = both::apply_next(tally, &format!("a batch of {length} bytes"), 0, &mut s.clone(), &b);
        tally.equal("a batch cut", 0, answer.is_ok(), length % ASK == 0 && length <= 3 * ASK);
    }
    let s = cases::scattered(random, &s, 8);
    for at in 0..s.len() {
        for change in [1, 0x80] {
            let mut s = s.clone();
            s[at] ^= change;
            let n = latest(&s).saturating_add(9);
            let answer = both::apply(tally, &format!("store byte {at}"), 0, &mut s, n, &b);
            assert!(at >= 12 || answer == Err(2), "store byte {at}: {answer:?}");
        }
    }
}

/// 4,294,967,295 may be given once, to an empty store and to others; then every number is 18, and so is each one up to latest before it.
fn last_number(tally: &mut Tally, random: &mut Random) {
    let (s, b, _) = example(random);
    for store in [s.clone(), cases::fresh(3, 0, 0), cases::scattered(random, &s, 0)] {
        for batch in [&b[..], &[]] {
            let now = latest(&store);
            for number in [0, now.saturating_sub(1), now] {
                let answer = both::apply(tally, "a number up to latest", 0, &mut store.clone(), number, batch);
                tally.equal("a number up to latest", 0, answer.map(|x| x.0), Err(18));
            }
            for mut last in [store.clone(), cases::raised(&store, u32::MAX - 1 - now)] {
                if both::apply(tally, "4,294,967,295", 0, &mut last, u32::MAX, batch).is_ok() {
                    tally.equal("4,294,967,295", 0, latest(&last), u32::MAX);
                    for number in [0, 1, u32::MAX - 1, u32::MAX] {
                        let answer = both::apply(tally, "after 4,294,967,295", 0, &mut last, number, &[]);
                        tally.equal("after 4,294,967,295", 0, answer.map(|x| x.0), Err(18));
                    }
                }
            }
        }
    }
    let mut wide = cases::fresh(3, 0, u32::MAX - 1);
    let answer = both::apply_next(tally, "all versions kept", 0, &mut wide, &asks_bytes(&[insert(key(1, 0), 1)]));
    tally.equal("all versions kept", 0, answer.map(|x| (x.0, x.2)), Ok((u32::MAX, 1)));
}

/// The desk's grants published under numbers with gaps, worked out by hand from 02's words: which version has which root, what a prune between
/// two publishings frees, how many places a comparison visits, and which lives of a root are sound.
fn gaps(tally: &mut Tally, random: &mut Random) {
    let (a, b, c, d) = (key(0, 0), key(0x40, 0), key(0x60, 0), key(0x80, 0));
    let mut s = cases::fresh(20, 0, 0);
    let publish = |tally: &mut Tally, s: &mut Vec<u8>, number: u32, asks: &[Ask], wanted: Result<u32, u32>| {
        let what = format!("published as {number}");
        let answer = both::apply(tally, &what, 0, s, number, &asks_bytes(asks));
        tally.equal(&what, 0, answer.map(|x| (x.0, x.2)), wanted.map(|new| (number, new)));
        answer.map_or(ZEROS, |x| x.1)
    };
    let mut reads = |tally: &mut Tally, s: &[u8], rows: &[(u32, Result<Bytes32, Stopped>)]| {
        for (v, wanted) in rows {
            tally.equal(&format!("the root of {v}"), 0, crate::ours::root(s, *v), *wanted);
            for k in [a, b, c, d, key(0xC0, 0)] {
                both::reads(tally, random, 0, s, *v, &k);
            }
        }
    };
    let prune = |tally: &mut Tally, s: &mut Vec<u8>, to: u32, wanted: u32| {
        let what = format!("prune to {to}");
        let freed = both::prune(tally, &what, 0, s, to);
        tally.equal(&what, 0, freed, Ok(wanted));
    };
    // The slot's retired-since made another number.
    let lives = |tally: &mut Tally, s: &[u8], slot: usize, rows: &[(u32, Result<(), u32>)]| {
        for (retired, wanted) in rows {
            let mut s = s.to_vec();
            s[HEADER + SLOT * slot + 44..][..4].copy_from_slice(&retired.to_le_bytes());
            let what = format!("slot {slot} retired since {retired}");
            tally.same(&what, 0, crate::ours::check(&s), second::check(&s));
            tally.equal(&what, 0, crate::ours::check(&s), *wanted);
        }
    };
    // A, B, C and D as 5: seven records, the root in slot 6. B and C deleted as 9: A's leaf moves up to 0, in slot 7, and the root is in slot 8.
    let five = publish(tally, &mut s, 5, &[insert(a, 1), insert(b, 2), insert(c, 3), insert(d, 4)], Ok(7));
    let nine = publish(tally, &mut s, 9, &[delete(b), delete(c)], Ok(2));
    reads(tally, &s, &[(0, Ok(ZEROS)), (4, Ok(ZEROS)), (5, Ok(five)), (7, Ok(five)), (8, Ok(five)), (9, Ok(nine)), (10, Err(alone(8)))]);
    // Two versions with one root: one visit. 5 to 9: the empty place, 0, 1 (the same leaf), 00, 01, 010, 011.
    for (first, second, visits, records) in [(5, 7, 1, 0), (7, 8, 1, 0), (0, 4, 1, 0), (4, 5, 7, 4), (7, 9, 7, 2), (9, 5, 7, 2)] {
        let what = format!("from {first} to {second}");
        for (limit, wanted) in [(visits, Ok(records)), (visits - 1, Err(13))] {
            let answer = both::changes_with(tally, &what, 0, &s, first, second, limit, &[5; 4 * 72]);
            tally.equal(&what, 0, answer, wanted);
        }
    }
    // The root of 5 ends with its tree: earlier, and the rest of its tree lives without a root; later, and it meets that of 9.
    lives(tally, &s, 6, &[(9, Ok(())), (8, Err(3)), (6, Err(3)), (10, Err(3)), (0, Err(3))]);
    // Nothing was retired by 7, and the tree of 5 is that of 7; its root is older than oldest.
    prune(tally, &mut s, 7, 0);
    reads(tally, &s, &[(5, Err(alone(8))), (6, Err(alone(8))), (7, Ok(five)), (8, Ok(five)), (9, Ok(nine))]);
    lives(tally, &s, 6, &[(9, Ok(())), (8, Err(3)), (10, Err(3))]);
    // All deleted as 12: no record. D again as 15: its leaf is the root, in slot 9.
    publish(tally, &mut s, 12, &[delete(a), delete(d)], Ok(0));
    let fifteen = publish(tally, &mut s, 15, &[insert(d, 4)], Ok(1));
    reads(tally, &s, &[(8, Ok(five)), (11, Ok(nine)), (12, Ok(ZEROS)), (14, Ok(ZEROS)), (15, Ok(fifteen))]);
    // 13 is empty: six records ended with 8, three with 11.
    prune(tally, &mut s, 13, 9);
    reads(tally, &s, &[(12, Err(alone(8))), (13, Ok(ZEROS)), (14, Ok(ZEROS)), (15, Ok(fifteen))]);
    let top = publish(tally, &mut s, u32::MAX, &[insert(a, 1)], Ok(3));
    reads(tally, &s, &[(14, Ok(ZEROS)), (15, Ok(fifteen)), (4_000_000_000, Ok(fifteen)), (u32::MAX - 1, Ok(fifteen)), (u32::MAX, Ok(top))]);
    for number in [0, 15, 16, u32::MAX] {
        publish(tally, &mut s, number, &[], Err(18));
    }
    // A lone leaf that ends earlier leaves versions that hold nothing; one that lives on meets the root of latest.
    lives(tally, &s, 9, &[(u32::MAX, Ok(())), (u32::MAX - 1, Ok(())), (16, Ok(())), (15, Err(3)), (0, Err(3))]);
}

/// Keys that part from one key at each bit, all 257 of them; then the leaf left alone moves up over many levels.
fn chain(tally: &mut Tally, random: &mut Random) {
    for base in [ZEROS, [0xFF; 32], random.hash()] {
        let parted = |at: usize| {
            let mut k = base;
            k[at / 8] ^= 0x80 >> (at % 8);
            k
        };
        let all: Vec<Bytes32> = (0..256).map(parted).chain([base]).collect();
        let mut s = cases::fresh(513 + 128 + 255 + 1 + 258 + 257 + 256, 0, 0);
        let mut step = |case: &str, asks: Vec<Ask>, wanted: Result<u32, u32>| {
            let answer = both::apply_next(tally, case, 0, &mut s, &sorted(asks));
            tally.equal(case, 0, answer.map(|x| x.2), wanted);
            for k in [base, all[0], all[255]] {
                both::reads(tally, random, 0, &s, latest(&s), &k);
            }
        };
        step("a chain of 257 keys", all.iter().map(|k| insert(*k, 1)).collect(), Ok(513));
        // the upper half goes: each inner node there stays, with one child
        step("the upper half of a chain", all[..128].iter().map(|k| delete(*k)).collect(), Ok(128));
        // two leaves are left at 256 bits
        step("a chain but for two keys", all[128..255].iter().map(|k| delete(*k)).collect(), Ok(255));
        // the last one moves up to the root, and down again
        step("a leaf moves up 256 levels", vec![delete(all[255])], Ok(1));
        step("a leaf moves down 256 levels", vec![insert(all[255], 7)], Ok(258));
        step("a leaf at 256 bits gets a value", vec![insert(base, 9)], Ok(257));
        step("no room for a path", vec![insert(base, 8)], Err(7));
        let now = latest(&s);
        let freed = both::prune(tally, "a chain", 0, &mut s, now);
        tally.equal("a chain, pruned", 0, freed, Ok(513 + 128 + 255 + 1 + 257));
        let answer = both::apply_next(tally, "a chain, slots used again", 0, &mut s, &sorted(all.iter().map(|k| insert(*k, 2)).collect()));
        tally.equal("a chain, slots used again", 0, answer.map(|x| x.2), Ok(513));
    }
}

/// 1,024 records pass, 1,025 give 4.
fn many(tally: &mut Tally, random: &mut Random) {
    let mut keys: Vec<Bytes32> = (0..MOST_ASKS + 1).map(|_| random.hash()).collect();
    keys.sort();
    let whole = |asks: &dyn Fn(usize) -> Ask, n: usize| asks_bytes(&(0..n).map(asks).collect::<Vec<_>>());
    let put = |i: usize| insert(keys[i], i as u8);
    let away = |i: usize| delete(keys[i]);
    let mut s = cases::fresh(9, 0, 0);
    let answer = both::apply_next(tally, "1,024 deletes of nothing", 0, &mut s, &whole(&away, MOST_ASKS));
    tally.equal("1,024 deletes of nothing", 0, answer, Ok((1, ZEROS, 0)));
    let mut disorder = whole(&put, MOST_ASKS);
    disorder[ASK * 700 + 8] = 0;
    for (case, batch, wanted) in [
        ("1,025 deletes of nothing", whole(&away, MOST_ASKS + 1), 4),
        ("1,024 records without room", whole(&put, MOST_ASKS), 7),
        ("1,024 records in disorder", disorder.clone(), 5),
        ("1,025 records in disorder", [disorder, whole(&put, 1)].concat(), 4),
    ] {
        let answer = both::apply_next(tally, case, 0, &mut s, &batch);
        tally.equal(case, 0, answer, Err(wanted));
    }
    let mut s = cases::fresh(2_600, 0, 0);
    let answer = both::apply_next(tally, "1,024 inserts", 0, &mut s, &whole(&put, MOST_ASKS));
    tally.equal("1,024 inserts", 0, answer.map(|x| x.0), Ok(1));
    let answer = both::apply_next(tally, "1,025 inserts", 0, &mut s, &whole(&put, MOST_ASKS + 1));
    tally.equal("1,025 inserts", 0, answer, Err(4));
    let answer = both::apply_next(tally, "1,024 values already there", 0, &mut s, &whole(&put, MOST_ASKS));
    tally.equal("1,024 values already there", 0, answer.map(|x| x.2), Ok(1));
    let answer = both::apply_next(tally, "1,024 deletes", 0, &mut s, &whole(&away, MOST_ASKS));
    tally.equal("1,024 deletes", 0, answer, Ok((3, ZEROS, 0)));
}

fn nodes(keys: &[Bytes32]) -> usize {
    let grants: Vec<_> = Grants::from_iter(keys.iter().map(|k| (*k, ZEROS))).into_iter().collect();
    second::tree::make(&grants, 1, &|_, _| None).nodes.len()
}

/// Keys whose tree has exactly so many nodes: 64 pairs that share 255 bits, and keys that part from the pairs' paths, a leaf each.
fn keys_for(wanted: usize) -> Vec<Bytes32> {
    let mut keys: Vec<Bytes32> = (0..64).flat_map(|i| [key(i << 2, 0), key(i << 2, 1)]).collect();
    for j in 0..wanted - nodes(&keys) {
        let mut k = key(((j % 64) << 2) as u8, 0);
        k[1 + j / 64] = 0x80;
        keys.push(k);
    }
    assert_eq!(nodes(&keys), wanted);
    keys
}

/// New records as many as the largest store has slots, one more, and far more.
fn counts(tally: &mut Tally) {
    let all = |keys: &[Bytes32], value| sorted(keys.iter().map(|k| Ask { key: *k, value }).collect());
    let mut s = cases::fresh(MOST_SLOTS, 0, 0);
    let far: Vec<Bytes32> = (0..=255).flat_map(|i| [(i, 0), (i, 1), (i, 2), (i, 3)]).map(|(i, last)| key(i, last)).collect();
    for (case, batch) in [
        ("16,385 new records", all(&keys_for(MOST_SLOTS + 1), Some(ZEROS))),
        ("some 64,000 new records", all(&far, Some(ZEROS))),
    ] {
        let answer = both::apply_next(tally, case, 0, &mut s, &batch);
        tally.equal(case, 0, answer, Err(7));
    }
    let keys = keys_for(MOST_SLOTS);
    let answer = both::apply_next(tally, "16,384 new records", 0, &mut s, &all(&keys, Some(ZEROS)));
    tally.equal("16,384 new records", 0, answer.map(|x| x.2), Ok(MOST_SLOTS as u32));
    let answer = both::apply_next(tally, "16,384 records are deleted", 0, &mut s, &all(&keys, None));
    tally.equal("16,384 records are deleted", 0, answer, Ok((2, ZEROS, 0)));
}

/// The largest store: batches of up to 1,024 records until one does not fit, then one that fits exactly.
pub fn large(seed: u64, tally: &mut Tally) {
    let mut random = Random(seed);
    let mut s = cases::fresh(MOST_SLOTS, 0, 0);
    let mut keys: Vec<Bytes32> = vec![];
    let mut more = |random: &mut Random, n: usize| {
        let mut asks = vec![];
        for _ in 0..n {
            if keys.len() > 100 && random.one_in(2) {
                let key = keys[random.below(keys.len())];
                asks.push(Ask { key, value: (!random.one_in(3)).then(|| [random.below(3) as u8; 32]) });
            } else {
                let mut key = random.hash();
                if random.one_in(100) && !keys.is_empty() {
                    key = keys[random.below(keys.len())];
                    key[random.below(32)] ^= 1;
                }
                keys.push(key);
                asks.push(Ask { key, value: Some([random.below(3) as u8; 32]) });
            }
        }
        sorted(asks)
    };
    let b = more(&mut random, MOST_ASKS);
    both::apply_next(tally, "the largest store", seed, &mut s, &b).unwrap();
    // most of the batches on the second program's side alone, their result tried with one batch on both
    loop {
        let b = more(&mut random, MOST_ASKS);
        let before = s.clone();
        let next = cases::next(&s);
        if apply_to_sound(&mut s, next, &b).is_ok() {
            continue;
        }
        let answer = both::apply_next(tally, "the largest store is full", seed, &mut s, &b);
        tally.equal("the largest store is full", seed, answer, Err(7));
        assert!(s == before);
        break;
    }
    let to = latest(&s) - 1;
    let freed = both::prune(tally, "the largest store", seed, &mut s, to);
    assert!(freed.unwrap() > 1_000);
    let b = more(&mut random, 200);
    both::apply_next(tally, "the largest store, slots used again", seed, &mut s, &b).unwrap();
    let b = more(&mut random, 100);
    let (_, _, count) = apply_to_sound(&mut s.clone(), cases::next(&s), &b).unwrap();
    for (free, wanted) in [(count, Ok(count)), (count - 1, Err(7))] {
        let mut s = cases::scattered(&mut random, &s, free as usize);
        let answer = both::apply_next(tally, "a large store, fitted", seed, &mut s, &b);
        tally.equal("a large store, fitted", seed, answer.map(|x| x.2), wanted);
    }
    let now = latest(&s);
    for _ in 0..3 {
        both::reads(tally, &mut random, seed, &s, now, &keys[keys.len() / 2]);
        keys.pop();
    }
}

/// The cases that are the same in every run but for the stores they start from.
pub fn named(seed: u64, tally: &mut Tally) {
    let mut random = Random(seed);
    desk(tally);
    for _ in 0..4 {
        deserved(tally, &mut random);
        last_number(tally, &mut random);
    }
    gaps(tally, &mut random);
    bytes(tally, &mut random);
    chain(tally, &mut random);
    many(tally, &mut random);
    counts(tally);
    let used = stack::of_apply().into_iter().map(|(_, used)| used).max().unwrap();
    println!("stack apply {used}");
    tally.equal("apply's stack is below 256 KiB", 0, used < stack::BAR, true);
    let indexed = stack::of_indexed();
    println!("stack apply-indexed {}", indexed.iter().map(|(_, used)| used).max().unwrap());
    for (call, used) in &indexed {
        tally.equal(&format!("the stack of {call} is below 256 KiB"), 0, *used < stack::BAR, true);
    }
    for (call, used) in stack::of_check_and_prune().into_iter().chain([("changes", stack::of_changes())]) {
        println!("stack {call} {used}");
        tally.equal("its stack is below 256 KiB", 0, used < stack::BAR, true);
    }
}
