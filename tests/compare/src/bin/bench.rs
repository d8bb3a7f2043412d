//! The library's calls beside the second program, in one run: short runs of the two in turn, the best of each. Then where apply's time goes,
//! that it does not grow with the versions, and the stack that each call takes. With the argument `stack` that last part alone, with
//! `changes` the comparisons alone, with `gaps` the publishings under numbers with gaps, with `beside-check` apply and prune beside check, with
//! `missing` the reads that miss a record, with `rescue` the rescues, with `moves` the moves over and back, with `positions` the numbers of grants and
//! the grants by position, with `tables` the calls by a table, with `figures` the figures of a range, with `finding` what is found of a true proof, with
//! `messages` ICS 23's messages, with `slow` palettes, rescues and comparisons of stores made to be slow.

#[path = "../cases.rs"]
#[allow(dead_code)]
mod cases;
#[path = "../../../common/bars.rs"]
mod bars;
#[path = "../ours.rs"]
#[allow(dead_code)] // not every call has a bar
mod ours;
#[path = "../slow.rs"]
mod slow;
#[path = "../stack.rs"]
mod stack;

use cases::Random;
use second::bytes::{ask_bytes, put_slot, slot_bytes, Ask, Body, Place, Record, Slot, HEADER, MOST_ASKS, SLOT};
use second::calls::apply_to_sound;
use std::hint::black_box;
use std::time::Instant;

fn milliseconds(call: &mut dyn FnMut()) -> f64 {
    let start = Instant::now();
    call();
    start.elapsed().as_secs_f64() * 1000.0
}

fn compare(name: &str, turns: usize, mut ours: impl FnMut(), mut plain: impl FnMut()) {
    let (mut a, mut b) = (f64::MAX, f64::MAX);
    for _ in 0..turns {
        a = a.min(milliseconds(&mut ours));
        b = b.min(milliseconds(&mut plain));
    }
    println!("bench {name} ratio {:.2} ours {a:.3}ms plain {b:.3}ms", a / b);
}

/// Calls that write: each has a copy of the store, made before the clock starts. Our time.
fn compare_on<T: PartialEq + std::fmt::Debug>(
    name: &str,
    turns: usize,
    s: &[u8],
    ours: impl Fn(&mut [u8]) -> T,
    plain: impl Fn(&mut [u8]) -> T,
) -> f64 {
    let (mut a, mut b) = (f64::MAX, f64::MAX);
    for _ in 0..turns {
        let (mut x, mut y) = (s.to_vec(), s.to_vec());
        let (mut p, mut q) = (None, None);
        a = a.min(milliseconds(&mut || p = Some(ours(&mut x))));
        b = b.min(milliseconds(&mut || q = Some(plain(&mut y))));
        assert!(p == q && x == y, "{name}: not the same work");
    }
    println!("bench {name} ratio {:.2} ours {a:.3}ms plain {b:.3}ms", a / b);
    a
}

/// A store of this capacity filled by batches of random keys, deletes among them, until so many slots are used or a batch does not fit. It
/// begins with all versions up to the first kept and empty.
fn filled(random: &mut Random, capacity: usize, size: usize, most: usize, first: u32) -> (Vec<u8>, Vec<[u8; 32]>) {
    filled_apart(random, capacity, size, most, first, 1)
}

/// The same under numbers so far apart.
fn filled_apart(random: &mut Random, capacity: usize, size: usize, most: usize, first: u32, apart: u32) -> (Vec<u8>, Vec<[u8; 32]>) {
    let mut s = cases::fresh(capacity, 0, first);
    let mut keys: Vec<[u8; 32]> = vec![];
    loop {
        if cases::taken(&s) >= most {
            return (s, keys);
        }
        let mut asks: Vec<Ask> = vec![];
        for _ in 0..size {
            if keys.len() > 8 && random.one_in(3) {
                let key = keys[random.below(keys.len())];
                asks.push(Ask { key, value: (!random.one_in(2)).then(|| random.hash()) });
            } else {
                let key = random.hash();
                keys.push(key);
                asks.push(Ask { key, value: Some(random.hash()) });
            }
        }
        asks.sort_by_key(|a| a.key);
        asks.dedup_by_key(|a| a.key);
        let batch: Vec<u8> = asks.iter().flat_map(ask_bytes).collect();
        let number = cases::next(&s) - 1 + apart;
        if apply_to_sound(&mut s, number, &batch).is_err() {
            return (s, keys);
        }
    }
}

/// `size` records of which about `changes` change something, half of them values of keys that are there and half new keys; the rest are deletes
/// of absent keys.
fn batch(random: &mut Random, keys: &[[u8; 32]], size: usize, changes: usize) -> Vec<u8> {
    let mut asks: Vec<Ask> = vec![];
    for n in 0..size {
        let mut key = keys[random.below(keys.len())];
        if n >= changes || n % 2 == 0 || asks.iter().any(|a| a.key == key) {
            key = random.hash();
        }
        asks.push(Ask { key, value: (n < changes).then(|| random.hash()) });
    }
    asks.sort_by_key(|a| a.key);
    asks.iter().flat_map(ask_bytes).collect()
}

/// How many node hashes the step computes: the children of each new inner node and the root, once to count and once to write.
fn step_hashes(after: &[u8]) -> usize {
    let st = second::bytes::store(after).unwrap();
    let children = |x: &Slot| match x {
        Slot::Used(r) if r.version == st.latest => match r.body {
            Body::Inner(children) => children.iter().filter(|c| c.version != 0).count(),
            Body::Leaf { .. } => 0,
        },
        _ => 0,
    };
    2 * (st.slots.iter().map(children).sum::<usize>() + 1)
}

/// Milliseconds of a node hash: of a message of 65 bytes.
fn hash_time() -> f64 {
    let message = [1; 65];
    let run = &mut || (0..4_000).for_each(|_| assert!(ours::sha256(black_box(&message)) != message[..32]));
    (0..30).map(|_| milliseconds(run)).fold(f64::MAX, f64::min) / 4_000.0
}

fn applies(random: &mut Random) {
    let hash = hash_time();
    for capacity in [1_024, 16_384] {
        let (s, keys) = filled(random, capacity, capacity / 64, capacity / 2, 0);
        let turns = if capacity > 2_000 { 3 } else { 10 };
        let check = || (0..turns).map(|_| milliseconds(&mut || assert_eq!(ours::check(&s), Ok(())))).fold(f64::MAX, f64::min);
        let next = cases::next(&s);
        for size in [1, 64, MOST_ASKS] {
            let mut changes = size;
            let mut after = s.clone();
            let (b, count) = loop {
                let b = batch(random, &keys, size, changes);
                if let Ok((_, _, count)) = apply_to_sound(&mut after, next, &b) {
                    break (b, count);
                }
                changes = changes * 3 / 4;
            };
            let name = format!("apply-{size}-to-{capacity}-{count}-new-records");
            let before = check();
            let took = compare_on(&name, turns, &s, |s| ours::apply(s, next, &b), |s| second::apply(s, next, &b));
            let check = before.min(check());
            // check hashes each record once
            let (checks, steps) = (cases::taken(&s), step_hashes(&after));
            let part = |t: f64| 100.0 * t / took;
            println!(
                "where apply-{size}-to-{capacity} check {:.0}% ({checks} hashes {:.1}%) step {:.0}% ({steps} hashes {:.1}%)",
                part(check),
                part(hash * checks as f64),
                part(took - check),
                part(hash * steps as f64)
            );
        }
        let latest = second::bytes::store(&s).unwrap().latest;
        compare_on(&format!("prune-{capacity}"), turns, &s, |s| ours::prune(s, latest), |s| second::prune(s, latest));
        let some: Vec<_> = keys.iter().take(25).copied().chain((0..25).map(|_| random.hash())).collect();
        let prove = |call: &dyn Fn(&[u8], u32, &[u8], &mut [u8]) -> Result<u32, second::Stopped>, s: &[u8]| {
            let mut room = [0; 17_080];
            some.iter().map(|k| call(s, latest, k, &mut room).unwrap()).sum::<u32>()
        };
        compare_on(&format!("prove-50-keys-{capacity}"), turns, &s, |s| prove(&ours::prove, s), |s| prove(&second::prove, s));
        // 2026-03: version 0 is empty. It is kept where the header says so; the records have no say in it.
        let mut empty = s.clone();
        empty[12..16].fill(0);
        let refused = |call: &dyn Fn(&[u8], u32, &[u8], &mut [u8]) -> Result<u32, second::Stopped>, s: &[u8]| {
            some.iter().filter(|k| call(s, 0, &k[..], &mut []) == Err(second::alone(14))).count()
        };
        compare_on(&format!("prove-50-keys-in-an-empty-version-{capacity}"), turns, &empty, |s| refused(&ours::prove, s), |s| refused(&second::prove, s));
    }
}

/// Apply of one record and prune begin with check, and take hardly longer: fails above 1.2 times its time on the same store. One is of roots alone, of
/// which check hashes none.
fn beside_check(random: &mut Random) {
    let mut stores = vec![];
    for capacity in [1_024, 16_384] {
        let (s, keys) = filled(random, capacity, capacity / 64, capacity / 2, 0);
        stores.push((format!("{capacity}"), s, keys[0]));
    }
    stores.push(("16384-roots".to_string(), cases::roots(16_383, 1), cases::leaf_roots(1).1));
    for (what, s, key) in stores {
        let latest = second::bytes::store(&s).unwrap().latest;
        let b = ask_bytes(&Ask { key, value: Some(random.hash()) });
        // Each call has a copy of the store, made before the time starts.
        let once = |call: &dyn Fn(&mut [u8])| {
            let mut t = s.clone();
            bars::milliseconds(&mut || call(&mut t))
        };
        let check = || once(&|t| assert_eq!(ours::check(t), Ok(())));
        bars::beside(&format!("apply-1-record-{what}-beside-check"), 40, 1.2, || once(&|t| assert!(ours::apply(t, latest + 1, &b).is_ok())), check);
        bars::beside(&format!("prune-{what}-beside-check"), 40, 1.2, || once(&|t| assert!(ours::prune(t, latest).is_ok())), check);
    }
}

/// What changed in a full store of 16,384 slots: one of 3,200 grants, and all of them. Batches take the keys in order, a quarter each.
fn comparisons(random: &mut Random) {
    let mut s = cases::fresh(16_384, 0, 0);
    let mut keys: Vec<[u8; 32]> = (0..3_200).map(|_| random.hash()).collect();
    keys.sort();
    let mut publish = |keys: &[[u8; 32]], value: u8| {
        for part in keys.chunks(800) {
            let batch: Vec<u8> = part.iter().flat_map(|k| ask_bytes(&Ask { key: *k, value: Some([value; 32]) })).collect();
            let next = cases::next(&s);
            apply_to_sound(&mut s, next, &batch).unwrap();
        }
        second::bytes::store(&s).unwrap().latest
    };
    let versions = [publish(&keys, 1), publish(&keys[..1], 2), publish(&keys, 3)];
    let check = (0..3).map(|_| milliseconds(&mut || assert_eq!(ours::check(&s), Ok(())))).fold(f64::MAX, f64::min);
    for (what, first, second) in [("one", versions[0], versions[1]), ("all", versions[1], versions[2])] {
        let (visits, records) = second::changes::measures(&s, first, second).unwrap();
        let name = format!("changes-{what}-of-3200-in-{}-{visits}-visits-{records}-records", cases::taken(&s));
        let room = vec![0; 72 * records];
        let (limit, s) = (visits as u32, &s);
        let took = compare_on(
            &name,
            3,
            &room,
            |room| ours::changes(s, first, second, limit, room),
            |room| second::changes(s, first, second, limit, room),
        );
        println!("where changes-{what} check {:.0}% the two walks {:.3}ms", 100.0 * check / took, (took - check).max(0.0));
    }
}

/// 256 proofs from a full store of 16,384 slots, half of their keys never inserted: in one call, in 256 single calls, and by the second program.
fn palettes(random: &mut Random) {
    let (s, keys) = filled(random, 16_384, 256, 16_384, 0);
    let latest = second::bytes::store(&s).unwrap().latest;
    let list: Vec<u8> = (0..256).flat_map(|i| if i % 2 == 0 { keys[random.below(keys.len())] } else { random.hash() }).collect();
    let s = &s;
    let length = second::palette::proofs(s, latest, &list).unwrap().concat().len();
    let room = vec![0; length];
    let name = format!("palette-256-keys-16384-slots-{length}-bytes");
    let took = compare_on(&name, 3, &room, |room| ours::palette(s, latest, &list, room), |room| second::palette(s, latest, &list, room));
    let single = (0..3)
        .map(|_| {
            let mut room = vec![0; 17_080];
            milliseconds(&mut || list.chunks(32).for_each(|key| assert!(ours::prove(s, latest, key, &mut room).is_ok())))
        })
        .fold(f64::MAX, f64::min);
    println!("where palette-256 one call {took:.3}ms, 256 single calls {single:.3}ms, ratio {:.2}", took / single);
}

/// The same content with few versions kept and with some 4,000,000,000.
fn versions() {
    for capacity in [1_024, 16_384] {
        let turns = if capacity > 2_000 { 3 } else { 20 };
        let [low, high] = [10, 4_000_000_000].map(|first| filled(&mut Random(17), capacity, capacity / 64, capacity / 2, first));
        let b = batch(&mut Random(19), &low.1, 64, 64);
        let (mut x, mut y) = (f64::MAX, f64::MAX);
        let once = |s: &[u8]| {
            let mut s = s.to_vec();
            let next = cases::next(&s);
            milliseconds(&mut || assert!(ours::apply(&mut s, next, &b).is_ok()))
        };
        for _ in 0..turns {
            x = x.min(once(&low.0));
            y = y.min(once(&high.0));
        }
        println!("versions apply-64-to-{capacity} ratio {:.2} kept to 4,000,000,000 {y:.3}ms kept to 10 {x:.3}ms", y / x);
    }
}

/// 2026-13: the same batches under numbers one after the other and with gaps, apply beside the second program and beside itself; then the root of a
/// version between two publishings, in a store whose every slot is the root of a publishing, the one sought the last.
fn gaps() {
    for capacity in [1_024, 16_384] {
        let turns = if capacity > 2_000 { 9 } else { 20 };
        let [dense, apart] = [1, 1_000_003].map(|apart| filled_apart(&mut Random(17), capacity, capacity / 64, capacity / 2, 0, apart));
        let b = batch(&mut Random(19), &dense.1, 64, 64);
        let to = cases::next(&dense.0);
        let without = compare_on(&format!("apply-64-to-{capacity}-without-gaps"), turns, &dense.0, |s| ours::apply(s, to, &b), |s| second::apply(s, to, &b));
        let to = u32::MAX;
        let with = compare_on(&format!("apply-64-to-{capacity}-with-gaps"), turns, &apart.0, |s| ours::apply(s, to, &b), |s| second::apply(s, to, &b));
        println!("gaps apply-64-to-{capacity} ratio {:.2} with gaps {with:.3}ms without {without:.3}ms", with / without);
        let body = Body::Leaf { key: [1; 32], value: [2; 32] };
        let mut s = cases::fresh(capacity, 0, 100 * capacity as u32);
        for i in 0..capacity {
            let version = 100 * (1 + i as u32);
            let retired = if i + 1 == capacity { 0 } else { version + 100 };
            put_slot(&mut s, i, &slot_bytes(&Record { place: Place::EMPTY, version, retired, body }));
        }
        assert_eq!(second::check(&s), Ok(()));
        let between = 100 * capacity as u32 - 50;
        compare(
            &format!("root-between-two-of-{capacity}-publishings"),
            turns,
            || assert!(black_box(ours::root(&s, between)).is_ok()),
            || assert!(black_box(second::root(&s, between)).is_ok()),
        );
    }
}

/// 2026-07: reads of a full store that find what they want, and reads for which a record is lost or spoilt, the key's leaf the last slot.
fn missing(random: &mut Random) {
    for capacity in [1_024, 16_384] {
        let turns = if capacity > 2_000 { 3 } else { 20 };
        let (s, keys) = filled(random, capacity, capacity / 64, capacity, 0);
        let latest = second::bytes::store(&s).unwrap().latest;
        let leaf = |k: &[u8; 32]| {
            let here = |c: &[u8]| c[4] == 2 && c[48..80] == k[..] && second::bytes::u32_at(c, 44) == 0;
            s[HEADER..].chunks_exact(SLOT).position(here)
        };
        let some: Vec<([u8; 32], usize)> = keys.iter().filter_map(|k| Some((*k, leaf(k)?))).take(20).collect();
        let (mut lost, mut spoilt) = (s.clone(), s.clone());
        for (_, i) in &some {
            put_slot(&mut lost, *i, &[0; SLOT]);
            spoilt[HEADER + SLOT * i + 4] = 9;
        }
        for (name, s, wanted) in [("none", &s, None), ("lost", &lost, Some(17)), ("spoilt", &spoilt, Some(3))] {
            let told = |answer: Result<Option<[u8; 32]>, second::Stopped>| assert_eq!(black_box(answer).err().map(|e| e.number), wanted);
            compare(
                &format!("missing-{name}-get-{}-keys-{capacity}", some.len()),
                turns,
                || some.iter().for_each(|(k, _)| told(ours::get(s, latest, k))),
                || some.iter().for_each(|(k, _)| told(second::get(s, latest, k))),
            );
        }
    }
}

/// 2026-09: how many grants, and a page of twenty of them, in a full store: beside the second program, which reads the whole store for each, and beside the
/// whole list, which `changes` gives from a version that holds nothing.
fn positions(random: &mut Random) {
    for capacity in [1_024, 16_384] {
        let turns = if capacity > 2_000 { 3 } else { 20 };
        let (s, _) = filled(random, capacity, capacity / 64, capacity, 0);
        let latest = second::bytes::store(&s).unwrap().latest;
        let n = second::count(&s, latest).unwrap();
        let count = |call: &dyn Fn(&[u8], u32) -> Result<u64, second::Stopped>| assert_eq!(black_box(call(&s, latest)), Ok(n));
        compare(&format!("count-{n}-grants-{capacity}"), turns, || count(&ours::count), || count(&second::count));
        type At = dyn Fn(&[u8], u32, u64) -> Result<([u8; 32], [u8; 32]), second::Stopped>;
        let page = |call: &At| (n / 2..n / 2 + 20).for_each(|i| assert!(black_box(call(&s, latest, i)).is_ok()));
        compare(&format!("at-20-of-{n}-positions-{capacity}"), turns, || page(&ours::at), || page(&second::at));
        let best = |call: &mut dyn FnMut()| (0..turns).map(|_| milliseconds(call)).fold(f64::MAX, f64::min);
        let mut room = vec![0; 72 * n as usize];
        let listed = best(&mut || assert_eq!(ours::changes(&s, 0, latest, u32::MAX, &mut room), Ok(n as u32)));
        let counted = best(&mut || count(&ours::count));
        let paged = best(&mut || page(&ours::at));
        let all = best(&mut || (0..n).for_each(|i| assert!(black_box(ours::at(&s, latest, i)).is_ok())));
        println!("where positions-{capacity} {n} grants: count {counted:.4}ms, a page of 20 {paged:.3}ms, the whole list by changes {listed:.3}ms, by positions {all:.3}ms");
    }
}

/// The figures of a range: of as many publishings as a store of one grant a batch keeps, up to 1,024, and of versions between two publishings. Beside check on
/// the same store; fails above 3 times check.
fn quarters(random: &mut Random) {
    let (many, _) = filled(random, 16_384, 1, 16_384, 0);
    let (mut between, _) = filled(random, 16_384, 256, 15_000, 0);
    let latest = second::bytes::store(&between).unwrap().latest;
    apply_to_sound(&mut between, latest + 1_024, &[]).expect("a free slot");
    let last = second::bytes::store(&many).unwrap().latest;
    for (name, s, first, last) in [("publishings", &many, last.saturating_sub(1_023), last), ("versions-between", &between, latest, latest + 1_023)] {
        let n = last - first + 1;
        let (mut room, mut other) = (vec![0; 16 * n as usize], vec![0; 16 * n as usize]);
        let mut asked = || assert!(black_box(ours::figures(s, first, last, &mut room)).is_ok());
        compare(&format!("figures-of-{n}-{name}"), 1, &mut asked, || assert!(black_box(second::figures(s, first, last, &mut other)).is_ok()));
        let check = || bars::milliseconds(&mut || assert_eq!(ours::check(s), Ok(())));
        bars::beside(&format!("figures-of-{n}-{name}-beside-check"), 9, 3.0, || bars::milliseconds(&mut asked), check);
    }
}

/// 1,000 presence records of 20 steps as ICS 23 messages, with raw keys of 20 bytes and values of 40, written and read back. The cost grows with the steps, and by the
/// two hashes of raw bytes for each leaf.
fn messages(random: &mut Random) {
    use second::message::Leaf;
    use second::proof::{presence_bytes, Presence, Step};
    use second::sha256::sha256;
    let lent: Vec<(Vec<u8>, Vec<u8>)> = (0..1_000).map(|_| ((0..20).map(|_| random.byte()).collect(), (0..40).map(|_| random.byte()).collect())).collect();
    let steps: Vec<Step> = (0..20).map(|i| Step { side: i % 2 == 1, sibling: random.hash() }).collect();
    let records: Vec<Vec<u8>> = lent.iter().map(|(k, v)| presence_bytes(&Presence { key: sha256(k), value: sha256(v), steps: steps.clone() })).collect();
    let all = || records.iter().zip(lent.iter().map(|(key, value)| Leaf { key, value }));
    let mut room = vec![0; 30_000];
    let made: Vec<Vec<u8>> = all().map(|(p, leaf)| second::message::message(p, leaf.key, leaf, Leaf::default()).unwrap()).collect();
    let mut other = room.clone();
    compare(
        "ics23-write-1000-of-20-steps",
        5,
        || all().zip(&made).for_each(|((p, leaf), m)| assert_eq!(black_box(ours::ics23_write(p, leaf.key, leaf, Leaf::default(), &mut room)), Ok(m.len() as u32))),
        || all().zip(&made).for_each(|((p, leaf), m)| assert_eq!(black_box(second::ics23_write(p, leaf.key, leaf, Leaf::default(), &mut other)), Ok(m.len() as u32))),
    );
    compare(
        "ics23-read-1000-of-20-steps",
        5,
        || made.iter().for_each(|m| assert!(black_box(ours::ics23_read(m, &mut room)).is_ok())),
        || made.iter().for_each(|m| assert!(black_box(second::ics23_read(m, &mut other)).is_ok())),
    );
}

/// 2026-12: what is found of a true proof, of a key that is there and of one that isn't, in a full store: beside the second program, and beside check on the
/// same store, with which the call begins. The search for a finding runs only where an accepted proof is false, which SHA-256 allows no test of.
fn findings(random: &mut Random) {
    for capacity in [1_024, 16_384] {
        let (s, keys) = filled(random, capacity, capacity / 64, capacity, 0);
        let latest = second::bytes::store(&s).unwrap().latest;
        let there = *keys.iter().find(|k| matches!(ours::get(&s, latest, &k[..]), Ok(Some(_)))).expect("a grant");
        for (name, key) in [("present", there), ("absent", random.hash())] {
            let mut proof = vec![0; 17_080];
            let length = ours::prove(&s, latest, &key, &mut proof).unwrap() as usize;
            proof.truncate(length);
            let mut asked = || assert_eq!(black_box(ours::finding(&s, latest, &key, &proof)), Ok(second::forged::Finding::Nothing));
            compare(&format!("finding-{name}-{capacity}"), 3, &mut asked, || {
                assert_eq!(black_box(second::finding(&s, latest, &key, &proof)), Ok(second::forged::Finding::Nothing))
            });
            let best = |call: &mut dyn FnMut()| (0..12).map(|_| processor(call)).fold(f64::MAX, f64::min);
            let (finding, check) = (best(&mut asked), best(&mut || assert_eq!(ours::check(&s), Ok(()))));
            println!("where finding-{name}-{capacity} {finding:.3}ms, {:.2} times check, which takes {check:.3}ms", finding / check);
        }
    }
}

/// The records of the tree of so many random grants, as one batch would place them, all of version 1.
fn tree(random: &mut Random, grants: usize) -> Vec<Record> {
    let mut all: Vec<([u8; 32], [u8; 32])> = (0..grants).map(|_| (random.hash(), random.hash())).collect();
    all.sort();
    second::tree::placing(&second::tree::make(&all, 1, &|_, _| None))
}

fn stored(capacity: usize, latest: u32, records: &[Record]) -> Vec<u8> {
    let mut s = cases::fresh(capacity, 1, latest);
    records.iter().enumerate().for_each(|(i, r)| put_slot(&mut s, i, &slot_bytes(r)));
    s
}

/// Milliseconds of processor time, so that other work on the machine breaks no bar. The kernel counts up to its last look at the thread: a yield is one.
fn processor(call: &mut dyn FnMut()) -> f64 {
    let now = || {
        std::thread::yield_now();
        std::fs::read_to_string("/proc/thread-self/schedstat").unwrap().split(' ').next().unwrap().parse::<f64>().unwrap() / 1e6
    };
    let start = now();
    call();
    now() - start
}

/// Full stores of 16,384 slots: one version, 75 versions, and 8,000 roots over one tree.
fn full_stores() -> Vec<Vec<u8>> {
    let mut random = Random(41);
    let capacity = 16_384;
    let mut cases = vec![];
    let (mut least, mut most) = (1_000, 16_000);
    // As many grants as fill the store.
    while most - least > 8 {
        let middle = (least + most) / 2;
        if tree(&mut Random(43), middle).len() <= capacity {
            least = middle;
        } else {
            most = middle;
        }
    }
    cases.push(stored(capacity, 1, &tree(&mut Random(43), least)));
    cases.push(filled(&mut random, capacity, 75, capacity, 0).0);
    // Roots over one tree of 8,000 nodes.
    let mut records = tree(&mut random, 3_300);
    let root = records.pop().unwrap();
    for v in 1..=8_000 {
        records.push(Record { version: v, retired: if v == 8_000 { 0 } else { v + 1 }, ..root });
    }
    cases.push(stored(capacity, 8_000, &records));
    cases
}

/// Above so many versions the second program, which walks each version's tree, takes minutes for one move.
const FEW_VERSIONS: u32 = 100;

/// 2026-10: moves of full stores of 16,384 slots, over and back, beside check on the same store and, where that ends soon, beside the second program. There and back
/// are the bytes that the records have in either form. Fails where one takes more than 2.5 times check.
fn moves() {
    for s in full_stores() {
        let store = second::bytes::store(&s).unwrap();
        let versions = store.latest + 1 - store.oldest.max(1);
        let old = second::bytes::store_bytes(&second::bytes::Store { form: second::bytes::Form::Plain, ..store });
        let name = format!("16384-{}-used-{versions}-versions", cases::taken(&s));
        if versions <= FEW_VERSIONS {
            compare_on(&format!("back-{name}"), 5, &vec![0; old.len()], |t| ours::back(&s, t), |t| second::back(&s, t));
            compare_on(&format!("over-{name}"), 5, &vec![0; s.len()], |t| ours::over(&old, t), |t| second::over(&old, t));
        }
        let check = || bars::milliseconds(&mut || assert_eq!(ours::check(&s), Ok(())));
        let (mut to_old, mut to_new) = (vec![0; old.len()], vec![0; s.len()]);
        let back = || bars::milliseconds(&mut || assert_eq!(ours::back(&s, &mut to_old), Ok(())));
        bars::beside(&format!("back-{name}-beside-check"), 9, 2.5, back, check);
        let over = || bars::milliseconds(&mut || assert_eq!(ours::over(&old, &mut to_new), Ok(())));
        bars::beside(&format!("over-{name}-beside-check"), 9, 2.5, over, check);
        assert!(to_old == old && to_new == s, "{name}: not the records' bytes");
    }
}

/// 2026-05: a full, sound store of 16,384 slots with its table, in processor time: the reads by scans and by the table, and beside the second program's hash map
/// once that is made; a palette beside its single calls; what keeping the table costs. Fails above the bars.
fn tables() {
    let (s, keys) = filled(&mut Random(47), 16_384, 256, 16_384, 0);
    let latest = second::bytes::store(&s).unwrap().latest;
    let mut table = vec![0; 16_384];
    let best = |turns: usize, call: &mut dyn FnMut()| (0..turns).map(|_| processor(call)).fold(f64::MAX, f64::min);
    let bar = |name: &str, took: f64, beside: &str, other: f64, most: f64| {
        println!("bar {name} {took:.3}ms, {:.3} of {beside} {other:.3}ms, bar {most}", took / other);
        bars::judge(name, took / other, most, 9);
    };
    let check = best(9, &mut || assert_eq!(ours::check(&s), Ok(())));
    let build = best(9, &mut || assert_eq!(ours::index(&s, &mut table), Ok(())));
    bar("index-beside-check", build - check, "check's", check, 1.0);
    let told = best(9, &mut || assert_eq!(ours::index_check(&s, &table), Ok(())));
    println!("where index_check {told:.3}ms, check {check:.3}ms");
    let some: Vec<&[u8; 32]> = keys.iter().step_by(keys.len() / 50).collect();
    let mut room = vec![0; 17_080];
    let scan = best(5, &mut || some.iter().for_each(|k| assert!(black_box(ours::get(&s, latest, &k[..])).is_ok())));
    let by = best(9, &mut || some.iter().for_each(|k| assert!(black_box(ours::get_indexed(&s, &table, latest, &k[..])).is_ok())));
    bar("get-by-table", by, "scans'", scan, 1.0 / 8.0);
    let store = second::bytes::store(&s).unwrap();
    let map = second::tree::Index::of(&store);
    let plain = best(9, &mut || some.iter().for_each(|k| assert!(black_box(second::calls::value_of(&store, &map, latest, k)).is_ok())));
    println!("where get-by-table {by:.3}ms, {:.2} of a hash map's {plain:.3}ms (1.5 was the aim: docs/landings/2026-05.md)", by / plain);
    let scan = best(5, &mut || some.iter().for_each(|k| assert!(black_box(ours::prove(&s, latest, &k[..], &mut room)).is_ok())));
    let by = best(9, &mut || some.iter().for_each(|k| assert!(black_box(ours::prove_indexed(&s, &table, latest, &k[..], &mut room)).is_ok())));
    bar("prove-by-table", by, "scans'", scan, 1.0 / 8.0);
    let plain = best(9, &mut || some.iter().for_each(|k| assert!(black_box(second::proof::proof_of(&store, &map, latest, k)).is_ok())));
    println!("where prove-by-table {by:.3}ms, {:.2} of a hash map's {plain:.3}ms (1.5 was the aim: docs/landings/2026-05.md)", by / plain);
    let list: Vec<u8> = (0..256).flat_map(|i| *keys[i * keys.len() / 256..].first().unwrap()).collect();
    let mut wide = vec![0; 256 * 17_080];
    let whole = best(9, &mut || assert!(ours::palette_indexed(&s, &table, latest, &list, &mut wide).is_ok()));
    let single = best(9, &mut || list.chunks(32).for_each(|k| assert!(ours::prove_indexed(&s, &table, latest, k, &mut room).is_ok())));
    // Each key is planned twice, once for the length and once to be written, but what stands on the keys' ways is searched for once.
    bar("palette-256-by-table", whole, "single calls'", single, 1.1);
    // Room for a publishing: half full.
    let (s, keys) = filled(&mut Random(53), 16_384, 256, 8_192, 0);
    let next = cases::next(&s);
    ours::index(&s, &mut table).unwrap();
    for size in [1, 64, MOST_ASKS] {
        let b = batch(&mut Random(59), &keys, size, size.min(500));
        let calls = (|t: &mut [u8]| ours::apply(t, next, &b).map(|_| ()), |t: &mut [u8], w: &mut [u32]| ours::apply_indexed(t, w, next, &b).map(|_| ()));
        with_table(&format!("apply-{size}-with-table"), &s, &table, calls);
    }
    let calls = (|t: &mut [u8]| ours::prune(t, next - 2).map(|_| ()), |t: &mut [u8], w: &mut [u32]| ours::prune_indexed(t, w, next - 2).map(|_| ()));
    with_table("prune-with-table", &s, &table, calls);
}

/// A call that keeps the table beside the same without one, on copies of a store and its table: at most 1.1 times as long, and the same store is left.
fn with_table<E: std::fmt::Debug>(name: &str, s: &[u8], table: &[u32], calls: (impl Fn(&mut [u8]) -> Result<(), E>, impl Fn(&mut [u8], &mut [u32]) -> Result<(), E>)) {
    let (mut t, mut u, mut w) = (s.to_vec(), s.to_vec(), table.to_vec());
    let plain = || {
        t.copy_from_slice(s);
        bars::milliseconds(&mut || calls.0(&mut t).unwrap())
    };
    let with = || {
        u.copy_from_slice(s);
        w.copy_from_slice(table);
        bars::milliseconds(&mut || calls.1(&mut u, &mut w).unwrap())
    };
    bars::beside(name, 9, 1.1, with, plain);
    assert!(t == u, "{name}: not the same store");
}

/// 2026-08: rescues of full stores of 16,384 slots, sound ones, so that all comes back: nothing takes longer. Beside check on the same store, and the
/// second program's walk. Fails above two seconds.
fn rescues() {
    for s in full_stores() {
        let store = second::bytes::store(&s).unwrap();
        assert_eq!(ours::check(&s), Ok(()));
        let oldest = store.oldest.max(1);
        let name = format!("rescue-16384-{}-used-{}-versions", cases::taken(&s), store.latest + 1 - oldest);
        let target = vec![0; s.len()];
        compare_on(
            &name,
            3,
            &target,
            |t| ours::rescue(&s, oldest, store.latest, t),
            |t| second::rescue::walked(&s, oldest, store.latest, t).map(|w| w.0),
        );
        bars::within(&name, 3, 2_000.0, || bars::milliseconds(&mut || assert!(ours::rescue(&s, oldest, store.latest, &mut target.clone()).is_ok())));
    }
}

/// Palettes, rescues and comparisons beside check on stores made to be slow. Fails above a bar, or so many times it.
fn slows(times: f64) {
    slow::pairs();
    let (kept, broken) = slow::bars(&processor, times);
    println!("{kept} passed, {broken} failed");
    if broken != 0 {
        std::process::exit(1);
    }
}

/// A presence proof with its root and key.
fn path(random: &mut Random, steps: usize) -> ([u8; 32], [u8; 32], Vec<u8>) {
    let (key, value) = (random.hash(), random.hash());
    let mut h = second::sha256::leaf_hash(&key, &value);
    let steps: Vec<second::proof::Step> =
        (0..steps).map(|_| second::proof::Step { side: random.one_in(2), sibling: random.hash() }).collect();
    for s in &steps {
        h = if s.side { second::sha256::inner_hash(&s.sibling, &h) } else { second::sha256::inner_hash(&h, &s.sibling) };
    }
    let p = second::proof::presence_bytes(&second::proof::Presence { key, value, steps });
    (h, key, p)
}

fn stacks() {
    let print = |name: &str, used: usize| println!("stack {name} {used}");
    let mut random = Random(11);
    let (s, keys) = filled(&mut random, 1024, 16, 1024, 0);
    let latest = second::bytes::store(&s).unwrap().latest;
    let key = keys[0];
    let (r, k, p) = path(&mut random, 256);
    print("the-measure-alone", stack::most(|| {}));
    let t = s.clone();
    print("check", stack::most(move || assert!(ours::check(&t).is_ok())));
    let t = s.clone();
    print("root", stack::most(move || assert!(ours::root(&t, latest).is_ok())));
    let t = s.clone();
    print("get", stack::most(move || assert!(ours::get(&t, latest, &key).is_ok())));
    print("verify", stack::most(move || assert!(ours::verify(&r, &k, &p).is_ok())));
    let t = s.clone();
    print("prune", stack::most(move || assert!(ours::prune(&mut t.clone(), latest).is_ok())));
    print("format", stack::most(move || assert!(ours::format(&mut s.clone()).is_ok())));
    print("prove", stack::of_prove());
    for (name, used) in stack::of_positions() {
        print(name, used);
    }
    print("palette", stack::of_palette());
    print("verify_many", stack::of_verify_many());
    print("changes", stack::of_changes());
    print("figures", stack::of_figures());
    print("finding", stack::of_finding());
    for (name, bytes) in stack::of_messages() {
        print(name, bytes);
    }
    print("rescue", stack::of_rescue());
    for (name, used) in stack::of_moves() {
        print(name, used);
    }
    let applies = stack::of_apply();
    applies.iter().for_each(|(name, used)| print(&format!("apply-{name}"), *used));
    let most = applies.iter().map(|(_, used)| *used).max().unwrap();
    print("apply", most);
    let indexed = stack::of_indexed();
    indexed.iter().for_each(|(name, used)| print(name, *used));
    if indexed.iter().any(|(_, used)| *used >= stack::BAR) || most >= stack::BAR {
        println!("stack: apply, or a call with a table, takes 256 KiB or more");
        std::process::exit(1);
    }
}

fn main() {
    measured();
    bars::end();
}

fn measured() {
    if std::env::args().nth(1).as_deref() == Some("stack") {
        return stacks();
    }
    if std::env::args().nth(1).as_deref() == Some("palette") {
        return palettes(&mut Random(31));
    }
    if std::env::args().nth(1).as_deref() == Some("changes") {
        return comparisons(&mut Random(23));
    }
    if std::env::args().nth(1).as_deref() == Some("gaps") {
        return gaps();
    }
    if std::env::args().nth(1).as_deref() == Some("beside-check") {
        return beside_check(&mut Random(11));
    }
    if std::env::args().nth(1).as_deref() == Some("missing") {
        return missing(&mut Random(29));
    }
    if std::env::args().nth(1).as_deref() == Some("positions") {
        return positions(&mut Random(37));
    }
    if std::env::args().nth(1).as_deref() == Some("figures") {
        return quarters(&mut Random(41));
    }
    if std::env::args().nth(1).as_deref() == Some("messages") {
        return messages(&mut Random(47));
    }
    if std::env::args().nth(1).as_deref() == Some("finding") {
        return findings(&mut Random(43));
    }
    if std::env::args().nth(1).as_deref() == Some("rescue") {
        return rescues();
    }
    if std::env::args().nth(1).as_deref() == Some("moves") {
        return moves();
    }
    if std::env::args().nth(1).as_deref() == Some("tables") {
        return tables();
    }
    if std::env::args().nth(1).as_deref() == Some("slow") {
        return slows(std::env::args().nth(2).map_or(1.0, |times| times.parse().unwrap()));
    }
    let mut random = Random(11);
    let proofs: Vec<_> = (0..1000).map(|_| path(&mut random, 20)).collect();
    compare(
        "verify-1000-proofs-of-20-steps",
        30,
        || proofs.iter().for_each(|(r, k, p)| assert!(black_box(ours::verify(r, k, p)).is_ok())),
        || proofs.iter().for_each(|(r, k, p)| assert!(black_box(second::verify(r, k, p)).is_ok())),
    );
    for capacity in [64, 1024, 16_384] {
        let (s, keys) = filled(&mut random, capacity, if capacity < 1000 { 4 } else { 64 }, capacity, 0);
        let latest = second::bytes::store(&s).unwrap().latest;
        compare(
            &format!("check-{capacity}-with-{latest}-versions"),
            3,
            || assert_eq!(ours::check(&s), Ok(())),
            || assert_eq!(second::check(&s), Ok(())),
        );
        let some: Vec<_> = keys.iter().take(50).collect();
        compare(
            &format!("get-50-keys-{capacity}"),
            10,
            || some.iter().for_each(|k| assert!(black_box(ours::get(&s, latest, &k[..])).is_ok())),
            || some.iter().for_each(|k| assert!(black_box(second::get(&s, latest, &k[..])).is_ok())),
        );
    }
    let wide = cases::fresh(16_384, 0, u32::MAX);
    let start = Instant::now();
    assert_eq!(ours::check(&wide), Ok(()));
    println!("bench check-free-slots-all-versions {:.3}s", start.elapsed().as_secs_f64());
    beside_check(&mut random);
    applies(&mut random);
    comparisons(&mut Random(23));
    palettes(&mut Random(31));
    versions();
    gaps();
    missing(&mut Random(29));
    positions(&mut Random(37));
    quarters(&mut Random(41));
    findings(&mut Random(43));
    messages(&mut Random(47));
    rescues();
    moves();
    tables();
    slows(1.0);
    stacks();
}
