//! How the cost of each call grows with the store: capacities 64 to 16,384, each store filled to the half, the library beside the second
//! program in one run. A line `bench grow-CALL-CAPACITY ..` for each, the time of one call; bench/plot draws them.

#[path = "../cases.rs"]
#[allow(dead_code)]
mod cases;
#[path = "../ours.rs"]
#[allow(dead_code)] // few calls are made here
mod ours;

use cases::Random;
use second::bytes::{ask_bytes, Ask};
use second::calls::apply_to_sound;
use std::fmt::Debug;
use std::hint::black_box;
use std::time::Instant;

type Hash = [u8; 32];

/// The time of one call: short runs of the two in turn, the best of each.
fn compare<T: PartialEq + Debug>(name: &str, mut ours: impl FnMut() -> T, mut plain: impl FnMut() -> T) {
    assert_eq!(ours(), plain(), "{name}: not the same work");
    let ours = &mut || drop(black_box(ours()));
    let plain = &mut || drop(black_box(plain()));
    let (mut a, mut b) = (milliseconds(1, ours), milliseconds(1, plain));
    // A run is of as many calls as fill some milliseconds.
    let [many, more] = [a, b].map(|once| (5.0 / once).clamp(1.0, 10_000.0) as usize);
    for _ in 0..if a > 100.0 { 3 } else { 12 } {
        a = a.min(milliseconds(many, ours));
        b = b.min(milliseconds(more, plain));
    }
    println!("bench grow-{name} ratio {:.4} ours {a:.6}ms plain {b:.6}ms", a / b);
}

fn milliseconds(times: usize, call: &mut dyn FnMut()) -> f64 {
    let start = Instant::now();
    (0..times).for_each(|_| call());
    start.elapsed().as_secs_f64() * 1000.0 / times as f64
}

/// A store whose slots are used to the half, by versions of capacity / 64 records each, a third of them over keys that were there.
fn half(random: &mut Random, capacity: usize) -> (Vec<u8>, Vec<Hash>) {
    let mut s = cases::fresh(capacity, 0, 0);
    let mut keys: Vec<Hash> = vec![];
    while cases::taken(&s) < capacity / 2 {
        let mut asks: Vec<Ask> = vec![];
        for _ in 0..capacity / 64 {
            let key = if keys.len() > 2 && random.one_in(3) { keys[random.below(keys.len())] } else { random.hash() };
            keys.push(key);
            asks.push(Ask { key, value: Some(random.hash()) });
        }
        asks.sort_by_key(|a| a.key);
        asks.dedup_by_key(|a| a.key);
        let batch: Vec<u8> = asks.iter().flat_map(ask_bytes).collect();
        let next = cases::next(&s);
        apply_to_sound(&mut s, next, &batch).expect("there is room for the half");
    }
    keys.sort();
    keys.dedup();
    (s, keys)
}

fn main() {
    let mut random = Random(23);
    for power in 6..=14 {
        let capacity = 1 << power;
        let (s, keys) = half(&mut random, capacity);
        let latest = second::bytes::store(&s).unwrap().latest;
        let name = |call: &str| format!("{call}-{capacity}");
        let (mut x, mut y) = (s.clone(), s.clone());

        compare(&name("format"), || ours::format(&mut x), || second::format(&mut y));
        // Where a buffer lies shows in the time, so all calls have the same one.
        x.copy_from_slice(&s);
        compare(&name("check"), || ours::check(&x), || second::check(&x));

        // A new value for one key and a new key, on a fresh copy each time. Copying is timed with it, and costs both the same.
        let mut asks = [
            Ask { key: keys[keys.len() / 2], value: Some(random.hash()) },
            Ask { key: random.hash(), value: Some(random.hash()) },
        ];
        asks.sort_by_key(|a| a.key);
        let batch: Vec<u8> = asks.iter().flat_map(ask_bytes).collect();
        compare(
            &name("apply"),
            || {
                x.copy_from_slice(&s);
                ours::apply(&mut x, latest + 1, &batch)
            },
            || {
                y.copy_from_slice(&s);
                second::apply(&mut y, latest + 1, &batch)
            },
        );
        assert!(x == y, "apply: not the same store");
        compare(
            &name("prune"),
            || {
                x.copy_from_slice(&s);
                ours::prune(&mut x, latest)
            },
            || {
                y.copy_from_slice(&s);
                second::prune(&mut y, latest)
            },
        );
        assert!(x == y, "prune: not the same store");

        x.copy_from_slice(&s);
        let s = &x[..];
        compare(&name("root"), || ours::root(s, latest), || second::root(s, latest));
        let mut asked = [keys[keys.len() / 3], random.hash()].into_iter().cycle();
        let mut too = asked.clone();
        compare(&name("get"), || ours::get(s, latest, &asked.next().unwrap()), || second::get(s, latest, &too.next().unwrap()));
        compare(&name("count"), || ours::count(s, latest), || second::count(s, latest));
        // The first grant, one in the middle and the last in turn.
        let grants = ours::count(s, latest).unwrap();
        let mut position = [0, grants / 2, grants - 1].into_iter().cycle();
        let mut again = position.clone();
        compare(&name("at"), || ours::at(s, latest, position.next().unwrap()), || second::at(s, latest, again.next().unwrap()));
        let (mut room, mut other) = (vec![0; 17_080], vec![0; 17_080]);
        let absent = random.hash();
        compare(&name("prove"), || ours::prove(s, latest, &absent, &mut room), || second::prove(s, latest, &absent, &mut other));
        assert!(room == other, "prove: not the same proof");
        let length = ours::prove(s, latest, &absent, &mut room).unwrap() as usize;
        let root = ours::root(s, latest).unwrap();
        compare(
            &name("verify"),
            || ours::verify(&root, &absent, &room[..length]),
            || second::verify(&root, &absent, &room[..length]),
        );
    }
}
