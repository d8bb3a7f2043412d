//! How long check takes beside hashing each record once, beside the second program, and on hostile stores: the best of many short runs, in processor
//! time. It fails above its bars.

#[path = "../../../common/bars.rs"]
mod bars;
#[path = "../../../compare/src/cases.rs"]
#[allow(dead_code)]
mod cases;
#[path = "../hostile.rs"]
mod hostile;
#[path = "../trial.rs"]
mod trial;

use cases::Random;
use std::hint::black_box;

/// The turns of a bar, each of a millisecond or more.
const TURNS: usize = 40;

/// Check of a store beside something else.
fn check_beside(name: &str, most: f64, store: &[u8], answer: u32, other: &mut dyn FnMut()) -> [f64; 2] {
    let mut check = || assert_eq!(trial::check(black_box(store)), answer);
    bars::beside(name, TURNS, most, bars::filling(&mut check), bars::filling(other))
}

/// Check of a store beside hashing each of its records once, and how many there are.
fn check_beside_hashing(name: &str, most: f64, store: &[u8]) {
    let [check, hashes] = check_beside(&format!("check-{name}-beside-hashing"), most, store, 0, &mut || {
        black_box(trial::hashes(black_box(store)));
    });
    println!("check-{name} {check:.3}ms hashing each of {} records once {hashes:.3}ms", cases::taken(store));
}

/// Check of a store beside that of another one, which is sound.
fn check_beside_sound(name: &str, most: f64, store: &[u8], answer: u32, sound: &[u8]) {
    check_beside(name, most, store, answer, &mut || assert_eq!(trial::check(black_box(sound)), 0));
}

fn main() {
    let mut random = Random(31);
    let mut full = vec![];
    // At 64 slots the scans of each record took 2.2 times the hashing.
    for (capacity, most) in [(64, 2.2), (1_024, 1.8), (4_096, 1.8), (16_384, 1.8)] {
        let (s, _) = hostile::filled(&mut random, capacity, capacity / 64, capacity);
        check_beside_hashing(&format!("full-{capacity}"), most, &s);
        full.push(s);
    }
    let [middle, large] = [&full[2], &full[3]];
    check_beside("check-full-16384-beside-the-second-program", 0.5, large, 0, &mut || assert_eq!(second::check(large), Ok(())));
    check_beside_sound("growth-of-check-from-4096-to-16384", 4.8, large, 0, middle);

    // No store has more roots: a leaf, renewed by empty batches; and the same above two leaves, each of which has all of them as parents.
    let [few, many] = [4_096, 16_384].map(|n| cases::roots(n, 0));
    let over_two = hostile::roots_over_two(16_384);
    for (name, s) in [("roots-4096", &few), ("roots-16384", &many), ("roots-over-two-leaves-16384", &over_two)] {
        check_beside_hashing(name, 1.8, s);
    }
    check_beside_sound("growth-of-check-of-roots-from-4096-to-16384", 4.8, &many, 0, &few);
    for (name, answer, t) in hostile::rooted(16_384) {
        check_beside_sound(&format!("check-{name}-beside-the-sound-roots"), 1.2, &t, answer, &many);
    }

    let deep = hostile::deep(16_384);
    let slow = hostile::hostile(&mut random, 16_384)
        .into_iter()
        .chain([("doubles", hostile::doubles(large)), ("deep", deep)])
        .chain(hostile::damaged(&mut random, large));
    for (name, t) in slow {
        let answer = trial::check(&t);
        check_beside_sound(&format!("check-hostile-{name}-of-answer-{answer}-beside-the-sound-store"), 4.0, &t, answer, large);
    }
    bars::end();
}
