//! The check's passes on sound, hostile and damaged stores: a sound store has nothing wrong, and of any other a slot is named that fails the exact
//! test. So no store falls to the loop over all slots, and a guess that goes wrong is seen here, where it costs time and no answer.

#[path = "../../compare/src/cases.rs"]
#[allow(dead_code)]
mod cases;
mod hostile;
mod trial;

use cases::Random;

#[derive(Default)]
struct Tally {
    passed: usize,
    failed: usize,
}

impl Tally {
    /// The passes answer as they should, and check as the second program.
    fn look(&mut self, name: &str, s: &[u8]) {
        self.see(name, s, second::check(s).err().unwrap_or(0));
    }

    fn see(&mut self, name: &str, s: &[u8], wanted: u32) {
        let passes = match wanted {
            0 => 0,
            3 => 1,
            _ => 3,
        };
        let (came, answer) = (trial::suspect(s), trial::check(s));
        if came == passes && answer == wanted {
            self.passed += 1;
        } else {
            self.failed += 1;
            println!("{name}: the passes gave {came} for {passes}, check {answer} for {wanted}");
        }
    }
}

fn main() {
    let mut tally = Tally::default();
    assert!(cases::roots(300, 0) == hostile::roots_by_batches(300));
    let mut random = Random(29);
    for capacity in [200, 1_024, 16_384] {
        for (name, s) in hostile::hostile(&mut random, capacity) {
            tally.look(&format!("{name}, {capacity}"), &s);
        }
        let sound = [("roots", 0, cases::roots(capacity, 0)), ("roots-over-two-leaves", 0, hostile::roots_over_two(capacity))];
        for (name, wanted, s) in hostile::rooted(capacity).into_iter().chain(sound) {
            // The second program goes over all roots for each of them: too long for many.
            if capacity <= 1_024 {
                assert_eq!(second::check(&s).err().unwrap_or(0), wanted, "{name}");
            }
            tally.see(&format!("{name}, {capacity}"), &s, wanted);
            tally.see(&format!("{name} in any order, {capacity}"), &cases::scattered(&mut random, &s, 0), wanted);
        }
        for (what, s) in [
            ("full", hostile::filled(&mut random, capacity, capacity / 64, capacity).0),
            ("full by single records", hostile::filled(&mut random, capacity.min(2_048), 1, capacity).0),
            ("half full", hostile::filled(&mut random, capacity, capacity / 64, capacity / 2).0),
            ("deep", hostile::deep(capacity.max(600))),
        ] {
            tally.look(&format!("{what}, {capacity}"), &s);
            tally.look(&format!("{what} in any order, {capacity}"), &cases::scattered(&mut random, &s, 3.min(16_384 - cases::taken(&s))));
            tally.look(&format!("{what} with doubles, {capacity}"), &hostile::doubles(&s));
            for (name, t) in hostile::damaged(&mut random, &s) {
                tally.look(&format!("{what} with {name}, {capacity}"), &t);
            }
        }
    }
    for seed in 0..6_000u64 {
        let mut random = Random(seed.wrapping_mul(0x9E37_79B9_7F4A_7C15));
        let (mut s, _) = cases::store(&mut random);
        for _ in 0..random.below(4) {
            cases::damage(&mut random, &mut s);
        }
        tally.look(&format!("seed {seed}"), &s);
    }
    println!("{} passed, {} failed", tally.passed, tally.failed);
    std::process::exit((tally.failed != 0) as i32);
}
