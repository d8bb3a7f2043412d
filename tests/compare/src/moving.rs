//! 2026-10: stores moved over and back, beside the second program: on histories, on damaged stores of both forms and on any bytes. The named cases are
//! worked out by hand from 02's words.

use crate::both;
use crate::cases::{self, Random};
use crate::ours;
use crate::tally::Tally;
use second::bytes::{ask_bytes, u32_at, Ask, Form, HEADER, SLOT};
use second::form::header::{CAPACITY, LATEST, OLDEST};
use second::form::slot::{BIT_COUNT, BITS, CHILD, CHILD_HASH, KEY, KIND, LEAVES, LENGTH, RETIRED, VERSION};
use second::ZEROS;

const OLD: usize = Form::Plain.slot();

/// The bytes of a buffer for as many slots in the other form.
fn room(from: Form, s: &[u8]) -> usize {
    let to = if from == Form::Plain { Form::Counted } else { Form::Plain };
    HEADER + to.slot() * (s.len().saturating_sub(HEADER) / from.slot())
}

fn filled(random: &mut Random, n: usize) -> Vec<u8> {
    let byte = random.byte();
    vec![byte; n]
}

/// One thing changed in a store of the old form.
fn damage(random: &mut Random, s: &mut [u8]) {
    let n = (s.len() - HEADER) / OLD;
    let start = HEADER + OLD * random.below(n);
    match random.below(8) {
        0 => s[random.below(HEADER)] ^= 1 << random.below(8),
        1 => s[start + [LENGTH, KIND, BIT_COUNT, BITS][random.below(4)]] ^= 1 << random.below(8),
        2 => s[start + [VERSION, RETIRED][random.below(2)]] ^= 1 << random.below(4),
        3 => s[start + [CHILD[0], CHILD[1], CHILD_HASH[0], CHILD_HASH[1], KEY][random.below(5)] + random.below(4)] ^= 1 << random.below(8),
        4 => s[start..start + OLD].fill(0),
        5 => {
            let from = HEADER + OLD * random.below(n);
            s.copy_within(from..from + OLD, start);
        }
        // an inner record with the kind and length of the new form, or any other
        6 => {
            s[start + LENGTH] ^= 120 ^ 128;
            s[start + KIND] ^= 3 ^ 5;
        }
        _ => s[start + random.below(OLD)] = random.byte(),
    }
}

/// A made store, sound or not, back; what came of it, damaged or not, over; and buffers of wrong sizes.
pub fn round(tally: &mut Tally, random: &mut Random, seed: u64, s: &[u8]) {
    let mut size = room(Form::Counted, s);
    if random.one_in(12) {
        size = (size + [0, 1, 8, OLD, SLOT, HEADER][random.below(6)]).saturating_sub([0, 1, 8, OLD, SLOT, HEADER][random.below(6)]);
    }
    let target = filled(random, size);
    let (x, mut old) = both::moved(tally, "of a made store", seed, Form::Counted, s, &target);
    if x.is_err() {
        // Whatever the target then holds, as a store of the old form.
        let target = filled(random, room(Form::Plain, &old));
        let _ = both::moved(tally, "of what a refusal left", seed, Form::Plain, &old, &target);
        return;
    }
    for _ in 0..[0, 1, 1, 2][random.below(4)] {
        damage(random, &mut old);
    }
    let mut size = room(Form::Plain, &old);
    if random.one_in(12) {
        size = (size + [0, 1, 8, OLD, SLOT, HEADER][random.below(6)]).saturating_sub([0, 1, 8, OLD, SLOT, HEADER][random.below(6)]);
    }
    let target = filled(random, size);
    let _ = both::moved(tally, "of a store of the old form", seed, Form::Plain, &old, &target);
}

/// M1: A to D, in slots 0 to 6 (010, 011, 00, 01, 0, 1, the root), by hand: what the counts are.
pub fn named(tally: &mut Tally) {
    let mut s = cases::fresh(20, 0, 0);
    let grants = [(0x00u8, 1u8), (0x40, 2), (0x60, 3), (0x80, 4)];
    let asks = grants.map(|(first, value)| {
        let mut key = ZEROS;
        key[0] = first;
        Ask { key, value: Some([value; 32]) }
    });
    second::apply(&mut s, 1, &asks.iter().flat_map(ask_bytes).collect::<Vec<u8>>()).unwrap();
    let mut old = vec![0xFF; HEADER + OLD * 20];
    tally.equal("M1 back", 0, ours::back(&s, &mut old), Ok(()));
    // The header says kind 1, and the rest is as it was.
    tally.equal("M1 back: the header", 0, old[..HEADER].to_vec(), {
        let mut head = s[..HEADER].to_vec();
        head[4] = 1;
        head
    });
    for i in 0..20 {
        let (new, was) = (&s[HEADER + SLOT * i..][..SLOT], &old[HEADER + OLD * i..][..OLD]);
        let mut wanted = new[..OLD].to_vec();
        if new[KIND] == 5 {
            wanted[LENGTH] = 120;
            wanted[KIND] = 3;
        }
        tally.equal("M1 back: a slot", i as u64, was.to_vec(), wanted);
    }
    let mut new = vec![0x11; s.len()];
    tally.equal("M1 over", 0, ours::over(&old, &mut new), Ok(()));
    tally.equal("M1 over: the new bytes", 0, new == s, true);
    // 01 has 1 and 1; 0 has 1 and 2; the root 3 and 1.
    for (i, counts) in [(3, [1, 1]), (4, [1, 2]), (6, [3, 1])] {
        let slot = &new[HEADER + SLOT * i..][..SLOT];
        tally.equal("M1 over: counts", i as u64, LEAVES.map(|at| u32_at(slot, at)), counts);
    }
    refusals(tally, &s, &old);
}

/// Each pair of refusals next to each other, deserved at once.
fn refusals(tally: &mut Tally, new: &[u8], old: &[u8]) {
    let head = |s: &[u8]| {
        let mut s = s.to_vec();
        s[CAPACITY] ^= 1;
        s
    };
    let unsound = |s: &[u8], slot: usize| {
        let mut s = s.to_vec();
        s[HEADER + slot * 6 + CHILD_HASH[0]] ^= 1;
        s
    };
    for (from, s, slot, room) in [(Form::Counted, new, SLOT, old.len()), (Form::Plain, old, OLD, new.len())] {
        let mut both_wrong = unsound(&head(s), slot);
        both_wrong[OLDEST] = 9;
        for (what, source, room, wanted) in [
            ("a target one slot short, and a wrong header", head(s), room - if slot == SLOT { OLD } else { SLOT }, Err(1)),
            ("a target of the source's own form", s.to_vec(), s.len(), Err(1)),
            ("a source of a byte more", [s, &[0]].concat(), room, Err(1)),
            ("no source", vec![], room, Err(1)),
            ("no target", s.to_vec(), 0, Err(1)),
            ("a wrong header of an unsound store", both_wrong, room, Err(2)),
            ("an unsound store", unsound(s, slot), room, Err(3)),
            ("a sound one", s.to_vec(), room, Ok(())),
        ] {
            let (x, _) = both::moved(tally, "named", 0, from, &source, &vec![0x5A; room]);
            tally.equal(what, 0, x, wanted);
        }
    }
    // A count that isn't true: unsound in the new form.
    let mut wrong = new.to_vec();
    wrong[HEADER + SLOT * 6 + LEAVES[0]] += 1;
    let (x, _) = both::moved(tally, "named", 0, Form::Counted, &wrong, &vec![0; old.len()]);
    tally.equal("a wrong count", 0, x, Err(3));
    // The source is read by its own form alone: 24 + 120 * 16 bytes are a size of both.
    let sixteen = vec![0; HEADER + OLD * 16];
    for (from, room) in [(Form::Plain, HEADER + SLOT * 16), (Form::Counted, HEADER + OLD * 15)] {
        let (x, _) = both::moved(tally, "named", 0, from, &sixteen, &vec![0; room]);
        tally.equal("zeros of a size of both forms", 0, x, Err(2));
    }
    let latest = u32_at(old, LATEST);
    tally.equal("latest stays", 0, latest, u32_at(new, LATEST));
}
