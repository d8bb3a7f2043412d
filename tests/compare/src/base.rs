//! Histories whose batches are each given latest + 1: what the library answers and every byte it leaves, in one digest. The digest was taken from
//! the library as it was before request 2026-13, when a batch made the next version: given that number, nothing of it may have changed. Request 2026-09 gave
//! the store another form, so its bytes are heard as the form of before would have them: without the counts, of which that one knew nothing.

use crate::cases::{self, Random};
use crate::{ours, tally::Tally};
use second::bytes::{store, store_bytes, u32_at, Body, Form, Slot, HEADER, SLOT};
use second::sha256::sha256;
use second::Bytes32;
use std::fmt::Debug;

const HISTORIES: u64 = 120;
const DIGEST: &str = "8b500cd19b916acac87430569c014f23779c8fef4caefb046035c3cc2bfb03e9";

/// All that was heard so far, as a hash over the hash before it.
struct Heard(Bytes32);

impl Heard {
    fn answer(&mut self, what: &str, answer: impl Debug, lent: &[u8]) {
        let words = format!("{what} {answer:?} ");
        self.0 = sha256(&[&self.0, words.as_bytes(), lent].concat());
    }
}

/// The same store in the form of 01.
fn plain(s: &[u8]) -> Vec<u8> {
    let mut st = store(s).expect("a store that calls alone have written");
    st.form = Form::Plain;
    for slot in &mut st.slots {
        match slot {
            Slot::Used(r) => {
                if let Body::Inner(children) = &mut r.body {
                    children.iter_mut().for_each(|c| c.leaves = 0);
                }
            }
            Slot::Free => {}
            Slot::Spoiled(_) => panic!("a store that calls alone have written has a slot off form"),
        }
    }
    store_bytes(&st)
}

/// A version of oldest to latest, or one just out of them.
fn version(random: &mut Random, s: &[u8]) -> u32 {
    let (oldest, latest) = (u32_at(s, 12), u32_at(s, 16));
    (oldest + random.below((latest - oldest) as usize + 3) as u32).saturating_sub(1)
}

fn looks(heard: &mut Heard, random: &mut Random, s: &[u8], keys: &[Bytes32]) {
    heard.answer("check", ours::check(s), &[]);
    for _ in 0..3 {
        let v = version(random, s);
        let mut k = keys[random.below(keys.len())];
        if random.one_in(3) {
            k[random.below(32)] ^= 1 << random.below(8);
        }
        heard.answer("root", ours::root(s, v), &[]);
        heard.answer("get", ours::get(s, v, &k), &[]);
        let mut room = vec![random.byte(); 40 + random.below(900)];
        heard.answer("prove", ours::prove(s, v, &k, &mut room), &room);
    }
    let (v, w) = (version(random, s), version(random, s));
    let mut room = vec![random.byte(); random.below(30 * 72)];
    heard.answer("changes", ours::changes(s, v, w, random.below(60) as u32, &mut room), &room);
}

fn step(heard: &mut Heard, random: &mut Random, s: &mut [u8], keys: &[Bytes32]) {
    if random.one_in(5) {
        let v = version(random, s);
        let answer = ours::prune(s, v);
        heard.answer("prune", answer, &plain(s));
        return;
    }
    let mut batch = if random.one_in(8) { vec![] } else { cases::batch(random, keys) };
    if random.one_in(6) {
        cases::spoil(random, &mut batch);
    }
    let answer = ours::apply(s, u32_at(s, 16) + 1, &batch);
    heard.answer("apply", answer, &plain(s));
}

pub fn same(tally: &mut Tally) {
    let mut heard = Heard([0; 32]);
    for seed in 0..HISTORIES {
        let mut random = Random(seed.wrapping_mul(0x9E37_79B9_7F4A_7C15));
        let (keys, capacity) = match seed % 6 {
            0 => (cases::deep_keys(&mut random), 258 + random.below(500)),
            1 => (cases::keys(&mut random), 4 + random.below(12)),
            _ => (cases::keys(&mut random), 20 + random.below(80)),
        };
        let mut s = vec![random.byte(); HEADER + SLOT * capacity];
        let answer = ours::format(&mut s);
        heard.answer("format", answer, &plain(&s));
        for _ in 0..25 {
            step(&mut heard, &mut random, &mut s, &keys);
            looks(&mut heard, &mut random, &s, &keys);
        }
    }
    let hex: String = heard.0.iter().map(|b| format!("{b:02x}")).collect();
    tally.equal("the base's histories, each batch given latest + 1", 0, &hex[..], DIGEST);
}
