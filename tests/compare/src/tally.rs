//! What passed, what failed, and how often each call gave each answer.

use second::bytes::{HEADER, SLOT};
use second::Stopped;
use std::collections::BTreeMap;

#[derive(Default)]
pub struct Tally {
    pub passed: u64,
    pub failed: u64,
    /// How often each call gave each answer.
    pub answers: BTreeMap<String, u64>,
}

/// An answer in a word: the number of refusal, or what was accepted.
pub trait Word {
    fn word(&self) -> String;
}

impl Word for Result<(), u32> {
    fn word(&self) -> String {
        self.map_or_else(|n| n.to_string(), |()| "accepted".into())
    }
}

/// A refusal of a read: whether a slot stands beside the number, not which.
fn stopped(s: Stopped) -> String {
    if s.slot.is_some() {
        return format!("{} with a slot", s.number);
    }
    s.number.to_string()
}

impl Word for Result<[u8; 32], Stopped> {
    fn word(&self) -> String {
        self.map_or_else(stopped, |h| if h == [0; 32] { "zeros" } else { "hash" }.into())
    }
}

impl Word for Result<Option<[u8; 32]>, u32> {
    fn word(&self) -> String {
        self.map_or_else(|n| n.to_string(), |v| if v.is_some() { "present" } else { "absent" }.into())
    }
}

impl Word for Result<Option<[u8; 32]>, Stopped> {
    fn word(&self) -> String {
        self.map_or_else(stopped, |v| if v.is_some() { "present" } else { "absent" }.into())
    }
}

/// A number of grants: 2^32 and more is seen on damaged counts alone.
impl Word for Result<u64, Stopped> {
    fn word(&self) -> String {
        let number = |n: u64| if n == 0 { "0" } else if n >> 32 == 0 { "some" } else { "2^32 or more" };
        self.map_or_else(stopped, |n| number(n).into())
    }
}

impl Word for Result<([u8; 32], [u8; 32]), Stopped> {
    fn word(&self) -> String {
        self.map_or_else(stopped, |_| "a grant".into())
    }
}

impl Word for Result<u32, Stopped> {
    fn word(&self) -> String {
        self.map_or_else(|n| n.number.to_string(), |n| if n == 0 { "0" } else { "some" }.into())
    }
}

impl Word for Result<u32, u32> {
    fn word(&self) -> String {
        self.map_or_else(|n| n.to_string(), |n| if n == 0 { "0" } else { "some" }.into())
    }
}

/// A proof's length with the whole room: its kind and flags.
pub struct Proof;

impl Proof {
    pub fn word(answer: Result<u32, Stopped>, room: &[u8]) -> String {
        match answer {
            Err(s) => stopped(s),
            Ok(_) if room[4] == 16 => "presence".into(),
            Ok(_) => format!("absence {}", room[6]),
        }
    }
}

/// Apply's version, root and count of new records.
impl Word for Result<(u32, [u8; 32], u32), u32> {
    fn word(&self) -> String {
        self.map_or_else(|n| n.to_string(), |(_, _, count)| if count == 0 { "none new" } else { "some new" }.into())
    }
}

/// What is found of a proof.
impl Word for Result<second::forged::Finding, u32> {
    fn word(&self) -> String {
        self.map_or_else(|n| n.to_string(), |f| if f == second::forged::Finding::Nothing { "the truth" } else { "a finding" }.into())
    }
}

/// A rescue's first version and three numbers: whether every used slot was kept.
impl Word for Result<(u32, u32, u32, u32), u32> {
    fn word(&self) -> String {
        self.map_or_else(|n| n.to_string(), |(_, _, _, out)| if out == 0 { "all kept" } else { "some left out" }.into())
    }
}

/// The totals of a range: whether a record stands in more than one of its versions.
impl Word for Result<(u32, u32), u32> {
    fn word(&self) -> String {
        self.map_or_else(|n| n.to_string(), |(distinct, records)| if distinct == records { "each once" } else { "some in several" }.into())
    }
}

/// The first byte of a store that is not as the second program left it.
fn difference(ours: &[u8], second: &[u8]) -> Option<String> {
    let differ = ours.iter().zip(second).filter(|(a, b)| a != b).count();
    let at = ours.iter().zip(second).position(|(a, b)| a != b)?;
    let (x, y) = (ours[at], second[at]);
    let place = if at < HEADER { format!("header byte {at}") } else { format!("slot {} byte {}", (at - HEADER) / SLOT, (at - HEADER) % SLOT) };
    Some(format!("{place} is {x}, the second program's {y}; {differ} bytes differ"))
}

impl Tally {
    pub fn same<T: PartialEq + std::fmt::Debug + Word>(&mut self, what: &str, seed: u64, ours: T, second: T) {
        self.count(format!("{what} {}", second.word()));
        self.equal(what, seed, ours, second);
    }

    /// A call that writes: its answer, and every byte of the store after it.
    pub fn wrote<T: PartialEq + std::fmt::Debug + Word>(&mut self, call: &str, case: &str, seed: u64, ours: (T, &[u8]), second: (T, &[u8])) {
        self.count(format!("{call} {}", second.0.word()));
        assert_eq!(ours.1.len(), second.1.len());
        self.equal(&format!("{call}, {case}"), seed, (ours.0, difference(ours.1, second.1)), (second.0, None));
    }

    pub fn count(&mut self, answer: String) {
        *self.answers.entry(answer).or_default() += 1;
    }

    pub fn equal<T: PartialEq + std::fmt::Debug>(&mut self, what: &str, seed: u64, ours: T, second: T) {
        if ours == second {
            self.passed += 1;
        } else {
            self.failed += 1;
            if self.failed < 20 {
                println!("{what}, round seed {seed}: {ours:?}, the second program {second:?}");
            }
        }
    }
}
