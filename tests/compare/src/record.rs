//! Every call of the library with the bytes it was lent, before and after, written down so that another build of it can be held to the same.
//!
//! A call is its name (a length of one byte first), how many arguments it has (one byte), each argument, and the number that it returned. An
//! argument is a letter and: `n` a number; `l` a long one; `r` a slice that is read, `w` one that is written, `t` a table that is read, `k` one that is kept, `a` an array that is
//! written: its length (of a table its entries, of four bytes each), its bytes before the call, and those after it unless it is read only. Numbers have four bytes, long ones and what was
//! returned eight, little-endian.

use std::fs::File;
use std::io::{BufWriter, Write};
use std::sync::atomic::{AtomicUsize, Ordering};
use std::sync::{Mutex, OnceLock};

static TO: OnceLock<Mutex<BufWriter<File>>> = OnceLock::new();
static APPLIES: AtomicUsize = AtomicUsize::new(0);
static RESCUES: AtomicUsize = AtomicUsize::new(0);
static POSITIONS: AtomicUsize = AtomicUsize::new(0);
static TABLED: AtomicUsize = AtomicUsize::new(0);

pub struct Argument {
    letter: u8,
    at: *const u8,
    number: u64,
}

pub fn number(n: u32) -> Argument {
    Argument { letter: b'n', at: std::ptr::null(), number: n as u64 }
}

pub fn long(n: u64) -> Argument {
    Argument { letter: b'l', at: std::ptr::null(), number: n }
}

pub fn read(slice: &[u8]) -> Argument {
    Argument { letter: b'r', at: slice.as_ptr(), number: slice.len() as u64 }
}

pub fn written(slice: &[u8]) -> Argument {
    Argument { letter: b'w', ..read(slice) }
}

pub fn table(entries: &[u32]) -> Argument {
    Argument { letter: b't', at: entries.as_ptr() as *const u8, number: entries.len() as u64 }
}

pub fn kept(entries: &[u32]) -> Argument {
    Argument { letter: b'k', ..table(entries) }
}

pub fn array<const N: usize>(at: *const [u8; N]) -> Argument {
    Argument { letter: b'a', at: at as *const u8, number: N as u64 }
}

impl Argument {
    fn bytes(&self) -> &[u8] {
        if self.at.is_null() {
            return &[];
        }
        let entry = if matches!(self.letter, b't' | b'k') { 4 } else { 1 };
        unsafe { std::slice::from_raw_parts(self.at, entry * self.number as usize) }
    }
}

/// From now on each call is written to this file.
pub fn start(name: &str) {
    let file = File::create(name).expect("a file to write calls to");
    assert!(TO.set(Mutex::new(BufWriter::new(file))).is_ok());
}

pub fn running() -> bool {
    TO.get().is_some()
}

pub fn end() {
    if let Some(to) = TO.get() {
        to.lock().unwrap().flush().expect("room for the calls");
    }
}

/// The call's answer, written down where that was asked for; of the applies and rescues, which are most of all calls and the longest, and of the reads by
/// counts, of which there are very many on each store, some; so of comparisons, and of the reads by a table.
pub fn recorded<T: Copy + Into<u64>>(name: &str, arguments: &[Argument], call: impl FnOnce() -> T) -> T {
    let Some(to) = TO.get() else { return call() };
    let passed_over = match name {
        "apply" => APPLIES.fetch_add(1, Ordering::Relaxed) % 4 != 0,
        "rescue" => RESCUES.fetch_add(1, Ordering::Relaxed) % 25 != 0,
        "count" | "at" => POSITIONS.fetch_add(1, Ordering::Relaxed) % 11 != 0,
        "changes" | "root_indexed" | "get_indexed" | "count_indexed" | "at_indexed" | "prove_indexed" => {
            TABLED.fetch_add(1, Ordering::Relaxed) % 7 != 0
        }
        _ => false,
    };
    if passed_over {
        return call();
    }
    let before: Vec<Vec<u8>> = arguments.iter().map(|a| a.bytes().to_vec()).collect();
    let answer = call();
    let mut line = vec![name.len() as u8];
    line.extend(name.as_bytes());
    line.push(arguments.len() as u8);
    for (a, before) in arguments.iter().zip(&before) {
        line.push(a.letter);
        let bytes = a.number.to_le_bytes();
        line.extend(if a.letter == b'l' { &bytes[..] } else { &bytes[..4] });
        line.extend(before);
        if matches!(a.letter, b'w' | b'a' | b'k') {
            line.extend(a.bytes());
        }
    }
    line.extend(answer.into().to_le_bytes());
    to.lock().unwrap().write_all(&line).expect("room for the calls");
    answer
}
