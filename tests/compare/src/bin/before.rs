//! The library of another commit beside this one, in one run: `before BEFORE AFTER`, two shared libraries, the first of the form of 01. The same records
//! in both forms, runs of the two in turn, the best of each in processor time, the mean of four stores. A line `before NAME ratio R after Ams before Bms` for
//! each; it fails above 1.12, the bar of request 2026-09.

#[path = "../cases.rs"]
#[allow(dead_code)]
mod cases;

use cases::Random;
use second::bytes::{ask_bytes, store, store_bytes, Ask, Body, Form, Slot, MOST_ASKS};
use second::calls::apply_to_sound;
use std::collections::BTreeMap;
use std::ffi::{c_char, c_int, c_void, CString};

extern "C" {
    fn dlopen(name: *const c_char, flags: c_int) -> *mut c_void;
    fn dlsym(library: *mut c_void, name: *const c_char) -> *mut c_void;
    fn clock_gettime(clock: c_int, time: *mut Time) -> c_int;
}

type Check = extern "C" fn(*const u8, usize) -> u32;
type Apply = extern "C" fn(*mut u8, usize, u32, *const u8, usize, *mut [u8; 40]) -> u32;

/// The calls that are measured, of one library.
struct Library {
    check: Check,
    apply: Apply,
}

impl Library {
    fn open(name: &str) -> Library {
        const NOW: c_int = 2;
        let name = CString::new(name).unwrap();
        // SAFETY: the library's exports have these types; include/grants.h says so.
        unsafe {
            let library = dlopen(name.as_ptr(), NOW);
            assert!(!library.is_null(), "{name:?} can not be loaded");
            let of = |call: &str| {
                let at = dlsym(library, CString::new(call).unwrap().as_ptr());
                assert!(!at.is_null(), "{name:?} has no {call}");
                at
            };
            Library { check: std::mem::transmute::<*mut c_void, Check>(of("grants_check")), apply: std::mem::transmute::<*mut c_void, Apply>(of("grants_apply")) }
        }
    }
}

#[repr(C)]
struct Time {
    seconds: i64,
    nanoseconds: i64,
}

/// The processor time of this thread so far, which other work on the machine disturbs less than the clock's.
fn spent() -> f64 {
    const THREAD_CPU_TIME: c_int = 3;
    let mut t = Time { seconds: 0, nanoseconds: 0 };
    // SAFETY: the call writes one such struct.
    assert_eq!(unsafe { clock_gettime(THREAD_CPU_TIME, &mut t) }, 0);
    t.seconds as f64 * 1e3 + t.nanoseconds as f64 / 1e6
}

fn milliseconds(call: &mut dyn FnMut()) -> f64 {
    let start = spent();
    call();
    spent() - start
}

/// The same records in the form of 01.
fn plain(s: &[u8]) -> Vec<u8> {
    let mut st = store(s).unwrap();
    st.form = Form::Plain;
    for slot in &mut st.slots {
        if let Slot::Used(r) = slot {
            if let Body::Inner(children) = &mut r.body {
                children.iter_mut().for_each(|c| c.leaves = 0);
            }
        }
    }
    store_bytes(&st)
}

fn filled(random: &mut Random, capacity: usize, most: usize) -> (Vec<u8>, Vec<[u8; 32]>) {
    let mut s = cases::fresh(capacity, 0, 0);
    let mut keys: Vec<[u8; 32]> = vec![];
    while cases::taken(&s) < most {
        let batch = batch(random, &mut keys, capacity / 64);
        let next = cases::next(&s);
        if apply_to_sound(&mut s, next, &batch).is_err() {
            break;
        }
    }
    (s, keys)
}

/// A third of the records over keys that are there.
fn batch(random: &mut Random, keys: &mut Vec<[u8; 32]>, size: usize) -> Vec<u8> {
    let mut asks = vec![];
    for _ in 0..size {
        let key = if keys.len() > 8 && random.one_in(3) { keys[random.below(keys.len())] } else { random.hash() };
        keys.push(key);
        asks.push(Ask { key, value: Some(random.hash()) });
    }
    asks.sort_by_key(|a| a.key);
    asks.dedup_by_key(|a| a.key);
    asks.iter().flat_map(ask_bytes).collect()
}

/// What all stores together took, after and before.
#[derive(Default)]
struct Took {
    after: f64,
    before: f64,
}

fn main() {
    let mut words = std::env::args().skip(1);
    let [before, after] = [(); 2].map(|_| Library::open(&words.next().expect("two libraries")));
    let mut all: BTreeMap<(usize, &str), Took> = BTreeMap::new();
    let mut compare = |capacity: usize, name: &'static str, old: &[u8], new: &[u8], call: &dyn Fn(&Library, &mut [u8]) -> u32| {
        let (mut a, mut b) = (f64::MAX, f64::MAX);
        let (mut x, mut y) = (new.to_vec(), old.to_vec());
        for _ in 0..if capacity > 2_000 { 60 } else { 600 } {
            for (library, s, t, best) in [(&after, new, &mut x, &mut a), (&before, old, &mut y, &mut b)] {
                t.copy_from_slice(s);
                *best = best.min(milliseconds(&mut || assert_eq!(call(library, t), 0, "{name}")));
            }
        }
        let took = all.entry((capacity, name)).or_default();
        took.after += a;
        took.before += b;
    };
    for capacity in [1_024, 16_384] {
        for seed in 53..57 {
            let mut random = Random(seed);
            let (s, _) = filled(&mut random, capacity, capacity);
            compare(capacity, "check-full", &plain(&s), &s, &|l, s| (l.check)(s.as_ptr(), s.len()));
            let (s, mut keys) = filled(&mut random, capacity, capacity / 2);
            let old = plain(&s);
            compare(capacity, "check-half-full", &old, &s, &|l, s| (l.check)(s.as_ptr(), s.len()));
            let next = cases::next(&s);
            for (name, size) in [("apply-1-record", 1), ("apply-64-records", 64), ("apply-as-many-as-fit-up-to-1024", MOST_ASKS)] {
                let mut few = size;
                let b = loop {
                    let b = batch(&mut random, &mut keys, few);
                    if apply_to_sound(&mut s.clone(), next, &b).is_ok() {
                        break b;
                    }
                    few = few * 3 / 4;
                };
                compare(capacity, name, &old, &s, &|l, s| (l.apply)(s.as_mut_ptr(), s.len(), next, b.as_ptr(), b.len(), &mut [0; 40]));
            }
        }
    }
    let mut most = 0f64;
    for ((capacity, name), Took { after, before }) in all {
        println!("before {name}-{capacity} ratio {:.3} after {:.4}ms before {:.4}ms", after / before, after / 4.0, before / 4.0);
        most = most.max(after / before);
    }
    if most > 1.12 {
        println!("before: a call takes more than 1.12 times as long as before");
        std::process::exit(1);
    }
}
