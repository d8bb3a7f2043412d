//! The most stack that a call takes.

use crate::cases;
use second::bytes::{ask_bytes, Ask, HEADER, SLOT};
use second::{Bytes32, ZEROS};
use std::hint::black_box;

const PAINTED: usize = 2 << 20;

/// Each call takes less.
pub const BAR: usize = 256 * 1024;

/// The deepest byte below this frame that a call writes: the thread's stack is painted first, and looked at afterwards.
#[inline(never)]
fn depth(call: &dyn Fn()) -> usize {
    let here = 0u8;
    let top = black_box(&here as *const u8 as usize) - 512;
    for at in top - PAINTED..top {
        unsafe { std::ptr::write_volatile(at as *mut u8, 0x5A) };
    }
    call();
    let kept = (top - PAINTED..top).take_while(|&at| unsafe { std::ptr::read_volatile(at as *const u8) } == 0x5A).count();
    PAINTED - kept + 512
}

pub fn most(call: impl Fn() + Send + 'static) -> usize {
    std::thread::Builder::new().stack_size(2 * PAINTED).spawn(move || depth(&call)).unwrap().join().unwrap()
}

/// Stores with batches that apply accepts and that reach down to 256 bits: two keys, and 257 keys that part from one key at each bit.
fn deepest_batches() -> Vec<(String, Vec<u8>, Vec<u8>)> {
    let parted = |at: usize| {
        let mut k = ZEROS;
        k[at / 8] ^= 0x80 >> (at % 8);
        k
    };
    let two = vec![ZEROS, parted(255)];
    let chain: Vec<Bytes32> = [ZEROS].into_iter().chain((0..256).rev().map(parted)).collect();
    let batch = |keys: &[Bytes32], value: Option<Bytes32>| -> Vec<u8> { keys.iter().flat_map(|k| ask_bytes(&Ask { key: *k, value })).collect() };
    let mut out = vec![];
    for keys in [two, chain] {
        let fresh = cases::fresh(1_100, 0, 0);
        let mut grown = fresh.clone();
        second::apply(&mut grown, 1, &batch(&keys, Some([1; 32]))).unwrap();
        let mut alone = grown.clone();
        second::apply(&mut alone, 2, &batch(&keys[1..], None)).unwrap();
        for (what, s, b) in [
            ("inserts-all", &fresh, batch(&keys, Some([1; 32]))),
            ("changes-all", &grown, batch(&keys, Some([2; 32]))),
            ("changes-one", &grown, batch(&keys[..1], Some([2; 32]))),
            ("deletes-all-but-one", &grown, batch(&keys[1..], None)),
            ("deletes-all", &grown, batch(&keys, None)),
            ("splits-the-root", &alone, batch(&keys[1..2], Some([2; 32]))),
        ] {
            out.push((format!("{what}-of-{}", keys.len()), s.clone(), b));
        }
    }
    out
}

/// Prove's most: absence proofs with two neighbours at 256 bits, 17,080 bytes long.
#[allow(dead_code)]
pub fn of_prove() -> usize {
    let key = |last: u8| {
        let mut k = ZEROS;
        k[31] = last;
        k
    };
    let mut s = cases::fresh(600, 0, 0);
    let asks: Vec<u8> = [0, 1, 6, 7].iter().flat_map(|&l| ask_bytes(&Ask { key: key(l), value: Some([1; 32]) })).collect();
    second::apply(&mut s, 1, &asks).unwrap();
    most(move || assert_eq!(crate::ours::prove(&s, 1, &key(3), &mut vec![0; 17_080]), Ok(17_080)))
}

/// A palette's most: eight of those.
#[allow(dead_code)]
pub fn of_palette() -> usize {
    let key = |last: u8| {
        let mut k = ZEROS;
        k[31] = last;
        k
    };
    let mut s = cases::fresh(600, 0, 0);
    let asks: Vec<u8> = [0, 1, 6, 7].iter().flat_map(|&l| ask_bytes(&Ask { key: key(l), value: Some([1; 32]) })).collect();
    second::apply(&mut s, 1, &asks).unwrap();
    // Eight keys: from there on a palette guesses where all children stand.
    let list = [key(3), key(4)].concat().repeat(4);
    most(move || assert_eq!(crate::ours::palette(&s, 1, &list, &mut vec![0; 4 * 34_160]), Ok(4 * 34_160)))
}

/// The number's, and a position's at 256 bits.
#[allow(dead_code)]
pub fn of_positions() -> [(&'static str, usize); 2] {
    let (s, t) = (deepest_two(), deepest_two());
    let count = most(move || assert_eq!(crate::ours::count(&s, 2), Ok(2)));
    [("count", count), ("at", most(move || assert_eq!(crate::ours::at(&t, 2, 1).map(|g| g.1), Ok([2; 32]))))]
}

/// Many proofs': a row of 256, of any proofs.
#[allow(dead_code)]
pub fn of_verify_many() -> usize {
    let mut piece = vec![72, 0, 0, 0, 16, 0, 0, 0];
    piece.resize(72, 0);
    let row = piece.repeat(256);
    most(move || assert_eq!(crate::ours::verify_many(&ZEROS, &[0; 256 * 32], &row, &mut vec![0; 256 * 34]), Ok(())))
}

/// Check's and prune's: both hold the arrays of the passes, whatever the store.
#[allow(dead_code)]
pub fn of_check_and_prune() -> [(&'static str, usize); 2] {
    let mut s = cases::fresh(600, 0, 0);
    let asks: Vec<u8> = [1, 2].iter().flat_map(|&l| ask_bytes(&Ask { key: [l; 32], value: Some([l; 32]) })).collect();
    second::apply(&mut s, 1, &asks).unwrap();
    let t = s.clone();
    let check = most(move || assert!(crate::ours::check(&t).is_ok()));
    [("check", check), ("prune", most(move || assert!(crate::ours::prune(&mut s.clone(), 1).is_ok())))]
}

/// Two keys that part at the last bit, both given another value in version 2.
#[allow(dead_code)]
fn deepest_two() -> Vec<u8> {
    let key = |last: u8| {
        let mut k = ZEROS;
        k[31] = last;
        k
    };
    let batch = |value: u8| -> Vec<u8> { [0, 1].iter().flat_map(|&l| ask_bytes(&Ask { key: key(l), value: Some([value; 32]) })).collect() };
    let mut s = cases::fresh(600, 0, 0);
    second::apply(&mut s, 1, &batch(1)).unwrap();
    second::apply(&mut s, 2, &batch(2)).unwrap();
    s
}

/// A comparison's most: of a sound store, and of one that check refuses, which then has all of its arrays below the room lent to it.
pub fn of_changes() -> usize {
    let s = deepest_two();
    let mut harmed = s.clone();
    harmed[HEADER + SLOT - 1] ^= 1;
    let sound = most(move || assert_eq!(crate::ours::changes(&s, 1, 2, u32::MAX, &mut vec![0; 288]), Ok(4)));
    sound.max(most(move || assert!(crate::ours::changes(&harmed, 1, 2, u32::MAX, &mut vec![0; 288]).is_err())))
}

/// The figures' most: two versions, what lives at one of them listed.
#[allow(dead_code)]
pub fn of_figures() -> usize {
    let s = deepest_two();
    most(move || assert!(crate::ours::figures(&s, 1, 2, &mut vec![0; 32]).is_ok()))
}

/// A finding's most of a true proof: an absence proof with two neighbours at 256 bits. With SHA-256 no proof leads to the search.
#[allow(dead_code)]
pub fn of_finding() -> usize {
    let key = |last: u8| {
        let mut k = ZEROS;
        k[31] = last;
        k
    };
    let mut s = cases::fresh(600, 0, 0);
    let asks: Vec<u8> = [0, 1, 6, 7].iter().flat_map(|&l| ask_bytes(&Ask { key: key(l), value: Some([1; 32]) })).collect();
    second::apply(&mut s, 1, &asks).unwrap();
    let mut proof = vec![0; 17_080];
    assert_eq!(crate::ours::prove(&s, 1, &key(3), &mut proof), Ok(17_080));
    most(move || assert_eq!(crate::ours::finding(&s, 1, &key(3), &proof), Ok(second::forged::Finding::Nothing)))
}

/// A message's most, written and read: an absence with two neighbours of 256 steps and the longest raw parts.
#[allow(dead_code)]
pub fn of_messages() -> [(&'static str, usize); 2] {
    use second::message::{message, Leaf};
    use second::proof::{absence_bytes, Presence, Step};
    use second::sha256::sha256;
    let (key, value) = (vec![5; 256], vec![6; 4_096]);
    let steps = vec![Step { side: false, sibling: [7; 32] }; 256];
    let leaf = Presence { key: sha256(&key), value: sha256(&value), steps };
    let record = absence_bytes(&sha256(&key), Some(&leaf), Some(&leaf));
    let lent = Leaf { key: &key, value: &value };
    let m = message(&record, &key, lent, lent).unwrap();
    assert_eq!(m.len(), 29_999);
    let (k, v) = (key.clone(), value.clone());
    let write = most(move || {
        let lent = Leaf { key: &k, value: &v };
        assert_eq!(crate::ours::ics23_write(&record, &k, lent, lent, &mut vec![0; 29_999]), Ok(29_999))
    });
    [("ics23_write", write), ("ics23_read", most(move || assert!(crate::ours::ics23_read(&m, &mut vec![0; 17_080]).is_ok())))]
}

/// A rescue's most: the same two versions, so that both trees are walked to the last bit.
#[allow(dead_code)]
pub fn of_rescue() -> usize {
    let s = deepest_two();
    most(move || assert_eq!(crate::ours::rescue(&s, 0, 2, &mut vec![0; s.len()]).map(|r| r.0), Ok(1)))
}

/// A move's most, over and back: the same two versions.
#[allow(dead_code)]
pub fn of_moves() -> [(&'static str, usize); 2] {
    let s = deepest_two();
    let slots = (s.len() - second::bytes::HEADER) / second::bytes::SLOT;
    let mut old = vec![0; second::bytes::HEADER + second::bytes::Form::Plain.slot() * slots];
    second::back(&s, &mut old).unwrap();
    let (t, o) = (s.clone(), old.clone());
    let back = most(move || assert_eq!(crate::ours::back(&t, &mut vec![0; o.len()]), Ok(())));
    let over = most(move || assert_eq!(crate::ours::over(&old, &mut vec![0; s.len()]), Ok(())));
    [("over", over), ("back", back)]
}

/// Apply's for each of those.
pub fn of_apply() -> Vec<(String, usize)> {
    let each = |(name, s, b): (String, Vec<u8>, Vec<u8>)| {
        let next = cases::next(&s);
        assert!(second::apply(&mut s.clone(), next, &b).is_ok());
        (name, most(move || assert!(crate::ours::apply(&mut s.clone(), next, &b).is_ok())))
    };
    deepest_batches().into_iter().map(each).collect()
}

/// Apply's with a table for each of those, and prune's and a palette's with a table.
#[allow(dead_code)]
pub fn of_indexed() -> Vec<(String, usize)> {
    let tabled = |s: &[u8]| {
        let mut table = vec![0; (s.len() - HEADER) / SLOT];
        assert!(crate::ours::index(s, &mut table).is_ok());
        table
    };
    let mut out = vec![];
    for (name, s, b) in deepest_batches() {
        let (next, table) = (cases::next(&s), tabled(&s));
        out.push((format!("apply-indexed-{name}"), most(move || assert!(crate::ours::apply_indexed(&mut s.clone(), &mut table.clone(), next, &b).is_ok()))));
    }
    let (s, t) = (deepest_two(), deepest_two());
    let (table, other) = (tabled(&s), tabled(&t));
    out.push(("prune-indexed".into(), most(move || assert!(crate::ours::prune_indexed(&mut s.clone(), &mut table.clone(), 1).is_ok()))));
    let list = ZEROS.repeat(8);
    out.push(("palette-indexed".into(), most(move || assert!(crate::ours::palette_indexed(&t, &other, 2, &list, &mut vec![0; 8 * 17_080]).is_ok()))));
    out
}
