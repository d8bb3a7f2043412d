//! 2026-08: how many records a rescue looks for; 2026-05: how many entries of a table a search looks at. The library is the one that is shipped, with a counter in
//! the function that looks for a node, and in the look at an entry.

#[path = "../../compare/src/cases.rs"]
#[allow(dead_code)]
mod cases;

use cases::Random;
use second::bytes::{put_slot, slot_bytes, u32_at, Body, Record};

extern "C" {
    static mut grants_looks: u64;
    static mut grants_entries: u64;
    static mut grants_most_entries: u64;
    fn grants_index(store: *const u8, len: usize, index: *mut u32, entries: usize) -> u32;
    fn grants_prove_indexed(
        store: *const u8,
        len: usize,
        index: *const u32,
        entries: usize,
        version: u32,
        key: *const u8,
        key_len: usize,
        room: *mut u8,
        room_len: usize,
        length: *mut [u8; 4],
    ) -> u64;
    fn grants_rescue(source: *const u8, source_len: usize, oldest: u32, latest: u32, target: *mut u8, target_len: usize, answer: *mut [u8; 16]) -> u32;
}

/// The number of refusal or 0, and the looks.
fn rescued(s: &[u8], oldest: u32, latest: u32) -> (u32, u64) {
    let mut target = vec![0; s.len()];
    let mut answer = [0; 16];
    unsafe {
        grants_looks = 0;
        let number = grants_rescue(s.as_ptr(), s.len(), oldest, latest, target.as_mut_ptr(), target.len(), &mut answer);
        (number, grants_looks)
    }
}

/// The most looks of a search while the proof of a key is made by a table.
fn searched(s: &[u8], table: &[u32], version: u32, key: &[u8]) -> u64 {
    let (mut room, mut length) = (vec![0; 17_080], [0; 4]);
    unsafe {
        (grants_entries, grants_most_entries) = (0, 0);
        grants_prove_indexed(s.as_ptr(), s.len(), table.as_ptr(), table.len(), version, key.as_ptr(), key.len(), room.as_mut_ptr(), room.len(), &mut length);
        grants_entries.max(grants_most_entries)
    }
}

struct Count {
    passed: u32,
    failed: u32,
    /// The most looks for a record.
    most: f64,
    /// The most looks of a search by a table.
    most_entries: u64,
}

impl Count {
    fn look(&mut self, name: &str, s: &[u8], oldest: u32, latest: u32) {
        let used = cases::taken(s) as u64;
        let (number, looks) = rescued(s, oldest, latest);
        if looks <= 6 * used && number <= 3 {
            self.passed += 1;
        } else {
            self.failed += 1;
            println!("{name}: {looks} looks for {used} records");
        }
        self.most = self.most.max(looks as f64 / used.max(1) as f64);
    }

    /// Each search halves: its looks are no more than the binary digits of the number of slots, whatever the table holds.
    fn search(&mut self, name: &str, random: &mut Random, s: &[u8], keys: &[[u8; 32]]) {
        let version = u32_at(s, 16);
        let mut table = vec![0; (s.len() - 24) / 128];
        let most = u64::from(table.len().ilog2() + 1);
        assert_eq!(unsafe { grants_index(s.as_ptr(), s.len(), table.as_mut_ptr(), table.len()) }, 0);
        let hostile: Vec<u32> = (0..table.len()).map(|_| random.below(table.len() + 1) as u32).collect();
        for key in keys {
            for (kind, table) in [("right", &table), ("hostile", &hostile)] {
                let looks = searched(s, table, version, key);
                if looks <= most {
                    self.passed += 1;
                } else {
                    self.failed += 1;
                    println!("{name}, a {kind} table: {looks} looks of a search in {} entries", table.len());
                }
                self.most_entries = self.most_entries.max(looks);
            }
        }
    }
}

fn tree(random: &mut Random, grants: usize) -> Vec<Record> {
    let mut all: Vec<([u8; 32], [u8; 32])> = (0..grants).map(|_| (random.hash(), random.hash())).collect();
    all.sort();
    second::tree::placing(&second::tree::make(&all, 1, &|_, _| None))
}

fn stored(latest: u32, records: &[Record]) -> Vec<u8> {
    let mut s = cases::fresh(records.len(), 1, latest);
    records.iter().enumerate().for_each(|(i, r)| put_slot(&mut s, i, &slot_bytes(r)));
    s
}

fn main() {
    let mut random = Random(6);
    let mut count = Count { passed: 0, failed: 0, most: 0.0, most_entries: 0 };
    for n in 0..2_000 {
        let (mut s, _) = cases::store(&mut random);
        let (oldest, latest) = (u32_at(&s, 12), u32_at(&s, 16));
        for _ in 0..n % 4 {
            cases::damage(&mut random, &mut s);
        }
        count.look("a history", &s, [0, oldest][n % 2], latest);
        let near = cases::near(&mut random, &s);
        count.look("a history up to a version", &s, 0, near);
    }
    // A tree alone; roots over one tree, as many as its nodes; a path of 256 inner nodes, renewed.
    count.look("a tree", &stored(1, &tree(&mut random, 1_000)), 0, 1);
    for (grants, roots) in [(800, 2_000), (1, 2_000)] {
        let mut records = tree(&mut random, grants);
        let root = records.pop().unwrap();
        records.extend((1..=roots).map(|v| Record { version: v, retired: if v == roots { 0 } else { v + 1 }, ..root }));
        count.look("roots over one tree", &stored(roots, &records), 0, roots);
        // Each root a thousand million versions after the one before would be the same work: numbers are never gone through.
        let apart = u32::MAX / roots;
        let far: Vec<Record> = records
            .iter()
            .map(|r| Record { version: if r.place.count == 0 { r.version * apart } else { 1 }, retired: r.retired * (r.place.count == 0) as u32 * apart, ..*r })
            .collect();
        count.look("roots far apart", &stored(u32::MAX, &far), 0, u32::MAX);
    }
    // Searches by a table, in small stores and in the largest.
    for _ in 0..200 {
        let (s, keys) = cases::store(&mut random);
        count.search("a history", &mut random, &s, &keys);
    }
    let full = tree(&mut random, 6_600);
    let keys: Vec<[u8; 32]> = full.iter().filter_map(|r| if let Body::Leaf { key, .. } = r.body { Some(key) } else { None }).take(200).collect();
    let s = cases::scattered(&mut random, &stored(1, &full), 16_384 - full.len());
    count.search("the largest store", &mut random, &s, &keys);
    println!("the most looks for a record: {:.2}", count.most);
    println!("the most looks of a search by a table: {}", count.most_entries);
    println!("{} passed, {} failed", count.passed, count.failed);
    std::process::exit((count.failed != 0) as i32);
}
