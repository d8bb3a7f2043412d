//! From how many reads on a table pays, by the size of a store: what a read by scans takes, what building the table takes, and what a read by it takes.
//! cargo run --release --example lookup

use grants::{Batch, Index, Store};
use std::time::Instant;

fn filled(capacity: u32) -> (Store<Vec<u8>>, Vec<[u8; 32]>) {
    let mut store = Store::with_capacity(capacity).expect("a capacity");
    let (mut keys, mut n) = (vec![], 0u32);
    loop {
        let mut batch = Batch::new();
        let mut more = vec![];
        for _ in 0..(capacity / 40).clamp(1, 1_000) {
            n += 1;
            let key = grants::sha256(&n.to_le_bytes());
            batch.insert(key, [7; 32]).expect("each key once");
            more.push(key);
        }
        if store.apply_next(&batch).is_err() {
            return (store, keys);
        }
        let latest = store.header().expect("a store").latest;
        store.prune(latest).expect("sound");
        keys.extend(more);
    }
}

/// Microseconds of the quickest of some runs.
fn micros<T>(runs: usize, mut work: impl FnMut() -> T) -> f64 {
    let run = |_| {
        let begun = Instant::now();
        std::hint::black_box(work());
        begun.elapsed().as_secs_f64() * 1e6
    };
    (0..runs).map(run).fold(f64::MAX, f64::min)
}

fn main() {
    println!("{:>6} {:>7} {:>9} {:>9} {:>9} {:>9} {:>9} {:>12}", "slots", "grants", "root", "get", "prove", "build", "get by it", "reads to pay");
    for capacity in [32, 64, 128, 256, 512, 1_024, 2_048, 4_096, 8_192, 16_384] {
        let (store, keys) = filled(capacity);
        let version = store.header().expect("a store").latest;
        let index = Index::of(&store).expect("sound");
        let some: Vec<_> = keys.iter().step_by(keys.len().div_ceil(50)).collect();
        let each = some.len() as f64;
        let root = micros(9, || store.root(version));
        let get = micros(9, || some.iter().filter(|key| store.get(version, key).is_ok()).count()) / each;
        let prove = micros(9, || some.iter().filter(|key| store.prove(version, key).is_ok()).count()) / each;
        let build = micros(9, || Index::of(&store));
        let by_it = micros(9, || some.iter().filter(|key| index.get(&store, version, key).is_ok()).count()) / each;
        println!(
            "{capacity:>6} {:>7} {root:>9.1} {get:>9.1} {prove:>9.1} {build:>9.1} {by_it:>9.1} {:>12.1}",
            keys.len(),
            build / (get - by_it).max(0.001)
        );
    }
}
