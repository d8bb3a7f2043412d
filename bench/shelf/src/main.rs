//! The figures of a shelf of 256 parts: building it, publishing 1,000 scattered and 1,000 neighbouring changes, proofs and their check beside a single store. Arguments:
//! numbers of grants.

#[path = "../../../tests/common/bars.rs"]
#[allow(dead_code)]
mod bars;

use grants::{sha256, shelf_verify, verify, Batch, Key, Made, Proof, Root, Rounds, Shelf, ShelfError, Store, MOST_SLOTS};
use std::path::{Path, PathBuf};
use std::time::{Duration, Instant};

const BITS: u32 = 8;
const LIST_SLOTS: u32 = 4_096;
const CHANGES: u64 = 1_000;
const PROOFS: u64 = 2_000;
/// Of so many, no part gets more than one publishing takes.
const AT_ONCE: u64 = 200_000;

/// The most that the check of a shelf's proof may take beside the checks of its two parts.
const SHELF_BAR: f64 = 1.15;

/// Keys are hashes, as a publisher's are.
fn key(n: u64) -> Key {
    Key::from(sha256(&n.to_le_bytes()))
}

fn value(n: u64) -> [u8; 32] {
    sha256(&(!n).to_le_bytes())
}

fn ms(time: Duration) -> String {
    format!("{:.1} ms", time.as_secs_f64() * 1e3)
}

fn us(time: Duration, times: u64) -> String {
    format!("{:.1} us", time.as_secs_f64() * 1e6 / times as f64)
}

/// The least time of seven for each few of the items, so that what else the machine does counts little.
fn best<T>(items: &[T], work: impl Fn(&T)) -> Duration {
    let few = items.chunks(20).map(|few| {
        let times = (0..7).map(|_| {
            let start = Instant::now();
            few.iter().for_each(&work);
            start.elapsed()
        });
        times.min().unwrap_or_default()
    });
    few.sum()
}

/// The most memory that the process has had, in megabytes.
fn memory() -> u64 {
    let status = std::fs::read_to_string("/proc/self/status").unwrap_or_default();
    let line = status.lines().find_map(|line| line.strip_prefix("VmHWM:"));
    let kb = line.and_then(|line| line.split_whitespace().next()?.parse::<u64>().ok());
    kb.unwrap_or(0) / 1024
}

/// Publishes, and how long it took: parts that changed, bytes written for parts and list.
fn publish(shelf: &mut Shelf, batch: &Batch) -> Result<(Made, Duration, usize), ShelfError> {
    let start = Instant::now();
    let rounds = Rounds::of(shelf.bits(), &batch.to_bytes())?;
    let latest = shelf.header().latest;
    let numbers: Vec<u32> = (1..=rounds.len() as u32).map(|n| latest + n).collect();
    let made = shelf.make(&rounds, &numbers, true)?;
    shelf.take(&made.list)?;
    Ok((made, start.elapsed(), rounds.len()))
}

fn told(name: &str, shelf: &Shelf, done: &(Made, Duration, usize)) {
    let (made, time, rounds) = done;
    let list = shelf.list().as_bytes().len() as u64;
    println!(
        "  {name}: {}, {} parts changed, {} bytes written ({rounds} publishing{})",
        ms(*time),
        made.parts,
        made.bytes + list,
        if *rounds == 1 { "" } else { "s" }
    );
}

fn changes(keys: impl Iterator<Item = Key>, salt: u64) -> Batch {
    let mut batch = Batch::new();
    for key in keys {
        batch.put(key, value(salt));
    }
    batch
}

/// Proofs of keys that are there and of keys that aren't, each drawn by itself and then checked.
fn proofs(shelf: &Shelf, grants: u64) -> Result<(), ShelfError> {
    let version = shelf.header().latest;
    let root = shelf.root(version)?;
    for (what, from, present) in [("present", 0, true), ("absent", grants * 2, false)] {
        let keys: Vec<Key> = (from..from + PROOFS).map(|n| key(n * (grants / PROOFS).max(1))).collect();
        let few = &keys[..200];
        let start = Instant::now();
        for key in few {
            shelf.prove(version, key)?;
        }
        let single = start.elapsed();
        let start = Instant::now();
        let rows: Result<Vec<_>, _> = keys.chunks(256).map(|keys| shelf.palette(version, keys)).collect();
        let rows = rows?;
        let row = start.elapsed();
        let pieces: Vec<&[u8]> = rows.iter().flat_map(|row| grants::shelf_pieces(row.as_bytes())).collect();
        let both: Vec<(&Key, &[u8])> = keys.iter().zip(pieces.iter().copied()).collect();
        let checked = best(&both, |(key, piece)| {
            assert_eq!(shelf_verify(root, BITS, key, piece).map(|found| found.is_some()), Ok(present));
        });
        if present {
            beside_two_checks(&format!("{grants}"), root, &both);
        }
        let (sum, most) = (pieces.iter().map(|p| p.len()).sum::<usize>(), pieces.iter().map(|p| p.len()).max());
        println!(
            "  {what}: proofs of {} bytes in the mean, {} at most; prove {}, in rows of 256 {}; verify {}",
            sum / pieces.len(),
            most.unwrap_or(0),
            us(single, few.len() as u64),
            us(row, PROOFS),
            us(checked, PROOFS)
        );
    }
    Ok(())
}

/// The check of a shelf's proofs beside its two parts, each by the check of one store: of the list's record for the part's key, and of the part's record under the value of the first.
fn beside_two_checks(name: &str, root: Root, both: &[(&Key, &[u8])]) {
    let cut: Vec<_> = both
        .iter()
        .map(|(key, piece)| {
            let (first, second) = piece.split_at(u32::from_le_bytes(piece[..4].try_into().unwrap()) as usize);
            let mut part = [0; 32];
            part[0] = key.as_ref()[0];
            (Key::from(part), Proof::from_bytes(first), *key, Proof::from_bytes(second))
        })
        .collect();
    let whole = || bars::milliseconds(&mut || both.iter().for_each(|(key, piece)| assert!(shelf_verify(root, BITS, key, piece).unwrap().is_some())));
    let parts = || {
        bars::milliseconds(&mut || {
            for (part, first, key, second) in &cut {
                let under = verify(root, part, first).unwrap().expect("the part is there");
                assert!(verify(under, key, second).unwrap().is_some());
            }
        })
    };
    bars::beside(&format!("shelf-verify-{name}-beside-two-checks"), 15, SHELF_BAR, whole, parts);
}

/// Eight slots for each grant of a part, and so room for some publishings.
fn slots(grants: u64) -> u32 {
    let part = grants as u32 >> BITS;
    (part * 8).next_power_of_two().clamp(256, MOST_SLOTS)
}

fn shelf(folder: &Path, grants: u64) -> Result<(), ShelfError> {
    let slots = slots(grants);
    let mut shelf = Shelf::create(folder, BITS, slots, LIST_SLOTS)?;
    println!("{grants} grants in {} parts of {slots} slots, a list of {LIST_SLOTS}:", shelf.bits().parts());
    let (start, mut publishings) = (Instant::now(), 0);
    for first in (0..grants).step_by(AT_ONCE as usize) {
        let mut batch = Batch::new();
        for n in first..grants.min(first + AT_ONCE) {
            batch.put(key(n), value(n));
        }
        publish(&mut shelf, &batch)?;
        shelf.prune(shelf.header().latest)?;
        publishings += 1;
    }
    println!("  build: {}, {publishings} publishings, each pruned", ms(start.elapsed()));
    let built_memory = memory();
    let spread = (grants / CHANGES).max(1);
    let scattered = publish(&mut shelf, &changes((0..CHANGES).map(|n| key(n * spread)), 1))?;
    told("1,000 scattered changes", &shelf, &scattered);
    let mut near: Vec<Key> = (0..grants).map(key).collect();
    near.sort_unstable();
    let neighbouring = publish(&mut shelf, &changes(near[..CHANGES as usize].iter().copied(), 2))?;
    told("1,000 neighbouring changes", &shelf, &neighbouring);
    let one = publish(&mut shelf, &changes([key(7)].into_iter(), 3))?;
    told("1 change", &shelf, &one);
    proofs(&shelf, grants)?;
    let start = Instant::now();
    shelf.check()?;
    println!("  check of all of it: {}", ms(start.elapsed()));
    println!("  memory: {built_memory} MB at most while it was built, with the batch in it");
    Ok(())
}

/// One store with as many grants as fit, beside it.
fn store() -> Result<(), grants::Error> {
    let grants = 6_000;
    let mut store = Store::with_capacity(MOST_SLOTS)?;
    let mut number = 0;
    let mut batch = Batch::new();
    for n in 0..grants {
        batch.put(key(n), value(n));
    }
    let start = Instant::now();
    for batch in batch.split() {
        number += 1;
        store.apply(number, &batch)?;
        store.prune(number)?;
    }
    println!("{grants} grants in one store of {MOST_SLOTS} slots:\n  build: {}", ms(start.elapsed()));
    let root = store.root(number)?;
    for (what, from) in [("present", 0), ("absent", 10 * grants)] {
        let keys: Vec<Key> = (from..from + PROOFS).map(key).collect();
        let start = Instant::now();
        let proofs: Result<Vec<_>, _> = keys.iter().map(|key| store.prove(number, key)).collect();
        let proofs = proofs?;
        let proved = start.elapsed();
        let both: Vec<_> = keys.iter().zip(&proofs).collect();
        let checked = best(&both, |(key, proof)| {
            verify(root, key, proof).expect("a proof");
        });
        let sum: usize = proofs.iter().map(|proof| proof.as_bytes().len()).sum();
        println!("  {what}: proofs of {} bytes in the mean; prove {}; verify {}", sum / proofs.len(), us(proved, PROOFS), us(checked, PROOFS));
    }
    Ok(())
}

fn main() {
    let asked: Vec<u64> = std::env::args().skip(1).filter_map(|word| word.parse().ok()).collect();
    let asked = if asked.is_empty() { vec![10_000, 100_000, 1_000_000] } else { asked };
    store().expect("a store");
    for grants in asked {
        let folder: PathBuf = std::env::temp_dir().join(format!("grants-shelf-{}", std::process::id()));
        let done = shelf(&folder, grants);
        let _ = std::fs::remove_dir_all(&folder);
        done.expect("a shelf");
    }
    bars::end();
}
