//! Stores that make finding by scans slow, and the bars that a palette, a rescue and a comparison keep on them all the same, beside check on the same store.

use crate::cases::{self, Random};
use crate::ours;
use second::bytes::{ask_bytes, put_slot, slot_bytes, Ask, Body, Place, Record, Slot};
use second::calls::apply_to_sound;
use second::Bytes32;

const CAPACITY: usize = 16_384;
const PALETTE_BAR: f64 = 12.0;
const RESCUE_BAR: f64 = 6.0;
const CHANGES_BAR: f64 = 4.0;

/// Milliseconds of processor time that a call takes.
type Processor = dyn Fn(&mut dyn FnMut()) -> f64;

/// Publishes these keys with one value; whether they fit.
fn published(s: &mut [u8], keys: &mut [Bytes32], value: u8) -> bool {
    keys.sort();
    let batch: Vec<u8> = keys.iter().flat_map(|k| ask_bytes(&Ask { key: *k, value: Some([value; 32]) })).collect();
    let next = cases::next(s);
    apply_to_sound(s, next, &batch).is_ok()
}

fn number(n: u32) -> Bytes32 {
    let mut key = [0; 32];
    key[28..].copy_from_slice(&n.to_be_bytes());
    key
}

/// An honest store whose keys are small numbers, every second one: a way of some 240 records for each publishing. The keys asked for are there by turns.
fn numbers() -> (Vec<u8>, Vec<Bytes32>) {
    let mut s = cases::fresh(CAPACITY, 0, 0);
    let mut last = 0;
    while published(&mut s, &mut (last..last + 64).map(|n| number(2 * n)).collect::<Vec<_>>(), 1) {
        last += 64;
    }
    (s, (0..256).map(|n| number(n * last / 128)).collect())
}

/// A store made to be slow: in its highest slots two ways of 255 records, on both sides of the key that is asked for, which is at the end of neither.
fn two_ways(random: &mut Random) -> (Vec<u8>, Vec<Bytes32>) {
    let mut s = cases::fresh(CAPACITY, 0, 0);
    while cases::taken(&s) < 15_000 {
        let mut keys: Vec<Bytes32> = (0..64).map(|_| random.hash()).collect();
        keys.iter_mut().for_each(|k| k[0] &= 0x3F);
        assert!(published(&mut s, &mut keys, 1));
    }
    // 0 1 1 .. 1 0 and 1 0 .. 0 0, each with both last bits; the key asked for is just above the first two.
    let (mut left, mut right, mut asked) = ([0xFF; 32], [0; 32], [0xFF; 32]);
    (left[0], left[31], right[0], asked[0]) = (0x7F, 0xFC, 0x80, 0x7F);
    let both = |mut k: Bytes32| {
        let low = k;
        k[31] |= 1;
        [low, k]
    };
    assert!(published(&mut s, &mut [both(left), both(right)].concat(), 2));
    asked[31] = 0xFE;
    (s, both(asked).into_iter().cycle().take(256).collect())
}

/// A full store of random keys, a third of them published again; half of the keys asked for were never inserted.
fn plain(random: &mut Random, capacity: usize, size: usize) -> (Vec<u8>, Vec<Bytes32>) {
    let mut s = cases::fresh(capacity, 0, 0);
    let mut all: Vec<Bytes32> = vec![];
    loop {
        let mut keys: Vec<Bytes32> = (0..size).map(|i| if i % 3 == 0 && !all.is_empty() { all[random.below(all.len())] } else { random.hash() }).collect();
        keys.sort();
        keys.dedup();
        if !published(&mut s, &mut keys, random.byte()) {
            let asked = (0..256).map(|i| if i % 2 == 0 { all[random.below(all.len())] } else { random.hash() }).collect();
            return (s, asked);
        }
        all.extend(keys);
    }
}

/// One tree of so many grants with so many roots over it, their versions so far apart.
fn roots(random: &mut Random, grants: usize, roots: u32, apart: u32) -> (Vec<u8>, Vec<Bytes32>) {
    let all = self::grants(random, grants);
    let mut records = tree_under(&all, &|_| 1);
    let root = records.pop().unwrap();
    let version = |i: u32| 1 + i * apart;
    records.extend((0..roots).map(|i| Record { version: version(i), retired: if i + 1 == roots { 0 } else { version(i + 1) }, ..root }));
    (holding(&records, 1, version(roots - 1)), (0..256).map(|i| if i % 2 == 0 { all[random.below(all.len())].0 } else { random.hash() }).collect())
}

/// What `guess::spread` adds up of a place; 40,503 times the version is added to it.
fn mixed_place(place: &Place) -> u32 {
    let last = (place.count + 255) % 256 / 8;
    let byte = |i: usize| place.bits[i] as u32;
    let front = byte(0) + byte(1) * 256 + byte(2) * 65_536;
    let back = byte(last) + byte((last + 31) % 32) * 256;
    front.wrapping_add(back.wrapping_mul(65_599)).wrapping_add((place.count as u32).wrapping_mul(16_777_619))
}

/// A version from 1 to `latest` that `guess::spread` takes with the place to a number near 0, so that guesses by it collide.
fn colliding(place: &Place, latest: u32) -> u32 {
    // The inverse of 40,503 modulo 2 to the 32.
    let inverse = (0..5).fold(1u32, |x, _| x.wrapping_mul(2u32.wrapping_sub(40_503u32.wrapping_mul(x))));
    let sums = 0u32..;
    sums.map(|sum| sum.wrapping_sub(mixed_place(place)).wrapping_mul(inverse)).find(|&v| v != 0 && v <= latest).unwrap()
}

fn grants(random: &mut Random, many: usize) -> Vec<(Bytes32, Bytes32)> {
    let mut all: Vec<(Bytes32, Bytes32)> = (0..many).map(|_| (random.hash(), random.hash())).collect();
    all.sort();
    all
}

/// The records of one tree, each under the version that its place gets.
fn tree_under(all: &[(Bytes32, Bytes32)], under: &dyn Fn(&Place) -> u32) -> Vec<Record> {
    let mut records = second::tree::placing(&second::tree::make(all, 1, &|_, _| None));
    for r in &mut records {
        let place = r.place;
        r.version = under(&place);
        if let Body::Inner(children) = &mut r.body {
            for (side, c) in children.iter_mut().enumerate().filter(|(_, c)| c.version != 0) {
                c.version = under(&place.longer(side == 1));
            }
        }
    }
    records
}

fn holding(records: &[Record], oldest: u32, latest: u32) -> Vec<u8> {
    let mut s = cases::fresh(CAPACITY, oldest, latest);
    assert!(records.len() <= CAPACITY);
    records.iter().enumerate().for_each(|(i, r)| put_slot(&mut s, i, &slot_bytes(r)));
    s
}

/// One tree, its records under versions that a hash of place and version takes to one number: sound, though no history gives it.
fn collided(random: &mut Random) -> (Vec<u8>, Vec<Bytes32>) {
    let all = grants(random, 6_500);
    let latest = u32::MAX - 1;
    let s = holding(&tree_under(&all, &|p| colliding(p, latest)), latest, latest);
    (s, (0..256).map(|i| if i % 2 == 0 { all[random.below(all.len())].0 } else { random.hash() }).collect())
}

/// Two trees of the same keys, every value another, with no record in both: the most that a comparison visits in a full store.
fn two_trees(random: &mut Random, under: &dyn Fn(&Place) -> u32, oldest: u32) -> Vec<u8> {
    let old = grants(random, 3_250);
    let new: Vec<(Bytes32, Bytes32)> = old.iter().map(|(k, _)| (*k, random.hash())).collect();
    let mut records = tree_under(&old, under);
    records.iter_mut().for_each(|r| r.retired = oldest + 1);
    records.extend(tree_under(&new, &|_| oldest + 1));
    holding(&records, oldest, oldest + 1)
}

fn best(turns: usize, processor: &Processor, call: &mut dyn FnMut()) -> f64 {
    (0..turns).map(|_| processor(call)).fold(f64::MAX, f64::min)
}

/// A shuffled store with pairs: in each free slot a copy of a record with another value or other hashes of its children. Palettes and rescues of it are
/// the second program's: the lowest slot of a node counts, whichever of the two it is.
pub fn pairs() {
    let mut random = Random(53);
    let (s, asked) = plain(&mut random, 512, 20);
    let mut s = cases::scattered(&mut random, &s, 512 - cases::taken(&s));
    let store = second::bytes::store(&s).unwrap();
    let latest = store.latest;
    let used: Vec<(usize, Record)> = store.slots.iter().enumerate().filter_map(|(i, x)| if let Slot::Used(r) = x { Some((i, *r)) } else { None }).collect();
    for (free, _) in store.slots.iter().enumerate().filter(|(_, x)| matches!(x, Slot::Free)) {
        let (_, mut r) = used[random.below(used.len())];
        match &mut r.body {
            Body::Leaf { value, .. } => *value = random.hash(),
            Body::Inner(children) => children.iter_mut().filter(|c| c.version != 0).for_each(|c| c.hash = random.hash()),
        }
        put_slot(&mut s, free, &slot_bytes(&r));
    }
    let list = asked.concat();
    for keys in list.chunks(16 * 32) {
        let mut rooms = [vec![0; 300_000], vec![0; 300_000]];
        let [a, b] = &mut rooms;
        assert_eq!(ours::palette(&s, latest, keys, a), second::palette(&s, latest, keys, b));
        assert!(a == b, "the second program's palette of a store with pairs");
    }
    let oldest = store.oldest.max(1);
    let (mut a, mut b) = (vec![0; s.len()], vec![0; s.len()]);
    assert_eq!(ours::rescue(&s, oldest, latest, &mut a).is_ok(), second::rescue::rescue(&s, oldest, latest, &mut b).is_ok());
    assert!(a == b, "the second program's rescue of a store with pairs");
}

/// Prints what a call takes on a store beside its bar, of so many times check; whether it keeps it. Where it doesn't, both are measured again, up to four times, and the best of each
/// counts: other work on the machine disturbs processor time too.
fn within(what: &str, processor: &Processor, (s, on): (&[u8], &str), bar: f64, mut check: f64, mut call: impl FnMut() -> f64) -> bool {
    let mut took = call();
    for _ in 0..4 {
        if took > bar * check {
            took = took.min(call());
            check = check.min(checked(processor, s));
        }
    }
    println!("bar {what} {:.1} bar {bar} ({took:.1}ms, check {check:.2}ms) on {on}", took / check);
    if took > bar * check {
        println!("{what} takes more than {bar} times check on {on}");
    }
    took <= bar * check
}

/// The oldest version and the latest, which are compared.
fn ends(s: &[u8]) -> (u32, u32) {
    let store = second::bytes::store(s).unwrap();
    (store.oldest.max(1), store.latest)
}

const MOST_VISITS: u32 = 1_000_000;

/// What they are compared in.
fn compared(processor: &Processor, s: &[u8]) -> f64 {
    let (oldest, latest) = ends(s);
    let mut changed = vec![0; 72 * CAPACITY];
    best(3, processor, &mut || assert!(ours::changes(s, oldest, latest, MOST_VISITS, &mut changed).is_ok()))
}

/// Their list is the second program's.
fn same_changes(s: &[u8]) {
    let (oldest, latest) = ends(s);
    let (mut a, mut b) = (vec![0; 72 * CAPACITY], vec![0; 72 * CAPACITY]);
    assert!(ours::changes(s, oldest, latest, MOST_VISITS, &mut a).is_ok() && second::changes(s, oldest, latest, MOST_VISITS, &mut b).is_ok());
    assert!(a == b, "the second program's list of changes");
}

fn checked(processor: &Processor, s: &[u8]) -> f64 {
    best(5, processor, &mut || assert_eq!(ours::check(s), Ok(())))
}

/// Prints each figure beside its bar, that many times over, and gives how many keep it and how many don't.
pub fn bars(processor: &Processor, times: f64) -> (usize, usize) {
    let mut random = Random(47);
    let stores = [
        ("two-ways-of-255-records", two_ways(&mut random)),
        ("numbers-as-keys", numbers()),
        ("8000-versions", roots(&mut random, 3_300, 8_000, 1)),
        ("random-keys", plain(&mut random, CAPACITY, 75)),
        ("one-version", roots(&mut random, 6_650, 1, 1)),
        ("8000-versions-with-gaps", roots(&mut random, 3_300, 8_000, 100)),
        ("versions-that-collide", collided(&mut random)),
    ];
    let shuffled: Vec<_> = stores.clone()[..3].iter().map(|(name, (s, asked))| (*name, (cases::scattered(&mut random, s, CAPACITY - cases::taken(s)), asked.clone()))).collect();
    let placed = stores.into_iter().map(|x| ("in-order", x)).chain(shuffled.into_iter().map(|x| ("shuffled", x)));
    let mut keeps = vec![];
    for (order, (name, (s, asked))) in placed {
        let store = second::bytes::store(&s).unwrap();
        let (oldest, latest) = (store.oldest.max(1), store.latest);
        let list = asked.concat();
        let single = |k: &[u8]| {
            let mut room = vec![0; 17_080];
            let length = ours::prove(&s, latest, k, &mut room).unwrap() as usize;
            room.truncate(length);
            room
        };
        let singles: Vec<u8> = list[..16 * 32].chunks(32).flat_map(single).collect();
        let check = checked(processor, &s);
        let on = format!("{name}-{order}, {} used, {} versions", cases::taken(&s), latest + 1 - oldest);
        let mut keeps_bar = |what, bar, call: &mut dyn FnMut() -> f64| keeps.push(within(what, processor, (&s, &on), times * bar, check, call));
        let mut room = vec![0; 256 * 17_080];
        keeps_bar("palette-256-keys", PALETTE_BAR, &mut || best(3, processor, &mut || assert!(ours::palette(&s, latest, &list, &mut room).is_ok())));
        assert!(room.starts_with(&singles), "the proofs of single calls, one after the other");
        let mut target = vec![0; s.len()];
        keeps_bar("rescue", RESCUE_BAR, &mut || best(3, processor, &mut || assert!(ours::rescue(&s, oldest, latest, &mut target).is_ok())));
        // The second program goes over all kept versions: beside it where there are few, and once for each kind of store.
        let beside = latest - oldest < 100 && order == "in-order";
        let mut other = vec![0; s.len()];
        if beside {
            assert!(second::rescue::rescue(&s, oldest, latest, &mut other).is_ok());
            assert!(target == other, "the second program's rescue");
        }
        keeps_bar("changes", CHANGES_BAR, &mut || compared(processor, &s));
        if beside {
            same_changes(&s);
        }
    }
    let oldest = u32::MAX - 2;
    let plain = two_trees(&mut random, &|_| 1, 1);
    let collided = two_trees(&mut random, &|p| colliding(p, oldest), oldest);
    for (name, s) in [("two-trees", plain), ("two-trees-that-collide", collided)] {
        let shuffled = cases::scattered(&mut random, &s, CAPACITY - cases::taken(&s));
        for (order, s) in [("in-order", s), ("shuffled", shuffled)] {
            let on = format!("{name}-{order}, {} used", cases::taken(&s));
            keeps.push(within("changes", processor, (&s, &on), times * CHANGES_BAR, checked(processor, &s), || compared(processor, &s)));
            if order == "in-order" {
                same_changes(&s);
            }
        }
    }
    let kept = keeps.iter().filter(|k| **k).count();
    (kept, keeps.len() - kept)
}
