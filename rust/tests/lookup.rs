//! Reads by a table that builds itself beside plain reads: the same answers and the same refusals, of sound stores of every size and of damaged ones.

use grants::{Batch, Error, Key, Lookup, Store, HEADER_BYTES, SLOT_BYTES};

type Bytes = Store<Vec<u8>>;

/// Numbers that look like chance and are always the same.
struct Chance(u64);

impl Chance {
    fn next(&mut self, below: usize) -> usize {
        self.0 = self.0.wrapping_mul(6_364_136_223_846_793_005).wrapping_add(1_442_695_040_888_963_407);
        (self.0 >> 33) as usize % below
    }
}

fn key(n: usize) -> [u8; 32] {
    grants::sha256(&n.to_le_bytes())
}

/// A store with some versions, so full as it gets.
fn published(capacity: u32, chance: &mut Chance) -> Bytes {
    let mut store = Store::with_capacity(capacity).unwrap();
    for _ in 0..12 {
        let mut batch = Batch::new();
        for _ in 0..1 + chance.next((capacity as usize / 30).max(1)) {
            let (key, value) = (key(chance.next(capacity as usize)), [chance.next(250) as u8; 32]);
            let _ = match chance.next(4) {
                0 => batch.delete(key),
                _ => batch.insert(key, value),
            };
        }
        let number = store.header().unwrap().latest + 1 + chance.next(3) as u32;
        let _ = store.apply(number, &batch);
    }
    store
}

/// Everything that is asked of a store, so often that a table is built where one may be.
fn same(store: &Bytes, chance: &mut Chance) {
    let lookup = Lookup::new();
    let latest = store.header().map_or(9, |header| header.latest);
    for n in 0..400 {
        let (version, key) = (chance.next(latest as usize + 2) as u32, key(chance.next(700)));
        let position = chance.next(40) as u64;
        assert_eq!(lookup.get(store, version, key), store.get(version, key), "read {n}");
        assert_eq!(lookup.root(store, version), store.root(version));
        assert_eq!(lookup.count(store, version), store.count(version));
        assert_eq!(lookup.at(store, version, position), store.at(version, position));
        if n % 4 == 0 {
            assert_eq!(lookup.prove(store, version, key), store.prove(version, key));
        }
    }
    let keys: Vec<Key> = (0..256).map(|n| Key::from(key(n))).collect();
    for version in [latest, latest / 2] {
        let lookup = Lookup::new();
        assert_eq!(lookup.palette(store, version, &keys), store.palette(version, &keys));
        assert_eq!(lookup.palette(store, version, &keys[..3]), store.palette(version, &keys[..3]));
    }
    assert_eq!(lookup.get(store, latest, [1; 31]), Err(Error::NotThirtyTwoBytes));
}

#[test]
fn a_sound_store_is_read_as_before() {
    let mut chance = Chance(3);
    for capacity in [8, 60, 511, 512, 700, 2_000] {
        let store = published(capacity, &mut chance);
        store.check().unwrap();
        same(&store, &mut chance);
    }
}

#[test]
fn a_damaged_store_is_read_as_before() {
    let mut chance = Chance(4);
    for capacity in [60, 512, 900] {
        let store = published(capacity, &mut chance);
        for how in 0..6 {
            let mut bytes = store.as_bytes().to_vec();
            for _ in 0..1 + chance.next(4) {
                let (one, two) = (chance.next(capacity as usize), chance.next(capacity as usize));
                let at = HEADER_BYTES + one * SLOT_BYTES;
                let from = HEADER_BYTES + two * SLOT_BYTES;
                match how {
                    0 => bytes[at..at + SLOT_BYTES].fill(0),
                    1 => bytes[at] ^= 1,
                    2 => bytes[at + 44] ^= 1 << chance.next(3),
                    3 => bytes[at + 90] ^= 8,
                    // Two slots of one version and place.
                    4 => bytes.copy_within(from..from + SLOT_BYTES, at),
                    _ => bytes[chance.next(HEADER_BYTES)] ^= 1 << chance.next(8),
                }
            }
            same(&Store::over(bytes), &mut chance);
        }
    }
    // Bytes that are no store.
    same(&Store::over(vec![0; 1_000]), &mut chance);
}

#[test]
fn another_store_is_not_read_by_the_table_of_the_first() {
    let mut chance = Chance(5);
    let (one, two) = (published(900, &mut chance), published(2_000, &mut chance));
    let lookup = Lookup::new();
    for n in 0..300 {
        for store in [&one, &two] {
            let latest = store.header().unwrap().latest;
            assert_eq!(lookup.get(store, latest, key(n)), store.get(latest, key(n)));
        }
    }
}
