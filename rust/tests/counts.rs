//! How many grants a version has and the grant at a position, in a history beside a map, and in stores that were damaged.

use grants::{
    old_store_bytes, sha256, store_bytes, Batch, Body, Error, Key, Met, Store, Value, HEADER_BYTES,
};
use std::collections::BTreeMap;

type Bytes = Store<Vec<u8>>;

fn key(first: u8) -> Key {
    let mut bytes = [0; 32];
    bytes[0] = first;
    Key::from(bytes)
}

/// Keys that begin with 00, 010, 011 and 1, as version 1: slots 0 to 6 hold 010, 011, 00, 01, 0, 1 and the root.
fn four() -> Bytes {
    let mut store = Store::with_capacity(20).unwrap();
    let mut batch = Batch::new();
    for (n, first) in [0x00, 0x40, 0x60, 0x80].into_iter().enumerate() {
        batch.insert(key(first), [n as u8; 32]).unwrap();
    }
    store.apply(1, &batch).unwrap();
    store
}

/// The store with bytes of a slot written over.
fn harmed(store: &Bytes, slot: u32, at: usize, bytes: &[u8]) -> Bytes {
    let mut all = store.as_bytes().to_vec();
    let at = store_bytes(slot) + at;
    all[at..at + bytes.len()].copy_from_slice(bytes);
    Store::over(all)
}

/// The same with both counts of a slot.
fn counted(store: &Bytes, slot: u32, left: u32, right: u32) -> Bytes {
    let bytes = [left.to_le_bytes(), right.to_le_bytes()].concat();
    harmed(store, slot, 120, &bytes)
}

const ROOT: u32 = 6;

#[test]
fn a_history_beside_a_map() {
    let mut store = Store::with_capacity(2_000).unwrap();
    let mut grants: BTreeMap<Key, Value> = BTreeMap::new();
    let mut versions = vec![(0, grants.clone())];
    for n in 0..24u32 {
        let mut batch = Batch::new();
        for i in 0..5u32 {
            let digest = sha256(&[n.to_le_bytes(), i.to_le_bytes()].concat());
            // Few keys, so that some come again, and some that share their first bits.
            let mut name = [0; 32];
            name[if i == 0 { 2 } else { 0 }] = digest[0] % 64;
            let name = Key::from(name);
            let asked = match digest[1] % 3 {
                0 => batch.delete(name).is_ok().then(|| grants.remove(&name)),
                _ => {
                    let value = Value::from(digest);
                    let taken = batch.insert(name, value).is_ok();
                    taken.then(|| grants.insert(name, value))
                }
            };
            // A key that stands in the batch already is passed over.
            drop(asked);
        }
        let version = 10 * n + 7;
        store.apply(version, &batch).unwrap();
        versions.push((version, grants.clone()));
    }
    assert_eq!(store.check(), Ok(()));
    for (version, grants) in versions {
        assert_eq!(store.count(version), Ok(grants.len() as u64));
        // A version between two publishings reads as the earlier one.
        if version < store.header().unwrap().latest {
            assert_eq!(store.count(version + 2), store.count(version));
        }
        let listed: Vec<(Key, Value)> = grants.into_iter().collect();
        let read: Result<Vec<_>, Error> = store.positions(version).unwrap().collect();
        assert_eq!(read.unwrap(), listed);
        for (position, grant) in listed.iter().enumerate() {
            assert_eq!(store.at(version, position as u64), Ok(*grant));
            assert_eq!(store.get(version, grant.0), Ok(Some(grant.1)));
        }
        let back: Result<Vec<_>, Error> = store.positions(version).unwrap().rev().collect();
        assert!(back.unwrap().iter().rev().eq(&listed));
        for past in [listed.len() as u64, 1 << 32, u64::MAX] {
            assert_eq!(store.at(version, past), Err(Error::NoSuchPosition));
        }
    }
}

#[test]
fn a_page_reads_no_other_grant() {
    let store = four();
    // The leaf of 00 is lost, and so position 0 can't be read; the others can.
    let lost = harmed(&store, 2, 0, &[0; 128]);
    assert_eq!(lost.at(1, 0), Err(Error::Lost));
    let mut all = lost.positions(1).unwrap();
    assert_eq!(all.nth(1).unwrap().unwrap().0, key(0x40));
    assert_eq!(all.size_hint(), (0, Some(2)));
    assert_eq!(all.nth_back(1).unwrap().unwrap().0, key(0x60));
    assert!(all.next().is_none() && all.next_back().is_none());
    let page: Vec<Key> = (1..4).map(|i| lost.at(1, i).unwrap().0).collect();
    assert_eq!(page, [key(0x40), key(0x60), key(0x80)]);
    // The first that is refused ends it.
    let mut all = lost.positions(1).unwrap();
    assert_eq!(all.next(), Some(Err(Error::Lost)));
    assert_eq!((all.next(), all.next_back()), (None, None));
}

#[test]
fn records_say_their_counts() {
    let slots = four().slots().unwrap();
    let counts = |slot: usize| match slots[slot].unwrap().body {
        Body::Inner { counts, .. } => counts,
        Body::Leaf { .. } => panic!("slot {slot} has a leaf"),
    };
    assert_eq!((counts(3), counts(4), counts(6)), ([1, 1], [1, 2], [3, 1]));
    assert_eq!(slots[6].unwrap().counted(), 4);
    assert_eq!(slots[0].unwrap().counted(), 1);
}

#[test]
fn the_order_of_refusals() {
    let store = four();
    let cut = |bytes: usize| Store::over(&store.as_bytes()[..bytes]);
    for bytes in [0, 5, HEADER_BYTES, store_bytes(20) - 1] {
        assert_eq!(cut(bytes).count(1), Err(Error::Size));
        assert_eq!(cut(bytes).at(9, u64::MAX), Err(Error::Size));
        assert!(!cut(bytes).is_old_form());
    }
    // Whole slots, but not as many as the header says.
    assert_eq!(cut(store_bytes(19)).count(1), Err(Error::Header));
    assert_eq!(store.count(2), Err(Error::VersionNotKept));
    assert_eq!(store.at(2, u64::MAX), Err(Error::VersionNotKept));
    assert_eq!(store.at(1, 4), Err(Error::NoSuchPosition));
    assert_eq!(
        (store.count(0), store.at(0, 0)),
        (Ok(0), Err(Error::NoSuchPosition))
    );
    // A spoilt root is said before the position, a lost one is an empty version.
    let spoilt = harmed(&store, ROOT, 4, &[9]);
    let root = Error::Spoilt { slot: ROOT };
    assert_eq!((spoilt.count(1), spoilt.at(1, 99)), (Err(root), Err(root)));
    let Some(Met::Missing(missing)) = spoilt.met_at(1, 99) else {
        panic!("the root is missing");
    };
    assert_eq!((missing.slot, missing.version), (Some(ROOT), None));
    let lost = harmed(&store, ROOT, 0, &[0; 128]);
    assert_eq!(
        (lost.count(1), lost.at(1, 0)),
        (Ok(0), Err(Error::NoSuchPosition))
    );
    // The position is said before any damage below the root.
    let below = harmed(&store, 5, 4, &[9]);
    assert_eq!(below.at(1, 4), Err(Error::NoSuchPosition));
    assert_eq!(below.at(1, 3), Err(Error::Spoilt { slot: 5 }));
    assert_eq!(below.at(1, 2).unwrap().0, key(0x60));
}

#[test]
fn wrong_counts_are_met() {
    let store = four();
    let met = |store: &Bytes, position: u64| {
        assert_eq!(store.check(), Err(Error::Unsound));
        assert_eq!(store.at(1, position), Err(Error::Unsound));
        store.met_at(1, position).unwrap()
    };
    // Left and right exchanged: positions come from elsewhere, and the library calls the store unsound.
    let exchanged = counted(&store, ROOT, 1, 3);
    assert_eq!(exchanged.count(1), Ok(4));
    assert_eq!(exchanged.at(1, 1).unwrap().0, key(0x80));
    let Met::LeftOver { place, positions } = met(&exchanged, 3) else {
        panic!("a leaf with positions left over");
    };
    assert_eq!((place.to_string().as_str(), positions), ("1", 2));
    // More than there are, in 64 bits.
    let most = counted(&store, ROOT, u32::MAX, u32::MAX);
    assert_eq!(most.count(1), Ok(8_589_934_590));
    assert_eq!(most.at(1, 8_589_934_590), Err(Error::NoSuchPosition));
    let Met::LeftOver { positions, .. } = met(&most, 8_589_934_589) else {
        panic!("a leaf with positions left over");
    };
    assert_eq!(positions, 4_294_967_294);
    assert_eq!(most.at(1, 0).unwrap().0, key(0x00));
    let read: Vec<Result<_, Error>> = most.positions(1).unwrap().collect();
    assert_eq!((read.len(), read[3]), (4, Err(Error::Unsound)));
    // None, where there are four.
    let none = counted(&store, ROOT, 0, 0);
    assert_eq!(
        (none.count(1), none.at(1, 0)),
        (Ok(0), Err(Error::NoSuchPosition))
    );
    assert_eq!(none.met_at(1, 0), None);
    // A key that doesn't begin with its leaf's place.
    let stray = harmed(&store, 5, 48, &[0x00]);
    let Met::Stray { place } = met(&stray, 3) else {
        panic!("a leaf in the wrong place");
    };
    assert_eq!(place.to_string(), "1");
}

#[test]
fn a_child_that_is_not_there() {
    // Two keys that begin with 00: the root and the inner record at 0 have a left child alone.
    let mut store = Store::with_capacity(20).unwrap();
    let mut batch = Batch::new();
    batch.insert(key(0x00), [1; 32]).unwrap();
    batch.insert(key(0x20), [2; 32]).unwrap();
    store.apply(1, &batch).unwrap();
    let slots = store.slots().unwrap();
    let root = slots.iter().rposition(|slot| slot.is_some()).unwrap() as u32;
    assert_eq!(
        (store.count(1), store.at(1, 1).unwrap().0),
        (Ok(2), key(0x20))
    );
    let wrong = counted(&store, root, 1, 1);
    assert_eq!(
        (wrong.count(1), wrong.at(1, 1)),
        (Ok(2), Err(Error::Unsound))
    );
    let Some(Met::NoChild { place }) = wrong.met_at(1, 1) else {
        panic!("the root has no right child");
    };
    assert_eq!(place.to_string(), "1");
    // A missing child with a count is in form, so its record is found, and the store isn't sound.
    assert_eq!(wrong.missing(), Ok(vec![]));
    assert_eq!(wrong.check(), Err(Error::Unsound));
    assert_eq!(wrong.get(1, key(0x20)), Ok(Some([2; 32].into())));
}

#[test]
fn stores_of_the_old_form() {
    let old = |capacity: u32, said: u32| {
        let mut bytes = vec![0; old_store_bytes(capacity)];
        bytes[0] = 24;
        bytes[4] = 1;
        bytes[8..12].copy_from_slice(&said.to_le_bytes());
        Store::over(bytes)
    };
    for capacity in [1, 15, 17, 20, 16_383] {
        let store = old(capacity, capacity);
        assert!(store.is_old_form());
        assert_eq!(
            (store.check(), store.count(0)),
            (Err(Error::Size), Err(Error::Size))
        );
        assert_eq!(store.rescue(0, 1).unwrap_err(), Error::Size);
        // Its capacity says nothing more where no store of today has that size.
        assert!(old(capacity, 3).is_old_form());
    }
    // 24 + 120 x 16 is 24 + 128 x 15: the header tells them apart.
    let either = old(16, 16);
    assert!(either.is_old_form() && old(16_384, 16_384).is_old_form());
    assert_eq!(
        (either.check(), either.at(0, 0)),
        (Err(Error::Header), Err(Error::Header))
    );
    assert!(!old(16, 15).is_old_form());
    assert!(!Store::over(vec![0; old_store_bytes(20)]).is_old_form());
    assert!(!old(16_385, 16_385).is_old_form());
    assert!(!Store::over(&either.as_bytes()[..old_store_bytes(16) - 1]).is_old_form());
    assert!(!four().is_old_form());
}
