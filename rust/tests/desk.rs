//! The example of docs/RULES.md through the safe calls: what the wrapper hands on is what the library answers.

use grants::{
    old_store_bytes, store_bytes, Applied, Batch, Error, Key, Root, Store, Value, HEADER_BYTES,
    MOST_VISITS, OLD_SLOT_BYTES, SLOT_BYTES,
};

fn key(first: u8, last: u8) -> Key {
    let mut bytes = [0; 32];
    bytes[0] = first;
    bytes[31] = last;
    Key::from(bytes)
}

fn batch(asks: &[(Key, Option<u8>)]) -> Batch {
    let mut batch = Batch::new();
    for (key, value) in asks {
        match value {
            Some(v) => batch.insert(*key, [*v; 32]).unwrap(),
            None => batch.delete(*key).unwrap(),
        };
    }
    batch
}

#[test]
fn desk() {
    let (a, b, c, d, e) = (
        key(0, 0),
        key(0x40, 0),
        key(0x60, 0),
        key(0x80, 0),
        key(0x80, 1),
    );
    let mut store = Store::with_capacity(20).unwrap();
    let mut made = |asks: &[(Key, Option<u8>)]| {
        let Applied {
            version,
            new_records,
            ..
        } = store.apply_next(&batch(asks)).unwrap();
        (version, new_records)
    };
    // Handed in out of order: the batch sorts.
    let four = [(d, Some(4)), (b, Some(2)), (a, Some(1)), (c, Some(3))];
    assert_eq!(made(&four), (1, 7));
    assert_eq!(made(&[(b, None), (c, Some(5))]), (2, 3));
    assert_eq!(made(&[]), (3, 1));
    assert_eq!(made(&[(a, None)]), (4, 2));
    assert_eq!(made(&[(d, None)]), (5, 1));
    assert_eq!(made(&[(c, None)]), (6, 0));
    assert_eq!(store.root(6), Ok(Root::EMPTY));
    assert_eq!(store.prune(4), Ok(10));
    let e_made = store.apply(7, &batch(&[(e, Some(6))])).unwrap();
    assert_eq!((e_made.version, e_made.new_records), (7, 1));
    assert_eq!(store.prune(4), Ok(0));
    assert_eq!(store.prune(8), Err(Error::VersionNotKept));

    let used: Vec<usize> = (0..20)
        .filter(|&i| store.slots().unwrap()[i].is_some())
        .collect();
    assert_eq!(used, [0, 5, 11, 12, 13]);
    assert_eq!(store.get(4, c), Ok(Some(Value::from([5; 32]))));
    assert_eq!(store.get(4, a), Ok(None));
}

#[test]
fn proofs_hold_for_their_key_and_root() {
    let mut store = Store::with_capacity(64).unwrap();
    let asks: Vec<(Key, Option<u8>)> = (1..9).map(|n| (key(n * 16, n), Some(n))).collect();
    let root = store.apply(1, &batch(&asks)).unwrap().root;
    for (k, v) in &asks {
        let proof = store.prove(1, k).unwrap();
        assert_eq!(proof.verify(root, k), Ok(v.map(|v| Value::from([v; 32]))));
        assert_eq!(proof.verify(Root::EMPTY, k), Err(Error::ProofFails));
    }
    for last in 100..110 {
        let absent = key(48, last);
        let proof = store.prove(1, absent).unwrap();
        assert_eq!(proof.verify(root, absent), Ok(None));
        let mut spoiled = proof.clone().into_bytes();
        spoiled[60] ^= 1;
        assert_eq!(
            grants::verify(root, absent, &spoiled),
            Err(Error::ProofFails)
        );
    }
}

#[test]
fn refused_calls_change_no_byte() {
    let mut store = Store::with_capacity(3).unwrap();
    store.apply(1, &batch(&[(key(1, 0), Some(1))])).unwrap();
    let before = store.as_bytes().to_vec();
    let many: Vec<(Key, Option<u8>)> = (0..5).map(|n| (key(n, 0), Some(1))).collect();
    assert_eq!(store.apply(2, &batch(&many)), Err(Error::NoRoom));
    assert_eq!(store.apply_bytes(2, &[0; 71]), Err(Error::BatchForm));
    let mut doubled = batch(&many[..1]).to_bytes();
    doubled.extend_from_within(..);
    assert_eq!(store.apply_bytes(1, &doubled), Err(Error::BatchOrder));
    assert_eq!(store.apply(1, &batch(&many)), Err(Error::NotAboveLatest));
    assert_eq!(store.prune(2), Err(Error::VersionNotKept));
    assert_eq!(store.get(1, [0; 31]), Err(Error::NotThirtyTwoBytes));
    assert_eq!(store.as_bytes(), before);

    let mut damaged = Store::over(before.clone());
    damaged.apply(2, &Batch::new()).unwrap();
    let mut bytes = damaged.into_bytes();
    bytes[store_bytes(0) + 115] ^= 1;
    let mut damaged = Store::over(bytes.as_mut_slice());
    assert_eq!(damaged.check(), Err(Error::Unsound));
    assert_eq!(damaged.apply(0, &Batch::new()), Err(Error::Unsound));
    assert_eq!(damaged.prune(1), Err(Error::Unsound));
    assert_eq!(damaged.slots(), Err(Error::Unsound));
    assert!(damaged.header().is_ok());
}

#[test]
fn the_most_records_and_one_more() {
    let mut store = Store::with_capacity(16_384).unwrap();
    let mut batch = Batch::new();
    for n in 0..1_024u32 {
        let digest: [u8; 32] = grants::sha256(&n.to_le_bytes());
        batch.insert(digest, [1; 32]).unwrap();
    }
    let mut more = batch.clone();
    more.insert([0; 32], [1; 32]).unwrap();
    assert_eq!(store.apply(0, &more), Err(Error::BatchForm));
    assert!(store.apply(1, &batch).is_ok());
    assert_eq!(more.split().len(), 2);
}

#[test]
fn sentences_are_those_of_the_header() {
    let header = include_str!("../../include/grants.h");
    for number in [1, 2, 3, 4, 5, 7, 8, 9, 10, 11, 12, 13, 14, 17, 18, 20] {
        let error = Error::from_number(number).unwrap();
        // A row may go on with what the number means in single calls.
        let row = format!("\n * {number:>3}  {error}");
        assert!(header.contains(&row), "{row}");
    }
}

#[test]
fn sizes_are_those_of_the_header() {
    let header = include_str!("../../include/grants.h");
    for (name, bytes) in [
        ("GRANTS_SIZE", SLOT_BYTES),
        ("GRANTS_OLD_SIZE", OLD_SLOT_BYTES),
    ] {
        let row = format!("\n#define {name}(n) ({HEADER_BYTES} + {bytes} * (size_t)(n))\n");
        assert!(header.contains(&row), "{row}");
    }
    assert_eq!(store_bytes(15), old_store_bytes(16));
}

#[test]
fn numbers_with_gaps() {
    let (a, b) = (key(0, 0), key(0x40, 0));
    let mut store = Store::with_capacity(20).unwrap();
    let five = store
        .apply(5, &batch(&[(a, Some(1)), (b, Some(2))]))
        .unwrap();
    let nine = store.apply(9, &batch(&[(b, None)])).unwrap();
    assert_eq!((five.version, nine.version), (5, 9));
    for (version, root) in [
        (0, Root::EMPTY),
        (4, Root::EMPTY),
        (5, five.root),
        (8, five.root),
        (9, nine.root),
    ] {
        assert_eq!(store.root(version), Ok(root));
    }
    let proof = store.prove(7, b).unwrap();
    assert_eq!(proof.verify(five.root, b), Ok(Some(Value::from([2; 32]))));
    assert!(store.changes(5, 8, 1).unwrap().is_empty());
    assert_eq!(store.changes(7, 9, MOST_VISITS).unwrap().records(), 1);
    assert_eq!(store.prune(7), Ok(0));
    assert_eq!(
        (store.root(6), store.root(7)),
        (Err(Error::VersionNotKept), Ok(five.root))
    );
    assert_eq!(store.apply(9, &Batch::new()), Err(Error::NotAboveLatest));
    assert_eq!(store.apply_next(&Batch::new()).unwrap().version, 10);
    assert_eq!(store.check(), Ok(()));
}
