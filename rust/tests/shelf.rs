//! A shelf beside a plain map: what it holds in every kept version, its proofs, what a reader sees while a writer is at work, and what is refused.

use grants::{
    shelf_verify, Batch, Error, Key, PartFile, Root, Rounds, Shelf, ShelfError, ShelfRescue, Value,
    BATCH_RECORDS, MOST_VISITS,
};
use std::collections::BTreeMap;
use std::path::PathBuf;

type Grants = BTreeMap<Key, Value>;

/// A folder of its own that goes at the end.
struct Folder(PathBuf);

impl Folder {
    fn new(name: &str) -> Folder {
        let path = std::env::temp_dir().join(format!("grants-{name}-{}", std::process::id()));
        let _ = std::fs::remove_dir_all(&path);
        Folder(path)
    }
}

impl Drop for Folder {
    fn drop(&mut self) {
        let _ = std::fs::remove_dir_all(&self.0);
    }
}

fn key(n: u32) -> Key {
    Key::from(grants::sha256(&n.to_le_bytes()))
}

/// Batches that come and go, with the grants after each.
fn history(versions: u32) -> Vec<(u32, Batch, Grants)> {
    let mut now = Grants::new();
    let mut all = vec![];
    for v in 1..=versions {
        let mut batch = Batch::new();
        for n in 0..12 {
            let k = key((v * 31 + n * 7) % 40);
            let taken = match now.contains_key(&k) && (v + n) % 3 == 0 {
                true => batch.delete(k),
                false => batch.insert(k, [(v * 20 + n) as u8; 32]),
            };
            if taken.is_ok() {
                match (v + n) % 3 == 0 && now.contains_key(&k) {
                    true => now.remove(&k),
                    false => now.insert(k, Value::from([(v * 20 + n) as u8; 32])),
                };
            }
        }
        all.push((v * 3, batch, now.clone()));
    }
    all
}

fn same(shelf: &Shelf, version: u32, wanted: &Grants) {
    let held: Grants = shelf.grants(version).unwrap().into_iter().collect();
    assert_eq!(&held, wanted, "version {version}");
    assert_eq!(shelf.count(version).unwrap(), wanted.len() as u64);
    let root = shelf.root(version).unwrap();
    for n in 0..45 {
        let found = wanted.get(&key(n)).copied();
        assert_eq!(shelf.get(version, key(n)).unwrap(), found);
        if !wanted.is_empty() {
            let proof = shelf.prove(version, key(n)).unwrap();
            assert_eq!(
                shelf_verify(root, shelf.bits().get(), key(n), &proof),
                Ok(found)
            );
        }
    }
    if let Some((position, (key, value))) = wanted.iter().enumerate().last() {
        assert_eq!(shelf.at(version, position as u64).unwrap(), (*key, *value));
    }
}

#[test]
fn a_shelf_holds_what_a_map_does() {
    for bits in [0, 1, 4, 9, 12] {
        let folder = Folder::new(&format!("map-{bits}"));
        let mut shelf = Shelf::create(&folder.0, bits, 512, 1024).unwrap();
        let history = history(5);
        for (number, batch, _) in &history {
            shelf.publish(*number, batch).unwrap();
        }
        same(&shelf, 0, &Grants::new());
        for (number, _, wanted) in &history {
            same(&shelf, *number, wanted);
            if *number < 15 {
                same(&shelf, number + 2, wanted);
            }
        }
        let changes = shelf.changes(3, 15, MOST_VISITS).unwrap();
        let mut then = history[0].2.clone();
        for (key, value) in changes.to_batch().iter() {
            match value {
                Some(value) => then.insert(key, value),
                None => then.remove(&key),
            };
        }
        assert_eq!(then, history[4].2);
        shelf.prune(7).unwrap();
        same(&shelf, 7, &history[1].2);
        same(&shelf, 15, &history[4].2);
        assert!(matches!(
            shelf.get(6, key(1)),
            Err(ShelfError::Refused {
                error: Error::VersionNotKept,
                part: None
            })
        ));
        shelf.check().unwrap();
        // The root is a function of the grants: the same ones published at once have it too.
        let other = Folder::new(&format!("once-{bits}"));
        let mut once = Shelf::create(&other.0, bits, 512, 1024).unwrap();
        let mut batch = Batch::new();
        history[4]
            .2
            .iter()
            .for_each(|(key, value)| batch.put(*key, *value));
        assert_eq!(
            once.publish(1, &batch).unwrap().root,
            shelf.root(15).unwrap()
        );
    }
}

#[test]
fn a_reader_has_the_shelf_that_it_opened() {
    let folder = Folder::new("reader");
    let mut shelf = Shelf::create(&folder.0, 2, 512, 64).unwrap();
    let history = history(4);
    shelf.publish(history[0].0, &history[0].1).unwrap();
    let reader = Shelf::open(&folder.0).unwrap();
    for (number, batch, _) in &history[1..] {
        shelf.publish(*number, batch).unwrap();
        // A writer is at work on the next one: its files are half written, and no list uses them.
        for file in shelf.files() {
            let next = PartFile { latest: number + 1, ..*file };
            let bytes = std::fs::read(folder.0.join(file.to_string())).unwrap();
            std::fs::write(folder.0.join(next.to_string()), &bytes[..bytes.len() / 2]).unwrap();
        }
        same(&reader, 3, &history[0].2);
        assert!(matches!(
            reader.get(*number, key(1)),
            Err(ShelfError::Refused {
                error: Error::VersionNotKept,
                ..
            })
        ));
    }
    // Until what it reads is pruned.
    shelf.prune(shelf.header().latest).unwrap();
    assert!(reader.grants(3).is_err());
    assert_eq!(
        shelf.files().count(),
        std::fs::read_dir(&folder.0).unwrap().count() - 2
    );
}

#[test]
fn the_old_form_is_told_by_the_list_that_was_read() {
    let folder = Folder::new("old-form");
    let shelf = published(&folder, 2);
    let old = shelf.list().move_back().unwrap();
    std::fs::write(folder.0.join(grants::LIST_FILE), &old).unwrap();
    let refused = Shelf::open(&folder.0).unwrap_err();
    assert!(matches!(refused, ShelfError::OldForm { .. }), "{refused}");
    assert!(matches!(refused.refusal(), Some(Error::Size | Error::Header)));
    // Bytes that are no store of either form are not said to be one.
    std::fs::write(folder.0.join(grants::LIST_FILE), &old[1..]).unwrap();
    let refused = Shelf::open(&folder.0).unwrap_err();
    assert!(matches!(refused, ShelfError::Refused { .. }), "{refused}");
}

#[test]
fn what_is_refused_leaves_the_folder() {
    let folder = Folder::new("refused");
    assert!(matches!(
        Shelf::create(&folder.0, 13, 8, 8),
        Err(ShelfError::Refused {
            error: Error::TooManyBits,
            ..
        })
    ));
    assert!(matches!(
        Shelf::create(&folder.0, 1, 0, 8),
        Err(ShelfError::Refused {
            error: Error::Size,
            ..
        })
    ));
    assert!(matches!(
        Shelf::open(&folder.0),
        Err(ShelfError::NoShelf { .. })
    ));
    let mut shelf = Shelf::create(&folder.0, 1, 40, 8).unwrap();
    let listing = || {
        let mut names: Vec<_> = std::fs::read_dir(&folder.0)
            .unwrap()
            .map(|e| e.unwrap().file_name())
            .collect();
        names.sort();
        names
    };
    let mut batch = Batch::new();
    (0..8).for_each(|n| batch.put(key(n), [1; 32]));
    let first = shelf.publish(5, &batch).unwrap();
    let before = listing();
    assert!(matches!(
        shelf.publish(5, &batch),
        Err(ShelfError::Refused {
            error: Error::NotAboveLatest,
            part: None
        })
    ));
    (0..60).for_each(|n| batch.put(key(n), [2; 32]));
    assert!(matches!(
        shelf.publish(6, &batch),
        Err(ShelfError::Refused {
            error: Error::NoRoom,
            part: Some(_)
        })
    ));
    (0..3 * BATCH_RECORDS as u32).for_each(|n| batch.put(key(n), [2; 32]));
    assert!(matches!(
        shelf.publish(6, &batch),
        Err(ShelfError::Rounds { rounds: 2 })
    ));
    assert_eq!(listing(), before);
    assert_eq!(shelf.root(5).unwrap(), first.root);
    // All of it withdrawn: the list is empty, and its root says so.
    let mut none = Batch::new();
    (0..8).for_each(|n| {
        none.delete(key(n)).unwrap();
    });
    assert_eq!(shelf.publish(9, &none).unwrap().root, Root::EMPTY);
    assert!(matches!(
        shelf.prove(9, key(1)),
        Err(ShelfError::Refused {
            error: Error::EmptyVersion,
            ..
        })
    ));
    assert_eq!(shelf.get(9, key(1)).unwrap(), None);
}

#[test]
fn rounds_are_as_few_as_there_may_be() {
    let bits = grants::Bits::new(12).unwrap();
    let mut batch = Batch::new();
    for part in 0..2_000u16 {
        let mut key = [0; 32];
        key[..2].copy_from_slice(&(part << 4).to_be_bytes());
        batch.insert(key, [1; 32]).unwrap();
    }
    // More parts than the list takes in one number.
    assert_eq!(Rounds::of(bits, &batch.to_bytes()).unwrap().len(), 2);
    assert_eq!(Rounds::of(bits, &[]).unwrap().len(), 1);
    let bytes = batch.to_bytes();
    let turned = [&bytes[72..144], &bytes[..72]].concat();
    assert_eq!(Rounds::of(bits, &turned), Err(Error::BatchOrder));
    assert_eq!(Rounds::of(bits, &bytes[1..]), Err(Error::BatchForm));
}

/// A shelf of a few publishings, in a folder.
fn published(folder: &Folder, bits: u32) -> Shelf {
    let mut shelf = Shelf::create(&folder.0, bits, 256, 256).unwrap();
    for (number, batch, _) in &history(5) {
        shelf.publish(*number, batch).unwrap();
    }
    shelf
}

#[test]
fn proofs_in_the_pocket_are_the_same_or_none() {
    let folder = Folder::new("pocket");
    let mut shelf = published(&folder, 3);
    let (near, mut far) = (Key::from([0; 32]), [0; 32]);
    far[5] = 0x80;
    let mut batch = Batch::new();
    batch.insert(near, [1; 32]).unwrap().insert(far, [2; 32]).unwrap();
    let root = shelf.publish(90, &batch).unwrap().root;
    let mut within = 0;
    for n in 0..45 {
        let proof = shelf.prove(90, key(n)).unwrap();
        let full = shelf_verify(root, 3, key(n), &proof);
        match shelf.prove_pocket(90, key(n)) {
            Ok(short) => {
                within += 1;
                assert_eq!(short, proof);
                assert_eq!(grants::shelf_verify_pocket(root, 3, key(n), &proof), full);
            }
            Err(e) => {
                assert_eq!(e.refusal(), Some(Error::OutsidePocket));
                let short = grants::shelf_verify_pocket(root, 3, key(n), &proof);
                assert_eq!(short, Err(Error::OutsidePocket));
            }
        }
        // In form and false: the same number as the full check's, but for 19.
        let other = grants::shelf_verify_pocket([7; 32], 3, key(n), &proof);
        assert!(matches!(other, Err(Error::ProofFails | Error::OutsidePocket)));
        assert_eq!(shelf.finding(90, key(n), &proof).unwrap(), grants::Finding::Truth);
    }
    assert!(within > 20, "{within}");
    for wrong in [near, Key::from(far)] {
        let refused = shelf.prove_pocket(90, wrong).unwrap_err();
        assert_eq!(refused.refusal(), Some(Error::OutsidePocket));
    }
    let proof = shelf.prove(90, key(1)).unwrap();
    assert_eq!(shelf.finding(90, key(2), &proof).unwrap_err().refusal(), Some(Error::ProofFails));
    assert_eq!(shelf.finding(91, key(1), &proof).unwrap_err().refusal(), Some(Error::VersionNotKept));
    assert_eq!(shelf.finding(90, key(1), [1; 9]).unwrap_err().refusal(), Some(Error::ProofForm));
}

#[test]
fn a_list_is_made_of_the_parts() {
    for bits in [0, 3, 9] {
        let (folder, to) = (Folder::new(&format!("alone-{bits}")), Folder::new(&format!("alone-to-{bits}")));
        let shelf = published(&folder, bits);
        std::fs::remove_file(folder.0.join(grants::LIST_FILE)).unwrap();
        assert!(matches!(Shelf::open(&folder.0), Err(ShelfError::NoShelf { .. })));
        let asked = ShelfRescue { folder: &folder.0, with: None, bits: None, oldest: 0, latest: 15, root: None };
        assert_eq!(asked.latest_of_parts().unwrap()[0], 15);
        let alone = asked.parts_alone().unwrap();
        for (version, root, _) in &alone.publishings {
            assert_eq!(shelf.root(*version).unwrap(), *root, "version {version}");
        }
        let root = shelf.root(15).unwrap();
        let wrong = ShelfRescue { root: Some(Root::from([1; 32])), ..asked };
        assert!(matches!(wrong.by_parts(&to.0), Err(ShelfError::OtherRoot { .. })));
        let came = ShelfRescue { root: Some(root), ..asked }.by_parts(&to.0).unwrap();
        assert!(came.rebuilt && came.root == root && came.first == 0);
        let again = Shelf::open(&to.0).unwrap();
        for (number, _, wanted) in &history(5) {
            same(&again, *number, wanted);
            assert_eq!(again.root(*number).unwrap(), shelf.root(*number).unwrap());
        }
    }
}
