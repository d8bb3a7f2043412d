//! A marketplace publishes grants, and an editor checks one: format, apply, count, at, prove, verify, and what refusals look like.
//!
//!     cargo run --offline --manifest-path rust/Cargo.toml --example editor
//!
//! An editor needs `granted` alone: a root whose signature it has checked, a key, and a proof from anybody.

use grants::{store_bytes, Applied, Batch, Error, Key, Proof, Root, Store, Value};

/// What an editor does. Unless the proof shows that the grant stands, nothing is opened. A signed root of 32 zero bytes is itself the proof that
/// nothing is granted: there is no other.
fn granted(root: Root, key: Key, proof: &Proof) -> bool {
    if root == Root::EMPTY {
        println!("editor: nothing is granted");
        return false;
    }
    match proof.verify(root, key) {
        Ok(Some(_)) => println!("editor: the grant stands"),
        Ok(None) => println!("editor: there is no such grant"),
        Err(e) => println!(
            "editor: refused with {}, the proof shows nothing",
            e.number()
        ),
    }
    matches!(proof.verify(root, key), Ok(Some(_)))
}

fn tell(made: &Applied) {
    let Applied {
        version,
        root,
        new_records,
    } = made;
    println!("version {version}, new records: {new_records}, root {root}");
}

/// What a marketplace's own page does: how many grants a version has, and those from a position on, in the order of their keys.
fn list(store: &Store<Vec<u8>>, version: u32, from: usize, most: usize) -> Result<(), Error> {
    println!("version {version} has {}", store.count(version)?);
    let page = store.positions(version)?.skip(from).take(most);
    for (i, grant) in page.enumerate() {
        let (key, value) = grant?;
        println!("  {}: key {key:.2}.., value {value:.2}..", from + i);
    }
    Ok(())
}

fn main() -> Result<(), Box<dyn std::error::Error>> {
    let (plugin, other) = (Key::from([0x40; 32]), Key::from([0x80; 32]));
    let score = Value::from([7; 32]);
    let mut store = Store::with_capacity(20)?;

    // Two grants are published as version 10; then, as version 20, one of them is withdrawn.
    let mut batch = Batch::new();
    batch.insert(plugin, score)?.insert(other, score)?;
    let first = store.apply(10, &batch)?;
    tell(&first);
    let mut batch = Batch::new();
    batch.delete(plugin)?;
    let second = store.apply(20, &batch)?;
    tell(&second);

    // Two grants, then one. A page of a long list is read by position; the rest of it isn't.
    list(&store, 10, 0, 100)?;
    list(&store, 20, 0, 100)?;
    list(&store, 10, 1, 1)?;

    // The grant stood in version 10, and so in 15, which reads as 10; not in version 20.
    let old = store.prove(10, plugin)?;
    assert!(granted(first.root, plugin, &old));
    assert!(granted(first.root, plugin, &store.prove(15, plugin)?));
    assert!(!granted(second.root, plugin, &store.prove(20, plugin)?));

    // An old proof under the new root is refused.
    assert!(!granted(second.root, plugin, &old));

    // With the last grant withdrawn the version is empty: its root says so, and there is no proof.
    let number = |refused: Result<(), Error>| refused.unwrap_err().number();
    let mut batch = Batch::new();
    batch.delete(other)?;
    let third = store.apply_next(&batch)?;
    tell(&third);
    println!(
        "an empty version: refused with {}",
        number(store.prove(21, plugin).map(drop))
    );
    assert!(!granted(third.root, plugin, &old));

    // Refused are also keys out of order, a number that is not above the latest, a version that is not kept, a position past the last grant, and a proof
    // for which there is no room; none of these writes anything. A `Batch` puts its keys in order, so disorder takes bytes from elsewhere.
    let mut both = Batch::new();
    both.insert(plugin, score)?.insert(other, score)?;
    let mut bytes = both.to_bytes();
    bytes.rotate_left(72);
    println!(
        "keys out of order: refused with {}",
        number(store.apply_bytes(22, &bytes).map(drop))
    );
    println!(
        "number 21 again: refused with {}",
        number(store.apply(21, &both).map(drop))
    );
    println!(
        "version 22: refused with {}",
        number(store.root(22).map(drop))
    );
    println!(
        "position 2: refused with {}",
        number(store.at(10, 2).map(drop))
    );
    let mut room = vec![0; old.as_bytes().len() - 1];
    println!(
        "no room: refused with {}",
        number(store.prove_into(10, plugin, &mut room).map(drop))
    );
    println!(
        "the store is {}",
        if store.check().is_ok() {
            "sound"
        } else {
            "not sound"
        }
    );

    // Of a damaged store a read says which record is missing. Slot 0 has the plug-in's grant of version 10: first a byte of it is spoilt, then all of
    // it is lost.
    let slot = |refused: Error| refused.slot().map_or(-1, i64::from);
    let mut bytes = store.into_bytes();
    bytes[store_bytes(0)] ^= 1;
    let refused = Store::over(&bytes).get(10, plugin).unwrap_err();
    println!(
        "a byte spoilt: refused with {}, slot {}",
        refused.number(),
        slot(refused)
    );
    bytes[store_bytes(0)..store_bytes(1)].fill(0);
    let refused = Store::over(&bytes).get(10, plugin).unwrap_err();
    println!(
        "a record lost: refused with {}, slot {}",
        refused.number(),
        slot(refused)
    );
    Ok(())
}
