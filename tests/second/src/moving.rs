//! 02, request 2026-10: a store of the form without counts moved into the one with counts, and back; slots kept.

use crate::bytes::{self, Body, Form, Place, Record, Slot, Store};
use crate::sound::sound;
use crate::tree::Index;
use crate::Refusal;
use std::collections::HashMap;

/// An old store into a buffer for the new form.
pub fn over(source: &[u8], target: &mut [u8]) -> Result<(), Refusal> {
    moved(Form::Plain, Form::Counted, source, target)
}

/// And back again.
pub fn back(source: &[u8], target: &mut [u8]) -> Result<(), Refusal> {
    moved(Form::Counted, Form::Plain, source, target)
}

/// 1: a source or target of wrong size, each by its own form, with the same capacity. Then 2, a wrong header of the source, and 3, an unsound source.
fn moved(from: Form, to: Form, source: &[u8], target: &mut [u8]) -> Result<(), Refusal> {
    let capacity = bytes::capacity_in(from, source.len())?;
    if bytes::capacity_in(to, target.len())? != capacity {
        return Err(1);
    }
    let store = bytes::store_in(from, source)?;
    if !sound(&store) {
        return Err(3);
    }
    let index = Index::of(&store);
    let mut known = HashMap::new();
    let slots = store.slots.iter().map(|slot| match slot {
        Slot::Used(r) => Slot::Used(Record { body: told(&store, &index, &mut known, to, r), ..*r }),
        other => *other,
    });
    let slots = slots.collect();
    target.copy_from_slice(&bytes::store_bytes(&Store { form: to, slots, ..store }));
    Ok(())
}

/// What a record says in a form: each count is the number of leaves below that child, 0 for none; the plain form has none.
fn told(store: &Store, index: &Index, known: &mut HashMap<(u32, Place), u32>, to: Form, r: &Record) -> Body {
    let Body::Inner(mut children) = r.body else { return r.body };
    for (c, side) in children.iter_mut().zip([false, true]) {
        c.leaves = match to {
            Form::Plain => 0,
            Form::Counted => leaves(store, index, known, c.version, r.place.longer(side)),
        };
    }
    Body::Inner(children)
}

/// The leaves of the tree at a node, counted one by one; version 0 is no node.
fn leaves(store: &Store, index: &Index, known: &mut HashMap<(u32, Place), u32>, version: u32, place: Place) -> u32 {
    if version == 0 {
        return 0;
    }
    if let Some(n) = known.get(&(version, place)) {
        return *n;
    }
    let (_, r) = index.find(store, version, place).expect("a sound store has every child");
    let n = match r.body {
        Body::Leaf { .. } => 1,
        Body::Inner([a, b]) => {
            leaves(store, index, known, a.version, place.longer(false)) + leaves(store, index, known, b.version, place.longer(true))
        }
    };
    known.insert((version, place), n);
    n
}
