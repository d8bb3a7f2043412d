//! A versioned, authenticated key-value store over lent memory: safe Rust over the proved library, `libgrants.a`.
//!
//! Each publishing is a version, named by a number of the caller's, with one SHA-256 root. Any copy of the store, however little trusted, shows by a short [`Proof`] that a key has
//! a value in a version, or that it has none; whoever knows the version's [`Root`] checks that with [`verify`] alone.
//!
//! ```
//! use grants::{Batch, Error, Store, Value};
//!
//! // A store of 20 slots, in memory of our own. `Store::over` takes any bytes: borrowed, mapped, from a file.
//! let mut store = Store::with_capacity(20)?;
//!
//! // Publish two grants: version 1.
//! let mut batch = Batch::new();
//! batch.insert([0x40; 32], [1; 32]).unwrap().insert([0x80; 32], [2; 32]).unwrap();
//! let first = store.apply(1, &batch)?;
//!
//! // Withdraw one of them: version 5, for numbers may have gaps. Versions 2 to 4 read as 1.
//! let mut batch = Batch::new();
//! batch.delete([0x40; 32]).unwrap();
//! let second = store.apply(5, &batch)?;
//!
//! // How many grants each has, and which is first in key order.
//! assert_eq!((store.count(1)?, store.count(5)?), (2, 1));
//! assert_eq!(store.at(1, 0)?.0, [0x40; 32].into());
//!
//! // The grant stood in version 1, and doesn't stand in version 5.
//! let then = store.prove(first.version, [0x40; 32])?;
//! let now = store.prove(second.version, [0x40; 32])?;
//! assert_eq!(then.verify(first.root, [0x40; 32])?, Some(Value::from([1; 32])));
//! assert_eq!(now.verify(second.root, [0x40; 32])?, None);
//!
//! // A proof holds against the root it was made for, and no other.
//! assert_eq!(then.verify(second.root, [0x40; 32]), Err(Error::ProofFails));
//! # Ok::<(), Error>(())
//! ```
//!
//! What is proved is the library: that every call ends, stays inside its buffers, and answers or refuses as docs/RULES.md says. This crate is a
//! thin layer over it and is not proved. It adds no rule of its own; all its `unsafe` is in one module, `ffi`.
#![deny(unsafe_code)]
#![warn(missing_debug_implementations)]

mod batch;
mod calls;
mod changes;
mod counts;
mod damage;
pub mod dates;
mod error;
mod ffi;
mod figures;
mod finding;
mod form;
mod found;
mod hex;
mod index;
mod lookup;
mod message;
mod moving;
mod palette;
mod proof;
mod publishings;
mod records;
mod rescue;
mod shelf;
mod statement;
mod store;
mod united;
mod words;

pub use batch::{Batch, DoubledKey, BATCH_RECORDS};
pub use changes::{Change, Changes, MOST_VISITS};
pub use counts::Positions;
pub use damage::{Met, Missing};
pub use error::Error;
pub use figures::{Figures, RangeFigures, RANGE_VERSIONS};
pub use finding::{Finding, MESSAGE_BYTES};
pub use form::{
    old_store_bytes, store_bytes, CAPACITY_AT, HEADER_BYTES, MOST_SLOTS, OLD_SLOT_BYTES,
    RECORD_BYTES, SLOT_BYTES,
};
pub use found::Found;
pub use hex::{from_hex, to_hex, HexError};
pub use index::Index;
pub use lookup::Lookup;
pub use message::{read_message, write_message, Message, RawLeaf, ABSENCE_MESSAGE_BYTES, PRESENCE_MESSAGE_BYTES, RAW_KEY_BYTES, RAW_VALUE_BYTES};
pub use palette::{Palette, RefusedAt, PALETTE_KEYS};
pub use proof::{verify, verify_pocket, verify_many, Proof, POCKET_BYTES, PROOF_BYTES};
pub use publishings::{publishings, Publishing};
pub use records::{Body, Child, Place, Record};
pub use rescue::{Rescued, Slot};
pub use shelf::{
    shelf_pieces, shelf_verify, shelf_verify_pocket, Bits, Effect, Made, NewFolder, PartAt, PartFile, PartsAlone,
    Pruned, RescuedShelf, Rounds, Shelf, ShelfError, ShelfRescue,
    LIST_FILE, ROUND_PARTS, SHELF_BITS, SHELF_FILE, SHELF_PROOF_BYTES,
};
pub use store::{Applied, Header, Store};
pub use statement::{Seen, Statement, Verdict};
pub use united::{Filled, RescuedFromTwo};
pub use words::{Key, Root, Value};

/// The version of the library that is linked: major, minor, patch.
///
/// ```
/// let [major, minor, patch] = grants::version();
/// assert_eq!(format!("{major}.{minor}.{patch}"), env!("CARGO_PKG_VERSION"));
/// ```
pub fn version() -> [u8; 3] {
    ffi::version()
}

/// SHA-256 of any bytes, by the library's own proved code.
///
/// ```
/// let digest = grants::sha256(b"abc");
/// assert_eq!(grants::to_hex(&digest[..4]), "ba7816bf");
/// ```
pub fn sha256(bytes: &[u8]) -> [u8; 32] {
    ffi::sha256(bytes)
}
