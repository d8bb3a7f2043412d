//! A shelf: more grants than one store holds, under one root (docs/SCALE.md). Grants whose keys begin with the same bits are in one store, their part. The
//! list is a store too: its key for a part is those bits followed by zeros, its value the part's root. The list's root is the one hash that is signed.

mod bits;
mod changing;
mod check;
mod error;
mod files;
mod moving;
mod proof;
mod publish;
mod reading;
mod rescue;
mod work;

pub use bits::{Bits, SHELF_BITS};
pub use changing::{Effect, Pruned};
pub use error::ShelfError;
pub use files::{NewFolder, PartFile, LIST_FILE, SHELF_FILE};
pub use proof::{shelf_pieces, shelf_verify, shelf_verify_pocket, SHELF_PROOF_BYTES};
pub use publish::{Made, Rounds, ROUND_PARTS};
pub use reading::PartAt;
pub use rescue::{PartsAlone, RescuedShelf, ShelfRescue};

use crate::{Header, Lookup, Store};
use std::collections::BTreeMap;
use std::path::{Path, PathBuf};

/// A store as a file has it.
type Bytes = Store<Vec<u8>>;

/// A shelf in a folder, as it was when it was opened: `list`, a store, and a file for each part. What is published later isn't seen. Where a part's file was
/// replaced meanwhile, the newer one is read: it has the same versions, and its root is compared with the list's.
///
/// ```
/// use grants::{shelf_verify, Batch, Shelf, Value};
///
/// let folder = std::env::temp_dir().join(format!("shelf-{}", std::process::id()));
/// let mut shelf = Shelf::create(&folder, 4, 64, 64)?;
/// let mut batch = Batch::new();
/// batch.insert([0x00; 32], [7; 32]).unwrap().insert([0xf0; 32], [8; 32]).unwrap();
/// let made = shelf.publish(1, &batch)?;
///
/// // The list's root is signed; a proof is the list's for the part, then the part's for the key.
/// let root = shelf.root(1)?;
/// assert_eq!(root, made.root);
/// let proof = shelf.prove(1, [0xf0; 32])?;
/// assert_eq!(shelf_verify(root, 4, [0xf0; 32], &proof).unwrap(), Some(Value::from([8; 32])));
/// assert_eq!(shelf_verify(root, 4, [0x70; 32], shelf.prove(1, [0x70; 32])?).unwrap(), None);
/// # std::fs::remove_dir_all(&folder).unwrap();
/// # Ok::<(), grants::ShelfError>(())
/// ```
#[derive(Debug)]
pub struct Shelf {
    folder: PathBuf,
    bits: Bits,
    /// How many slots a new part gets.
    slots: u32,
    list: Bytes,
    header: Header,
    files: BTreeMap<u16, PartFile>,
    progress: fn(usize, usize),
    /// Whether the stores in the folder are of the old form.
    old: bool,
    /// How the list is read, which every key's way begins with.
    lookup: Lookup,
}

impl Shelf {
    pub fn folder(&self) -> &Path {
        &self.folder
    }

    pub fn bits(&self) -> Bits {
        self.bits
    }

    pub fn slots(&self) -> u32 {
        self.slots
    }

    /// The store whose root is signed.
    pub fn list(&self) -> &Store<Vec<u8>> {
        &self.list
    }

    /// What the list's header says; oldest and latest are those of the shelf.
    pub fn header(&self) -> Header {
        self.header
    }

    /// The parts' files, by part.
    pub fn files(&self) -> impl Iterator<Item = &PartFile> {
        self.files.values()
    }

    /// Whether the stores in the folder are of the old form ([`Shelf::open_old`]).
    pub fn is_old_form(&self) -> bool {
        self.old
    }

    /// What is told how many of so many parts are done, by whichever thread did one.
    pub fn tell(&mut self, progress: fn(usize, usize)) {
        self.progress = progress;
    }
}
