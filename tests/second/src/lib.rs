//! The grant store a second time, in plain Rust, from documents 01 and 02 and from nothing else. It is what the proved library is compared
//! with, so it says each rule as 01 says it: trees are made from sets of grants, soundness follows every kept version's tree.

pub mod bytes;
pub mod calls;
pub mod changes;
pub mod check;
pub mod figures;
pub mod forged;
pub mod form;
pub mod ics23;
pub mod indexed;
pub mod many;
pub mod message;
pub mod moving;
pub mod palette;
pub mod pocket;
pub mod positions;
pub mod proof;
pub mod rescue;
#[path = "../../common/plain_sha256.rs"]
pub mod sha256;
pub mod shelf;
pub mod sound;
pub mod tree;

pub use calls::{apply, format, get, prune, root};
pub use changes::changes;
pub use check::verify;
pub use many::verify_many;
pub use figures::figures;
pub use forged::finding;
pub use message::{ics23_read, ics23_write};
pub use moving::{back, over};
pub use palette::palette;
pub use pocket::{pocket_prove, pocket_verify};
pub use positions::{at, count};
pub use proof::prove;
pub use rescue::rescue;
pub use shelf::shelf_verify;
pub use sound::check;

pub type Bytes32 = [u8; 32];
pub const ZEROS: Bytes32 = [0; 32];

/// A number of refusal, as in 01's table.
pub type Refusal = u32;

/// What a read is refused with: the number, and beside 3 the spoiled slot, where the cause is one (02, 2026-07).
#[derive(Clone, Copy, PartialEq, Eq)]
pub struct Stopped {
    pub number: Refusal,
    pub slot: Option<usize>,
}

/// With no slot beside it.
pub const fn alone(number: Refusal) -> Stopped {
    Stopped { number, slot: None }
}

pub const fn spoiled(slot: usize) -> Stopped {
    Stopped { number: 3, slot: Some(slot) }
}

impl From<Refusal> for Stopped {
    fn from(number: Refusal) -> Stopped {
        alone(number)
    }
}

impl std::fmt::Debug for Stopped {
    fn fmt(&self, f: &mut std::fmt::Formatter<'_>) -> std::fmt::Result {
        match self.slot {
            None => write!(f, "{}", self.number),
            Some(slot) => write!(f, "{} with slot {slot}", self.number),
        }
    }
}
