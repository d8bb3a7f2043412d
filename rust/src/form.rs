//! The sizes, kinds and offsets of docs/FORMAT.md. No other file of the crate or of the tool has them as numbers.

/// The most slots that a store may have.
pub const MOST_SLOTS: u32 = 16_384;

/// The bytes of a store's header.
pub const HEADER_BYTES: usize = 24;

/// The bytes of a slot.
pub const SLOT_BYTES: usize = 128;

/// The bytes of a slot of the old form, whose inner records have no counts.
pub const OLD_SLOT_BYTES: usize = 120;

/// The bytes of a record of a batch or of a list of changes.
pub const RECORD_BYTES: usize = 72;

/// Where a store's header has its capacity.
pub const CAPACITY_AT: std::ops::Range<usize> = at::CAPACITY..at::OLDEST;

/// The bytes of a store with this many slots.
///
/// ```
/// assert_eq!(grants::store_bytes(20), 2_584);
/// ```
pub const fn store_bytes(capacity: u32) -> usize {
    HEADER_BYTES + SLOT_BYTES * capacity as usize
}

/// The bytes of a store of the old form with this many slots.
///
/// ```
/// assert_eq!(grants::old_store_bytes(20), 2_424);
/// ```
pub const fn old_store_bytes(capacity: u32) -> usize {
    HEADER_BYTES + OLD_SLOT_BYTES * capacity as usize
}

pub(crate) const OLD_HEADER_KIND: u16 = 1;
pub(crate) const LEAF_KIND: u16 = 2;
pub(crate) const INNER_KIND: u16 = 5;

/// What the length field of a leaf says; from there on its slot is zero.
pub(crate) const LEAF_LENGTH: usize = 112;
pub(crate) const INNER_LENGTH: usize = SLOT_BYTES;

/// A batch record that inserts has all its bytes as its length; one that deletes has no value, and a length without it.
pub(crate) const INSERT_KIND: u16 = 1;
pub(crate) const DELETE_KIND: u16 = 2;
pub(crate) const DELETE_LENGTH: usize = 40;

/// The most bits of a place at which a leaf, and an inner record, may stand.
pub(crate) const LEAF_BITS: usize = 256;
pub(crate) const INNER_BITS: usize = 255;

/// Where fields stand: of every record, of the header, of a slot with a record, of a batch record.
pub(crate) mod at {
    use std::ops::Range;

    pub const LENGTH: usize = 0;
    pub const KIND: usize = 4;

    pub const CAPACITY: usize = 8;
    pub const OLDEST: usize = 12;
    pub const LATEST: usize = 16;

    pub const BIT_COUNT: usize = 6;
    pub const BITS: usize = 8;
    pub const VERSION: usize = 40;
    pub const RETIRED_SINCE: usize = 44;
    pub const KEY: usize = 48;
    pub const VALUE: usize = 80;
    /// A child is its version (4 bytes) and its hash (32), left then right.
    pub const CHILDREN: [usize; 2] = [48, 84];
    pub const CHILD_HASH: Range<usize> = 4..36;
    pub const COUNTS: [usize; 2] = [120, 124];

    pub const RECORD_KEY: Range<usize> = 8..40;
    pub const RECORD_VALUE: Range<usize> = 40..72;
}
