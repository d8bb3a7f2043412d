//! 01, 'Bytes', and 02, 2026-09: how long header and slots are, which kinds they have and where their fields stand. Each number stands here alone.

/// Which form a store has: that of 01, or the one with counts that 02, 2026-09, puts in its place.
#[derive(Clone, Copy, PartialEq, Eq, Debug)]
pub enum Form {
    Plain,
    Counted,
}

/// The form that the calls take. Whatever can also be asked of the other one has a second name that ends in `_in`.
pub const FORM: Form = Form::Counted;

pub const HEADER: usize = 24;
pub const SLOT: usize = FORM.slot();
pub const MOST_SLOTS: usize = 16_384;

/// A leaf is as long in both forms: the rest of its slot is zero.
pub const LEAF: Head = Head { length: 112, kind: 2 };
pub const INNER: Head = FORM.inner();

/// What a record begins with.
#[derive(Clone, Copy, PartialEq, Eq, Debug)]
pub struct Head {
    pub length: u32,
    pub kind: u16,
}

impl Form {
    pub const fn slot(self) -> usize {
        match self {
            Form::Plain => 120,
            Form::Counted => 128,
        }
    }

    pub const fn header(self) -> Head {
        let kind = match self {
            Form::Plain => 1,
            Form::Counted => 4,
        };
        Head { length: HEADER as u32, kind }
    }

    pub const fn inner(self) -> Head {
        let kind = match self {
            Form::Plain => 3,
            Form::Counted => 5,
        };
        Head { length: self.slot() as u32, kind }
    }
}

/// Where the fields of a header stand.
pub mod header {
    pub const GAP: usize = 6;
    pub const CAPACITY: usize = 8;
    pub const OLDEST: usize = 12;
    pub const LATEST: usize = 16;
    pub const TAIL: usize = 20;
}

/// Where the fields of a slot stand.
pub mod slot {
    pub const LENGTH: usize = 0;
    pub const KIND: usize = 4;
    pub const BIT_COUNT: usize = 6;
    pub const BITS: usize = 8;
    pub const VERSION: usize = 40;
    pub const RETIRED: usize = 44;
    /// Of a leaf.
    pub const KEY: usize = 48;
    pub const VALUE: usize = 80;
    pub const TAIL: usize = 112;
    /// Of an inner record, left and right: a child's version, its hash, and behind them all the number of leaves below it.
    pub const CHILD: [usize; 2] = [48, 84];
    pub const CHILD_HASH: [usize; 2] = [52, 88];
    pub const LEAVES: [usize; 2] = [120, 124];
}
