/// A range has at most so many versions.
pub const RANGE_VERSIONS: u32 = 1_024;

/// What is counted over the tree of one version.
///
/// ```
/// use grants::{Batch, Error, Figures, Store};
///
/// let mut store = Store::with_capacity(20)?;
/// let mut batch = Batch::new();
/// batch.insert([0x00; 32], [7; 32]).unwrap().insert([0x80; 32], [8; 32]).unwrap();
/// store.apply(1, &batch)?;
/// store.apply(4, &Batch::new())?;
/// let range = store.figures(0, 4)?;
/// assert_eq!(range.of(0), Some(Figures::default()));
/// assert_eq!(range.of(3), Some(Figures { leaves: 2, inner_nodes: 1, longest_path: 1, path_sum: 2 }));
/// assert_eq!(range.of(5), None);
/// // Two leaves and two roots; three records in each of the versions 1 to 4.
/// assert_eq!((range.distinct, range.records), (4, 12));
/// assert_eq!(store.figures(0, 5), Err(Error::VersionNotKept));
/// # Ok::<(), Error>(())
/// ```
#[derive(Clone, Copy, Debug, Default, PartialEq, Eq)]
pub struct Figures {
    /// The grants.
    pub leaves: u32,
    pub inner_nodes: u32,
    /// The path of a grant has as many steps as its proof.
    pub longest_path: u32,
    pub path_sum: u32,
}

impl Figures {
    pub fn records(&self) -> u32 {
        self.leaves + self.inner_nodes
    }
}

/// The figures of the versions of a range, and what is counted over all of them.
#[derive(Clone, Debug, PartialEq, Eq)]
pub struct RangeFigures {
    pub first: u32,
    pub each: Vec<Figures>,
    /// Records that stand in the tree of some version of the range.
    pub distinct: u32,
    /// The records of each version, added up.
    pub records: u32,
}

impl RangeFigures {
    pub(crate) fn read(first: u32, room: &[u8], totals: [u8; 8]) -> RangeFigures {
        let at = |bytes: &[u8], i: usize| {
            u32::from_le_bytes(bytes[4 * i..4 * i + 4].try_into().expect("4 bytes"))
        };
        let one = |part: &[u8]| Figures {
            leaves: at(part, 0),
            inner_nodes: at(part, 1),
            longest_path: at(part, 2),
            path_sum: at(part, 3),
        };
        RangeFigures {
            first,
            each: room.chunks_exact(16).map(one).collect(),
            distinct: at(&totals, 0),
            records: at(&totals, 1),
        }
    }

    /// Those of one version of the range.
    pub fn of(&self, version: u32) -> Option<Figures> {
        let more = version.checked_sub(self.first)?;
        self.each.get(more as usize).copied()
    }

    /// Each version with its figures.
    pub fn iter(&self) -> impl Iterator<Item = (u32, Figures)> + '_ {
        (self.first..).zip(self.each.iter().copied())
    }
}
