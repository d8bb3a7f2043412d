use std::fmt;

/// A number of refusal (docs/RULES.md). A refused call wrote nothing.
///
/// ```
/// use grants::{Error, Store};
///
/// let refused = Store::over([0u8; 100]).check().unwrap_err();
/// assert_eq!(refused, Error::Size);
/// assert_eq!(refused.number(), 1);
/// assert_eq!(refused.to_string(), "the store's length isn't 24 + 128n, n in 1 to 16,384");
/// ```
#[derive(Clone, Copy, Debug, PartialEq, Eq, Hash)]
#[non_exhaustive]
pub enum Error {
    /// 1: the store's length isn't 24 + 128n, n in 1 to 16,384.
    Size,
    /// 2: a header field isn't right, its capacity isn't n, or oldest is above latest.
    Header,
    /// 3: the store isn't sound (check, apply, prune, changes, figures, finding), or a read met what can't be: a leaf whose key doesn't begin with its place, or, going by
    /// counts to a position, a child that isn't there or a leaf with positions left over ([`Store::met_at`](crate::Store::met_at) tells which);
    /// rescue: no version can be rescued.
    Unsound,
    /// 3 with a slot (reads): a record is spoilt. The slot, the lowest such, is used and not in form, but its fields say that it was the record
    /// wanted.
    Spoilt { slot: u32 },
    /// 4: the batch isn't whole records in form, or has over 1,024.
    BatchForm,
    /// 5: the batch's keys aren't strictly ascending.
    BatchOrder,
    /// 7: fewer free slots than new records.
    NoRoom,
    /// 8: the version isn't in oldest to latest; figures: not a range of 1 to 1,024 such versions.
    VersionNotKept,
    /// 9: the proof, the proofs together, the list, the figures or the message are longer than the room.
    ProofTooLong,
    /// 10: the proof isn't one whole record in form (of a shelf one or two), no byte over; or the message isn't in its one encoding.
    ProofForm,
    /// 11: the proof is in form, but doesn't hold.
    ProofFails,
    /// 12: a key or root handed in isn't 32 bytes, or a list of keys isn't 0 to 256 whole keys.
    NotThirtyTwoBytes,
    /// 13: a comparison has more visits than the limit.
    TooManyVisits,
    /// 14: the version is empty, so there is no proof; its root of 32 zero bytes itself shows that nothing is granted.
    EmptyVersion,
    /// 15: a raw key or value has another length than 1 to 256, or 1 to 4,096 bytes, or doesn't hash to what the proof holds.
    RawPart,
    /// 16: the table isn't the right one of the store.
    WrongIndex,
    /// 17 (reads): a record is lost: a child that is wanted stands in no slot.
    Lost,
    /// 18: the number to publish under isn't above latest.
    NotAboveLatest,
    /// 19: a leaf is shown with more than 32 steps, outside the pocket profile.
    OutsidePocket,
    /// 20: the position isn't below the number of grants.
    NoSuchPosition,
    /// 21: a shelf has at most 12 bits.
    TooManyBits,
}

/// The table of the rules, number 1 first, in the words of include/grants.h.
const TABLE: [(u32, Error, &str); 20] = [
    (
        1,
        Error::Size,
        "the store's length isn't 24 + 128n, n in 1 to 16,384",
    ),
    (
        2,
        Error::Header,
        "a header field isn't right, its capacity isn't n, or oldest is above latest",
    ),
    (3, Error::Unsound, "the store isn't sound"),
    (
        4,
        Error::BatchForm,
        "the batch isn't whole records in form, or has over 1,024",
    ),
    (
        5,
        Error::BatchOrder,
        "the batch's keys aren't strictly ascending",
    ),
    (7, Error::NoRoom, "fewer free slots than new records"),
    (
        8,
        Error::VersionNotKept,
        "the version isn't in oldest to latest; figures: not a range of 1 to 1,024 such versions",
    ),
    (
        9,
        Error::ProofTooLong,
        "the proof, the proofs together, the list, the figures or the message are longer than the room",
    ),
    (
        10,
        Error::ProofForm,
        "the proof isn't one whole record in form (of a shelf one or two), no byte over; or the message isn't in its one encoding",
    ),
    (
        11,
        Error::ProofFails,
        "the proof is in form, but doesn't hold",
    ),
    (
        12,
        Error::NotThirtyTwoBytes,
        "a key or root handed in isn't 32 bytes, or a list of keys isn't 0 to 256 whole keys",
    ),
    (
        13,
        Error::TooManyVisits,
        "a comparison has more visits than the limit",
    ),
    (
        14,
        Error::EmptyVersion,
        "the version is empty, so there is no proof",
    ),
    (
        15,
        Error::RawPart,
        "a raw key or value has another length than 1 to 256, or 1 to 4,096 bytes, or doesn't hash to what the proof holds",
    ),
    (
        16,
        Error::WrongIndex,
        "the table beside the store isn't its right one",
    ),
    (
        17,
        Error::Lost,
        "a record is lost: a child that is wanted stands in no slot (reads)",
    ),
    (18, Error::NotAboveLatest, "the number isn't above latest"),
    (
        19,
        Error::OutsidePocket,
        "a leaf is shown with more than 32 steps, outside the pocket profile",
    ),
    (
        20,
        Error::NoSuchPosition,
        "the position isn't below the number of grants",
    ),
    (21, Error::TooManyBits, "a shelf has at most 12 bits"),
];

impl Error {
    /// The number that the table gives it.
    pub fn number(self) -> u32 {
        let row = TABLE.iter().find(|(_, error, _)| *error == self);
        row.map_or(3, |(number, ..)| *number)
    }

    /// The spoilt slot that a read named beside 3.
    pub fn slot(self) -> Option<u32> {
        match self {
            Error::Spoilt { slot } => Some(slot),
            _ => None,
        }
    }

    /// The refusal of a number, with no slot beside it; none where the table has no such row.
    ///
    /// ```
    /// use grants::Error;
    ///
    /// assert_eq!(Error::from_number(7), Some(Error::NoRoom));
    /// assert_eq!(Error::from_number(0), None);
    /// assert_eq!(Error::from_number(6), None);
    /// ```
    pub fn from_number(number: u32) -> Option<Error> {
        let row = TABLE.iter().find(|(listed, ..)| *listed == number);
        row.map(|(_, error, _)| *error)
    }
}

impl fmt::Display for Error {
    fn fmt(&self, f: &mut fmt::Formatter<'_>) -> fmt::Result {
        let row = TABLE.iter().find(|(_, error, _)| error == self);
        match (self, row) {
            (Error::Spoilt { slot }, _) => write!(f, "the record in slot {slot} is spoilt"),
            (_, Some((_, _, words))) => f.write_str(words),
            (_, None) => unreachable!("each has its row"),
        }
    }
}

impl std::error::Error for Error {}

#[cfg(test)]
mod tests {
    use super::*;

    #[test]
    fn numbers_are_the_rows_of_the_table() {
        let numbers: Vec<u32> = TABLE.iter().map(|(_, error, _)| error.number()).collect();
        assert_eq!(
            numbers,
            [1, 2, 3, 4, 5, 7, 8, 9, 10, 11, 12, 13, 14, 15, 16, 17, 18, 19, 20, 21]
        );
        for number in 0..=25 {
            let listed = numbers.contains(&number).then_some(number);
            assert_eq!(Error::from_number(number).map(Error::number), listed);
        }
        assert_eq!(Error::from_number(u32::MAX), None);
        let spoilt = Error::Spoilt { slot: 4 };
        assert_eq!((spoilt.number(), spoilt.slot()), (3, Some(4)));
        assert_eq!(spoilt.to_string(), "the record in slot 4 is spoilt");
        assert_eq!((Error::Lost.number(), Error::Lost.slot()), (17, None));
    }
}
