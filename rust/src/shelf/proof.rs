use crate::{ffi, proof, verify_pocket, Error, Key, Palette, RefusedAt, Value, PROOF_BYTES};

/// The longest proof of a shelf has this many bytes: the list's, then a part's.
pub const SHELF_PROOF_BYTES: usize = 2 * PROOF_BYTES;

/// The kind of a presence proof (docs/FORMAT.md).
const PRESENCE: u8 = 16;

/// What a shelf's proof shows of a key against the list's root: its value, or none for 'absent'. The bits are the shelf's, and are to be known as the root is: from
/// whoever signs. Refused: 12, 21 (bits above 12), 10 (not the list's record, with a part's after it exactly where the list shows one, no byte over), 11.
///
/// ```
/// use grants::{shelf_verify, Error};
///
/// assert_eq!(shelf_verify([0; 31], 13, [0; 32], []), Err(Error::NotThirtyTwoBytes));
/// assert_eq!(shelf_verify([0; 32], 13, [0; 32], []), Err(Error::TooManyBits));
/// assert_eq!(shelf_verify([0; 32], 12, [0; 32], []), Err(Error::ProofForm));
/// ```
pub fn shelf_verify(
    root: impl AsRef<[u8]>,
    bits: u32,
    key: impl AsRef<[u8]>,
    proof: impl AsRef<[u8]>,
) -> Result<Option<Value>, Error> {
    ffi::shelf_verify(root.as_ref(), bits, key.as_ref(), proof.as_ref()).map(proof::found)
}

/// The same within the pocket profile: a device checks the two records one after the other, each with [`verify_pocket`], and so each leaf that either
/// shows has at most 32 steps. Refused: 12, 21, 10, 19, 11.
///
/// ```
/// use grants::{shelf_verify_pocket, Error};
///
/// assert_eq!(shelf_verify_pocket([0; 32], 13, [0; 32], []), Err(Error::TooManyBits));
/// assert_eq!(shelf_verify_pocket([0; 32], 12, [0; 32], []), Err(Error::ProofForm));
/// ```
pub fn shelf_verify_pocket(
    root: impl AsRef<[u8]>,
    bits: u32,
    key: impl AsRef<[u8]>,
    proof: impl AsRef<[u8]>,
) -> Result<Option<Value>, Error> {
    let proof = proof.as_ref();
    let full = shelf_verify(root, bits, key, proof);
    match full {
        Ok(_) | Err(Error::ProofFails) => {}
        Err(error) => return Err(error),
    }
    // Whether a record is outside the profile is said whatever root and key it is held against.
    let (first, second) = records(proof);
    let outside = |one: &[u8]| verify_pocket([0; 32], [0; 32], one) == Err(Error::OutsidePocket);
    match outside(first) || outside(second) {
        true => Err(Error::OutsidePocket),
        false => full,
    }
}

/// The first record of a shelf's proof, and what follows it.
pub(super) fn records(proof: &[u8]) -> (&[u8], &[u8]) {
    proof.split_at(record(proof))
}

/// The proofs of a shelf that stand one after the other, cut apart by the lengths and the kinds of their records: one record, and a second one where the first shows
/// a presence. Whether a piece is a proof, [`shelf_verify`] says.
pub fn shelf_pieces(proofs: &[u8]) -> Vec<&[u8]> {
    let mut pieces = vec![];
    let mut rest = proofs;
    while !rest.is_empty() {
        let mut end = record(rest);
        if end < rest.len() && rest.get(4) == Some(&PRESENCE) {
            end += record(&rest[end..]);
        }
        let (piece, after) = rest.split_at(end);
        pieces.push(piece);
        rest = after;
    }
    pieces
}

/// The bytes of the first record, all of them where no length divides them.
fn record(bytes: &[u8]) -> usize {
    let said = bytes
        .first_chunk()
        .map_or(0, |four| u32::from_le_bytes(*four) as usize);
    match (4..=bytes.len()).contains(&said) {
        true => said,
        false => bytes.len(),
    }
}

impl Palette {
    /// The same as [`Palette::verify`] for the proofs of a shelf with so many bits, against its list's root.
    pub fn verify_shelf(
        &self,
        root: impl AsRef<[u8]>,
        bits: u32,
        keys: &[Key],
    ) -> Result<Vec<Option<Value>>, RefusedAt> {
        let pieces = shelf_pieces(self.as_bytes());
        let mut shown = Vec::with_capacity(keys.len());
        for (position, key) in keys.iter().enumerate() {
            let piece = pieces.get(position).copied().unwrap_or_default();
            let verdict = shelf_verify(root.as_ref(), bits, key, piece);
            shown.push(verdict.map_err(|error| RefusedAt { position, error })?);
        }
        let (position, error) = (keys.len(), Error::ProofForm);
        match pieces.len() > keys.len() {
            true => Err(RefusedAt { position, error }),
            false => Ok(shown),
        }
    }
}
