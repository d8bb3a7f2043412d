//! Beyond 02: a key of a shelf. The list's record is checked for the key's part, and where that shows a root, the part's record for the key under that root.

use crate::bytes::u32_at;
use crate::check::shown;
use crate::{verify, Bytes32, Refusal};

/// The most bits that may name a part.
pub const BITS: u32 = 12;

/// The part's key in the list: the key's first bits, then zeros.
pub fn part_key(key: &[u8], bits: u32) -> Bytes32 {
    let mut part = [0; 32];
    for i in 0..bits as usize {
        part[i / 8] |= key[i / 8] & (0x80 >> (i % 8));
    }
    part
}

/// The list's record and the part's, where the bytes are one or two records in form, a second one exactly where the first is of kind 16, and no byte over.
pub fn records(p: &[u8]) -> Option<(&[u8], Option<&[u8]>)> {
    let length = if p.len() < 6 { return None } else { u32_at(p, 0) as usize };
    if length > p.len() {
        return None;
    }
    let (first, second) = p.split_at(length);
    let both = first.len() >= 6 && first[4..6] == [16, 0];
    shown(first)?;
    match (both, second.is_empty()) {
        (true, false) => shown(second).map(|_| (first, Some(second))),
        (false, true) => Some((first, None)),
        _ => None,
    }
}

/// 12 for the root and the key, 21 for the bits, 10 for the form of both records, then 11 as either check gives it.
pub fn shelf_verify(root: &[u8], bits: u32, key: &[u8], p: &[u8]) -> Result<Option<Bytes32>, Refusal> {
    if root.len() != 32 || key.len() != 32 {
        return Err(12);
    }
    if bits > BITS {
        return Err(21);
    }
    let (first, second) = records(p).ok_or(10u32)?;
    match (verify(root, &part_key(key, bits), first)?, second) {
        (Some(part_root), Some(second)) => verify(&part_root, key, second),
        (None, None) => Ok(None),
        _ => Err(10),
    }
}
