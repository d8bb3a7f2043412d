//! Beyond 02: up to 256 proofs of one root in one call, as single checks one after the other.

use crate::bytes::u32_at;
use crate::palette::KEYS;
use crate::{verify, Refusal};

/// The bytes of one answer: the number of the single check, then the 33 bytes that it leaves where zeros were.
pub const ANSWER: usize = 34;

/// As many pieces as keys, each as long as its first four bytes say, at least 4, none over.
pub fn pieces(row: &[u8], n: usize) -> Option<Vec<&[u8]>> {
    let mut rest = row;
    let mut pieces = vec![];
    for _ in 0..n {
        let length = if rest.len() < 4 { return None } else { u32_at(rest, 0) as usize };
        if length < 4 || length > rest.len() {
            return None;
        }
        pieces.push(&rest[..length]);
        rest = &rest[length..];
    }
    rest.is_empty().then_some(pieces)
}

/// 12 for the root and the list, 10 for the row, 9 for the room; then each key's own answer, whatever its piece is.
pub fn verify_many(root: &[u8], keys: &[u8], row: &[u8], answers: &mut [u8]) -> Result<(), Refusal> {
    if root.len() != 32 || keys.len() % 32 != 0 || keys.len() / 32 > KEYS {
        return Err(12);
    }
    let pieces = pieces(row, keys.len() / 32).ok_or(10u32)?;
    if answers.len() < ANSWER * pieces.len() {
        return Err(9);
    }
    for ((key, proof), answer) in keys.chunks(32).zip(pieces).zip(answers.chunks_mut(ANSWER)) {
        answer.fill(0);
        match verify(root, key, proof) {
            Err(number) => answer[0] = number as u8,
            Ok(None) => {}
            Ok(Some(value)) => {
                answer[1] = 1;
                answer[2..].copy_from_slice(&value);
            }
        }
    }
    Ok(())
}
