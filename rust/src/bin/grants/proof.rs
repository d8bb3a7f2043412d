//! A proof as it is read from a file, and what to do about one that is refused.

use crate::asked::LENGTH_ADVICE;
use crate::fail::Fail;
use crate::plain::shown;
use grants::{from_hex, Error};
use std::path::Path;

/// A proof's bytes, or their hex digits. Byte 4 of a proof in form is 16 or 17, which is no digit.
pub fn proof_bytes(bytes: Vec<u8>) -> Result<Vec<u8>, Fail> {
    let hex_or_space = |b: &u8| b.is_ascii_hexdigit() || b.is_ascii_whitespace();
    if !bytes.iter().all(hex_or_space) {
        return Ok(bytes);
    }
    let digits: String = bytes.iter().map(|b| char::from(*b)).collect();
    let digits: String = digits.split_whitespace().collect();
    from_hex(&digits).map_err(|e| Fail::Refused(Error::ProofForm, format!("It has {e}.")))
}

/// What to do about a proof that is refused.
pub fn proof_advice(error: Error, path: &Path) -> String {
    match error {
        Error::ProofForm => format!("{} is no proof, or not a whole one: get it again.", shown(path)),
        Error::ProofFails => {
            "It shows nothing of this key under this root: are both the ones it was made for? If so, whoever sent it is not to be trusted."
                .to_string()
        }
        _ => LENGTH_ADVICE.to_string(),
    }
}
