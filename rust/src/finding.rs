//! What a forged proof would cost: whether a proof that is accepted tells the truth about a version, and the messages that it took if it doesn't.

use crate::{ffi, Error, Store};

/// What is hashed for a node has this many bytes: byte 1, key, value; or byte 0, left hash, right hash.
pub const MESSAGE_BYTES: usize = 65;

/// What is found of a proof that is accepted against a version's root. No one knows messages as in the last two, so `Truth` is what to expect.
#[derive(Clone, Debug, PartialEq, Eq)]
pub enum Finding {
    /// The proof tells the truth about the version, of its key and of each neighbour that it shows.
    Truth,
    /// Two different messages with the same SHA-256.
    Two([u8; MESSAGE_BYTES], [u8; MESSAGE_BYTES]),
    /// A message whose SHA-256 is 32 zero bytes.
    Zero([u8; MESSAGE_BYTES]),
}

impl<B: AsRef<[u8]>> Store<B> {
    /// What a proof for a key in a version is worth to whom has the store too. It is proved of the library that a proof which is accepted against the
    /// version's root and says something false always gives messages, from those of the version's nodes and those hashed while checking, and that a
    /// true one never does. Refused: 12, 1, 2, 3, 8, 14, 10, 11.
    ///
    /// ```
    /// use grants::{Batch, Error, Finding, Store};
    ///
    /// let mut store = Store::with_capacity(20)?;
    /// let mut batch = Batch::new();
    /// batch.insert([1; 32], [7; 32]).unwrap();
    /// store.apply(1, &batch)?;
    /// let proof = store.prove(1, [2; 32])?;
    /// assert_eq!(store.finding(1, [2; 32], &proof)?, Finding::Truth);
    /// assert_eq!(store.finding(1, [1; 32], &proof), Err(Error::ProofFails));
    /// # Ok::<(), Error>(())
    /// ```
    pub fn finding(
        &self,
        version: u32,
        key: impl AsRef<[u8]>,
        proof: impl AsRef<[u8]>,
    ) -> Result<Finding, Error> {
        let told = ffi::finding(self.as_bytes(), version, key.as_ref(), proof.as_ref())?;
        let part = |at: usize| -> [u8; MESSAGE_BYTES] {
            told[at..at + MESSAGE_BYTES].try_into().expect("65 bytes")
        };
        Ok(match told[0] {
            0 => Finding::Truth,
            1 => Finding::Two(part(1), part(66)),
            _ => Finding::Zero(part(1)),
        })
    }
}
