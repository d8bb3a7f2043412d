use crate::{proof, Error, Key, Value};

/// The most keys of one palette.
pub const PALETTE_KEYS: usize = 256;

/// The proofs for several keys of a version, one after the other in the order asked: what an editor asks for on opening.
///
/// ```
/// use grants::{Batch, Error, Key, Palette, Store, Value};
///
/// let mut store = Store::with_capacity(20)?;
/// let mut batch = Batch::new();
/// batch.insert([1; 32], [7; 32]).unwrap().insert([2; 32], [8; 32]).unwrap();
/// let root = store.apply(1, &batch)?.root;
///
/// let keys = [Key::from([2; 32]), Key::from([3; 32]), Key::from([2; 32])];
/// let sent: Vec<u8> = store.palette(1, &keys)?.into_bytes();
/// let single: Vec<u8> = store.prove(1, keys[0])?.into_bytes();
/// assert!(sent.starts_with(&single) && sent.ends_with(&single));
///
/// // In the editor, which has the root from a signature and the proofs from anybody:
/// let shown = Palette::from_bytes(sent).verify(root, &keys).unwrap();
/// assert_eq!(shown, [Some(Value::from([8; 32])), None, Some(Value::from([8; 32]))]);
/// # Ok::<(), Error>(())
/// ```
#[derive(Clone, Debug, PartialEq, Eq)]
pub struct Palette {
    bytes: Vec<u8>,
}

/// The first proof of a palette that is refused: the position of its key, the number of keys where bytes are left over, and why.
#[derive(Clone, Copy, Debug, PartialEq, Eq)]
pub struct RefusedAt {
    pub position: usize,
    pub error: Error,
}

impl Palette {
    /// Any bytes, from anybody; [`Palette::verify`] judges them.
    pub fn from_bytes(bytes: impl Into<Vec<u8>>) -> Palette {
        Palette {
            bytes: bytes.into(),
        }
    }

    pub fn as_bytes(&self) -> &[u8] {
        &self.bytes
    }

    pub fn into_bytes(self) -> Vec<u8> {
        self.bytes
    }

    /// The proofs, cut apart by their own lengths, which their first four bytes say. Bytes that no length divides are the last one, which
    /// [`verify`](crate::verify) refuses.
    ///
    /// ```
    /// use grants::Palette;
    ///
    /// let bytes = [5, 0, 0, 0, 1, 4, 0, 0, 0, 9, 9];
    /// let cut: Vec<usize> = Palette::from_bytes(bytes).proofs().map(<[u8]>::len).collect();
    /// assert_eq!(cut, [5, 4, 2]);
    /// ```
    pub fn proofs(&self) -> impl Iterator<Item = &[u8]> {
        let mut rest = &self.bytes[..];
        std::iter::from_fn(move || {
            if rest.is_empty() {
                return None;
            }
            let said = rest
                .first_chunk()
                .map_or(0, |four| u32::from_le_bytes(*four) as usize);
            let end = if (4..=rest.len()).contains(&said) {
                said
            } else {
                rest.len()
            };
            let (proof, after) = rest.split_at(end);
            rest = after;
            Some(proof)
        })
    }

    /// What the proofs show of the keys they were asked for, in that order, against a root: the value, or none for 'absent'. All of them, or the first
    /// that is refused with 12, 10 or 11; a proof that is missing, and bytes left over, are off form (10).
    pub fn verify(
        &self,
        root: impl AsRef<[u8]>,
        keys: &[Key],
    ) -> Result<Vec<Option<Value>>, RefusedAt> {
        // At once where that can be; else one by one, which finds the position.
        if let Ok(answers) = proof::verify_many(root.as_ref(), keys, &self.bytes) {
            let each = answers.into_iter().enumerate();
            return each
                .map(|(position, answer)| answer.map_err(|error| RefusedAt { position, error }))
                .collect();
        }
        let mut proofs = self.proofs();
        let mut shown = Vec::with_capacity(keys.len());
        for (position, key) in keys.iter().enumerate() {
            let proof = proofs.next().unwrap_or_default();
            let verdict = proof::verify(root.as_ref(), key, proof);
            shown.push(verdict.map_err(|error| RefusedAt { position, error })?);
        }
        match proofs.next() {
            None => Ok(shown),
            Some(_) => Err(RefusedAt {
                position: keys.len(),
                error: Error::ProofForm,
            }),
        }
    }
}

impl AsRef<[u8]> for Palette {
    fn as_ref(&self) -> &[u8] {
        &self.bytes
    }
}
