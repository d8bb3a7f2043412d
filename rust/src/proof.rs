use crate::{ffi, Error, Key, Value};

/// The longest proof has this many bytes.
pub const PROOF_BYTES: usize = 17_080;

/// The longest proof of the pocket profile: no leaf that it shows has more than 32 steps.
pub const POCKET_BYTES: usize = 2_296;

/// That a key is in a version, or that it isn't. Whoever has the version's root can check it; nothing else need be trusted.
///
/// ```
/// use grants::{Batch, Error, Proof, Store, Value};
///
/// let mut store = Store::with_capacity(20)?;
/// let mut batch = Batch::new();
/// batch.insert([1; 32], [7; 32]).unwrap();
/// let root = store.apply(1, &batch)?.root;
///
/// let sent: Vec<u8> = store.prove(1, [1; 32])?.into_bytes();
///
/// // In the editor, which has the root from a signature and the proof from anybody:
/// let proof = Proof::from_bytes(sent);
/// assert_eq!(proof.verify(root, [1; 32])?, Some(Value::from([7; 32])));
/// assert_eq!(proof.verify(root, [2; 32]), Err(Error::ProofFails));
/// # Ok::<(), Error>(())
/// ```
#[derive(Clone, Debug, PartialEq, Eq)]
pub struct Proof {
    bytes: Vec<u8>,
}

impl Proof {
    /// Any bytes, from anybody; [`Proof::verify`] judges them.
    pub fn from_bytes(bytes: impl Into<Vec<u8>>) -> Proof {
        Proof {
            bytes: bytes.into(),
        }
    }

    pub fn as_bytes(&self) -> &[u8] {
        &self.bytes
    }

    pub fn into_bytes(self) -> Vec<u8> {
        self.bytes
    }

    /// See [`verify`].
    pub fn verify(
        &self,
        root: impl AsRef<[u8]>,
        key: impl AsRef<[u8]>,
    ) -> Result<Option<Value>, Error> {
        verify(root, key, &self.bytes)
    }
}

impl AsRef<[u8]> for Proof {
    fn as_ref(&self) -> &[u8] {
        &self.bytes
    }
}

/// What a proof shows of a key against a root: its value, or none for 'absent'. Refused: 12, 10, 11.
///
/// ```
/// use grants::{verify, Error, Root};
///
/// // Nothing is in an empty version: its root says so, and there is no proof. One without a neighbour is off form.
/// let mut proof = [0; 40];
/// proof[0] = 40;
/// proof[4] = 17;
/// assert_eq!(verify(Root::EMPTY, [0; 32], proof), Err(Error::ProofForm));
/// assert_eq!(verify(Root::EMPTY, [0; 31], proof), Err(Error::NotThirtyTwoBytes));
/// ```
pub fn verify(
    root: impl AsRef<[u8]>,
    key: impl AsRef<[u8]>,
    proof: impl AsRef<[u8]>,
) -> Result<Option<Value>, Error> {
    ffi::verify(root.as_ref(), key.as_ref(), proof.as_ref()).map(found)
}

/// What each proof of a row shows of its key against one root: for each key, in their order, what [`verify`] answers. Checked at once they take a
/// fraction of the time of as many single checks. Up to 256 keys, with a proof for each, one after the other as [`Palette`](crate::Palette) has them.
///
/// The whole is refused where it can't be cut into as many pieces as keys by the lengths with which they begin (10), and for a root that isn't 32
/// bytes or for more keys (12); a piece that is no proof in form is that key's own answer.
///
/// ```
/// use grants::{verify_many, Batch, Error, Key, Store, Value};
///
/// let mut store = Store::with_capacity(20)?;
/// let mut batch = Batch::new();
/// batch.insert([1; 32], [7; 32]).unwrap().insert([2; 32], [8; 32]).unwrap();
/// let root = store.apply(1, &batch)?.root;
///
/// let keys = [Key::from([2; 32]), Key::from([3; 32])];
/// let mut proofs = store.palette(1, &keys)?.into_bytes();
/// assert_eq!(verify_many(root, &keys, &proofs)?, [Ok(Some(Value::from([8; 32]))), Ok(None)]);
///
/// // A byte of the value of the first proof is changed, then a byte is added.
/// proofs[40] ^= 1;
/// assert_eq!(verify_many(root, &keys, &proofs)?, [Err(Error::ProofFails), Ok(None)]);
/// proofs.push(0);
/// assert_eq!(verify_many(root, &keys, &proofs), Err(Error::ProofForm));
/// # Ok::<(), Error>(())
/// ```
pub fn verify_many(
    root: impl AsRef<[u8]>,
    keys: &[Key],
    proofs: impl AsRef<[u8]>,
) -> Result<Vec<Result<Option<Value>, Error>>, Error> {
    let list: Vec<u8> = keys.iter().flat_map(|key| *key.as_bytes()).collect();
    let mut answers = vec![0; ANSWER_BYTES * keys.len()];
    ffi::verify_many(root.as_ref(), &list, proofs.as_ref(), &mut answers)?;
    Ok(answers.chunks_exact(ANSWER_BYTES).map(answered).collect())
}

/// The number of a single check, and the 33 bytes of what it finds.
const ANSWER_BYTES: usize = 34;

fn answered(answer: &[u8]) -> Result<Option<Value>, Error> {
    let (number, bytes) = answer.split_first().expect("34 bytes");
    match Error::from_number((*number).into()) {
        None => Ok(found(bytes.try_into().expect("33 bytes"))),
        Some(error) => Err(error),
    }
}

/// The same as [`verify`] for proofs of the pocket profile, of at most 32 steps for each leaf shown; others in form are refused with 19, whether they hold or
/// not. Refused: 12, 10, 19, 11.
///
/// ```
/// use grants::{verify, verify_pocket, Batch, Error, Store};
///
/// // Two keys that part at bit 40: each has 41 steps.
/// let mut store = Store::with_capacity(64)?;
/// let mut far = [0; 32];
/// far[5] = 0x80;
/// let mut batch = Batch::new();
/// batch.insert([0; 32], [7; 32]).unwrap().insert(far, [8; 32]).unwrap();
/// let root = store.apply(1, &batch)?.root;
/// let proof = store.prove(1, far)?;
/// assert!(verify(root, far, &proof)?.is_some());
/// assert_eq!(verify_pocket(root, far, &proof), Err(Error::OutsidePocket));
/// assert_eq!(store.prove_pocket(1, far), Err(Error::OutsidePocket));
/// # Ok::<(), Error>(())
/// ```
pub fn verify_pocket(
    root: impl AsRef<[u8]>,
    key: impl AsRef<[u8]>,
    proof: impl AsRef<[u8]>,
) -> Result<Option<Value>, Error> {
    ffi::pocket_verify(root.as_ref(), key.as_ref(), proof.as_ref()).map(found)
}

/// 1 and the value, or 0.
pub(crate) fn found(answer: [u8; 33]) -> Option<Value> {
    let (present, value) = answer.split_first().expect("33 bytes");
    let value: [u8; 32] = value.try_into().expect("32 bytes");
    (*present == 1).then_some(Value::from(value))
}
