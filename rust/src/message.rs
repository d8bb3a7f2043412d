//! The message of ICS 23 that partners' verifiers read: a proof with raw keys and values in it (docs/PARTNERS.md).

use crate::{ffi, Error, Key, Proof, Value, PROOF_BYTES};
use std::ops::Range;

/// A raw key has 1 to this many bytes.
pub const RAW_KEY_BYTES: usize = 256;

/// A raw value has 1 to this many bytes.
pub const RAW_VALUE_BYTES: usize = 4_096;

/// The longest message that shows a grant.
pub const PRESENCE_MESSAGE_BYTES: usize = 14_868;

/// The longest message that shows a grant's absence.
pub const ABSENCE_MESSAGE_BYTES: usize = 29_999;

/// What was hashed for a leaf that a proof shows.
#[derive(Clone, Copy, Debug, PartialEq, Eq)]
pub struct RawLeaf<'a> {
    pub key: &'a [u8],
    pub value: &'a [u8],
}

/// A proof as an ICS 23 message, a protobuf CommitmentProof. The caller hands over what was hashed: the raw key asked for, and raw key and value of each leaf that
/// the proof shows, the left one first. Whether the proof holds is not looked at. Refused: 10, 15.
///
/// ```
/// use grants::{read_message, sha256, write_message, Batch, Error, RawLeaf, Store, Value};
///
/// let mut store = Store::with_capacity(20)?;
/// let mut batch = Batch::new();
/// batch.insert(sha256(b"viola"), sha256(b"may write")).unwrap();
/// let root = store.apply(1, &batch)?.root;
///
/// // For a partner: that `viola` may write, and that `flute` has nothing.
/// let viola = RawLeaf { key: b"viola", value: b"may write" };
/// let present = write_message(store.prove(1, sha256(b"viola"))?, b"viola", &[viola])?;
/// let absent = write_message(store.prove(1, sha256(b"flute"))?, b"flute", &[viola])?;
///
/// // And back: our own proof, for our own check.
/// let read = read_message(&present)?;
/// assert_eq!((read.asked(), read.leaves()), (&b"viola"[..], vec![viola]));
/// assert_eq!(read.verify(root)?, Some(Value::from(sha256(b"may write"))));
/// assert_eq!(read_message(&absent)?.verify(root)?, None);
///
/// // Another value, and another encoding.
/// let other = RawLeaf { key: b"viola", value: b"may read" };
/// assert_eq!(write_message(store.prove(1, sha256(b"viola"))?, b"viola", &[other]), Err(Error::RawPart));
/// assert_eq!(read_message([&present[..], &[0]].concat()).unwrap_err(), Error::ProofForm);
/// # Ok::<(), Error>(())
/// ```
pub fn write_message(
    proof: impl AsRef<[u8]>,
    asked: &[u8],
    leaves: &[RawLeaf<'_>],
) -> Result<Vec<u8>, Error> {
    let mut lent: [[&[u8]; 2]; 2] = [[&[]; 2]; 2];
    if leaves.len() > lent.len() {
        return Err(Error::RawPart);
    }
    for (to, leaf) in lent.iter_mut().zip(leaves) {
        *to = [leaf.key, leaf.value];
    }
    let mut room = vec![0; ABSENCE_MESSAGE_BYTES];
    let length = ffi::ics23_write(proof.as_ref(), asked, lent, &mut room)?;
    room.truncate(u32::from_le_bytes(length) as usize);
    Ok(room)
}

/// A message that was read: our own proof, and the raw parts where they stand in the message.
#[derive(Clone, Debug, PartialEq, Eq)]
pub struct Message<B> {
    bytes: B,
    proof: Proof,
    asked: Range<usize>,
    leaves: Vec<[Range<usize>; 2]>,
}

/// Reads a message that [`write_message`] wrote; no other encoding is taken. Refused: 10.
pub fn read_message<B: AsRef<[u8]>>(message: B) -> Result<Message<B>, Error> {
    let mut room = vec![0; PROOF_BYTES];
    let answer = ffi::ics23_read(message.as_ref(), &mut room)?;
    let number = |at: usize| {
        let bytes = answer[at..at + 4].try_into().expect("4 bytes");
        u32::from_le_bytes(bytes) as usize
    };
    let part = |i: usize| number(4 + 8 * i)..number(4 + 8 * i) + number(8 + 8 * i);
    room.truncate(number(0));
    let leaves = [[part(1), part(2)], [part(3), part(4)]];
    Ok(Message {
        bytes: message,
        proof: Proof::from_bytes(room),
        asked: part(0),
        leaves: leaves.into_iter().filter(|[key, _]| !key.is_empty()).collect(),
    })
}

impl<B: AsRef<[u8]>> Message<B> {
    /// The proof that the message was written from.
    pub fn proof(&self) -> &Proof {
        &self.proof
    }

    /// The raw key asked for.
    pub fn asked(&self) -> &[u8] {
        &self.bytes.as_ref()[self.asked.clone()]
    }

    /// Raw key and value of each leaf shown, the left one first.
    pub fn leaves(&self) -> Vec<RawLeaf<'_>> {
        let bytes = self.bytes.as_ref();
        let leaf = |[key, value]: &[Range<usize>; 2]| RawLeaf {
            key: &bytes[key.clone()],
            value: &bytes[value.clone()],
        };
        self.leaves.iter().map(leaf).collect()
    }

    /// The key asked for, as the store has it.
    pub fn key(&self) -> Key {
        Key::from(crate::sha256(self.asked()))
    }

    /// What the proof shows of the key asked for, against a root: see [`verify`](crate::verify). A partner's verifier accepts the message exactly where this is
    /// accepted. Refused: 12, 11.
    pub fn verify(&self, root: impl AsRef<[u8]>) -> Result<Option<Value>, Error> {
        self.proof.verify(root, self.key())
    }
}
