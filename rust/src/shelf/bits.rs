use crate::{Error, Key};

/// The most bits by which a shelf's grants may be parted.
pub const SHELF_BITS: u32 = 12;

/// How many bits of a key name its part, 0 to [`SHELF_BITS`].
///
/// ```
/// use grants::{Bits, Error, Key};
///
/// let bits = Bits::new(12)?;
/// let mut key = [0xab; 32];
/// assert_eq!((bits.parts(), bits.part_of(Key::from(key))), (4_096, 0xaba));
/// key = [0; 32];
/// key[..2].copy_from_slice(&[0xab, 0xa0]);
/// assert_eq!(bits.list_key(0xaba), Key::from(key));
/// assert_eq!(Bits::new(0)?.part_of(Key::from(key)), 0);
/// assert_eq!(Bits::new(13), Err(Error::TooManyBits));
/// # Ok::<(), Error>(())
/// ```
#[derive(Clone, Copy, Debug, PartialEq, Eq)]
pub struct Bits(u32);

impl Bits {
    /// Refused: 21.
    pub fn new(bits: u32) -> Result<Bits, Error> {
        match bits <= SHELF_BITS {
            true => Ok(Bits(bits)),
            false => Err(Error::TooManyBits),
        }
    }

    pub fn get(self) -> u32 {
        self.0
    }

    /// How many parts there may be.
    pub fn parts(self) -> u32 {
        1 << self.0
    }

    /// The number of a key's part: its first bits.
    pub fn part_of(self, key: Key) -> u16 {
        let [a, b, ..] = *key.as_bytes();
        (u32::from(u16::from_be_bytes([a, b])) >> (16 - self.0)) as u16
    }

    /// The key that a part has in the list: its bits, then zeros.
    pub fn list_key(self, part: u16) -> Key {
        let mut key = [0; 32];
        key[..2].copy_from_slice(&((u32::from(part) << (16 - self.0)) as u16).to_be_bytes());
        Key::from(key)
    }
}
