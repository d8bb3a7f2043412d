//! Keys, values and roots: three kinds of thirty-two bytes.

use crate::hex::{from_hex, to_hex, HexError};
use std::fmt;
use std::str::FromStr;

macro_rules! thirty_two_bytes {
    ($(#[$doc:meta])* $name:ident) => {
        $(#[$doc])*
        #[derive(Clone, Copy, PartialEq, Eq, PartialOrd, Ord, Hash)]
        pub struct $name([u8; 32]);

        impl $name {
            pub const fn new(bytes: [u8; 32]) -> Self {
                $name(bytes)
            }

            pub const fn as_bytes(&self) -> &[u8; 32] {
                &self.0
            }
        }

        impl From<[u8; 32]> for $name {
            fn from(bytes: [u8; 32]) -> Self {
                $name(bytes)
            }
        }

        impl From<$name> for [u8; 32] {
            fn from(it: $name) -> Self {
                it.0
            }
        }

        impl AsRef<[u8]> for $name {
            fn as_ref(&self) -> &[u8] {
                &self.0
            }
        }

        /// Sixty-four hex digits.
        impl fmt::Display for $name {
            fn fmt(&self, f: &mut fmt::Formatter<'_>) -> fmt::Result {
                f.pad(&to_hex(&self.0))
            }
        }

        impl fmt::Debug for $name {
            fn fmt(&self, f: &mut fmt::Formatter<'_>) -> fmt::Result {
                write!(f, concat!(stringify!($name), "({})"), self)
            }
        }

        impl FromStr for $name {
            type Err = HexError;

            fn from_str(text: &str) -> Result<Self, HexError> {
                let digits = text.chars().count();
                let wrong = HexError::Count {
                    digits,
                    wanted: Some(64),
                };
                let bytes = from_hex(text).map_err(|e| match e {
                    HexError::Count { .. } => wrong,
                    digit => digit,
                })?;
                Ok($name(bytes.try_into().map_err(|_| wrong)?))
            }
        }
    };
}

thirty_two_bytes! {
    /// A grant's key. Keys are ordered as byte strings.
    ///
    /// ```
    /// use grants::Key;
    ///
    /// let digits = "40".repeat(32);
    /// let key: Key = digits.parse().unwrap();
    /// assert_eq!(key, Key::from([0x40; 32]));
    /// assert_eq!(key.to_string(), digits);
    /// assert_eq!("4".repeat(63).parse::<Key>().unwrap_err().to_string(), "63 hex digits, not 64");
    /// ```
    Key
}

thirty_two_bytes! {
    /// A grant's value.
    Value
}

thirty_two_bytes! {
    /// The SHA-256 root of a version: what is signed, and what proofs are checked against.
    Root
}

impl Root {
    /// The root of no grants.
    pub const EMPTY: Root = Root([0; 32]);
}
