use std::fmt;

/// Why a text isn't bytes in hex.
#[derive(Clone, Copy, Debug, PartialEq, Eq)]
pub enum HexError {
    /// This character is no hex digit.
    Digit(char),
    /// This many digits are not the number that was wanted.
    Count {
        digits: usize,
        wanted: Option<usize>,
    },
}

fn plural(n: usize) -> &'static str {
    if n == 1 {
        ""
    } else {
        "s"
    }
}

impl fmt::Display for HexError {
    fn fmt(&self, f: &mut fmt::Formatter<'_>) -> fmt::Result {
        match self {
            HexError::Digit(c) => write!(f, "{c:?} is no hex digit"),
            HexError::Count {
                digits,
                wanted: Some(wanted),
            } => write!(f, "{digits} hex digit{}, not {wanted}", plural(*digits)),
            HexError::Count {
                digits,
                wanted: None,
            } => write!(f, "{digits} hex digit{}, an odd number", plural(*digits)),
        }
    }
}

impl std::error::Error for HexError {}

/// Bytes of an even number of hex digits, in either case.
///
/// ```
/// assert_eq!(grants::from_hex("00fF").unwrap(), [0, 255]);
/// assert!(grants::from_hex("00f").is_err());
/// ```
pub fn from_hex(text: &str) -> Result<Vec<u8>, HexError> {
    let mut digits = Vec::with_capacity(text.len());
    for c in text.chars() {
        digits.push(c.to_digit(16).ok_or(HexError::Digit(c))? as u8);
    }
    if digits.len() % 2 == 1 {
        return Err(HexError::Count {
            digits: digits.len(),
            wanted: None,
        });
    }
    Ok(digits
        .chunks_exact(2)
        .map(|pair| pair[0] << 4 | pair[1])
        .collect())
}

/// Bytes as hex digits, two for each.
///
/// ```
/// assert_eq!(grants::to_hex(&[0, 255]), "00ff");
/// ```
pub fn to_hex(bytes: &[u8]) -> String {
    const DIGITS: &[u8; 16] = b"0123456789abcdef";
    bytes
        .iter()
        .flat_map(|b| [b >> 4, b & 15])
        .map(|digit| char::from(DIGITS[usize::from(digit)]))
        .collect()
}
