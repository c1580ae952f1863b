//! Why an input is refused, and why a value can't be encoded.

use crate::status;
use core::error::Error;
use core::fmt;

/// Why an input was refused: its first fault (decoding error), or an allocation failure.
///
/// ```
/// use commonware_proved::{Committee, Refusal};
///
/// // It states two members, and has the bytes of none.
/// assert_eq!(Committee::decode(&[2]), Err(Refusal::EndOfInput));
/// assert_eq!(Refusal::EndOfInput.to_string(), "unexpected end of input");
/// ```
#[derive(Clone, Copy, Debug, PartialEq, Eq, Hash)]
#[non_exhaustive]
pub enum Refusal {
    /// The input ends before the value does.
    EndOfInput,
    /// A varint is longer than it has to be, or its number is past 4294967295.
    InvalidVarint,
    /// This length is out of range.
    InvalidLength(usize),
    /// The items aren't strictly increasing.
    NotStrict,
    /// This number of bytes follows the value, and none may.
    LeftOver(usize),
    /// An allocation failed. This says nothing of the input.
    Memory,
}

impl Refusal {
    /// Returns the refusal of a status of the library, with its number.
    pub(crate) fn of(status: u32, number: usize) -> Refusal {
        match status {
            status::END_OF_INPUT => Refusal::EndOfInput,
            status::INVALID_VARINT => Refusal::InvalidVarint,
            status::INVALID_LENGTH => Refusal::InvalidLength(number),
            status::NOT_STRICT => Refusal::NotStrict,
            status::MEMORY => Refusal::Memory,
            status::LEFT_OVER => Refusal::LeftOver(number),
            _ => unreachable!("no reader returns status {status}"),
        }
    }
}

/// Returns the value that was read of a whole input, where nothing follows it.
pub(crate) fn whole<T>((value, rest): (T, &[u8])) -> Result<T, Refusal> {
    match rest.len() {
        0 => Ok(value),
        count => Err(Refusal::LeftOver(count)),
    }
}

impl fmt::Display for Refusal {
    fn fmt(&self, f: &mut fmt::Formatter<'_>) -> fmt::Result {
        match self {
            Refusal::EndOfInput => f.write_str("unexpected end of input"),
            Refusal::InvalidVarint => f.write_str("invalid varint"),
            Refusal::InvalidLength(length) => write!(f, "length {length} is out of range"),
            Refusal::NotStrict => f.write_str("items must be sorted and unique"),
            Refusal::LeftOver(count) => write!(f, "{count} bytes left over"),
            Refusal::Memory => f.write_str("out of memory"),
        }
    }
}

impl Error for Refusal {}

/// Why nothing was written: the first thing wrong with the request, or an allocation failure.
///
/// ```
/// use commonware_proved::{Certificate, EncodeError};
///
/// assert_eq!(Certificate::encode(b"value", &[2, 5, 5]), Err(EncodeError::NotStrict(2)));
/// let text = EncodeError::NotStrict(2).to_string();
/// assert_eq!(text, "signer 2 isn't greater than the one before it");
/// ```
#[derive(Clone, Copy, Debug, PartialEq, Eq, Hash)]
#[non_exhaustive]
pub enum EncodeError {
    /// This length is past 4294967295.
    InvalidLength(usize),
    /// The signer at this place isn't greater than the one before it.
    NotStrict(usize),
    /// Keys of no bytes: how many there are can't be told.
    NoSize,
    /// This number of bytes follows the last whole key, or the last whole pair of a map.
    NotWhole(usize),
    /// A key has another size than was asked for.
    KeySize {
        /// The index of the key, or of its pair.
        index: usize,
        /// How many bytes it has.
        length: usize,
    },
    /// A value has another size than was asked for.
    ValueSize {
        /// The index of its pair.
        index: usize,
        /// How many bytes it has.
        length: usize,
    },
    /// Two pairs have the same key.
    RepeatedKey {
        /// The index of the earlier pair.
        first: usize,
        /// The least index of a pair whose key an earlier one has.
        second: usize,
    },
    /// Two pairs of a bimap have the same value.
    RepeatedValue {
        /// The index of the earlier pair.
        first: usize,
        /// The index of the later pair.
        second: usize,
    },
    /// An allocation failed. This says nothing of what was to be written.
    Memory,
}

impl EncodeError {
    /// Returns the error of a status of the library, with its number.
    pub(crate) fn of(status: u32, number: usize) -> EncodeError {
        match status {
            status::INVALID_LENGTH => EncodeError::InvalidLength(number),
            status::NOT_STRICT => EncodeError::NotStrict(number),
            status::NO_SIZE => EncodeError::NoSize,
            status::NOT_WHOLE => EncodeError::NotWhole(number),
            status::MEMORY => EncodeError::Memory,
            _ => unreachable!("with enough space no writer returns status {status}"),
        }
    }

    /// Returns why what was just written can't be read: an allocation failed.
    pub(crate) fn of_reading(refusal: Refusal) -> EncodeError {
        match refusal {
            Refusal::Memory => EncodeError::Memory,
            _ => unreachable!("what was written can be read: {refusal}"),
        }
    }
}

impl fmt::Display for EncodeError {
    fn fmt(&self, f: &mut fmt::Formatter<'_>) -> fmt::Result {
        match self {
            EncodeError::InvalidLength(length) => write!(f, "length {length} is past 4294967295"),
            EncodeError::NotStrict(place) => {
                write!(f, "signer {place} isn't greater than the one before it")
            }
            EncodeError::NoSize => f.write_str("keys of no bytes"),
            EncodeError::NotWhole(count) => write!(f, "{count} bytes after the last whole item"),
            EncodeError::KeySize { index, length } => {
                write!(f, "key {index} has another size: {length} bytes")
            }
            EncodeError::ValueSize { index, length } => {
                write!(f, "value {index} has another size: {length} bytes")
            }
            EncodeError::RepeatedKey { first, second } => {
                write!(f, "pairs {first} and {second} have the same key")
            }
            EncodeError::RepeatedValue { first, second } => {
                write!(f, "pairs {first} and {second} have the same value")
            }
            EncodeError::Memory => f.write_str("out of memory"),
        }
    }
}

impl Error for EncodeError {}
