//! Sets that own their encoding.

use crate::hex::HexItems;
use crate::items::Column;
use crate::room::append;
use crate::{EncodeError, Items, Refusal, SetView};
use alloc::vec::Vec;
use core::fmt;

/// The keys of a set, with their encoding: to a [`SetView`] what a `PathBuf` is to a `Path`.
///
/// ```
/// use commonware_proved::SetBuf;
///
/// struct Node {
///     validators: SetBuf,
/// }
///
/// let node = Node { validators: SetBuf::from_keys_dedup(20, [[0xbb; 20], [0xaa; 20]])? };
/// assert_eq!(node.validators.as_view().position(&[0xbb; 20]), Some(1));
/// # Ok::<(), commonware_proved::EncodeError>(())
/// ```
#[derive(Clone, PartialEq, Eq, Hash)]
pub struct SetBuf {
    encoding: Vec<u8>,
    keys: Column,
}

impl SetBuf {
    /// Returns the set of these keys, which may come in any order and repeat. Where a repeat is an
    /// error, compare `len` with the number of keys given.
    ///
    /// # Errors
    ///
    /// `KeySize` for the first key that hasn't `key_size` bytes; `NoSize` where that is 0,
    /// `InvalidLength` where the distinct keys are more than 4294967295, and `Memory`.
    ///
    /// ```
    /// # use commonware_proved::{EncodeError, SetBuf};
    /// let given = [[7, 8], [5, 6], [7, 8]];
    /// let keys = SetBuf::from_keys_dedup(2, given)?;
    /// assert_eq!(keys.as_view().as_bytes(), [2, 5, 6, 7, 8]);
    /// // One was given twice.
    /// assert_eq!((keys.as_view().len(), given.len()), (2, 3));
    /// let other = EncodeError::KeySize { index: 1, length: 3 };
    /// assert_eq!(SetBuf::from_keys_dedup(2, [&b"ab"[..], b"abc"]), Err(other));
    /// # Ok::<(), EncodeError>(())
    /// ```
    pub fn from_keys_dedup<K: AsRef<[u8]>>(
        key_size: usize,
        keys: impl IntoIterator<Item = K>,
    ) -> Result<SetBuf, EncodeError> {
        let mut bytes = Vec::new();
        for (index, key) in keys.into_iter().enumerate() {
            append_key(&mut bytes, key_size, index, key.as_ref())?;
        }
        let encoding = SetView::encode_dedup(key_size, &bytes)?;
        SetBuf::decode(key_size, encoding).map_err(EncodeError::of_reading)
    }

    /// Decodes the set of keys of `key_size` bytes that the whole input is, as [`SetView::decode`]
    /// does. Nothing is copied; who needs an input that is refused reads a [`SetView`] first.
    ///
    /// # Errors
    ///
    /// Those of [`SetView::decode`].
    ///
    /// ```
    /// # use commonware_proved::{Refusal, SetBuf};
    /// assert_eq!(SetBuf::decode(2, vec![2, 5, 6, 7, 8])?.as_view().len(), 2);
    /// assert_eq!(SetBuf::decode(2, vec![2, 5, 6]), Err(Refusal::EndOfInput));
    /// # Ok::<(), Refusal>(())
    /// ```
    pub fn decode(key_size: usize, input: Vec<u8>) -> Result<SetBuf, Refusal> {
        let keys = SetView::decode(key_size, &input)?.column();
        Ok(SetBuf::of(input, keys))
    }

    /// Returns the set that is encoded by these bytes, and whose keys are there.
    pub(crate) fn of(encoding: Vec<u8>, keys: Column) -> SetBuf {
        SetBuf { encoding, keys }
    }

    /// Returns the keys, in constant time.
    ///
    /// ```
    /// # use commonware_proved::SetBuf;
    /// let keys = SetBuf::from_keys_dedup(2, [[7, 8], [5, 6]])?;
    /// assert!(keys.as_view().iter().eq([[5, 6], [7, 8]]));
    /// # Ok::<(), commonware_proved::EncodeError>(())
    /// ```
    #[must_use]
    pub fn as_view(&self) -> SetView<'_> {
        SetView::of(&self.encoding, self.keys)
    }

    /// Returns the encoding.
    ///
    /// ```
    /// # use commonware_proved::SetBuf;
    /// assert_eq!(SetBuf::from_keys_dedup(1, [[7], [5]])?.as_bytes(), [2, 5, 7]);
    /// # Ok::<(), commonware_proved::EncodeError>(())
    /// ```
    #[must_use]
    pub fn as_bytes(&self) -> &[u8] {
        &self.encoding
    }

    /// Returns the encoding, which isn't copied.
    ///
    /// ```
    /// # use commonware_proved::SetBuf;
    /// assert_eq!(SetBuf::from_keys_dedup(1, [[7], [5]])?.into_bytes(), vec![2, 5, 7]);
    /// # Ok::<(), commonware_proved::EncodeError>(())
    /// ```
    #[must_use]
    pub fn into_bytes(self) -> Vec<u8> {
        self.encoding
    }
}

/// Appends a key to others of a size, among which it has an index.
pub(super) fn append_key(
    bytes: &mut Vec<u8>,
    key_size: usize,
    index: usize,
    key: &[u8],
) -> Result<(), EncodeError> {
    match key.len() {
        length if length == key_size => append(bytes, key),
        length => Err(EncodeError::KeySize { index, length }),
    }
}

/// The encoding.
impl AsRef<[u8]> for SetBuf {
    fn as_ref(&self) -> &[u8] {
        self.as_bytes()
    }
}

/// The keys in hexadecimal.
impl fmt::Debug for SetBuf {
    fn fmt(&self, f: &mut fmt::Formatter<'_>) -> fmt::Result {
        let keys = HexItems(self.as_view().iter());
        f.debug_tuple("SetBuf").field(&keys).finish()
    }
}

impl<'a> IntoIterator for &'a SetBuf {
    type Item = &'a [u8];
    type IntoIter = Items<'a>;

    fn into_iter(self) -> Items<'a> {
        self.as_view().iter()
    }
}
