//! Maps that own their encoding.

use super::set::append_key;
use crate::hex::HexPairs;
use crate::map::Columns;
use crate::room::append;
use crate::{EncodeError, MapView, Pairs, Refusal};
use alloc::vec::Vec;
use core::fmt;

/// The pairs of a map, with their encoding: to a [`MapView`] what a `PathBuf` is to a `Path`.
///
/// ```
/// use commonware_proved::MapBuf;
/// use std::collections::HashMap;
///
/// // From keys of 48 bytes to weights of eight.
/// let weights = HashMap::from([([0xb0; 48], 40u64), ([0xa0; 48], 60)]);
/// let pairs = weights.iter().map(|(key, weight)| (key, weight.to_be_bytes()));
/// let weights = MapBuf::from_pairs(48, 8, pairs)?;
/// assert_eq!(weights.as_view().get_value(&[0xb0; 48]), Some(&40u64.to_be_bytes()[..]));
/// # Ok::<(), commonware_proved::EncodeError>(())
/// ```
#[derive(Clone, PartialEq, Eq, Hash)]
pub struct MapBuf {
    encoding: Vec<u8>,
    columns: Columns,
}

impl MapBuf {
    /// Returns the map of these pairs of a key and a value, which may come in any order. Of pairs
    /// whose keys repeat, [`MapView::encode_dedup`] takes the first.
    ///
    /// # Errors
    ///
    /// `KeySize` or `ValueSize` for the first key that hasn't `key_size` bytes, or value that
    /// hasn't `value_size`; `NoSize` where `key_size` is 0, `RepeatedKey`, `InvalidLength` where
    /// the pairs are more than 4294967295, and `Memory`.
    ///
    /// ```
    /// # use commonware_proved::{EncodeError, MapBuf};
    /// let map = MapBuf::from_pairs(1, 2, [(b"b", b"xx"), (b"a", b"yy")])?;
    /// assert_eq!(map.as_view().as_bytes(), b"\x02ab\x02yyxx");
    /// let repeated = EncodeError::RepeatedKey { first: 0, second: 2 };
    /// let pairs = [(b"b", b"x"), (b"a", b"y"), (b"b", b"z")];
    /// assert_eq!(MapBuf::from_pairs(1, 1, pairs), Err(repeated));
    /// # Ok::<(), EncodeError>(())
    /// ```
    pub fn from_pairs<K: AsRef<[u8]>, V: AsRef<[u8]>>(
        key_size: usize,
        value_size: usize,
        pairs: impl IntoIterator<Item = (K, V)>,
    ) -> Result<MapBuf, EncodeError> {
        let bytes = pair_bytes(key_size, value_size, pairs)?;
        MapBuf::of_bytes(key_size, value_size, &bytes)
    }

    /// Returns the map of these pairs, one after another.
    pub(super) fn of_bytes(
        key_size: usize,
        value_size: usize,
        pairs: &[u8],
    ) -> Result<MapBuf, EncodeError> {
        let encoding = MapView::encode(key_size, value_size, pairs)?;
        MapBuf::decode(key_size, value_size, encoding).map_err(EncodeError::of_reading)
    }

    /// Decodes the map of keys of `key_size` bytes and values of `value_size` that the whole input
    /// is, as [`MapView::decode`] does. Nothing is copied; who needs an input that is refused reads
    /// a [`MapView`] first.
    ///
    /// # Errors
    ///
    /// Those of [`MapView::decode`].
    ///
    /// ```
    /// # use commonware_proved::{MapBuf, Refusal};
    /// let map = MapBuf::decode(1, 1, vec![2, 5, 7, 2, 60, 40])?;
    /// assert_eq!(map.as_view().get_value(&[7]), Some(&[40][..]));
    /// assert_eq!(MapBuf::decode(1, 1, vec![2, 5, 7]), Err(Refusal::EndOfInput));
    /// # Ok::<(), Refusal>(())
    /// ```
    pub fn decode(key_size: usize, value_size: usize, input: Vec<u8>) -> Result<MapBuf, Refusal> {
        let columns = MapView::decode(key_size, value_size, &input)?.columns();
        Ok(MapBuf::of(input, columns))
    }

    /// Returns the map that is encoded by these bytes, and whose keys and values are there.
    pub(crate) fn of(encoding: Vec<u8>, columns: Columns) -> MapBuf {
        MapBuf { encoding, columns }
    }

    /// Returns the pairs, in constant time.
    ///
    /// ```
    /// # use commonware_proved::MapBuf;
    /// let map = MapBuf::from_pairs(1, 1, [(b"b", b"x"), (b"a", b"y")])?;
    /// assert_eq!(map.as_view().value(0), Some(&b"y"[..]));
    /// # Ok::<(), commonware_proved::EncodeError>(())
    /// ```
    #[must_use]
    pub fn as_view(&self) -> MapView<'_> {
        MapView::of(&self.encoding, self.columns)
    }

    /// Returns the encoding.
    ///
    /// ```
    /// # use commonware_proved::MapBuf;
    /// let owned = MapBuf::from_pairs(1, 1, [(b"b", b"x"), (b"a", b"y")])?;
    /// assert_eq!(owned.as_bytes(), b"\x02ab\x02yx");
    /// # Ok::<(), commonware_proved::EncodeError>(())
    /// ```
    #[must_use]
    pub fn as_bytes(&self) -> &[u8] {
        &self.encoding
    }

    /// Returns the encoding, which isn't copied.
    ///
    /// ```
    /// # use commonware_proved::MapBuf;
    /// let map = MapBuf::from_pairs(1, 1, [(b"b", b"x"), (b"a", b"y")])?;
    /// assert_eq!(map.into_bytes(), b"\x02ab\x02yx");
    /// # Ok::<(), commonware_proved::EncodeError>(())
    /// ```
    #[must_use]
    pub fn into_bytes(self) -> Vec<u8> {
        self.encoding
    }
}

/// Returns the pairs one after another, each as its key and its value of these sizes.
pub(super) fn pair_bytes<K: AsRef<[u8]>, V: AsRef<[u8]>>(
    key_size: usize,
    value_size: usize,
    pairs: impl IntoIterator<Item = (K, V)>,
) -> Result<Vec<u8>, EncodeError> {
    let mut bytes = Vec::new();
    for (index, (key, value)) in pairs.into_iter().enumerate() {
        append_key(&mut bytes, key_size, index, key.as_ref())?;
        let value = value.as_ref();
        match value.len() {
            length if length == value_size => append(&mut bytes, value)?,
            length => return Err(EncodeError::ValueSize { index, length }),
        }
    }
    Ok(bytes)
}

/// The encoding.
impl AsRef<[u8]> for MapBuf {
    fn as_ref(&self) -> &[u8] {
        self.as_bytes()
    }
}

/// The pairs in hexadecimal.
impl fmt::Debug for MapBuf {
    fn fmt(&self, f: &mut fmt::Formatter<'_>) -> fmt::Result {
        let pairs = HexPairs(self.as_view().iter());
        f.debug_tuple("MapBuf").field(&pairs).finish()
    }
}

impl<'a> IntoIterator for &'a MapBuf {
    type Item = (&'a [u8], &'a [u8]);
    type IntoIter = Pairs<'a>;

    fn into_iter(self) -> Pairs<'a> {
        self.as_view().iter()
    }
}
