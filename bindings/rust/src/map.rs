//! Maps of keys and values, each of one size, in their encoding.

use crate::error::whole;
use crate::hex::HexPairs;
use crate::items::{Column, Items, Pairs};
use crate::limits::limits;
use crate::room::{trimmed, zeros};
use crate::{EncodeError, MapBuf, Refusal, SetView, raw, status};
use alloc::vec::Vec;
use core::fmt;
use core::ops::RangeBounds;

/// The pairs of a map, whose keys are strictly increasing, borrowed from its encoding. Keys have
/// one size and values another, which are known only when the program runs. Nothing is copied.
/// Every number is a size. A [`MapBuf`] owns the encoding.
///
/// ```
/// use commonware_proved::MapView;
///
/// // From two keys of 48 bytes, as keys of BLS12-381 in G1 have, to weights of one byte.
/// let bytes = [&[2][..], &[0xa0; 48], &[0xb0; 48], &[2, 60, 40]].concat();
/// let weights = MapView::decode(48, 1, &bytes)?;
/// assert_eq!(weights.get_value(&[0xb0; 48]), Some(&[40][..]));
/// assert_eq!(weights.get_value(&[0xc0; 48]), None);
/// # Ok::<(), commonware_proved::Refusal>(())
/// ```
#[derive(Clone, Copy, PartialEq, Eq, Hash)]
pub struct MapView<'a> {
    encoding: &'a [u8],
    columns: Columns,
}

/// Where the keys of a map are in its encoding, and as many values.
#[derive(Clone, Copy, PartialEq, Eq, Hash)]
pub(crate) struct Columns {
    pub keys: Column,
    pub values: Column,
}

impl<'a> MapView<'a> {
    /// Decodes the map of keys of `key_size` bytes and values of `value_size` at the start of the
    /// input, whose number of pairs is in the range, and returns what follows it. Nothing is
    /// allocated.
    ///
    /// # Errors
    ///
    /// The first fault (decoding error) of the input: that of the keys, and then that of the
    /// values, of which there are as many; neither `LeftOver` nor `Memory`.
    ///
    /// ```
    /// # use commonware_proved::{MapView, Refusal};
    /// let (map, rest) = MapView::read(1, 2, &[1, 7, 1, 8, 9, 5], 1..=256)?;
    /// assert_eq!((map.len(), rest), (1, &[5][..]));
    /// assert_eq!(MapView::read(1, 2, &[1, 7, 2, 8, 9], ..), Err(Refusal::InvalidLength(2)));
    /// # Ok::<(), Refusal>(())
    /// ```
    pub fn read(
        key_size: usize,
        value_size: usize,
        input: &'a [u8],
        lengths: impl RangeBounds<usize>,
    ) -> Result<(MapView<'a>, &'a [u8]), Refusal> {
        let (least, most) = limits(&lengths);
        // SAFETY: the pointer and the length are those of one slice, which is borrowed for the
        // call.
        let view = unsafe {
            let (from, length) = (input.as_ptr(), input.len());
            raw::commonware_map_read(key_size, value_size, from, length, least, most)
        };
        if view.status != status::OK {
            return Err(Refusal::of(view.status, view.number));
        }
        let (encoding, rest) = input.split_at(input.len() - view.left);
        let columns = Columns {
            keys: Column::new(key_size, view.count, view.keys),
            values: Column::new(value_size, view.count, view.values),
        };
        Ok((MapView { encoding, columns }, rest))
    }

    /// Decodes the map that the whole input is, of any number of pairs. Nothing is allocated.
    ///
    /// # Errors
    ///
    /// The first fault (decoding error) of the input, or `LeftOver`; not `Memory`.
    ///
    /// ```
    /// # use commonware_proved::{MapView, Refusal};
    /// assert_eq!(MapView::decode(1, 2, &[1, 7, 1, 8, 9])?.len(), 1);
    /// assert_eq!(MapView::decode(1, 1, &[1, 7, 1, 8, 9]), Err(Refusal::LeftOver(1)));
    /// # Ok::<(), Refusal>(())
    /// ```
    pub fn decode(
        key_size: usize,
        value_size: usize,
        input: &'a [u8],
    ) -> Result<MapView<'a>, Refusal> {
        whole(MapView::read(key_size, value_size, input, ..)?)
    }

    /// Encodes the map of these pairs in the order of their keys: each is a key of `key_size` bytes
    /// and then its value of `value_size`, one pair after another. They may come in any order. Of
    /// pairs with equal keys the first is written.
    ///
    /// # Errors
    ///
    /// `NoSize` where `key_size` is 0, `NotWhole`, `InvalidLength` where the distinct keys are more
    /// than 4294967295, and `Memory`.
    ///
    /// ```
    /// # use commonware_proved::{EncodeError, MapView};
    /// let pairs = [8, 1, 2, 7, 3, 4, 8, 5, 6];
    /// assert_eq!(MapView::encode_dedup(1, 2, &pairs)?, [2, 7, 8, 2, 3, 4, 1, 2]);
    /// assert_eq!(MapView::encode_dedup(1, 1, &pairs), Err(EncodeError::NotWhole(1)));
    /// assert_eq!(MapView::encode_dedup(0, 3, &pairs), Err(EncodeError::NoSize));
    /// # Ok::<(), EncodeError>(())
    /// ```
    pub fn encode_dedup(
        key_size: usize,
        value_size: usize,
        pairs: &[u8],
    ) -> Result<Vec<u8>, EncodeError> {
        encoded(
            raw::commonware_map_encode_dedup,
            key_size,
            value_size,
            pairs,
        )
    }

    /// Encodes the map of these pairs as [`MapView::encode_dedup`] does, where no key repeats.
    /// [`MapBuf::from_pairs`] takes them one by one.
    ///
    /// # Errors
    ///
    /// `RepeatedKey`, with the index of the first pair whose key an earlier pair has, and of that
    /// one; and those of `encode_dedup`.
    ///
    /// ```
    /// # use commonware_proved::{EncodeError, MapView};
    /// assert_eq!(MapView::encode(1, 2, &[8, 1, 2, 7, 3, 4])?, [2, 7, 8, 2, 3, 4, 1, 2]);
    /// let pairs = [8, 1, 2, 7, 3, 4, 8, 5, 6];
    /// let repeated = EncodeError::RepeatedKey { first: 0, second: 2 };
    /// assert_eq!(MapView::encode(1, 2, &pairs), Err(repeated));
    /// # Ok::<(), EncodeError>(())
    /// ```
    pub fn encode(
        key_size: usize,
        value_size: usize,
        pairs: &[u8],
    ) -> Result<Vec<u8>, EncodeError> {
        let write = raw::commonware_map_encode;
        encoded(write, key_size, value_size, pairs)
    }

    /// Returns the map that is encoded by these bytes, and whose keys and values are there.
    pub(crate) fn of(encoding: &'a [u8], columns: Columns) -> MapView<'a> {
        MapView { encoding, columns }
    }

    /// Returns where the keys and the values are.
    pub(crate) fn columns(&self) -> Columns {
        self.columns
    }

    /// Returns the encoding.
    ///
    /// ```
    /// # use commonware_proved::MapView;
    /// assert_eq!(MapView::read(1, 1, &[1, 7, 1, 8, 9], ..)?.0.as_bytes(), [1, 7, 1, 8]);
    /// # Ok::<(), commonware_proved::Refusal>(())
    /// ```
    #[must_use]
    pub fn as_bytes(&self) -> &'a [u8] {
        self.encoding
    }

    /// Returns the keys, whose encoding is the start of the map's.
    ///
    /// ```
    /// # use commonware_proved::MapView;
    /// let map = MapView::decode(1, 1, &[2, 5, 7, 2, 0, 0])?;
    /// assert_eq!(map.keys().as_bytes(), [2, 5, 7]);
    /// # Ok::<(), commonware_proved::Refusal>(())
    /// ```
    #[must_use]
    pub fn keys(&self) -> SetView<'a> {
        let keys = self.columns.keys;
        SetView::of(&self.encoding[..keys.end()], keys)
    }

    /// Returns how many bytes a key has.
    ///
    /// ```
    /// # use commonware_proved::MapView;
    /// assert_eq!(MapView::decode(20, 8, &[0, 0])?.key_size(), 20);
    /// # Ok::<(), commonware_proved::Refusal>(())
    /// ```
    #[must_use]
    pub fn key_size(&self) -> usize {
        self.columns.keys.size
    }

    /// Returns how many bytes a value has.
    ///
    /// ```
    /// # use commonware_proved::MapView;
    /// assert_eq!(MapView::decode(20, 8, &[0, 0])?.value_size(), 8);
    /// # Ok::<(), commonware_proved::Refusal>(())
    /// ```
    #[must_use]
    pub fn value_size(&self) -> usize {
        self.columns.values.size
    }

    /// Returns how many pairs there are.
    ///
    /// ```
    /// # use commonware_proved::MapView;
    /// assert_eq!(MapView::decode(1, 1, &[2, 5, 7, 2, 0, 0])?.len(), 2);
    /// # Ok::<(), commonware_proved::Refusal>(())
    /// ```
    #[must_use]
    pub fn len(&self) -> usize {
        self.columns.keys.len()
    }

    /// Whether there are no pairs.
    ///
    /// ```
    /// # use commonware_proved::MapView;
    /// assert!(MapView::decode(1, 1, &[0, 0])?.is_empty());
    /// # Ok::<(), commonware_proved::Refusal>(())
    /// ```
    #[must_use]
    pub fn is_empty(&self) -> bool {
        self.len() == 0
    }

    /// Returns the key at an index, or `None` past the last.
    ///
    /// ```
    /// # use commonware_proved::MapView;
    /// let map = MapView::decode(1, 1, &[2, 5, 7, 2, 60, 40])?;
    /// assert_eq!((map.get(1), map.get(2)), (Some(&[7][..]), None));
    /// # Ok::<(), commonware_proved::Refusal>(())
    /// ```
    #[must_use]
    pub fn get(&self, index: usize) -> Option<&'a [u8]> {
        self.columns.keys.get(self.encoding, index)
    }

    /// Returns the index of a key, or `None` where it isn't there, as one of another size never
    /// is, in O(log n) comparisons.
    ///
    /// ```
    /// # use commonware_proved::MapView;
    /// let map = MapView::decode(1, 1, &[2, 5, 7, 2, 60, 40])?;
    /// assert_eq!((map.position(&[7]), map.position(&[6])), (Some(1), None));
    /// # Ok::<(), commonware_proved::Refusal>(())
    /// ```
    #[must_use]
    pub fn position(&self, key: &[u8]) -> Option<usize> {
        self.keys().position(key)
    }

    /// Whether the key is there.
    ///
    /// ```
    /// # use commonware_proved::MapView;
    /// assert!(MapView::decode(1, 1, &[2, 5, 7, 2, 60, 40])?.contains(&[5]));
    /// # Ok::<(), commonware_proved::Refusal>(())
    /// ```
    #[must_use]
    pub fn contains(&self, key: &[u8]) -> bool {
        self.position(key).is_some()
    }

    /// Returns the value of the key at an index, or `None` past the last.
    ///
    /// ```
    /// # use commonware_proved::MapView;
    /// let map = MapView::decode(1, 1, &[2, 5, 7, 2, 60, 40])?;
    /// assert_eq!((map.value(1), map.value(2)), (Some(&[40][..]), None));
    /// # Ok::<(), commonware_proved::Refusal>(())
    /// ```
    #[must_use]
    pub fn value(&self, index: usize) -> Option<&'a [u8]> {
        self.columns.values.get(self.encoding, index)
    }

    /// Returns the value of a key, or `None` where the key isn't there, as one of another size
    /// never is, in O(log n) comparisons.
    ///
    /// ```
    /// # use commonware_proved::MapView;
    /// let map = MapView::decode(1, 1, &[2, 5, 7, 2, 60, 40])?;
    /// assert_eq!((map.get_value(&[7]), map.get_value(&[6])), (Some(&[40][..]), None));
    /// # Ok::<(), commonware_proved::Refusal>(())
    /// ```
    #[must_use]
    pub fn get_value(&self, key: &[u8]) -> Option<&'a [u8]> {
        self.value(self.position(key)?)
    }

    /// Returns the values in the order of their keys.
    ///
    /// ```
    /// # use commonware_proved::MapView;
    /// let map = MapView::decode(1, 1, &[2, 5, 7, 2, 60, 40])?;
    /// assert_eq!(map.values().map(|value| u32::from(value[0])).sum::<u32>(), 100);
    /// # Ok::<(), commonware_proved::Refusal>(())
    /// ```
    pub fn values(&self) -> Items<'a> {
        self.columns.values.items(self.encoding)
    }

    /// Returns the pairs in the order of their keys.
    ///
    /// ```
    /// # use commonware_proved::MapView;
    /// let map = MapView::decode(1, 1, &[2, 5, 7, 2, 60, 40])?;
    /// assert_eq!(map.iter().next_back(), Some((&[7][..], &[40][..])));
    /// # Ok::<(), commonware_proved::Refusal>(())
    /// ```
    pub fn iter(&self) -> Pairs<'a> {
        Pairs::new(self.columns.keys.items(self.encoding), self.values())
    }

    /// Returns copies of the pairs in the order of their keys.
    ///
    /// ```
    /// # use commonware_proved::MapView;
    /// let copies = MapView::decode(1, 1, &[1, 5, 1, 60])?.to_owned_pairs();
    /// assert_eq!(copies, [(vec![5], vec![60])]);
    /// # Ok::<(), commonware_proved::Refusal>(())
    /// ```
    #[must_use]
    pub fn to_owned_pairs(&self) -> Vec<(Vec<u8>, Vec<u8>)> {
        let copies = self
            .iter()
            .map(|(key, value)| (key.to_vec(), value.to_vec()));
        copies.collect()
    }

    /// Returns the map with a copy of its encoding.
    ///
    /// ```
    /// # use commonware_proved::MapView;
    /// let owned = MapView::decode(1, 1, &[2, 5, 7, 2, 60, 40])?.to_buf();
    /// assert_eq!(owned.as_view().get_value(&[7]), Some(&[40][..]));
    /// # Ok::<(), commonware_proved::Refusal>(())
    /// ```
    #[must_use]
    pub fn to_buf(&self) -> MapBuf {
        MapBuf::of(self.encoding.to_vec(), self.columns)
    }
}

/// Returns what a call writes of these pairs.
fn encoded(
    write: raw::MapEncodeDedupCall,
    key_size: usize,
    value_size: usize,
    pairs: &[u8],
) -> Result<Vec<u8>, EncodeError> {
    let mut out = zeros(10 + pairs.len()).ok_or(EncodeError::Memory)?;
    // SAFETY: each pointer and the length after it are those of one slice; `out` is a new one.
    let view = unsafe {
        let (from, length) = (pairs.as_ptr(), pairs.len());
        let (room, most) = (out.as_mut_ptr(), out.len());
        write(key_size, value_size, from, length, room, most)
    };
    match view.status {
        status::OK => Ok(trimmed(out, view.size)),
        status::REPEATED_KEY => Err(repeated_key(key_size, value_size, pairs, view.number)),
        status => Err(EncodeError::of(status, view.number)),
    }
}

/// Returns that the pair at an index is the first that has the key of an earlier one.
fn repeated_key(key_size: usize, value_size: usize, pairs: &[u8], second: usize) -> EncodeError {
    let size = key_size + value_size;
    let key = &pairs[second * size..][..key_size];
    let first = pairs.chunks_exact(size).take(second);
    let first = first.take_while(|pair| pair[..key_size] != *key).count();
    EncodeError::RepeatedKey { first, second }
}

/// The encoding.
impl AsRef<[u8]> for MapView<'_> {
    fn as_ref(&self) -> &[u8] {
        self.as_bytes()
    }
}

/// The pairs in hexadecimal.
impl fmt::Debug for MapView<'_> {
    fn fmt(&self, f: &mut fmt::Formatter<'_>) -> fmt::Result {
        let pairs = HexPairs(self.iter());
        f.debug_tuple("MapView").field(&pairs).finish()
    }
}

impl<'a> IntoIterator for MapView<'a> {
    type Item = (&'a [u8], &'a [u8]);
    type IntoIter = Pairs<'a>;

    fn into_iter(self) -> Pairs<'a> {
        self.iter()
    }
}

impl<'a> IntoIterator for &MapView<'a> {
    type Item = (&'a [u8], &'a [u8]);
    type IntoIter = Pairs<'a>;

    fn into_iter(self) -> Pairs<'a> {
        self.iter()
    }
}
