//! Bimaps that own their encoding.

use super::map::{MapBuf, pair_bytes};
use crate::hex::HexPairs;
use crate::{BiMapError, BiMapView, EncodeError, Pairs};
use alloc::borrow::Cow;
use alloc::vec::Vec;
use core::fmt;

/// The pairs of a bimap, with their encoding and with their indices in the order of their values:
/// to a [`BiMapView`] what a `PathBuf` is to a `Path`.
///
/// ```
/// use commonware_proved::BiMapBuf;
///
/// // From keys of 48 bytes to identities of 32.
/// let members = BiMapBuf::from_pairs(48, 32, [([0xb0; 48], [7; 32]), ([0xa0; 48], [9; 32])])?;
/// assert_eq!(members.as_view().get_value(&[0xb0; 48]), Some(&[7; 32][..]));
/// assert_eq!(members.as_view().get_key(&[9; 32]), Some(&[0xa0; 48][..]));
/// # Ok::<(), commonware_proved::EncodeError>(())
/// ```
#[derive(Clone, PartialEq, Eq, Hash)]
pub struct BiMapBuf {
    pairs: MapBuf,
    by_value: Vec<u32>,
}

impl BiMapBuf {
    /// Returns the bimap of these pairs of a key and a value, which may come in any order.
    ///
    /// # Errors
    ///
    /// Those of [`MapBuf::from_pairs`], and `RepeatedValue` where no key repeats and a value does.
    /// Both repeats come with the indices of two of the pairs in the order in which they were
    /// given.
    ///
    /// ```
    /// # use commonware_proved::{BiMapBuf, EncodeError};
    /// let bimap = BiMapBuf::from_pairs(1, 1, [(b"b", b"x"), (b"a", b"y")])?;
    /// assert_eq!(bimap.as_view().get_key(b"x"), Some(&b"b"[..]));
    ///
    /// let pairs = [(b"c", b"x"), (b"b", b"y"), (b"a", b"x")];
    /// let repeated = EncodeError::RepeatedValue { first: 0, second: 2 };
    /// assert_eq!(BiMapBuf::from_pairs(1, 1, pairs), Err(repeated));
    /// # Ok::<(), EncodeError>(())
    /// ```
    pub fn from_pairs<K: AsRef<[u8]>, V: AsRef<[u8]>>(
        key_size: usize,
        value_size: usize,
        pairs: impl IntoIterator<Item = (K, V)>,
    ) -> Result<BiMapBuf, EncodeError> {
        let bytes = pair_bytes(key_size, value_size, pairs)?;
        let map = MapBuf::of_bytes(key_size, value_size, &bytes)?;
        match indices(&map) {
            Ok(by_value) => Ok(BiMapBuf::of(map, by_value)),
            Err(BiMapError::Refused(refusal)) => Err(EncodeError::of_reading(refusal)),
            Err(BiMapError::Repeated { first, second }) => {
                let given = [first, second].map(|index| given_index(&bytes, &map, index));
                let (first, second) = (given[0].min(given[1]), given[0].max(given[1]));
                Err(EncodeError::RepeatedValue { first, second })
            }
        }
    }

    /// Decodes the bimap of keys of `key_size` bytes and values of `value_size` that the whole
    /// input is, as [`BiMapView::decode`] does. Its bytes aren't copied; who needs an input that is
    /// refused reads a [`BiMapView`] first.
    ///
    /// # Errors
    ///
    /// Those of [`BiMapView::decode`].
    ///
    /// ```
    /// # use commonware_proved::{BiMapBuf, BiMapError};
    /// let bimap = BiMapBuf::decode(1, 1, vec![2, 5, 7, 2, 60, 40])?;
    /// assert_eq!(bimap.as_view().get_key(&[40]), Some(&[7][..]));
    /// let repeated = BiMapError::Repeated { first: 0, second: 1 };
    /// assert_eq!(BiMapBuf::decode(1, 1, vec![2, 5, 7, 2, 60, 60]), Err(repeated));
    /// # Ok::<(), BiMapError>(())
    /// ```
    pub fn decode(
        key_size: usize,
        value_size: usize,
        input: Vec<u8>,
    ) -> Result<BiMapBuf, BiMapError> {
        let view = BiMapView::decode(key_size, value_size, &input)?;
        let (columns, by_value) = (view.as_map().columns(), view.into_indices());
        Ok(BiMapBuf::of(MapBuf::of(input, columns), by_value))
    }

    /// Returns the bimap of these pairs, whose indices these are in the order of their values.
    pub(crate) fn of(pairs: MapBuf, by_value: Vec<u32>) -> BiMapBuf {
        BiMapBuf { pairs, by_value }
    }

    /// Returns the pairs, in constant time.
    ///
    /// ```
    /// # use commonware_proved::BiMapBuf;
    /// let bimap = BiMapBuf::from_pairs(1, 1, [(b"b", b"x"), (b"a", b"y")])?;
    /// assert_eq!(bimap.as_view().position_of_value(b"x"), Some(1));
    /// # Ok::<(), commonware_proved::EncodeError>(())
    /// ```
    #[must_use]
    pub fn as_view(&self) -> BiMapView<'_> {
        BiMapView::of(self.pairs.as_view(), Cow::Borrowed(&self.by_value))
    }

    /// Returns the encoding.
    ///
    /// ```
    /// # use commonware_proved::BiMapBuf;
    /// let owned = BiMapBuf::from_pairs(1, 1, [(b"b", b"x"), (b"a", b"y")])?;
    /// assert_eq!(owned.as_bytes(), b"\x02ab\x02yx");
    /// # Ok::<(), commonware_proved::EncodeError>(())
    /// ```
    #[must_use]
    pub fn as_bytes(&self) -> &[u8] {
        self.pairs.as_bytes()
    }

    /// Returns the encoding, which isn't copied.
    ///
    /// ```
    /// # use commonware_proved::BiMapBuf;
    /// let bimap = BiMapBuf::from_pairs(1, 1, [(b"b", b"x"), (b"a", b"y")])?;
    /// assert_eq!(bimap.into_bytes(), b"\x02ab\x02yx");
    /// # Ok::<(), commonware_proved::EncodeError>(())
    /// ```
    #[must_use]
    pub fn into_bytes(self) -> Vec<u8> {
        self.pairs.into_bytes()
    }
}

/// Returns the indices of the pairs of a map in the order of their values, where all differ.
fn indices(map: &MapBuf) -> Result<Vec<u32>, BiMapError> {
    let map = map.as_view();
    let view = BiMapView::decode(map.key_size(), map.value_size(), map.as_bytes())?;
    Ok(view.into_indices())
}

/// Returns where the pair at an index of a map is among the pairs that it was made of, in which no
/// key repeats.
fn given_index(pairs: &[u8], map: &MapBuf, index: usize) -> usize {
    let map = map.as_view();
    let key = map.get(index);
    let pairs = pairs.chunks_exact(map.key_size() + map.value_size());
    let others = pairs.take_while(|pair| Some(&pair[..map.key_size()]) != key);
    others.count()
}

/// The encoding.
impl AsRef<[u8]> for BiMapBuf {
    fn as_ref(&self) -> &[u8] {
        self.as_bytes()
    }
}

/// The pairs in hexadecimal.
impl fmt::Debug for BiMapBuf {
    fn fmt(&self, f: &mut fmt::Formatter<'_>) -> fmt::Result {
        let pairs = HexPairs(self.pairs.as_view().iter());
        f.debug_tuple("BiMapBuf").field(&pairs).finish()
    }
}

impl<'a> IntoIterator for &'a BiMapBuf {
    type Item = (&'a [u8], &'a [u8]);
    type IntoIter = Pairs<'a>;

    fn into_iter(self) -> Pairs<'a> {
        self.as_view().iter()
    }
}
