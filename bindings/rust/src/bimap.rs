//! Bimaps of keys and values, each of one size, in their encoding.

use crate::error::whole;
use crate::hex::HexPairs;
use crate::items::{Column, Items, Pairs};
use crate::limits::limits;
use crate::map::Columns;
use crate::room::zeros;
use crate::{BiMapBuf, MapView, Refusal, SetView, raw, status};
use alloc::borrow::Cow;
use alloc::vec::Vec;
use core::error::Error;
use core::fmt;
use core::ops::RangeBounds;

/// The pairs of a bimap, whose keys are strictly increasing and whose values all differ, borrowed
/// from its encoding. Keys have one size and values another, which are known only when the program
/// runs. It has the indices of the pairs in the order of their values, so that a key is found by
/// its value too; the keys and values themselves aren't copied. Every number is a size.
///
/// A [`BiMapBuf`] owns the encoding, and is made of pairs. The encoding is that of a map; that its
/// values differ is seen as it is read.
///
/// ```
/// use commonware_proved::{BiMapError, BiMapView};
///
/// // From two keys of 48 bytes, as keys of BLS12-381 in G1 have, to identities of 32.
/// let (keys, ids) = ([[0xa0; 48], [0xb0; 48]], [[9; 32], [7; 32]]);
/// let bytes = [&[2][..], keys.as_flattened(), &[2], ids.as_flattened()].concat();
/// let members = BiMapView::decode(48, 32, &bytes)?;
/// assert_eq!(members.get_value(&keys[1]), Some(&ids[1][..]));
/// assert_eq!(members.get_key(&ids[0]), Some(&keys[0][..]));
/// assert_eq!(members.get_key(&[8; 32]), None);
///
/// let twice = [&[2][..], keys.as_flattened(), &[2], &[9; 64]].concat();
/// let repeated = BiMapError::Repeated { first: 0, second: 1 };
/// assert_eq!(BiMapView::decode(48, 32, &twice), Err(repeated));
/// # Ok::<(), BiMapError>(())
/// ```
#[derive(Clone, PartialEq, Eq, Hash)]
pub struct BiMapView<'a> {
    pairs: MapView<'a>,
    by_value: Cow<'a, [u32]>,
}

impl<'a> BiMapView<'a> {
    /// Decodes the bimap of keys of `key_size` bytes and values of `value_size` at the start of the
    /// input, whose number of pairs is in the range, and returns what follows it. It takes
    /// O(n log n) comparisons, and memory for an index of each pair: the first of two calls of the
    /// library tells how many they are.
    ///
    /// # Errors
    ///
    /// `Refused` with what [`MapView::read`] returns, or with `Memory`; else `Repeated`.
    ///
    /// ```
    /// # use commonware_proved::{BiMapError, BiMapView, Refusal};
    /// let (bimap, rest) = BiMapView::read(1, 2, &[1, 7, 1, 8, 9, 5], 1..=256)?;
    /// assert_eq!((bimap.len(), rest), (1, &[5][..]));
    /// let length = BiMapError::Refused(Refusal::InvalidLength(2));
    /// assert_eq!(BiMapView::read(1, 2, &[1, 7, 2, 8, 9], ..), Err(length));
    /// # Ok::<(), BiMapError>(())
    /// ```
    pub fn read(
        key_size: usize,
        value_size: usize,
        input: &'a [u8],
        lengths: impl RangeBounds<usize>,
    ) -> Result<(BiMapView<'a>, &'a [u8]), BiMapError> {
        let (sizes, limits) = ((key_size, value_size), limits(&lengths));
        let mut by_value = Vec::new();
        let mut view = call(sizes, input, limits, &mut by_value);
        if view.status == status::ROOM {
            by_value = zeros(view.number).ok_or(Refusal::Memory)?;
            view = call(sizes, input, limits, &mut by_value);
        }
        match view.status {
            status::OK => {
                let (encoding, rest) = input.split_at(input.len() - view.left);
                let columns = Columns {
                    keys: Column::new(key_size, view.count, view.keys),
                    values: Column::new(value_size, view.count, view.values),
                };
                let pairs = MapView::of(encoding, columns);
                Ok((BiMapView::of(pairs, Cow::Owned(by_value)), rest))
            }
            status::REPEATED_VALUE => Err(BiMapError::Repeated {
                first: view.first,
                second: view.second,
            }),
            status => Err(Refusal::of(status, view.number).into()),
        }
    }

    /// Decodes the bimap that the whole input is, of any number of pairs.
    ///
    /// # Errors
    ///
    /// Those of [`BiMapView::read`], or `Refused` with `LeftOver`.
    ///
    /// ```
    /// # use commonware_proved::{BiMapError, BiMapView, Refusal};
    /// assert_eq!(BiMapView::decode(1, 2, &[1, 7, 1, 8, 9])?.len(), 1);
    /// let left_over = BiMapError::Refused(Refusal::LeftOver(1));
    /// assert_eq!(BiMapView::decode(1, 1, &[1, 7, 1, 8, 9]), Err(left_over));
    /// # Ok::<(), BiMapError>(())
    /// ```
    pub fn decode(
        key_size: usize,
        value_size: usize,
        input: &'a [u8],
    ) -> Result<BiMapView<'a>, BiMapError> {
        Ok(whole(BiMapView::read(key_size, value_size, input, ..)?)?)
    }

    /// Returns the bimap of these pairs, whose indices these are in the order of their values.
    pub(crate) fn of(pairs: MapView<'a>, by_value: Cow<'a, [u32]>) -> BiMapView<'a> {
        BiMapView { pairs, by_value }
    }

    /// Returns the indices of the pairs in the order of their values.
    pub(crate) fn into_indices(self) -> Vec<u32> {
        self.by_value.into_owned()
    }

    /// Returns the encoding.
    ///
    /// ```
    /// # use commonware_proved::BiMapView;
    /// assert_eq!(BiMapView::read(1, 1, &[1, 7, 1, 8, 9], ..)?.0.as_bytes(), [1, 7, 1, 8]);
    /// # Ok::<(), commonware_proved::BiMapError>(())
    /// ```
    #[must_use]
    pub fn as_bytes(&self) -> &'a [u8] {
        self.pairs.as_bytes()
    }

    /// Returns the pairs as a map.
    ///
    /// ```
    /// # use commonware_proved::BiMapView;
    /// let map = BiMapView::decode(1, 1, &[2, 5, 7, 2, 60, 40])?.as_map();
    /// assert_eq!(map.value(1), Some(&[40][..]));
    /// # Ok::<(), commonware_proved::BiMapError>(())
    /// ```
    #[must_use]
    pub fn as_map(&self) -> MapView<'a> {
        self.pairs
    }

    /// Returns the keys, whose encoding is the start of the bimap's.
    ///
    /// ```
    /// # use commonware_proved::BiMapView;
    /// let bimap = BiMapView::decode(1, 1, &[2, 5, 7, 2, 0, 1])?;
    /// assert_eq!(bimap.keys().as_bytes(), [2, 5, 7]);
    /// # Ok::<(), commonware_proved::BiMapError>(())
    /// ```
    #[must_use]
    pub fn keys(&self) -> SetView<'a> {
        self.pairs.keys()
    }

    /// Returns how many bytes a key has.
    ///
    /// ```
    /// # use commonware_proved::BiMapView;
    /// assert_eq!(BiMapView::decode(20, 8, &[0, 0])?.key_size(), 20);
    /// # Ok::<(), commonware_proved::BiMapError>(())
    /// ```
    #[must_use]
    pub fn key_size(&self) -> usize {
        self.pairs.key_size()
    }

    /// Returns how many bytes a value has.
    ///
    /// ```
    /// # use commonware_proved::BiMapView;
    /// assert_eq!(BiMapView::decode(20, 8, &[0, 0])?.value_size(), 8);
    /// # Ok::<(), commonware_proved::BiMapError>(())
    /// ```
    #[must_use]
    pub fn value_size(&self) -> usize {
        self.pairs.value_size()
    }

    /// Returns how many pairs there are.
    ///
    /// ```
    /// # use commonware_proved::BiMapView;
    /// assert_eq!(BiMapView::decode(1, 1, &[2, 5, 7, 2, 0, 1])?.len(), 2);
    /// # Ok::<(), commonware_proved::BiMapError>(())
    /// ```
    #[must_use]
    pub fn len(&self) -> usize {
        self.pairs.len()
    }

    /// Whether there are no pairs.
    ///
    /// ```
    /// # use commonware_proved::BiMapView;
    /// assert!(BiMapView::decode(1, 1, &[0, 0])?.is_empty());
    /// # Ok::<(), commonware_proved::BiMapError>(())
    /// ```
    #[must_use]
    pub fn is_empty(&self) -> bool {
        self.pairs.is_empty()
    }

    /// Returns the key at an index, or `None` past the last.
    ///
    /// ```
    /// # use commonware_proved::BiMapView;
    /// let bimap = BiMapView::decode(1, 1, &[2, 5, 7, 2, 60, 40])?;
    /// assert_eq!((bimap.get(1), bimap.get(2)), (Some(&[7][..]), None));
    /// # Ok::<(), commonware_proved::BiMapError>(())
    /// ```
    #[must_use]
    pub fn get(&self, index: usize) -> Option<&'a [u8]> {
        self.pairs.get(index)
    }

    /// Returns the index of a key, or `None` where it isn't there, as one of another size never
    /// is, in O(log n) comparisons.
    ///
    /// ```
    /// # use commonware_proved::BiMapView;
    /// let bimap = BiMapView::decode(1, 1, &[2, 5, 7, 2, 60, 40])?;
    /// assert_eq!((bimap.position(&[7]), bimap.position(&[40])), (Some(1), None));
    /// # Ok::<(), commonware_proved::BiMapError>(())
    /// ```
    #[must_use]
    pub fn position(&self, key: &[u8]) -> Option<usize> {
        self.pairs.position(key)
    }

    /// Whether the key is there.
    ///
    /// ```
    /// # use commonware_proved::BiMapView;
    /// assert!(!BiMapView::decode(1, 1, &[2, 5, 7, 2, 60, 40])?.contains(&[40]));
    /// # Ok::<(), commonware_proved::BiMapError>(())
    /// ```
    #[must_use]
    pub fn contains(&self, key: &[u8]) -> bool {
        self.pairs.contains(key)
    }

    /// Returns the value of the key at an index, or `None` past the last.
    ///
    /// ```
    /// # use commonware_proved::BiMapView;
    /// let bimap = BiMapView::decode(1, 1, &[2, 5, 7, 2, 60, 40])?;
    /// assert_eq!((bimap.value(1), bimap.value(2)), (Some(&[40][..]), None));
    /// # Ok::<(), commonware_proved::BiMapError>(())
    /// ```
    #[must_use]
    pub fn value(&self, index: usize) -> Option<&'a [u8]> {
        self.pairs.value(index)
    }

    /// Returns the value of a key, or `None` where the key isn't there, as one of another size
    /// never is, in O(log n) comparisons.
    ///
    /// ```
    /// # use commonware_proved::BiMapView;
    /// let bimap = BiMapView::decode(1, 1, &[2, 5, 7, 2, 60, 40])?;
    /// assert_eq!((bimap.get_value(&[7]), bimap.get_value(&[40])), (Some(&[40][..]), None));
    /// # Ok::<(), commonware_proved::BiMapError>(())
    /// ```
    #[must_use]
    pub fn get_value(&self, key: &[u8]) -> Option<&'a [u8]> {
        self.pairs.get_value(key)
    }

    /// Returns the index of the pair with a value, or `None` where the value isn't there, as one of
    /// another size never is, in O(log n) comparisons.
    ///
    /// ```
    /// # use commonware_proved::BiMapView;
    /// let bimap = BiMapView::decode(1, 1, &[2, 5, 7, 2, 60, 40])?;
    /// let positions = [[40], [41]].map(|value| bimap.position_of_value(&value));
    /// assert_eq!(positions, [Some(1), None]);
    /// # Ok::<(), commonware_proved::BiMapError>(())
    /// ```
    #[must_use]
    pub fn position_of_value(&self, value: &[u8]) -> Option<usize> {
        let found = self
            .by_value
            .binary_search_by(|&index| self.pairs.value(index as usize).cmp(&Some(value)));
        Some(self.by_value[found.ok()?] as usize)
    }

    /// Returns the key of a value, or `None` where the value isn't there, in O(log n) comparisons.
    ///
    /// ```
    /// # use commonware_proved::BiMapView;
    /// let bimap = BiMapView::decode(1, 1, &[2, 5, 7, 2, 60, 40])?;
    /// assert_eq!((bimap.get_key(&[40]), bimap.get_key(&[7])), (Some(&[7][..]), None));
    /// # Ok::<(), commonware_proved::BiMapError>(())
    /// ```
    #[must_use]
    pub fn get_key(&self, value: &[u8]) -> Option<&'a [u8]> {
        self.get(self.position_of_value(value)?)
    }

    /// Returns the values in the order of their keys.
    ///
    /// ```
    /// # use commonware_proved::BiMapView;
    /// let bimap = BiMapView::decode(1, 1, &[2, 5, 7, 2, 60, 40])?;
    /// assert!(bimap.values().eq([[60], [40]]));
    /// # Ok::<(), commonware_proved::BiMapError>(())
    /// ```
    pub fn values(&self) -> Items<'a> {
        self.pairs.values()
    }

    /// Returns the pairs in the order of their keys.
    ///
    /// ```
    /// # use commonware_proved::BiMapView;
    /// let bimap = BiMapView::decode(1, 1, &[2, 5, 7, 2, 60, 40])?;
    /// assert_eq!(bimap.iter().next_back(), Some((&[7][..], &[40][..])));
    /// # Ok::<(), commonware_proved::BiMapError>(())
    /// ```
    pub fn iter(&self) -> Pairs<'a> {
        self.pairs.iter()
    }

    /// Returns copies of the pairs in the order of their keys.
    ///
    /// ```
    /// # use commonware_proved::BiMapView;
    /// let copies = BiMapView::decode(1, 1, &[1, 5, 1, 60])?.to_owned_pairs();
    /// assert_eq!(copies, [(vec![5], vec![60])]);
    /// # Ok::<(), commonware_proved::BiMapError>(())
    /// ```
    #[must_use]
    pub fn to_owned_pairs(&self) -> Vec<(Vec<u8>, Vec<u8>)> {
        self.pairs.to_owned_pairs()
    }

    /// Returns the bimap with copies of its encoding and of the indices.
    ///
    /// ```
    /// # use commonware_proved::BiMapView;
    /// let owned = BiMapView::decode(1, 1, &[2, 5, 7, 2, 60, 40])?.to_buf();
    /// assert_eq!(owned.as_view().get_key(&[40]), Some(&[7][..]));
    /// # Ok::<(), commonware_proved::BiMapError>(())
    /// ```
    #[must_use]
    pub fn to_buf(&self) -> BiMapBuf {
        BiMapBuf::of(self.pairs.to_buf(), self.by_value.to_vec())
    }
}

/// Calls the library with the sizes of a key and of a value, an input, the least and the greatest
/// number of pairs, and a room for their indices.
fn call(
    sizes: (usize, usize),
    input: &[u8],
    limits: (usize, usize),
    room: &mut [u32],
) -> raw::BimapView {
    // SAFETY: each pointer and the length after it are those of one slice; both are borrowed for
    // the call.
    unsafe {
        raw::commonware_bimap_read(
            sizes.0,
            sizes.1,
            input.as_ptr(),
            input.len(),
            limits.0,
            limits.1,
            room.as_mut_ptr(),
            room.len(),
        )
    }
}

/// The encoding.
impl AsRef<[u8]> for BiMapView<'_> {
    fn as_ref(&self) -> &[u8] {
        self.as_bytes()
    }
}

/// The pairs in hexadecimal.
impl fmt::Debug for BiMapView<'_> {
    fn fmt(&self, f: &mut fmt::Formatter<'_>) -> fmt::Result {
        let pairs = HexPairs(self.iter());
        f.debug_tuple("BiMapView").field(&pairs).finish()
    }
}

impl<'a> IntoIterator for BiMapView<'a> {
    type Item = (&'a [u8], &'a [u8]);
    type IntoIter = Pairs<'a>;

    fn into_iter(self) -> Pairs<'a> {
        self.iter()
    }
}

impl<'a> IntoIterator for &BiMapView<'a> {
    type Item = (&'a [u8], &'a [u8]);
    type IntoIter = Pairs<'a>;

    fn into_iter(self) -> Pairs<'a> {
        self.iter()
    }
}

/// Why an input is no bimap.
///
/// ```
/// use commonware_proved::{BiMapError, BiMapView, Refusal};
/// use std::error::Error;
///
/// // Three keys from 5 on, of which the third has the value of the first.
/// let error = BiMapView::decode(1, 1, &[3, 5, 6, 7, 3, 0, 1, 0]).unwrap_err();
/// assert_eq!(error, BiMapError::Repeated { first: 0, second: 2 });
/// assert_eq!(error.to_string(), "pairs 0 and 2 have the same value");
///
/// let error = BiMapError::Refused(Refusal::EndOfInput);
/// assert_eq!(error.to_string(), "the bimap can't be read");
/// assert_eq!(error.source().unwrap().to_string(), "unexpected end of input");
/// ```
#[derive(Clone, Copy, Debug, PartialEq, Eq, Hash)]
#[non_exhaustive]
pub enum BiMapError {
    /// The input is no map, or an allocation failed.
    Refused(Refusal),
    /// Two pairs of the map have the same value.
    Repeated {
        /// The index of the only earlier pair with the value of the second.
        first: usize,
        /// The least index of a pair whose value an earlier pair has.
        second: usize,
    },
}

impl From<Refusal> for BiMapError {
    fn from(refusal: Refusal) -> BiMapError {
        BiMapError::Refused(refusal)
    }
}

impl fmt::Display for BiMapError {
    fn fmt(&self, f: &mut fmt::Formatter<'_>) -> fmt::Result {
        match self {
            BiMapError::Refused(_) => f.write_str("the bimap can't be read"),
            BiMapError::Repeated { first, second } => {
                write!(f, "pairs {first} and {second} have the same value")
            }
        }
    }
}

impl Error for BiMapError {
    fn source(&self) -> Option<&(dyn Error + 'static)> {
        match self {
            BiMapError::Refused(refusal) => Some(refusal),
            BiMapError::Repeated { .. } => None,
        }
    }
}
