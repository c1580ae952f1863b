//! Sets of keys of one size, in their encoding.

use crate::error::whole;
use crate::hex::HexItems;
use crate::items::{Column, Items};
use crate::limits::limits;
use crate::room::{trimmed, zeros};
use crate::{EncodeError, Refusal, SetBuf, raw, status};
use alloc::vec::Vec;
use core::ops::RangeBounds;
use core::{fmt, slice};

/// The keys of a set, strictly increasing, borrowed from its encoding, of a size that is known
/// only when the program runs. Nothing is copied. Every number is a size; keys of no bytes are
/// all the same key, so a set has at most one of them. [`Set`] has the size in its type, and a
/// [`SetBuf`] owns the encoding.
///
/// ```
/// use commonware_proved::SetView;
///
/// // Two keys of 20 bytes, as Ethereum's addresses have.
/// let bytes = [&[2][..], &[0xaa; 20], &[0xbb; 20]].concat();
/// let addresses = SetView::decode(20, &bytes)?;
/// assert_eq!(addresses.get(1), Some(&[0xbb; 20][..]));
/// assert_eq!(addresses.position(&[0xbb; 20]), Some(1));
/// assert!(!addresses.contains(&[0xcc; 20]));
/// # Ok::<(), commonware_proved::Refusal>(())
/// ```
#[derive(Clone, Copy, PartialEq, Eq, Hash)]
pub struct SetView<'a> {
    encoding: &'a [u8],
    keys: Column,
}

impl<'a> SetView<'a> {
    /// Decodes the set of keys of `key_size` bytes at the start of the input, whose number of keys
    /// is in the range, and returns what follows it. Nothing is allocated.
    ///
    /// # Errors
    ///
    /// The first fault (decoding error) of the input; neither `LeftOver` nor `Memory`.
    ///
    /// ```
    /// # use commonware_proved::{Refusal, SetView};
    /// let bytes = [&[1][..], &[9; 48], b"more"].concat();
    /// let (keys, rest) = SetView::read(48, &bytes, 1..=256)?;
    /// assert_eq!((keys.len(), rest), (1, &b"more"[..]));
    /// assert_eq!(SetView::read(48, &bytes, 2..), Err(Refusal::InvalidLength(1)));
    /// assert_eq!(SetView::read(96, &bytes, 1..=256), Err(Refusal::EndOfInput));
    /// # Ok::<(), Refusal>(())
    /// ```
    pub fn read(
        key_size: usize,
        input: &'a [u8],
        lengths: impl RangeBounds<usize>,
    ) -> Result<(SetView<'a>, &'a [u8]), Refusal> {
        let (least, most) = limits(&lengths);
        // SAFETY: the pointer and the length are those of one slice, which is borrowed for the
        // call.
        let view =
            unsafe { raw::commonware_set_read(key_size, input.as_ptr(), input.len(), least, most) };
        if view.status != status::OK {
            return Err(Refusal::of(view.status, view.number));
        }
        let (encoding, rest) = input.split_at(input.len() - view.left);
        let keys = Column::new(key_size, view.count, view.start);
        Ok((SetView { encoding, keys }, rest))
    }

    /// Decodes the set of keys of `key_size` bytes that the whole input is, of any number of keys.
    /// Nothing is allocated.
    ///
    /// # Errors
    ///
    /// The first fault (decoding error) of the input, or `LeftOver`; not `Memory`.
    ///
    /// ```
    /// # use commonware_proved::{Refusal, SetView};
    /// assert_eq!(SetView::decode(1, &[2, 5, 7])?.len(), 2);
    /// assert_eq!(SetView::decode(1, &[1, 5, 7]), Err(Refusal::LeftOver(1)));
    /// assert_eq!(SetView::decode(1, &[2, 7, 7]), Err(Refusal::NotStrict));
    /// # Ok::<(), Refusal>(())
    /// ```
    pub fn decode(key_size: usize, input: &'a [u8]) -> Result<SetView<'a>, Refusal> {
        whole(SetView::read(key_size, input, ..)?)
    }

    /// Encodes the set of keys of `key_size` bytes, one after another: sorted, each key once. The
    /// keys may come in any order and repeat. [`SetBuf::from_keys_dedup`] takes them one by one.
    ///
    /// # Errors
    ///
    /// `NoSize` where `key_size` is 0, `NotWhole`, `InvalidLength` where the distinct keys are more
    /// than 4294967295, and `Memory`.
    ///
    /// ```
    /// # use commonware_proved::{EncodeError, SetView};
    /// assert_eq!(SetView::encode_dedup(2, &[7, 8, 5, 6, 7, 8])?, [2, 5, 6, 7, 8]);
    /// assert_eq!(SetView::encode_dedup(2, &[7, 8, 5]), Err(EncodeError::NotWhole(1)));
    /// assert_eq!(SetView::encode_dedup(0, &[]), Err(EncodeError::NoSize));
    /// # Ok::<(), EncodeError>(())
    /// ```
    pub fn encode_dedup(key_size: usize, keys: &[u8]) -> Result<Vec<u8>, EncodeError> {
        let mut out = zeros(5 + keys.len()).ok_or(EncodeError::Memory)?;
        // SAFETY: each pointer and the length after it are those of one slice; `out` is a new one.
        let view = unsafe {
            let (room, length) = (out.as_mut_ptr(), out.len());
            raw::commonware_set_encode_dedup(key_size, keys.as_ptr(), keys.len(), room, length)
        };
        if view.status != status::OK {
            return Err(EncodeError::of(view.status, view.number));
        }
        Ok(trimmed(out, view.size))
    }

    /// Returns the set that is encoded by these bytes, and whose keys are there.
    pub(crate) fn of(encoding: &'a [u8], keys: Column) -> SetView<'a> {
        SetView { encoding, keys }
    }

    /// Returns where the keys are.
    pub(crate) fn column(&self) -> Column {
        self.keys
    }

    /// Returns the encoding.
    ///
    /// ```
    /// # use commonware_proved::SetView;
    /// assert_eq!(SetView::read(2, &[1, 5, 6, 7, 8], ..)?.0.as_bytes(), [1, 5, 6]);
    /// # Ok::<(), commonware_proved::Refusal>(())
    /// ```
    #[must_use]
    pub fn as_bytes(&self) -> &'a [u8] {
        self.encoding
    }

    /// Returns the bytes of all keys, one after another.
    ///
    /// ```
    /// # use commonware_proved::SetView;
    /// assert_eq!(SetView::decode(2, &[2, 5, 6, 7, 8])?.key_bytes(), [5, 6, 7, 8]);
    /// # Ok::<(), commonware_proved::Refusal>(())
    /// ```
    #[must_use]
    pub fn key_bytes(&self) -> &'a [u8] {
        self.keys.bytes(self.encoding)
    }

    /// Returns how many bytes a key has.
    ///
    /// ```
    /// # use commonware_proved::SetView;
    /// assert_eq!(SetView::decode(33, &[0])?.key_size(), 33);
    /// # Ok::<(), commonware_proved::Refusal>(())
    /// ```
    #[must_use]
    pub fn key_size(&self) -> usize {
        self.keys.size
    }

    /// Returns how many keys there are.
    ///
    /// ```
    /// # use commonware_proved::SetView;
    /// assert_eq!(SetView::decode(1, &[2, 5, 7])?.len(), 2);
    /// # Ok::<(), commonware_proved::Refusal>(())
    /// ```
    #[must_use]
    pub fn len(&self) -> usize {
        self.keys.len()
    }

    /// Whether there are no keys.
    ///
    /// ```
    /// # use commonware_proved::SetView;
    /// assert!(SetView::decode(1, &[0])?.is_empty());
    /// # Ok::<(), commonware_proved::Refusal>(())
    /// ```
    #[must_use]
    pub fn is_empty(&self) -> bool {
        self.len() == 0
    }

    /// Returns the key at an index, or `None` past the last.
    ///
    /// ```
    /// # use commonware_proved::SetView;
    /// let keys = SetView::decode(2, &[2, 5, 6, 7, 8])?;
    /// assert_eq!((keys.get(1), keys.get(2)), (Some(&[7, 8][..]), None));
    /// # Ok::<(), commonware_proved::Refusal>(())
    /// ```
    #[must_use]
    pub fn get(&self, index: usize) -> Option<&'a [u8]> {
        self.keys.get(self.encoding, index)
    }

    /// Returns the index of a key, or `None` where it isn't there, as one of another size never
    /// is, in O(log n) comparisons.
    ///
    /// ```
    /// # use commonware_proved::SetView;
    /// let keys = SetView::decode(2, &[2, 5, 6, 7, 8])?;
    /// assert_eq!((keys.position(&[7, 8]), keys.position(&[7])), (Some(1), None));
    /// # Ok::<(), commonware_proved::Refusal>(())
    /// ```
    #[must_use]
    pub fn position(&self, key: &[u8]) -> Option<usize> {
        if key.len() != self.key_size() {
            return None;
        }
        if key.is_empty() {
            return (!self.is_empty()).then_some(0);
        }
        position_in(self.key_bytes(), key)
    }

    /// Whether the key is there.
    ///
    /// ```
    /// # use commonware_proved::SetView;
    /// assert!(SetView::decode(2, &[2, 5, 6, 7, 8])?.contains(&[5, 6]));
    /// # Ok::<(), commonware_proved::Refusal>(())
    /// ```
    #[must_use]
    pub fn contains(&self, key: &[u8]) -> bool {
        self.position(key).is_some()
    }

    /// Returns the keys in order.
    ///
    /// ```
    /// # use commonware_proved::SetView;
    /// let keys = SetView::decode(2, &[2, 5, 6, 7, 8])?;
    /// assert_eq!(keys.iter().next_back(), Some(&[7, 8][..]));
    /// # Ok::<(), commonware_proved::Refusal>(())
    /// ```
    pub fn iter(&self) -> Items<'a> {
        self.keys.items(self.encoding)
    }

    /// Returns the set with the size in its type, where keys have `N` bytes.
    ///
    /// ```
    /// # use commonware_proved::SetView;
    /// let keys = SetView::decode(2, &[2, 5, 6, 7, 8])?;
    /// assert_eq!(keys.as_set::<2>().map(|set| set.keys()), Some(&[[5, 6], [7, 8]][..]));
    /// assert_eq!(keys.as_set::<4>(), None);
    /// # Ok::<(), commonware_proved::Refusal>(())
    /// ```
    #[must_use]
    pub fn as_set<const N: usize>(&self) -> Option<Set<'a, N>> {
        (self.key_size() == N).then_some(Set { view: *self })
    }

    /// Returns copies of the keys in order.
    ///
    /// ```
    /// # use commonware_proved::SetView;
    /// let copies = SetView::decode(2, &[2, 5, 6, 7, 8])?.to_owned_keys();
    /// assert_eq!(copies, [[5, 6], [7, 8]]);
    /// # Ok::<(), commonware_proved::Refusal>(())
    /// ```
    #[must_use]
    pub fn to_owned_keys(&self) -> Vec<Vec<u8>> {
        self.iter().map(<[u8]>::to_vec).collect()
    }

    /// Returns the set with a copy of its encoding.
    ///
    /// ```
    /// # use commonware_proved::SetView;
    /// let owned = SetView::decode(2, &[2, 5, 6, 7, 8])?.to_buf();
    /// assert_eq!(owned.as_view().position(&[7, 8]), Some(1));
    /// # Ok::<(), commonware_proved::Refusal>(())
    /// ```
    #[must_use]
    pub fn to_buf(&self) -> SetBuf {
        SetBuf::of(self.encoding.to_vec(), self.keys)
    }
}

/// Returns the index of a key of some bytes among keys of as many, one after another.
fn position_in(keys: &[u8], key: &[u8]) -> Option<usize> {
    // SAFETY: each pointer and the length after it are those of one slice.
    let view =
        unsafe { raw::commonware_set_position(keys.as_ptr(), keys.len(), key.as_ptr(), key.len()) };
    (view.status == status::OK).then_some(view.index)
}

/// The encoding.
impl AsRef<[u8]> for SetView<'_> {
    fn as_ref(&self) -> &[u8] {
        self.as_bytes()
    }
}

/// The keys in hexadecimal.
impl fmt::Debug for SetView<'_> {
    fn fmt(&self, f: &mut fmt::Formatter<'_>) -> fmt::Result {
        let keys = HexItems(self.iter());
        f.debug_tuple("SetView").field(&keys).finish()
    }
}

impl<'a, const N: usize> From<Set<'a, N>> for SetView<'a> {
    fn from(set: Set<'a, N>) -> SetView<'a> {
        set.view
    }
}

impl<'a> IntoIterator for SetView<'a> {
    type Item = &'a [u8];
    type IntoIter = Items<'a>;

    fn into_iter(self) -> Items<'a> {
        self.iter()
    }
}

impl<'a> IntoIterator for &SetView<'a> {
    type Item = &'a [u8];
    type IntoIter = Items<'a>;

    fn into_iter(self) -> Items<'a> {
        self.iter()
    }
}

/// The keys of a set, strictly increasing, borrowed from its encoding, each of `N` bytes. Nothing
/// is copied. [`SetView`] is the same for a size that is known only when the program runs.
///
/// ```
/// use commonware_proved::Set;
///
/// // Two keys of 33 bytes, as compressed keys of secp256k1 have.
/// let bytes = [&[2][..], &[2; 33], &[3; 33]].concat();
/// let keys = Set::<33>::decode(&bytes)?;
/// assert_eq!(keys.keys(), [[2; 33], [3; 33]]);
/// assert_eq!(keys.position(&[3; 33]), Some(1));
/// # Ok::<(), commonware_proved::Refusal>(())
/// ```
#[derive(Clone, Copy, PartialEq, Eq, Hash)]
pub struct Set<'a, const N: usize> {
    /// Its keys have `N` bytes.
    view: SetView<'a>,
}

impl<'a, const N: usize> Set<'a, N> {
    /// The keys of a set that has one key of no bytes, where `N` is 0.
    const ONE: &'static [[u8; N]] = &[[0; N]];

    /// Decodes the set at the start of the input, whose number of keys is in the range, and
    /// returns what follows it. Nothing is allocated.
    ///
    /// # Errors
    ///
    /// The first fault (decoding error) of the input; neither `LeftOver` nor `Memory`.
    ///
    /// ```
    /// # use commonware_proved::{Refusal, Set};
    /// let bytes = [&[1][..], &[9; 96], b"more"].concat();
    /// let (keys, rest) = Set::<96>::read(&bytes, 1..=256)?;
    /// assert_eq!((keys.len(), rest), (1, &b"more"[..]));
    /// assert_eq!(Set::<97>::read(&bytes, 1..=256)?.1, b"ore");
    /// assert_eq!(Set::<96>::read(&bytes, 2..), Err(Refusal::InvalidLength(1)));
    /// # Ok::<(), Refusal>(())
    /// ```
    pub fn read(
        input: &'a [u8],
        lengths: impl RangeBounds<usize>,
    ) -> Result<(Set<'a, N>, &'a [u8]), Refusal> {
        let (view, rest) = SetView::read(N, input, lengths)?;
        Ok((Set { view }, rest))
    }

    /// Decodes the set that the whole input is, of any number of keys. Nothing is allocated.
    ///
    /// # Errors
    ///
    /// The first fault (decoding error) of the input, or `LeftOver`; not `Memory`.
    ///
    /// ```
    /// # use commonware_proved::{Refusal, Set};
    /// assert_eq!(Set::<1>::decode(&[2, 5, 7])?.len(), 2);
    /// assert_eq!(Set::<1>::decode(&[1, 5, 7]), Err(Refusal::LeftOver(1)));
    /// # Ok::<(), Refusal>(())
    /// ```
    pub fn decode(input: &'a [u8]) -> Result<Set<'a, N>, Refusal> {
        SetView::decode(N, input).map(|view| Set { view })
    }

    /// Encodes the set of these keys: sorted, each key once. The keys may come in any order and
    /// repeat.
    ///
    /// # Errors
    ///
    /// `NoSize` where `N` is 0, `InvalidLength` where the distinct keys are more than 4294967295,
    /// and `Memory`.
    ///
    /// ```
    /// # use commonware_proved::{EncodeError, Set};
    /// assert_eq!(Set::encode_dedup(&[[7, 8], [5, 6], [7, 8]])?, [2, 5, 6, 7, 8]);
    /// # Ok::<(), EncodeError>(())
    /// ```
    pub fn encode_dedup(keys: &[[u8; N]]) -> Result<Vec<u8>, EncodeError> {
        SetView::encode_dedup(N, keys.as_flattened())
    }

    /// Returns the set of keys of `N` bytes.
    pub(crate) fn of(view: SetView<'a>) -> Set<'a, N> {
        Set { view }
    }

    /// Returns the encoding.
    ///
    /// ```
    /// # use commonware_proved::Set;
    /// assert_eq!(Set::<2>::read(&[1, 5, 6, 7, 8], ..)?.0.as_bytes(), [1, 5, 6]);
    /// # Ok::<(), commonware_proved::Refusal>(())
    /// ```
    #[must_use]
    pub fn as_bytes(&self) -> &'a [u8] {
        self.view.as_bytes()
    }

    /// Returns the bytes of all keys, one after another.
    ///
    /// ```
    /// # use commonware_proved::Set;
    /// assert_eq!(Set::<2>::decode(&[2, 5, 6, 7, 8])?.key_bytes(), [5, 6, 7, 8]);
    /// # Ok::<(), commonware_proved::Refusal>(())
    /// ```
    #[must_use]
    pub fn key_bytes(&self) -> &'a [u8] {
        self.view.key_bytes()
    }

    /// Returns the keys in order.
    ///
    /// ```
    /// # use commonware_proved::Set;
    /// assert_eq!(Set::<2>::decode(&[2, 5, 6, 7, 8])?.keys(), [[5, 6], [7, 8]]);
    /// # Ok::<(), commonware_proved::Refusal>(())
    /// ```
    #[must_use]
    pub fn keys(&self) -> &'a [[u8; N]] {
        if N == 0 {
            &Set::ONE[..self.len()]
        } else {
            self.key_bytes().as_chunks().0
        }
    }

    /// Returns how many keys there are.
    ///
    /// ```
    /// # use commonware_proved::Set;
    /// assert_eq!(Set::<2>::decode(&[2, 5, 6, 7, 8])?.len(), 2);
    /// # Ok::<(), commonware_proved::Refusal>(())
    /// ```
    #[must_use]
    pub fn len(&self) -> usize {
        self.view.len()
    }

    /// Whether there are no keys.
    ///
    /// ```
    /// # use commonware_proved::Set;
    /// assert!(Set::<2>::decode(&[0])?.is_empty());
    /// # Ok::<(), commonware_proved::Refusal>(())
    /// ```
    #[must_use]
    pub fn is_empty(&self) -> bool {
        self.view.is_empty()
    }

    /// Returns the key at an index, or `None` past the last.
    ///
    /// ```
    /// # use commonware_proved::Set;
    /// assert_eq!(Set::<2>::decode(&[2, 5, 6, 7, 8])?.get(1), Some(&[7, 8]));
    /// # Ok::<(), commonware_proved::Refusal>(())
    /// ```
    #[must_use]
    pub fn get(&self, index: usize) -> Option<&'a [u8; N]> {
        self.keys().get(index)
    }

    /// Returns the index of a key, or `None` where it isn't there, in O(log n) comparisons.
    ///
    /// ```
    /// # use commonware_proved::Set;
    /// let keys = Set::<2>::decode(&[2, 5, 6, 7, 8])?;
    /// assert_eq!((keys.position(&[7, 8]), keys.position(&[7, 9])), (Some(1), None));
    /// # Ok::<(), commonware_proved::Refusal>(())
    /// ```
    #[must_use]
    pub fn position(&self, key: &[u8; N]) -> Option<usize> {
        self.view.position(key)
    }

    /// Whether the key is there.
    ///
    /// ```
    /// # use commonware_proved::Set;
    /// assert!(!Set::<2>::decode(&[0])?.contains(&[5, 6]));
    /// # Ok::<(), commonware_proved::Refusal>(())
    /// ```
    #[must_use]
    pub fn contains(&self, key: &[u8; N]) -> bool {
        self.view.contains(key)
    }

    /// Returns the keys in order.
    ///
    /// ```
    /// # use commonware_proved::Set;
    /// let keys = Set::<2>::decode(&[2, 5, 6, 7, 8])?;
    /// assert_eq!(keys.iter().last(), Some(&[7, 8]));
    /// # Ok::<(), commonware_proved::Refusal>(())
    /// ```
    pub fn iter(&self) -> slice::Iter<'a, [u8; N]> {
        self.keys().iter()
    }
}

/// The whole input is the set, of any number of keys, as [`Set::decode`] takes it.
impl<'a, const N: usize> TryFrom<&'a [u8]> for Set<'a, N> {
    type Error = Refusal;

    fn try_from(input: &'a [u8]) -> Result<Set<'a, N>, Refusal> {
        Set::decode(input)
    }
}

/// The encoding.
impl<const N: usize> AsRef<[u8]> for Set<'_, N> {
    fn as_ref(&self) -> &[u8] {
        self.as_bytes()
    }
}

/// The keys in hexadecimal.
impl<const N: usize> fmt::Debug for Set<'_, N> {
    fn fmt(&self, f: &mut fmt::Formatter<'_>) -> fmt::Result {
        let keys = HexItems(self.view.iter());
        f.debug_tuple("Set").field(&keys).finish()
    }
}

impl<'a, const N: usize> IntoIterator for Set<'a, N> {
    type Item = &'a [u8; N];
    type IntoIter = slice::Iter<'a, [u8; N]>;

    fn into_iter(self) -> slice::Iter<'a, [u8; N]> {
        self.iter()
    }
}

impl<'a, const N: usize> IntoIterator for &Set<'a, N> {
    type Item = &'a [u8; N];
    type IntoIter = slice::Iter<'a, [u8; N]>;

    fn into_iter(self) -> slice::Iter<'a, [u8; N]> {
        self.iter()
    }
}
