//! Byte sequences of one size, one after another.

use crate::hex::{HexItems, HexPairs};
use core::fmt;
use core::iter::FusedIterator;

/// Where items of one size are in an encoding. Their bytes are as many as `count * size`; where the
/// size is 0, only `count` says how many there are.
#[derive(Clone, Copy, PartialEq, Eq, Hash)]
pub struct Column {
    pub size: usize,
    pub count: u32,
    pub start: usize,
}

impl Column {
    /// Returns where the items of a reader of the library are.
    pub fn new(size: usize, count: u32, start: usize) -> Column {
        Column { size, count, start }
    }

    /// Returns how many items there are.
    pub fn len(self) -> usize {
        self.count as usize
    }

    /// Returns where the last item ends.
    pub fn end(self) -> usize {
        self.start + self.len() * self.size
    }

    /// Returns the bytes of all items.
    pub fn bytes(self, encoding: &[u8]) -> &[u8] {
        &encoding[self.start..self.end()]
    }

    /// Returns the item at an index, or `None` past the last.
    pub fn get(self, encoding: &[u8], index: usize) -> Option<&[u8]> {
        self.items(encoding).nth(index)
    }

    /// Returns the items in order.
    pub fn items(self, encoding: &[u8]) -> Items<'_> {
        Items {
            size: self.size,
            count: self.len(),
            bytes: self.bytes(encoding),
        }
    }
}

/// The items of a set or of a map in order, each as its bytes.
///
/// ```
/// use commonware_proved::SetView;
///
/// let keys = SetView::decode(2, &[3, 1, 1, 1, 2, 1, 3])?;
/// let mut items = keys.iter();
/// assert_eq!(items.len(), 3);
/// assert_eq!((items.next(), items.next_back()), (Some(&[1, 1][..]), Some(&[1, 3][..])));
/// assert_eq!((items.next(), items.next()), (Some(&[1, 2][..]), None));
/// # Ok::<(), commonware_proved::Refusal>(())
/// ```
#[derive(Clone)]
#[must_use = "iterators are lazy and do nothing unless consumed"]
pub struct Items<'a> {
    size: usize,
    count: usize,
    bytes: &'a [u8],
}

impl<'a> Iterator for Items<'a> {
    type Item = &'a [u8];

    fn next(&mut self) -> Option<&'a [u8]> {
        self.nth(0)
    }

    fn nth(&mut self, n: usize) -> Option<&'a [u8]> {
        let skipped = self.count.min(n);
        self.count -= skipped;
        self.bytes = &self.bytes[skipped * self.size..];
        self.count = self.count.checked_sub(1)?;
        let (item, rest) = self.bytes.split_at(self.size);
        self.bytes = rest;
        Some(item)
    }

    fn size_hint(&self) -> (usize, Option<usize>) {
        (self.count, Some(self.count))
    }
}

impl<'a> DoubleEndedIterator for Items<'a> {
    fn next_back(&mut self) -> Option<&'a [u8]> {
        self.count = self.count.checked_sub(1)?;
        let (rest, item) = self.bytes.split_at(self.count * self.size);
        self.bytes = rest;
        Some(item)
    }
}

impl ExactSizeIterator for Items<'_> {}

impl FusedIterator for Items<'_> {}

/// The items in hexadecimal.
impl fmt::Debug for Items<'_> {
    fn fmt(&self, f: &mut fmt::Formatter<'_>) -> fmt::Result {
        let items = HexItems(self.clone());
        f.debug_tuple("Items").field(&items).finish()
    }
}

/// The pairs of a map or of a bimap in the order of their keys, each as the bytes of its key and of
/// its value.
///
/// ```
/// use commonware_proved::MapView;
///
/// let weights = MapView::decode(1, 1, &[3, 5, 6, 7, 3, 50, 60, 70])?;
/// let mut pairs = weights.iter();
/// assert_eq!(pairs.len(), 3);
/// assert_eq!(pairs.next_back(), Some((&[7][..], &[70][..])));
/// assert_eq!(pairs.nth(1), Some((&[6][..], &[60][..])));
/// assert_eq!(pairs.next(), None);
/// # Ok::<(), commonware_proved::Refusal>(())
/// ```
#[derive(Clone)]
#[must_use = "iterators are lazy and do nothing unless consumed"]
pub struct Pairs<'a> {
    keys: Items<'a>,
    values: Items<'a>,
}

impl<'a> Pairs<'a> {
    /// Returns the pairs of these keys and of as many values.
    pub(crate) fn new(keys: Items<'a>, values: Items<'a>) -> Pairs<'a> {
        Pairs { keys, values }
    }
}

impl<'a> Iterator for Pairs<'a> {
    type Item = (&'a [u8], &'a [u8]);

    fn next(&mut self) -> Option<(&'a [u8], &'a [u8])> {
        self.keys.next().zip(self.values.next())
    }

    fn nth(&mut self, n: usize) -> Option<(&'a [u8], &'a [u8])> {
        self.keys.nth(n).zip(self.values.nth(n))
    }

    fn size_hint(&self) -> (usize, Option<usize>) {
        self.keys.size_hint()
    }
}

impl<'a> DoubleEndedIterator for Pairs<'a> {
    fn next_back(&mut self) -> Option<(&'a [u8], &'a [u8])> {
        self.keys.next_back().zip(self.values.next_back())
    }
}

impl ExactSizeIterator for Pairs<'_> {}

impl FusedIterator for Pairs<'_> {}

/// The pairs in hexadecimal.
impl fmt::Debug for Pairs<'_> {
    fn fmt(&self, f: &mut fmt::Formatter<'_>) -> fmt::Result {
        let pairs = HexPairs(self.clone());
        f.debug_tuple("Pairs").field(&pairs).finish()
    }
}
