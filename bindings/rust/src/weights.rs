//! What the members of a committee weigh.

use crate::{FaultModel, raw, status};
use core::error::Error;
use core::iter::Copied;
use core::{fmt, slice};

/// What each member of a committee weighs, as its stake or voting power: the weight at an index is
/// that of the member there. There are 1 to 4294967295 of them, each is positive, and their sum
/// fits 64 bits. They are borrowed, and nothing is copied.
///
/// ```
/// use commonware_proved::{FaultModel, Weights};
///
/// let stakes = [40, 30, 20, 10];
/// let weights = Weights::new(&stakes)?;
/// assert_eq!(weights.total(), 100);
/// assert_eq!(weights.max_faulty_weight(FaultModel::N3F1), 33);
/// assert_eq!(weights.quorum_weight(FaultModel::N3F1), 67);
/// # Ok::<(), commonware_proved::WeightsError>(())
/// ```
///
/// An index is that of [`Committee::position`](crate::Committee::position): the place in the order
/// of the keys, not that in which they were given. Weights in another order would accuse the wrong
/// members, and no call can tell. A map has keys and weights in the one order:
///
/// ```
/// use commonware_proved::{Committee, MapBuf, Weights};
///
/// // Keys and their stakes as they come.
/// let given = [([7; 32], 10u64), ([1; 32], 40), ([5; 32], 20), ([3; 32], 30)];
/// let pairs = given.map(|(key, stake)| (key, stake.to_be_bytes()));
/// let map = MapBuf::from_pairs(32, 8, pairs)?;
///
/// let keys = map.as_view().keys().as_set::<32>().ok_or("keys of another size")?;
/// let committee = Committee::from(keys);
/// let stake_of = |value: &[u8]| value.try_into().map(u64::from_be_bytes);
/// let stakes = map.as_view().values().map(stake_of).collect::<Result<Vec<_>, _>>()?;
/// let weights = Weights::new(&stakes)?;
///
/// // Each member weighs what was given with its key.
/// for (key, stake) in given {
///     let index = committee.position(&key).ok_or("no member")?;
///     assert_eq!(weights.get(index), Some(stake));
/// }
/// # Ok::<(), Box<dyn std::error::Error>>(())
/// ```
#[derive(Clone, Copy, PartialEq, Eq, Hash)]
pub struct Weights<'a> {
    items: &'a [u64],
    total: u64,
}

#[expect(
    clippy::len_without_is_empty,
    reason = "there is at least one, and whoever asks has them"
)]
impl<'a> Weights<'a> {
    /// Returns the weights of the members in the order of their indices. The library goes over them
    /// once, and nothing is allocated.
    ///
    /// # Errors
    ///
    /// Why these aren't the weights of a committee, with the index of the first that can't be one.
    ///
    /// ```
    /// # use commonware_proved::{Weights, WeightsError};
    /// assert_eq!(Weights::new(&[2, 1])?.total(), 3);
    /// assert_eq!(Weights::new(&[5, 0, 0]), Err(WeightsError::Zero(1)));
    /// assert_eq!(Weights::new(&[u64::MAX, 1]), Err(WeightsError::Overflow(1)));
    /// # Ok::<(), WeightsError>(())
    /// ```
    pub fn new(items: &'a [u64]) -> Result<Weights<'a>, WeightsError> {
        // The total and the errors are the same for every model.
        let view = numbers(FaultModel::N3F1, items);
        match view.status {
            status::OK => Ok(Weights {
                items,
                total: view.total,
            }),
            status => Err(WeightsError::of(status, view.number)),
        }
    }

    /// Returns how many members there are, which is at least one.
    ///
    /// ```
    /// # use commonware_proved::Weights;
    /// assert_eq!(Weights::new(&[2, 1])?.len(), 2);
    /// # Ok::<(), commonware_proved::WeightsError>(())
    /// ```
    #[must_use]
    pub fn len(&self) -> usize {
        self.items.len()
    }

    /// Returns what all members weigh together.
    ///
    /// ```
    /// # use commonware_proved::Weights;
    /// assert_eq!(Weights::new(&[u64::MAX - 1, 1])?.total(), u64::MAX);
    /// # Ok::<(), commonware_proved::WeightsError>(())
    /// ```
    #[must_use]
    pub fn total(&self) -> u64 {
        self.total
    }

    /// Returns what the member at an index weighs, or `None` past the last.
    ///
    /// ```
    /// # use commonware_proved::Weights;
    /// let weights = Weights::new(&[2, 1])?;
    /// assert_eq!((weights.get(1), weights.get(2)), (Some(1), None));
    /// # Ok::<(), commonware_proved::WeightsError>(())
    /// ```
    #[must_use]
    pub fn get(&self, index: usize) -> Option<u64> {
        self.items.get(index).copied()
    }

    /// Returns the weights in the order of the members.
    ///
    /// ```
    /// # use commonware_proved::Weights;
    /// assert_eq!(Weights::new(&[2, 1])?.iter().max(), Some(2));
    /// # Ok::<(), commonware_proved::WeightsError>(())
    /// ```
    pub fn iter(&self) -> Copied<slice::Iter<'a, u64>> {
        self.items.iter().copied()
    }

    /// Returns the weights as they were given.
    ///
    /// ```
    /// # use commonware_proved::Weights;
    /// assert_eq!(Weights::new(&[2, 1])?.as_slice(), [2, 1]);
    /// # Ok::<(), commonware_proved::WeightsError>(())
    /// ```
    #[must_use]
    pub fn as_slice(&self) -> &'a [u64] {
        self.items
    }

    /// Returns what faulty members may weigh together in a model of a k, where n is the total: f,
    /// the greatest number with kf + 1 at most the total. It is the greatest that is safe for all
    /// weights of this total: for which any two subsets that weigh all but f share members that
    /// weigh at least (k - 2)f + 1. More than that may be safe for these weights alone.
    ///
    /// ```
    /// # use commonware_proved::{FaultModel, Weights};
    /// let weights = Weights::new(&[40, 30, 20, 10])?;
    /// assert_eq!(weights.max_faulty_weight(FaultModel::N5F1), 19);
    /// # Ok::<(), commonware_proved::WeightsError>(())
    /// ```
    #[must_use]
    pub fn max_faulty_weight(&self, model: FaultModel) -> u64 {
        self.numbers(model).tolerated
    }

    /// Returns what the members of a quorum weigh together at least in a model: all but f.
    ///
    /// ```
    /// # use commonware_proved::{FaultModel, Weights};
    /// let weights = Weights::new(&[40, 30, 20, 10])?;
    /// assert_eq!(weights.quorum_weight(FaultModel::N5F1), 81);
    /// # Ok::<(), commonware_proved::WeightsError>(())
    /// ```
    #[must_use]
    pub fn quorum_weight(&self, model: FaultModel) -> u64 {
        self.numbers(model).quorum
    }

    /// Returns the least weight whose subsets share members that weigh at least f + 1 with each
    /// quorum of a model, for all weights of this total: 2f + 1.
    ///
    /// ```
    /// # use commonware_proved::{FaultModel, Weights};
    /// let weights = Weights::new(&[40, 30, 20, 10])?;
    /// assert_eq!(weights.smaller_quorum_weight(FaultModel::N5F1), 39);
    /// # Ok::<(), commonware_proved::WeightsError>(())
    /// ```
    #[must_use]
    pub fn smaller_quorum_weight(&self, model: FaultModel) -> u64 {
        self.numbers(model).smaller_quorum
    }

    /// Returns the numbers of a model. They go by the total alone, so that the weights needn't be
    /// gone over again: they are those of one member that weighs all.
    fn numbers(&self, model: FaultModel) -> raw::WeightsView {
        numbers(model, &[self.total])
    }
}

/// Returns what the library says of weights in a model.
fn numbers(model: FaultModel, items: &[u64]) -> raw::WeightsView {
    // SAFETY: the pointer and the length are those of one slice, which is borrowed for the call.
    unsafe { raw::commonware_weights_quorum(model.k(), items.as_ptr(), items.len()) }
}

/// The weights, as [`Weights::new`] takes them.
impl<'a> TryFrom<&'a [u64]> for Weights<'a> {
    type Error = WeightsError;

    fn try_from(items: &'a [u64]) -> Result<Weights<'a>, WeightsError> {
        Weights::new(items)
    }
}

/// The weights as a list.
impl fmt::Debug for Weights<'_> {
    fn fmt(&self, f: &mut fmt::Formatter<'_>) -> fmt::Result {
        f.debug_tuple("Weights").field(&self.items).finish()
    }
}

impl<'a> IntoIterator for Weights<'a> {
    type Item = u64;
    type IntoIter = Copied<slice::Iter<'a, u64>>;

    fn into_iter(self) -> Copied<slice::Iter<'a, u64>> {
        self.iter()
    }
}

impl<'a> IntoIterator for &Weights<'a> {
    type Item = u64;
    type IntoIter = Copied<slice::Iter<'a, u64>>;

    fn into_iter(self) -> Copied<slice::Iter<'a, u64>> {
        self.iter()
    }
}

/// Why a list of numbers isn't the weights of a committee. Where several reasons hold, it is the
/// first in the list.
///
/// ```
/// use commonware_proved::{Weights, WeightsError};
///
/// // The sum overflows before the 0 comes.
/// let error = Weights::new(&[u64::MAX, 1, 0]).unwrap_err();
/// assert_eq!(error, WeightsError::Overflow(1));
/// let text = "with weight 1 the sum is past 18446744073709551615";
/// assert_eq!(error.to_string(), text);
/// ```
#[derive(Clone, Copy, Debug, PartialEq, Eq, Hash)]
#[non_exhaustive]
pub enum WeightsError {
    /// There are none.
    Empty,
    /// There are as many as this, which is past 4294967295.
    TooMany(usize),
    /// The weight at this index is 0.
    Zero(usize),
    /// With the weight at this index the sum is past 18446744073709551615.
    Overflow(usize),
}

impl WeightsError {
    /// Returns the index of the weight that the error is about, or `None` where it is about all.
    ///
    /// ```
    /// # use commonware_proved::WeightsError;
    /// assert_eq!(WeightsError::Zero(7).index(), Some(7));
    /// assert_eq!(WeightsError::Empty.index(), None);
    /// ```
    #[must_use]
    pub fn index(&self) -> Option<usize> {
        match *self {
            WeightsError::Zero(index) | WeightsError::Overflow(index) => Some(index),
            WeightsError::Empty | WeightsError::TooMany(_) => None,
        }
    }

    /// Returns the error of a status of the library, with its number.
    fn of(status: u32, number: usize) -> WeightsError {
        match status {
            status::NO_MEMBERS => WeightsError::Empty,
            status::INVALID_LENGTH => WeightsError::TooMany(number),
            status::ZERO_WEIGHT => WeightsError::Zero(number),
            status::WEIGHT_OVERFLOW => WeightsError::Overflow(number),
            _ => unreachable!("of weights no status is {status}"),
        }
    }
}

impl fmt::Display for WeightsError {
    fn fmt(&self, f: &mut fmt::Formatter<'_>) -> fmt::Result {
        match self {
            WeightsError::Empty => f.write_str("no weights"),
            WeightsError::TooMany(count) => write!(f, "{count} weights are past 4294967295"),
            WeightsError::Zero(index) => write!(f, "weight {index} is 0"),
            WeightsError::Overflow(index) => {
                write!(f, "with weight {index} the sum is past {}", u64::MAX)
            }
        }
    }
}

impl Error for WeightsError {}
