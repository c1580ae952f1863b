//! How many of n participants may be faulty, and how many make a quorum.

use crate::raw;
use core::fmt;

/// A fault model of a resilience `n >= kf + 1`: of n participants f may be faulty, where f is the
/// greatest number that fits. It is the greatest for which any two quorums, of n - f each, share
/// (k - 2)f + 1 participants. Models are in the order of their k: a greater one lets no more be
/// faulty.
///
/// ```
/// use commonware_proved::FaultModel;
///
/// assert_eq!(FaultModel::N3F1.max_faults(100), Some(33));
/// assert_eq!(FaultModel::N5F1.quorum(100), Some(81));
/// assert_eq!(FaultModel::new(7).and_then(|model| model.max_faults(20)), Some(2));
/// assert!(FaultModel::N3F1 < FaultModel::N5F1);
/// ```
#[derive(Clone, Copy, Debug, PartialEq, Eq, PartialOrd, Ord, Hash)]
pub struct FaultModel {
    k: u32,
}

impl FaultModel {
    /// `n >= 3f + 1`: any two quorums share f + 1 participants, so one that is outside any given f.
    ///
    /// ```
    /// # use commonware_proved::FaultModel;
    /// assert_eq!(FaultModel::N3F1.k(), 3);
    /// ```
    pub const N3F1: FaultModel = FaultModel { k: 3 };

    /// `n >= 5f + 1`: any two quorums share 3f + 1 participants.
    ///
    /// ```
    /// # use commonware_proved::FaultModel;
    /// assert_eq!(FaultModel::N5F1.k(), 5);
    /// ```
    pub const N5F1: FaultModel = FaultModel { k: 5 };

    /// Returns the model of this k, which is 2 or more; else `None`.
    ///
    /// ```
    /// # use commonware_proved::FaultModel;
    /// assert_eq!(FaultModel::new(3), Some(FaultModel::N3F1));
    /// assert_eq!(FaultModel::new(1), None);
    /// ```
    #[must_use]
    pub const fn new(k: u32) -> Option<FaultModel> {
        if k < 2 { None } else { Some(FaultModel { k }) }
    }

    /// Returns the k of `n >= kf + 1`.
    ///
    /// ```
    /// # use commonware_proved::FaultModel;
    /// assert_eq!(FaultModel::new(4).unwrap().k(), 4);
    /// ```
    #[must_use]
    pub const fn k(self) -> u32 {
        self.k
    }

    /// Returns how many of `n` participants may be faulty, or `None` where `n` is 0.
    ///
    /// ```
    /// # use commonware_proved::FaultModel;
    /// assert_eq!(FaultModel::N3F1.max_faults(4), Some(1));
    /// assert_eq!(FaultModel::N3F1.max_faults(0), None);
    /// ```
    #[must_use]
    pub fn max_faults(self, n: u32) -> Option<u32> {
        (n > 0).then(|| raw::commonware_max_faults(self.k, n))
    }

    /// Returns how many of `n` participants make a quorum, n - f, or `None` where `n` is 0.
    ///
    /// ```
    /// # use commonware_proved::FaultModel;
    /// assert_eq!(FaultModel::N3F1.quorum(4), Some(3));
    /// ```
    #[must_use]
    pub fn quorum(self, n: u32) -> Option<u32> {
        (n > 0).then(|| raw::commonware_quorum(self.k, n))
    }

    /// Returns the least size whose subsets share f + 1 participants with each quorum, 2f + 1, or
    /// `None` where `n` is 0.
    ///
    /// ```
    /// # use commonware_proved::FaultModel;
    /// assert_eq!(FaultModel::N5F1.smaller_quorum(10), Some(3));
    /// ```
    #[must_use]
    pub fn smaller_quorum(self, n: u32) -> Option<u32> {
        (n > 0).then(|| raw::commonware_smaller_quorum(self.k, n))
    }
}

/// The two models that have names by those, and others by their resilience.
///
/// ```
/// use commonware_proved::FaultModel;
///
/// assert_eq!(FaultModel::N5F1.to_string(), "N5f1");
/// assert_eq!(FaultModel::new(7).unwrap().to_string(), "n >= 7f + 1");
/// ```
impl fmt::Display for FaultModel {
    fn fmt(&self, f: &mut fmt::Formatter<'_>) -> fmt::Result {
        match *self {
            FaultModel::N3F1 => f.write_str("N3f1"),
            FaultModel::N5F1 => f.write_str("N5f1"),
            FaultModel { k } => write!(f, "n >= {k}f + 1"),
        }
    }
}
