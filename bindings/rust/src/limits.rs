//! Ranges of lengths.

use core::ops::{Bound, RangeBounds};

/// Returns the least and the greatest number of a range. In an empty one no number is: its least is
/// greater than its greatest, which is how the library takes it.
pub fn limits(range: &impl RangeBounds<usize>) -> (usize, usize) {
    let least = match range.start_bound() {
        Bound::Included(least) => Some(*least),
        Bound::Excluded(below) => below.checked_add(1),
        Bound::Unbounded => Some(0),
    };
    let most = match range.end_bound() {
        Bound::Included(most) => Some(*most),
        Bound::Excluded(above) => above.checked_sub(1),
        Bound::Unbounded => Some(usize::MAX),
    };
    least.zip(most).unwrap_or((1, 0))
}
