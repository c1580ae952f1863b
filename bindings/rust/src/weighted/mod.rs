//! Certificates of a committee whose members have weights: whether a quorum by weight signed one,
//! and which members signed both of two, with what they weigh.

mod check;
mod conflict;
mod equivocation;

pub use check::{WeightedCheckError, WeightedChecked, weighted_check, weighted_check_encoded};
pub use conflict::{WeightedConflictError, weighted_conflict, weighted_conflict_encoded};
pub use equivocation::{
    WeightedEquivocationError, weighted_equivocation, weighted_equivocation_encoded,
};

use crate::named::named_by;
use crate::{FaultModel, Weights, raw};
use alloc::vec::Vec;

/// The members that a call names, and what they weigh together.
///
/// ```
/// use commonware_proved::{Certificate, FaultModel, Weights, weighted_conflict_encoded};
///
/// let weights = Weights::new(&[40, 30, 20, 10])?;
/// let first = Certificate::encode(b"view 7: A", &[0, 1])?;
/// let second = Certificate::encode(b"view 7: B", &[0, 2, 3])?;
/// let named = weighted_conflict_encoded(FaultModel::N3F1, &weights, &first, &second)?;
/// assert_eq!((&named.members[..], named.weight), (&[0][..], 40));
/// # Ok::<(), Box<dyn std::error::Error>>(())
/// ```
#[derive(Clone, Debug, PartialEq, Eq, Hash)]
#[non_exhaustive]
pub struct Named {
    /// Their indices, strictly increasing.
    pub members: Vec<u32>,
    /// What they weigh together.
    pub weight: u64,
}

/// Returns the members that a call names for two inputs, and what they weigh. Else what the library
/// says of them, or `None` where an allocation failed. No memory is taken for inputs that name no
/// one.
fn named(
    judge: raw::WeightedConflictCall,
    model: FaultModel,
    weights: &Weights<'_>,
    [first, second]: [&[u8]; 2],
) -> Result<Named, Option<raw::WeightedConflictView>> {
    let weights = weights.as_slice();
    let (members, view) = named_by(|room| {
        // SAFETY: each pointer and the length after it are those of one slice; all are borrowed for
        // the call.
        unsafe {
            judge(
                model.k(),
                weights.as_ptr(),
                weights.len(),
                first.as_ptr(),
                first.len(),
                second.as_ptr(),
                second.len(),
                room.as_mut_ptr(),
                room.len(),
            )
        }
    })?;
    let weight = view.weight;
    Ok(Named { members, weight })
}
