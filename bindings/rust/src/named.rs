//! Two certificates that are judged together: the members that are named, and which of the two an
//! error is about.

use crate::room::{FEW, indices};
use crate::{FaultModel, raw, status};
use alloc::vec::Vec;
use core::fmt;

/// The first or the second of two certificates.
///
/// ```
/// use commonware_proved::{Certificate, ConflictError, FaultModel, Which, conflict_encoded};
///
/// // Of four members a quorum is three.
/// let first = Certificate::encode(b"A", &[0, 1, 2])?;
/// let second = Certificate::encode(b"B", &[2, 3])?;
/// let error = conflict_encoded(FaultModel::N3F1, 4, &first, &second).unwrap_err();
/// assert_eq!(error, ConflictError::TooFew(Which::Second));
/// assert_eq!(error.which(), Some(Which::Second));
/// assert_eq!(Which::Second.to_string(), "second");
/// # Ok::<(), commonware_proved::EncodeError>(())
/// ```
#[derive(Clone, Copy, Debug, PartialEq, Eq, PartialOrd, Ord, Hash)]
pub enum Which {
    /// The first certificate.
    First,
    /// The second certificate.
    Second,
}

impl Which {
    /// Returns the input that a status of the library is about, by its number.
    pub(crate) fn of(number: u32) -> Which {
        match number {
            1 => Which::First,
            2 => Which::Second,
            _ => unreachable!("of two certificates none is {number}"),
        }
    }
}

impl From<raw::WeightedConflictView> for raw::ConflictView {
    fn from(view: raw::WeightedConflictView) -> raw::ConflictView {
        raw::ConflictView {
            status: view.status,
            which: view.which,
            number: view.number,
            count: view.count,
        }
    }
}

impl fmt::Display for Which {
    fn fmt(&self, f: &mut fmt::Formatter<'_>) -> fmt::Result {
        f.write_str(match self {
            Which::First => "first",
            Which::Second => "second",
        })
    }
}

/// Returns the members that a call names, which gets a room for their indices, and what it says of
/// them. Else what it says, or `None` where an allocation failed. No memory is taken where no one
/// is named.
pub fn named_by<V: Copy + Into<raw::ConflictView>>(
    call: impl Fn(&mut [u32]) -> V,
) -> Result<(Vec<u32>, V), Option<V>> {
    let mut few = [0; FEW];
    let mut view = call(&mut few);
    let said: raw::ConflictView = view.into();
    if !matches!(said.status, status::OK | status::ROOM) {
        return Err(Some(view));
    }
    let named = indices(&few, said.count, |room| {
        view = call(room);
        let said: raw::ConflictView = view.into();
        debug_assert_eq!(said.status, status::OK, "there is room for each member");
    });
    Ok((named.ok_or(None)?, view))
}

/// Returns the members that a call names for two inputs, of a committee with this number of them.
/// Else what the library says of them, or `None` where an allocation failed.
pub fn named(
    judge: raw::ConflictCall,
    model: FaultModel,
    members: u32,
    [first, second]: [&[u8]; 2],
) -> Result<Vec<u32>, Option<raw::ConflictView>> {
    let (named, _) = named_by(|room| {
        // SAFETY: each pointer and the length after it are those of one slice; all are borrowed for
        // the call.
        unsafe {
            judge(
                model.k(),
                members,
                first.as_ptr(),
                first.len(),
                second.as_ptr(),
                second.len(),
                room.as_mut_ptr(),
                room.len(),
            )
        }
    })?;
    Ok(named)
}
