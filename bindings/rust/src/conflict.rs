//! The members that signed both of two certificates for different values.

use crate::named::named;
use crate::{Certificate, Committee, FaultModel, Refusal, Which, raw, status};
use alloc::vec::Vec;
use core::error::Error;
use core::fmt;

/// Why two certificates name no one. Where several reasons hold, it is the first of these, and
/// where one holds of both certificates, that of the first.
///
/// ```
/// use commonware_proved::{Certificate, ConflictError, FaultModel, Which, conflict_encoded};
///
/// let first = Certificate::encode(b"view 7: A", &[0, 1])?;
/// let second = Certificate::encode(b"view 7: B", &[1, 2, 3])?;
/// let error = conflict_encoded(FaultModel::N3F1, 4, &first, &second).unwrap_err();
/// assert_eq!(error, ConflictError::TooFew(Which::First));
/// assert_eq!(error.to_string(), "fewer signers than a quorum in the first certificate");
/// # Ok::<(), commonware_proved::EncodeError>(())
/// ```
#[derive(Clone, Copy, Debug, PartialEq, Eq, Hash)]
#[non_exhaustive]
pub enum ConflictError {
    /// The committee has no members.
    NoMembers,
    /// This input isn't exactly one certificate.
    Input(Which, Refusal),
    /// Both certificates are for the same value.
    SameValue,
    /// A signer of this one is no member.
    Outside(Which),
    /// Fewer than a quorum signed this one.
    TooFew(Which),
    /// An allocation failed. This says nothing of the certificates.
    Memory,
}

impl ConflictError {
    /// Returns the certificate that the error is about, or `None` where it is about neither alone.
    ///
    /// ```
    /// # use commonware_proved::{ConflictError, Refusal, Which};
    /// let error = ConflictError::Input(Which::First, Refusal::EndOfInput);
    /// assert_eq!(error.which(), Some(Which::First));
    /// assert_eq!(ConflictError::SameValue.which(), None);
    /// ```
    #[must_use]
    pub fn which(&self) -> Option<Which> {
        match *self {
            ConflictError::Input(which, _)
            | ConflictError::Outside(which)
            | ConflictError::TooFew(which) => Some(which),
            ConflictError::NoMembers | ConflictError::SameValue | ConflictError::Memory => None,
        }
    }

    /// Returns the error of what the library says, or of a failed allocation where that is `None`.
    fn of(view: Option<raw::ConflictView>) -> ConflictError {
        let Some(view) = view else {
            return ConflictError::Memory;
        };
        match (view.status, view.which) {
            (status::NO_MEMBERS, _) => ConflictError::NoMembers,
            (status::SAME_VALUE, _) => ConflictError::SameValue,
            (status::OUTSIDE, which) => ConflictError::Outside(Which::of(which)),
            (status::TOO_FEW, which) => ConflictError::TooFew(Which::of(which)),
            (status, which) => {
                ConflictError::Input(Which::of(which), Refusal::of(status, view.number))
            }
        }
    }
}

impl fmt::Display for ConflictError {
    fn fmt(&self, f: &mut fmt::Formatter<'_>) -> fmt::Result {
        match self {
            ConflictError::NoMembers => f.write_str("the committee has no members"),
            ConflictError::Input(which, _) => write!(f, "the {which} certificate can't be read"),
            ConflictError::SameValue => f.write_str("both certificates are for the same value"),
            ConflictError::Outside(which) => {
                write!(
                    f,
                    "a signer of the {which} certificate is no member of the committee"
                )
            }
            ConflictError::TooFew(which) => {
                write!(f, "fewer signers than a quorum in the {which} certificate")
            }
            ConflictError::Memory => f.write_str("out of memory"),
        }
    }
}

impl Error for ConflictError {
    fn source(&self) -> Option<&(dyn Error + 'static)> {
        match self {
            ConflictError::Input(_, refusal) => Some(refusal),
            _ => None,
        }
    }
}

/// Returns the indices, in order, of the members that signed both of two certificates for different
/// values. With f of the members faulty at most, they are at least (k - 2)f + 1; where the k of the
/// model is 3 or more, at least one of them is outside every set of f members. Their keys are those
/// of [`Committee::members`] at these indices.
///
/// To sign two values is a fault only where both are for one slot (chain, committee, height, round
/// and kind of vote, say): honest members sign many values, at most one a slot.
///
/// The library goes over both encodings again, in place, and over both twice where it names more
/// than 128; the memory is that of the indices.
///
/// # Warning
///
/// No signature is looked at. Whoever doesn't verify them first may accuse an innocent member.
///
/// # Errors
///
/// Why no one is named; not `Input`, since both certificates were read.
///
/// ```
/// use commonware_proved::{CertificateBuf, CommitteeBuf, FaultModel, conflict};
///
/// let committee = CommitteeBuf::from_keys_dedup(&[[1; 32], [2; 32], [3; 32], [4; 32]])?;
/// let first = CertificateBuf::from_parts(b"view 7: A", &[0, 1, 2])?;
/// let second = CertificateBuf::from_parts(b"view 7: B", &[1, 2, 3])?;
/// let (committee, model) = (committee.as_view(), FaultModel::N3F1);
/// assert_eq!(conflict(model, &committee, &first.as_view(), &second.as_view())?, [1, 2]);
/// # Ok::<(), Box<dyn std::error::Error>>(())
/// ```
pub fn conflict(
    model: FaultModel,
    committee: &Committee<'_>,
    first: &Certificate<'_>,
    second: &Certificate<'_>,
) -> Result<Vec<u32>, ConflictError> {
    conflict_encoded(
        model,
        committee.count(),
        first.as_bytes(),
        second.as_bytes(),
    )
}

/// Returns the indices that [`conflict`] does, for two inputs that are certificates, and a
/// committee of `members` members, whose keys may have any size.
///
/// The library goes over both inputs, in place, and over both twice where it names more than 128.
/// The memory is that of the indices, and is taken once it is known how many they are.
///
/// # Warning
///
/// No signature is looked at. Whoever doesn't verify them first may accuse an innocent member.
///
/// # Errors
///
/// Why no one is named.
///
/// ```
/// use commonware_proved::{Certificate, FaultModel, conflict_encoded};
///
/// let first = Certificate::encode(b"view 7: A", &[0, 1, 2])?;
/// let second = Certificate::encode(b"view 7: B", &[1, 2, 3])?;
/// assert_eq!(conflict_encoded(FaultModel::N3F1, 4, &first, &second)?, [1, 2]);
/// # Ok::<(), Box<dyn std::error::Error>>(())
/// ```
pub fn conflict_encoded(
    model: FaultModel,
    members: u32,
    first: &[u8],
    second: &[u8],
) -> Result<Vec<u32>, ConflictError> {
    named(raw::commonware_conflict, model, members, [first, second]).map_err(ConflictError::of)
}
