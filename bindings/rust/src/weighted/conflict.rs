//! The members that signed both of two certificates for different values, and what they weigh.

use super::{Named, named};
use crate::{Certificate, FaultModel, Refusal, Weights, Which, raw, status};
use core::error::Error;
use core::fmt;

/// Why two certificates name no one, where quorums are by weight. Where several reasons hold, it is
/// the first of these, and where one holds of both certificates, that of the first.
///
/// ```
/// use commonware_proved::{Certificate, FaultModel, Weights, Which};
/// use commonware_proved::{WeightedConflictError, weighted_conflict_encoded};
///
/// // Of 100 in all a quorum weighs 67, and the members 1, 2 and 3 weigh 60.
/// let weights = Weights::new(&[40, 30, 20, 10])?;
/// let first = Certificate::encode(b"view 7: A", &[1, 2, 3])?;
/// let second = Certificate::encode(b"view 7: B", &[0, 1])?;
/// let named = weighted_conflict_encoded(FaultModel::N3F1, &weights, &first, &second);
/// let error = named.unwrap_err();
/// assert_eq!(error, WeightedConflictError::TooLight(Which::First));
/// let text = "the signers of the first certificate weigh less than a quorum";
/// assert_eq!(error.to_string(), text);
/// # Ok::<(), Box<dyn std::error::Error>>(())
/// ```
#[derive(Clone, Copy, Debug, PartialEq, Eq, Hash)]
#[non_exhaustive]
pub enum WeightedConflictError {
    /// This input isn't exactly one certificate.
    Input(Which, Refusal),
    /// Both certificates are for the same value.
    SameValue,
    /// A signer of this one is no member.
    Outside(Which),
    /// All signers are members, and those of this one weigh less than a quorum.
    TooLight(Which),
    /// An allocation failed. This says nothing of the certificates.
    Memory,
}

impl WeightedConflictError {
    /// Returns the certificate that the error is about, or `None` where it is about neither alone.
    ///
    /// ```
    /// # use commonware_proved::{WeightedConflictError, Which};
    /// let error = WeightedConflictError::TooLight(Which::First);
    /// assert_eq!(error.which(), Some(Which::First));
    /// assert_eq!(WeightedConflictError::SameValue.which(), None);
    /// ```
    #[must_use]
    pub fn which(&self) -> Option<Which> {
        match *self {
            WeightedConflictError::Input(which, _)
            | WeightedConflictError::Outside(which)
            | WeightedConflictError::TooLight(which) => Some(which),
            WeightedConflictError::SameValue | WeightedConflictError::Memory => None,
        }
    }

    /// Returns the error of what the library says, or of a failed allocation where that is `None`.
    fn of(view: Option<raw::WeightedConflictView>) -> WeightedConflictError {
        let Some(view) = view else {
            return WeightedConflictError::Memory;
        };
        match (view.status, view.which) {
            (status::SAME_VALUE, _) => WeightedConflictError::SameValue,
            (status::OUTSIDE, which) => WeightedConflictError::Outside(Which::of(which)),
            (status::TOO_LIGHT, which) => WeightedConflictError::TooLight(Which::of(which)),
            (status, which) => {
                let refusal = Refusal::of(status, view.number);
                WeightedConflictError::Input(Which::of(which), refusal)
            }
        }
    }
}

impl fmt::Display for WeightedConflictError {
    fn fmt(&self, f: &mut fmt::Formatter<'_>) -> fmt::Result {
        match self {
            WeightedConflictError::Input(which, _) => {
                write!(f, "the {which} certificate can't be read")
            }
            WeightedConflictError::SameValue => {
                f.write_str("both certificates are for the same value")
            }
            WeightedConflictError::Outside(which) => {
                write!(
                    f,
                    "a signer of the {which} certificate is no member of the committee"
                )
            }
            WeightedConflictError::TooLight(which) => {
                write!(
                    f,
                    "the signers of the {which} certificate weigh less than a quorum"
                )
            }
            WeightedConflictError::Memory => f.write_str("out of memory"),
        }
    }
}

impl Error for WeightedConflictError {
    fn source(&self) -> Option<&(dyn Error + 'static)> {
        match self {
            WeightedConflictError::Input(_, refusal) => Some(refusal),
            _ => None,
        }
    }
}

/// Returns the members that signed both of two certificates for different values, where quorums are
/// by weight, and what they weigh. With f the [`Weights::max_faulty_weight`] of the model they
/// weigh at least (k - 2)f + 1; where its k is 3 or more, at least one of them is outside every
/// subset that weighs at most f.
///
/// To sign two values is a fault only where both are for one slot (chain, committee, height, round
/// and kind of vote, say): honest members sign many values, at most one a slot.
///
/// The library goes over both encodings again, in place, and over both twice where it names more
/// than 128; the memory is that of the indices.
///
/// # Warning
///
/// No signature is looked at. Whoever doesn't verify them first may accuse an innocent member.
///
/// # Errors
///
/// Why no one is named; not `Input`, since both certificates were read.
///
/// ```
/// use commonware_proved::{CertificateBuf, FaultModel, Weights, weighted_conflict};
///
/// let weights = Weights::new(&[40, 30, 20, 10])?;
/// let first = CertificateBuf::from_parts(b"view 7: A", &[0, 1])?;
/// let second = CertificateBuf::from_parts(b"view 7: B", &[0, 2, 3])?;
/// let (first, second) = (first.as_view(), second.as_view());
/// let named = weighted_conflict(FaultModel::N3F1, &weights, &first, &second)?;
/// assert_eq!((&named.members[..], named.weight), (&[0][..], 40));
/// # Ok::<(), Box<dyn std::error::Error>>(())
/// ```
pub fn weighted_conflict(
    model: FaultModel,
    weights: &Weights<'_>,
    first: &Certificate<'_>,
    second: &Certificate<'_>,
) -> Result<Named, WeightedConflictError> {
    weighted_conflict_encoded(model, weights, first.as_bytes(), second.as_bytes())
}

/// Returns what [`weighted_conflict`] does, for two inputs that are certificates.
///
/// The library goes over both inputs, in place, and over both twice where it names more than 128.
/// The memory is that of the indices, and is taken once it is known how many they are.
///
/// # Warning
///
/// No signature is looked at. Whoever doesn't verify them first may accuse an innocent member.
///
/// # Errors
///
/// Why no one is named.
///
/// ```
/// use commonware_proved::{Certificate, FaultModel, Weights, weighted_conflict_encoded};
///
/// let weights = Weights::new(&[40, 30, 20, 10])?;
/// let first = Certificate::encode(b"view 7: A", &[0, 1])?;
/// let second = Certificate::encode(b"view 7: B", &[0, 2, 3])?;
/// let named = weighted_conflict_encoded(FaultModel::N3F1, &weights, &first, &second)?;
/// assert_eq!((&named.members[..], named.weight), (&[0][..], 40));
/// # Ok::<(), Box<dyn std::error::Error>>(())
/// ```
pub fn weighted_conflict_encoded(
    model: FaultModel,
    weights: &Weights<'_>,
    first: &[u8],
    second: &[u8],
) -> Result<Named, WeightedConflictError> {
    let judge = raw::commonware_weighted_conflict;
    named(judge, model, weights, [first, second]).map_err(WeightedConflictError::of)
}
