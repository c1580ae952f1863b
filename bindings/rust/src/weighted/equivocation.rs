//! The members that signed two different decisions for one slot, and what they weigh.

use super::{Named, named};
use crate::{Certificate, FaultModel, Refusal, Weights, Which, raw, status};
use core::error::Error;
use core::fmt;

/// Why two certificates prove no equivocation, where quorums are by weight. Where several reasons
/// hold, it is the first of these, and where one holds of both certificates, that of the first.
///
/// ```
/// use commonware_proved::{Certificate, FaultModel, Weights, slot_value};
/// use commonware_proved::{WeightedEquivocationError, weighted_equivocation_encoded};
///
/// // Honest members sign a block at each height.
/// let weights = Weights::new(&[40, 30, 20, 10])?;
/// let first = Certificate::encode(&slot_value(b"height 1", b"A")?, &[0, 1])?;
/// let second = Certificate::encode(&slot_value(b"height 2", b"B")?, &[0, 1])?;
/// let named = weighted_equivocation_encoded(FaultModel::N3F1, &weights, &first, &second);
/// assert_eq!(named, Err(WeightedEquivocationError::OtherSlot));
/// # Ok::<(), Box<dyn std::error::Error>>(())
/// ```
#[derive(Clone, Copy, Debug, PartialEq, Eq, Hash)]
#[non_exhaustive]
pub enum WeightedEquivocationError {
    /// This input isn't exactly one certificate.
    Input(Which, Refusal),
    /// The value of this one has no slot.
    NoSlot(Which),
    /// The values are for two different slots: this rule allows both.
    OtherSlot,
    /// The values are the same decision for the same slot.
    SameDecision,
    /// A signer of this one is no member.
    Outside(Which),
    /// All signers are members, and those of this one weigh less than a quorum.
    TooLight(Which),
    /// An allocation failed. This says nothing of the certificates.
    Memory,
}

impl WeightedEquivocationError {
    /// Returns the certificate that the error is about, or `None` where it is about neither alone.
    ///
    /// ```
    /// # use commonware_proved::{WeightedEquivocationError, Which};
    /// let error = WeightedEquivocationError::NoSlot(Which::Second);
    /// assert_eq!(error.which(), Some(Which::Second));
    /// assert_eq!(WeightedEquivocationError::OtherSlot.which(), None);
    /// ```
    #[must_use]
    pub fn which(&self) -> Option<Which> {
        match *self {
            WeightedEquivocationError::Input(which, _)
            | WeightedEquivocationError::NoSlot(which)
            | WeightedEquivocationError::Outside(which)
            | WeightedEquivocationError::TooLight(which) => Some(which),
            WeightedEquivocationError::OtherSlot
            | WeightedEquivocationError::SameDecision
            | WeightedEquivocationError::Memory => None,
        }
    }

    /// Returns the error of what the library says, or of a failed allocation where that is `None`.
    fn of(view: Option<raw::WeightedConflictView>) -> WeightedEquivocationError {
        let Some(view) = view else {
            return WeightedEquivocationError::Memory;
        };
        match (view.status, view.which) {
            (status::NO_SLOT, which) => WeightedEquivocationError::NoSlot(Which::of(which)),
            (status::OTHER_SLOT, _) => WeightedEquivocationError::OtherSlot,
            (status::SAME_VALUE, _) => WeightedEquivocationError::SameDecision,
            (status::OUTSIDE, which) => WeightedEquivocationError::Outside(Which::of(which)),
            (status::TOO_LIGHT, which) => WeightedEquivocationError::TooLight(Which::of(which)),
            (status, which) => {
                let refusal = Refusal::of(status, view.number);
                WeightedEquivocationError::Input(Which::of(which), refusal)
            }
        }
    }
}

impl fmt::Display for WeightedEquivocationError {
    fn fmt(&self, f: &mut fmt::Formatter<'_>) -> fmt::Result {
        match self {
            WeightedEquivocationError::Input(which, _) => {
                write!(f, "the {which} certificate can't be read")
            }
            WeightedEquivocationError::NoSlot(which) => {
                write!(f, "the value of the {which} certificate has no slot")
            }
            WeightedEquivocationError::OtherSlot => f.write_str("two different slots"),
            WeightedEquivocationError::SameDecision => {
                f.write_str("the same decision for the same slot")
            }
            WeightedEquivocationError::Outside(which) => {
                write!(
                    f,
                    "a signer of the {which} certificate is no member of the committee"
                )
            }
            WeightedEquivocationError::TooLight(which) => {
                write!(
                    f,
                    "the signers of the {which} certificate weigh less than a quorum"
                )
            }
            WeightedEquivocationError::Memory => f.write_str("out of memory"),
        }
    }
}

impl Error for WeightedEquivocationError {
    fn source(&self) -> Option<&(dyn Error + 'static)> {
        match self {
            WeightedEquivocationError::Input(_, refusal) => Some(refusal),
            _ => None,
        }
    }
}

/// Returns the members that equivocated, where quorums are by weight, and what they weigh: those
/// that signed both of two certificates for different decisions for one slot. Where those that are
/// faulty weigh at most f, which is [`Weights::max_faulty_weight`], they weigh at least
/// (k - 2)f + 1; where the k of the model is 3 or more, at least one of them is outside every
/// subset that weighs at most f. No honest member is among them, if honest members sign at most one
/// decision a slot.
///
/// The library goes over both encodings again, in place, and over both twice where it names more
/// than 128; the memory is that of the indices.
///
/// # Warning
///
/// No signature is looked at. Whoever doesn't verify them first may accuse an innocent member.
///
/// # Errors
///
/// Why no one is named; not `Input`, since both certificates were read.
///
/// ```
/// use commonware_proved::{CertificateBuf, FaultModel, Weights};
/// use commonware_proved::{slot_value, weighted_equivocation};
///
/// let weights = Weights::new(&[40, 30, 20, 10])?;
/// let first = CertificateBuf::from_parts(&slot_value(b"view 7", b"A")?, &[0, 1])?;
/// let second = CertificateBuf::from_parts(&slot_value(b"view 7", b"B")?, &[0, 2, 3])?;
/// let (first, second) = (first.as_view(), second.as_view());
/// let named = weighted_equivocation(FaultModel::N3F1, &weights, &first, &second)?;
/// assert_eq!((&named.members[..], named.weight), (&[0][..], 40));
/// # Ok::<(), Box<dyn std::error::Error>>(())
/// ```
pub fn weighted_equivocation(
    model: FaultModel,
    weights: &Weights<'_>,
    first: &Certificate<'_>,
    second: &Certificate<'_>,
) -> Result<Named, WeightedEquivocationError> {
    weighted_equivocation_encoded(model, weights, first.as_bytes(), second.as_bytes())
}

/// Returns what [`weighted_equivocation`] does, for two inputs that are certificates.
///
/// The library goes over both inputs, in place, and over both twice where it names more than 128.
/// The memory is that of the indices, and is taken once it is known how many they are.
///
/// # Warning
///
/// No signature is looked at. Whoever doesn't verify them first may accuse an innocent member.
///
/// # Errors
///
/// Why no one is named.
///
/// ```
/// use commonware_proved::{Certificate, FaultModel, Weights};
/// use commonware_proved::{slot_value, weighted_equivocation_encoded};
///
/// let weights = Weights::new(&[40, 30, 20, 10])?;
/// let first = Certificate::encode(&slot_value(b"view 7", b"A")?, &[0, 1])?;
/// let second = Certificate::encode(&slot_value(b"view 7", b"B")?, &[0, 2, 3])?;
/// let named = weighted_equivocation_encoded(FaultModel::N3F1, &weights, &first, &second)?;
/// assert_eq!((&named.members[..], named.weight), (&[0][..], 40));
/// # Ok::<(), Box<dyn std::error::Error>>(())
/// ```
pub fn weighted_equivocation_encoded(
    model: FaultModel,
    weights: &Weights<'_>,
    first: &[u8],
    second: &[u8],
) -> Result<Named, WeightedEquivocationError> {
    let judge = raw::commonware_weighted_equivocation;
    named(judge, model, weights, [first, second]).map_err(WeightedEquivocationError::of)
}
