//! The members that signed two different decisions for one slot.

use crate::named::named;
use crate::room::{trimmed, zeros};
use crate::{Certificate, Committee, EncodeError, FaultModel, Refusal, Which, raw, status};
use alloc::vec::Vec;
use core::error::Error;
use core::fmt;

/// Why two certificates prove no equivocation. Where several reasons hold, it is the first of
/// these, and where one holds of both certificates, that of the first.
///
/// ```
/// use commonware_proved::{Certificate, EquivocationError, FaultModel};
/// use commonware_proved::{equivocation_encoded, slot_value};
///
/// // Honest members sign a block at each height.
/// let first = Certificate::encode(&slot_value(b"height 1", b"A")?, &[0, 1, 2])?;
/// let second = Certificate::encode(&slot_value(b"height 2", b"B")?, &[0, 1, 2])?;
/// let named = equivocation_encoded(FaultModel::N3F1, 4, &first, &second);
/// assert_eq!(named, Err(EquivocationError::OtherSlot));
/// # Ok::<(), commonware_proved::EncodeError>(())
/// ```
#[derive(Clone, Copy, Debug, PartialEq, Eq, Hash)]
#[non_exhaustive]
pub enum EquivocationError {
    /// The committee has no members.
    NoMembers,
    /// This input isn't exactly one certificate.
    Input(Which, Refusal),
    /// The value of this one has no slot.
    NoSlot(Which),
    /// The values are for two different slots: this rule allows both.
    OtherSlot,
    /// The values are the same decision for the same slot.
    SameDecision,
    /// A signer of this one is no member.
    Outside(Which),
    /// Fewer than a quorum signed this one.
    TooFew(Which),
    /// An allocation failed. This says nothing of the certificates.
    Memory,
}

impl EquivocationError {
    /// Returns the certificate that the error is about, or `None` where it is about neither alone.
    ///
    /// ```
    /// # use commonware_proved::{EquivocationError, Which};
    /// assert_eq!(EquivocationError::NoSlot(Which::Second).which(), Some(Which::Second));
    /// assert_eq!(EquivocationError::OtherSlot.which(), None);
    /// ```
    #[must_use]
    pub fn which(&self) -> Option<Which> {
        match *self {
            EquivocationError::Input(which, _)
            | EquivocationError::NoSlot(which)
            | EquivocationError::Outside(which)
            | EquivocationError::TooFew(which) => Some(which),
            EquivocationError::NoMembers
            | EquivocationError::OtherSlot
            | EquivocationError::SameDecision
            | EquivocationError::Memory => None,
        }
    }

    /// Returns the error of what the library says, or of a failed allocation where that is `None`.
    fn of(view: Option<raw::ConflictView>) -> EquivocationError {
        let Some(view) = view else {
            return EquivocationError::Memory;
        };
        match (view.status, view.which) {
            (status::NO_MEMBERS, _) => EquivocationError::NoMembers,
            (status::NO_SLOT, which) => EquivocationError::NoSlot(Which::of(which)),
            (status::OTHER_SLOT, _) => EquivocationError::OtherSlot,
            (status::SAME_VALUE, _) => EquivocationError::SameDecision,
            (status::OUTSIDE, which) => EquivocationError::Outside(Which::of(which)),
            (status::TOO_FEW, which) => EquivocationError::TooFew(Which::of(which)),
            (status, which) => {
                EquivocationError::Input(Which::of(which), Refusal::of(status, view.number))
            }
        }
    }
}

impl fmt::Display for EquivocationError {
    fn fmt(&self, f: &mut fmt::Formatter<'_>) -> fmt::Result {
        match self {
            EquivocationError::NoMembers => f.write_str("the committee has no members"),
            EquivocationError::Input(which, _) => {
                write!(f, "the {which} certificate can't be read")
            }
            EquivocationError::NoSlot(which) => {
                write!(f, "the value of the {which} certificate has no slot")
            }
            EquivocationError::OtherSlot => f.write_str("two different slots"),
            EquivocationError::SameDecision => f.write_str("the same decision for the same slot"),
            EquivocationError::Outside(which) => {
                write!(
                    f,
                    "a signer of the {which} certificate is no member of the committee"
                )
            }
            EquivocationError::TooFew(which) => {
                write!(f, "fewer signers than a quorum in the {which} certificate")
            }
            EquivocationError::Memory => f.write_str("out of memory"),
        }
    }
}

impl Error for EquivocationError {
    fn source(&self) -> Option<&(dyn Error + 'static)> {
        match self {
            EquivocationError::Input(_, refusal) => Some(refusal),
            _ => None,
        }
    }
}

/// Returns the indices, in order, of the members that equivocated: those that signed both of two
/// certificates for different decisions for one slot. With f of the members faulty at most, they
/// are at least (k - 2)f + 1; where the k of the model is 3 or more, at least one of them is
/// outside every set of f members. No honest member is among them, if honest members sign at most
/// one decision a slot. Their keys are those of [`Committee::members`] at these indices.
///
/// The library goes over both encodings again, in place, and over both twice where it names more
/// than 128; the memory is that of the indices.
///
/// # Warning
///
/// No signature is looked at. Whoever doesn't verify them first may accuse an innocent member.
///
/// # Errors
///
/// Why no one is named; not `Input`, since both certificates were read.
///
/// ```
/// use commonware_proved::{CertificateBuf, CommitteeBuf, FaultModel, equivocation, slot_value};
///
/// let committee = CommitteeBuf::from_keys_dedup(&[[1; 32], [2; 32], [3; 32], [4; 32]])?;
/// let first = CertificateBuf::from_parts(&slot_value(b"view 7", b"A")?, &[0, 1, 2])?;
/// let second = CertificateBuf::from_parts(&slot_value(b"view 7", b"B")?, &[1, 2, 3])?;
/// let (committee, model) = (committee.as_view(), FaultModel::N3F1);
/// let named = equivocation(model, &committee, &first.as_view(), &second.as_view())?;
/// assert_eq!(named, [1, 2]);
///
/// // Their keys.
/// let keys: Vec<_> = named.iter().map(|&index| committee.members()[index as usize]).collect();
/// assert_eq!(keys, [[2; 32], [3; 32]]);
/// # Ok::<(), Box<dyn std::error::Error>>(())
/// ```
pub fn equivocation(
    model: FaultModel,
    committee: &Committee<'_>,
    first: &Certificate<'_>,
    second: &Certificate<'_>,
) -> Result<Vec<u32>, EquivocationError> {
    equivocation_encoded(
        model,
        committee.count(),
        first.as_bytes(),
        second.as_bytes(),
    )
}

/// Returns the indices that [`equivocation`] does, for two inputs that are certificates, and a
/// committee of `members` members, whose keys may have any size.
///
/// The library goes over both inputs, in place, and over both twice where it names more than 128.
/// The memory is that of the indices, and is taken once it is known how many they are.
///
/// # Warning
///
/// No signature is looked at. Whoever doesn't verify them first may accuse an innocent member.
///
/// # Errors
///
/// Why no one is named.
///
/// ```
/// use commonware_proved::{Certificate, FaultModel, equivocation_encoded, slot_value};
///
/// let first = Certificate::encode(&slot_value(b"view 7", b"A")?, &[0, 1, 2])?;
/// let second = Certificate::encode(&slot_value(b"view 7", b"B")?, &[1, 2, 3])?;
/// assert_eq!(equivocation_encoded(FaultModel::N3F1, 4, &first, &second)?, [1, 2]);
/// # Ok::<(), Box<dyn std::error::Error>>(())
/// ```
pub fn equivocation_encoded(
    model: FaultModel,
    members: u32,
    first: &[u8],
    second: &[u8],
) -> Result<Vec<u32>, EquivocationError> {
    let judge = raw::commonware_equivocation;
    named(judge, model, members, [first, second]).map_err(EquivocationError::of)
}

/// Returns the value that a decision for a slot is, which members sign: the slot's length, the
/// slot, and the decision. No other slot and decision have these bytes.
///
/// # Errors
///
/// `InvalidLength` for a slot, a decision or a value past 4294967295, and `Memory`.
///
/// ```
/// # use commonware_proved::slot_value;
/// assert_eq!(slot_value(b"7", b"A"), Ok(vec![1, b'7', b'A']));
/// ```
pub fn slot_value(slot: &[u8], decision: &[u8]) -> Result<Vec<u8>, EncodeError> {
    let mut out = zeros(5 + slot.len() + decision.len()).ok_or(EncodeError::Memory)?;
    // SAFETY: each pointer and the length after it are those of one slice; `out` is a new one.
    let view = unsafe {
        raw::commonware_slot_value(
            slot.as_ptr(),
            slot.len(),
            decision.as_ptr(),
            decision.len(),
            out.as_mut_ptr(),
            out.len(),
        )
    };
    if view.status != status::OK {
        return Err(EncodeError::of(view.status, view.number));
    }
    Ok(trimmed(out, view.size))
}
