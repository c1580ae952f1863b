//! One certificate: whether a quorum of the members signed it.

use crate::hex::Hex;
use crate::{Certificate, Committee, FaultModel, Refusal, raw, status};
use core::error::Error;
use core::fmt;

/// A certificate whose signers are members of a committee and at least a quorum: its value,
/// borrowed from its encoding, with the slot and the decision where the value has them.
///
/// ```
/// use commonware_proved::{Certificate, FaultModel, check_encoded, slot_value};
///
/// let bytes = Certificate::encode(&slot_value(b"view 7", b"A")?, &[0, 1, 2])?;
/// let checked = check_encoded(FaultModel::N3F1, 4, &bytes)?;
/// assert_eq!(checked.slot(), Some(&b"view 7"[..]));
/// assert_eq!(checked.signer_count(), 3);
/// # Ok::<(), Box<dyn std::error::Error>>(())
/// ```
#[derive(Clone, Copy, PartialEq, Eq, Hash)]
pub struct Checked<'a> {
    value: &'a [u8],
    parts: Option<(&'a [u8], &'a [u8])>,
    signer_count: u32,
}

impl From<raw::WeightedCheckView> for raw::CheckView {
    fn from(view: raw::WeightedCheckView) -> raw::CheckView {
        raw::CheckView {
            status: view.status,
            signers: view.signers,
            number: view.number,
            value_start: view.value_start,
            value_length: view.value_length,
            slot_start: view.slot_start,
            slot_length: view.slot_length,
            decision_start: view.decision_start,
            decision_length: view.decision_length,
        }
    }
}

impl<'a> Checked<'a> {
    /// Returns what the library has found in an input that is a certificate of a quorum.
    pub(crate) fn of(input: &'a [u8], view: &raw::CheckView) -> Checked<'a> {
        let slot = &input[view.slot_start..][..view.slot_length];
        let decision = &input[view.decision_start..][..view.decision_length];
        Checked {
            value: &input[view.value_start..][..view.value_length],
            parts: (view.slot_start > 0).then_some((slot, decision)),
            signer_count: view.signers,
        }
    }

    /// Returns the bytes that were signed.
    ///
    /// ```
    /// # use commonware_proved::{FaultModel, check_encoded};
    /// assert_eq!(check_encoded(FaultModel::N3F1, 1, &[1, b'x', 1, 0])?.value(), b"x");
    /// # Ok::<(), commonware_proved::CheckError>(())
    /// ```
    #[must_use]
    pub fn value(&self) -> &'a [u8] {
        self.value
    }

    /// Returns the slot that the value is for, or `None` where it is for none.
    ///
    /// ```
    /// # use commonware_proved::{FaultModel, check_encoded};
    /// let input = [3, 1, b'7', b'A', 1, 0];
    /// assert_eq!(check_encoded(FaultModel::N3F1, 1, &input)?.slot(), Some(&b"7"[..]));
    /// // A length of 9 bytes, which aren't there.
    /// assert_eq!(check_encoded(FaultModel::N3F1, 1, &[1, 9, 1, 0])?.slot(), None);
    /// # Ok::<(), commonware_proved::CheckError>(())
    /// ```
    #[must_use]
    pub fn slot(&self) -> Option<&'a [u8]> {
        self.parts.map(|(slot, _)| slot)
    }

    /// Returns the decision that the value is for its slot, or `None` where it has none.
    ///
    /// ```
    /// # use commonware_proved::{FaultModel, check_encoded};
    /// let input = [3, 1, b'7', b'A', 1, 0];
    /// assert_eq!(check_encoded(FaultModel::N3F1, 1, &input)?.decision(), Some(&b"A"[..]));
    /// # Ok::<(), commonware_proved::CheckError>(())
    /// ```
    #[must_use]
    pub fn decision(&self) -> Option<&'a [u8]> {
        self.parts.map(|(_, decision)| decision)
    }

    /// Returns how many members signed.
    ///
    /// ```
    /// # use commonware_proved::{FaultModel, check_encoded};
    /// assert_eq!(check_encoded(FaultModel::N3F1, 4, &[0, 3, 0, 2, 3])?.signer_count(), 3);
    /// # Ok::<(), commonware_proved::CheckError>(())
    /// ```
    #[must_use]
    pub fn signer_count(&self) -> u32 {
        self.signer_count
    }
}

/// The value, the slot and the decision in hexadecimal.
impl fmt::Debug for Checked<'_> {
    fn fmt(&self, f: &mut fmt::Formatter<'_>) -> fmt::Result {
        f.debug_struct("Checked")
            .field("value", &Hex(self.value))
            .field("slot", &self.slot().map(Hex))
            .field("decision", &self.decision().map(Hex))
            .field("signer_count", &self.signer_count)
            .finish()
    }
}

/// Why a certificate isn't one of a quorum. Where several reasons hold, it is the first of these.
///
/// ```
/// use commonware_proved::{Certificate, CheckError, FaultModel, check_encoded};
///
/// let bytes = Certificate::encode(b"A", &[0, 1])?;
/// assert_eq!(check_encoded(FaultModel::N3F1, 4, &bytes), Err(CheckError::TooFew));
/// # Ok::<(), commonware_proved::EncodeError>(())
/// ```
#[derive(Clone, Copy, Debug, PartialEq, Eq, Hash)]
#[non_exhaustive]
pub enum CheckError {
    /// The committee has no members.
    NoMembers,
    /// The input isn't exactly one certificate.
    Input(Refusal),
    /// A signer is no member.
    Outside,
    /// All signers are members, and they are fewer than a quorum.
    TooFew,
}

impl fmt::Display for CheckError {
    fn fmt(&self, f: &mut fmt::Formatter<'_>) -> fmt::Result {
        match self {
            CheckError::NoMembers => f.write_str("the committee has no members"),
            CheckError::Input(_) => f.write_str("the certificate can't be read"),
            CheckError::Outside => f.write_str("a signer is no member of the committee"),
            CheckError::TooFew => f.write_str("fewer signers than a quorum"),
        }
    }
}

impl Error for CheckError {
    fn source(&self) -> Option<&(dyn Error + 'static)> {
        match self {
            CheckError::Input(refusal) => Some(refusal),
            _ => None,
        }
    }
}

/// Returns what a certificate says, where all its signers are members of the committee and they are
/// at least a quorum of the model. Nothing is allocated.
///
/// # Warning
///
/// No signature is looked at. Whoever doesn't verify them knows nothing of who signed.
///
/// # Errors
///
/// Why it is no certificate of a quorum; not `Input`, since the certificate was read.
///
/// ```
/// use commonware_proved::{CertificateBuf, CommitteeBuf, FaultModel};
/// use commonware_proved::{CheckError, check, slot_value};
///
/// let committee = CommitteeBuf::from_keys_dedup(&[[1; 32], [2; 32], [3; 32], [4; 32]])?;
/// let certificate = CertificateBuf::from_parts(&slot_value(b"view 7", b"A")?, &[0, 1, 2])?;
/// let (committee, certificate) = (committee.as_view(), certificate.as_view());
/// assert_eq!(check(FaultModel::N3F1, &committee, &certificate)?.decision(), Some(&b"A"[..]));
/// let refused = check(FaultModel::N5F1, &committee, &certificate);
/// assert_eq!(refused, Err(CheckError::TooFew));
/// # Ok::<(), Box<dyn std::error::Error>>(())
/// ```
pub fn check<'a>(
    model: FaultModel,
    committee: &Committee<'_>,
    certificate: &Certificate<'a>,
) -> Result<Checked<'a>, CheckError> {
    check_encoded(model, committee.count(), certificate.as_bytes())
}

/// Reads the input as exactly one certificate and returns what it says, as [`check`] does, for a
/// committee of `members` members, whose keys may have any size.
///
/// # Warning
///
/// No signature is looked at. Whoever doesn't verify them knows nothing of who signed.
///
/// # Errors
///
/// Why it is no certificate of a quorum.
///
/// ```
/// use commonware_proved::{CheckError, FaultModel, check_encoded};
///
/// // The value 9, signed by 0, 1 and 2.
/// let input = [1, 9, 3, 0, 1, 2];
/// assert_eq!(check_encoded(FaultModel::N3F1, 4, &input)?.value(), [9]);
/// assert_eq!(check_encoded(FaultModel::N5F1, 4, &input), Err(CheckError::TooFew));
/// # Ok::<(), CheckError>(())
/// ```
pub fn check_encoded(
    model: FaultModel,
    members: u32,
    input: &[u8],
) -> Result<Checked<'_>, CheckError> {
    // SAFETY: the pointer and the length are those of one slice, which is borrowed for the call.
    let view = unsafe { raw::commonware_check(model.k(), members, input.as_ptr(), input.len()) };
    match view.status {
        status::OK => Ok(Checked::of(input, &view)),
        status::NO_MEMBERS => Err(CheckError::NoMembers),
        status::OUTSIDE => Err(CheckError::Outside),
        status::TOO_FEW => Err(CheckError::TooFew),
        status => Err(CheckError::Input(Refusal::of(status, view.number))),
    }
}
