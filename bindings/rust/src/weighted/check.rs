//! One certificate: whether members that weigh a quorum signed it.

use crate::hex::Hex;
use crate::{Certificate, Checked, FaultModel, Refusal, Weights, raw, status};
use core::error::Error;
use core::fmt;

/// A certificate whose signers are members of a committee and weigh at least a quorum: its value,
/// borrowed from its encoding, with the slot and the decision where the value has them, and what
/// the signers weigh.
///
/// ```
/// use commonware_proved::{Certificate, FaultModel, Weights};
/// use commonware_proved::{slot_value, weighted_check_encoded};
///
/// let weights = Weights::new(&[40, 30, 20, 10])?;
/// let bytes = Certificate::encode(&slot_value(b"view 7", b"A")?, &[0, 1])?;
/// let checked = weighted_check_encoded(FaultModel::N3F1, &weights, &bytes)?;
/// assert_eq!(checked.slot(), Some(&b"view 7"[..]));
/// assert_eq!((checked.signer_count(), checked.weight()), (2, 70));
/// # Ok::<(), Box<dyn std::error::Error>>(())
/// ```
#[derive(Clone, Copy, PartialEq, Eq, Hash)]
pub struct WeightedChecked<'a> {
    checked: Checked<'a>,
    weight: u64,
}

impl<'a> WeightedChecked<'a> {
    /// Returns the bytes that were signed.
    ///
    /// ```
    /// # use commonware_proved::{FaultModel, Weights, weighted_check_encoded};
    /// let weights = Weights::new(&[5])?;
    /// let checked = weighted_check_encoded(FaultModel::N3F1, &weights, &[1, b'x', 1, 0])?;
    /// assert_eq!(checked.value(), b"x");
    /// # Ok::<(), Box<dyn std::error::Error>>(())
    /// ```
    #[must_use]
    pub fn value(&self) -> &'a [u8] {
        self.checked.value()
    }

    /// Returns the slot that the value is for, or `None` where it is for none.
    ///
    /// ```
    /// # use commonware_proved::{FaultModel, Weights, weighted_check_encoded};
    /// let weights = Weights::new(&[5])?;
    /// let input = [3, 1, b'7', b'A', 1, 0];
    /// let checked = weighted_check_encoded(FaultModel::N3F1, &weights, &input)?;
    /// assert_eq!(checked.slot(), Some(&b"7"[..]));
    /// # Ok::<(), Box<dyn std::error::Error>>(())
    /// ```
    #[must_use]
    pub fn slot(&self) -> Option<&'a [u8]> {
        self.checked.slot()
    }

    /// Returns the decision that the value is for its slot, or `None` where it has none.
    ///
    /// ```
    /// # use commonware_proved::{FaultModel, Weights, weighted_check_encoded};
    /// let weights = Weights::new(&[5])?;
    /// let input = [3, 1, b'7', b'A', 1, 0];
    /// let checked = weighted_check_encoded(FaultModel::N3F1, &weights, &input)?;
    /// assert_eq!(checked.decision(), Some(&b"A"[..]));
    /// # Ok::<(), Box<dyn std::error::Error>>(())
    /// ```
    #[must_use]
    pub fn decision(&self) -> Option<&'a [u8]> {
        self.checked.decision()
    }

    /// Returns how many members signed.
    ///
    /// ```
    /// # use commonware_proved::{FaultModel, Weights, weighted_check_encoded};
    /// let weights = Weights::new(&[40, 30, 20, 10])?;
    /// let checked = weighted_check_encoded(FaultModel::N3F1, &weights, &[0, 3, 0, 2, 3])?;
    /// assert_eq!(checked.signer_count(), 3);
    /// # Ok::<(), Box<dyn std::error::Error>>(())
    /// ```
    #[must_use]
    pub fn signer_count(&self) -> u32 {
        self.checked.signer_count()
    }

    /// Returns what those that signed weigh together.
    ///
    /// ```
    /// # use commonware_proved::{FaultModel, Weights, weighted_check_encoded};
    /// let weights = Weights::new(&[40, 30, 20, 10])?;
    /// let checked = weighted_check_encoded(FaultModel::N3F1, &weights, &[0, 3, 0, 2, 3])?;
    /// assert_eq!(checked.weight(), 70);
    /// # Ok::<(), Box<dyn std::error::Error>>(())
    /// ```
    #[must_use]
    pub fn weight(&self) -> u64 {
        self.weight
    }
}

/// The value, the slot and the decision in hexadecimal.
impl fmt::Debug for WeightedChecked<'_> {
    fn fmt(&self, f: &mut fmt::Formatter<'_>) -> fmt::Result {
        f.debug_struct("WeightedChecked")
            .field("value", &Hex(self.value()))
            .field("slot", &self.slot().map(Hex))
            .field("decision", &self.decision().map(Hex))
            .field("signer_count", &self.signer_count())
            .field("weight", &self.weight)
            .finish()
    }
}

/// Why a certificate isn't one of a quorum by weight. Where several reasons hold, it is the first
/// of these.
///
/// ```
/// use commonware_proved::{Certificate, FaultModel, Weights};
/// use commonware_proved::{WeightedCheckError, weighted_check_encoded};
///
/// // The three weigh 60, and a quorum weighs 67.
/// let weights = Weights::new(&[40, 30, 20, 10])?;
/// let bytes = Certificate::encode(b"A", &[1, 2, 3])?;
/// let error = weighted_check_encoded(FaultModel::N3F1, &weights, &bytes).unwrap_err();
/// assert_eq!(error, WeightedCheckError::TooLight);
/// assert_eq!(error.to_string(), "the signers weigh less than a quorum");
/// # Ok::<(), Box<dyn std::error::Error>>(())
/// ```
#[derive(Clone, Copy, Debug, PartialEq, Eq, Hash)]
#[non_exhaustive]
pub enum WeightedCheckError {
    /// The input isn't exactly one certificate.
    Input(Refusal),
    /// A signer is no member.
    Outside,
    /// All signers are members, and they weigh less than a quorum.
    TooLight,
}

impl fmt::Display for WeightedCheckError {
    fn fmt(&self, f: &mut fmt::Formatter<'_>) -> fmt::Result {
        f.write_str(match self {
            WeightedCheckError::Input(_) => "the certificate can't be read",
            WeightedCheckError::Outside => "a signer is no member of the committee",
            WeightedCheckError::TooLight => "the signers weigh less than a quorum",
        })
    }
}

impl Error for WeightedCheckError {
    fn source(&self) -> Option<&(dyn Error + 'static)> {
        match self {
            WeightedCheckError::Input(refusal) => Some(refusal),
            _ => None,
        }
    }
}

/// Returns what a certificate says, where all its signers are members of the committee and they
/// weigh at least a quorum of the model. Nothing is allocated.
///
/// # Warning
///
/// No signature is looked at. Whoever doesn't verify them knows nothing of who signed.
///
/// # Errors
///
/// Why it is no certificate of a quorum; not `Input`, since the certificate was read.
///
/// ```
/// use commonware_proved::{CertificateBuf, FaultModel, Weights};
/// use commonware_proved::{WeightedCheckError, slot_value, weighted_check};
///
/// let weights = Weights::new(&[40, 30, 20, 10])?;
/// let certificate = CertificateBuf::from_parts(&slot_value(b"view 7", b"A")?, &[0, 1])?;
/// let certificate = certificate.as_view();
/// let checked = weighted_check(FaultModel::N3F1, &weights, &certificate)?;
/// assert_eq!((checked.decision(), checked.weight()), (Some(&b"A"[..]), 70));
/// let refused = weighted_check(FaultModel::N5F1, &weights, &certificate);
/// assert_eq!(refused, Err(WeightedCheckError::TooLight));
/// # Ok::<(), Box<dyn std::error::Error>>(())
/// ```
pub fn weighted_check<'a>(
    model: FaultModel,
    weights: &Weights<'_>,
    certificate: &Certificate<'a>,
) -> Result<WeightedChecked<'a>, WeightedCheckError> {
    weighted_check_encoded(model, weights, certificate.as_bytes())
}

/// Reads the input as exactly one certificate and returns what it says, as [`weighted_check`] does.
///
/// # Warning
///
/// No signature is looked at. Whoever doesn't verify them knows nothing of who signed.
///
/// # Errors
///
/// Why it is no certificate of a quorum.
///
/// ```
/// use commonware_proved::{FaultModel, WeightedCheckError, Weights, weighted_check_encoded};
///
/// let weights = Weights::new(&[40, 30, 20, 10])?;
/// // The value 9, signed by 0 and 1, who weigh 70.
/// let input = [1, 9, 2, 0, 1];
/// assert_eq!(weighted_check_encoded(FaultModel::N3F1, &weights, &input)?.value(), [9]);
/// let refused = weighted_check_encoded(FaultModel::N5F1, &weights, &input);
/// assert_eq!(refused, Err(WeightedCheckError::TooLight));
/// # Ok::<(), Box<dyn std::error::Error>>(())
/// ```
pub fn weighted_check_encoded<'a>(
    model: FaultModel,
    weights: &Weights<'_>,
    input: &'a [u8],
) -> Result<WeightedChecked<'a>, WeightedCheckError> {
    let items = weights.as_slice();
    // SAFETY: each pointer and the length after it are those of one slice; both are borrowed for
    // the call.
    let view = unsafe {
        raw::commonware_weighted_check(
            model.k(),
            items.as_ptr(),
            items.len(),
            input.as_ptr(),
            input.len(),
        )
    };
    match view.status {
        status::OK => Ok(WeightedChecked {
            checked: Checked::of(input, &view.into()),
            weight: view.weight,
        }),
        status::OUTSIDE => Err(WeightedCheckError::Outside),
        status::TOO_LIGHT => Err(WeightedCheckError::TooLight),
        status => Err(WeightedCheckError::Input(Refusal::of(status, view.number))),
    }
}
