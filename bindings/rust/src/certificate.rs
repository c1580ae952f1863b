//! A value and those that signed it, from their encoding.

use crate::error::whole;
use crate::hex::Hex;
use crate::room::{FEW, indices, trimmed, zeros};
use crate::{CertificateBuf, EncodeError, Refusal, SetView, raw, status};
use alloc::borrow::Cow;
use alloc::vec::Vec;
use core::fmt;
use core::ops::Range;

/// A value, and the indices of the members that signed it, strictly increasing. The value is
/// borrowed from the certificate's encoding, and a [`CertificateBuf`] owns that. Whether a
/// signature is genuine isn't tested.
///
/// An index is that of [`Committee::position`](crate::Committee::position): the place in the order
/// of the keys, not that in which they were given.
///
/// ```
/// use commonware_proved::Certificate;
///
/// let bytes = Certificate::encode(b"block", &[0, 2, 3])?;
/// let certificate = Certificate::decode(&bytes)?;
/// assert_eq!(certificate.value(), b"block");
/// assert_eq!(certificate.signers(), [0, 2, 3]);
/// # Ok::<(), Box<dyn std::error::Error>>(())
/// ```
#[derive(Clone, PartialEq, Eq, Hash)]
pub struct Certificate<'a> {
    encoding: &'a [u8],
    /// Where the value is in the encoding.
    value: Range<usize>,
    signers: Cow<'a, [u32]>,
}

/// The greatest lengths that a certificate may have where it is read.
///
/// They have names, so that neither is taken for the other. Unlike the ranges of the other types
/// they have no lower ends: the library takes none, and whether enough signed is what
/// [`check`](crate::check) says.
///
/// ```
/// use commonware_proved::{Certificate, CertificateLimits, Refusal};
///
/// // A value of a digest at most, and a signer of each member of a committee of 256.
/// let limits = CertificateLimits { value_bytes: 32, signers: 256 };
/// let bytes = Certificate::encode(&[7; 33], &[0, 2, 3])?;
/// assert_eq!(Certificate::read(&bytes, limits), Err(Refusal::InvalidLength(33)));
/// # Ok::<(), commonware_proved::EncodeError>(())
/// ```
#[derive(Clone, Copy, Debug, PartialEq, Eq, Hash)]
pub struct CertificateLimits {
    /// The most bytes that the value may have.
    pub value_bytes: usize,
    /// The most signers that there may be.
    pub signers: usize,
}

impl CertificateLimits {
    /// Every length that an encoding can state.
    ///
    /// ```
    /// # use commonware_proved::{Certificate, CertificateLimits};
    /// let (certificate, rest) = Certificate::read(&[1, b'x', 1, 4, 9], CertificateLimits::NONE)?;
    /// assert_eq!((certificate.signers(), rest), (&[4][..], &[9][..]));
    /// # Ok::<(), commonware_proved::Refusal>(())
    /// ```
    pub const NONE: CertificateLimits = CertificateLimits {
        value_bytes: usize::MAX,
        signers: usize::MAX,
    };
}

impl<'a> Certificate<'a> {
    /// Decodes the certificate at the start of the input, whose lengths are within the limits, and
    /// returns what follows it. The memory is that of the indices, and is taken once the input is
    /// known to begin with a certificate.
    ///
    /// # Errors
    ///
    /// The first fault (decoding error) of the input, or `Memory`; not `LeftOver`.
    ///
    /// ```
    /// # use commonware_proved::{Certificate, CertificateLimits, Refusal};
    /// let bytes = [&Certificate::encode(b"block", &[0, 2, 3])?[..], b"more"].concat();
    /// let limits = CertificateLimits { value_bytes: 32, signers: 256 };
    /// let (certificate, rest) = Certificate::read(&bytes, limits)?;
    /// assert_eq!((certificate.signers().len(), rest), (3, &b"more"[..]));
    /// let two = CertificateLimits { signers: 2, ..limits };
    /// assert_eq!(Certificate::read(&bytes, two), Err(Refusal::InvalidLength(3)));
    /// # Ok::<(), Box<dyn std::error::Error>>(())
    /// ```
    pub fn read(
        input: &'a [u8],
        limits: CertificateLimits,
    ) -> Result<(Certificate<'a>, &'a [u8]), Refusal> {
        let mut few = [0; FEW];
        let view = call(input, limits, &mut few)?;
        let (encoding, rest) = input.split_at(input.len() - view.left);
        Ok((Certificate::at(encoding, view, &few)?, rest))
    }

    /// Decodes the certificate that the whole input is, of any lengths. The memory is that of the
    /// indices, and is taken once the input is known to be a certificate.
    ///
    /// # Errors
    ///
    /// The first fault (decoding error) of the input, `LeftOver`, or `Memory`.
    ///
    /// ```
    /// # use commonware_proved::{Certificate, Refusal};
    /// assert_eq!(Certificate::decode(&[1, b'x', 2, 4, 6])?.signers(), [4, 6]);
    /// assert_eq!(Certificate::decode(&[1, b'x', 2, 4, 6, 0]), Err(Refusal::LeftOver(1)));
    /// # Ok::<(), Refusal>(())
    /// ```
    pub fn decode(input: &'a [u8]) -> Result<Certificate<'a>, Refusal> {
        let mut few = [0; FEW];
        let view = call(input, CertificateLimits::NONE, &mut few)?;
        let (encoding, rest) = input.split_at(input.len() - view.left);
        Certificate::at(whole((encoding, rest))?, view, &few)
    }

    /// Returns the certificate that these bytes are, by what the library says of it, and its
    /// signers where they are few.
    fn at(
        encoding: &'a [u8],
        view: raw::CertificateView,
        few: &[u32; FEW],
    ) -> Result<Certificate<'a>, Refusal> {
        let signers = indices(few, view.signers as usize, |room| {
            let filled = call(encoding, CertificateLimits::NONE, room);
            debug_assert!(filled.is_ok_and(|filled| filled.status == status::OK));
        });
        Ok(Certificate {
            encoding,
            value: view.value_start..view.value_start + view.value_length,
            signers: Cow::Owned(signers.ok_or(Refusal::Memory)?),
        })
    }

    /// Encodes the certificate of a value and of the indices of those that signed it, which are
    /// strictly increasing.
    ///
    /// # Errors
    ///
    /// `InvalidLength` for a value or signers past 4294967295, `NotStrict` with the place of the
    /// first signer that isn't greater than the one before it, and `Memory`.
    ///
    /// ```
    /// # use commonware_proved::{Certificate, EncodeError};
    /// assert_eq!(Certificate::encode(b"x", &[4, 200]), Ok(vec![1, b'x', 2, 4, 200, 1]));
    /// assert_eq!(Certificate::encode(b"x", &[4, 4]), Err(EncodeError::NotStrict(1)));
    /// ```
    pub fn encode(value: &[u8], signers: &[u32]) -> Result<Vec<u8>, EncodeError> {
        let mut out = zeros(10 + value.len() + 5 * signers.len()).ok_or(EncodeError::Memory)?;
        // SAFETY: each pointer and the length after it are those of one slice; `out` is a new one.
        let view = unsafe {
            raw::commonware_certificate_encode(
                value.as_ptr(),
                value.len(),
                signers.as_ptr(),
                signers.len(),
                out.as_mut_ptr(),
                out.len(),
            )
        };
        if view.status != status::OK {
            return Err(EncodeError::of(view.status, view.number));
        }
        Ok(trimmed(out, view.size))
    }

    /// Returns the certificate of this encoding, which has the value and the signers.
    pub(crate) fn of(
        encoding: &'a [u8],
        value: Range<usize>,
        signers: &'a [u32],
    ) -> Certificate<'a> {
        Certificate {
            encoding,
            value,
            signers: Cow::Borrowed(signers),
        }
    }

    /// Returns where the value is in the encoding.
    pub(crate) fn value_range(&self) -> Range<usize> {
        self.value.clone()
    }

    /// Returns the encoding.
    ///
    /// ```
    /// # use commonware_proved::{Certificate, CertificateLimits};
    /// let (certificate, _) =
    ///     Certificate::read(&[1, b'x', 1, 4, 9, 9], CertificateLimits::NONE)?;
    /// assert_eq!(certificate.as_bytes(), [1, b'x', 1, 4]);
    /// # Ok::<(), commonware_proved::Refusal>(())
    /// ```
    #[must_use]
    pub fn as_bytes(&self) -> &'a [u8] {
        self.encoding
    }

    /// Returns the bytes that were signed.
    ///
    /// ```
    /// # use commonware_proved::Certificate;
    /// assert_eq!(Certificate::decode(&[1, b'x', 0])?.value(), b"x");
    /// # Ok::<(), commonware_proved::Refusal>(())
    /// ```
    #[must_use]
    pub fn value(&self) -> &'a [u8] {
        &self.encoding[self.value.clone()]
    }

    /// Returns the slot that the value is for, or `None` where it is for none, whoever signed. It
    /// takes constant time, and no memory.
    ///
    /// ```
    /// # use commonware_proved::{CertificateBuf, slot_value};
    /// let certificate = CertificateBuf::from_parts(&slot_value(b"view 7", b"A")?, &[2])?;
    /// assert_eq!(certificate.as_view().slot(), Some(&b"view 7"[..]));
    /// // A length of 9 bytes, which aren't there.
    /// assert_eq!(CertificateBuf::from_parts(&[9], &[2])?.as_view().slot(), None);
    /// # Ok::<(), commonware_proved::EncodeError>(())
    /// ```
    #[must_use]
    pub fn slot(&self) -> Option<&'a [u8]> {
        parts(self.value()).map(|(slot, _)| slot)
    }

    /// Returns the decision that the value is for its slot, or `None` where it has none.
    ///
    /// ```
    /// # use commonware_proved::{CertificateBuf, slot_value};
    /// let certificate = CertificateBuf::from_parts(&slot_value(b"view 7", b"A")?, &[2])?;
    /// assert_eq!(certificate.as_view().decision(), Some(&b"A"[..]));
    /// # Ok::<(), commonware_proved::EncodeError>(())
    /// ```
    #[must_use]
    pub fn decision(&self) -> Option<&'a [u8]> {
        parts(self.value()).map(|(_, decision)| decision)
    }

    /// Returns the indices of those that signed, strictly increasing. An index is that of
    /// [`Committee::position`](crate::Committee::position): the place in the order of the keys, not
    /// that in which they were given.
    ///
    /// ```
    /// # use commonware_proved::Certificate;
    /// assert_eq!(Certificate::decode(&[0, 2, 4, 6])?.signers(), [4, 6]);
    /// # Ok::<(), commonware_proved::Refusal>(())
    /// ```
    #[must_use]
    pub fn signers(&self) -> &[u32] {
        &self.signers
    }

    /// Returns the indices of those that signed, strictly increasing. They are copied where they
    /// belong to a [`CertificateBuf`], which has [`CertificateBuf::into_signers`].
    ///
    /// ```
    /// # use commonware_proved::Certificate;
    /// assert_eq!(Certificate::decode(&[0, 2, 4, 6])?.into_signers(), vec![4, 6]);
    /// # Ok::<(), commonware_proved::Refusal>(())
    /// ```
    #[must_use]
    pub fn into_signers(self) -> Vec<u32> {
        self.signers.into_owned()
    }

    /// Returns the certificate with copies of its encoding and of the signers.
    ///
    /// ```
    /// # use commonware_proved::Certificate;
    /// let owned = Certificate::decode(&[1, b'x', 2, 4, 6])?.to_buf();
    /// assert_eq!(owned.as_view().value(), b"x");
    /// # Ok::<(), commonware_proved::Refusal>(())
    /// ```
    #[must_use]
    pub fn to_buf(&self) -> CertificateBuf {
        let (encoding, signers) = (self.encoding.to_vec(), self.signers.to_vec());
        CertificateBuf::of(encoding, self.value.clone(), signers)
    }
}

/// Returns the slot and the decision that a value is, which are its slot's length, the slot, and
/// the decision; or `None` where it is none.
fn parts(value: &[u8]) -> Option<(&[u8], &[u8])> {
    // Where no length is in range, the library says of each which it is.
    let Err(Refusal::InvalidLength(length)) = SetView::read(1, value, 0..0) else {
        return None;
    };
    // The length ends with the first byte below 128.
    let end = value.iter().position(|byte| *byte < 128)?;
    value[end + 1..].split_at_checked(length)
}

/// Calls the library with an input, the limits, and a room for the signers.
fn call(
    input: &[u8],
    limits: CertificateLimits,
    room: &mut [u32],
) -> Result<raw::CertificateView, Refusal> {
    // SAFETY: each pointer and the length after it are those of one slice; both are borrowed for
    // the call.
    let view = unsafe {
        raw::commonware_certificate_read(
            input.as_ptr(),
            input.len(),
            limits.value_bytes,
            limits.signers,
            room.as_mut_ptr(),
            room.len(),
        )
    };
    match view.status {
        status::OK | status::ROOM => Ok(view),
        status => Err(Refusal::of(status, view.number)),
    }
}

/// The whole input is the certificate, of any lengths, as [`Certificate::decode`] takes it.
impl<'a> TryFrom<&'a [u8]> for Certificate<'a> {
    type Error = Refusal;

    fn try_from(input: &'a [u8]) -> Result<Certificate<'a>, Refusal> {
        Certificate::decode(input)
    }
}

/// The encoding.
impl AsRef<[u8]> for Certificate<'_> {
    fn as_ref(&self) -> &[u8] {
        self.as_bytes()
    }
}

/// The value in hexadecimal.
impl fmt::Debug for Certificate<'_> {
    fn fmt(&self, f: &mut fmt::Formatter<'_>) -> fmt::Result {
        f.debug_struct("Certificate")
            .field("value", &Hex(self.value()))
            .field("signers", &self.signers())
            .finish()
    }
}
