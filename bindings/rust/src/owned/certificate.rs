//! Certificates that own their encoding.

use crate::hex::Hex;
use crate::{Certificate, EncodeError, Refusal};
use alloc::vec::Vec;
use core::fmt;
use core::ops::Range;

/// A value and the indices of those that signed it, with their encoding: to a [`Certificate`] what
/// a `PathBuf` is to a `Path`.
///
/// ```
/// use commonware_proved::CertificateBuf;
///
/// let latest = CertificateBuf::decode(vec![1, b'x', 2, 4, 6])?;
/// assert_eq!(latest.as_view().value(), b"x");
/// assert_eq!(latest.as_view().signers(), [4, 6]);
/// # Ok::<(), commonware_proved::Refusal>(())
/// ```
#[derive(Clone, PartialEq, Eq, Hash)]
pub struct CertificateBuf {
    encoding: Vec<u8>,
    value: Range<usize>,
    signers: Vec<u32>,
}

impl CertificateBuf {
    /// Returns the certificate of a value and of the indices of those that signed it, which are
    /// strictly increasing.
    ///
    /// # Errors
    ///
    /// Those of [`Certificate::encode`].
    ///
    /// ```
    /// # use commonware_proved::{CertificateBuf, EncodeError};
    /// let certificate = CertificateBuf::from_parts(b"x", &[4, 6])?;
    /// assert_eq!(certificate.as_view().as_bytes(), [1, b'x', 2, 4, 6]);
    /// assert_eq!(CertificateBuf::from_parts(b"x", &[6, 4]), Err(EncodeError::NotStrict(1)));
    /// # Ok::<(), EncodeError>(())
    /// ```
    pub fn from_parts(value: &[u8], signers: &[u32]) -> Result<CertificateBuf, EncodeError> {
        let encoding = Certificate::encode(value, signers)?;
        CertificateBuf::decode(encoding).map_err(EncodeError::of_reading)
    }

    /// Decodes the certificate that the whole input is, as [`Certificate::decode`] does. Its bytes
    /// aren't copied; who needs an input that is refused reads a [`Certificate`] first.
    ///
    /// # Errors
    ///
    /// Those of [`Certificate::decode`].
    ///
    /// ```
    /// # use commonware_proved::{CertificateBuf, Refusal};
    /// assert_eq!(CertificateBuf::decode(vec![0, 2, 4, 6])?.as_view().signers(), [4, 6]);
    /// assert_eq!(CertificateBuf::decode(vec![0, 2, 4]), Err(Refusal::EndOfInput));
    /// # Ok::<(), Refusal>(())
    /// ```
    pub fn decode(input: Vec<u8>) -> Result<CertificateBuf, Refusal> {
        let certificate = Certificate::decode(&input)?;
        let (value, signers) = (certificate.value_range(), certificate.into_signers());
        Ok(CertificateBuf::of(input, value, signers))
    }

    /// Returns the certificate of this encoding, which has the value and the signers.
    pub(crate) fn of(encoding: Vec<u8>, value: Range<usize>, signers: Vec<u32>) -> CertificateBuf {
        CertificateBuf {
            encoding,
            value,
            signers,
        }
    }

    /// Returns the certificate, in constant time.
    ///
    /// ```
    /// # use commonware_proved::CertificateBuf;
    /// let certificate = CertificateBuf::from_parts(b"x", &[4, 6])?;
    /// assert_eq!(certificate.as_view().value(), b"x");
    /// # Ok::<(), commonware_proved::EncodeError>(())
    /// ```
    #[must_use]
    pub fn as_view(&self) -> Certificate<'_> {
        Certificate::of(&self.encoding, self.value.clone(), &self.signers)
    }

    /// Returns the encoding.
    ///
    /// ```
    /// # use commonware_proved::CertificateBuf;
    /// assert_eq!(CertificateBuf::from_parts(b"x", &[4, 6])?.as_bytes(), [1, b'x', 2, 4, 6]);
    /// # Ok::<(), commonware_proved::EncodeError>(())
    /// ```
    #[must_use]
    pub fn as_bytes(&self) -> &[u8] {
        &self.encoding
    }

    /// Returns the encoding, which isn't copied.
    ///
    /// ```
    /// # use commonware_proved::CertificateBuf;
    /// let bytes = CertificateBuf::from_parts(b"x", &[4, 6])?.into_bytes();
    /// assert_eq!(bytes, [1, b'x', 2, 4, 6]);
    /// # Ok::<(), commonware_proved::EncodeError>(())
    /// ```
    #[must_use]
    pub fn into_bytes(self) -> Vec<u8> {
        self.encoding
    }

    /// Returns the indices of those that signed, strictly increasing, which aren't copied.
    ///
    /// ```
    /// # use commonware_proved::CertificateBuf;
    /// let signers = CertificateBuf::from_parts(b"x", &[4, 6])?.into_signers();
    /// assert_eq!(signers, [4, 6]);
    /// # Ok::<(), commonware_proved::EncodeError>(())
    /// ```
    #[must_use]
    pub fn into_signers(self) -> Vec<u32> {
        self.signers
    }
}

/// The whole input is the certificate, as [`CertificateBuf::decode`] takes it.
impl TryFrom<Vec<u8>> for CertificateBuf {
    type Error = Refusal;

    fn try_from(input: Vec<u8>) -> Result<CertificateBuf, Refusal> {
        CertificateBuf::decode(input)
    }
}

/// The encoding.
impl AsRef<[u8]> for CertificateBuf {
    fn as_ref(&self) -> &[u8] {
        self.as_bytes()
    }
}

/// The value in hexadecimal.
impl fmt::Debug for CertificateBuf {
    fn fmt(&self, f: &mut fmt::Formatter<'_>) -> fmt::Result {
        f.debug_struct("CertificateBuf")
            .field("value", &Hex(self.as_view().value()))
            .field("signers", &self.signers)
            .finish()
    }
}
