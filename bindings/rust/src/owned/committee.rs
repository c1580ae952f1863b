//! Committees that own their encoding.

use crate::hex::HexItems;
use crate::{Committee, EncodeError, MEMBER_SIZE, Member, Refusal, Set, SetBuf};
use alloc::vec::Vec;
use core::{fmt, slice};

/// The members of a committee, with their encoding: to a [`Committee`] what a `PathBuf` is to a
/// `Path`.
///
/// ```
/// use commonware_proved::{CommitteeBuf, FaultModel};
///
/// struct Node {
///     committee: CommitteeBuf,
/// }
///
/// let keys = [[7; 32], [1; 32], [3; 32], [5; 32]];
/// let node = Node { committee: CommitteeBuf::from_keys_dedup(&keys)? };
/// assert_eq!(node.committee.as_view().position(&[7; 32]), Some(3));
/// assert_eq!(node.committee.as_view().quorum(FaultModel::N3F1), Some(3));
/// # Ok::<(), commonware_proved::EncodeError>(())
/// ```
#[derive(Clone, PartialEq, Eq, Hash)]
pub struct CommitteeBuf {
    /// Its keys have 32 bytes.
    members: SetBuf,
}

impl CommitteeBuf {
    /// Returns the committee of these keys, which may come in any order and repeat. Where a repeat
    /// is an error, compare `len` with the number of keys given.
    ///
    /// # Errors
    ///
    /// Those of [`Committee::encode_dedup`].
    ///
    /// ```
    /// # use commonware_proved::CommitteeBuf;
    /// let keys = [[2; 32], [1; 32], [2; 32]];
    /// let committee = CommitteeBuf::from_keys_dedup(&keys)?;
    /// assert_eq!(committee.as_view().members(), [[1; 32], [2; 32]]);
    /// // One was given twice.
    /// assert_eq!((committee.as_view().len(), keys.len()), (2, 3));
    /// # Ok::<(), commonware_proved::EncodeError>(())
    /// ```
    pub fn from_keys_dedup(keys: &[Member]) -> Result<CommitteeBuf, EncodeError> {
        let encoding = Committee::encode_dedup(keys)?;
        CommitteeBuf::decode(encoding).map_err(EncodeError::of_reading)
    }

    /// Decodes the committee that the whole input is, as [`Committee::decode`] does. Nothing is
    /// copied; who needs an input that is refused reads a [`Committee`] first.
    ///
    /// # Errors
    ///
    /// Those of [`Committee::decode`].
    ///
    /// ```
    /// # use commonware_proved::{CommitteeBuf, Refusal};
    /// let bytes = [&[1][..], &[9; 32]].concat();
    /// assert_eq!(CommitteeBuf::decode(bytes)?.as_view().members(), [[9; 32]]);
    /// assert_eq!(CommitteeBuf::decode(vec![1]), Err(Refusal::EndOfInput));
    /// # Ok::<(), Refusal>(())
    /// ```
    pub fn decode(input: Vec<u8>) -> Result<CommitteeBuf, Refusal> {
        let members = Committee::decode(&input)?.column();
        Ok(CommitteeBuf::of(SetBuf::of(input, members)))
    }

    /// Returns the committee of these keys of 32 bytes.
    pub(crate) fn of(members: SetBuf) -> CommitteeBuf {
        CommitteeBuf { members }
    }

    /// Returns the members, in constant time.
    ///
    /// ```
    /// # use commonware_proved::CommitteeBuf;
    /// let committee = CommitteeBuf::from_keys_dedup(&[[2; 32], [1; 32]])?;
    /// assert_eq!(committee.as_view().get(0), Some(&[1; 32]));
    /// # Ok::<(), commonware_proved::EncodeError>(())
    /// ```
    #[must_use]
    pub fn as_view(&self) -> Committee<'_> {
        Committee::from(Set::<MEMBER_SIZE>::of(self.members.as_view()))
    }

    /// Returns the encoding.
    ///
    /// ```
    /// # use commonware_proved::CommitteeBuf;
    /// assert_eq!(CommitteeBuf::from_keys_dedup(&[])?.as_bytes(), [0]);
    /// # Ok::<(), commonware_proved::EncodeError>(())
    /// ```
    #[must_use]
    pub fn as_bytes(&self) -> &[u8] {
        self.members.as_bytes()
    }

    /// Returns the encoding, which isn't copied.
    ///
    /// ```
    /// # use commonware_proved::CommitteeBuf;
    /// assert_eq!(CommitteeBuf::from_keys_dedup(&[])?.into_bytes(), vec![0]);
    /// # Ok::<(), commonware_proved::EncodeError>(())
    /// ```
    #[must_use]
    pub fn into_bytes(self) -> Vec<u8> {
        self.members.into_bytes()
    }
}

/// The whole input is the committee, as [`CommitteeBuf::decode`] takes it.
impl TryFrom<Vec<u8>> for CommitteeBuf {
    type Error = Refusal;

    fn try_from(input: Vec<u8>) -> Result<CommitteeBuf, Refusal> {
        CommitteeBuf::decode(input)
    }
}

/// The encoding.
impl AsRef<[u8]> for CommitteeBuf {
    fn as_ref(&self) -> &[u8] {
        self.as_bytes()
    }
}

/// The members in hexadecimal.
impl fmt::Debug for CommitteeBuf {
    fn fmt(&self, f: &mut fmt::Formatter<'_>) -> fmt::Result {
        let members = HexItems(self.members.as_view().iter());
        f.debug_tuple("CommitteeBuf").field(&members).finish()
    }
}

impl<'a> IntoIterator for &'a CommitteeBuf {
    type Item = &'a Member;
    type IntoIter = slice::Iter<'a, Member>;

    fn into_iter(self) -> slice::Iter<'a, Member> {
        self.as_view().iter()
    }
}
