//! The members of a committee, in their encoding.

use crate::error::whole;
use crate::hex::HexItems;
use crate::items::Column;
use crate::limits::limits;
use crate::room::{trimmed, zeros};
use crate::{CommitteeBuf, EncodeError, FaultModel, Refusal, Set, SetView, raw, status};
use alloc::vec::Vec;
use core::ops::RangeBounds;
use core::{fmt, slice};

/// How many bytes a member has.
///
/// ```
/// # use commonware_proved::{Committee, MEMBER_SIZE};
/// let bytes = Committee::encode_dedup(&[[2; MEMBER_SIZE], [1; MEMBER_SIZE]])?;
/// assert_eq!(bytes.len(), 1 + 2 * MEMBER_SIZE);
/// # Ok::<(), commonware_proved::EncodeError>(())
/// ```
pub const MEMBER_SIZE: usize = 32;

/// The key of a member. Members are ordered by their bytes.
///
/// ```
/// # use commonware_proved::{CommitteeBuf, Member};
/// let (first, second): (Member, Member) = ([1; 32], [2; 32]);
/// let committee = CommitteeBuf::from_keys_dedup(&[second, first])?;
/// assert_eq!(committee.as_view().members(), [first, second]);
/// # Ok::<(), commonware_proved::EncodeError>(())
/// ```
pub type Member = [u8; MEMBER_SIZE];

/// The members of a committee, strictly increasing, borrowed from its encoding. Nothing is copied.
/// A [`CommitteeBuf`] owns the encoding. It is a [`Set`] of keys of 32 bytes, and each is made of
/// the other by `from`.
///
/// ```
/// use commonware_proved::{Committee, FaultModel, Refusal};
///
/// let bytes = [&[4][..], &[1; 32], &[3; 32], &[5; 32], &[7; 32]].concat();
/// let committee = Committee::decode(&bytes)?;
/// assert_eq!(committee.get(1), Some(&[3; 32]));
/// assert_eq!(committee.position(&[7; 32]), Some(3));
/// assert_eq!(committee.quorum(FaultModel::N3F1), Some(3));
/// # Ok::<(), Refusal>(())
/// ```
#[derive(Clone, Copy, PartialEq, Eq, Hash)]
pub struct Committee<'a> {
    members: Set<'a, MEMBER_SIZE>,
}

impl<'a> Committee<'a> {
    /// Decodes the committee at the start of the input, whose number of members is in the range,
    /// and returns what follows it. Nothing is allocated.
    ///
    /// # Errors
    ///
    /// The first fault (decoding error) of the input; neither `LeftOver` nor `Memory`.
    ///
    /// ```
    /// # use commonware_proved::{Committee, Refusal};
    /// let bytes = [&[1][..], &[9; 32], b"more"].concat();
    /// let (committee, rest) = Committee::read(&bytes, 1..=256)?;
    /// assert_eq!((committee.len(), rest), (1, &b"more"[..]));
    /// assert_eq!(Committee::read(&bytes, 2..), Err(Refusal::InvalidLength(1)));
    /// # Ok::<(), Refusal>(())
    /// ```
    pub fn read(
        input: &'a [u8],
        lengths: impl RangeBounds<usize>,
    ) -> Result<(Committee<'a>, &'a [u8]), Refusal> {
        let (least, most) = limits(&lengths);
        // SAFETY: the pointer and the length are those of one slice, which is borrowed for the
        // call.
        let view =
            unsafe { raw::commonware_committee_read(input.as_ptr(), input.len(), least, most) };
        if view.status != status::OK {
            return Err(Refusal::of(view.status, view.number));
        }
        let (encoding, rest) = input.split_at(input.len() - view.left);
        let members = Column::new(MEMBER_SIZE, view.count, view.start);
        let members = Set::of(SetView::of(encoding, members));
        Ok((Committee { members }, rest))
    }

    /// Decodes the committee that the whole input is, of any number of members. Nothing is
    /// allocated.
    ///
    /// # Errors
    ///
    /// The first fault (decoding error) of the input, or `LeftOver`; not `Memory`.
    ///
    /// ```
    /// # use commonware_proved::{Committee, Refusal};
    /// assert!(Committee::decode(&[0])?.is_empty());
    /// assert_eq!(Committee::decode(&[0, 9]), Err(Refusal::LeftOver(1)));
    /// # Ok::<(), Refusal>(())
    /// ```
    pub fn decode(input: &'a [u8]) -> Result<Committee<'a>, Refusal> {
        whole(Committee::read(input, ..)?)
    }

    /// Encodes the committee of these keys: sorted, each key once. The keys may come in any order
    /// and repeat.
    ///
    /// # Errors
    ///
    /// `InvalidLength` where the distinct keys are more than 4294967295, and `Memory`.
    ///
    /// ```
    /// # use commonware_proved::{Committee, EncodeError};
    /// let bytes = Committee::encode_dedup(&[[2; 32], [1; 32], [2; 32]])?;
    /// assert_eq!(bytes, [&[2][..], &[1; 32], &[2; 32]].concat());
    /// # Ok::<(), EncodeError>(())
    /// ```
    pub fn encode_dedup(keys: &[Member]) -> Result<Vec<u8>, EncodeError> {
        let mut out = zeros(5 + MEMBER_SIZE * keys.len()).ok_or(EncodeError::Memory)?;
        let members = keys.as_flattened().as_ptr();
        // SAFETY: each pointer and the length after it are those of one slice; `out` is a new one.
        let view = unsafe {
            raw::commonware_committee_encode_dedup(members, keys.len(), out.as_mut_ptr(), out.len())
        };
        if view.status != status::OK {
            return Err(EncodeError::of(view.status, view.number));
        }
        Ok(trimmed(out, view.size))
    }

    /// Returns where the members are.
    pub(crate) fn column(&self) -> Column {
        SetView::from(self.members).column()
    }

    /// Returns the encoding.
    ///
    /// ```
    /// # use commonware_proved::Committee;
    /// assert_eq!(Committee::read(&[0, 7, 8], ..)?.0.as_bytes(), [0]);
    /// # Ok::<(), commonware_proved::Refusal>(())
    /// ```
    #[must_use]
    pub fn as_bytes(&self) -> &'a [u8] {
        self.members.as_bytes()
    }

    /// Returns the bytes of all members, one after another.
    ///
    /// ```
    /// # use commonware_proved::Committee;
    /// let bytes = Committee::encode_dedup(&[[2; 32], [1; 32]])?;
    /// assert_eq!(Committee::decode(&bytes)?.key_bytes(), &bytes[1..]);
    /// # Ok::<(), Box<dyn std::error::Error>>(())
    /// ```
    #[must_use]
    pub fn key_bytes(&self) -> &'a [u8] {
        self.members.key_bytes()
    }

    /// Returns the members in order.
    ///
    /// ```
    /// # use commonware_proved::Committee;
    /// let bytes = Committee::encode_dedup(&[[2; 32], [1; 32]])?;
    /// assert_eq!(Committee::decode(&bytes)?.members(), [[1; 32], [2; 32]]);
    /// # Ok::<(), Box<dyn std::error::Error>>(())
    /// ```
    #[must_use]
    pub fn members(&self) -> &'a [Member] {
        self.members.keys()
    }

    /// Returns how many members there are.
    ///
    /// ```
    /// # use commonware_proved::Committee;
    /// assert_eq!(Committee::decode(&[0])?.len(), 0);
    /// # Ok::<(), commonware_proved::Refusal>(())
    /// ```
    #[must_use]
    pub fn len(&self) -> usize {
        self.members.len()
    }

    /// Whether there are no members.
    ///
    /// ```
    /// # use commonware_proved::Committee;
    /// assert!(Committee::decode(&[0])?.is_empty());
    /// # Ok::<(), commonware_proved::Refusal>(())
    /// ```
    #[must_use]
    pub fn is_empty(&self) -> bool {
        self.members.is_empty()
    }

    /// Returns the member at an index, or `None` past the last.
    ///
    /// ```
    /// # use commonware_proved::Committee;
    /// let bytes = Committee::encode_dedup(&[[2; 32], [1; 32]])?;
    /// assert_eq!(Committee::decode(&bytes)?.get(0), Some(&[1; 32]));
    /// # Ok::<(), Box<dyn std::error::Error>>(())
    /// ```
    #[must_use]
    pub fn get(&self, index: usize) -> Option<&'a Member> {
        self.members.get(index)
    }

    /// Returns the index of a member, or `None` where there is no such, in O(log n) comparisons.
    ///
    /// ```
    /// # use commonware_proved::Committee;
    /// let bytes = Committee::encode_dedup(&[[2; 32], [1; 32]])?;
    /// let committee = Committee::decode(&bytes)?;
    /// assert_eq!(committee.position(&[2; 32]), Some(1));
    /// assert_eq!(committee.position(&[3; 32]), None);
    /// # Ok::<(), Box<dyn std::error::Error>>(())
    /// ```
    #[must_use]
    pub fn position(&self, key: &Member) -> Option<usize> {
        let members = self.key_bytes().as_ptr();
        // SAFETY: the members are as many as the length says, and the key is one.
        let view = unsafe { raw::commonware_committee_position(members, self.len(), key.as_ptr()) };
        (view.status == status::OK).then_some(view.index)
    }

    /// Whether the key is that of a member.
    ///
    /// ```
    /// # use commonware_proved::Committee;
    /// assert!(!Committee::decode(&[0])?.contains(&[3; 32]));
    /// # Ok::<(), commonware_proved::Refusal>(())
    /// ```
    #[must_use]
    pub fn contains(&self, key: &Member) -> bool {
        self.position(key).is_some()
    }

    /// Returns the members in order.
    ///
    /// ```
    /// # use commonware_proved::Committee;
    /// let bytes = Committee::encode_dedup(&[[2; 32], [1; 32]])?;
    /// assert_eq!(Committee::decode(&bytes)?.iter().last(), Some(&[2; 32]));
    /// # Ok::<(), Box<dyn std::error::Error>>(())
    /// ```
    pub fn iter(&self) -> slice::Iter<'a, Member> {
        self.members.iter()
    }

    /// Returns how many of the members may be faulty in a model, or `None` where there are no
    /// members.
    ///
    /// ```
    /// # use commonware_proved::{Committee, FaultModel};
    /// let bytes = Committee::encode_dedup(&[[0; 32], [1; 32], [2; 32], [3; 32]])?;
    /// let committee = Committee::decode(&bytes)?;
    /// assert_eq!(committee.max_faults(FaultModel::N3F1), Some(1));
    /// # Ok::<(), Box<dyn std::error::Error>>(())
    /// ```
    #[must_use]
    pub fn max_faults(&self, model: FaultModel) -> Option<u32> {
        model.max_faults(self.count())
    }

    /// Returns how many of the members make a quorum in a model, or `None` where there are no
    /// members.
    ///
    /// ```
    /// # use commonware_proved::{Committee, FaultModel};
    /// assert_eq!(Committee::decode(&[0])?.quorum(FaultModel::N3F1), None);
    /// # Ok::<(), commonware_proved::Refusal>(())
    /// ```
    #[must_use]
    pub fn quorum(&self, model: FaultModel) -> Option<u32> {
        model.quorum(self.count())
    }

    /// Returns the least number of the members that share f + 1 members with each quorum of a
    /// model, 2f + 1, or `None` where there are no members.
    ///
    /// ```
    /// # use commonware_proved::{Committee, FaultModel};
    /// let bytes = Committee::encode_dedup(&[0, 1, 2, 3, 4, 5].map(|i| [i; 32]))?;
    /// let committee = Committee::decode(&bytes)?;
    /// assert_eq!(committee.smaller_quorum(FaultModel::N5F1), Some(3));
    /// # Ok::<(), Box<dyn std::error::Error>>(())
    /// ```
    #[must_use]
    pub fn smaller_quorum(&self, model: FaultModel) -> Option<u32> {
        model.smaller_quorum(self.count())
    }

    /// Returns the number of members, which its varint keeps below 2^32.
    pub(crate) fn count(&self) -> u32 {
        self.column().count
    }

    /// Returns the committee with a copy of its encoding.
    ///
    /// ```
    /// # use commonware_proved::Committee;
    /// let bytes = Committee::encode_dedup(&[[2; 32], [1; 32]])?;
    /// let owned = Committee::decode(&bytes)?.to_buf();
    /// drop(bytes);
    /// assert_eq!(owned.as_view().position(&[2; 32]), Some(1));
    /// # Ok::<(), Box<dyn std::error::Error>>(())
    /// ```
    #[must_use]
    pub fn to_buf(&self) -> CommitteeBuf {
        CommitteeBuf::of(SetView::from(self.members).to_buf())
    }
}

/// The whole input is the committee, of any number of members, as [`Committee::decode`] takes it.
impl<'a> TryFrom<&'a [u8]> for Committee<'a> {
    type Error = Refusal;

    fn try_from(input: &'a [u8]) -> Result<Committee<'a>, Refusal> {
        Committee::decode(input)
    }
}

impl<'a> From<Set<'a, MEMBER_SIZE>> for Committee<'a> {
    fn from(members: Set<'a, MEMBER_SIZE>) -> Committee<'a> {
        Committee { members }
    }
}

impl<'a> From<Committee<'a>> for Set<'a, MEMBER_SIZE> {
    fn from(committee: Committee<'a>) -> Set<'a, MEMBER_SIZE> {
        committee.members
    }
}

/// The encoding.
impl AsRef<[u8]> for Committee<'_> {
    fn as_ref(&self) -> &[u8] {
        self.as_bytes()
    }
}

/// The members in hexadecimal.
impl fmt::Debug for Committee<'_> {
    fn fmt(&self, f: &mut fmt::Formatter<'_>) -> fmt::Result {
        let members = HexItems(SetView::from(self.members).iter());
        f.debug_tuple("Committee").field(&members).finish()
    }
}

impl<'a> IntoIterator for Committee<'a> {
    type Item = &'a Member;
    type IntoIter = slice::Iter<'a, Member>;

    fn into_iter(self) -> slice::Iter<'a, Member> {
        self.iter()
    }
}

impl<'a> IntoIterator for &Committee<'a> {
    type Item = &'a Member;
    type IntoIter = slice::Iter<'a, Member>;

    fn into_iter(self) -> slice::Iter<'a, Member> {
        self.iter()
    }
}
