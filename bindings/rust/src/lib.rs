//! Committees, certificates and quorums of consensus nodes: how many of n participants may be
//! faulty, the encodings of committees and of certificates, and of sets, maps and bimaps of keys of
//! any size, and which members signed both of two different values; all by the number of members or
//! by what they weigh.
//!
//! # A whole use
//!
//! A node holds its committee, receives certificates, asks whether a quorum signed them, and which
//! members signed two different decisions for one slot.
//!
//! ```
//! use commonware_proved::{Certificate, CommitteeBuf, FaultModel, check, equivocation, slot_value};
//!
//! let owned = CommitteeBuf::from_keys_dedup(&[[7; 32], [1; 32], [3; 32], [5; 32]])?;
//! let (committee, model) = (owned.as_view(), FaultModel::N3F1);
//! assert_eq!(committee.position(&[7; 32]), Some(3));
//! assert_eq!(committee.quorum(model), Some(3));
//!
//! // Two certificates as they are received. Their signatures are verified elsewhere.
//! let first = Certificate::encode(&slot_value(b"view 7", b"A")?, &[0, 1, 2])?;
//! let second = Certificate::encode(&slot_value(b"view 7", b"B")?, &[1, 2, 3])?;
//!
//! let (first, second) = (Certificate::decode(&first)?, Certificate::decode(&second)?);
//! assert_eq!(check(model, &committee, &first)?.decision(), Some(&b"A"[..]));
//! assert_eq!(equivocation(model, &committee, &first, &second)?, [1, 2]);
//! # Ok::<(), Box<dyn std::error::Error>>(())
//! ```
//!
//! # Names
//!
//! A call has the name of the library's function, as the other languages have it: the type and
//! then the rest, so that `commonware_map_encode` is [`MapView::encode`]. `decode` takes the whole
//! input, `read` returns what follows, and `encode` writes; where a name ends in `_dedup`, keys may
//! repeat, and each is taken once. Of a set, a map and a bimap alike, `get` returns the key at an
//! index and `position` the index of a key; `value` the value at an index and `get_value` that of a
//! key; `position_of_value` and `get_key` of a bimap go the other way. `as_bytes` is the whole
//! encoding, whatever the type. The views are borrowed from it; the types whose names end in `Buf`
//! own it, have the views by `as_view`, and give it away by `into_bytes`. Both are `AsRef<[u8]>`,
//! and a reference to either is walked by `for`, but that to a certificate.
//!
//! # By stake
//!
//! Where members have weights, as stake or voting power, the calls whose names begin with
//! `weighted_` judge certificates by what the signers weigh, and say what those weigh that are
//! named. Weights are in the order of the keys ([`Weights`] shows how).
//!
//! ```
//! use commonware_proved::{Certificate, FaultModel, Weights};
//! use commonware_proved::{slot_value, weighted_check_encoded, weighted_equivocation_encoded};
//!
//! let (weights, model) = (Weights::new(&[40, 30, 20, 10])?, FaultModel::N3F1);
//! assert_eq!((weights.max_faulty_weight(model), weights.quorum_weight(model)), (33, 67));
//!
//! let first = Certificate::encode(&slot_value(b"view 7", b"A")?, &[0, 1])?;
//! let second = Certificate::encode(&slot_value(b"view 7", b"B")?, &[0, 2, 3])?;
//! assert_eq!(weighted_check_encoded(model, &weights, &first)?.weight(), 70);
//! let named = weighted_equivocation_encoded(model, &weights, &first, &second)?;
//! assert_eq!((&named.members[..], named.weight), (&[0][..], 40));
//! # Ok::<(), Box<dyn std::error::Error>>(())
//! ```
//!
//! # What is proved, and what isn't
//!
//! What is decoded, encoded, looked up and judged is so by calls of the static library
//! `commonware_c`, which is written in Rattle and whose contracts are proved: it panics, wraps and
//! overruns nowhere, and an input is accepted exactly where it is the one encoding of a value.
//! `docs/NATIVE.md` of its repository says it function by function.
//!
//! This crate's own lines aren't proved. They pass slices, turn statuses into errors, and decide
//! little: which numbers a range has; that a key of another size than the keys of a set isn't
//! there, and where one of no bytes is; that bytes are left over; where the slot of a certificate
//! is that wasn't checked, by the length that the library reads; where a value of a bimap is, by a
//! search of the indices that the library has put in order; and to which of the given pairs a
//! repeat belongs.
//!
//! No signature is looked at by any call.
//!
//! # Linking
//!
//! The build script links `libcommonware.a`, which is for Linux on processors of x86-64-v2 or later
//! (its instructions go up to SSE4.1): that of the folder whose absolute path the environment
//! variable `COMMONWARE_C_LIB` has, else that of `prebuilt/x86_64-linux` beside the crate's folder.
//! The text `PROVED` beside it says its version, its SHA-256 and of which sources it is. It is an
//! error where the major version isn't the crate's or the minor version is an earlier one, where
//! the archive has another SHA-256, and in a clone of the repository where the sources that are
//! there are others. Where the program `sha256sum` can't be run, a warning says so in place of the
//! last two. A copy is linked, whose name has the first digits of the SHA-256, so that no other
//! library is taken for it.
//!
//! # Memory
//!
//! No call panics or aborts: an allocation failure is an error, which says nothing of the input.
//! An encoding is written into a room for the longest one. Where it takes under half of that, it is
//! copied into just its own, and where there is no memory for the copy, it keeps the room.
//!
//! Only copies take their memory as `Vec` does: those of keys and pairs
//! ([`SetView::to_owned_keys`], [`MapView::to_owned_pairs`], [`BiMapView::to_owned_pairs`]),
//! `to_buf`, clones, and [`Certificate::into_signers`] of the view of a [`CertificateBuf`].
//!
//! The crate needs `alloc` and not `std`. The library has a heap of its own over that of the C
//! library, unless a program defines its three functions as `commonware.h` says.

#![no_std]
#![deny(
    clippy::alloc_instead_of_core,
    clippy::std_instead_of_alloc,
    clippy::std_instead_of_core
)]

extern crate alloc;

mod bimap;
mod certificate;
mod check;
mod committee;
mod conflict;
mod equivocation;
mod error;
mod faults;
mod hex;
mod items;
mod limits;
mod map;
mod named;
mod owned;
mod raw;
mod room;
mod set;
mod status;
mod version;
mod weighted;
mod weights;

pub use bimap::{BiMapError, BiMapView};
pub use certificate::{Certificate, CertificateLimits};
pub use check::{CheckError, Checked, check, check_encoded};
pub use committee::{Committee, MEMBER_SIZE, Member};
pub use conflict::{ConflictError, conflict, conflict_encoded};
pub use equivocation::{EquivocationError, equivocation, equivocation_encoded, slot_value};
pub use error::{EncodeError, Refusal};
pub use faults::FaultModel;
pub use items::{Items, Pairs};
pub use map::MapView;
pub use named::Which;
pub use owned::{BiMapBuf, CertificateBuf, CommitteeBuf, MapBuf, SetBuf};
pub use set::{Set, SetView};
pub use version::{Version, version};
pub use weighted::{
    Named, WeightedCheckError, WeightedChecked, WeightedConflictError, WeightedEquivocationError,
    weighted_check, weighted_check_encoded, weighted_conflict, weighted_conflict_encoded,
    weighted_equivocation, weighted_equivocation_encoded,
};
pub use weights::{Weights, WeightsError};
