//! Encodings that are owned, with what was found out of them when they were read.

mod bimap;
mod certificate;
mod committee;
mod map;
mod set;

pub use bimap::BiMapBuf;
pub use certificate::CertificateBuf;
pub use committee::CommitteeBuf;
pub use map::MapBuf;
pub use set::SetBuf;
