//! What several tests use.

pub mod naive;
pub mod random;
pub mod seen;

use commonware_proved::{CommitteeBuf, Member};

/// Returns a committee of this number of members, which is 256 at most.
pub fn committee_of(members: usize) -> CommitteeBuf {
    let keys: Vec<Member> = (0..members).map(|i| [i as u8; 32]).collect();
    CommitteeBuf::from_keys_dedup(&keys).expect("memory")
}

/// Returns how many random cases a test tries.
pub fn cases() -> usize {
    let said = std::env::var("COMMONWARE_CASES");
    said.map_or(1_000_000, |cases| cases.parse().expect("a number"))
}
