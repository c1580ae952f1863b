//! Prints the members of a committee, how many make a quorum, and which members signed two
//! different values.

use commonware_proved::{CertificateBuf, CommitteeBuf, FaultModel, equivocation, slot_value};
use std::error::Error;

fn main() -> Result<(), Box<dyn Error>> {
    let owned = CommitteeBuf::from_keys_dedup(&[[3; 32], [1; 32], [0; 32], [2; 32]])?;
    let (committee, model) = (owned.as_view(), FaultModel::N3F1);
    for member in &committee {
        let digits: String = member.iter().map(|byte| format!("{byte:02x}")).collect();
        println!("{digits}");
    }
    let members = committee.len();
    let faults = committee.max_faults(model).ok_or("no members")?;
    let quorum = committee.quorum(model).ok_or("no members")?;
    println!("of {members} members {faults} may be faulty, and {quorum} are a quorum");

    let first = CertificateBuf::from_parts(&slot_value(b"view 7", b"A")?, &[0, 1, 2])?;
    let second = CertificateBuf::from_parts(&slot_value(b"view 7", b"B")?, &[1, 2, 3])?;
    let named = equivocation(model, &committee, &first.as_view(), &second.as_view())?;
    println!("{named:?} signed both");
    Ok(())
}
