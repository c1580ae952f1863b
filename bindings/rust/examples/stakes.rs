//! Prints what a quorum of stakes weighs, and which members signed two different values.

use commonware_proved::{
    CertificateBuf, FaultModel, MapBuf, Weights, slot_value, weighted_equivocation,
};
use std::error::Error;

fn main() -> Result<(), Box<dyn Error>> {
    // Keys and stakes as they come. The map has them in the order of the keys.
    let given = [
        ([7; 32], 10u64),
        ([1; 32], 40),
        ([5; 32], 20),
        ([3; 32], 30),
    ];
    let pairs = given.map(|(key, stake)| (key, stake.to_be_bytes()));
    let map = MapBuf::from_pairs(32, 8, pairs)?;
    let stake_of = |value: &[u8]| value.try_into().map(u64::from_be_bytes);
    let values = map.as_view().values();
    let stakes = values.map(stake_of).collect::<Result<Vec<_>, _>>()?;

    let (weights, model) = (Weights::new(&stakes)?, FaultModel::N3F1);
    let (total, faulty) = (weights.total(), weights.max_faulty_weight(model));
    let quorum = weights.quorum_weight(model);
    println!("of {total} in all {faulty} may be faulty, and a quorum weighs {quorum}");

    let first = CertificateBuf::from_parts(&slot_value(b"view 7", b"A")?, &[0, 1])?;
    let second = CertificateBuf::from_parts(&slot_value(b"view 7", b"B")?, &[0, 2, 3])?;
    let named = weighted_equivocation(model, &weights, &first.as_view(), &second.as_view())?;
    println!(
        "{:?} signed both, with a weight of {}",
        named.members, named.weight
    );
    Ok(())
}
