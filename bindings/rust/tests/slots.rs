//! Slots beside a naive implementation: values, one certificate's quorum, and who equivocated.

#[allow(dead_code, reason = "the other tests use the rest")]
mod common;

use common::committee_of;
use common::naive::{certificate_bytes, read_parts, varint};
use common::random::{Random, some_parts, spoil};
use common::seen::Seen;
use commonware_proved::{
    Certificate, CheckError, EquivocationError, FaultModel, Refusal, Which, check, check_encoded,
    equivocation, equivocation_encoded, slot_value,
};
use std::collections::BTreeMap;

const CASES: usize = 100_000;

/// Returns the slot and the decision of a value: a length, as many bytes, and the others.
fn slot_of(value: &[u8]) -> Option<(&[u8], &[u8])> {
    let mut length = 0u64;
    for (place, byte) in value.iter().take(5).enumerate() {
        length |= u64::from(byte % 128) << (7 * place);
        if *byte >= 128 {
            continue;
        }
        let is_short = place == 0 || *byte > 0;
        let rest = &value[place + 1..];
        let is_length = is_short && length <= u64::from(u32::MAX);
        return (is_length && length <= rest.len() as u64).then(|| rest.split_at(length as usize));
    }
    None
}

type Parts<'a> = (&'a [u8], Vec<u32>);

fn exactly_one(input: &[u8]) -> Result<Parts<'_>, Refusal> {
    match read_parts(input, usize::MAX, usize::MAX)? {
        (value, signers, []) => Ok((value, signers)),
        (_, _, rest) => Err(Refusal::LeftOver(rest.len())),
    }
}

fn quorum(k: u32, members: u32) -> usize {
    (members - (members - 1) / k) as usize
}

/// Returns the value and the number of signers, of a certificate of a quorum.
fn certified(k: u32, members: u32, input: &[u8]) -> Result<(&[u8], usize), CheckError> {
    if members == 0 {
        return Err(CheckError::NoMembers);
    }
    let (value, signers) = exactly_one(input).map_err(CheckError::Input)?;
    if signers.iter().any(|signer| *signer >= members) {
        return Err(CheckError::Outside);
    }
    if signers.len() < quorum(k, members) {
        return Err(CheckError::TooFew);
    }
    Ok((value, signers.len()))
}

/// Returns the members that signed two decisions for one slot.
fn equivocated(
    k: u32,
    members: u32,
    first: &[u8],
    second: &[u8],
) -> Result<Vec<u32>, EquivocationError> {
    if members == 0 {
        return Err(EquivocationError::NoMembers);
    }
    let (x, a) =
        exactly_one(first).map_err(|refusal| EquivocationError::Input(Which::First, refusal))?;
    let (y, b) =
        exactly_one(second).map_err(|refusal| EquivocationError::Input(Which::Second, refusal))?;
    let (slot, decision) = slot_of(x).ok_or(EquivocationError::NoSlot(Which::First))?;
    let (other, contrary) = slot_of(y).ok_or(EquivocationError::NoSlot(Which::Second))?;
    if slot != other {
        return Err(EquivocationError::OtherSlot);
    }
    if decision == contrary {
        return Err(EquivocationError::SameDecision);
    }
    let both = [(Which::First, &a), (Which::Second, &b)];
    for (which, signers) in both {
        if signers.iter().any(|signer| *signer >= members) {
            return Err(EquivocationError::Outside(which));
        }
    }
    for (which, signers) in both {
        if signers.len() < quorum(k, members) {
            return Err(EquivocationError::TooFew(which));
        }
    }
    Ok(a.into_iter().filter(|signer| b.contains(signer)).collect())
}

/// Returns a certificate of a value that mostly has a slot, and is sometimes spoiled.
fn some_certificate(random: &mut Random, members: usize) -> Vec<u8> {
    let (mut value, signers) = some_parts(random, members);
    if random.below(9) > 0 {
        let slot = &[1, 7, 7][..random.below(3)];
        value = slot_value(slot, &value).unwrap();
    }
    let mut bytes = certificate_bytes(&value, &signers);
    if random.below(12) == 0 {
        spoil(random, &mut bytes);
    }
    bytes
}

#[test]
fn certificates_are_judged_as_by_the_naive_check() {
    let mut random = Random(0x51075);
    let mut seen = BTreeMap::<String, usize>::new();
    let committees: Vec<_> = (0..12).map(committee_of).collect();
    for _ in 0..CASES {
        let members = random.below(12) as u32;
        let bytes = some_certificate(&mut random, members as usize);
        for k in [2, 3, 5, 9] {
            let model = FaultModel::new(k).unwrap();
            let ours = check_encoded(model, members, &bytes);
            let plain = certified(k, members, &bytes);
            if let Ok(certificate) = Certificate::decode(&bytes) {
                let committee = committees[members as usize].as_view();
                assert_eq!(check(model, &committee, &certificate), ours);
                let parts = certificate.slot().zip(certificate.decision());
                assert_eq!(parts, slot_of(certificate.value()), "{bytes:02x?}");
            }
            let outcome = match (ours, plain) {
                (Ok(ours), Ok((value, signers))) => {
                    assert_eq!(
                        (ours.value(), ours.signer_count() as usize),
                        (value, signers)
                    );
                    let parts = slot_of(value);
                    assert_eq!(ours.slot(), parts.map(|it| it.0), "{bytes:02x?}");
                    assert_eq!(ours.decision(), parts.map(|it| it.1), "{bytes:02x?}");
                    if parts.is_some() { "slot" } else { "no slot" }.to_string()
                }
                (ours, plain) => {
                    assert_eq!(ours.err(), plain.err(), "{k} {members} {bytes:02x?}");
                    format!("{:?}", ours.unwrap_err())
                        .split('(')
                        .next()
                        .unwrap()
                        .to_string()
                }
            };
            *seen.entry(outcome).or_default() += 1;
        }
    }
    assert_eq!(seen.len(), 6, "{seen:?}");
    assert!(seen.values().all(|count| *count > 1_000), "{seen:?}");
}

/// Returns a value that states the length of a slot, and has about as many bytes after that.
fn some_value(random: &mut Random) -> Vec<u8> {
    let lengths = [0, 1, 2, 127, 128, 129, 300, 16_383, 16_384, u32::MAX];
    let length = lengths[random.below(lengths.len())];
    let mut value = varint(u64::from(length));
    let more = (length as usize).min(20_000) + random.below(5);
    value.extend((2..more).map(|i| i as u8));
    spoil(random, &mut value);
    value
}

#[test]
fn a_certificate_has_the_slot_that_a_check_of_it_tells() {
    let mut random = Random(0x5107);
    let mut seen = Seen::default();
    for _ in 0..CASES {
        let value = some_value(&mut random);
        // A quorum of one member signed the first, and of no committee the second.
        let [one, other] = [&[0][..], &[70, 90]].map(|it| certificate_bytes(&value, it));
        let checked = check_encoded(FaultModel::N3F1, 1, &one).unwrap();
        for bytes in [&one, &other] {
            let certificate = Certificate::decode(bytes).unwrap();
            assert_eq!(certificate.slot(), checked.slot(), "{value:02x?}");
            assert_eq!(certificate.decision(), checked.decision(), "{value:02x?}");
        }
        seen.note(checked.slot().map_or("no slot", |_| "slot"));
    }
    seen.assert_each(2, CASES / 5);
}

#[test]
fn a_value_has_a_slot_where_it_begins_with_its_length() {
    let rows = [
        (&[][..], None),
        (&[0], Some((&[][..], &[][..]))),
        (&[0, 9], Some((&[], &[9]))),
        (&[1], None),
        (&[1, 9], Some((&[9], &[]))),
        (&[1, 9, 8, 7], Some((&[9], &[8, 7]))),
        (&[2, 9], None),
        (&[0x7f, 9], None),
        // A length that ends too early, one that is longer than it has to be, and the greatest.
        (&[0x80], None),
        (&[0x80, 0x80, 0x80, 0x80], None),
        (&[0x80, 0], None),
        (&[0x81, 0, 9], None),
        (&[0xff, 0xff, 0xff, 0xff, 0x0f, 9], None),
        (&[0xff, 0xff, 0xff, 0xff, 0x10, 9], None),
        (&[0x80, 0x80, 0x80, 0x80, 0x80, 0, 9], None),
    ];
    for (value, parts) in rows {
        let bytes = certificate_bytes(value, &[3]);
        let certificate = Certificate::decode(&bytes).unwrap();
        let ours = certificate.slot().zip(certificate.decision());
        assert_eq!(ours, parts, "{value:02x?}");
        assert_eq!(certificate.to_buf().as_view().slot(), certificate.slot());
    }
}

#[test]
fn equivocations_are_those_of_the_naive_search() {
    let mut random = Random(0xE901);
    let mut seen = BTreeMap::<String, usize>::new();
    let committees: Vec<_> = (0..12).map(committee_of).collect();
    for _ in 0..CASES {
        let members = random.below(12) as u32;
        let [first, second] = [0, 1].map(|_| some_certificate(&mut random, members as usize));
        for k in [2, 3, 5] {
            let model = FaultModel::new(k).unwrap();
            let ours = equivocation_encoded(model, members, &first, &second);
            assert_eq!(
                ours,
                equivocated(k, members, &first, &second),
                "{k} {members} {first:02x?} {second:02x?}"
            );
            let parts = (Certificate::decode(&first), Certificate::decode(&second));
            if let (Ok(first), Ok(second)) = parts {
                let committee = committees[members as usize].as_view();
                assert_eq!(equivocation(model, &committee, &first, &second), ours);
            }
            let outcome = match ours {
                Ok(_) => "named".to_string(),
                Err(EquivocationError::Input(Which::First, _)) => "first".to_string(),
                Err(EquivocationError::Input(Which::Second, _)) => "second".to_string(),
                Err(error) => format!("{error:?}"),
            };
            *seen.entry(outcome).or_default() += 1;
        }
    }
    assert_eq!(seen.len(), 12, "{seen:?}");
    assert!(seen.values().all(|count| *count > 500), "{seen:?}");
}

#[test]
fn two_heights_name_no_one() {
    let signers: Vec<u32> = (0..300).collect();
    for length in [0, 1, 127, 128, 400, 5_000, 70_000, 1_000_000] {
        let slots = [vec![1; length + 1], vec![2; length + 1]];
        let [at_one, at_two] =
            slots.map(|slot| Certificate::encode(&slot_value(&slot, b"A").unwrap(), &signers));
        let (at_one, at_two) = (at_one.unwrap(), at_two.unwrap());
        let contrary = slot_value(&vec![1; length + 1], b"B").unwrap();
        let contrary = Certificate::encode(&contrary, &signers).unwrap();
        let named = equivocation_encoded(FaultModel::N3F1, 300, &at_one, &at_two);
        assert_eq!(named, Err(EquivocationError::OtherSlot), "{length}");
        let named = equivocation_encoded(FaultModel::N3F1, 300, &at_one, &contrary);
        assert_eq!(named.as_deref(), Ok(&signers[..]), "{length}");
        let checked = check_encoded(FaultModel::N3F1, 300, &at_two).unwrap();
        assert_eq!(checked.slot(), Some(&vec![2; length + 1][..]), "{length}");
        assert_eq!(checked.decision(), Some(&b"A"[..]), "{length}");
    }
}
