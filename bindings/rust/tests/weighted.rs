//! Certificates by weight beside plain Rust, which sums in 128 bits: one that is checked, two in
//! conflict, and two decisions for one slot.

#[allow(dead_code, reason = "the other tests use the rest")]
mod common;

#[allow(dead_code, reason = "the crate calls the rest")]
#[path = "../src/raw.rs"]
mod raw;

use common::naive::{certificate_bytes, read_parts};
use common::random::{Random, some_parts, spoil};
use commonware_proved::{
    Certificate, FaultModel, Named, Refusal, WeightedCheckError, WeightedConflictError,
    WeightedEquivocationError, Weights, WeightsError, Which, slot_value, weighted_check,
    weighted_check_encoded, weighted_conflict, weighted_conflict_encoded, weighted_equivocation,
    weighted_equivocation_encoded,
};
use std::collections::BTreeMap;

const CASES: usize = 100_000;

/// A status of the header, which certificate it is about, and its number.
type Reason = (&'static str, u32, usize);

/// The names of the statuses, by their numbers.
const NAMES: [&str; 23] = [
    "ok",
    "end of input",
    "invalid varint",
    "invalid length",
    "not strict",
    "memory",
    "left over",
    "no members",
    "same value",
    "outside",
    "too few",
    "room",
    "absent",
    "no model",
    "no slot",
    "other slot",
    "no size",
    "not whole",
    "repeated value",
    "repeated key",
    "zero weight",
    "weight overflow",
    "too light",
];

fn of_refusal(which: u32, refusal: Refusal) -> Reason {
    match refusal {
        Refusal::EndOfInput => ("end of input", which, 0),
        Refusal::InvalidVarint => ("invalid varint", which, 0),
        Refusal::InvalidLength(length) => ("invalid length", which, length),
        Refusal::NotStrict => ("not strict", which, 0),
        Refusal::LeftOver(count) => ("left over", which, count),
        other => panic!("{other}"),
    }
}

/// Returns what a quorum weighs, or why there is none.
fn plain_quorum(k: u32, weights: &[u64]) -> Result<u128, Reason> {
    if k < 2 {
        return Err(("no model", 0, 0));
    }
    if weights.is_empty() {
        return Err(("no members", 0, 0));
    }
    let mut total = 0u128;
    for (index, weight) in weights.iter().enumerate() {
        total += u128::from(*weight);
        if *weight == 0 {
            return Err(("zero weight", 0, index));
        }
        if total >= 1 << 64 {
            return Err(("weight overflow", 0, index));
        }
    }
    // The least number that leaves out f, where kf + 1 is at most the total.
    Ok(total - (total - 1) / u128::from(k))
}

/// Returns the slot and the decision of a value: a length, as many bytes, and the others.
fn slot_of(value: &[u8]) -> Option<(&[u8], &[u8])> {
    let mut length = 0u64;
    for (place, byte) in value.iter().take(5).enumerate() {
        length |= u64::from(byte % 128) << (7 * place);
        if *byte < 128 {
            let is_short = place == 0 || *byte > 0;
            let rest = &value[place + 1..];
            let is_length = is_short && length <= u64::from(u32::MAX);
            let is_there = is_length && length <= rest.len() as u64;
            return is_there.then(|| rest.split_at(length as usize));
        }
    }
    None
}

type Parts<'a> = (&'a [u8], Vec<u32>);

fn exactly_one(which: u32, input: &[u8]) -> Result<Parts<'_>, Reason> {
    let refused = |refusal| of_refusal(which, refusal);
    match read_parts(input, usize::MAX, usize::MAX).map_err(refused)? {
        (value, signers, []) => Ok((value, signers)),
        (_, _, rest) => Err(("left over", which, rest.len())),
    }
}

/// Returns what members weigh, or `None` where one is none.
fn weight_of(weights: &[u64], members: &[u32]) -> Option<u128> {
    let each = members.iter().map(|i| weights.get(*i as usize));
    each.map(|weight| weight.map(|it| u128::from(*it))).sum()
}

/// Returns the value, and how many signed it, with what they weigh.
fn plain_check<'a>(
    k: u32,
    weights: &[u64],
    input: &'a [u8],
) -> Result<(&'a [u8], usize, u128), Reason> {
    let quorum = plain_quorum(k, weights)?;
    let (value, signers) = exactly_one(0, input)?;
    let weight = weight_of(weights, &signers).ok_or(("outside", 0, 0))?;
    if weight < quorum {
        return Err(("too light", 0, 0));
    }
    Ok((value, signers.len(), weight))
}

/// Returns why two values are no two decisions for one slot.
fn judge_slots(x: &[u8], y: &[u8]) -> Result<(), Reason> {
    let (slot, decision) = slot_of(x).ok_or(("no slot", 1, 0))?;
    let (other, contrary) = slot_of(y).ok_or(("no slot", 2, 0))?;
    if slot != other {
        return Err(("other slot", 0, 0));
    }
    assert_eq!(decision == contrary, x == y);
    Ok(())
}

/// Returns the members that signed both, and what they weigh.
fn plain_both(
    k: u32,
    weights: &[u64],
    inputs: [&[u8]; 2],
    by_slot: bool,
) -> Result<(Vec<u32>, u128), Reason> {
    let quorum = plain_quorum(k, weights)?;
    let (x, a) = exactly_one(1, inputs[0])?;
    let (y, b) = exactly_one(2, inputs[1])?;
    if by_slot {
        judge_slots(x, y)?;
    }
    if x == y {
        return Err(("same value", 0, 0));
    }
    let one = weight_of(weights, &a).ok_or(("outside", 1, 0))?;
    let other = weight_of(weights, &b).ok_or(("outside", 2, 0))?;
    for (which, weight) in [(1, one), (2, other)] {
        if weight < quorum {
            return Err(("too light", which, 0));
        }
    }
    let both: Vec<u32> = a.into_iter().filter(|signer| b.contains(signer)).collect();
    let weight = weight_of(weights, &both).expect("they are members");
    Ok((both, weight))
}

/// Draws weights that are seldom none, of which one is seldom 0, and whose sum seldom overflows.
fn some_weights(random: &mut Random) -> Vec<u64> {
    let count = [0, 1, 2, 3, 4, 5, 6, 7, 8, 9, 11, 12][random.below(12)];
    let bits = [1, 2, 4, 32, 59, 60, 61][random.below(7)];
    let mut weights: Vec<u64> = (0..count)
        .map(|_| 1 + (random.next() >> (64 - bits)))
        .collect();
    if count > 0 && random.below(30) == 0 {
        weights[random.below(count)] = 0;
    }
    if count > 0 && random.below(6) == 0 {
        // One that weighs more than a quorum.
        weights[random.below(count)] = 1 << 62;
    }
    weights
}

/// Draws a certificate of a value that mostly has a slot, and is sometimes spoiled.
fn some_certificate(random: &mut Random, members: usize) -> Vec<u8> {
    let (mut value, signers) = some_parts(random, members);
    if random.below(9) > 0 {
        let slot = &[1, 7, 7][..random.below(3)];
        value = slot_value(slot, &value).expect("memory");
    }
    let mut bytes = certificate_bytes(&value, &signers);
    if random.below(12) == 0 {
        spoil(random, &mut bytes);
    }
    bytes
}

/// The weights, or why they are none, as the crate has it.
fn weights_of(items: &[u64]) -> Result<Weights<'_>, Reason> {
    Weights::new(items).map_err(|error| match error {
        WeightsError::Empty => ("no members", 0, 0),
        WeightsError::Zero(index) => ("zero weight", 0, index),
        WeightsError::Overflow(index) => ("weight overflow", 0, index),
        other => panic!("{other}"),
    })
}

fn of_check(error: WeightedCheckError) -> Reason {
    match error {
        WeightedCheckError::Input(refusal) => of_refusal(0, refusal),
        WeightedCheckError::Outside => ("outside", 0, 0),
        WeightedCheckError::TooLight => ("too light", 0, 0),
        other => panic!("{other}"),
    }
}

fn number(which: Which) -> u32 {
    which as u32 + 1
}

fn of_conflict(error: WeightedConflictError) -> Reason {
    match error {
        WeightedConflictError::Input(which, refusal) => of_refusal(number(which), refusal),
        WeightedConflictError::SameValue => ("same value", 0, 0),
        WeightedConflictError::Outside(which) => ("outside", number(which), 0),
        WeightedConflictError::TooLight(which) => ("too light", number(which), 0),
        other => panic!("{other}"),
    }
}

fn of_equivocation(error: WeightedEquivocationError) -> Reason {
    match error {
        WeightedEquivocationError::Input(which, refusal) => of_refusal(number(which), refusal),
        WeightedEquivocationError::NoSlot(which) => ("no slot", number(which), 0),
        WeightedEquivocationError::OtherSlot => ("other slot", 0, 0),
        WeightedEquivocationError::SameDecision => ("same value", 0, 0),
        WeightedEquivocationError::Outside(which) => ("outside", number(which), 0),
        WeightedEquivocationError::TooLight(which) => ("too light", number(which), 0),
        other => panic!("{other}"),
    }
}

/// How often each reason was seen.
type Reasons = BTreeMap<(&'static str, u32), usize>;

fn note<T>(seen: &mut Reasons, result: &Result<T, Reason>) {
    let reason = result.as_ref().err().map_or(("ok", 0), |it| (it.0, it.1));
    *seen.entry(reason).or_default() += 1;
}

fn assert_each(seen: &Reasons, reasons: usize) {
    assert_eq!(seen.len(), reasons, "{seen:?}");
    assert!(seen.values().all(|count| *count >= 100), "{seen:?}");
}

/// Checks the input by the library's function alone, whose view says nothing beside its status.
fn checked_raw(k: u32, weights: &[u64], input: &[u8]) -> Result<(usize, usize, u64), Reason> {
    // SAFETY: each pointer and the length after it are those of one slice.
    let view = unsafe {
        raw::commonware_weighted_check(
            k,
            weights.as_ptr(),
            weights.len(),
            input.as_ptr(),
            input.len(),
        )
    };
    let it = view;
    if it.status != 0 {
        let parts = [
            it.value_start,
            it.value_length,
            it.slot_start,
            it.slot_length,
        ];
        let others = [it.decision_start, it.decision_length, it.signers as usize];
        assert_eq!((parts, others, view.weight), ([0; 4], [0; 3], 0));
        return Err((NAMES[it.status as usize], 0, it.number));
    }
    assert_eq!(it.number, 0);
    Ok((it.value_start, it.signers as usize, view.weight))
}

#[test]
fn certificates_are_checked_as_by_the_naive_check() {
    let mut random = Random(0xC4EC6);
    let mut seen = Reasons::new();
    for _ in 0..CASES {
        let items = some_weights(&mut random);
        let bytes = some_certificate(&mut random, items.len());
        for k in [1, 2, 3, 5, 9] {
            let plain = plain_check(k, &items, &bytes);
            let said = checked_raw(k, &items, &bytes);
            let short = plain.map(|it| (it.1, it.2));
            let case = || format!("{k} {items:?} {bytes:02x?}");
            assert_eq!(said.map(|it| (it.1, u128::from(it.2))), short, "{}", case());
            note(&mut seen, &plain);
            let Some(model) = FaultModel::new(k) else {
                assert_eq!(plain, Err(("no model", 0, 0)));
                continue;
            };
            let weights = match weights_of(&items) {
                Ok(weights) => weights,
                Err(reason) => {
                    assert_eq!(plain, Err(reason));
                    continue;
                }
            };
            let ours = weighted_check_encoded(model, &weights, &bytes);
            if let Ok(certificate) = Certificate::decode(&bytes) {
                assert_eq!(weighted_check(model, &weights, &certificate), ours);
            }
            let parts = ours.map(|it| (it.value(), it.signer_count() as usize, it.weight().into()));
            assert_eq!(parts.map_err(of_check), plain, "{}", case());
            if let Ok(ours) = ours {
                let slot = slot_of(ours.value());
                assert_eq!((ours.slot(), ours.decision()), slot.unzip(), "{}", case());
            }
        }
    }
    // That the weights are none, or have a 0, or overflow; no model; four faults; and both others.
    assert_each(&seen, 11);
}

/// Names the members of two inputs by a library's function alone, with rooms that are just long
/// enough, too long, and too short.
fn named_raw(
    judge: raw::WeightedConflictCall,
    k: u32,
    weights: &[u64],
    [first, second]: [&[u8]; 2],
) -> Result<(Vec<u32>, u64), Reason> {
    let call = |room: &mut [u32]| {
        // SAFETY: each pointer and the length after it are those of one slice.
        let view = unsafe {
            judge(
                k,
                weights.as_ptr(),
                weights.len(),
                first.as_ptr(),
                first.len(),
                second.as_ptr(),
                second.len(),
                room.as_mut_ptr(),
                room.len(),
            )
        };
        (view, view.weight)
    };
    let mut room = [u32::MAX; 20];
    let (said, weight) = call(&mut room);
    if said.status != 0 {
        assert_eq!((said.count, weight, room), (0, 0, [u32::MAX; 20]));
        return Err((NAMES[said.status as usize], said.which, said.number));
    }
    let count = said.count;
    assert_eq!((said.which, said.number), (0, 0));
    assert!(room[count..].iter().all(|place| *place == u32::MAX));
    let named = room[..count].to_vec();
    room = [u32::MAX; 20];
    assert_eq!(
        (call(&mut room[..count]).0.status, &room[..count]),
        (0, &named[..])
    );
    room = [u32::MAX; 20];
    for length in 0..count {
        let (short, weight) = call(&mut room[..length]);
        let status = NAMES[short.status as usize];
        assert_eq!((status, short.which, short.number), ("room", 0, 0));
        assert_eq!((short.count, weight, room), (count, 0, [u32::MAX; 20]));
    }
    Ok((named, weight))
}

/// The members that are named, and what they weigh, where the plain search has them so too.
fn in_short(ours: Result<Named, Reason>) -> Result<(Vec<u32>, u128), Reason> {
    ours.map(|it| (it.members, it.weight.into()))
}

/// Those that are named weigh more than may be faulty: at least (k - 2)f + 1.
fn assert_accountable(model: FaultModel, weights: &Weights<'_>, weight: u128) {
    let f = u128::from(weights.max_faulty_weight(model));
    assert!(weight > u128::from(model.k() - 2) * f);
    let total = u128::from(weights.total());
    assert!(total <= 2 * f + weight);
}

#[test]
fn conflicts_are_those_of_the_naive_search() {
    let mut random = Random(0xC0F11C7);
    let mut seen = Reasons::new();
    for _ in 0..CASES {
        let items = some_weights(&mut random);
        let bytes = [0, 1].map(|_| some_certificate(&mut random, items.len()));
        let inputs = [&bytes[0][..], &bytes[1]];
        for k in [1, 2, 3, 5] {
            let plain = plain_both(k, &items, inputs, false);
            let said = named_raw(raw::commonware_weighted_conflict, k, &items, inputs);
            let said = said.map(|it| (it.0, u128::from(it.1)));
            assert_eq!(said, plain, "{k} {items:?} {bytes:02x?}");
            note(&mut seen, &plain);
            let (Some(model), Ok(weights)) = (FaultModel::new(k), weights_of(&items)) else {
                continue;
            };
            let ours = weighted_conflict_encoded(model, &weights, inputs[0], inputs[1]);
            let parts = (
                Certificate::decode(inputs[0]),
                Certificate::decode(inputs[1]),
            );
            if let (Ok(first), Ok(second)) = parts {
                assert_eq!(weighted_conflict(model, &weights, &first, &second), ours);
            }
            assert_eq!(in_short(ours.map_err(of_conflict)), plain);
            if let Ok((_, weight)) = plain {
                assert_accountable(model, &weights, weight);
            }
        }
    }
    // Four faults, a signer that is no member and too little weight, of each; one value; that the
    // weights are none, or have a 0, or overflow; no model; and those that are named.
    assert_each(&seen, 18);
}

#[test]
fn equivocations_are_those_of_the_naive_search() {
    let mut random = Random(0xE9017);
    let mut seen = Reasons::new();
    for _ in 0..CASES {
        let items = some_weights(&mut random);
        let bytes = [0, 1].map(|_| some_certificate(&mut random, items.len()));
        let inputs = [&bytes[0][..], &bytes[1]];
        for k in [1, 2, 3, 5] {
            let plain = plain_both(k, &items, inputs, true);
            let said = named_raw(raw::commonware_weighted_equivocation, k, &items, inputs);
            let said = said.map(|it| (it.0, u128::from(it.1)));
            assert_eq!(said, plain, "{k} {items:?} {bytes:02x?}");
            note(&mut seen, &plain);
            let (Some(model), Ok(weights)) = (FaultModel::new(k), weights_of(&items)) else {
                continue;
            };
            let ours = weighted_equivocation_encoded(model, &weights, inputs[0], inputs[1]);
            let parts = (
                Certificate::decode(inputs[0]),
                Certificate::decode(inputs[1]),
            );
            if let (Ok(first), Ok(second)) = parts {
                assert_eq!(
                    weighted_equivocation(model, &weights, &first, &second),
                    ours
                );
            }
            assert_eq!(in_short(ours.map_err(of_equivocation)), plain);
            if let Ok((_, weight)) = plain {
                assert_accountable(model, &weights, weight);
            }
        }
    }
    // Two values without a slot and two slots are more than of conflicts.
    assert_each(&seen, 21);
}

/// Weights of which the first 65,536 are 1 and the others 1,000: 4,529,536 in all. At a k of 3
/// 1,509,845 are tolerated, and a quorum weighs 3,019,691.
fn late() -> Vec<u64> {
    let mut items = vec![1; 65_536];
    items.resize(70_000, 1_000);
    items
}

/// Returns a certificate that the members of a first range and of another one signed.
fn signed(decision: &[u8], first: std::ops::Range<u32>, others: std::ops::Range<u32>) -> Vec<u8> {
    let value = slot_value(b"view 7", decision).expect("memory");
    let signers: Vec<u32> = first.chain(others).collect();
    Certificate::encode(&value, &signers).expect("memory")
}

#[test]
fn signers_past_two_bytes() {
    let items = late();
    let (weights, model) = (Weights::new(&items).expect("weights"), FaultModel::N3F1);
    assert_eq!(
        (weights.total(), weights.quorum_weight(model)),
        (4_529_536, 3_019_691)
    );
    let first = signed(b"A", 0..691, 65_536..68_555);
    let second = signed(b"B", 691..1_382, 66_981..70_000);
    let checked = weighted_check_encoded(model, &weights, &first).expect("a quorum");
    assert_eq!(
        (checked.signer_count(), checked.weight()),
        (3_710, 3_019_691)
    );
    let named = weighted_conflict_encoded(model, &weights, &first, &second).expect("a conflict");
    assert!(named.members.iter().copied().eq(66_981..68_555));
    assert_eq!(named.weight, 1_574_000);
    let guilty = weighted_equivocation_encoded(model, &weights, &first, &second);
    assert_eq!(guilty, Ok(named));
    // One light one less.
    let light = signed(b"B", 691..1_381, 66_981..70_000);
    let refused = weighted_check_encoded(model, &weights, &light);
    assert_eq!(refused, Err(WeightedCheckError::TooLight));
    let refused = weighted_conflict_encoded(model, &weights, &first, &light);
    assert_eq!(refused, Err(WeightedConflictError::TooLight(Which::Second)));
    // The index after the last.
    let stranger = signed(b"B", 691..1_382, 66_981..70_001);
    let refused = weighted_check_encoded(model, &weights, &stranger);
    assert_eq!(refused, Err(WeightedCheckError::Outside));
    let refused = weighted_equivocation_encoded(model, &weights, &stranger, &first);
    assert_eq!(
        refused,
        Err(WeightedEquivocationError::Outside(Which::First))
    );
}

#[test]
fn each_number_of_those_named_about_a_first_room() {
    // All members sign twice, of whom the first weighs more than the others together.
    for others in [0, 1, 126, 127, 128, 129, 300, 5_000u32] {
        let mut items = vec![1; others as usize];
        items.insert(0, u64::from(others) + 1);
        let weights = Weights::new(&items).expect("weights");
        let [first, second] = [b"A", b"B"].map(|it| signed(it, 0..1, 1..others + 1));
        let named = weighted_conflict_encoded(FaultModel::N5F1, &weights, &first, &second);
        let named = named.expect("a conflict");
        assert!(named.members.iter().copied().eq(0..others + 1), "{others}");
        assert_eq!(named.weight, weights.total(), "{others}");
    }
}

#[test]
fn signers_that_weigh_all_of_64_bits() {
    // At a k of 3 of 2^64 - 1 in all 6,148,914,691,236,517,204 are tolerated.
    let quorum = 12_297_829_382_473_034_411;
    let rows = [
        ([quorum, 6_148_914_691_236_517_204], Ok(quorum)),
        (
            [quorum - 1, 6_148_914_691_236_517_205],
            Err(WeightedCheckError::TooLight),
        ),
        ([u64::MAX - 1, 1], Ok(u64::MAX - 1)),
    ];
    let (one, both) = (signed(b"A", 0..1, 0..0), signed(b"B", 0..1, 1..2));
    for (items, wanted) in rows {
        let (weights, model) = (Weights::new(&items).expect("weights"), FaultModel::N3F1);
        let checked = weighted_check_encoded(model, &weights, &one);
        assert_eq!(checked.map(|it| it.weight()), wanted, "{items:?}");
        let checked = weighted_check_encoded(model, &weights, &both);
        assert_eq!(checked.map(|it| it.weight()), Ok(u64::MAX), "{items:?}");
        let named = weighted_conflict_encoded(model, &weights, &both, &one);
        let light = WeightedConflictError::TooLight(Which::Second);
        let wanted = wanted.map_err(|_| light);
        assert_eq!(named.map(|it| it.weight), wanted, "{items:?}");
    }
}
