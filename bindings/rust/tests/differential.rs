//! The library beside a naive implementation: 100,000 random cases of each call and more.

#[allow(dead_code, reason = "the other tests use the rest")]
mod common;

use common::committee_of;
use common::naive::{
    accused, certificate_bytes, committee_bytes, encode_parts, read_members, read_parts,
};
use common::random::{Random, some_keys, some_parts, spoil};
use common::seen::{Seen, name};
use commonware_proved::{
    Certificate, CertificateLimits, Committee, ConflictError, FaultModel, Member, Refusal, Which,
    conflict, conflict_encoded,
};
use std::collections::BTreeSet;

const CASES: usize = 100_000;

/// Returns the keys sorted, each once.
fn sorted(keys: &[Member]) -> Vec<Member> {
    keys.iter()
        .copied()
        .collect::<BTreeSet<_>>()
        .into_iter()
        .collect()
}

#[test]
fn committees_are_read_as_by_the_naive_reader() {
    let mut random = Random(0x9E37_79B9_7F4A_7C15);
    let mut seen = Seen::default();
    for _ in 0..2 * CASES {
        let mut keys = some_keys(&mut random);
        if random.below(3) > 0 {
            keys = sorted(&keys);
        }
        let mut bytes = committee_bytes(&keys);
        spoil(&mut random, &mut bytes);
        let (least, most) = match random.below(4) {
            0 => (0, usize::MAX),
            1 => (random.below(9), random.below(9)),
            _ => (1, 256),
        };
        let ours = Committee::read(&bytes, least..=most);
        let naive = read_members(&bytes, least, most);
        match (&ours, &naive) {
            (Ok((committee, rest)), Ok((members, left))) => {
                assert_eq!(committee.members(), members);
                assert_eq!(committee.as_bytes(), committee_bytes(members));
                assert_eq!(committee.key_bytes(), members.as_flattened());
                assert_eq!(rest, left);
                seen.note("ok");
            }
            (Err(ours), Err(naive)) => {
                assert_eq!(ours, naive, "{bytes:02x?} {least} {most}");
                seen.note(name(ours));
            }
            _ => panic!("{ours:?} {naive:?} {bytes:02x?} {least} {most}"),
        }
    }
    seen.assert_each(5, 1_000);
}

#[test]
fn committees_are_written_sorted_and_each_once() {
    let mut random = Random(7);
    for _ in 0..CASES {
        let keys = some_keys(&mut random);
        assert_eq!(
            Committee::encode_dedup(&keys),
            Ok(committee_bytes(&sorted(&keys)))
        );
    }
}

#[test]
fn large_committees_go_both_ways() {
    for count in [127, 128, 129, 5_000, 70_000] {
        let keys: Vec<Member> = (0..count as u64)
            .map(|i| {
                let mut key = [0; 32];
                key[..8].copy_from_slice(&(i * i % 60_013).to_le_bytes());
                key[24..].copy_from_slice(&(i % 5).to_be_bytes());
                key
            })
            .collect();
        let bytes = committee_bytes(&sorted(&keys));
        assert_eq!(Committee::encode_dedup(&keys).as_ref(), Ok(&bytes));
        let committee = Committee::try_from(&bytes[..]).unwrap();
        for (i, key) in committee.iter().enumerate() {
            assert_eq!(committee.position(key), Some(i));
        }
    }
}

#[test]
fn keys_are_found_as_by_a_walk() {
    let mut random = Random(0xFEED);
    let mut seen = Seen::default();
    for _ in 0..CASES {
        let mut keys = some_keys(&mut random);
        keys.extend(some_keys(&mut random));
        let bytes = committee_bytes(&sorted(&keys));
        let committee = Committee::try_from(&bytes[..]).unwrap();
        for key in some_keys(&mut random) {
            let walked = committee.iter().position(|member| *member == key);
            assert_eq!(committee.position(&key), walked, "{keys:?} {key:?}");
            assert_eq!(committee.contains(&key), walked.is_some());
            let found = walked.and_then(|index| committee.get(index));
            assert_eq!(found, walked.map(|_| &key));
            seen.note(if walked.is_some() { "found" } else { "absent" });
        }
    }
    seen.assert_each(2, CASES / 10);
}

#[test]
fn certificates_are_read_as_by_the_naive_reader() {
    let mut random = Random(99);
    let mut seen = Seen::default();
    for _ in 0..CASES {
        let members = random.below(200);
        let (value, signers) = some_parts(&mut random, members);
        let mut bytes = certificate_bytes(&value, &signers);
        spoil(&mut random, &mut bytes);
        let (most_bytes, most_signers) = match random.below(3) {
            0 => (usize::MAX, usize::MAX),
            1 => (random.below(3), random.below(100)),
            _ => (32, 256),
        };
        let limits = CertificateLimits {
            value_bytes: most_bytes,
            signers: most_signers,
        };
        let ours = Certificate::read(&bytes, limits);
        let naive = read_parts(&bytes, most_bytes, most_signers);
        match (ours, naive) {
            (Ok((certificate, rest)), Ok((value, signers, left))) => {
                assert_eq!(certificate.value(), value);
                assert_eq!(certificate.signers(), signers);
                assert_eq!(certificate.as_bytes(), certificate_bytes(value, &signers));
                assert_eq!(certificate.into_signers(), signers);
                assert_eq!(rest, left);
                seen.note("ok");
            }
            (Err(ours), Err(naive)) => {
                assert_eq!(ours, naive, "{bytes:02x?}");
                seen.note(name(&ours));
            }
            (ours, naive) => panic!("{ours:?} {naive:?} {bytes:02x?}"),
        }
    }
    seen.assert_each(5, 500);
}

#[test]
fn certificates_are_written_as_by_the_naive_writer() {
    let mut random = Random(4);
    let mut seen = Seen::default();
    for _ in 0..CASES {
        let members = random.below(30);
        let (value, mut signers) = some_parts(&mut random, members);
        for signer in &mut signers {
            // Indices of each size.
            *signer = signer.wrapping_mul(1 << [0, 3, 10, 17, 25][random.below(5)]);
        }
        let ours = Certificate::encode(&value, &signers);
        assert_eq!(ours, encode_parts(&value, &signers), "{signers:?}");
        seen.note(if ours.is_ok() { "ok" } else { "strict" });
    }
    seen.assert_each(2, 1_000);
}

#[test]
fn certificates_go_both_ways() {
    let mut random = Random(5);
    for _ in 0..CASES {
        let value: Vec<u8> = (0..random.below(300))
            .map(|_| random.next() as u8)
            .collect();
        let signers: BTreeSet<u32> = (0..random.below(40))
            .map(|_| (random.next() >> (32 + random.below(32))) as u32)
            .collect();
        let signers: Vec<u32> = signers.into_iter().collect();
        let bytes = Certificate::encode(&value, &signers).unwrap();
        let certificate = Certificate::try_from(&bytes[..]).unwrap();
        assert_eq!(
            (certificate.value(), certificate.signers()),
            (&value[..], &signers[..])
        );
    }
}

#[test]
fn many_signers_conflict() {
    for count in [127, 128, 5_000, 70_000u32] {
        let signers: [Vec<u32>; 2] = [(0..count).collect(), (1..=count).collect()];
        let inputs = [0, 1].map(|i| Certificate::encode(&[i as u8], &signers[i]).unwrap());
        let certificate = Certificate::try_from(&inputs[1][..]).unwrap();
        assert_eq!(certificate.signers(), signers[1]);
        let both = conflict_encoded(FaultModel::N5F1, count + 1, &inputs[0], &inputs[1]).unwrap();
        assert_eq!(both, signers[1][..count as usize - 1]);
    }
}

/// Returns the conflict of two certificates once they are read, where they are, with others after
/// them.
fn conflict_of_read(
    model: FaultModel,
    committee: &Committee<'_>,
    pair: &[Vec<u8>; 2],
) -> Option<Result<Vec<u32>, ConflictError>> {
    let longer = pair.each_ref().map(|bytes| [bytes, &[7, 7][..]].concat());
    let [first, second] = [0, 1].map(|i| Certificate::read(&longer[i], CertificateLimits::NONE));
    let ((first, more), (second, others)) = (first.ok()?, second.ok()?);
    let is_one = more == [7, 7] && others == [7, 7];
    is_one.then(|| conflict(model, committee, &first, &second))
}

#[test]
fn conflicts_are_those_of_the_naive_search() {
    let mut random = Random(0xABCDEF);
    let mut seen = Seen::default();
    let committees: Vec<_> = (0..24).map(committee_of).collect();
    for _ in 0..CASES {
        let members = random.below(24);
        let mut pair = [0, 1].map(|_| {
            let (value, signers) = some_parts(&mut random, members);
            certificate_bytes(&value, &signers)
        });
        if random.below(6) == 0 {
            let which = random.below(2);
            spoil(&mut random, &mut pair[which]);
        }
        for k in [2, 3, 4, 5, 7] {
            let model = FaultModel::new(k).unwrap();
            let ours = conflict_encoded(model, members as u32, &pair[0], &pair[1]);
            assert_eq!(
                ours,
                accused(k, members as u32, &pair[0], &pair[1]),
                "{members} {pair:02x?}"
            );
            let committee = committees[members].as_view();
            match conflict_of_read(model, &committee, &pair) {
                Some(typed) => assert_eq!(typed, ours, "{members} {pair:02x?}"),
                None => seen.note("unread"),
            }
            if let Ok(accused) = &ours {
                let f = model.max_faults(members as u32).unwrap();
                let smaller = committee.smaller_quorum(model);
                assert_eq!(
                    (committee.max_faults(model), smaller),
                    (Some(f), Some(2 * f + 1))
                );
                assert!(accused.len() > ((k - 2) * f) as usize);
            }
            seen.note(match ours {
                Ok(_) => "ok",
                Err(ConflictError::Input(Which::First, _)) => "first",
                Err(ConflictError::Input(Which::Second, _)) => "second",
                Err(ConflictError::NoMembers) => "none",
                Err(ConflictError::SameValue) => "same",
                Err(ConflictError::Outside(Which::First)) => "first outside",
                Err(ConflictError::Outside(Which::Second)) => "second outside",
                Err(ConflictError::TooFew(Which::First)) => "first few",
                Err(ConflictError::TooFew(Which::Second)) => "second few",
                Err(other) => panic!("{other}"),
            });
        }
    }
    seen.assert_each(10, 200);
}

#[test]
fn fault_numbers_are_the_formulas() {
    let mut random = Random(3);
    let edges = [1, 2, 3, 4, 5, 6, 7, 10, 11, 100, u32::MAX - 1, u32::MAX];
    let numbers = (0..CASES).map(|_| (random.next() as u32).max(1));
    for n in edges.into_iter().chain(numbers) {
        for k in [2, 3, 4, 5, 7, 100, u32::MAX] {
            let model = FaultModel::new(k).unwrap();
            let f = (n - 1) / k;
            assert_eq!(model.max_faults(n), Some(f));
            assert_eq!(model.quorum(n), Some(n - f));
            assert_eq!(model.smaller_quorum(n), Some(2 * f + 1));
        }
    }
    assert_eq!(FaultModel::N3F1.max_faults(0), None);
    assert_eq!(FaultModel::N5F1.quorum(0), None);
    assert_eq!(FaultModel::N5F1.smaller_quorum(0), None);
    assert_eq!([0, 1].map(FaultModel::new), [None; 2]);
}

#[test]
fn quorums_share_what_the_theorem_says() {
    // Every pair of subsets of up to 10 participants, counted.
    for n in 1..=10u32 {
        for k in 2..=6 {
            let model = FaultModel::new(k).unwrap();
            let (f, q) = (model.max_faults(n).unwrap(), model.quorum(n).unwrap());
            let quorums: Vec<u32> = (0u32..1 << n).filter(|set| set.count_ones() == q).collect();
            let shared = quorums
                .iter()
                .flat_map(|a| quorums.iter().map(move |b| (a & b).count_ones()))
                .min()
                .unwrap();
            assert!(shared > (k - 2) * f, "{n} {k}");
            // With one fault more they would share too few.
            assert!(
                n < 2 * (f + 1) || n - 2 * (f + 1) < (k - 2) * (f + 1) + 1,
                "{n} {k}"
            );
        }
    }
}

#[test]
fn eight_threads_call_at_once() {
    let keys: Vec<Member> = (0..100u8).rev().map(|i| [i; 32]).collect();
    let bytes = Committee::encode_dedup(&keys).unwrap();
    let signers: Vec<u32> = (0..80).collect();
    let inputs = [b"a", b"b"].map(|value| Certificate::encode(value, &signers).unwrap());
    std::thread::scope(|scope| {
        for _ in 0..8 {
            scope.spawn(|| {
                for _ in 0..2_000 {
                    let committee = Committee::try_from(&bytes[..]).unwrap();
                    assert_eq!(committee.position(&[77; 32]), Some(77));
                    assert_eq!(Committee::encode_dedup(&keys).as_ref(), Ok(&bytes));
                    let both = conflict_encoded(FaultModel::N3F1, 100, &inputs[0], &inputs[1]);
                    assert_eq!(both.as_ref(), Ok(&signers));
                }
            });
        }
    });
}

#[test]
fn an_empty_input_ends_too_soon() {
    assert_eq!(Committee::read(&[], 0..=9), Err(Refusal::EndOfInput));
    assert_eq!(Certificate::try_from(&[][..]), Err(Refusal::EndOfInput));
    assert_eq!(Committee::encode_dedup(&[]), Ok(vec![0]));
    assert_eq!(Certificate::encode(&[], &[]), Ok(vec![0, 0]));
    let refused = conflict_encoded(FaultModel::N3F1, 1, &[], &[]);
    assert_eq!(
        refused,
        Err(ConflictError::Input(Which::First, Refusal::EndOfInput))
    );
}

#[test]
fn no_number_is_in_a_range_that_is_reversed() {
    #[allow(clippy::reversed_empty_ranges)]
    let reversed = Committee::read(&[0], 2..=1);
    assert_eq!(reversed, Err(Refusal::InvalidLength(0)));
}

#[test]
fn bytes_left_over_are_counted() {
    assert_eq!(
        Committee::try_from(&[0, 1, 2][..]),
        Err(Refusal::LeftOver(2))
    );
    assert_eq!(
        Certificate::try_from(&[0, 0, 9][..]),
        Err(Refusal::LeftOver(1))
    );
    let second = conflict_encoded(FaultModel::N3F1, 1, &[0, 1, 0], &[1, 7, 1, 0, 9]);
    assert_eq!(
        second,
        Err(ConflictError::Input(Which::Second, Refusal::LeftOver(1)))
    );
}
