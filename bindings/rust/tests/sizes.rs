//! Every call with ample memory at small sizes, each of them, and at sizes past every buffer: none
//! is refused for memory. The other tests draw at random, and few of their inputs are as long.

#[path = "common/naive.rs"]
mod naive;

use commonware_proved::{
    Certificate, CertificateLimits, Committee, ConflictError, FaultModel, Member, Refusal, Which,
    conflict_encoded,
};
use naive::{accused, certificate_bytes, committee_bytes, encode_parts, read_members};

/// The most keys, signers or members that are tried one by one.
const EACH: u32 = 300;

/// Lengths of a value: about those of varints of one, two and three bytes, and past every buffer.
const LENGTHS: [usize; 12] = [
    0, 1, 127, 128, 300, 400, 5_000, 16_383, 16_384, 70_000, 1_000_000, 2_097_152,
];

/// Returns a value whose bytes differ, and whose last byte is this one.
fn value_of(length: usize, last: u8) -> Vec<u8> {
    let mut value: Vec<u8> = (0..length).map(|i| (i % 251) as u8).collect();
    if let Some(byte) = value.last_mut() {
        *byte = last;
    }
    value
}

/// Returns this number of keys, the greatest first.
fn keys_of(count: u32) -> Vec<Member> {
    (0..count)
        .rev()
        .map(|i| {
            let mut key = [0x5a; 32];
            key[14..18].copy_from_slice(&i.to_be_bytes());
            key
        })
        .collect()
}

#[test]
fn committees_of_each_number_of_keys_go_both_ways() {
    for count in (0..=EACH).chain([1_000, 5_000, 65_536, 70_000]) {
        let mut keys = keys_of(count);
        let bytes = Committee::encode_dedup(&keys);
        keys.reverse();
        assert_eq!(bytes.as_ref(), Ok(&committee_bytes(&keys)), "{count}");
        let bytes = bytes.unwrap();
        let (committee, rest) = Committee::read(&bytes, 0..=70_000).expect("it is read");
        assert_eq!((committee.members(), rest), (&keys[..], &[][..]), "{count}");
        assert_eq!(
            read_members(&bytes, 0, usize::MAX),
            Ok((keys.clone(), &[][..]))
        );
        let places = keys.iter().map(|key| committee.position(key));
        assert!(places.eq((0..keys.len()).map(Some)), "{count}");
    }
}

/// The certificate is written, and read with bytes after it. It is refused as a whole input then,
/// and where its last byte is missing.
fn goes_both_ways(value: &[u8], signers: &[u32]) {
    let case = (value.len(), signers.len());
    let written = Certificate::encode(value, signers);
    assert!(written == encode_parts(value, signers), "{case:?}");
    let mut bytes = written.expect("it is written");
    bytes.extend([7; 3]);
    let limits = CertificateLimits {
        value_bytes: value.len(),
        signers: signers.len(),
    };
    let (read, rest) = Certificate::read(&bytes, limits).expect("it is read");
    assert!(
        read.value() == value && read.signers() == signers,
        "{case:?}"
    );
    assert_eq!(rest, [7; 3], "{case:?}");
    let whole = Certificate::try_from(&bytes[..]);
    assert_eq!(whole.err(), Some(Refusal::LeftOver(3)), "{case:?}");
    let shorter = &bytes[..bytes.len() - 4];
    let refused = Certificate::read(shorter, CertificateLimits::NONE);
    assert_eq!(refused.err(), Some(Refusal::EndOfInput), "{case:?}");
}

#[test]
fn certificates_of_each_size_go_both_ways() {
    for count in 0..=EACH {
        let signers: Vec<u32> = (0..count).map(|i| i * 37).collect();
        goes_both_ways(&value_of(count as usize, 9), &signers);
        goes_both_ways(&value_of(count as usize, 9), &[0, u32::MAX]);
        goes_both_ways(b"x", &signers);
    }
    let signers: Vec<u32> = (0..70_000).map(|i| i * 61_356).collect();
    for length in LENGTHS {
        for count in [0, 1, 4, 100, 300, 400, 5_000, 70_000] {
            goes_both_ways(&value_of(length, 9), &signers[..count]);
        }
    }
}

/// Returns the encodings of two certificates that the first and the last `quorum` of the members
/// signed, for values of this length that differ at their end.
fn two_quorums(length: usize, members: u32, quorum: u32) -> [Vec<u8>; 2] {
    let signers = [0..quorum, members - quorum..members].map(Vec::from_iter);
    [(length, 1, &signers[0]), (length.max(1), 2, &signers[1])]
        .map(|(length, last, signers)| certificate_bytes(&value_of(length, last), signers))
}

/// In a committee of these members two quorums name those that signed both: by n - f from either
/// end, the n - 2f between. Certificates that name no one are refused for their reason.
fn names_those_of_both(k: u32, members: u32, length: usize) {
    let case = (k, members, length);
    let model = FaultModel::new(k).unwrap();
    let f = (members - 1) / k;
    let [first, second] = two_quorums(length, members, members - f);
    let both = conflict_encoded(model, members, &first, &second);
    assert_eq!(both, Ok((f..members - f).collect()), "{case:?}");
    assert_eq!(model.max_faults(members), Some(f), "{case:?}");

    let refused = [
        (&first, &first, ConflictError::SameValue),
        (
            &first,
            &two_quorums(length, members + 1, members)[1],
            ConflictError::Outside(Which::Second),
        ),
        (
            &first,
            &two_quorums(length, members, members - f - 1)[1],
            ConflictError::TooFew(Which::Second),
        ),
    ];
    for (first, second, error) in refused {
        assert_eq!(
            conflict_encoded(model, members, first, second),
            Err(error),
            "{case:?}"
        );
        assert_eq!(accused(k, members, first, second), Err(error), "{case:?}");
    }
    let shorter = &second[..second.len() - 1];
    let ends = Err(ConflictError::Input(Which::Second, Refusal::EndOfInput));
    assert_eq!(
        conflict_encoded(model, members, &first, shorter),
        ends,
        "{case:?}"
    );
}

#[test]
fn conflicts_at_each_number_of_members_and_each_k_are_named() {
    for members in 1..=EACH {
        for k in 2..=20 {
            names_those_of_both(k, members, members as usize);
        }
    }
}

#[test]
fn conflicts_about_values_of_each_length_are_named() {
    for k in 2..=20 {
        for length in LENGTHS {
            for members in [1, 4, 100, 256, 5_000] {
                names_those_of_both(k, members, length);
            }
        }
    }
    names_those_of_both(3, 70_000, 1_000_000);
}

#[test]
fn each_proper_prefix_ends_too_soon() {
    let signers: Vec<u32> = (0..EACH).collect();
    let certificates =
        [1, 2].map(|last| Certificate::encode(&value_of(400, last), &signers).unwrap());
    let [first, second] = &certificates;
    for end in 0..second.len() {
        let prefix = &second[..end];
        let ends = Refusal::EndOfInput;
        assert_eq!(Certificate::try_from(prefix), Err(ends), "{end}");
        let refused = conflict_encoded(FaultModel::N3F1, EACH, first, prefix);
        assert_eq!(
            refused,
            Err(ConflictError::Input(Which::Second, ends)),
            "{end}"
        );
        let refused = conflict_encoded(FaultModel::N3F1, EACH, prefix, first);
        assert_eq!(
            refused,
            Err(ConflictError::Input(Which::First, ends)),
            "{end}"
        );
    }
    let committee = Committee::encode_dedup(&keys_of(EACH)).unwrap();
    for end in 0..committee.len() {
        let refused = Committee::try_from(&committee[..end]);
        assert_eq!(refused, Err(Refusal::EndOfInput), "{end}");
    }
}
