//! What of the surface is no call of the library: texts, orders, conversions and versions.

#[allow(dead_code, reason = "the crate calls the rest")]
#[path = "../src/raw.rs"]
mod raw;

use commonware_proved::{
    BiMapBuf, BiMapError, BiMapView, Certificate, CertificateBuf, CertificateLimits, CheckError,
    Checked, Committee, CommitteeBuf, ConflictError, EncodeError, EquivocationError, FaultModel,
    Items, MEMBER_SIZE, MapBuf, MapView, Named, Pairs, Refusal, Set, SetBuf, SetView, Version,
    WeightedCheckError, WeightedChecked, WeightedConflictError, WeightedEquivocationError, Weights,
    WeightsError, Which, check_encoded, version, weighted_check_encoded, weighted_conflict_encoded,
};
use std::collections::HashSet;
use std::error::Error;
use std::fmt::{Debug, Display};
use std::hash::Hash;
use std::iter::FusedIterator;

#[test]
fn keys_and_values_are_printed_in_hexadecimal() {
    let committee = [&[2][..], &[1; 32], &[0xfa; 32]].concat();
    let printed = format!("([\"{}\", \"{}\"])", "01".repeat(32), "fa".repeat(32));
    let committee = Committee::decode(&committee).expect("a committee");
    assert_eq!(format!("{committee:?}"), format!("Committee{printed}"));
    let owned = committee.to_buf();
    assert_eq!(format!("{owned:?}"), format!("CommitteeBuf{printed}"));

    let set = SetView::decode(2, &[2, 0, 5, 0xa0, 8]).expect("a set");
    let printed = r#"(["0005", "a008"])"#;
    assert_eq!(format!("{set:?}"), format!("SetView{printed}"));
    assert_eq!(
        format!("{:?}", set.as_set::<2>()),
        format!("Some(Set{printed})")
    );
    assert_eq!(format!("{:?}", set.to_buf()), format!("SetBuf{printed}"));
    assert_eq!(format!("{:?}", set.iter()), format!("Items{printed}"));
    let lines = "SetView(\n    [\n        \"0005\",\n        \"a008\",\n    ],\n)";
    assert_eq!(format!("{set:#?}"), lines);

    let bimap = BiMapView::decode(1, 2, &[2, 5, 7, 2, 0, 60, 255, 16]).expect("a bimap");
    let (map, printed) = (bimap.as_map(), r#"({"05": "003c", "07": "ff10"})"#);
    assert_eq!(format!("{map:?}"), format!("MapView{printed}"));
    assert_eq!(format!("{bimap:?}"), format!("BiMapView{printed}"));
    assert_eq!(format!("{:?}", map.to_buf()), format!("MapBuf{printed}"));
    assert_eq!(
        format!("{:?}", bimap.to_buf()),
        format!("BiMapBuf{printed}")
    );
    assert_eq!(format!("{:?}", map.iter()), format!("Pairs{printed}"));
}

#[test]
fn what_has_no_bytes_is_printed_too() {
    let none = SetView::decode(9, &[0]).expect("a set");
    assert_eq!(format!("{none:?}"), "SetView([])");
    let one = MapView::decode(0, 0, &[1, 1]).expect("a map");
    assert_eq!(format!("{one:?}"), r#"MapView({"": ""})"#);
    let mut walked = one.iter();
    assert_eq!(walked.by_ref().count(), 1);
    assert_eq!(format!("{walked:?}"), "Pairs({})");
}

#[test]
fn values_of_certificates_are_printed_in_hexadecimal() {
    let bytes = [3, 1, 0x0a, 0xb0, 2, 0, 200, 1];
    let certificate = Certificate::decode(&bytes).expect("a certificate");
    let printed = r#" { value: "010ab0", signers: [0, 200] }"#;
    assert_eq!(format!("{certificate:?}"), format!("Certificate{printed}"));
    let owned = certificate.to_buf();
    assert_eq!(format!("{owned:?}"), format!("CertificateBuf{printed}"));
    let checked = check_encoded(FaultModel::N3F1, 1, &[3, 1, 0x0a, 0xb0, 1, 0]).expect("a quorum");
    let parts = r#"value: "010ab0", slot: Some("0a"), decision: Some("b0")"#;
    let printed = format!("Checked {{ {parts}, signer_count: 1 }}");
    assert_eq!(format!("{checked:?}"), printed);
    let slotless = check_encoded(FaultModel::N3F1, 1, &[0, 1, 0]).expect("a quorum");
    let parts = r#"value: "", slot: None, decision: None"#;
    let printed = format!("Checked {{ {parts}, signer_count: 1 }}");
    assert_eq!(format!("{slotless:?}"), printed);
}

/// The error has this text, and another one as its source or none.
fn says(error: impl Error, text: &str, source: Option<&str>) {
    assert_eq!(error.to_string(), text);
    let inner = error.source().map(|inner| inner.to_string());
    assert_eq!(inner.as_deref(), source, "{text}");
}

#[test]
fn each_refusal_has_a_text_and_no_source() {
    says(Refusal::EndOfInput, "unexpected end of input", None);
    says(Refusal::InvalidVarint, "invalid varint", None);
    says(Refusal::InvalidLength(7), "length 7 is out of range", None);
    says(Refusal::NotStrict, "items must be sorted and unique", None);
    says(Refusal::LeftOver(2), "2 bytes left over", None);
    says(Refusal::Memory, "out of memory", None);
    let repeated = BiMapError::Repeated {
        first: 1,
        second: 4,
    };
    says(repeated, "pairs 1 and 4 have the same value", None);
}

#[test]
fn each_error_of_a_writer_has_a_text_and_no_source() {
    let place = "signer 3 isn't greater than the one before it";
    says(
        EncodeError::InvalidLength(7),
        "length 7 is past 4294967295",
        None,
    );
    says(EncodeError::NotStrict(3), place, None);
    says(EncodeError::NoSize, "keys of no bytes", None);
    says(
        EncodeError::NotWhole(2),
        "2 bytes after the last whole item",
        None,
    );
    let (index, length) = (3, 9);
    let key = EncodeError::KeySize { index, length };
    says(key, "key 3 has another size: 9 bytes", None);
    let value = EncodeError::ValueSize { index, length };
    says(value, "value 3 has another size: 9 bytes", None);
    let (first, second) = (1, 4);
    let key = EncodeError::RepeatedKey { first, second };
    says(key, "pairs 1 and 4 have the same key", None);
    let value = EncodeError::RepeatedValue { first, second };
    says(value, "pairs 1 and 4 have the same value", None);
    says(EncodeError::Memory, "out of memory", None);
}

#[test]
fn an_error_of_an_input_has_the_refusal_as_its_source() {
    for refusal in [Refusal::EndOfInput, Refusal::LeftOver(2), Refusal::Memory] {
        let inner = refusal.to_string();
        let inner = Some(&inner[..]);
        says(BiMapError::from(refusal), "the bimap can't be read", inner);
        says(
            CheckError::Input(refusal),
            "the certificate can't be read",
            inner,
        );
        let (first, second) = (
            "the first certificate can't be read",
            "the second certificate can't be read",
        );
        says(ConflictError::Input(Which::First, refusal), first, inner);
        says(ConflictError::Input(Which::Second, refusal), second, inner);
        says(
            EquivocationError::Input(Which::First, refusal),
            first,
            inner,
        );
        says(
            EquivocationError::Input(Which::Second, refusal),
            second,
            inner,
        );
    }
}

#[test]
fn each_reason_to_name_no_one_has_a_text_and_no_source() {
    let members = "the committee has no members";
    let outside = "a signer is no member of the committee";
    let few = "fewer signers than a quorum";
    says(CheckError::NoMembers, members, None);
    says(CheckError::Outside, outside, None);
    says(CheckError::TooFew, few, None);
    says(ConflictError::NoMembers, members, None);
    says(
        ConflictError::SameValue,
        "both certificates are for the same value",
        None,
    );
    says(ConflictError::Memory, "out of memory", None);
    says(EquivocationError::NoMembers, members, None);
    says(EquivocationError::OtherSlot, "two different slots", None);
    says(
        EquivocationError::SameDecision,
        "the same decision for the same slot",
        None,
    );
    says(EquivocationError::Memory, "out of memory", None);
}

#[test]
fn an_error_says_which_certificate_it_is_about() {
    for (which, word) in [(Which::First, "first"), (Which::Second, "second")] {
        assert_eq!(which.to_string(), word);
        let outside = format!("a signer of the {word} certificate is no member of the committee");
        let few = format!("fewer signers than a quorum in the {word} certificate");
        let slot = format!("the value of the {word} certificate has no slot");
        says(ConflictError::Outside(which), &outside, None);
        says(ConflictError::TooFew(which), &few, None);
        says(EquivocationError::Outside(which), &outside, None);
        says(EquivocationError::TooFew(which), &few, None);
        says(EquivocationError::NoSlot(which), &slot, None);
    }
}

#[test]
fn each_error_about_one_certificate_tells_it_alone() {
    for which in [Which::First, Which::Second] {
        let refused = ConflictError::Input(which, Refusal::EndOfInput);
        let errors = [
            refused,
            ConflictError::Outside(which),
            ConflictError::TooFew(which),
        ];
        assert_eq!(errors.map(|error| error.which()), [Some(which); 3]);
        let errors = [
            EquivocationError::Input(which, Refusal::EndOfInput),
            EquivocationError::NoSlot(which),
            EquivocationError::Outside(which),
            EquivocationError::TooFew(which),
        ];
        assert_eq!(errors.map(|error| error.which()), [Some(which); 4]);
    }
    let errors = [
        ConflictError::NoMembers,
        ConflictError::SameValue,
        ConflictError::Memory,
    ];
    assert_eq!(errors.map(|error| error.which()), [None; 3]);
    let errors = [
        EquivocationError::NoMembers,
        EquivocationError::OtherSlot,
        EquivocationError::SameDecision,
        EquivocationError::Memory,
    ];
    assert_eq!(errors.map(|error| error.which()), [None; 4]);
}

#[test]
fn errors_about_two_certificates_are_three_words_at_most() {
    let words = 3 * size_of::<usize>();
    assert!(size_of::<ConflictError>() <= words && size_of::<EquivocationError>() <= words);
    assert!(size_of::<WeightedConflictError>() <= words);
    assert!(size_of::<WeightedEquivocationError>() <= words);
}

#[test]
fn each_error_by_weight_has_a_text_and_its_source() {
    let inner = Some("unexpected end of input");
    let read = "the certificate can't be read";
    says(WeightedCheckError::Input(Refusal::EndOfInput), read, inner);
    let outside = "a signer is no member of the committee";
    says(WeightedCheckError::Outside, outside, None);
    let light = "the signers weigh less than a quorum";
    says(WeightedCheckError::TooLight, light, None);
    let same = "both certificates are for the same value";
    says(WeightedConflictError::SameValue, same, None);
    says(WeightedConflictError::Memory, "out of memory", None);
    let slots = "two different slots";
    says(WeightedEquivocationError::OtherSlot, slots, None);
    let same = "the same decision for the same slot";
    says(WeightedEquivocationError::SameDecision, same, None);
    says(WeightedEquivocationError::Memory, "out of memory", None);
    for (which, word) in [(Which::First, "first"), (Which::Second, "second")] {
        let read = format!("the {word} certificate can't be read");
        let refusal = Refusal::EndOfInput;
        says(WeightedConflictError::Input(which, refusal), &read, inner);
        let error = WeightedEquivocationError::Input(which, refusal);
        says(error, &read, inner);
        let outside = format!("a signer of the {word} certificate is no member of the committee");
        says(WeightedConflictError::Outside(which), &outside, None);
        says(WeightedEquivocationError::Outside(which), &outside, None);
        let light = format!("the signers of the {word} certificate weigh less than a quorum");
        says(WeightedConflictError::TooLight(which), &light, None);
        says(WeightedEquivocationError::TooLight(which), &light, None);
        let slot = format!("the value of the {word} certificate has no slot");
        says(WeightedEquivocationError::NoSlot(which), &slot, None);
    }
}

#[test]
fn each_error_by_weight_tells_the_certificate_that_it_is_about() {
    for which in [Which::First, Which::Second] {
        let errors = [
            WeightedConflictError::Input(which, Refusal::EndOfInput),
            WeightedConflictError::Outside(which),
            WeightedConflictError::TooLight(which),
        ];
        assert_eq!(errors.map(|error| error.which()), [Some(which); 3]);
        let errors = [
            WeightedEquivocationError::Input(which, Refusal::EndOfInput),
            WeightedEquivocationError::NoSlot(which),
            WeightedEquivocationError::Outside(which),
            WeightedEquivocationError::TooLight(which),
        ];
        assert_eq!(errors.map(|error| error.which()), [Some(which); 4]);
    }
    let errors = [
        WeightedConflictError::SameValue,
        WeightedConflictError::Memory,
    ];
    assert_eq!(errors.map(|error| error.which()), [None; 2]);
    let errors = [
        WeightedEquivocationError::OtherSlot,
        WeightedEquivocationError::SameDecision,
        WeightedEquivocationError::Memory,
    ];
    assert_eq!(errors.map(|error| error.which()), [None; 3]);
}

#[test]
fn each_error_of_weights_has_a_text_and_its_index() {
    says(WeightsError::Empty, "no weights", None);
    let many = "4294967296 weights are past 4294967295";
    says(WeightsError::TooMany(1 << 32), many, None);
    says(WeightsError::Zero(7), "weight 7 is 0", None);
    let past = "with weight 8 the sum is past 18446744073709551615";
    says(WeightsError::Overflow(8), past, None);
    let errors = [
        WeightsError::Empty,
        WeightsError::TooMany(9),
        WeightsError::Zero(7),
        WeightsError::Overflow(8),
    ];
    let indices = [None, None, Some(7), Some(8)];
    assert_eq!(errors.map(|error| error.index()), indices);
}

#[test]
fn weights_and_what_is_weighed_are_printed_and_compared() {
    let items = [40, 30, 20, 10];
    let weights = Weights::try_from(&items[..]).expect("weights");
    assert_eq!(format!("{weights:?}"), "Weights([40, 30, 20, 10])");
    let again: Vec<u64> = weights.into_iter().collect();
    assert!((&weights).into_iter().rev().eq([10, 20, 30, 40]));
    let same = Weights::new(&again).expect("weights");
    let other = Weights::new(&[30, 40, 20, 10]).expect("weights");
    differ(weights, same, other);
    let input = [3, 1, 0x0a, 0xb0, 2, 0, 1];
    let checked = weighted_check_encoded(FaultModel::N3F1, &weights, &input).expect("a quorum");
    let parts = r#"value: "010ab0", slot: Some("0a"), decision: Some("b0")"#;
    let printed = format!("WeightedChecked {{ {parts}, signer_count: 2, weight: 70 }}");
    assert_eq!(format!("{checked:?}"), printed);
    let second = [1, 9, 3, 0, 2, 3];
    let named = weighted_conflict_encoded(FaultModel::N3F1, &weights, &input, &second);
    let printed = "Named { members: [0], weight: 40 }";
    assert_eq!(format!("{:?}", named.expect("a conflict")), printed);
}

#[test]
fn fault_models_have_names_and_the_order_of_their_k() {
    let models = [2, 3, 4, 5, 6, u32::MAX].map(|k| FaultModel::new(k).expect("a model"));
    let names = models.map(|model| model.to_string());
    let expected = ["n >= 2f + 1", "N3f1", "n >= 4f + 1", "N5f1", "n >= 6f + 1"];
    assert_eq!(names[..5], expected);
    assert_eq!(names[5], "n >= 4294967295f + 1");
    assert!(models.is_sorted());
    let mut reversed = models;
    reversed.reverse();
    reversed.sort();
    assert_eq!(reversed, models);
    assert_eq!(models.iter().max(), Some(&models[5]));
}

#[test]
fn a_committee_and_a_set_of_its_size_are_made_of_each_other() {
    let bytes = [&[2][..], &[1; 32], &[2; 32], &[3]].concat();
    let (committee, rest) = Committee::read(&bytes, ..).expect("a committee");
    let set = Set::<MEMBER_SIZE>::from(committee);
    assert_eq!(Set::read(&bytes, ..), Ok((set, rest)));
    assert_eq!(Committee::from(set), committee);
    assert_eq!(
        (set.as_bytes(), set.keys()),
        (&bytes[..65], committee.members())
    );
    assert_eq!(
        SetView::from(set),
        SetView::decode(32, &bytes[..65]).expect("a set")
    );
    assert_eq!(
        Committee::try_from(&bytes[..65]),
        Committee::decode(&bytes[..65])
    );
    assert_eq!(Set::<32>::try_from(&bytes[..]), Set::decode(&bytes));
    assert_eq!(Set::<32>::decode(&bytes), Err(Refusal::LeftOver(1)));
    assert_eq!(Committee::try_from(&bytes[..]), Err(Refusal::LeftOver(1)));
}

/// Values that are equal have one hash, and others are different.
fn differ<T: Eq + Hash + Debug>(one: T, same: T, other: T) {
    assert_eq!(one, same);
    assert_ne!(one, other);
    let all = HashSet::from([one, same, other]);
    assert_eq!(all.len(), 2, "{all:?}");
}

#[test]
fn what_has_the_same_bytes_is_equal() {
    let (one, same, other) = ([2, 5, 7, 2, 1, 3], [2, 5, 7, 2, 1, 3], [2, 5, 7, 2, 3, 1]);
    let set = |input| SetView::read(1, input, ..).expect("a set").0;
    assert_eq!(set(&one[..]), set(&other[..]));
    differ(set(&one[..]), set(&same[..]), set(&[1, 5][..]));
    differ(
        set(&one[..]).to_buf(),
        set(&same[..]).to_buf(),
        set(&[1, 5]).to_buf(),
    );
    let map = |input| MapView::decode(1, 1, input).expect("a map");
    differ(map(&one[..]), map(&same[..]), map(&other[..]));
    let bimap = |input| BiMapView::decode(1, 1, input).expect("a bimap");
    differ(bimap(&one[..]), bimap(&same[..]), bimap(&other[..]));
    differ(
        bimap(&one[..]).to_buf(),
        bimap(&same[..]).to_buf(),
        bimap(&other[..]).to_buf(),
    );
    let certificate = |input| Certificate::decode(input).expect("a certificate");
    let parts = [[1, 9, 1, 0], [1, 9, 1, 0], [1, 9, 1, 1]];
    let [one, same, other] = parts.each_ref().map(|input| certificate(&input[..]));
    differ(one.to_buf(), same.to_buf(), other.to_buf());
    differ(one, same, other);
    // The sizes are part of a set without keys.
    assert_ne!(SetView::decode(1, &[0]), SetView::decode(2, &[0]));
}

#[test]
fn the_library_has_the_major_version_of_the_crate() {
    let number = raw::commonware_version();
    let Version {
        major,
        minor,
        patch,
        ..
    } = version();
    assert_eq!(number, 1_000_000 * major + 1_000 * minor + patch);
    assert!(minor < 1_000 && patch < 1_000, "{number}");
    assert_eq!(major.to_string(), env!("CARGO_PKG_VERSION_MAJOR"));
    assert_eq!(version().to_string(), format!("{major}.{minor}.{patch}"));
}

#[test]
fn versions_are_in_their_order() {
    let numbers = [
        (0, 9, 9),
        (1, 0, 0),
        (1, 0, 2),
        (1, 0, 10),
        (1, 2, 0),
        (2, 0, 0),
    ];
    let versions = numbers.map(|(major, minor, patch)| Version::new(major, minor, patch));
    assert!(versions.is_sorted());
    assert_eq!(versions[3].to_string(), "1.0.10");
}

fn is_shared<T: Clone + Debug + Eq + Hash + Send + Sync + Unpin + 'static>() {}

fn is_error<T: Error + Clone + Copy + Display + Eq + Hash + Send + Sync + 'static>() {}

#[test]
fn types_are_shared_printed_and_compared() {
    is_shared::<Committee<'_>>();
    is_shared::<CommitteeBuf>();
    is_shared::<Set<'_, 48>>();
    is_shared::<SetView<'_>>();
    is_shared::<SetBuf>();
    is_shared::<MapView<'_>>();
    is_shared::<MapBuf>();
    is_shared::<BiMapView<'_>>();
    is_shared::<BiMapBuf>();
    is_shared::<Certificate<'_>>();
    is_shared::<CertificateBuf>();
    is_shared::<Checked<'_>>();
    is_shared::<FaultModel>();
    is_shared::<Version>();
    is_shared::<CertificateLimits>();
    is_shared::<Which>();
    is_shared::<Weights<'_>>();
    is_shared::<WeightedChecked<'_>>();
    is_shared::<Named>();
    is_error::<Refusal>();
    is_error::<EncodeError>();
    is_error::<BiMapError>();
    is_error::<CheckError>();
    is_error::<ConflictError>();
    is_error::<EquivocationError>();
    is_error::<WeightsError>();
    is_error::<WeightedCheckError>();
    is_error::<WeightedConflictError>();
    is_error::<WeightedEquivocationError>();
}

fn is_iterator<T: DoubleEndedIterator + ExactSizeIterator + FusedIterator + Clone + Debug>() {}

#[test]
fn iterators_have_what_those_of_slices_have() {
    is_iterator::<Items<'_>>();
    is_iterator::<Pairs<'_>>();
}
