//! The types that own their encoding, beside the views and beside plain Rust: 100,000 random cases
//! of each, or a tenth of what COMMONWARE_CASES says.

#[allow(dead_code, reason = "the other tests use the rest")]
mod common;

use common::cases;
use common::naive::{certificate_bytes, committee_bytes, encode_parts, varint};
use common::random::{Random, some_keys, some_parts, spoil};
use common::seen::Seen;
use commonware_proved::{
    BiMapBuf, BiMapError, BiMapView, Certificate, CertificateBuf, CertificateLimits, Committee,
    CommitteeBuf, EncodeError, MapBuf, MapView, Refusal, Set, SetBuf, SetView,
};
use std::collections::{BTreeMap, BTreeSet, HashMap};

/// Returns an item of a size over an alphabet of few letters.
fn some_item(random: &mut Random, size: usize, letters: usize) -> Vec<u8> {
    (0..size).map(|_| random.below(letters) as u8).collect()
}

/// Returns the encoding of these items.
fn list_bytes<'a>(items: impl ExactSizeIterator<Item = &'a Vec<u8>>) -> Vec<u8> {
    let mut bytes = varint(items.len() as u64);
    bytes.extend(items.flatten());
    bytes
}

#[test]
fn committees_of_keys_in_any_order_have_what_their_view_has() {
    let mut random = Random(0x0C0);
    for _ in 0..cases() / 10 {
        let keys = some_keys(&mut random);
        let members: Vec<_> = BTreeSet::from_iter(keys.iter().copied())
            .into_iter()
            .collect();
        let mut bytes = committee_bytes(&members);
        let owned = CommitteeBuf::from_keys_dedup(&keys).expect("memory");
        let view = Committee::decode(&bytes).expect("a committee");
        assert_eq!(
            (owned.as_view(), owned.as_view().members()),
            (view, &members[..])
        );
        assert_eq!(
            (view.to_buf(), owned.clone()),
            (owned.clone(), owned.clone())
        );
        assert_eq!(CommitteeBuf::decode(bytes.clone()).as_ref(), Ok(&owned));
        let found = keys.iter().map(|key| owned.as_view().position(key));
        let walked = keys.iter().map(|key| members.binary_search(key).ok());
        assert!(found.eq(walked), "{keys:02x?}");
        assert_eq!(owned.into_bytes(), bytes);
        spoil(&mut random, &mut bytes);
        let decoded = CommitteeBuf::try_from(bytes.clone());
        let view = Committee::decode(&bytes);
        assert_eq!(
            decoded.as_ref().map(CommitteeBuf::as_view),
            view.as_ref().copied()
        );
    }
}

#[test]
fn sets_of_keys_in_any_order_have_what_their_view_has() {
    let mut random = Random(0x5E75);
    for _ in 0..cases() / 10 {
        let (size, letters) = (random.below(5), 1 + random.below(4));
        let item = |random: &mut Random| some_item(random, size, letters);
        let keys: Vec<_> = (0..random.below(9)).map(|_| item(&mut random)).collect();
        let owned = SetBuf::from_keys_dedup(size, &keys);
        if size == 0 {
            assert_eq!(owned, Err(EncodeError::NoSize));
            continue;
        }
        let owned = owned.expect("a set");
        let sorted = BTreeSet::from_iter(&keys);
        let mut bytes = list_bytes(sorted.iter().copied());
        let view = SetView::decode(size, &bytes).expect("a set");
        assert_eq!((owned.as_view(), &view.to_buf()), (view, &owned));
        assert_eq!(SetBuf::decode(size, bytes.clone()).as_ref(), Ok(&owned));
        for (index, key) in sorted.into_iter().enumerate() {
            assert_eq!(owned.as_view().position(key), Some(index));
            assert_eq!(owned.as_view().get(index), Some(&key[..]));
        }
        assert_eq!(owned.into_bytes(), bytes);
        spoil(&mut random, &mut bytes);
        let decoded = SetBuf::decode(size, bytes.clone());
        let view = SetView::decode(size, &bytes);
        assert_eq!(
            decoded.as_ref().map(SetBuf::as_view),
            view.as_ref().copied()
        );
    }
}

/// Pairs of keys and values of two sizes, in the order in which they are given.
struct Given {
    sizes: (usize, usize),
    pairs: Vec<(Vec<u8>, Vec<u8>)>,
}

impl Given {
    fn some(random: &mut Random) -> Given {
        let sizes = (1 + random.below(4), random.below(4));
        let letters = [2, 3, 20, 256][random.below(4)];
        let pair = |random: &mut Random| {
            let key = some_item(random, sizes.0, letters);
            (key, some_item(random, sizes.1, letters))
        };
        let pairs = (0..random.below(7)).map(|_| pair(random)).collect();
        Given { sizes, pairs }
    }

    /// Returns the first pair whose key an earlier one has, as the error with both indices.
    fn repeated_key(&self) -> Option<EncodeError> {
        let mut earlier = HashMap::new();
        let mut pairs = self.pairs.iter().enumerate();
        pairs.find_map(|(second, (key, _))| {
            let first = earlier.insert(key, second)?;
            Some(EncodeError::RepeatedKey { first, second })
        })
    }

    /// Returns the first pair in the order of the keys whose value an earlier one in that order
    /// has, as both errors: that of the pairs as they are given, and that of the encoding.
    fn repeated_value(&self) -> Option<(EncodeError, BiMapError)> {
        let mut order: Vec<usize> = (0..self.pairs.len()).collect();
        order.sort_by_key(|index| &self.pairs[*index].0);
        let mut earlier = HashMap::new();
        order.iter().enumerate().find_map(|(second, &given)| {
            let (first, other) = earlier.insert(&self.pairs[given].1, (second, given))?;
            let in_order = BiMapError::Repeated { first, second };
            let (first, second) = (given.min(other), given.max(other));
            Some((EncodeError::RepeatedValue { first, second }, in_order))
        })
    }

    /// Returns the encoding of the pairs in the order of their keys, of which none repeats.
    fn encoded(&self) -> Vec<u8> {
        let sorted: BTreeMap<_, _> = self.pairs.iter().map(|pair| (&pair.0, &pair.1)).collect();
        let lists = [
            list_bytes(sorted.keys().copied()),
            list_bytes(sorted.values().copied()),
        ];
        lists.concat()
    }

    /// Returns the map of these pairs, which is made, encoded and decoded alike.
    fn try_map(&self) -> Result<MapBuf, EncodeError> {
        let (key_size, value_size) = self.sizes;
        let owned = MapBuf::from_pairs(key_size, value_size, self.pairs.iter().cloned());
        if let Some(repeated) = self.repeated_key() {
            assert_eq!(owned, Err(repeated), "{:?}", self.pairs);
            return owned;
        }
        let bytes = self.encoded();
        let view = MapView::decode(key_size, value_size, &bytes).expect("a map");
        let owned = owned.expect("a map");
        assert_eq!((owned.as_view(), &view.to_buf()), (view, &owned));
        let decoded = MapBuf::decode(key_size, value_size, bytes.clone());
        assert_eq!(decoded.as_ref(), Ok(&owned));
        for (key, value) in &self.pairs {
            assert_eq!(owned.as_view().get_value(key), Some(&value[..]));
        }
        assert_eq!(owned.clone().into_bytes(), bytes);
        Ok(owned)
    }

    /// Makes the bimap of these pairs; returns what came of it.
    fn try_bimap(&self) -> &'static str {
        let (key_size, value_size) = self.sizes;
        let owned = BiMapBuf::from_pairs(key_size, value_size, self.pairs.iter().cloned());
        let map = match self.try_map() {
            Ok(map) => map,
            Err(repeated) => {
                assert_eq!(owned, Err(repeated));
                return "key";
            }
        };
        let bytes = map.into_bytes();
        let decoded = BiMapBuf::decode(key_size, value_size, bytes.clone());
        if let Some((given, in_order)) = self.repeated_value() {
            assert_eq!(
                (owned, decoded),
                (Err(given), Err(in_order)),
                "{:?}",
                self.pairs
            );
            return "value";
        }
        let view = BiMapView::decode(key_size, value_size, &bytes).expect("a bimap");
        let owned = owned.expect("a bimap");
        assert_eq!((owned.as_view(), &view.to_buf()), (view, &owned));
        assert_eq!(decoded.as_ref(), Ok(&owned));
        for (key, value) in &self.pairs {
            assert_eq!(owned.as_view().get_value(key), Some(&value[..]));
            assert_eq!(owned.as_view().get_key(value), Some(&key[..]));
        }
        assert_eq!(owned.into_bytes(), bytes);
        "ok"
    }
}

#[test]
fn maps_and_bimaps_of_pairs_in_any_order_have_what_their_views_have() {
    let mut random = Random(0xB1B1);
    let mut seen = Seen::default();
    for _ in 0..cases() / 10 {
        seen.note(Given::some(&mut random).try_bimap());
    }
    seen.assert_each(3, cases() / 100);
}

#[test]
fn spoiled_maps_and_bimaps_are_refused_as_their_views_are() {
    let mut random = Random(0xB1B2);
    for _ in 0..cases() / 10 {
        let given = Given::some(&mut random);
        let (key_size, value_size) = given.sizes;
        let mut bytes = given.encoded();
        spoil(&mut random, &mut bytes);
        let decoded = MapBuf::decode(key_size, value_size, bytes.clone());
        let view = MapView::decode(key_size, value_size, &bytes);
        assert_eq!(
            decoded.as_ref().map(MapBuf::as_view),
            view.as_ref().copied()
        );
        let decoded = BiMapBuf::decode(key_size, value_size, bytes.clone());
        let view = BiMapView::decode(key_size, value_size, &bytes);
        assert_eq!(
            decoded.as_ref().map(BiMapBuf::as_view),
            view.as_ref().cloned()
        );
    }
}

#[test]
fn certificates_of_parts_have_what_their_view_has() {
    let mut random = Random(0xCE27);
    let mut seen = Seen::default();
    for _ in 0..cases() / 10 {
        let members = random.below(200);
        let (value, signers) = some_parts(&mut random, members);
        let owned = CertificateBuf::from_parts(&value, &signers);
        let mut bytes = certificate_bytes(&value, &signers);
        match owned {
            Ok(owned) => {
                assert_eq!(encode_parts(&value, &signers).as_ref(), Ok(&bytes));
                let view = Certificate::decode(&bytes).expect("a certificate");
                assert_eq!((owned.as_view(), &view.to_buf()), (view, &owned));
                assert_eq!(owned.as_view().value(), value);
                assert_eq!(owned.as_view().signers(), signers);
                assert_eq!(owned.as_view().into_signers(), signers);
                assert_eq!(CertificateBuf::decode(bytes.clone()).as_ref(), Ok(&owned));
                assert_eq!(owned.clone().into_signers(), signers);
                assert_eq!((owned.as_bytes(), owned.as_ref()), (&bytes[..], &bytes[..]));
                assert_eq!(owned.into_bytes(), bytes);
                seen.note("ok");
            }
            Err(error) => {
                assert_eq!(encode_parts(&value, &signers), Err(error));
                seen.note("strict");
            }
        }
        spoil(&mut random, &mut bytes);
        let decoded = CertificateBuf::try_from(bytes.clone());
        let view = Certificate::decode(&bytes);
        assert_eq!(
            decoded.as_ref().map(CertificateBuf::as_view),
            view.as_ref().cloned()
        );
    }
    seen.assert_each(2, cases() / 500);
}

/// The owned form has these bytes, borrowed and moved.
fn has_bytes<T: AsRef<[u8]>>(owned: T, into_bytes: impl Fn(T) -> Vec<u8>, bytes: &[u8]) {
    assert_eq!(owned.as_ref(), bytes);
    assert_eq!(into_bytes(owned), bytes);
}

#[test]
fn an_owned_form_of_a_read_one_has_its_own_bytes_alone() {
    let bytes = [&[1][..], &[9; 32], &[1, 7, 5]].concat();
    let (committee, _) = Committee::read(&bytes, ..).expect("a committee");
    has_bytes(committee.to_buf(), CommitteeBuf::into_bytes, &bytes[..33]);
    let (map, _) = MapView::read(32, 1, &bytes, ..).expect("a map");
    has_bytes(map.to_buf(), MapBuf::into_bytes, &bytes[..35]);
    has_bytes(map.keys().to_buf(), SetBuf::into_bytes, &bytes[..33]);
    let (bimap, _) = BiMapView::read(32, 1, &bytes, ..).expect("a bimap");
    has_bytes(bimap.to_buf(), BiMapBuf::into_bytes, &bytes[..35]);
    let input = [2, 8, 8, 1, 3, 9];
    let (certificate, _) = Certificate::read(&input, CertificateLimits::NONE).expect("one");
    let owned = certificate.to_buf();
    has_bytes(owned, CertificateBuf::into_bytes, &[2, 8, 8, 1, 3]);
}

#[test]
fn views_are_their_bytes_as_their_owned_forms_are() {
    fn bytes_of(it: impl AsRef<[u8]>) -> Vec<u8> {
        it.as_ref().to_vec()
    }
    let members = committee_bytes(&[[1; 32], [2; 32]]);
    let committee = Committee::decode(&members).expect("a committee");
    assert_eq!(bytes_of(committee), members);
    assert_eq!(bytes_of(Set::from(committee)), members);
    assert_eq!(bytes_of(committee.to_buf()), members);
    let (keys, _) = SetView::read(1, b"\x02abmore", ..).expect("a set");
    assert_eq!(bytes_of(keys), b"\x02ab");
    assert_eq!(bytes_of(keys.to_buf()), b"\x02ab");
    let (pairs, _) = MapView::read(1, 1, b"\x02ab\x02yxmore", ..).expect("a map");
    assert_eq!(bytes_of(pairs), b"\x02ab\x02yx");
    assert_eq!(bytes_of(pairs.to_buf()), b"\x02ab\x02yx");
    let (pairs, _) = BiMapView::read(1, 1, b"\x02ab\x02yxmore", ..).expect("a bimap");
    assert_eq!(bytes_of(&pairs), b"\x02ab\x02yx");
    assert_eq!(bytes_of(pairs.to_buf()), b"\x02ab\x02yx");
    let read = Certificate::read(b"\x01x\x01\x04more", CertificateLimits::NONE);
    let (certificate, _) = read.expect("a certificate");
    assert_eq!(bytes_of(&certificate), b"\x01x\x01\x04");
    assert_eq!(bytes_of(certificate.to_buf()), b"\x01x\x01\x04");
}

#[test]
fn owned_forms_are_walked_as_their_views_are() {
    let committee = CommitteeBuf::from_keys_dedup(&[[2; 32], [1; 32]]).expect("memory");
    let mut walked = Vec::new();
    for member in &committee {
        walked.push(member);
    }
    assert_eq!(
        walked,
        committee.as_view().members().iter().collect::<Vec<_>>()
    );
    let keys = SetBuf::from_keys_dedup(2, [b"ok", b"am"]).expect("memory");
    let mut walked = Vec::new();
    for key in &keys {
        walked.push(key);
    }
    assert_eq!(walked, [b"am", b"ok"]);
    let pairs = [(b"b", b"x"), (b"a", b"y")];
    let map = MapBuf::from_pairs(1, 1, pairs).expect("memory");
    let bimap = BiMapBuf::from_pairs(1, 1, pairs).expect("memory");
    let sorted = [(&b"a"[..], &b"y"[..]), (b"b", b"x")];
    assert!((&map).into_iter().eq(sorted));
    assert!((&bimap).into_iter().eq(sorted));
    assert_eq!((&map).into_iter().rev().len(), 2);
}

#[test]
fn keys_and_values_of_another_size_are_told() {
    for (index, length) in [(0, 0), (0, 1), (1, 3), (2, 4), (4, 200)] {
        let mut items = vec![vec![0; 2]; 5];
        (0..5).for_each(|i| items[i][1] = i as u8);
        items[index] = vec![7; length];
        let of_keys = Err(EncodeError::KeySize { index, length });
        assert_eq!(SetBuf::from_keys_dedup(2, &items).map(drop), of_keys);
        let pairs = items.iter().map(|item| (item, b"abc"));
        assert_eq!(MapBuf::from_pairs(2, 3, pairs.clone()).map(drop), of_keys);
        assert_eq!(BiMapBuf::from_pairs(2, 3, pairs).map(drop), of_keys);
        let of_values = Err(EncodeError::ValueSize { index, length });
        let pairs = items.iter().enumerate().map(|(i, item)| ([i as u8], item));
        assert_eq!(MapBuf::from_pairs(1, 2, pairs.clone()).map(drop), of_values);
        assert_eq!(BiMapBuf::from_pairs(1, 2, pairs).map(drop), of_values);
    }
    // The first that is wrong is told: the key of a pair before its value.
    let pairs = [
        (b"ab".to_vec(), b"".to_vec()),
        (b"a".to_vec(), b"c".to_vec()),
    ];
    let told = MapBuf::from_pairs(1, 1, pairs.clone()).map(drop);
    assert_eq!(
        told,
        Err(EncodeError::KeySize {
            index: 0,
            length: 2
        })
    );
    let told = MapBuf::from_pairs(2, 1, pairs).map(drop);
    assert_eq!(
        told,
        Err(EncodeError::ValueSize {
            index: 0,
            length: 0
        })
    );
}

#[test]
fn keys_of_no_bytes_are_read_and_not_made() {
    let none: [(&[u8], &[u8]); 0] = [];
    assert_eq!(SetBuf::from_keys_dedup(0, [b""]), Err(EncodeError::NoSize));
    assert_eq!(MapBuf::from_pairs(0, 1, none), Err(EncodeError::NoSize));
    assert_eq!(BiMapBuf::from_pairs(0, 1, none), Err(EncodeError::NoSize));
    let set = SetBuf::decode(0, vec![1]).expect("a set");
    assert_eq!(
        (set.as_view().len(), set.as_view().position(b"")),
        (1, Some(0))
    );
    let map = MapBuf::decode(0, 2, vec![1, 1, 7, 8]).expect("a map");
    assert_eq!(map.as_view().get_value(b""), Some(&[7, 8][..]));
    assert_eq!(SetBuf::decode(0, vec![2]), Err(Refusal::NotStrict));
    let typed = set.as_view().as_set::<0>();
    assert_eq!(typed.map(|set| set.keys()), Some(&[[]][..]));
    let many = MapBuf::from_pairs(1, 0, [(b"b", b""), (b"a", b"")]).expect("a map");
    assert_eq!(many.into_bytes(), b"\x02ab\x02");
}

#[test]
fn what_no_pair_has_is_in_none() {
    let none: [(&[u8], &[u8]); 0] = [];
    let bimap = BiMapBuf::from_pairs(48, 32, none).expect("a bimap");
    let view = bimap.as_view();
    assert_eq!(
        (view.len(), view.is_empty(), view.as_bytes()),
        (0, true, &[0, 0][..])
    );
    assert_eq!(
        (view.get_key(&[7; 32]), view.get_value(&[7; 48])),
        (None, None)
    );
    assert_eq!((view.key_size(), view.value_size()), (48, 32));
    assert_eq!(
        CommitteeBuf::from_keys_dedup(&[]).map(CommitteeBuf::into_bytes),
        Ok(vec![0])
    );
    let nobody = CertificateBuf::from_parts(b"", &[]).map(CertificateBuf::into_bytes);
    assert_eq!(nobody, Ok(vec![0, 0]));
}

#[test]
fn many_pairs_with_one_repeat_are_told_as_they_were_given() {
    // Keys that fall, so that each index as given is another than in the order of the keys.
    let count = 70_000u32;
    let pair = |i: u32| {
        (
            (count - i).to_be_bytes(),
            i.wrapping_mul(0x9e37_79b1).to_be_bytes(),
        )
    };
    for (earlier, later) in [(0, 1), (3, 69_999), (34_000, 34_001), (65_535, 65_536)] {
        let mut pairs: Vec<_> = (0..count).map(pair).collect();
        assert_eq!(BiMapBuf::from_pairs(4, 4, pairs.clone()).map(drop), Ok(()));
        let (first, second) = (earlier as usize, later as usize);
        pairs[second].1 = pairs[first].1;
        let told = BiMapBuf::from_pairs(4, 4, pairs.clone()).map(drop);
        assert_eq!(told, Err(EncodeError::RepeatedValue { first, second }));
        pairs[second].0 = pairs[first].0;
        let told = BiMapBuf::from_pairs(4, 4, pairs).map(drop);
        assert_eq!(told, Err(EncodeError::RepeatedKey { first, second }));
    }
}

#[test]
fn a_set_has_a_type_for_its_size_alone() {
    let keys = [[7; 33], [3; 33]];
    let owned = SetBuf::from_keys_dedup(33, keys).expect("a set");
    let typed: Set<'_, 33> = owned.as_view().as_set().expect("keys of 33 bytes");
    assert_eq!(typed.keys(), [[3; 33], [7; 33]]);
    assert_eq!(SetView::from(typed), owned.as_view());
    assert_eq!(owned.as_view().as_set::<32>(), None);
    assert_eq!(owned.as_view().as_set::<0>(), None);
    assert_eq!(owned.as_view().as_set::<66>(), None);
}
