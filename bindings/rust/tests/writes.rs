//! Sets and maps of any size are written as by a sort and a removal of repeats: 1,000,000 random
//! cases of each, or as many as COMMONWARE_CASES says.

#[allow(dead_code, reason = "the other tests use the rest")]
mod common;
#[allow(dead_code, reason = "the crate calls the rest")]
#[path = "../src/raw.rs"]
mod raw;

use common::cases;
use common::naive::varint;
use common::random::Random;
use common::seen::Seen;
use commonware_proved::{EncodeError, MapView, Member, SetView};
use std::collections::BTreeMap;

/// Statuses of the library.
const OK: u32 = 0;
const ROOM: u32 = 11;
const NO_SIZE: u32 = 16;
const NOT_WHOLE: u32 = 17;
const REPEATED_KEY: u32 = 19;

/// What stands in the room before a call.
const UNTOUCHED: u8 = 0xee;

/// Returns the status, the count, the number and the size.
fn set_encode_dedup(size: usize, keys: &[u8], out: &mut [u8]) -> (u32, usize, usize, usize) {
    // SAFETY: each pointer and the length after it are those of one slice.
    let view = unsafe {
        let (room, length) = (out.as_mut_ptr(), out.len());
        raw::commonware_set_encode_dedup(size, keys.as_ptr(), keys.len(), room, length)
    };
    (view.status, view.count, view.number, view.size)
}

/// Returns the encoding of the set by a sort, and how many keys it has.
fn naive_set(size: usize, keys: &[u8]) -> (Vec<u8>, usize) {
    let mut each: Vec<&[u8]> = keys.chunks_exact(size).collect();
    each.sort();
    each.dedup();
    let mut bytes = varint(each.len() as u64);
    bytes.extend(each.concat());
    (bytes, each.len())
}

/// Returns keys of a size, of which many are equal and many differ in one byte, and sometimes bytes
/// after the last.
fn some_keys(random: &mut Random, size: usize) -> Vec<u8> {
    let count = [0, 1, 2, 3, 5, 9, 40, 127, 128, 200][random.below(10)];
    let mut keys = vec![7; size * count];
    for _ in 0..random.below(2 * count + 1) {
        if !keys.is_empty() {
            let at = random.below(keys.len());
            keys[at] = [0, 6, 8, 127, 128, 255][random.below(6)];
        }
    }
    if random.below(8) == 0 {
        keys.extend(vec![1; 1 + random.below(size + 2)]);
    }
    if random.below(8) == 0 {
        let sorted: Vec<u8> = {
            let mut each: Vec<&[u8]> = keys.chunks(size).collect();
            each.sort();
            each.concat()
        };
        keys = sorted;
    }
    keys
}

fn some_room(random: &mut Random, wanted: usize) -> usize {
    match random.below(4) {
        0 => wanted,
        1 => wanted.saturating_sub(1 + random.below(3)),
        2 => random.below(wanted + 1),
        _ => wanted + random.below(9),
    }
}

/// Compares one call with the naive one, and returns what came of it.
fn try_write(size: usize, keys: &[u8], room: usize) -> &'static str {
    let mut out = vec![UNTOUCHED; room];
    let told = set_encode_dedup(size, keys, &mut out);
    if size == 0 {
        assert_eq!(told, (NO_SIZE, 0, 0, 0));
        assert!(out.iter().all(|byte| *byte == UNTOUCHED));
        return "no size";
    }
    if !keys.len().is_multiple_of(size) {
        assert_eq!(told, (NOT_WHOLE, 0, keys.len() % size, 0));
        assert!(out.iter().all(|byte| *byte == UNTOUCHED));
        return "not whole";
    }
    let (bytes, count) = naive_set(size, keys);
    if room < bytes.len() {
        assert_eq!(told, (ROOM, count, 0, bytes.len()));
        assert!(out.iter().all(|byte| *byte == UNTOUCHED));
        return "room";
    }
    assert_eq!(told, (OK, count, 0, bytes.len()));
    assert_eq!(out[..bytes.len()], bytes);
    assert!(out[bytes.len()..].iter().all(|byte| *byte == UNTOUCHED));
    assert_eq!(SetView::encode_dedup(size, keys).as_deref(), Ok(&bytes[..]));
    "ok"
}

#[test]
fn sets_are_written_as_by_a_sort() {
    let mut random = Random(41);
    let mut seen = Seen::default();
    for _ in 0..cases() {
        let size = match random.below(24) {
            at @ 0..=20 => at,
            at => [32, 33, 48, 96][at % 4],
        };
        let keys = some_keys(&mut random, size.max(1));
        let room = some_room(&mut random, 5 + keys.len());
        seen.note(try_write(size, &keys, room));
    }
    seen.assert_each(4, cases() / 100);
}

#[test]
fn a_committee_is_written_as_a_set_of_its_size() {
    let mut random = Random(43);
    for _ in 0..2_000 {
        let mut keys = some_keys(&mut random, 32);
        keys.truncate(keys.len() / 32 * 32);
        let members: Vec<Member> = keys.as_chunks().0.to_vec();
        let committee = commonware_proved::Committee::encode_dedup(&members);
        assert_eq!(committee, SetView::encode_dedup(32, &keys));
    }
}

#[test]
fn sizes_past_the_keys_leave_them_over() {
    for size in [3, 1 << 31, 1 << 32, 1 << 61, usize::MAX / 2, usize::MAX] {
        assert_eq!(try_write(size, &[1, 2], 9), "not whole");
        assert_eq!(try_write(size, &[], 9), "ok");
    }
}

#[test]
fn many_keys_in_falling_order_are_written() {
    let key = |i: u32| [[0; 28].as_slice(), &i.to_be_bytes()].concat();
    let keys: Vec<u8> = (0..70_000).rev().flat_map(key).collect();
    assert_eq!(try_write(32, &keys, 5 + keys.len()), "ok");
}

/// What the crate encodes of the sizes of a key and of a value, and the pairs.
type Encode = fn(usize, usize, &[u8]) -> Result<Vec<u8>, EncodeError>;

/// A way to write a map: the call of the library, and that of the crate.
struct MapWriter {
    call: raw::MapEncodeDedupCall,
    encode: Encode,
}

/// Of equal keys the first stays.
const FIRSTS: MapWriter = MapWriter {
    call: raw::commonware_map_encode_dedup,
    encode: MapView::encode_dedup,
};

/// Equal keys are refused.
const UNIQUE: MapWriter = MapWriter {
    call: raw::commonware_map_encode,
    encode: MapView::encode,
};

impl MapWriter {
    /// Returns the status, the count, the number and the size.
    fn write(
        &self,
        sizes: (usize, usize),
        pairs: &[u8],
        out: &mut [u8],
    ) -> (u32, usize, usize, usize) {
        // SAFETY: each pointer and the length after it are those of one slice.
        let view = unsafe {
            let (from, length) = (pairs.as_ptr(), pairs.len());
            (self.call)(sizes.0, sizes.1, from, length, out.as_mut_ptr(), out.len())
        };
        (view.status, view.count, view.number, view.size)
    }
}

/// Returns the encoding of the map by a stable sort, and how many pairs it has.
fn naive_map(sizes: (usize, usize), pairs: &[u8]) -> (Vec<u8>, usize) {
    let each = pairs.chunks_exact(sizes.0 + sizes.1);
    let mut each: Vec<(&[u8], &[u8])> = each.map(|pair| pair.split_at(sizes.0)).collect();
    each.sort_by_key(|pair| pair.0);
    each.dedup_by_key(|pair| pair.0);
    let mut bytes = varint(each.len() as u64);
    bytes.extend(each.iter().flat_map(|pair| pair.0));
    bytes.extend(varint(each.len() as u64));
    bytes.extend(each.iter().flat_map(|pair| pair.1));
    (bytes, each.len())
}

/// Compares one call with the naive one, and returns what came of it.
fn try_map_encode_dedup(
    writer: &MapWriter,
    sizes: (usize, usize),
    pairs: &[u8],
    room: usize,
) -> &'static str {
    let mut out = vec![UNTOUCHED; room];
    let told = writer.write(sizes, pairs, &mut out);
    let is_untouched = out.iter().all(|byte| *byte == UNTOUCHED);
    if sizes.0 == 0 {
        assert_eq!((told, is_untouched), ((NO_SIZE, 0, 0, 0), true));
        return "no size";
    }
    let over = match sizes.0.checked_add(sizes.1) {
        Some(size) => pairs.len() % size,
        None => pairs.len(),
    };
    if over > 0 {
        assert_eq!((told, is_untouched), ((NOT_WHOLE, 0, over, 0), true));
        return "not whole";
    }
    let (bytes, count) = match pairs {
        [] => (vec![0, 0], 0),
        pairs => naive_map(sizes, pairs),
    };
    if room < bytes.len() {
        assert_eq!((told, is_untouched), ((ROOM, count, 0, bytes.len()), true));
        return "room";
    }
    assert_eq!(told, (OK, count, 0, bytes.len()));
    assert_eq!(out[..bytes.len()], bytes);
    assert!(out[bytes.len()..].iter().all(|byte| *byte == UNTOUCHED));
    assert_eq!(
        (writer.encode)(sizes.0, sizes.1, pairs).as_deref(),
        Ok(&bytes[..])
    );
    "ok"
}

#[test]
fn maps_are_written_as_by_a_stable_sort() {
    let mut random = Random(47);
    let mut seen = Seen::default();
    for _ in 0..cases() {
        let size = |random: &mut Random| match random.below(24) {
            at @ 0..=20 => at,
            at => [32, 33, 48, 96][at % 4],
        };
        let sizes = (size(&mut random), size(&mut random) / 2);
        let mut pairs = some_keys(&mut random, (sizes.0 + sizes.1).max(1));
        if sizes.0 > 0 && random.below(2) == 0 {
            // Equal keys with other values.
            for pair in pairs.chunks_mut(sizes.0 + sizes.1) {
                let end = sizes.0.min(pair.len());
                pair[..end].fill(random.below(3) as u8);
            }
        }
        let room = some_room(&mut random, 10 + pairs.len());
        seen.note(try_map_encode_dedup(&FIRSTS, sizes, &pairs, room));
    }
    seen.assert_each(4, cases() / 100);
}

/// Returns numbers below `count` that repeat past the half, rising, falling or in no order.
fn some_numbers(count: usize, way: usize) -> impl Iterator<Item = usize> {
    let distinct = count / 2 + 1;
    (0..count).map(move |i| match way {
        0 => i % distinct,
        1 => count - 1 - i % distinct,
        _ => i * 7_919 % distinct,
    })
}

#[test]
fn many_keys_and_pairs_that_repeat_are_written() {
    for count in [255, 256, 257, 513, 4_097, 65_537, 70_000, 140_000] {
        for way in 0..3 {
            let keys: Vec<u8> = some_numbers(count, way)
                .flat_map(|number| numbered_key(20, number))
                .collect();
            let (set, distinct) = naive_set(20, &keys);
            assert_eq!(distinct, count / 2 + 1);
            assert_eq!(try_write(20, &keys, set.len()), "ok");
            assert_eq!(try_write(20, &keys, set.len() - 1), "room");
            // Each value is another, so that it tells which of the equal keys is written.
            let pairs: Vec<u8> = (keys.chunks(20).zip(0..count as u32))
                .flat_map(|(key, i)| [key, &i.to_be_bytes()].concat())
                .collect();
            let (map, _) = naive_map((20, 4), &pairs);
            assert_eq!(
                try_map_encode_dedup(&FIRSTS, (20, 4), &pairs, map.len()),
                "ok"
            );
            assert_eq!(
                try_map_encode_dedup(&FIRSTS, (20, 4), &pairs, map.len() - 1),
                "room"
            );
            assert_eq!(try_unique((20, 4), &pairs, map.len()), "repeat");
        }
    }
}

#[test]
fn sizes_of_pairs_whose_sum_wraps_have_a_result() {
    for sizes in [
        (1, usize::MAX),
        (usize::MAX, 1),
        (usize::MAX, usize::MAX),
        (1 << 63, 1 << 63),
        // Sizes that are 0 and 1 where they are cut to 32 bits.
        (1, 1 << 32),
        (1 << 32, 1),
        (1, (1 << 32) + 1),
    ] {
        assert_eq!(
            try_map_encode_dedup(&FIRSTS, sizes, &[1, 2], 9),
            "not whole"
        );
        assert_eq!(try_map_encode_dedup(&FIRSTS, sizes, &[], 9), "ok");
        assert_eq!(try_map_encode_dedup(&FIRSTS, sizes, &[], 1), "room");
    }
    assert_eq!(
        try_map_encode_dedup(&FIRSTS, (1, 0), &[3, 1, 2, 1], 9),
        "ok"
    );
    assert_eq!(
        try_map_encode_dedup(&FIRSTS, (0, usize::MAX), &[], 9),
        "no size"
    );
}

/// Returns the index of the first pair whose key an earlier pair has, after that of the earlier
/// one, where the pairs are whole.
fn naive_repeat(sizes: (usize, usize), pairs: &[u8]) -> Option<(usize, usize)> {
    let size = sizes.0.checked_add(sizes.1)?;
    if sizes.0 == 0 || !pairs.len().is_multiple_of(size) {
        return None;
    }
    let mut keys = BTreeMap::new();
    let mut each = pairs.chunks_exact(size).enumerate();
    each.find_map(|(second, pair)| Some((keys.insert(&pair[..sizes.0], second)?, second)))
}

/// Compares one call with the naive one, and returns what came of it.
fn try_unique(sizes: (usize, usize), pairs: &[u8], room: usize) -> &'static str {
    let Some((first, second)) = naive_repeat(sizes, pairs) else {
        return try_map_encode_dedup(&UNIQUE, sizes, pairs, room);
    };
    let mut out = vec![UNTOUCHED; room];
    let told = UNIQUE.write(sizes, pairs, &mut out);
    assert_eq!(told, (REPEATED_KEY, 0, second, 0));
    assert!(out.iter().all(|byte| *byte == UNTOUCHED));
    let encoded = MapView::encode(sizes.0, sizes.1, pairs);
    assert_eq!(encoded, Err(EncodeError::RepeatedKey { first, second }));
    "repeat"
}

/// Returns the key of a size that counts as this number in its last bytes, of which it may have
/// too few.
fn numbered_key(size: usize, number: usize) -> Vec<u8> {
    let bytes = number.to_be_bytes();
    let low = &bytes[bytes.len() - size.min(bytes.len())..];
    [vec![0; size - low.len()], low.to_vec()].concat()
}

/// Returns pairs of which few or none have equal keys, rising, falling or in no order, and
/// sometimes bytes after the last.
fn some_pairs(random: &mut Random, sizes: (usize, usize)) -> Vec<u8> {
    let count = [0, 1, 2, 3, 5, 40, 127, 128, 129, 256, 257][random.below(11)];
    let mut numbers: Vec<usize> = (0..count).collect();
    match random.below(4) {
        0 => {}
        1 => numbers.reverse(),
        _ => {
            for at in (1..count).rev() {
                numbers.swap(at, random.below(at + 1));
            }
        }
    }
    if count > 1 && random.below(2) == 0 {
        let later = 1 + random.below(count - 1);
        numbers[later] = numbers[random.below(later)];
    }
    let value = |random: &mut Random| vec![random.below(3) as u8; sizes.1];
    let each = numbers.iter().map(|number| numbered_key(sizes.0, *number));
    let mut pairs: Vec<u8> = each.flat_map(|key| [key, value(random)].concat()).collect();
    if random.below(8) == 0 {
        pairs.extend(vec![1; 1 + random.below(sizes.0 + sizes.1 + 2)]);
    }
    pairs
}

#[test]
fn maps_of_unique_keys_are_written_and_a_repeat_is_told() {
    let mut random = Random(53);
    let mut seen = Seen::default();
    for _ in 0..cases() {
        let size = |random: &mut Random| match random.below(24) {
            at @ 0..=20 => at,
            at => [32, 33, 48, 96][at % 4],
        };
        let sizes = (size(&mut random), size(&mut random) / 2);
        let pairs = some_pairs(&mut random, sizes);
        let room = some_room(&mut random, 10 + pairs.len());
        seen.note(try_unique(sizes, &pairs, room));
    }
    seen.assert_each(5, cases() / 100);
}

#[test]
fn the_first_repeat_among_many_pairs_is_told() {
    for count in [
        2, 3, 127, 128, 255, 256, 257, 4_097, 65_535, 65_536, 65_537, 70_000,
    ] {
        for is_falling in [false, true] {
            let place = |i| if is_falling { count - 1 - i } else { i };
            let each = (0..count).map(|i| [numbered_key(20, place(i)), vec![i as u8; 8]].concat());
            let pairs = each.collect::<Vec<_>>().concat();
            let size = 2 * varint(count as u64).len() + pairs.len();
            assert_eq!(try_unique((20, 8), &pairs, size), "ok");
            assert_eq!(try_unique((20, 8), &pairs, size - 1), "room");
            for (earlier, later) in [
                (0, 1),
                (0, count / 2),
                (0, count - 1),
                (count / 2, count - 1),
                (count - 2, count - 1),
            ] {
                let mut repeated = pairs.clone();
                repeated.copy_within(28 * earlier..28 * earlier + 20, 28 * later);
                let told = UNIQUE.write((20, 8), &repeated, &mut []);
                let wanted = match earlier < later {
                    true => (REPEATED_KEY, 0, later, 0),
                    false => (ROOM, count, 0, size),
                };
                assert_eq!(told, wanted, "{earlier} and {later} of {count}");
            }
        }
    }
}

#[test]
fn sizes_of_unique_pairs_whose_sum_wraps_have_a_result() {
    for sizes in [
        (1, usize::MAX),
        (usize::MAX, 1),
        (1 << 63, 1 << 63),
        (1, 1 << 32),
        (1 << 32, 1),
        (1, (1 << 32) + 1),
    ] {
        assert_eq!(try_unique(sizes, &[1, 1], 9), "not whole");
        assert_eq!(try_unique(sizes, &[], 9), "ok");
        assert_eq!(try_unique(sizes, &[], 1), "room");
    }
    assert_eq!(try_unique((1, 0), &[3, 1, 2, 1], 9), "repeat");
    assert_eq!(try_unique((1, 1), &[3, 1, 2, 1], 9), "ok");
    assert_eq!(try_unique((0, usize::MAX), &[], 9), "no size");
}
