//! Bimaps of keys and values of any size beside a naive implementation: 1,000,000 random cases, or
//! as many as COMMONWARE_CASES says, and bimaps of many pairs.

#[allow(dead_code, reason = "the other tests use the rest")]
mod common;
#[allow(dead_code, reason = "the crate calls the rest")]
#[path = "../src/raw.rs"]
mod raw;

use common::cases;
use common::naive::{read_varint, varint};
use common::random::{Random, spoil};
use common::seen::{Seen, name};
use commonware_proved::{BiMapError, BiMapView, Refusal};
use std::collections::HashMap;

/// Statuses of the library.
const ROOM: u32 = 11;
const REPEATED_VALUE: u32 = 18;

/// What a place of a room has before a call.
const BEFORE: u32 = 0xeeee_eeee;

/// A map as a plain reader finds it: its columns, and what follows them.
struct Columns<'a> {
    keys: Vec<&'a [u8]>,
    values: Vec<&'a [u8]>,
    rest: &'a [u8],
}

/// Takes a list of items one by one, up to `most`; returns it and what follows.
fn take_list(
    size: usize,
    input: &[u8],
    (least, most): (usize, usize),
) -> Result<(Vec<&[u8]>, &[u8]), Refusal> {
    let (count, mut rest) = read_varint(input)?;
    if !(least..=most).contains(&(count as usize)) {
        return Err(Refusal::InvalidLength(count as usize));
    }
    // Of items of no bytes three are as good as more: two of them are the same.
    let count = if size == 0 { count.min(3) } else { count };
    let mut items = Vec::new();
    for _ in 0..count {
        let (item, more) = rest.split_at_checked(size).ok_or(Refusal::EndOfInput)?;
        items.push(item);
        rest = more;
    }
    Ok((items, rest))
}

/// Decodes the map at the start of the input.
fn read_map(
    sizes: (usize, usize),
    input: &[u8],
    limits: (usize, usize),
) -> Result<Columns<'_>, Refusal> {
    let (keys, rest) = take_list(sizes.0, input, limits)?;
    if keys.windows(2).any(|pair| pair[0] >= pair[1]) {
        return Err(Refusal::NotStrict);
    }
    let (mut values, rest) = take_list(sizes.1, rest, (keys.len(), keys.len()))?;
    values.resize(keys.len(), &[]);
    Ok(Columns { keys, values, rest })
}

/// Returns the first value that stands earlier, by both of its indices.
fn first_repeat(values: &[&[u8]]) -> Option<(usize, usize)> {
    let mut indices = HashMap::new();
    (0..values.len()).find_map(|second| Some((indices.insert(values[second], second)?, second)))
}

/// Returns the indices in the order of their values, those of equal ones in their own.
fn by_value(values: &[&[u8]]) -> Vec<u32> {
    let mut indices: Vec<u32> = (0..values.len() as u32).collect();
    indices.sort_by_key(|index| values[*index as usize]);
    indices
}

/// Returns the status and the number of a refusal.
fn status_of(refusal: &Refusal) -> (u32, usize) {
    match refusal {
        Refusal::EndOfInput => (1, 0),
        Refusal::InvalidVarint => (2, 0),
        Refusal::InvalidLength(length) => (3, *length),
        Refusal::NotStrict => (4, 0),
        _ => panic!("{refusal:?}"),
    }
}

/// What the library returns: the status and the number; the count and the offsets; the repeat; and
/// the room after the call.
type Found = ((u32, usize), [usize; 4], (usize, usize), Vec<u32>);

/// Calls the library with a room of this number of places.
fn call(sizes: (usize, usize), input: &[u8], limits: (usize, usize), places: usize) -> Found {
    let mut room = vec![BEFORE; places];
    // SAFETY: each pointer and the length after it are those of one slice; the room is a new one.
    let view = unsafe {
        raw::commonware_bimap_read(
            sizes.0,
            sizes.1,
            input.as_ptr(),
            input.len(),
            limits.0,
            limits.1,
            room.as_mut_ptr(),
            room.len(),
        )
    };
    (
        (view.status, view.number),
        [view.count as usize, view.keys, view.values, view.left],
        (view.first, view.second),
        room,
    )
}

/// Returns what the library has to return.
fn expected(
    sizes: (usize, usize),
    input: &[u8],
    map: &Result<Columns<'_>, Refusal>,
    places: usize,
) -> Found {
    let mut room = vec![BEFORE; places];
    let map = match map {
        Ok(map) => map,
        Err(refusal) => return (status_of(refusal), [0; 4], (0, 0), room),
    };
    let count = map.keys.len();
    if places < count {
        return ((ROOM, count), [0; 4], (0, 0), room);
    }
    room[..count].copy_from_slice(&by_value(&map.values));
    if let Some(repeat) = first_repeat(&map.values) {
        return ((REPEATED_VALUE, 0), [0; 4], repeat, room);
    }
    let keys = varint(count as u64).len();
    let values = input.len() - map.rest.len() - count * sizes.1;
    ((0, 0), [count, keys, values, map.rest.len()], (0, 0), room)
}

/// Reads a bimap by the library with several rooms, by the crate and by the naive reader; returns
/// what came of it.
fn try_bimap(
    sizes: (usize, usize),
    input: &[u8],
    limits: (usize, usize),
    more: usize,
) -> &'static str {
    let case = || format!("{sizes:?} {limits:?} {input:02x?}");
    let map = read_map(sizes, input, limits);
    let count = map.as_ref().map_or(3, |map| map.keys.len());
    for places in [0, count.saturating_sub(1), count, count + more] {
        let found = call(sizes, input, limits, places);
        let expected = expected(sizes, input, &map, places);
        assert_eq!(found, expected, "{places} {}", case());
    }
    let ours = BiMapView::read(sizes.0, sizes.1, input, limits.0..=limits.1);
    let map = match map {
        Ok(map) => map,
        Err(refusal) => {
            assert_eq!(ours, Err(BiMapError::Refused(refusal)), "{}", case());
            return name(&refusal);
        }
    };
    if let Some((first, second)) = first_repeat(&map.values) {
        let repeated = BiMapError::Repeated { first, second };
        assert_eq!(ours, Err(repeated), "{}", case());
        return "repeated";
    }
    let (ours, rest) = ours.expect("a bimap");
    assert_eq!((ours.len(), rest), (count, map.rest), "{}", case());
    let pairs = map.keys.iter().copied().zip(map.values.iter().copied());
    assert!(ours.iter().eq(pairs.clone()), "{}", case());
    for (index, (key, value)) in pairs.enumerate() {
        assert_eq!(ours.get_value(key), Some(value), "{}", case());
        assert_eq!(ours.get(index), Some(key), "{}", case());
        assert_eq!(ours.position(key), Some(index), "{}", case());
        assert_eq!(ours.get_key(value), Some(key), "{}", case());
        assert_eq!(ours.position_of_value(value), Some(index), "{}", case());
        assert_eq!(ours.value(index), Some(value), "{}", case());
    }
    assert_eq!(
        (ours.value(count), ours.value_size()),
        (None, sizes.1),
        "{}",
        case()
    );
    for other in [&[][..], &[0], &[1, 1], &[7; 96]] {
        let found = map.values.iter().position(|value| *value == other);
        assert_eq!(ours.position_of_value(other), found, "{}", case());
    }
    let copies = ours.to_owned_pairs();
    let copied = copies.iter().map(|(key, value)| (&key[..], &value[..]));
    assert!(ours.into_iter().eq(copied), "{}", case());
    "ok"
}

/// Returns an item of a size over an alphabet of few letters.
fn some_item(random: &mut Random, size: usize, letters: usize) -> Vec<u8> {
    (0..size).map(|_| random.below(letters) as u8).collect()
}

/// Returns keys in order, nearly always each once.
fn some_keys(random: &mut Random, size: usize) -> Vec<Vec<u8>> {
    let letters = 1 + random.below(9);
    let mut keys: Vec<_> = (0..random.below(9))
        .map(|_| some_item(random, size, letters))
        .collect();
    keys.sort();
    if random.below(16) > 0 {
        keys.dedup();
    }
    keys
}

#[test]
fn bimaps_are_read_as_by_the_naive_reader() {
    let mut random = Random(0xB1A);
    let mut seen = Seen::default();
    for _ in 0..cases() {
        let sizes = (random.below(5), random.below(5));
        let keys = some_keys(&mut random, sizes.0);
        let letters = 1 + random.below(9);
        let values = keys
            .iter()
            .map(|_| some_item(&mut random, sizes.1, letters));
        let mut bytes = varint(keys.len() as u64);
        let after: Vec<u8> = values.flatten().collect();
        let count = if random.below(16) > 0 {
            keys.len()
        } else {
            random.below(9)
        };
        bytes.extend(keys.iter().flatten());
        bytes.extend(varint(count as u64));
        bytes.extend(after);
        if random.below(4) == 0 {
            spoil(&mut random, &mut bytes);
        }
        let limits = match random.below(8) {
            0 => (random.below(9), random.below(9)),
            _ => (0, usize::MAX),
        };
        let start = random.below(41);
        let buffer = [&vec![0xee; start], &bytes[..]].concat();
        let more = 1 + random.below(3);
        seen.note(try_bimap(sizes, &buffer[start..], limits, more));
    }
    seen.assert_each(6, cases() / 200);
}

/// Returns the encoding of as many pairs behind 29 bytes: keys that rise and values that don't,
/// which all differ in their last bytes alone; and where the values begin.
fn many(sizes: (usize, usize), count: usize) -> (Vec<u8>, usize) {
    let mut bytes = vec![0xee; 29];
    let put = |bytes: &mut Vec<u8>, size: usize, number: usize| {
        let at = bytes.len();
        bytes.resize(at + size - 4, 0x5a);
        bytes.extend((number as u32).to_be_bytes());
    };
    bytes.extend(varint(count as u64));
    for index in 0..count {
        put(&mut bytes, sizes.0, index);
    }
    bytes.extend(varint(count as u64));
    let start = bytes.len();
    for index in 0..count {
        // An odd factor, so that no two are the same.
        put(&mut bytes, sizes.1, index.wrapping_mul(0x9e37_79b1));
    }
    (bytes, start)
}

/// Reads many pairs that all differ, and then with one value made that of an earlier pair.
fn try_many(sizes: (usize, usize), count: usize, repeats: &[(usize, usize)]) {
    let (mut bytes, start) = many(sizes, count);
    let limits = (count, count);
    let read = |bytes: &[u8]| {
        let map = read_map(sizes, &bytes[29..], limits);
        let found = call(sizes, &bytes[29..], limits, count + 1);
        assert_eq!(found, expected(sizes, &bytes[29..], &map, count + 1));
        found
    };
    assert_eq!(read(&bytes).0, (0, 0));
    for &(first, second) in repeats {
        let (at, to) = (start + second * sizes.1, start + first * sizes.1);
        let kept = bytes[at..at + sizes.1].to_vec();
        bytes.copy_within(to..to + sizes.1, at);
        let (status, _, repeat, _) = read(&bytes);
        assert_eq!((status, repeat), ((REPEATED_VALUE, 0), (first, second)));
        bytes[at..at + sizes.1].copy_from_slice(&kept);
    }
}

#[test]
fn each_number_of_pairs_up_to_300_is_read() {
    for count in 0..=300 {
        let repeats: Vec<_> = (1..count).map(|second| (second / 2, second)).collect();
        try_many((20, 9), count, &repeats[repeats.len().saturating_sub(3)..]);
    }
}

#[test]
fn many_pairs_of_each_size_are_read() {
    for key_size in [20, 32, 33, 48, 96] {
        for value_size in [4, 8, 9, 20, 32, 33, 48, 96] {
            let repeats = [(0, 1), (0, 256), (255, 256), (127, 299), (298, 299)];
            try_many((key_size, value_size), 300, &repeats);
        }
    }
}

#[test]
fn more_than_65536_pairs_are_read() {
    let last = 70_001;
    let repeats = [
        (0, last),
        (65_535, 65_536),
        (65_536, last),
        (3, 65_537),
        (last - 1, last),
    ];
    for sizes in [(20, 32), (48, 20), (32, 96), (33, 5)] {
        try_many(sizes, last + 1, &repeats);
    }
}

#[test]
fn sizes_near_the_limits_have_a_result() {
    let mut seen = Seen::default();
    for bits in [8, 31, 32, 33, 59, 60, 61, 62, 63, 64] {
        let power = if bits == 64 { 0 } else { 1usize << bits };
        for more in [-2, -1, 0, 1, 2] {
            let size = power.wrapping_add_signed(more);
            for input in [
                &[0, 0, 9][..],
                &[1, 7, 1, 8],
                &[1, 1, 8],
                &[2, 5, 7, 2, 8, 8],
                &[2, 5, 7, 2],
                &[255, 255, 255, 255, 15, 1, 2],
            ] {
                for sizes in [(1, size), (size, 1), (size, size), (size, 0)] {
                    seen.note(try_bimap(sizes, input, (0, usize::MAX), 2));
                }
            }
        }
    }
    seen.assert_each(5, 5);
}

#[test]
fn the_repeat_with_the_least_second_index_is_told() {
    // Of groups of equal values the one is told whose second member comes first, also where the
    // first member of another comes before, and where the value of another is less.
    for (values, repeat) in [
        (&[5, 9, 9, 5][..], (1, 2)),
        (&[9, 5, 5, 9], (1, 2)),
        (&[1, 2, 3, 3, 2, 1], (2, 3)),
        (&[3, 2, 1, 1, 2, 3], (2, 3)),
        (&[7, 7, 7, 7], (0, 1)),
        (&[4, 1, 8, 4, 1, 8], (0, 3)),
        (&[8, 1, 4, 1, 8, 1], (1, 3)),
    ] {
        let count = values.len() as u8;
        let keys: Vec<u8> = (0..count).collect();
        let bytes = [&[count][..], &keys, &[count], values].concat();
        let (first, second) = repeat;
        let repeated = BiMapError::Repeated { first, second };
        assert_eq!(BiMapView::decode(1, 1, &bytes), Err(repeated), "{values:?}");
    }
}
