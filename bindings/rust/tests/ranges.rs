//! Each kind of range, at its edges: each reader takes exactly the lengths that are in it.

use commonware_proved::{BiMapError, BiMapView, Committee, MapView, Refusal, Set, SetView};
use std::ops::{Bound, RangeBounds, RangeInclusive};

/// The most items that are tried.
const MOST: usize = 5;

/// What the readers say of a range, each the number of items.
fn read_all(
    count: usize,
    range: &(impl RangeBounds<usize> + Clone),
) -> [Result<usize, Refusal>; 5] {
    let keys: Vec<u8> = (0..count as u8).flat_map(|i| [i; 32]).collect();
    let set = [&[count as u8][..], &keys].concat();
    let values: Vec<u8> = (0..count as u8).collect();
    let map = [&set[..], &[count as u8], &values].concat();
    let bimap = match BiMapView::read(32, 1, &map, range.clone()) {
        Ok((bimap, _)) => Ok(bimap.len()),
        Err(BiMapError::Refused(refusal)) => Err(refusal),
        Err(other) => panic!("{other}"),
    };
    [
        Committee::read(&set, range.clone()).map(|it| it.0.len()),
        Set::<32>::read(&set, range.clone()).map(|it| it.0.len()),
        SetView::read(32, &set, range.clone()).map(|it| it.0.len()),
        MapView::read(32, 1, &map, range.clone()).map(|it| it.0.len()),
        bimap,
    ]
}

/// Each length is taken exactly where it is one of these.
fn takes(range: impl RangeBounds<usize> + Clone, lengths: &[usize]) {
    for count in 0..=MOST {
        let result = match lengths.contains(&count) {
            true => Ok(count),
            false => Err(Refusal::InvalidLength(count)),
        };
        let bounds = (range.start_bound(), range.end_bound());
        assert_eq!(
            read_all(count, &range),
            [result; 5],
            "{count} in {bounds:?}"
        );
    }
}

/// Returns both kinds of bound at some numbers, and none.
fn bounds() -> Vec<Bound<usize>> {
    let numbers = [
        0,
        1,
        2,
        MOST - 1,
        MOST,
        MOST + 1,
        1 << 32,
        usize::MAX - 1,
        usize::MAX,
    ];
    let each = numbers.map(|number| [Bound::Included(number), Bound::Excluded(number)]);
    [&each.concat()[..], &[Bound::Unbounded]].concat()
}

#[test]
fn each_pair_of_bounds_takes_what_is_in_it() {
    for start in bounds() {
        for end in bounds() {
            let lengths = (0..=MOST).filter(|length| {
                let is_after = match start {
                    Bound::Included(least) => *length >= least,
                    Bound::Excluded(below) => *length > below,
                    Bound::Unbounded => true,
                };
                let is_before = match end {
                    Bound::Included(most) => *length <= most,
                    Bound::Excluded(above) => *length < above,
                    Bound::Unbounded => true,
                };
                is_after && is_before
            });
            takes((start, end), &lengths.collect::<Vec<_>>());
        }
    }
}

#[test]
fn each_form_of_range_takes_what_it_says() {
    takes(.., &[0, 1, 2, 3, 4, 5]);
    takes(2.., &[2, 3, 4, 5]);
    takes(..2, &[0, 1]);
    takes(..=2, &[0, 1, 2]);
    takes(2..4, &[2, 3]);
    takes(2..=4, &[2, 3, 4]);
    takes(3..=3, &[3]);
    takes(..=usize::MAX, &[0, 1, 2, 3, 4, 5]);
    takes((Bound::Excluded(2), Bound::Excluded(4)), &[3]);
}

#[test]
#[allow(clippy::reversed_empty_ranges)]
fn no_length_is_in_an_empty_range() {
    takes(0..0, &[]);
    takes(..0, &[]);
    takes(3..3, &[]);
    takes(4..2, &[]);
    takes(4..=2, &[]);
    takes(1..=0, &[]);
    takes(usize::MAX.., &[]);
    takes((Bound::Excluded(2), Bound::Excluded(3)), &[]);
    takes((Bound::Excluded(usize::MAX), Bound::Unbounded), &[]);
    takes(
        (Bound::Excluded(usize::MAX), Bound::Included(usize::MAX)),
        &[],
    );
    let mut walked: RangeInclusive<usize> = 2..=3;
    assert_eq!(walked.by_ref().count(), 2);
    takes(walked, &[]);
}
