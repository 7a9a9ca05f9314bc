//! Faults of the search: each stands in for the library, and must show.

use super::comparison::Search;
use crate::lists::{DURATION, ID, NUMBERS, START};
use crate::other::{place, Place};

pub const ALL: [(&str, Search); 26] = [
    // The place.
    ("is before an equal start", |list, count, start| first(list, count, |record| record[START] >= start)),
    ("is before the last later record", |list, count, start| {
        let last = starts(list, count).iter().rposition(|other| *other > start);
        before(last, list, count)
    }),
    ("is behind the last record that is not later", |list, count, start| {
        let last = starts(list, count).iter().rposition(|other| *other <= start);
        at(last.map_or(0, |last| last + 1), list, count)
    }),
    ("is the number of records that are not later", |list, count, start| {
        at(starts(list, count).iter().filter(|other| **other <= start).count(), list, count)
    }),
    ("is found by halving", |list, count, start| {
        at(starts(list, count).partition_point(|other| *other <= start), list, count)
    }),
    ("is where starts fall", |list, count, start| {
        let starts = starts(list, count);
        let falls = |place: &usize| starts[*place] > start || *place > 0 && starts[*place] < starts[*place - 1];
        before((0..starts.len()).find(falls), list, count)
    }),
    ("goes by the duration", |list, count, start| first(list, count, |record| record[DURATION] > start)),
    ("goes by the id", |list, count, start| first(list, count, |record| record[ID] > start)),
    ("goes by signed numbers", |list, count, start| first(list, count, |record| record[START] as i32 > start as i32)),
    ("goes by 24 bits", |list, count, start| first(list, count, |record| record[START] << 8 > start << 8)),
    // The records looked at.
    ("looks at one record less", |list, count, start| {
        let Place { place, looked } = place(list, count, start);
        Place { place, looked: looked.saturating_sub(1) }
    }),
    ("looks at one record more", |list, count, start| {
        let Place { place, looked } = place(list, count, start);
        Place { place, looked: looked + 1 }
    }),
    ("looks at the record behind the later one", |list, count, start| {
        let Place { place, looked } = place(list, count, start);
        Place { place, looked: (looked + 1).min(starts(list, count).len()) }
    }),
    ("does not count the later record", |list, count, start| {
        let Place { place, .. } = place(list, count, start);
        Place { place, looked: place }
    }),
    ("looks at 0 records where none is later", |list, count, start| {
        let Place { place, looked } = place(list, count, start);
        Place { place, looked: if looked > place { looked } else { 0 } }
    }),
    ("looks from the back", |list, count, start| {
        let starts = starts(list, count);
        let place = starts.iter().rposition(|other| *other <= start).map_or(0, |last| last + 1);
        Place { place, looked: (starts.len() - place + 1).min(starts.len()) }
    }),
    ("looks at no more where a start is equal", |list, count, start| {
        let starts = starts(list, count);
        match starts.iter().position(|other| *other >= start) {
            Some(equal) if starts[equal] == start => Place { place: equal + 1, looked: equal + 1 },
            later => before(later, list, count),
        }
    }),
    ("looks at eight records at a time", |list, count, start| {
        let Place { place, looked } = place(list, count, start);
        Place { place, looked: looked.next_multiple_of(8).min(starts(list, count).len()) }
    }),
    ("counts in sixteen bits", |list, count, start| {
        let Place { place, looked } = place(list, count, start);
        Place { place: place & 0xFFFF, looked: looked & 0xFFFF }
    }),
    // The count and the buffer.
    ("reads the whole count in a short buffer", |list, count, start| {
        let found = place(list, count, start);
        let lacks_records = found.place == found.looked && count > list.len() / NUMBERS;
        // What stands behind the buffer comes out later.
        Place { looked: found.looked + usize::from(lacks_records), ..found }
    }),
    ("does not cut the count to the buffer", |list, count, start| {
        let found = place(list, count, start);
        if found.place == found.looked {
            Place { place: count, looked: count }
        } else {
            found
        }
    }),
    ("looks at a part of a record", |list, count, start| {
        let whole = [list, &[0; NUMBERS][..list.len().next_multiple_of(NUMBERS) - list.len()]].concat();
        place(&whole, count, start)
    }),
    ("goes over the whole buffer", |list, _, start| place(list, usize::MAX, start)),
    ("goes over 2,048 records at most", |list, count, start| place(list, count.min(2_048), start)),
    ("takes the count in 32 bits", |list, count, start| place(list, count as u32 as usize, start)),
    ("takes six times the count, which wraps", |list, count, start| {
        place(list, count.wrapping_mul(NUMBERS) / NUMBERS, start)
    }),
];

/// The starts of the records that the count and the buffer have.
fn starts(list: &[u32], count: usize) -> Vec<u32> {
    list.chunks_exact(NUMBERS).take(count).map(|record| record[START]).collect()
}

/// The place before the first record of which this holds.
fn first(list: &[u32], count: usize, holds: impl Fn(&[u32]) -> bool) -> Place {
    before(list.chunks_exact(NUMBERS).take(count).position(holds), list, count)
}

/// Before this record, or behind all.
fn before(record: Option<usize>, list: &[u32], count: usize) -> Place {
    at(record.unwrap_or(usize::MAX), list, count)
}

/// This place, at most the one behind all, as if the record there were the first later one.
fn at(place: usize, list: &[u32], count: usize) -> Place {
    let records = starts(list, count).len();
    let place = place.min(records);
    Place { place, looked: place.saturating_add(1).min(records) }
}
