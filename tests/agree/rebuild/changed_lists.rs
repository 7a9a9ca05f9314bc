//! Makers of a list in which one event is another: it has other values, is put, withdrawn or moved.

use crate::lineup::SEGMENT_SECONDS;
use crate::lists::{List, DURATION, DURATION_MAX, ID, LENGTH, MARKS, NUMBERS, OFFSET, START, START_END};
use crate::random::Random;
use crate::times::Times;

pub const TABLE_SECONDS: u32 = 32 * SEGMENT_SECONDS;

/// A free time that is not found after so many tries is not there.
const TRIES: usize = 40;

/// The list with the event in this place changed, if there is room for that. All are sound.
type Maker = fn(&mut Random, &List, usize) -> Option<List>;

pub const CHANGES: [(&str, Maker); 12] = [
    ("a second longer", |_, list, place| {
        let duration = list.get(place, DURATION) + 1;
        let fits = duration <= DURATION_MAX && list.get(place, START) + duration <= next_start(list, place);
        fits.then(|| list.with(place, DURATION, &[duration]))
    }),
    ("a second shorter", |_, list, place| {
        let duration = list.get(place, DURATION) - 1;
        (duration > 0).then(|| list.with(place, DURATION, &[duration]))
    }),
    ("another id", |random, list, place| Some(list.with(place, ID, &[free_id(random, list)]))),
    ("free_CA_mode", |_, list, place| Some(list.with(place, MARKS, &[list.get(place, MARKS) ^ 1]))),
    ("off air", |_, list, place| Some(list.with(place, MARKS, &[list.get(place, MARKS) ^ 4]))),
    ("no descriptors", |_, list, place| (list.get(place, LENGTH) > 0).then(|| list.with(place, LENGTH, &[0]))),
    ("other descriptors", |random, list, place| {
        // Of an event with its part in the same pool. Parts of the same length may have the same bytes.
        let other = random.below(list.count);
        let of = |place: usize, field| list.get(place, field);
        let is_other = of(other, MARKS) & 2 == of(place, MARKS) & 2 && of(other, LENGTH) != of(place, LENGTH);
        is_other.then(|| list.with(place, OFFSET, &[of(other, OFFSET), of(other, LENGTH)]))
    }),
    ("put behind it", |random, list, place| {
        let start = list.times(place).end();
        let duration = next_start(list, place).saturating_sub(start).min(60);
        let record = [free_id(random, list), start, duration, random.pick(&[0, 1, 4, 5]), 0, 0];
        (duration > 0 && start < START_END).then(|| list.with_event(record, true))
    }),
    ("withdrawn", |_, list, place| Some(without(list, place))),
    ("moved in its segment", |random, list, place| moved(random, list, place, SEGMENT_SECONDS)),
    ("moved in its table", |random, list, place| moved(random, list, place, TABLE_SECONDS)),
    ("moved anywhere", |random, list, place| moved(random, list, place, START_END)),
];

/// When the event behind this one begins; for the last one when any event can be over.
fn next_start(list: &List, place: usize) -> u32 {
    if place + 1 < list.count {
        list.get(place + 1, START)
    } else {
        u32::MAX
    }
}

fn free_id(random: &mut Random, list: &List) -> u32 {
    loop {
        let id = random.below(65_536) as u32;
        if (0..list.count).all(|place| list.get(place, ID) != id) {
            return id;
        }
    }
}

/// The list without the event in this place.
pub fn without(list: &List, place: usize) -> List {
    let mut shorter = list.with_count(list.count - 1);
    shorter.numbers.drain(NUMBERS * place..NUMBERS * (place + 1));
    shorter
}

/// The event at another start of the same part of the window, each part of so many seconds.
fn moved(random: &mut Random, list: &List, place: usize, part: u32) -> Option<List> {
    let own = list.times(place);
    let first = own.start - own.start % part;
    for _ in 0..TRIES {
        let start = first + random.below(part as usize) as u32;
        let times = Times { start, ..own };
        let is_free = (0..list.count).all(|other| other == place || !list.times(other).overlaps(times));
        if start != own.start && is_free {
            let mut record: [u32; NUMBERS] = list.numbers[NUMBERS * place..][..NUMBERS].try_into().expect("a record");
            record[START] = start;
            return Some(without(list, place).with_event(record, true));
        }
    }
    None
}
