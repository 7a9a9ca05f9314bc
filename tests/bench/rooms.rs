//! How much text still fits: in a crowded segment of a list with the most events, and in an evening's list. The other
//! implementation halves, too.

use crate::library;
use crate::lineup::{Lineup, SEGMENT_SECONDS};
use crate::lists::{List, NUMBERS, START};
use crate::other::{self, Caller, ChainRoom, Lent};
use crate::pools::Pools;
use crate::random::Random;
use crate::table::{head, row, shortest};
use std::hint::black_box;
use std::time::Instant;

/// The crowded segment, in the middle of the window, and its events. The others stand four to a segment around it.
const CROWDED_INDEX: usize = 256;
const CROWDED_EVENTS: usize = 40;
const EVENTS_EACH: usize = 4;

/// Programmes from 17:00:00 on, every half hour.
const EVENING_START: u32 = 61_200;
const EVENING_EVENTS: u32 = 10;
const HALF_HOUR: u32 = 1_800;

/// A call takes less than a clock tells apart.
const CALLS: u32 = 20;

type Call = fn(Caller, &Lent, u32) -> ChainRoom;

/// A list, and a start in it.
type Lists = fn(&mut Random, Caller) -> (Pools, List, u32);

/// The lists, and whether the longest chain fits.
const LISTS: [(&str, Caller, Lists, bool); 3] = [
    ("2,048 events, a crowded segment", Caller::Broadcast, crowded, false),
    ("cable, 256 events, a crowded one", Caller::Cable, crowded, false),
    ("an evening, 10 events", Caller::Broadcast, evening, true),
];

pub fn run(random: &mut Random) {
    head("chain_room, MB of the list");
    for (name, caller, lists, is_longest) in LISTS {
        let (pools, list, start) = lists(random, caller);
        let lent = lent(&pools, &list);
        let [got, wanted] =
            [library::chain_room, other::chain_room_halved].map(|room: Call| room(caller, &lent, start));
        assert_eq!(got, wanted, "the two disagree");
        assert_eq!(got.length == Some(caller.sizes().chain_max()), is_longest, "another list than was meant");
        assert!(got.length.is_some(), "nothing fits");
        let times = [library::chain_room, other::chain_room_halved].map(|room: Call| {
            shortest(|| {
                let begun = Instant::now();
                for _ in 0..CALLS {
                    black_box(room(caller, black_box(&lent), black_box(start)));
                }
                begun.elapsed() / CALLS
            })
        });
        row(name, size_of::<[u32; NUMBERS]>() * list.count, times, None);
    }
}

/// One call of the library with the largest list.
pub fn once(random: &mut Random) {
    let (_, caller, lists, _) = LISTS[0];
    let (pools, list, start) = lists(random, caller);
    let room = library::chain_room(caller, &lent(&pools, &list), start);
    assert!(room.number == 0 && room.length.is_some(), "nothing fits");
}

/// As many events as the caller has at most. Those of one segment leave some two hundred bytes of each of eight
/// sections, and the start is in their middle.
fn crowded(random: &mut Random, caller: Caller) -> (Pools, List, u32) {
    let mut lineup = Lineup::new();
    let others = caller.sizes().events - CROWDED_EVENTS;
    let segments = others / EVENTS_EACH;
    let first = CROWDED_INDEX - segments / 2;
    let each = caller.sizes().chain_max() * 8 / CROWDED_EVENTS * 15 / 16;
    for index in first..=first + segments {
        if index == CROWDED_INDEX {
            let lengths = [(); CROWDED_EVENTS].map(|()| each - random.below(each / 16));
            lineup.segment(random, index, &lengths);
        } else {
            let lengths = [(); EVENTS_EACH].map(|()| 2 + random.below(60));
            lineup.segment(random, index, &lengths);
        }
    }
    let (pools, list) = lineup.lend(random);
    let start = free_in_middle(&list, CROWDED_INDEX);
    (pools, list, start)
}

/// A second behind an event in the middle of the segment, which is free.
fn free_in_middle(list: &List, index: usize) -> u32 {
    let starts: Vec<_> = (0..list.count).map(|place| list.get(place, START)).collect();
    let own: Vec<_> = starts.iter().filter(|start| **start / SEGMENT_SECONDS == index as u32).collect();
    let behind = own[own.len() / 2..].iter().map(|start| **start + 1);
    behind.into_iter().find(|start| !starts.contains(start)).expect("a second is free")
}

/// Programmes with 200 to 1,000 bytes of descriptors each, and a start behind the sixth.
fn evening(random: &mut Random, _: Caller) -> (Pools, List, u32) {
    let mut lineup = Lineup::new();
    for place in 0..EVENING_EVENTS {
        let chain_length = 200 + random.below(801);
        lineup.event(random, EVENING_START + HALF_HOUR * place, chain_length);
    }
    let (pools, list) = lineup.lend(random);
    (pools, list, EVENING_START + HALF_HOUR * 6 - 60)
}

fn lent<'a>(pools: &'a Pools, list: &'a List) -> Lent<'a> {
    Lent { list: &list.numbers, count: list.count, day: pools.day.bytes(), series: pools.series.bytes() }
}
