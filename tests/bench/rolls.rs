//! Roll of a list with as many events on each of the window's 64 days: those of the first day leave. As for Edit, the
//! copy that restores the list stands before the clock starts.

use crate::library;
use crate::lists::{List, NUMBERS, START};
use crate::other::{self, Caller, Rolled};
use crate::pools::Pools;
use crate::random::Random;
use crate::table::{head, row, shortest};
use std::hint::black_box;
use std::time::{Duration, Instant};

const BASE_DAY: u32 = 49_273;
const DAYS: usize = 64;
const DAY_SECONDS: usize = 86_400;

/// The callers, each with as many events as it has at most.
const LISTS: [(&str, Caller); 2] = [("2,048 events", Caller::Broadcast), ("cable, 256 events", Caller::Cable)];

type Roll = fn(Caller, &mut [u32], usize, &[u8], &[u8], u32) -> Rolled;

pub fn run(random: &mut Random) {
    head("roll, a day leaves, MB of the list");
    for (name, caller) in LISTS {
        let (pools, list) = lent(random, caller);
        let (_, outcome) = call(library::roll, caller, &pools, &list);
        assert_eq!(outcome.0, rolled(&list), "a refusal");
        assert!(outcome == call(other::roll, caller, &pools, &list).1, "the two disagree");
        let times: [Roll; 2] = [library::roll, other::roll];
        let times = times.map(|roll| shortest(|| call(roll, caller, &pools, &list).0));
        row(name, size_of::<[u32; NUMBERS]>() * list.count, times, None);
    }
}

/// One call of the library with the largest list.
pub fn once(random: &mut Random) {
    let (_, caller) = LISTS[0];
    let (pools, list) = lent(random, caller);
    let (_, (answer, _)) = call(library::roll, caller, &pools, &list);
    assert_eq!(answer, rolled(&list), "a refusal");
}

/// A list of the caller's most events, which are as far apart as a day has room for.
fn lent(random: &mut Random, caller: Caller) -> (Pools, List) {
    let pools = Pools::of_chains(random, 20_000, 20_000);
    let count = caller.sizes().events;
    let mut list = List::sound(random, &pools, count, NUMBERS * count);
    let apart = DAY_SECONDS / (count / DAYS);
    for place in 0..count {
        let duration = 1 + random.below(apart);
        list.set(place, START, &[(apart * place) as u32, duration as u32]);
    }
    (pools, list)
}

/// What is answered if the events of one day leave.
fn rolled(list: &List) -> Rolled {
    let count = list.count - list.count / DAYS;
    Rolled { number: 0, value: count, count, base_day: BASE_DAY + 1 }
}

/// How long one roll takes, what it answers, and the buffer that it leaves.
fn call(roll: Roll, caller: Caller, pools: &Pools, list: &List) -> (Duration, (Rolled, Vec<u32>)) {
    let (day, series) = (pools.day.bytes(), pools.series.bytes());
    let mut numbers = list.numbers.clone();
    let begun = Instant::now();
    let answer = roll(caller, black_box(&mut numbers), list.count, day, series, black_box(BASE_DAY));
    (begun.elapsed(), (answer, numbers))
}
