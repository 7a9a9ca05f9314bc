//! Two withdrawals of different events leave the same buffer in either order (02, W-214), in one script or in two.

use crate::edits::Comparison;
use crate::lists::{Behind, List, ID, NUMBERS};
use crate::pools::Pools;
use crate::random::Random;
use crate::scripts::{bytes, Command};
use crate::tally::{each_kind, Kind};

const WITHDRAWALS: &str = "two withdrawals";

/// Of which events.
const FIRST_AND_LAST: &str = "the first and the last";
const NEIGHBOURS: &str = "neighbours";
const APART: &str = "others between them";
const OF_MOST: &str = "of the caller's most events";

/// What stands behind the list, and how many numbers at least: records stand behind a record of zeros.
const BEHIND: [(&str, Behind, usize); 4] = [
    ("nothing behind the list", Behind::Zeros, 0),
    ("zeros behind the list", Behind::Zeros, NUMBERS),
    ("any numbers behind the list", Behind::Any, NUMBERS),
    ("its records behind the list", Behind::Records, 2 * NUMBERS),
];

/// Every two events of a list of at most so many.
const SHORT: usize = 6;

pub fn kinds() -> Vec<Kind> {
    let events = [FIRST_AND_LAST, NEIGHBOURS, APART, OF_MOST];
    each_kind(WITHDRAWALS, events.into_iter().chain(BEHIND.map(|(kind, ..)| kind)))
}

pub fn run(comparison: &mut Comparison) -> Result<(), String> {
    let random = &mut comparison.groups.begin("withdrawals");
    let pools = Pools::of_lengths(random, 300, 200);
    let most = comparison.caller.sizes().events;
    let any = [(); 3].map(|()| (2 + random.below(most - 1), 1));
    let counts = [(2, 12), (3, 12), (4, 8), (SHORT, 4), (20, 20), (most - 1, 1), (most, 1)];
    for (count, times) in counts.into_iter().chain(any) {
        for (kind, behind, least) in BEHIND.repeat(times) {
            let more = if least == 0 { 0 } else { least + random.below(2 * NUMBERS) };
            let list = List::sound(random, &pools, count, NUMBERS * count);
            let list = list.in_buffer(random, NUMBERS * count + more, behind);
            for places in two_places(random, count) {
                in_either_order(comparison, &pools, &list, places)?;
            }
            comparison.tally.kind((WITHDRAWALS, kind));
        }
    }
    Ok(())
}

/// Pairs of different places below the count, which is 2 or more.
fn two_places(random: &mut Random, count: usize) -> Vec<[usize; 2]> {
    if count <= SHORT {
        return (1..count).flat_map(|second| (0..second).map(move |first| [first, second])).collect();
    }
    let last = count - 1;
    let neighbour = random.below(last);
    let mut places = vec![[0, last], [0, 1], [last - 1, last], [neighbour, neighbour + 1]];
    places.extend((0..4).map(|_| {
        let second = 1 + random.below(last);
        [random.below(second), second]
    }));
    places
}

/// The events at these places, of which the first stands before the second.
fn in_either_order(
    comparison: &mut Comparison,
    pools: &Pools,
    list: &List,
    [first, second]: [usize; 2],
) -> Result<(), String> {
    let [a, b] = [first, second].map(|place| bytes(&[Command::Withdraw(list.get(place, ID))]));
    let script = [&a[..], &b].concat();
    let wanted = comparison.alike(pools, list, &script)?;
    let after_a = comparison.alike(pools, list, &a)?.left;
    let after_b = comparison.alike(pools, list, &b)?.left;
    let others = [
        ("in the other order", comparison.alike(pools, list, &[&b[..], &a].concat())?),
        ("in two calls", comparison.alike(pools, &after_a, &b)?),
        ("in two calls in the other order", comparison.alike(pools, &after_b, &a)?),
    ];
    for (way, outcome) in others {
        outcome.same_as("in one script", &wanted).map_err(|difference| {
            comparison.describe(&format!("of two withdrawals, {way}, {difference}"), pools, list, &script)
        })?;
    }
    if wanted.answer.number != 0 {
        let fault = format!("of two withdrawals of events that are there answered {:?}", wanted.answer);
        return Err(comparison.describe(&fault, pools, list, &script));
    }
    let kinds = [
        (FIRST_AND_LAST, first == 0 && second == list.count - 1),
        (NEIGHBOURS, second == first + 1),
        (APART, second > first + 1),
        (OF_MOST, list.count == comparison.caller.sizes().events),
    ];
    comparison.tally.came_up(WITHDRAWALS, &kinds);
    Ok(())
}
