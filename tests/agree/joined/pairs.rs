//! Two scripts that are accepted one after the other, and the two joined: 02, W-214.

use super::apart::{self, Apart};
use super::following::{self, Maker, ACCEPTED};
use crate::edits::Comparison;
use crate::held::Held;
use crate::lists::{List, NUMBERS};
use crate::outcome::Outcome;
use crate::pools::Pools;
use crate::random::Random;
use crate::scripts::{bytes, Command};
use crate::tally::{each_kind, Kind};

/// Both scripts are accepted.
pub const JOINED: &str = "joined";

const NOTHING_FIRST: &str = "nothing first";
const NOTHING_SECOND: &str = "nothing second";
const NOTHING_TWICE: &str = "nothing twice";
const SHORT_LIST: &str = "edits on a short list";
const LONG_LIST: &str = "edits on a long list";
const LIKELY: &str = "likely edits and UNDO";

/// How the scripts leave the list.
const FULL_BETWEEN: &str = "the list at its limit between the two";
const FULL_AFTER: &str = "the list at its limit after both";

pub fn kinds() -> Vec<Kind> {
    let drawn = [NOTHING_FIRST, NOTHING_SECOND, NOTHING_TWICE, SHORT_LIST, LONG_LIST, LIKELY, FULL_BETWEEN, FULL_AFTER];
    each_kind(JOINED, drawn.into_iter().chain(ACCEPTED.map(|(kind, _)| kind)))
}

pub fn run(comparison: &mut Comparison) -> Result<(), String> {
    let random = &mut comparison.groups.begin("joined");
    for (day, series) in [(300, 200), (0, 0), (50, 0)] {
        let pools = Pools::of_lengths(random, day, series);
        for _ in 0..200 {
            each(comparison, random, &pools, 8)?;
        }
        for _ in 0..4_000 {
            likely(comparison, random, &pools)?;
        }
        for (kind, counts, edits, times) in [(SHORT_LIST, 12, 30, 400), (LONG_LIST, 200, 100, 40)] {
            for _ in 0..times {
                edited(comparison, random, &pools, counts, (kind, edits))?;
            }
        }
    }
    let pools = Pools::of_lengths(random, 300, 200);
    let most = comparison.caller.sizes().events;
    each(comparison, random, &pools, most)?;
    for _ in 0..20 {
        edited(comparison, random, &pools, most, (LONG_LIST, 300))?;
    }
    Ok(())
}

/// Nothing in one of the scripts, and what the first did taken up by the second in each way, on lists of up to so many
/// events.
fn each(comparison: &mut Comparison, random: &mut Random, pools: &Pools, counts: usize) -> Result<(), String> {
    nothing(comparison, random, pools, counts)?;
    ACCEPTED.into_iter().try_for_each(|following| taken_up(comparison, random, pools, counts, following))
}

/// A sound list of up to so many events, with a limit of 3 or more and close above its count.
pub fn near_limit(random: &mut Random, pools: &Pools, counts: usize) -> List {
    let count = random.below(counts + 1);
    let numbers = NUMBERS * (count + random.below(8)).max(3) + random.below(NUMBERS);
    List::sound(random, pools, count, numbers)
}

fn nothing(comparison: &mut Comparison, random: &mut Random, pools: &Pools, counts: usize) -> Result<(), String> {
    let list = near_limit(random, pools, counts);
    let edits = Held::by(comparison.caller, &list).edits(random, pools, 3);
    of_kind(comparison, pools, &list, NOTHING_FIRST, [&[], &edits])?;
    of_kind(comparison, pools, &list, NOTHING_SECOND, [&edits, &[]])?;
    of_kind(comparison, pools, &list, NOTHING_TWICE, [&[], &[]])
}

/// What the first did is taken up by the second, between other edits.
fn taken_up(
    comparison: &mut Comparison,
    random: &mut Random,
    pools: &Pools,
    counts: usize,
    (kind, maker): (&'static str, Maker),
) -> Result<(), String> {
    let list = near_limit(random, pools, counts);
    let mut held = Held::by(comparison.caller, &list);
    let Some([first, mut second]) = following::scripts(random, pools, &mut held, maker) else {
        return Ok(());
    };
    let behind = random.below(3);
    second.extend(held.edits(random, pools, behind));
    of_kind(comparison, pools, &list, kind, [&first, &second])
}

/// Up to so many edits each, with struck ones between them.
fn edited(
    comparison: &mut Comparison,
    random: &mut Random,
    pools: &Pools,
    counts: usize,
    (kind, edits): (&'static str, usize),
) -> Result<(), String> {
    let list = near_limit(random, pools, counts);
    let mut held = Held::by(comparison.caller, &list);
    let [first, second] =
        [random.below(edits + 1), random.below(edits + 1)].map(|edits| held.edits(random, pools, edits));
    of_kind(comparison, pools, &list, kind, [&first, &second])
}

/// Edits of any kind and UNDO on a short list. Most are refused, and only what is accepted counts.
fn likely(comparison: &mut Comparison, random: &mut Random, pools: &Pools) -> Result<(), String> {
    let list = near_limit(random, pools, 5);
    let commands = [1 + random.below(2), 1 + random.below(3)];
    let first = Held::by(comparison.caller, &list).likely(random, pools, commands[0]);
    let Outcome { answer, left } = comparison.alike(pools, &list, &bytes(&first))?;
    if answer.number != 0 {
        return Ok(());
    }
    let second = Held::by(comparison.caller, &left).likely(random, pools, commands[1]);
    of_kind(comparison, pools, &list, LIKELY, [&first, &second])
}

/// The two scripts, which are of this kind if both are accepted.
fn of_kind(
    comparison: &mut Comparison,
    pools: &Pools,
    list: &List,
    kind: &'static str,
    [first, second]: [&[Command]; 2],
) -> Result<(), String> {
    let limit = comparison.caller.sizes().events.min(list.numbers.len() / NUMBERS);
    let apart = apart::run(comparison, pools, list, &bytes(first), &bytes(second))?;
    if let Some(Apart { first, second, .. }) = apart.filter(Apart::is_accepted) {
        let [between, after] = [first, second].map(|outcome| outcome.left.count == limit);
        comparison.tally.came_up(JOINED, &[(kind, true), (FULL_BETWEEN, between), (FULL_AFTER, after)]);
    }
    Ok(())
}
