//! The answer beside Edit and Build, of the subject alone (02, W-201): with one more event of so many bytes, and with
//! one of less, Build says 10 where it did before; with one of more bytes it says 10 for the segment, too.

use super::case::{Case, SEGMENT_SECONDS};
use super::comparison::Comparison;
use super::segments::{apart, with_others, INDICES};
use crate::chain_lengths::taking;
use crate::lists::{DURATION, NUMBERS, START, START_END};
use crate::other::Caller;
use crate::random::Random;
use crate::tally::{each_kind, Kind};

const PUT: &str = "PUT by chain_room's answer";

const LONGEST: &str = "the longest";
const LESS: &str = "less than the longest";
const ZERO: &str = "0, and not 2";
const SHORTER: &str = "shorter than the answer";
const NONE: &str = "none, and not 0";
const UNPACKABLE: &str = "none in an unpackable segment";
const ELSEWHERE: &str = "a lower segment is unpackable";
const ELSEWHERE_BEHIND: &str = "a higher segment is unpackable";
const TAKEN: &str = "30: taken";
const RUNNING: &str = "30: in a programme";
const PAST: &str = "5: past the last segment";
const AT_LIMIT: &str = "8: the list at its limit";

/// Broadcast has four times the lengths to be tried.
const LISTS: usize = 60;
const LISTS_CABLE: usize = 120;

/// The longest chain that a PUT can have.
const PUT_MAX: usize = 65_535;

pub fn kinds() -> Vec<Kind> {
    let answers = [LONGEST, LESS, ZERO, SHORTER, NONE, UNPACKABLE, ELSEWHERE, ELSEWHERE_BEHIND];
    each_kind(PUT, answers.into_iter().chain([TAKEN, RUNNING, PAST, AT_LIMIT]))
}

pub fn run(comparison: &mut Comparison) -> Result<(), String> {
    let random = &mut comparison.groups.begin("put");
    let caller = comparison.caller;
    let lists = if caller == Caller::Broadcast { LISTS } else { LISTS_CABLE };
    for _ in 0..lists {
        let lengths = chains(caller, random);
        let starts = apart(random, lengths.len());
        let index = random.pick(&INDICES);
        let (pools, mut list) = with_others(caller, random, index, &starts, &lengths);
        // Every start that is not taken is then free, but for some lists.
        if !random.one_in(4) {
            (0..list.count).for_each(|place| list.set(place, DURATION, &[1]));
        }
        // The buffer has room for one more, but for some lists.
        let more = if random.one_in(6) { 0 } else { 1 };
        list.numbers.resize(NUMBERS * (list.count + more), 0);
        let list = &list;
        let first = SEGMENT_SECONDS * index as u32;
        let some = random.pick(&starts);
        let last = starts[starts.len() - 1];
        for start in [starts[0] - 1, some - 1, some + 1, last + 1, random.pick(&[some, START_END - first])] {
            one(comparison, random, Case { pools: &pools, list, start: first + start })?;
        }
    }
    Ok(())
}

/// Chains that nearly fill eight sections, or fewer or more, and at times one that no section holds.
fn chains(caller: Caller, random: &mut Random) -> Vec<usize> {
    let room = caller.sizes().room();
    let sections = random.pick(&[1, 7, 8, 8, 8, 8, 9]);
    let most = random.pick(&[1, 16, 16, 300]);
    let mut lengths = Vec::new();
    for _ in 0..sections {
        let (left, events) = (random.below(most), 1 + random.below(3));
        lengths.extend(taking(random, room - left, events));
    }
    if random.one_in(12) {
        let place = random.below(lengths.len());
        lengths[place] = caller.sizes().chain_max() + 1;
    }
    lengths
}

/// What the answer says of an event that is put at the start.
fn one(comparison: &mut Comparison, random: &mut Random, case: Case) -> Result<(), String> {
    let length = comparison.alike(case)?.length;
    let before = comparison.lowest_unpackable(case)?;
    let index = case.index();
    if before == Some(index) && length.is_some() {
        return Err(comparison.describe(&format!("answered {length:?}, and the segment is unpackable"), case));
    }
    let with_index = Some(before.map_or(index, |before| before.min(index)));
    // The lengths to be put, and the lowest segment that is unpackable then.
    let mut wanted = Vec::new();
    if let Some(length) = length {
        wanted.push((length, before));
        let shorter = random.below(length + 1);
        wanted.push((if shorter == 1 { 0 } else { shorter }, before));
    }
    let next = length.map_or(0, |length| (length + 1).max(2));
    wanted.push((next, with_index));
    let longer = next + random.below(PUT_MAX - next + 1);
    wanted.push((if longer == 1 { 2 } else { longer }, with_index));
    for (put_length, unpackable) in wanted {
        let fault = match comparison.put(random, case, put_length) {
            Ok((pools, list)) => {
                let after = comparison.lowest_unpackable(Case { pools: &pools, list: &list, ..case })?;
                if after == unpackable {
                    continue;
                }
                format!("answered {length:?}; with {put_length} bytes put, unpackable is {after:?}, not {unpackable:?}")
            }
            Err(number) => match refusal(comparison, case, length, number) {
                Some(kind) => {
                    comparison.tally.kind((PUT, kind));
                    return Ok(());
                }
                None => format!("answered {length:?}, and PUT of {put_length} bytes is refused with {number}"),
            },
        };
        return Err(comparison.describe(&fault, case));
    }
    let longest = comparison.caller.sizes().chain_max();
    let kinds = [
        (LONGEST, length == Some(longest)),
        (LESS, length.is_some_and(|length| length > 0 && length < longest)),
        (ZERO, length == Some(0)),
        (SHORTER, length.is_some_and(|length| length > 0)),
        (NONE, length.is_none() && before != Some(index)),
        (UNPACKABLE, length.is_none() && before == Some(index)),
        (ELSEWHERE, length.is_some() && before.is_some_and(|before| before < index)),
        (ELSEWHERE_BEHIND, length.is_some() && before.is_some_and(|before| before > index)),
    ];
    comparison.tally.came_up(PUT, &kinds);
    Ok(())
}

/// The kind of a refusal by Edit that goes with the answer: only the bytes of the segment play a part in it.
fn refusal(comparison: &Comparison, case: Case, length: Option<usize>, number: u32) -> Option<&'static str> {
    let starts_before = |place: &usize| case.list.get(*place, START) < case.start;
    let runs = (0..case.list.count).rfind(starts_before).is_some_and(|place| case.list.times(place).end() > case.start);
    let room = (case.list.numbers.len() / NUMBERS).min(comparison.caller.sizes().events);
    match number {
        5 if case.start >= START_END && length.is_none() => Some(PAST),
        30 if case.is_taken() && length.is_none() => Some(TAKEN),
        30 if runs && !case.is_taken() => Some(RUNNING),
        8 if case.list.count == room => Some(AT_LIMIT),
        _ => None,
    }
}
