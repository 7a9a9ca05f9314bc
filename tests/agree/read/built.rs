//! Files that Build makes, of lists of all kinds: Read gives the events back, and Build of them gives the file again.

use super::comparison::{Comparison, RECORDS_MAX};
use super::given::Given;
use crate::at_limits::at_limits;
use crate::build::{with_neighbours, BASE_DAY_MAX};
use crate::lineup::Lineup;
use crate::lists::List;
use crate::other::{Built, Identity, Lent, EVENT_FRONT};
use crate::pools::Pools;
use crate::random::Random;

pub fn run(comparison: &mut Comparison) -> Result<(), String> {
    let random = &mut comparison.groups.begin("built");
    let sizes = comparison.caller.sizes();
    let mut counts = vec![0, 1, 2, 3, 5, 12, 31, 100, 339, 700, sizes.events - 1, sizes.events];
    counts.retain(|count| *count <= sizes.events);
    let nothing = Given::new(comparison.caller, random, Lineup::new());
    round_trip(comparison, random, nothing)?;
    for _ in 0..40 {
        let given = Given::some(comparison.caller, random);
        round_trip(comparison, random, given)?;
    }
    for (day, series) in [(0, 0), (300, 200), (9_000, 4_000)] {
        let pools = || Pools::of_lengths(&mut Random::new(day as u64), day, series);
        for &count in &counts {
            let list = List::sound(random, &pools(), count, 6 * count);
            let limits = if count == 0 { Vec::new() } else { at_limits(random, &pools(), &list) };
            for list in limits.into_iter().take(if count > 100 { 1 } else { 10 }).chain([list]) {
                let given = Given::of(comparison.caller, random, pools(), list);
                round_trip(comparison, random, given)?;
            }
        }
    }
    let full = [
        vec![sizes.chain_max(); 8],
        vec![sizes.room() / 2 - EVENT_FRONT; 2],
        vec![0; sizes.room() / EVENT_FRONT + 1],
        vec![0],
    ];
    for index in [0, 31, 32, 511] {
        for lengths in &full {
            let (pools, list) = with_neighbours(comparison.caller, random, index, lengths);
            let given = Given::of(comparison.caller, random, pools, list);
            round_trip(comparison, random, given)?;
        }
    }
    Ok(())
}

/// Build, Read and Build again, unless the list is unpackable.
pub fn round_trip(comparison: &mut Comparison, random: &mut Random, mut given: Given) -> Result<(), String> {
    given.base_day = random.pick(&[given.base_day, given.base_day, 0, BASE_DAY_MAX]);
    let Some(file) = given.built() else {
        return Ok(());
    };
    let bytes = file.bytes();
    comparison.accepted(&file)?;
    comparison.answers((1, 0), &bytes, BASE_DAY_MAX + 1)?;
    let (reading, records) = comparison.read(&bytes, given.base_day, RECORDS_MAX)?;
    let records = &records[..6 * reading.count];
    let fault = if built(comparison, &given.lent(), &given, given.identity, bytes.len()).as_ref() != Some(&bytes) {
        "Build made another file"
    } else if reading.identity != given.identity_in(&file) {
        "Read returned another identity than Build was given"
    } else if !given.is_carried(records, &bytes) {
        "Read returned other events than Build was given"
    } else {
        let again = Lent { list: records, count: reading.count, day: &bytes, series: &[] };
        if built(comparison, &again, &given, reading.identity, bytes.len()).as_ref() == Some(&bytes) {
            return Ok(());
        }
        "Build of what Read returned made another file"
    };
    Err(comparison.describe(fault, &bytes, given.base_day, None))
}

/// What Build makes of these events under this identity, for the caller that they are given for, in an output of this
/// length, if it fills it.
pub fn built(
    comparison: &Comparison,
    lent: &Lent,
    given: &Given,
    identity: Identity,
    length: usize,
) -> Option<Vec<u8>> {
    let mut output = vec![0; length];
    let built = (comparison.subject.build)(given.caller, lent, given.base_day, identity, &mut output);
    (built == Built { number: 0, value: length }).then_some(output)
}
