//! Lists at their limit whose events leave, come and change places thousands of times in one script, so that what held
//! an event holds others later.

use crate::edits::Comparison;
use crate::full::Full;
use crate::lists::NUMBERS;
use crate::pools::Pools;
use crate::random::Random;
use crate::scripts::bytes;
use crate::spaced::spaced;

/// A script has at least so many edits.
pub const EDITS: usize = 12_000;
/// By the buffer or the caller's most events.
const LIMITS: [usize; 7] = [8, 17, 255, 256, 257, 2_047, 2_048];

pub fn run(comparison: &mut Comparison) -> Result<(), String> {
    let random = &mut comparison.groups.begin("reuse");
    let pools = Pools::of_lengths(random, 300, 200);
    let most = comparison.caller.sizes().events;
    for limit in LIMITS.into_iter().filter(|limit| *limit <= most) {
        for turn in TURNS {
            let more = if limit == most { random.below(60) } else { random.below(NUMBERS) };
            let list = spaced(random, &pools, limit, NUMBERS * limit + more);
            let mut full = Full::by(&list);
            while full.commands.len() < EDITS {
                turn(&mut full, random, &pools);
            }
            let script = bytes(&full.commands);
            comparison.answers((0, full.events.len()), &pools, &list, &script)?;
            let some = EDITS - random.below(EDITS / 4);
            comparison.alike(&pools, &list, &bytes(&full.commands[..some]))?;
        }
    }
    Ok(())
}

/// A few edits that are carried out, after which the list is at its limit again.
type Turn = fn(&mut Full, &mut Random, &Pools);

const TURNS: [Turn; 7] = [
    // Anywhere.
    |full, random, pools| {
        let place = random.below(full.events.len());
        full.withdraw(place);
        full.put(random, pools, Full::anywhere);
        let place = random.below(full.events.len());
        full.move_one(random, place, Full::anywhere);
    },
    // The first leaves, and one comes behind the last; and the other way round.
    |full, random, pools| {
        full.withdraw(0);
        full.put(random, pools, Full::behind_all);
    },
    |full, random, pools| {
        full.withdraw(full.events.len() - 1);
        full.put(random, pools, Full::before_all);
    },
    // One leaves, and another comes at the very start, or the same event again.
    |full, random, pools| {
        let place = random.below(full.events.len());
        full.withdraw(place);
        full.put(random, pools, Full::where_one_left);
    },
    // The first moves behind the last, the last before the first, and one anywhere.
    |full, random, _| {
        full.move_one(random, 0, Full::behind_all);
        full.move_one(random, full.events.len() - 1, Full::before_all);
        let place = random.below(full.events.len());
        full.move_one(random, place, Full::anywhere);
    },
    // Many leave, at times all, from the front, the back or anywhere; then as many come.
    |full, random, pools| {
        let limit = full.events.len();
        let leaving = if random.one_in(4) { limit } else { 1 + random.below(limit) };
        let from = random.below(3);
        for _ in 0..leaving {
            let count = full.events.len();
            let anywhere = random.below(count);
            full.withdraw([0, count - 1, anywhere][from]);
        }
        for _ in 0..leaving {
            full.put(random, pools, Full::anywhere);
        }
    },
    // One of the two at the limit's end leaves and comes, so that the same is used again and again.
    |full, random, pools| {
        let last = full.events.len() - 1;
        full.withdraw(last - random.below(2));
        full.put(random, pools, Full::where_one_left);
    },
];
