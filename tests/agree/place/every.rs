//! Every start on and between the records of lists of many lengths, sorted and not; and short lists in number.

use super::comparison::Comparison;
use super::shapes::{self, any, around, with_starts};
use crate::lists::NUMBERS;
use crate::random::Random;

const COUNTS: [usize; 16] = [0, 1, 2, 7, 8, 9, 15, 16, 17, 255, 256, 257, 2_047, 2_048, 2_049, 3_000];
/// More records than sixteen bits count.
const MANY: usize = 70_000;
const SHORT_LISTS: usize = 20_000;

pub fn run(comparison: &mut Comparison) -> Result<(), String> {
    let random = &mut comparison.begin("every start");
    for shape in shapes::ALL {
        for count in COUNTS {
            let starts = shape(random, count);
            let behind = random.below(2 * NUMBERS);
            comparison.alike(&with_starts(random, &starts, behind), &around(&starts))?;
        }
    }
    let starts: Vec<_> = (0..MANY as u32).collect();
    let asked = [0, 1, 65_534, 65_535, 65_536, 69_998, 69_999, 70_000];
    comparison.alike(&with_starts(random, &starts, 0), &asked)?;

    let random = &mut comparison.begin("short lists");
    (0..SHORT_LISTS).try_for_each(|_| short(comparison, random))
}

/// A list of some records, of starts that are near each other or far apart, and a count below, at or above them.
fn short(comparison: &mut Comparison, random: &mut Random) -> Result<(), String> {
    let records = random.below(40);
    let end = random.pick(&[2, 8, 64, 5_529_600, 1 << 32]);
    let mut starts = any(random, records, end);
    if random.one_in(2) {
        starts.sort();
    }
    let behind = random.below(NUMBERS);
    let mut list = with_starts(random, &starts, behind);
    if random.one_in(2) {
        list.count = random.below(records + 8);
    }
    let mut asked = any(random, 4, end);
    asked.extend(around(&any(random, 1, end)));
    comparison.alike(&list, &asked)
}
