//! What a roll gives, its answer and the list that it leaves, and what it is to give by the request's own words.

use super::case::Case;
use crate::lists::{List, ID, NUMBERS, START};
use crate::other::Rolled;

pub const DAY_SECONDS: u32 = 86_400;

pub struct Outcome {
    pub rolled: Rolled,
    /// The whole buffer, and the count then held.
    pub left: List,
}

impl Outcome {
    pub fn new(rolled: Rolled, buffer: &[u32]) -> Outcome {
        Outcome { rolled, left: List { numbers: buffer.to_vec(), count: rolled.count } }
    }

    /// 02, W-205: n rolls "keep exactly the records whose start was at least 86,400 × n, in order, each shifted by that
    /// much", and "freed records become zeros, the base day grows by 1". What stood behind the list stays.
    pub fn of_rolls(first: Case, n: u32) -> Outcome {
        let taken_off = DAY_SECONDS * n;
        let stays = |place: &usize| first.list.get(*place, START) >= taken_off;
        let staying: Vec<_> = (0..first.list.count).filter(stays).collect();
        let count = staying.len();
        let mut left = first.list.with_count(count);
        left.numbers[..NUMBERS * first.list.count].fill(0);
        for (place, was) in staying.into_iter().enumerate() {
            left.set(place, ID, &first.list.numbers[NUMBERS * was..][..NUMBERS]);
            left.set(place, START, &[first.list.get(was, START) - taken_off]);
        }
        Outcome { rolled: Rolled { number: 0, value: count, count, base_day: first.base_day + n }, left }
    }

    /// A refusal returns 0, and leaves list, count and base day.
    pub fn of_refusal(case: Case, number: u32) -> Outcome {
        let rolled = Rolled { number, value: 0, count: case.list.count, base_day: case.base_day };
        Outcome { rolled, left: case.list.clone() }
    }

    /// It is the same as another outcome, which has a name here and as long a buffer; or else how it differs.
    pub fn same_as(&self, name: &str, other: &Outcome) -> Result<(), String> {
        if self.rolled != other.rolled {
            return Err(format!("answered {:?}, and {name} {:?}", self.rolled, other.rolled));
        }
        let mut numbers = self.left.numbers.iter().zip(&other.left.numbers).enumerate();
        match numbers.find(|(_, (number, of_other))| number != of_other) {
            None => Ok(()),
            Some((place, (number, of_other))) => {
                Err(format!("left {number} at number {place} of the buffer, and {name} {of_other}"))
            }
        }
    }
}
