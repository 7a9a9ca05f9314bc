//! What a sound list is asked for and what is answered, by what matters of it.

use super::case::{Case, SEGMENT_SECONDS};
use crate::lists::{List, DURATION, LENGTH, NUMBERS, START, START_END};
use crate::other::{plan, Caller, Plan};

const UNPACKABLE: u8 = 255;

pub struct Asked<'a> {
    pub caller: Caller,
    pub case: Case<'a>,
    plan: Plan,
    pub length: Option<usize>,
    /// The segment's events that start earlier, and later, and the longest chain of all of them.
    pub before: usize,
    pub behind: usize,
    pub longest: usize,
}

impl<'a> Asked<'a> {
    pub fn new(caller: Caller, case: Case<'a>, length: Option<usize>) -> Asked<'a> {
        let List { numbers, count } = case.list;
        let is_own = |record: &&[u32]| (record[START] / SEGMENT_SECONDS) as usize == case.index();
        let own: Vec<_> = numbers[..NUMBERS * count].chunks(NUMBERS).filter(is_own).collect();
        Asked {
            caller,
            case,
            plan: plan(caller, &case.lent()),
            length,
            before: own.iter().filter(|record| record[START] < case.start).count(),
            behind: own.iter().filter(|record| record[START] > case.start).count(),
            longest: own.iter().map(|record| record[LENGTH] as usize).max().unwrap_or_default(),
        }
    }

    pub fn fits(&self) -> bool {
        self.length.is_some()
    }

    pub fn is_longest(&self) -> bool {
        self.length == Some(self.caller.sizes().chain_max())
    }

    /// Some bytes, but fewer than the longest has.
    pub fn is_less(&self) -> bool {
        self.length.is_some_and(|length| length > 0) && !self.is_longest()
    }

    /// None, for the bytes of the segment alone.
    pub fn is_too_full(&self) -> bool {
        !self.fits() && !self.case.is_taken() && self.case.start < START_END
    }

    /// The start's second in its segment.
    pub fn second(&self) -> u32 {
        self.case.start % SEGMENT_SECONDS
    }

    /// Whether the segment is one of the window and has no events.
    pub fn is_alone(&self) -> bool {
        self.case.start < START_END && self.before + self.behind == 0 && !self.case.is_taken()
    }

    pub fn is_most(&self) -> bool {
        self.case.list.count == self.caller.sizes().events
    }

    /// Plan's entry of the segment so far from the start's, if there is one.
    pub fn entry(&self, far: isize) -> Option<u8> {
        self.case.index().checked_add_signed(far).and_then(|index| self.plan.get(index).copied())
    }

    pub fn is_unpackable(&self, far: isize) -> bool {
        self.entry(far) == Some(UNPACKABLE)
    }

    /// Whether a segment is unpackable that is neither the start's nor beside it.
    pub fn is_unpackable_far_off(&self) -> bool {
        let index = self.case.index();
        (0..self.plan.len()).any(|other| index.abs_diff(other) > 1 && self.plan[other] == UNPACKABLE)
    }

    /// The segment's sections without the new event.
    pub fn sections(&self) -> u8 {
        self.entry(0).unwrap_or_default()
    }

    /// Whether an event of the list has such a start.
    pub fn has(&self, is_such: impl Fn(u32) -> bool) -> bool {
        (0..self.case.list.count).any(|place| is_such(self.case.list.get(place, START)))
    }

    /// Whether the start is in a programme, which began in the segment, or before it.
    pub fn runs(&self, in_segment: bool) -> bool {
        let start = self.case.start;
        let is_on = |record: &[u32]| record[START] < start && start - record[START] < record[DURATION];
        let began_in_segment = |record: &[u32]| record[START] / SEGMENT_SECONDS == start / SEGMENT_SECONDS;
        let mut records = self.case.list.numbers.chunks(NUMBERS).take(self.case.list.count);
        records.any(|record| is_on(record) && began_in_segment(record) == in_segment)
    }

    /// Whether a record behind the list has the start.
    pub fn is_behind_count(&self) -> bool {
        let mut behind = self.case.list.numbers.chunks_exact(NUMBERS).skip(self.case.list.count);
        behind.any(|record| record[START] == self.case.start)
    }
}
