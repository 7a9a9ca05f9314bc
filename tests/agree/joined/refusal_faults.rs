//! Faults of refusals for what the same script did before: the same stands on both sides, and must show by two scripts
//! apart and joined (02, W-214).

use super::script_faults::{carry_out, OF_CALL};
use crate::other::{edit, Answer, Caller};
use crate::times::Times;
use crate::walk::{id, number, unstruck, At, MOVE, PUT, WITHDRAW};

/// A refusal that the papers do not have: its number, and whether it is for an edit, by the edits before it and the
/// records that were lent.
#[derive(Clone, Copy)]
pub struct Refusal {
    number: u32,
    is_for: fn(&[u8], &[At], &[u32]) -> bool,
}

pub const ALL: [(&str, Refusal); 5] = [
    (
        "puts no id that the script withdrew",
        Refusal { number: 6, is_for: |edit, before, _| edit[0] == PUT && names(before, WITHDRAW, edit) },
    ),
    (
        "withdraws no event that the script put",
        Refusal { number: 6, is_for: |edit, before, _| edit[0] == WITHDRAW && names(before, PUT, edit) },
    ),
    (
        "moves no event that the script put",
        Refusal { number: 6, is_for: |edit, before, _| edit[0] == MOVE && names(before, PUT, edit) },
    ),
    (
        "moves no event twice",
        Refusal { number: 6, is_for: |edit, before, _| edit[0] == MOVE && names(before, MOVE, edit) },
    ),
    (
        "puts into no time that an event had at first",
        Refusal { number: 30, is_for: |edit, _, lent| edit[0] == PUT && overlaps(lent, edit) },
    ),
];

impl Refusal {
    /// Edit that refuses, besides what the papers do, the first edit that this is for.
    pub fn edit(
        self,
        caller: Caller,
        list: &mut [u32],
        count: usize,
        day: &[u8],
        series: &[u8],
        script: &[u8],
    ) -> Answer {
        let answer = edit(caller, &mut list.to_vec(), count, day, series, script);
        if OF_CALL.contains(&answer.number) {
            return answer;
        }
        let edits = unstruck(script);
        let is_accepted = |place: &usize| answer.number == 0 || edits[*place].0 < answer.value;
        let is_refused = |place: &usize| (self.is_for)(edits[*place].1, &edits[..*place], &list[..6 * count]);
        let refused = (0..edits.len()).take_while(is_accepted).find(is_refused);
        let answer = carry_out(caller, list, count, day, series, &edits[..refused.unwrap_or(edits.len())]);
        refused.map_or(answer, |place| Answer { number: self.number, value: edits[place].0, ..answer })
    }
}

/// Whether one of the edits before, of this command, has the edit's id.
fn names(before: &[At], command: u8, edit: &[u8]) -> bool {
    before.iter().any(|(_, earlier)| earlier[0] == command && id(earlier) == id(edit))
}

/// Whether PUT overlaps one of the records.
fn overlaps(records: &[u32], put: &[u8]) -> bool {
    let (start, duration) = (number(put, 3), number(put, 7));
    let times = Times::between(start, start.saturating_add(duration));
    let of_record = |record: &[u32]| Times { start: record[1], duration: record[2] };
    times.is_some_and(|times| records.chunks(6).any(|record| times.overlaps(of_record(record))))
}
