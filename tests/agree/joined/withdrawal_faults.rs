//! Faults of what WITHDRAW moves and frees: the same stands on both sides, and must show by two withdrawals in either
//! order (02, W-214).

use super::script_faults::{carry_out, OF_CALL};
use crate::edits::Edit;
use crate::other::{edit, Answer, Caller};
use crate::walk::{id, unstruck, WITHDRAW};

pub const ALL: [(&str, Edit); 5] = [
    ("keeps what a freed record held", |caller, list, count, day, series, script| {
        let last: Freed = |records, _| &records[records.len() - 6..];
        edit_by_edit(caller, list, count, day, series, script, last)
    }),
    ("leaves a withdrawn record behind the list", |caller, list, count, day, series, script| {
        let withdrawn: Freed = |records, id| &records[6 * place(records, id)..][..6];
        edit_by_edit(caller, list, count, day, series, script, withdrawn)
    }),
    ("sets one freed record a script to zeros", |caller, list, count, day, series, script| {
        let before = list.to_vec();
        let answer = edit(caller, list, count, day, series, script);
        if answer.count + 1 < count {
            let others = 6 * (answer.count + 1)..6 * count;
            list[others.clone()].copy_from_slice(&before[others]);
        }
        answer
    }),
    // Withdrawals at a script's end.
    ("moves the last record into the gap", |caller, list, count, day, series, script| {
        if edit(caller, &mut list.to_vec(), count, day, series, script).number != 0 {
            return edit(caller, list, count, day, series, script);
        }
        let edits = unstruck(script);
        let withdraws = edits.iter().rev().take_while(|(_, edit)| edit[0] == WITHDRAW).count();
        let (others, withdraws) = edits.split_at(edits.len() - withdraws);
        let mut count = carry_out(caller, list, count, day, series, others).count;
        for (_, withdraw) in withdraws {
            let gap = place(&list[..6 * count], id(withdraw));
            count -= 1;
            list.copy_within(6 * count..6 * (count + 1), 6 * gap);
            list[6 * count..][..6].fill(0);
        }
        Answer { number: 0, value: count, count }
    }),
    // Withdrawals at its start.
    ("withdraws by the places that events had at first", |caller, list, count, day, series, script| {
        let answer = edit(caller, &mut list.to_vec(), count, day, series, script);
        if OF_CALL.contains(&answer.number) {
            return answer;
        }
        let lent = list[..6 * count].to_vec();
        let mut held: Vec<_> = lent.chunks(6).map(|record| record[0] as u16).collect();
        let mut by_places = script.to_vec();
        for (offset, withdraw) in unstruck(script).into_iter().take_while(|(_, edit)| edit[0] == WITHDRAW) {
            let place = place(&lent, id(withdraw));
            if place < held.len() {
                by_places[offset + 1..][..2].copy_from_slice(&held.remove(place).to_be_bytes());
            }
        }
        edit(caller, list, count, day, series, &by_places)
    }),
];

/// What a freed record is left with, by the records before and the id that is withdrawn.
type Freed = fn(&[u32], u32) -> &[u32];

fn edit_by_edit(
    caller: Caller,
    list: &mut [u32],
    mut count: usize,
    day: &[u8],
    series: &[u8],
    script: &[u8],
    freed: Freed,
) -> Answer {
    let answer = edit(caller, &mut list.to_vec(), count, day, series, script);
    if OF_CALL.contains(&answer.number) {
        return answer;
    }
    for at in unstruck(script) {
        let records = list[..6 * count].to_vec();
        let answer = carry_out(caller, list, count, day, series, &[at]);
        if answer.number != 0 {
            return answer;
        }
        if answer.count < count {
            list[6 * answer.count..][..6].copy_from_slice(freed(&records, id(at.1)));
        }
        count = answer.count;
    }
    Answer { number: 0, value: count, count }
}

/// The place of the record with this id, or behind all.
fn place(records: &[u32], id: u32) -> usize {
    records.chunks(6).take_while(|record| record[0] != id).count()
}
