//! Faults of how Edit carries out a script: each stands in for the library, and must show.

use crate::edits::{Edit, ORDER};
use crate::other::{edit, Answer};
use crate::walk::{first, first_undo, next};

pub const ALL: [(&str, Edit); 13] = [
    ("carries out just the first command", |caller, list, count, day, series, script| {
        let end = next(script, 0).min(script.len());
        edit(caller, list, count, day, series, &script[..end])
    }),
    ("carries out nothing", |caller, list, count, day, series, script| {
        let answer = edit(caller, &mut list.to_vec(), count, day, series, script);
        if answer.number == 0 {
            Answer { number: 0, value: count, count }
        } else {
            answer
        }
    }),
    ("names the offset one command late", |caller, list, count, day, series, script| {
        let answer = edit(caller, list, count, day, series, script);
        if has_offset(answer.number) {
            Answer { value: next(script, answer.value), ..answer }
        } else {
            answer
        }
    }),
    ("keeps what a freed record held", |caller, list, count, day, series, script| {
        let before = list.to_vec();
        let answer = edit(caller, list, count, day, series, script);
        if answer.count < count && answer.number != 12 {
            list[6 * answer.count..].copy_from_slice(&before[6 * answer.count..]);
        }
        answer
    }),
    (
        "clears the record behind the list, as if it had taken back what UNDO strikes",
        |caller, list, count, day, series, script| {
            let answer = edit(caller, list, count, day, series, script);
            let undone = first_undo(script) < script.len();
            if answer.number == 0 && undone && list.len() >= 6 * (answer.count + 1) {
                list[6 * answer.count..][..6].fill(0);
            }
            answer
        },
    ),
    ("carries out an edit before UNDO strikes it", |caller, list, count, day, series, script| {
        let answer = edit(caller, &mut list.to_vec(), count, day, series, &script[..first_undo(script)]);
        if is_of_edit(answer.number) {
            answer
        } else {
            edit(caller, list, count, day, series, script)
        }
    }),
    ("says 4 where a broken form comes later", |caller, list, count, day, series, script| {
        let answer = edit(caller, list, count, day, series, script);
        let before = &script[..if answer.number == 3 { answer.value } else { 0 }];
        let earlier = edit(caller, &mut list.to_vec(), count, day, series, before);
        if earlier.number == 4 {
            earlier
        } else {
            answer
        }
    }),
    ("takes the buffer alone for the limit", |caller, list, count, day, series, script| {
        let answer = edit(caller, list, count, day, series, script);
        if answer.number == 8 && answer.count < list.len() / 6 {
            Answer { number: 0, value: answer.count + 1, count: answer.count + 1 }
        } else {
            answer
        }
    }),
    ("looks for the id before the part", |caller, list, count, day, series, script| {
        let answer = edit(caller, list, count, day, series, script);
        let held = |id: &[u8]| list.chunks(6).take(answer.count).any(|record| record[0].to_be_bytes()[2..] == *id);
        if answer.number == 9 && held(&script[answer.value + 1..][..2]) {
            Answer { number: 6, ..answer }
        } else {
            answer
        }
    }),
    ("takes back the edits before a refused one", |caller, list, count, day, series, script| {
        let before = list.to_vec();
        let answer = edit(caller, list, count, day, series, script);
        if is_of_edit(answer.number) {
            list.copy_from_slice(&before);
        }
        answer
    }),
    ("names the offset in sixteen bits", |caller, list, count, day, series, script| {
        let answer = edit(caller, list, count, day, series, script);
        if has_offset(answer.number) {
            Answer { value: answer.value & 0xFFFF, ..answer }
        } else {
            answer
        }
    }),
    ("drops the edits behind offset 2^20", |caller, list, count, day, series, script| {
        let answer = edit(caller, &mut list.to_vec(), count, day, series, script);
        let end = first(script, |offset, _| offset > 1 << 20);
        let kept = if answer.number == 0 { &script[..end] } else { script };
        edit(caller, list, count, day, series, kept)
    }),
    ("strikes twice where 30,000 edits are unstruck", |caller, list, count, day, series, script| {
        let mut unstruck = 0;
        let twice = first(script, |_, command| {
            let is_undo = command == 0x04;
            unstruck += if is_undo { -1 } else { 1 };
            is_undo && unstruck == 29_999
        });
        let struck_again = if twice < script.len() { &[0x04][..] } else { &[] };
        edit(caller, list, count, day, series, &[&script[..twice], struck_again, &script[twice..]].concat())
    }),
];

/// Whether the number is one that comes with a command's offset, and with that of an edit.
fn has_offset(number: u32) -> bool {
    [3, 4].contains(&number) || is_of_edit(number)
}

pub fn is_of_edit(number: u32) -> bool {
    ORDER.contains(&number)
}
