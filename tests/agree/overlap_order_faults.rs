//! Faults of when Edit looks for overlap, and of what it says: each stands in for the library, and must show.

use crate::edits::Edit;
use crate::other::{edit, Answer, Caller};
use crate::times::Times;
use crate::walk::number;

pub const ALL: [(&str, Edit); 7] = [
    ("takes no list whose last event ends past the window", |caller, list, count, day, series, script| {
        let is_sound = edit(caller, &mut list.to_vec(), count, day, series, &[]).number == 0;
        if is_sound && list.chunks(6).take(count).any(|record| record[1] + record[2] > 5_529_600) {
            return Answer { number: 12, value: 0, count };
        }
        edit(caller, list, count, day, series, script)
    }),
    ("looks for overlap after the limit", |caller, list, count, day, series, script| {
        let answer = edit(caller, list, count, day, series, script);
        instead_if(answer.number == 30 && put_at_limit(caller, list, script, answer), 8, answer)
    }),
    ("looks for overlap before the id", |caller, list, count, day, series, script| {
        let answer = edit(caller, list, count, day, series, script);
        instead_if(answer.number == 6 && put_overlaps(list, script, answer), 30, answer)
    }),
    ("looks for overlap before the part", |caller, list, count, day, series, script| {
        let answer = edit(caller, list, count, day, series, script);
        instead_if(answer.number == 9 && put_overlaps(list, script, answer), 30, answer)
    }),
    ("looks for overlap before the values", |caller, list, count, day, series, script| {
        let answer = edit(caller, list, count, day, series, script);
        instead_if(answer.number == 5 && put_overlaps(list, script, answer), 30, answer)
    }),
    // An equal start is an overlap as any other.
    ("says 6 for an equal start, as if for its id", |caller, list, count, day, series, script| {
        let answer = edit(caller, list, count, day, series, script);
        instead_if(answer.number == 30 && has_start(list, script, answer), 6, answer)
    }),
    ("looks for an equal start after the limit", |caller, list, count, day, series, script| {
        let answer = edit(caller, list, count, day, series, script);
        let is_equal = answer.number == 30 && has_start(list, script, answer);
        instead_if(is_equal && put_at_limit(caller, list, script, answer), 8, answer)
    }),
];

fn instead_if(shows: bool, number: u32, right: Answer) -> Answer {
    if shows {
        Answer { number, ..right }
    } else {
        right
    }
}

/// Whether the refused command is a PUT on a list at its limit.
fn put_at_limit(caller: Caller, list: &[u32], script: &[u8], answer: Answer) -> bool {
    script[answer.value] == 0x01 && answer.count == caller.sizes().events.min(list.len() / 6)
}

/// Whether the refused command, PUT or MOVE, has the start of an event of the list then held.
fn has_start(list: &[u32], script: &[u8], answer: Answer) -> bool {
    let start = number(script, answer.value + 3);
    list.chunks(6).take(answer.count).any(|record| record[1] == start)
}

/// Whether the refused command is a PUT that overlaps an event of the list then held.
fn put_overlaps(list: &[u32], script: &[u8], answer: Answer) -> bool {
    let times = |start: u32, duration: u32| Times { start, duration: duration.min(359_999) };
    let is_put = script[answer.value] == 0x01;
    is_put && {
        let put = times(number(script, answer.value + 3), number(script, answer.value + 7));
        list.chunks(6).take(answer.count).any(|record| put.overlaps(times(record[1], record[2])))
    }
}
