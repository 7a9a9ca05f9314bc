//! Faults of what Edit asks of a list, and of an event's part: each stands in for the library, and must show.

use crate::edits::Edit;
use crate::other::{edit, edit_by, is_chain, Answer, EditMethod, IsChain, EDIT_PAPERS};
use crate::wrong_chains;

/// Faults of what Edit goes by.
pub const METHODS: [(&str, EditMethod); 12] = [
    // The caller's events, for 12 and for 8.
    (
        "takes the other caller's limit for a list",
        EditMethod { sound_max: |caller| caller.other().sizes().events, ..EDIT_PAPERS },
    ),
    (
        "takes a list with an event too many",
        EditMethod { sound_max: |caller| caller.sizes().events + 1, ..EDIT_PAPERS },
    ),
    ("takes no list at its limit", EditMethod { sound_max: |caller| caller.sizes().events - 1, ..EDIT_PAPERS }),
    (
        "takes the other caller's limit for PUT",
        EditMethod { put_max: |caller| caller.other().sizes().events, ..EDIT_PAPERS },
    ),
    ("puts an event too many", EditMethod { put_max: |caller| caller.sizes().events + 1, ..EDIT_PAPERS }),
    ("does not put the last event", EditMethod { put_max: |caller| caller.sizes().events - 1, ..EDIT_PAPERS }),
    // The forbidden tag.
    ("takes tag 0xFF", with_chains(wrong_chains::of_any_tags)),
    ("takes tag 0xFF behind the first descriptor", with_chains(wrong_chains::by_first_tag)),
    ("takes tag 0xFF in the first descriptor", with_chains(wrong_chains::by_later_tags)),
    ("takes tag 0xFF in the last descriptor", with_chains(wrong_chains::by_earlier_tags)),
    ("takes no byte 0xFF in a chain", with_chains(wrong_chains::without_the_byte)),
    ("takes no tag 0xFE", with_chains(wrong_chains::without_highest_legal_tag)),
];

const fn with_chains(is_chain: IsChain) -> EditMethod {
    EditMethod { is_chain, ..EDIT_PAPERS }
}

/// Faults of its answers.
pub const ALL: [(&str, Edit); 6] = [
    ("serves the other caller", |caller, list, count, day, series, script| {
        edit(caller.other(), list, count, day, series, script)
    }),
    ("compares ids with the neighbour alone", |caller, list, count, day, series, script| {
        let answer = edit(caller, list, count, day, series, script);
        let records: Vec<_> = list.chunks_exact(6).take(count).collect();
        let sound = |two: &[&[u32]]| edit(caller, &mut two.concat(), 2, day, series, &[]).number == 0;
        let may_be_sound = count == records.len() && (2..=caller.sizes().events).contains(&count);
        if answer.number == 12 && may_be_sound && records.windows(2).all(sound) {
            Answer { number: 0, value: count, count }
        } else {
            answer
        }
    }),
    ("loses bit 20 of an id in a list", |caller, list, count, day, series, script| {
        let mut lost = list.to_vec();
        lost.iter_mut().step_by(6).for_each(|id| *id &= !(1 << 20));
        let answer = edit(caller, &mut lost, count, day, series, script);
        if answer.number != 12 {
            list.copy_from_slice(&lost);
        }
        answer
    }),
    ("takes tag 0xFF in a list", |caller, list, count, day, series, script| {
        let answer = edit(caller, list, count, day, series, script);
        if answer.number == 12 {
            edit_by(with_chains(wrong_chains::of_any_tags), caller, list, count, day, series, script)
        } else {
            answer
        }
    }),
    ("takes tag 0xFF in PUT", |caller, list, count, day, series, script| {
        let is_sound = edit(caller, &mut list.to_vec(), count, day, series, &[]).number == 0;
        let is_chain = if is_sound { wrong_chains::of_any_tags } else { is_chain };
        edit_by(with_chains(is_chain), caller, list, count, day, series, script)
    }),
    ("looks for tag 0xFF after id, overlap and limit", |caller, list, count, day, series, script| {
        let later =
            edit_by(with_chains(wrong_chains::of_any_tags), caller, &mut list.to_vec(), count, day, series, script);
        let answer = edit(caller, list, count, day, series, script);
        if answer.number == 9 && later.value == answer.value && [6, 30, 8].contains(&later.number) {
            later
        } else {
            answer
        }
    }),
];
