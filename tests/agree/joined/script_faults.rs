//! Faults of how Edit takes a script: the same stands on both sides, and must show by two scripts apart and joined (02,
//! W-214).

use crate::edit_faults::is_of_edit;
use crate::edits::Edit;
use crate::long::HALVED;
use crate::other::{edit, Answer, Caller};
use crate::walk::{commands, first, struck_by, unstruck, At, UNDO};

/// Refused before an edit is looked at.
pub const OF_CALL: [u32; 3] = [12, 3, 4];

pub const ALL: [(&str, Edit); 16] = [
    // What UNDO strikes.
    ("passes over an UNDO with nothing to strike", |caller, list, count, day, series, script| {
        let answer = edit(caller, &mut list.to_vec(), count, day, series, script);
        if answer.number == 4 {
            carry_out(caller, list, count, day, series, &unstruck(script))
        } else {
            edit(caller, list, count, day, series, script)
        }
    }),
    ("strikes the earliest edit", |caller, list, count, day, series, script| {
        let answer = edit(caller, &mut list.to_vec(), count, day, series, script);
        if OF_CALL.contains(&answer.number) {
            answer
        } else {
            carry_out(caller, list, count, day, series, &struck_by(script, |_| 0))
        }
    }),
    ("strikes a script's last edits, as many as it has UNDOs", |caller, list, count, day, series, script| {
        let answer = edit(caller, &mut list.to_vec(), count, day, series, script);
        if OF_CALL.contains(&answer.number) {
            return answer;
        }
        let mut edits = commands(script);
        edits.retain(|(_, command)| *command != [UNDO]);
        edits.truncate(unstruck(script).len());
        carry_out(caller, list, count, day, series, &edits)
    }),
    // How much one call does.
    ("puts eight events more than it was lent at most", |caller, list, count, day, series, script| {
        let end = list.len().min(6 * (count + 8));
        edit(caller, &mut list[..end], count, day, series, script)
    }),
    ("drops the commands behind the two hundredth", |caller, list, count, day, series, script| {
        edit(caller, list, count, day, series, &script[..behind(script, 200)])
    }),
    ("takes no script above 4 KB", |caller, list, count, day, series, script| {
        if script.len() > 4_096 {
            Answer { number: 3, value: 4_096, count }
        } else {
            edit(caller, list, count, day, series, script)
        }
    }),
    ("clears what is behind the list if the script is empty", |caller, list, count, day, series, script| {
        if script.is_empty() {
            list[6 * count..].fill(0);
        }
        edit(caller, list, count, day, series, script)
    }),
    ("sets no freed record to zeros that the script put", |caller, list, count, day, series, script| {
        let before = list.to_vec();
        let answer = edit(caller, list, count, day, series, script);
        let behind = 6 * answer.count.max(count);
        list[behind..].copy_from_slice(&before[behind..]);
        answer
    }),
    // What it answers.
    ("answers how many edits it carried out", |caller, list, count, day, series, script| {
        let answer = edit(caller, list, count, day, series, script);
        let value = if answer.number == 0 { unstruck(script).len() } else { answer.value };
        Answer { value, ..answer }
    }),
    ("answers by how many events the list changed", |caller, list, count, day, series, script| {
        let answer = edit(caller, list, count, day, series, script);
        let value = if answer.number == 0 { answer.count.abs_diff(count) } else { answer.value };
        Answer { value, ..answer }
    }),
    ("names the offset of a refused edit from the script's end", |caller, list, count, day, series, script| {
        let answer = edit(caller, list, count, day, series, script);
        let value = if is_of_edit(answer.number) { script.len() - answer.value } else { answer.value };
        Answer { value, ..answer }
    }),
    ("names the offset of a broken form from the script's end", |caller, list, count, day, series, script| {
        let answer = edit(caller, list, count, day, series, script);
        let value = if answer.number == 3 { script.len() - answer.value } else { answer.value };
        Answer { value, ..answer }
    }),
    ("counts the commands before a refused edit", |caller, list, count, day, series, script| {
        let answer = edit(caller, list, count, day, series, script);
        let is_refused = is_of_edit(answer.number);
        let value = if is_refused { commands(&script[..answer.value]).len() } else { answer.value };
        Answer { value, ..answer }
    }),
    ("returns the count that was lent with a refusal", |caller, list, count, day, series, script| {
        let answer = edit(caller, list, count, day, series, script);
        if is_of_edit(answer.number) {
            Answer { count, ..answer }
        } else {
            answer
        }
    }),
    // What a refusal leaves.
    ("takes back all edits where one is refused", |caller, list, count, day, series, script| {
        let before = list.to_vec();
        let answer = edit(caller, list, count, day, series, script);
        if is_of_edit(answer.number) {
            list.copy_from_slice(&before);
            return Answer { count, ..answer };
        }
        answer
    }),
    ("carries out the edits before a broken form", |caller, list, count, day, series, script| {
        let answer = edit(caller, list, count, day, series, script);
        if answer.number == 3 {
            let carried_out = edit(caller, list, count, day, series, &script[..answer.value]);
            return Answer { count: carried_out.count, ..answer };
        }
        answer
    }),
];

/// One that shows in scripts that the library takes in halves alone.
pub const OF_HALVES: (&str, Edit) =
    ("drops the commands behind 262,144", |caller, list, count, day, series, script| {
        edit(caller, list, count, day, series, &script[..behind(script, HALVED)])
    });

/// The offset behind so many commands, or the script's length.
fn behind(script: &[u8], commands: usize) -> usize {
    let mut before = 0;
    first(script, |_, _| {
        before += 1;
        before > commands
    })
}

/// Carries out these of a script's edits, and names the offset in that script for one that is refused.
pub fn carry_out(caller: Caller, list: &mut [u32], count: usize, day: &[u8], series: &[u8], edits: &[At]) -> Answer {
    let script: Vec<_> = edits.iter().flat_map(|(_, edit)| edit.iter().copied()).collect();
    let answer = edit(caller, list, count, day, series, &script);
    if !is_of_edit(answer.number) {
        return answer;
    }
    let place = commands(&script[..answer.value]).len();
    Answer { value: edits[place].0, ..answer }
}
