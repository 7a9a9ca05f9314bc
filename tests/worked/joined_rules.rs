//! What an archive of joined scripts may rely on, each a sentence and the calls that show it, for both callers.

use crate::chirdaluko::{Caller, EditRefusal, Pools, Record, RECORD};
use crate::details::{self, Detail};
use crate::inputs::{chain, event, put, shift, tagged, withdraw, TAGGED, UNDO};
use crate::joined::{edited, edited_with, put_3, two, List, Said};

const ALL: [Detail; 8] = [
    (
        "**All are accepted**, each on the list that the one before it left, for one caller and with the same pools: \
         the joined script is accepted on the first list, and leaves the same count and the same number at every place \
         of the buffer.",
        all_accepted,
    ),
    (
        "**The last one is refused by an edit**, with 5, 6, 8, 9 or 30: so is the joined script, by the same edit, and \
         it leaves the same list. The offset that it returns counts from the front of the joined script.",
        last_refused,
    ),
    (
        "**The last one is refused with 3**: so is the joined script, at the offset there, but it carries nothing out. \
         In turn, the scripts before it are carried out.",
        last_broken,
    ),
    (
        "**The last one is refused with 4**: nothing is said of the joined script. Its UNDO can strike an edit of a \
         script before it, and so make another list.",
        last_undoes,
    ),
    (
        "**One before the last is refused**: nothing is said of the joined script, either. It stops at the refused \
         edit, unless it is 3 or 4 before any edit, or an UNDO behind strikes that one; and a truncated command takes \
         the next script's bytes as operands.",
        earlier_refused,
    ),
    (
        "**What to store**: scripts that Edit has accepted, in the order of the calls; for whom; the list that they \
         began with, and the length of its buffer; the pools, into which the offsets of PUT point. For another caller, \
         or in a shorter buffer, an edit can be refused. With other pools the list can be 12, an edit 9, and where \
         neither comes an event has other descriptors.",
        stored,
    ),
    (
        "**The way back**: the parts of an accepted script need not be accepted. Keep each script's length if it is to \
         be carried out alone again.",
        way_back,
    ),
    (
        "**Two WITHDRAWs of different events** leave the same list in either order, as one script and as two. Other \
         edits may not: a PUT into the time that a WITHDRAW frees is 30 if it comes first.",
        either_order,
    ),
];

pub fn print() {
    details::print_under("## Joined scripts", &ALL);
}

/// What Edit says to the last of some scripts, carried out in turn, and what they leave.
fn in_turn(caller: Caller, scripts: &[Vec<u8>]) -> (Said, List) {
    let begin = (Ok(two().count), two());
    scripts.iter().fold(begin, |(_, list), script| edited(caller, &list, script))
}

fn joined(caller: Caller, scripts: &[Vec<u8>]) -> (Said, List) {
    edited(caller, &two(), &scripts.concat())
}

fn all_accepted(caller: Caller) -> bool {
    let struck = [withdraw(2), put(event(9, 5_529_600)), vec![UNDO, UNDO]].concat();
    let days = [put_3(), [shift(3, 0), struck, withdraw(1)].concat(), Vec::new(), put(event(1, 60)), withdraw(2)];
    let each = (1..=days.len()).all(|k| in_turn(caller, &days[..k]).0.is_ok());
    each && in_turn(caller, &days) == joined(caller, &days)
}

fn last_refused(caller: Caller) -> bool {
    let first = [put_3(), put(event(4, 400))].concat();
    let refused_by = [
        (5, put(event(5, 5_529_600))),
        (9, put(Record { chain_length: 1, ..event(5, 500) })),
        (6, withdraw(9)),
        (30, shift(1, 180)),
        (8, put(event(5, 500))),
    ];
    refused_by.iter().all(|(number, refused)| {
        let scripts = [first.clone(), [withdraw(2), put(event(2, 180)), refused.clone()].concat()];
        let (apart, list) = in_turn(caller, &scripts);
        let (said, joined_list) = joined(caller, &scripts);
        let at = |said: Said| said.map_err(|refusal| (refusal.number(), refusal.value(), refusal.count()));
        at(apart) == Err((*number, 21, 4)) && at(said) == Err((*number, first.len() + 21, 4)) && list == joined_list
    })
}

fn last_broken(caller: Caller) -> bool {
    let scripts = [put_3(), vec![0x05]];
    let (apart, list) = in_turn(caller, &scripts);
    apart == Err(EditRefusal::BrokenScript { offset: 0, count: 3 })
        && list == edited(caller, &two(), &put_3()).1
        && joined(caller, &scripts) == (Err(EditRefusal::BrokenScript { offset: 18, count: 2 }), two())
}

fn last_undoes(caller: Caller) -> bool {
    let scripts = [put_3(), vec![UNDO]];
    let (apart, list) = in_turn(caller, &scripts);
    apart == Err(EditRefusal::NothingToUndo { offset: 0, count: 3 })
        && list.count == 3
        && joined(caller, &scripts) == (Ok(2), two())
}

fn earlier_refused(caller: Caller) -> bool {
    let number = |said: Said| said.map_err(EditRefusal::number);
    let stops = [withdraw(9), withdraw(1)];
    let broken = [withdraw(9), vec![0x05]];
    let undone = [withdraw(9), vec![UNDO, UNDO]];
    let truncated = [vec![0x02, 0x00], withdraw(1)];
    number(in_turn(caller, &stops).0) == Ok(1)
        && joined(caller, &stops) == (Err(EditRefusal::WrongId { offset: 0, count: 2 }), two())
        && joined(caller, &broken) == (Err(EditRefusal::BrokenScript { offset: 3, count: 2 }), two())
        && joined(caller, &undone) == (Err(EditRefusal::NothingToUndo { offset: 4, count: 2 }), two())
        && joined(caller, &[withdraw(9), vec![UNDO]]) == (Ok(2), two())
        && number(in_turn(caller, &truncated).0) == Ok(1)
        && joined(caller, &truncated) == (Err(EditRefusal::BrokenScript { offset: 3, count: 2 }), two())
        && joined(caller, &[vec![0x02, 0x00], vec![0x02]]) == edited(caller, &two(), &withdraw(2))
}

fn stored(caller: Caller) -> bool {
    let number = |said: Said| said.map_err(EditRefusal::number);
    let [day, other_day] = [chain(TAGGED as usize), tagged(0x4D).to_vec()];
    let [pools, other_pools] = [&day, &other_day].map(|day| Pools { day, series: &[] });
    let described = [put(Record { chain_length: TAGGED, ..event(3, 300) }), put(event(4, 400))].concat();
    let (said, list) = edited_with(caller, pools, &two(), &described);
    let with_pools = number(said) == Ok(4)
        && number(edited(caller, &list, &withdraw(1)).0) == Err(12)
        && number(edited(caller, &two(), &described).0) == Err(9)
        && edited_with(caller, other_pools, &two(), &described) == (said, list)
        && day != other_day;

    let shorter = List { numbers: two().numbers[..3 * RECORD].to_vec(), count: 2 };
    let none = List { numbers: vec![0; 257 * RECORD], count: 0 };
    let full: Vec<u8> = (0..257).flat_map(|id| put(event(id, 60 * id))).collect();
    with_pools
        && number(edited_with(caller, pools, &shorter, &described).0) == Err(8)
        && number(edited(Caller::Broadcast, &none, &full).0) == Ok(257)
        && number(edited(Caller::Cable, &none, &full).0) == Err(8)
}

fn way_back(caller: Caller) -> bool {
    let whole = [put_3(), vec![UNDO]].concat();
    let (first, second) = whole.split_at(put_3().len());
    let (apart, _) = in_turn(caller, &[first.to_vec(), second.to_vec()]);
    edited(caller, &two(), &whole).0.is_ok() && apart.map_err(EditRefusal::number) == Err(4)
}

fn either_order(caller: Caller) -> bool {
    let [one, two] = [withdraw(1), withdraw(2)];
    let orders = [[one.clone(), two.clone()], [two, one]];
    let left: Vec<_> = orders.iter().flat_map(|scripts| [joined(caller, scripts), in_turn(caller, scripts)]).collect();
    let freed = [withdraw(1), put(event(3, 60))];
    let taken = [put(event(3, 60)), withdraw(1)];
    left.iter().all(|outcome| outcome.0 == Ok(0) && *outcome == left[0])
        && joined(caller, &freed).0 == Ok(2)
        && joined(caller, &taken).0.map_err(EditRefusal::number) == Err(30)
}
