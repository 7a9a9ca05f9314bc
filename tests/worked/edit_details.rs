//! Details of Edit.

use crate::chirdaluko::{edit, Caller, EditRefusal, Pools, Record};
use crate::details::Detail;
use crate::inputs::{event, numbers, put, shift, withdraw, UNDO};

pub const ALL: [Detail; 13] = [
    (
        "The offset that Edit returns is that of the refused command's own byte, whichever operand is wrong.",
        command_offset,
    ),
    ("3 anywhere in the script comes before any 4, and both before any edit is carried out.", form_first),
    ("Of the causes of one PUT the first in the order 5, 9, 6, 30, 8 is said.", put_order),
    (
        "UNDO strikes before anything is carried out: a PUT and a WITHDRAW, both struck, leave no zeros behind.",
        struck_before,
    ),
    ("A struck edit is looked at for its form only: a PUT out of range, then UNDO, succeeds.", struck_form),
    ("MOVE onto the event's own start succeeds, and MOVE in a full list is never 8.", move_own),
    ("MOVE of an absent id to a start out of range is 5, not 6.", move_absent),
    ("WITHDRAW leaves six zeros where the list's last record was; the numbers behind them stay.", withdraw_zeros),
    ("A buffer has room for its length ÷ 6 records, rounded down; the numbers left over stay.", room),
    (
        "An event may begin when another one ends, and end when another one begins; a second more is 30, \
         and so is an event within another one or around it.",
        touching,
    ),
    (
        "MOVE compares the event, with its own duration, with all others: \
         it may go over the event's old time, and up to it.",
        move_over_own,
    ),
    ("An event with the start of another one overlaps it: PUT and MOVE say 30.", equal_start),
    ("An event may end past the last segment: at 5,529,599, the last start, it may have any duration.", past_the_end),
];

pub const NO_POOLS: Pools = Pools { day: &[], series: &[] };

/// What Edit says to this script on an empty list, and what it leaves of a buffer of two records and a number over, all
/// 7.
fn edited(caller: Caller, commands: &[Vec<u8>]) -> (Result<usize, EditRefusal>, [u32; 13]) {
    let mut list = [7; 13];
    (edit(caller, &mut list, 0, NO_POOLS, &commands.concat()), list)
}

fn command_offset(caller: Caller) -> bool {
    let first = put(event(1, 0));
    let offset = first.len();
    let behind_first = |command| edited(caller, &[first.clone(), command]).0;
    let out_of_range = Err(EditRefusal::OutOfRange { offset, count: 1 });
    behind_first(put(Record { duration: 0, ..event(2, 60) })) == out_of_range
        && behind_first(put(Record { marks: 8, ..event(2, 60) })) == out_of_range
        && behind_first(vec![0x03, 0, 1, 0]) == Err(EditRefusal::BrokenScript { offset, count: 0 })
}

fn form_first(caller: Caller) -> bool {
    let behind_put = |commands: &[u8]| edited(caller, &[put(event(1, 0)), commands.to_vec()]);
    behind_put(&[UNDO, UNDO, 0x05]) == (Err(EditRefusal::BrokenScript { offset: 20, count: 0 }), [7; 13])
        && behind_put(&[UNDO, UNDO]) == (Err(EditRefusal::NothingToUndo { offset: 19, count: 0 }), [7; 13])
}

fn put_order(caller: Caller) -> bool {
    let held = event(1, 60);
    let out_of_range = Record { duration: 0, offset: 1, ..held };
    let no_chain = Record { duration: 60, ..out_of_range };
    let present = Record { offset: 0, ..no_chain };
    let overlapping = Record { id: 2, start: 119, ..present };
    let full = Record { start: 120, ..overlapping };
    let said = [out_of_range, no_chain, present, overlapping, full].map(|record| {
        let mut list = numbers(&[held]);
        edit(caller, &mut list, 1, NO_POOLS, &put(record)).map_err(EditRefusal::number)
    });
    said == [Err(5), Err(9), Err(6), Err(30), Err(8)]
}

fn struck_before(caller: Caller) -> bool {
    edited(caller, &[put(event(1, 0)), withdraw(1), vec![UNDO, UNDO]]) == (Ok(0), [7; 13])
}

fn struck_form(caller: Caller) -> bool {
    edited(caller, &[put(event(1, 5_529_600)), vec![UNDO]]) == (Ok(0), [7; 13])
}

fn move_own(caller: Caller) -> bool {
    let full = [put(event(1, 0)), put(event(2, 60))];
    let moved = |start| edited(caller, &[full.concat(), shift(2, start)]);
    moved(60) == edited(caller, &full) && moved(61).0 == Ok(2)
}

fn move_absent(caller: Caller) -> bool {
    edited(caller, &[shift(1, 5_529_600)]).0.map_err(EditRefusal::number) == Err(5)
}

fn withdraw_zeros(caller: Caller) -> bool {
    let (said, list) = edited(caller, &[put(event(1, 0)), put(event(2, 60)), withdraw(1)]);
    said == Ok(1) && list[..6] == numbers(&[event(2, 60)]) && list[6..12] == [0; 6] && list[12] == 7
}

fn room(caller: Caller) -> bool {
    let (said, list) = edited(caller, &[put(event(1, 0)), put(event(2, 60)), put(event(3, 120))]);
    said == Err(EditRefusal::ListFull { offset: 36, count: 2 }) && list[12] == 7
}

/// The number that Edit says to a command, where event 1 stands from 60 to 120 and event 2 from 180 to 240.
fn between_two(caller: Caller, command: &[u8]) -> u32 {
    let mut list = numbers(&[event(1, 60), event(2, 180), Record::default()]);
    edit(caller, &mut list, 2, NO_POOLS, command).err().map_or(0, EditRefusal::number)
}

fn touching(caller: Caller) -> bool {
    let said = |start, duration| between_two(caller, &put(Record { duration, ..event(3, start) }));
    [(0, 60), (120, 60), (240, 60)].iter().all(|&(start, duration)| said(start, duration) == 0)
        && [(0, 61), (119, 61), (120, 61), (239, 61)].iter().all(|&(start, duration)| said(start, duration) == 30)
        && [(80, 20), (30, 120), (0, 359_999)].iter().all(|&(start, duration)| said(start, duration) == 30)
}

fn move_over_own(caller: Caller) -> bool {
    let moved = |id, start| between_two(caller, &shift(id, start));
    [(1, 0), (1, 59), (1, 61), (1, 120), (2, 120), (2, 179), (2, 181), (2, 240)]
        .iter()
        .all(|&(id, start)| moved(id, start) == 0)
        && [(1, 121), (1, 239), (2, 119), (2, 1)].iter().all(|&(id, start)| moved(id, start) == 30)
}

fn equal_start(caller: Caller) -> bool {
    let put_at = |start| between_two(caller, &put(Record { duration: 1, ..event(3, start) }));
    let moved = |id, start| between_two(caller, &shift(id, start));
    [put_at(60), put_at(180), moved(1, 180), moved(2, 60)] == [30; 4]
}

fn past_the_end(caller: Caller) -> bool {
    let said = |duration| between_two(caller, &put(Record { duration, ..event(3, 5_529_599) }));
    [1, 2, 3_600, 359_999].iter().all(|&duration| said(duration) == 0)
}
