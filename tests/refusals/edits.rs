//! Edit's refusals.

use crate::chirdaluko::{edit, EditRefusal, Pools, Record};
use crate::inputs::{event, numbers, put, row, shift, tagged, withdraw, DAY, TAGGED, UNDO};
use crate::{Rows, ALL, COMMAND, EARLIER, ZERO};

const CALL: &str = "Edit";
const POOLS: Pools = Pools { day: &DAY, series: &[] };

/// The bytes of the PUT that stands before each refused command.
const BEFORE: usize = 18;

pub fn run(rows: &mut Rows) {
    unsound(rows);
    form(rows);

    let out_of_range = |offset, count| EditRefusal::OutOfRange { offset, count };
    for record in [
        event(3, 5_529_600),
        Record { duration: 0, ..event(3, 300) },
        Record { duration: 360_000, ..event(3, 300) },
        Record { marks: 8, ..event(3, 300) },
    ] {
        refused(rows, &put(record), out_of_range);
    }
    refused(rows, &shift(9, 5_529_600), out_of_range);

    let no_chain = |offset, count| EditRefusal::NoChain { offset, count };
    for (marks, offset, chain_length) in [(0, 4, 0), (0, 0, 4), (0, 0, 3), (0, 1, 1), (2, 0, 1)] {
        refused(rows, &put(Record { marks, offset, chain_length, ..event(3, 300) }), no_chain);
    }
    forbidden_tag(rows);

    let wrong_id = |offset, count| EditRefusal::WrongId { offset, count };
    refused(rows, &put(event(1, 300)), wrong_id);
    refused(rows, &withdraw(9), wrong_id);
    refused(rows, &shift(9, 300), wrong_id);

    overlap(rows);
    list_full(rows);
}

/// A count that the buffer has no records for, a start that does not rise, one event more than the caller may have, an
/// event that begins before the one before it ends, and a chain with tag 0xFF: not even the event's WITHDRAW is carried
/// out, as it is where the two events touch, and with tag 0xFE.
fn unsound(rows: &mut Rows) {
    let caller = rows.caller;
    let mut at = |lent: &[u32], count, day: &[u8], script: &[u8]| {
        let mut list = lent.to_vec();
        let refusal = EditRefusal::Unsound { count };
        assert_eq!(edit(caller, &mut list, count, Pools { day, series: &[] }, script), Err(refusal));
        assert_eq!(list, lent);
        rows.add(CALL, refusal.number(), ZERO, ALL);
    };
    let twice = numbers(&[event(1, 100), event(2, 100)]);
    at(&twice, 3, &DAY, &[0x05]);
    at(&twice, 2, &DAY, &[UNDO]);
    let most = caller.events_max();
    at(&numbers(&row(most + 1)), most + 1, &DAY, &withdraw(0));

    at(&numbers(&[event(1, 100), event(2, 159)]), 2, &DAY, &withdraw(2));
    let mut list = numbers(&[event(1, 100), event(2, 160)]);
    assert_eq!(edit(caller, &mut list, 2, POOLS, &withdraw(2)), Ok(1));
    assert_eq!((&list[..6], &list[6..]), (&numbers(&[event(1, 100)])[..], &[0; 6][..]));

    let mut list = numbers(&[Record { chain_length: TAGGED, ..event(1, 100) }]);
    at(&list, 1, &tagged(0xFF), &withdraw(1));
    assert_eq!(edit(caller, &mut list, 1, Pools { day: &tagged(0xFE), series: &[] }, &withdraw(1)), Ok(0));
    assert_eq!(list, [0; 6]);
}

/// 3 and 4: behind an edit that would succeed, and which is not carried out.
fn form(rows: &mut Rows) {
    let lent = numbers(&[event(1, 100), event(7, 7)]);
    let mut at = |broken: &[u8], refusal: EditRefusal| {
        let mut list = lent.clone();
        let script = [&put(event(2, 200)), broken].concat();
        assert_eq!(edit(rows.caller, &mut list, 1, POOLS, &script), Err(refusal));
        assert_eq!(list, lent);
        rows.add(CALL, refusal.number(), COMMAND, ALL);
    };
    at(&[0x05], EditRefusal::BrokenScript { offset: BEFORE, count: 1 });
    at(&[0x02, 0x00], EditRefusal::BrokenScript { offset: BEFORE, count: 1 });
    at(&[UNDO, UNDO], EditRefusal::NothingToUndo { offset: BEFORE + 1, count: 1 });
}

/// 9 by tag 0xFF in the pool that the marks choose; the same part of the other pool has tag 0xFE, and is taken.
fn forbidden_tag(rows: &mut Rows) {
    let (legal, forbidden) = (tagged(0xFE), tagged(0xFF));
    let from = |marks| Record { marks, chain_length: TAGGED, ..event(3, 300) };
    let (day, series) = (from(0), from(Record::SERIES_POOL));
    for (pools, refused, taken) in [
        (Pools { day: &forbidden, series: &legal }, day, series),
        (Pools { day: &legal, series: &forbidden }, series, day),
    ] {
        let no_chain = |offset, count| EditRefusal::NoChain { offset, count };
        refused_in(rows, pools, &[event(1, 100)], 4, &put(refused), no_chain);
        let mut list = [77; 7];
        assert_eq!(edit(rows.caller, &mut list, 0, pools, &put(taken)), Ok(1));
        assert_eq!((&list[..6], list[6]), (&numbers(&[taken])[..], 77));
    }
}

/// 30, where event 1 stands from 100 to 160 and event 2 from 200 to 260; then as far as events may go.
fn overlap(rows: &mut Rows) {
    let overlap = |offset, count| EditRefusal::Overlap { offset, count };
    let lasting = |start, duration| Record { duration, ..event(3, start) };
    // The first and the last second of each; within one, around one, around both; the start of each.
    for (start, duration) in
        [(0, 101), (159, 1), (160, 41), (259, 1), (120, 10), (90, 100), (0, 359_999), (100, 60), (200, 1)]
    {
        refused(rows, &put(lasting(start, duration)), overlap);
    }
    for (id, start) in [(1, 141), (1, 259), (1, 200), (2, 41), (2, 159), (2, 100)] {
        refused(rows, &shift(id, start), overlap);
    }

    let (first, second) = (event(1, 100), event(2, 200));
    for (command, left) in [
        (put(lasting(0, 100)), vec![lasting(0, 100), first, second]),
        (put(lasting(160, 40)), vec![first, lasting(160, 40), second]),
        (put(lasting(260, 359_999)), vec![first, second, lasting(260, 359_999)]),
        (put(lasting(5_529_599, 359_999)), vec![first, second, lasting(5_529_599, 359_999)]),
        // To the event's own old time and over it, on both sides.
        (shift(1, 40), vec![event(1, 40), second]),
        (shift(1, 140), vec![event(1, 140), second]),
        (shift(2, 160), vec![first, event(2, 160)]),
        (shift(2, 260), vec![first, event(2, 260)]),
        // To the other event, from both sides.
        (shift(1, 260), vec![second, event(1, 260)]),
        (shift(2, 40), vec![event(2, 40), first]),
    ] {
        let mut list = numbers(&[first, second]);
        list.resize(18, 77);
        assert_eq!(edit(rows.caller, &mut list, 2, POOLS, &command), Ok(left.len()));
        assert_eq!(list[..6 * left.len()], numbers(&left));
        assert!(list[6 * left.len()..].iter().all(|&number| number == 77));
    }
}

/// 8 by the buffer, which has room for two records; then by the caller's limit, in a buffer with room for one more. An
/// event that would overlap another one is 30 there, too.
fn list_full(rows: &mut Rows) {
    let list_full = |offset, count| EditRefusal::ListFull { offset, count };
    let overlap = |offset, count| EditRefusal::Overlap { offset, count };
    let most = rows.caller.events_max();
    let held = (1..most as u32).map(|place| Record { duration: 1, ..event(1_000 + place, 1_000 + place) });
    for (held, room) in [(vec![event(1, 100)], 2), (held.collect(), most + 1)] {
        refused_in(rows, POOLS, &held, room, &put(event(3, 300)), list_full);
        refused_in(rows, POOLS, &held, room, &put(event(3, 259)), overlap);
    }
}

/// A refused command between one that is carried out and one that is not.
fn refused(rows: &mut Rows, command: &[u8], case: fn(usize, usize) -> EditRefusal) {
    refused_in(rows, POOLS, &[event(1, 100)], 4, command, case);
}

/// The same with these pools and records, in a buffer with room for so many records and a number over. Behind those
/// that it holds stands what is no zero.
fn refused_in(
    rows: &mut Rows,
    pools: Pools,
    held: &[Record],
    room: usize,
    command: &[u8],
    case: fn(usize, usize) -> EditRefusal,
) {
    let buffer = |records: &[Record]| {
        let mut buffer = numbers(records);
        buffer.resize(6 * room + 1, 77);
        buffer
    };
    let before = event(2, 200);
    let mut left = [held, &[before]].concat();
    left.sort_by_key(|record| record.start);

    let mut list = buffer(held);
    let script = [&put(before), command, &put(event(4, 400))].concat();
    let refusal = case(BEFORE, left.len());
    assert_eq!(edit(rows.caller, &mut list, held.len(), pools, &script), Err(refusal));
    assert_eq!(list, buffer(&left));
    rows.add(CALL, refusal.number(), COMMAND, EARLIER);
}
