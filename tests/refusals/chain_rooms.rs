//! Chain_room's refusal, 12, which comes before all else. That none fits is no refusal.

use crate::chirdaluko::{chain_room, ChainRoomRefusal, Pools, Record, RECORD};
use crate::inputs::{chain, event, numbers, row, tagged, DAY, TAGGED};
use crate::{Rows, ALL, ZERO};

const CALL: &str = "chain_room";
const POOLS: Pools = Pools { day: &DAY, series: &[] };

/// Starts that no list here has, in its segment and in others, and starts past the last segment.
const FREE: [u32; 4] = [99, 10_799, 10_800, 5_529_599];
const PAST: [u32; 4] = [5_529_600, 5_529_601, 1 << 31, u32::MAX];

pub fn run(rows: &mut Rows) {
    counts(rows);
    records(rows);
    neighbours(rows);
    parts(rows);
    event_limit(rows);
    full_segments(rows);
}

/// Two events: as many as the buffer has; then one more, and counts of which six times is no usize.
fn counts(rows: &mut Rows) {
    let list = numbers(&[event(1, 100), event(2, 200)]);
    answered(rows, &list, 2, POOLS);
    answered(rows, &list, 1, POOLS);
    answered(rows, &list[..RECORD], 1, POOLS);
    answered(rows, &list, 0, POOLS);
    answered(rows, &[], 0, POOLS);
    for count in [3, usize::MAX / 6 + 1, usize::MAX / 2 + 1, usize::MAX] {
        refused(rows, &list, count, POOLS);
    }
    refused(rows, &list[..2 * RECORD - 1], 2, POOLS);
    refused(rows, &[], 1, POOLS);
}

/// Each number of a record at its limit and past it.
fn records(rows: &mut Rows) {
    let sound = event(1, 100);
    for record in [
        Record { id: 65_535, ..sound },
        Record { start: 5_529_598, ..sound },
        Record { duration: 1, ..sound },
        Record { duration: 359_999, ..sound },
        Record { marks: 7, ..sound },
        Record { offset: 3, ..sound },
    ] {
        answered(rows, &numbers(&[record]), 1, Pools { day: &DAY, series: &DAY });
    }
    for record in [
        Record { id: 65_536, ..sound },
        Record { start: 5_529_600, ..sound },
        Record { duration: 0, ..sound },
        Record { duration: 360_000, ..sound },
        Record { marks: 8, ..sound },
    ] {
        refused(rows, &numbers(&[record]), 1, POOLS);
    }
}

/// Two events that touch; then a second less between them, the same start, starts in the other order, and the same id,
/// in the segment of the start and behind it.
fn neighbours(rows: &mut Rows) {
    for start in [100, 86_400] {
        let (first, second) = (event(1, start), event(2, start + 60));
        answered(rows, &numbers(&[first, second]), 2, POOLS);
        for records in [
            [first, Record { start: second.start - 1, ..second }],
            [Record { duration: 61, ..first }, second],
            [first, Record { start: first.start, ..second }],
            [second, first],
            [first, Record { id: 1, ..second }],
        ] {
            refused(rows, &numbers(&records), 2, POOLS);
        }
    }
}

/// Descriptors outside their pool, those that do not end where their part ends, and tag 0xFF; with tag 0xFE it answers.
fn parts(rows: &mut Rows) {
    let (legal, forbidden) = (tagged(0xFE), tagged(0xFF));
    for (marks, offset, chain_length) in [(0, 4, 0), (0, 0, 4), (0, 0, 3), (0, 1, 1), (0, u32::MAX, 2), (2, 0, 1)] {
        let record = Record { marks, offset, chain_length, ..event(1, 100) };
        refused(rows, &numbers(&[record]), 1, POOLS);
    }
    for marks in [0, Record::SERIES_POOL] {
        let record = Record { marks, chain_length: TAGGED, ..event(1, 100) };
        let pools = |chosen, other| match marks {
            0 => Pools { day: chosen, series: other },
            _ => Pools { day: other, series: chosen },
        };
        answered(rows, &numbers(&[record]), 1, pools(&legal[..], &forbidden[..]));
        refused(rows, &numbers(&[record]), 1, pools(&forbidden[..], &legal[..]));
    }
}

/// As many events as the caller may have, and one more.
fn event_limit(rows: &mut Rows) {
    let most = rows.caller.events_max();
    let list = numbers(&row(most + 1));
    for start in [10_799, 10_800] {
        let said = |count| chain_room(rows.caller, &list, count, POOLS, start);
        assert_eq!(said(most), Ok(Some(rows.caller.chain_max())));
        assert_eq!(said(most + 1), Err(ChainRoomRefusal::Unsound));
    }
    refused(rows, &list, most + 1, POOLS);
}

/// Eight sections that have no byte left, and nine: none fits, and neither is refused. With an unsound record behind
/// them both are.
fn full_segments(rows: &mut Rows) {
    let day = chain(rows.caller.chain_max());
    let pools = Pools { day: &day, series: &[] };
    for sections in [8, 9] {
        let large = |id| Record { chain_length: day.len() as u32, ..event(id, 60 * id) };
        let mut records: Vec<_> = (0..sections).map(large).collect();
        for start in [0, 59, 60, 600, 10_799] {
            assert_eq!(chain_room(rows.caller, &numbers(&records), records.len(), pools, start), Ok(None));
        }
        records.push(Record { duration: 0, ..event(99, 21_600) });
        refused(rows, &numbers(&records), records.len(), pools);
    }
}

/// A start that is free, in a segment with room, is answered with what a section holds; one that is taken, or past the
/// last segment, with none.
fn answered(rows: &mut Rows, list: &[u32], count: usize, pools: Pools) {
    let said = |start| chain_room(rows.caller, list, count, pools, start);
    for start in FREE {
        assert_eq!(said(start), Ok(Some(rows.caller.chain_max())), "{start}");
    }
    let taken = list.chunks(RECORD).take(count).map(|record| record[1]);
    for start in taken.chain(PAST) {
        assert_eq!(said(start), Ok(None), "{start}");
    }
}

/// Whatever the start is: free, taken, past the last segment. That it comes without a length the wrapper looks at
/// itself; it is lent nothing that it could write to.
fn refused(rows: &mut Rows, list: &[u32], count: usize, pools: Pools) {
    let taken = list.chunks(RECORD).take(count).map(|record| record[1]);
    for start in FREE.into_iter().chain(PAST).chain(taken.collect::<Vec<_>>()) {
        let refusal = ChainRoomRefusal::Unsound;
        assert_eq!(chain_room(rows.caller, list, count, pools, start), Err(refusal));
        assert_eq!(refusal.value(), 0);
        rows.add(CALL, refusal.number(), ZERO, ALL);
    }
}
