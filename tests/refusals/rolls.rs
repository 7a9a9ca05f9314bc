//! Roll's refusals: 31, whatever the list is, and then 12.

use crate::chirdaluko::{roll, Pools, Record, RollRefusal, Rolled, RECORD};
use crate::inputs::{event, numbers, row, tagged, DAY, TAGGED};
use crate::{Rows, ALL, ZERO};

const CALL: &str = "roll";
const POOLS: Pools = Pools { day: &DAY, series: &[] };
const DAY_SECONDS: u32 = 86_400;

/// Base days that have one after them, and those that have none.
const LEGAL: [u32; 4] = [0, 49_273, 65_470, 65_471];
const LAST: [u32; 7] = [65_472, 65_473, 65_535, 65_536, 131_072, 1 << 31, u32::MAX];

pub fn run(rows: &mut Rows) {
    counts(rows);
    records(rows);
    neighbours(rows);
    parts(rows);
    event_limit(rows);
}

/// Two events, of which one leaves: as many as the buffer has; then one more, and counts of which six times is no
/// usize.
fn counts(rows: &mut Rows) {
    let list = numbers(&[event(1, 100), event(2, DAY_SECONDS)]);
    rolled(rows, &list, 2, POOLS, &[event(2, 0)]);
    rolled(rows, &list[..RECORD], 1, POOLS, &[]);
    rolled(rows, &list, 0, POOLS, &[]);
    rolled(rows, &[], 0, POOLS, &[]);
    for count in [3, usize::MAX / 6 + 1, usize::MAX / 2 + 1, usize::MAX] {
        refused(rows, &list, count, POOLS);
    }
    // With the two numbers over a number is missing.
    refused(rows, &list[..2 * RECORD - 3], 2, POOLS);
    refused(rows, &[], 1, POOLS);
}

/// Each number of a record at its limit and past it, of one that leaves and of one that stays.
fn records(rows: &mut Rows) {
    for start in [100, DAY_SECONDS + 100] {
        let sound = event(1, start);
        for record in [
            Record { id: 65_535, ..sound },
            Record { duration: 1, ..sound },
            Record { duration: 359_999, ..sound },
            Record { marks: 7, ..sound },
            Record { offset: 3, ..sound },
        ] {
            let left = if start < DAY_SECONDS { vec![] } else { vec![Record { start: 100, ..record }] };
            rolled(rows, &numbers(&[record]), 1, Pools { day: &DAY, series: &DAY }, &left);
        }
        for record in [
            Record { id: 65_536, ..sound },
            Record { duration: 0, ..sound },
            Record { duration: 360_000, ..sound },
            Record { marks: 8, ..sound },
        ] {
            refused(rows, &numbers(&[record]), 1, POOLS);
        }
    }
    let last = Record { start: 5_529_599, ..event(1, 0) };
    rolled(rows, &numbers(&[last]), 1, POOLS, &[Record { start: 5_443_199, ..last }]);
    refused(rows, &numbers(&[event(1, 5_529_600)]), 1, POOLS);
}

/// Two events that touch, on the first day, over midnight and on the second day; then a second less between them, the
/// same start, starts in the other order, and the same id.
fn neighbours(rows: &mut Rows) {
    for start in [100, DAY_SECONDS - 60, DAY_SECONDS] {
        let (first, second) = (event(1, start), event(2, start + 60));
        let both = [first, second].into_iter();
        let later: Vec<_> = both.filter(|record| record.start >= DAY_SECONDS).collect();
        let left: Vec<_> = later.iter().map(|&record| Record { start: record.start - DAY_SECONDS, ..record }).collect();
        rolled(rows, &numbers(&[first, second]), 2, POOLS, &left);
        for records in [
            [first, Record { start: second.start - 1, ..second }],
            [Record { duration: 61, ..first }, second],
            [first, Record { start: first.start, ..second }],
            [second, first],
            [first, Record { id: 1, ..second }],
        ] {
            refused(rows, &numbers(&records), 2, POOLS);
        }
    }
    // The same id in the first record and in the last.
    let twice = [event(1, 0), event(2, 60), event(3, DAY_SECONDS), event(1, 5_529_540)];
    refused(rows, &numbers(&twice), 4, POOLS);
}

/// Descriptors outside their pool, those that do not end where their part ends, and tag 0xFF, of an event that leaves
/// and of one that stays; with tag 0xFE it rolls.
fn parts(rows: &mut Rows) {
    let (legal, forbidden) = (tagged(0xFE), tagged(0xFF));
    for start in [0, DAY_SECONDS] {
        let at_midnight = event(1, 0);
        let left = |record: Record| if start == 0 { vec![] } else { vec![Record { start: 0, ..record }] };
        for (marks, offset, chain_length) in [(0, 4, 0), (0, 0, 4), (0, 0, 3), (0, 1, 1), (0, u32::MAX, 2), (2, 0, 1)] {
            let record = Record { marks, offset, chain_length, start, ..at_midnight };
            refused(rows, &numbers(&[record]), 1, POOLS);
        }
        for marks in [0, Record::SERIES_POOL] {
            let record = Record { marks, chain_length: TAGGED, start, ..at_midnight };
            let pools = |chosen, other| match marks {
                0 => Pools { day: chosen, series: other },
                _ => Pools { day: other, series: chosen },
            };
            rolled(rows, &numbers(&[record]), 1, pools(&legal[..], &forbidden[..]), &left(record));
            refused(rows, &numbers(&[record]), 1, pools(&forbidden[..], &legal[..]));
        }
    }
}

/// As many events as the caller may have, and one more, of which the last is the only one that stays.
fn event_limit(rows: &mut Rows) {
    let most = rows.caller.events_max();
    let stays = event(9_999, DAY_SECONDS);
    for (count, is_sound) in [(most, true), (most + 1, false)] {
        let mut records = row(count);
        records[count - 1] = stays;
        match is_sound {
            true => rolled(rows, &numbers(&records), count, POOLS, &[Record { start: 0, ..stays }]),
            false => refused(rows, &numbers(&records), count, POOLS),
        }
    }
}

/// The buffer with two numbers over.
fn lent(list: &[u32]) -> Vec<u32> {
    [list, &[77, 78]].concat()
}

/// Under a base day that has one after it the list is rolled to these records: behind them stand zeros up to the count,
/// and then what stood there. Under the last one, and above, it is 31.
fn rolled(rows: &mut Rows, list: &[u32], count: usize, pools: Pools, left: &[Record]) {
    let mut wanted = lent(list);
    wanted[..RECORD * count].fill(0);
    wanted[..RECORD * left.len()].copy_from_slice(&numbers(left));
    for base_day in LEGAL {
        let mut list = lent(list);
        let next = Rolled { count: left.len(), base_day: base_day + 1 };
        assert_eq!(roll(rows.caller, &mut list, count, pools, base_day), Ok(next));
        assert_eq!(list, wanted);
    }
    last_base_days(rows, list, count, pools);
}

/// Under a base day that has one after it the list is 12, and else 31, which comes first. The list stays.
fn refused(rows: &mut Rows, list: &[u32], count: usize, pools: Pools) {
    for base_day in LEGAL {
        refuses(rows, list, count, pools, base_day, RollRefusal::Unsound);
    }
    last_base_days(rows, list, count, pools);
}

fn last_base_days(rows: &mut Rows, list: &[u32], count: usize, pools: Pools) {
    for base_day in LAST {
        refuses(rows, list, count, pools, base_day, RollRefusal::LastBaseDay);
    }
}

/// That the value is 0, and count and base day are those that were given, the wrapper looks at itself.
fn refuses(rows: &mut Rows, list: &[u32], count: usize, pools: Pools, base_day: u32, refusal: RollRefusal) {
    let mut left = lent(list);
    assert_eq!(roll(rows.caller, &mut left, count, pools, base_day), Err(refusal));
    assert_eq!(left, lent(list));
    rows.add(CALL, refusal.number(), ZERO, ALL);
}
