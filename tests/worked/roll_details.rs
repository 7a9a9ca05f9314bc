//! Details of roll.

use crate::build_details::file_from;
use crate::chirdaluko::{build, edit, read, roll, BuildRefusal, Caller, Pools, Record, RollRefusal, Rolled, RECORD};
use crate::details::Detail;
use crate::edit_details::NO_POOLS;
use crate::inputs::{chain, event, numbers, put, tagged, TAGGED};
use crate::schedule::{BASE_DAY, DAY, IDENTITY};

pub const ALL: [Detail; 5] = [
    ("Base day 65,471 rolls. From 65,472 on a roll is 31, whatever the list is, and never 1.", last_base_day),
    ("A list is 12 to a roll also if the only record at fault is one that would leave.", fault_leaving),
    ("A roll of the empty list succeeds, and changes the base day alone.", empty_list),
    (
        "A roll asks for no section: an event with over 4,066 bytes of descriptors, for cable over 994, \
         rolls, and Build says 10 until it has left.",
        unpackable,
    ),
    ("Read of the rolled list's file, under the new base day, returns its events.", read_back),
];

/// A list that is sound, the empty one, and one that is not sound.
fn last_base_day(caller: Caller) -> bool {
    let lists = [vec![event(1, 0), event(2, DAY)], vec![], vec![event(1, 0), event(1, DAY)]];
    let said = |records: &[Record], base_day| {
        let mut list = numbers(records);
        roll(caller, &mut list, records.len(), NO_POOLS, base_day).map(|rolled| rolled.base_day)
    };
    let last = [65_472, 65_473, 65_535, 65_536, 1 << 31, u32::MAX];
    lists.iter().all(|list| last.iter().all(|&base_day| said(list, base_day) == Err(RollRefusal::LastBaseDay)))
        && lists.map(|list| said(&list, 65_471)) == [Ok(65_472), Ok(65_472), Err(RollRefusal::Unsound)]
}

/// Between an event of the first day and one of the next: by overlap, by an id, by each range, and by tag 0xFF.
fn fault_leaving(caller: Caller) -> bool {
    let said = |record: Record| {
        let records = [event(3, 0), record, event(2, DAY)];
        let mut list = numbers(&records);
        let said = roll(caller, &mut list, 3, Pools { day: &tagged(0xFF), series: &[] }, BASE_DAY);
        said.is_err().then_some((said, list == numbers(&records)))
    };
    let sound = event(1, 60);
    let faults = [
        Record { start: 59, ..sound },
        Record { id: 3, ..sound },
        Record { id: 65_536, ..sound },
        Record { duration: 0, ..sound },
        Record { marks: 8, ..sound },
        Record { chain_length: TAGGED, ..sound },
    ];
    said(sound).is_none() && faults.iter().all(|&fault| said(fault) == Some((Err(RollRefusal::Unsound), true)))
}

fn empty_list(caller: Caller) -> bool {
    let mut list = [7; 13];
    let next = Ok(Rolled { count: 0, base_day: 1 });
    [roll(caller, &mut list, 0, NO_POOLS, 0), roll(caller, &mut [], 0, NO_POOLS, 0)] == [next; 2] && list == [7; 13]
}

/// An event that no section holds, on the third day.
fn unpackable(caller: Caller) -> bool {
    let day = chain(caller.chain_max() + 1);
    let pools = Pools { day: &day, series: &[] };
    let large = Record { chain_length: day.len() as u32, ..event(1, 2 * DAY) };
    let mut list = numbers(&[large, event(2, 3 * DAY)]);
    let said: Vec<_> = (0..3)
        .map(|night| {
            let built = build(caller, &list, 2, pools, BASE_DAY + night, IDENTITY, &mut [0; 4_096]);
            (built, roll(caller, &mut list, 2, pools, BASE_DAY + night).map(|rolled| rolled.count))
        })
        .collect();
    let at = |segment| Err(BuildRefusal::Unpackable { segment });
    said == [(at(16), Ok(2)), (at(8), Ok(2)), (at(0), Ok(1))]
        && build(caller, &list, 1, pools, BASE_DAY + 3, IDENTITY, &mut [0; 4_096]) == Ok(30)
}

/// Events without descriptors, which Read returns with an offset into the file and a length of 0.
fn read_back(caller: Caller) -> bool {
    let mut list = [0; 4 * RECORD];
    let script: Vec<u8> = (0..4).flat_map(|day| put(event(day, DAY * day + 7))).collect();
    let edited = edit(caller, &mut list, 0, NO_POOLS, &script);
    let rolled = roll(caller, &mut list, 4, NO_POOLS, BASE_DAY);
    let records = [event(1, 7), event(2, DAY + 7), event(3, 2 * DAY + 7)];
    let mut read_back = [0; 3 * RECORD];
    let said = read(caller, &file_from(caller, BASE_DAY + 1, &records, NO_POOLS), BASE_DAY + 1, &mut read_back);
    edited == Ok(4)
        && rolled == Ok(Rolled { count: 3, base_day: BASE_DAY + 1 })
        && list[..3 * RECORD] == numbers(&records)
        && said.map(|reading| reading.count) == Ok(3)
        && (0..3).all(|place| read_back[RECORD * place..][..4] == list[RECORD * place..][..4])
}
