//! Details of chain_room.

use crate::chain_room_rules::Segment;
use crate::chirdaluko::{chain_room, Caller, ChainRoomRefusal, Pools, Record};
use crate::details::Detail;
use crate::edit_details::NO_POOLS;
use crate::inputs::{chain, event, numbers};

pub const ALL: [Detail; 5] = [
    (
        "A list that is not sound is 12 to chain_room also where a sound one would be answered with none: the start \
         is taken, or past the last segment.",
        unsound_first,
    ),
    (
        "Behind seven events with 4,066 bytes of descriptors, for cable 994, and one with 4,053, for cable 981, \
         chain_room answers 0, and not 1.",
        never_one,
    ),
    (
        "Among 338 events without descriptors, for cable 82, behind seven sections without a free byte, chain_room \
         answers 10, and among 339, for cable 83, none.",
        among_many,
    ),
    ("chain_room answers for a start of 5,529,599, and says none for 5,529,600.", last_start),
    ("Ids, marks, durations and the pool that descriptors lie in change no answer of chain_room.", other_numbers),
];

fn unsound_first(caller: Caller) -> bool {
    let said = |records: &[Record], start| chain_room(caller, &numbers(records), records.len(), NO_POOLS, start);
    let (sound, twice) = ([event(1, 0), event(2, 60)], [event(1, 0), event(1, 60)]);
    [0, 60, 5_529_600, u32::MAX]
        .iter()
        .all(|&start| said(&sound, start) == Ok(None) && said(&twice, start) == Err(ChainRoomRefusal::Unsound))
}

/// Seven chains that fill their sections, and these behind them.
fn behind_seven(caller: Caller, lengths: &[usize]) -> Segment {
    Segment::of(caller, 0, &[&[caller.chain_max(); 7], lengths].concat())
}

fn never_one(caller: Caller) -> bool {
    let last = match caller {
        Caller::Broadcast => 4_053,
        Caller::Cable => 981,
    };
    behind_seven(caller, &[last]).room(10_799) == Some(0)
}

fn among_many(caller: Caller) -> bool {
    let held = match caller {
        Caller::Broadcast => 338,
        Caller::Cable => 82,
    };
    // A minute apart they are more than a segment has.
    let room = |events: usize| {
        let mut segment = behind_seven(caller, &vec![0; events]);
        for (place, record) in segment.records.iter_mut().enumerate() {
            record.start = 20 * place as u32;
        }
        [segment.room(20 * 7 + 10), segment.room(20 * 50 + 10), segment.room(10_799)]
    };
    room(held) == [Some(10); 3] && room(held + 1) == [None; 3]
}

fn last_start(caller: Caller) -> bool {
    let said = |start| chain_room(caller, &[], 0, NO_POOLS, start);
    said(5_529_599) == Ok(Some(caller.chain_max())) && said(5_529_600) == Ok(None)
}

/// Eight events with as many bytes as leave 100 for one more's descriptors.
fn other_numbers(caller: Caller) -> bool {
    let bytes = chain(caller.chain_max() - 112);
    let of = |place| Record { chain_length: bytes.len() as u32, ..event(place, 60 * place) };
    let said = |change: fn(Record) -> Record| {
        let records: Vec<_> = (0..8).map(|place| change(of(place))).collect();
        chain_room(caller, &numbers(&records), 8, Pools { day: &bytes, series: &bytes }, 600)
    };
    let changes: [fn(Record) -> Record; 5] = [
        |record| record,
        |record| Record { id: 65_535 - record.id, ..record },
        |record| Record { marks: 5, ..record },
        |record| Record { marks: Record::SERIES_POOL, ..record },
        |record| Record { duration: 1, ..record },
    ];
    changes.iter().all(|&change| said(change) == Ok(Some(100)))
}
