//! What a roll is, each a sentence and the calls that show it, for both callers.

use crate::build_details::file_from;
use crate::chirdaluko::{edit, plan, roll, Caller, EditRefusal, Pools, Record, RollRefusal, Rolled, RECORD, SEGMENTS};
use crate::details::{self, Detail};
use crate::edit_details::NO_POOLS;
use crate::inputs::{chain, event, numbers, put};
use crate::schedule::{title, BASE_DAY, DAY};
use crate::sections;

const ALL: [Detail; 7] = [
    (
        "**What leaves**: every record with a start below 86,400, which is an event of the base day. A programme that \
         runs over midnight leaves with its start: though it is still on air, it is in no section of the next file.",
        leaving,
    ),
    (
        "**What stays**: all other records, in their order. 86,400 is taken off each start, so that 86,400 itself \
         becomes 0; id, duration, marks, offset and length are as they were. The base day grows by 1, so every event \
         keeps its date and time.",
        staying,
    ),
    (
        "**The buffer**: the records from the new count up to the old one become zeros, and the numbers behind them \
         stay.",
        zeros,
    ),
    (
        "**What is returned**: the new count, in C as value and as count, and the next base day. 31 and 12 return \
         value 0 and the count and the base day that were given, and the list stays as it was.",
        returned,
    ),
    (
        "**What a roll does not do**: it makes no file. It makes no room in a full list until it is called: PUT is 8 \
         up to then. It moves no descriptors and frees no byte of a pool: offsets are as they were, and the pools have \
         to be, too.",
        not_done,
    ),
    (
        "**Several days**: n rolls in a row, none of them refused, keep exactly the records whose start was at least \
         86,400 × n, in their order, each shifted by that much. 64 such rolls empty every list.",
        several,
    ),
    (
        "**The sections**: where Build writes the list before and after a roll, each under its base day, the k-th \
         section of a segment has the same event bytes as the k-th of the segment eight indexes later had before. So \
         what could be packed still can, and the last eight segments, those of the 64th day, have no events.",
        same_sections,
    ),
];

pub fn print() {
    details::print_under("## Midnight", &ALL);
}

/// What a roll from the worked base day says, and what it leaves of a buffer of these records and two numbers over.
fn rolled(caller: Caller, records: &[Record], pools: Pools) -> (Result<Rolled, RollRefusal>, Vec<u32>) {
    let mut list = numbers(records);
    list.extend([7, 8]);
    (roll(caller, &mut list, records.len(), pools, BASE_DAY), list)
}

/// The buffer of so many records of which these are left.
fn left(count: usize, records: &[Record]) -> Vec<u32> {
    let mut list = numbers(records);
    list.resize(RECORD * count, 0);
    list.extend([7, 8]);
    list
}

const fn next_day(count: usize) -> Result<Rolled, RollRefusal> {
    Ok(Rolled { count, base_day: BASE_DAY + 1 })
}

/// The same events a day earlier.
fn earlier(records: &[Record]) -> Vec<Record> {
    records.iter().map(|&record| Record { start: record.start - DAY, ..record }).collect()
}

/// A programme of each duration in the first and last second and at noon, alone and before one of the next day.
fn leaving(caller: Caller) -> bool {
    [0, 1, 43_200, 86_398, 86_399].iter().all(|&start| {
        [1, 60, 43_200, 86_400, 359_999].iter().all(|&duration| {
            let over = Record { duration, ..event(1, start) };
            let behind = event(2, (start + duration).max(DAY));
            let next = file_from(caller, BASE_DAY + 1, &earlier(&[behind]), NO_POOLS);
            rolled(caller, &[over], NO_POOLS) == (next_day(0), left(1, &[]))
                && rolled(caller, &[over, behind], NO_POOLS) == (next_day(1), left(2, &earlier(&[behind])))
                && sections::with_events(&next).iter().all(|(.., bytes)| bytes[..2] == [0, 2] && bytes.len() == 12)
        })
    })
}

/// Titles and marks, from both pools; the first and the last second that stay.
fn staying(caller: Caller) -> bool {
    let (day, series) = ([title("News"), title("Film")].concat(), title("Opera"));
    let pools = Pools { day: &day, series: &series };
    let records = [
        Record { duration: 359_999, marks: 1, offset: 11, chain_length: 11, ..event(9, 86_400) },
        Record { marks: 2, chain_length: 12, ..event(3, 500_000) },
        Record { marks: 7, chain_length: 12, ..event(65_535, 500_060) },
        Record { duration: 1, marks: 4, offset: 22, ..event(1, 5_529_599) },
    ];
    let event_bytes = |base_day, records: &[Record]| {
        let file = file_from(caller, base_day, records, pools);
        sections::with_events(&file).iter().flat_map(|(.., bytes)| bytes.to_vec()).collect::<Vec<_>>()
    };
    rolled(caller, &records, pools) == (next_day(4), left(4, &earlier(&records)))
        && earlier(&records)[0].start == 0
        && event_bytes(BASE_DAY, &records) == event_bytes(BASE_DAY + 1, &earlier(&records))
}

/// Each number of six events leaves.
fn zeros(caller: Caller) -> bool {
    (0..=6).all(|leaving| {
        let start = |place: u32| if place < leaving { 60 * place } else { DAY * (place + 1) };
        let records: Vec<_> = (0..6).map(|place| event(place + 1, start(place))).collect();
        let staying = earlier(&records[leaving as usize..]);
        rolled(caller, &records, NO_POOLS) == (next_day(staying.len()), left(6, &staying))
    })
}

/// That a refusal has value 0 and the count and base day that were given, the wrapper looks at itself.
fn returned(caller: Caller) -> bool {
    let records = [event(1, 0), event(2, DAY)];
    let twice = [event(1, 0), event(1, DAY)];
    let lent = left(2, &records);
    let mut list = lent.clone();
    rolled(caller, &twice, NO_POOLS) == (Err(RollRefusal::Unsound), left(2, &twice))
        && roll(caller, &mut list, 2, NO_POOLS, 65_472) == Err(RollRefusal::LastBaseDay)
        && list == lent
        && roll(caller, &mut list, 2, NO_POOLS, BASE_DAY) == next_day(1)
}

/// A list at the caller's limit, of which one event leaves; an event whose descriptors lie behind those of another.
fn not_done(caller: Caller) -> bool {
    let most = caller.events_max();
    let later = (1..most as u32).map(|place| event(place, DAY + 60 * place));
    let mut list = numbers(&[event(0, 0)].into_iter().chain(later).collect::<Vec<_>>());
    list.resize(RECORD * (most + 1), 0);
    let put_more = |list: &mut [u32], count| {
        let said = edit(caller, list, count, NO_POOLS, &put(event(9_999, 30 * DAY)));
        said.map_err(EditRefusal::number)
    };
    let room = put_more(&mut list, most) == Err(8)
        && roll(caller, &mut list, most, NO_POOLS, BASE_DAY) == next_day(most - 1)
        && put_more(&mut list, most - 1) == Ok(most);

    let day = [title("News"), title("Film")].concat();
    let titled = |id, start, offset| Record { offset, chain_length: 11, ..event(id, start) };
    let (said, list) = rolled(caller, &[titled(1, 0, 0), titled(2, DAY, 11)], Pools { day: &day, series: &[] });
    let is_sound = |day: &[u8]| {
        let mut counts = [0; SEGMENTS];
        plan(caller, &list, 1, Pools { day, series: &[] }, &mut counts);
        counts[0] != 254
    };
    room && said == next_day(1)
        && list == left(2, &[titled(2, 0, 11)])
        && (is_sound(&day), is_sound(&day[11..])) == (true, false)
}

/// An event in the first and one in the last second of each of 64 days.
fn several(caller: Caller) -> bool {
    let records: Vec<_> = (0..64)
        .flat_map(|day| [event(2 * day, DAY * day), Record { duration: 1, ..event(2 * day + 1, DAY * day + 86_399) }])
        .collect();
    let mut list = left(records.len(), &records);
    let mut count = records.len();
    (1..=64).all(|n| {
        let rolled = roll(caller, &mut list, count, NO_POOLS, BASE_DAY + n - 1);
        let later = records.iter().filter(|record| record.start >= DAY * n);
        let shifted: Vec<_> = later.map(|&record| Record { start: record.start - DAY * n, ..record }).collect();
        count = shifted.len();
        rolled == Ok(Rolled { count, base_day: BASE_DAY + n }) && list == left(records.len(), &shifted)
    }) && count == 0
}

/// Segments of one, two and eight sections, also at both ends of a day and of the window.
fn same_sections(caller: Caller) -> bool {
    let day = chain(caller.section_max() / 2);
    let large = |id, start| Record { chain_length: day.len() as u32, ..event(id, start) };
    let segments = [
        (0, 1),
        (75_600, 2),
        (86_400, 8),
        (172_799, 1),
        (259_200, 2),
        (345_600, 1),
        (1_000_000, 8),
        (5_443_200, 2),
        (5_529_000, 1),
    ];
    let starts = segments.iter().flat_map(|&(start, sections)| (0..sections).map(move |k| start + 60 * k));
    let records: Vec<_> = starts.enumerate().map(|(id, start)| large(id as u32, start)).collect();
    let pools = Pools { day: &day, series: &[] };
    let later: Vec<_> = records.iter().copied().filter(|record| record.start >= DAY).collect();
    let before = file_from(caller, BASE_DAY, &records, pools);
    let after = file_from(caller, BASE_DAY + 1, &earlier(&later), pools);
    let moved = sections::with_events(&before).into_iter().filter(|(index, ..)| *index >= 8);
    let after = sections::with_events(&after);
    rolled(caller, &records, pools) == (next_day(later.len()), left(records.len(), &earlier(&later)))
        && moved.map(|(index, k, bytes)| (index - 8, k, bytes)).eq(after.iter().copied())
        && after.iter().any(|(_, k, _)| *k == 7)
        && after.iter().all(|(index, ..)| *index < 504)
}
