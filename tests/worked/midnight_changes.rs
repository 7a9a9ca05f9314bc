//! What to do at midnight, each a sentence and the calls that show it, for both callers.

use crate::build_details::file_from;
use crate::chirdaluko::{build, check, edit, read, rebuild, roll, Caller, Pools, Previous, Record, Rolled};
use crate::chirdaluko::{BuildRefusal, EditRefusal, ReadRefusal, RebuildRefusal, RollRefusal};
use crate::chirdaluko::{NUMBERS_MAX, RECORD};
use crate::details::{self, Detail};
use crate::edit_details::NO_POOLS;
use crate::inputs::{chain, event, numbers, put, shift, withdraw};
use crate::rebuilt::{built, on_air, rebuilt_with, versions_of};
use crate::schedule::{title, BASE_DAY, DAY, HOUR, IDENTITY};
use crate::sections;

const ALL: [Detail; 10] = [
    (
        "**Every midnight**: roll the list with its pools and its base day, and keep the count and the base day that \
         come back. Rebuild from the file on air, with the base day that it was made with, the rolled list under the \
         new one. Check the new file under the new base day, and send it. If rebuild is refused, mend the cause and \
         rebuild again, and do not roll again: the list is rolled by then.",
        every_midnight,
    ),
    (
        "**List and base day** go together: a rolled list that is built under the old base day has every programme a \
         day early, and a list that is not rolled, under the next base day, a day late. Build and check accept both, \
         and so does rebuild. Compare the date of one event that you know with the file's.",
        together,
    ),
    (
        "**A programme over midnight** that receivers are to find in the schedule until it is over: leave the old file \
         on air, which stays right under its own base day, and roll when the programme is over. An event that has left \
         cannot be put again, since its start lies before the base day.",
        over_midnight,
    ),
    (
        "**Days were missed**: roll once for each of them, which needs no files in between, and rebuild from the file \
         on air with its own base day, however old that is.",
        missed,
    ),
    (
        "**The 64th day**, and a full list: roll before you edit. A PUT for the day behind the window is 5 before the \
         roll and carried out after it, and one into a full list is 8 until events have left.",
        new_day,
    ),
    (
        "**A script** has starts that count from the base day for which it was written. Carry it out before the roll, \
         or take 86,400 off each of its starts: else all that it puts and moves is a day late. So no script from \
         before a roll is joined with one from after it (\"Joined scripts\"): an archive begins anew with the rolled \
         list.",
        scripts,
    ),
    (
        "**Only the file is left**: Read it under its base day, roll the records with the file as day pool, and \
         rebuild from the file with the same day pool.",
        only_the_file,
    ),
    (
        "**Pools that grow**: Read the new file, and go on with its records. They are the events of the rolled list, \
         and the file, as their day pool, has the descriptors of no other.",
        small_pools,
    ),
    (
        "**The standby generator** rolls the same list with the same base day, and then has the same list. If it \
         rebuilds from the same previous file, it arrives at the same bytes; if one of the two does not roll, their \
         sections differ.",
        standby,
    ),
    (
        "**31** at base day 65,472: the window ends with day 65,535, the last date that 16 bits hold, and cannot move \
         on. Edit and Build go on under 65,472, and WITHDRAW takes out what is over. Above it Build says 1: no list \
         counts from there.",
        last_base_day,
    ),
];

pub fn print() {
    details::print_under("### What to do at midnight", &ALL);
}

/// An event at noon of each of these days.
fn noon(days: &[u32]) -> Vec<Record> {
    days.iter().map(|&day| event(day + 1, DAY * day + 12 * HOUR)).collect()
}

/// The list that so many rolls leave, and its base day.
fn rolled(caller: Caller, list: &[u32], pools: Pools, base_day: u32, rolls: u32) -> (Vec<u32>, u32) {
    let mut list = list.to_vec();
    let mut after = Rolled { count: list.len() / RECORD, base_day };
    for _ in 0..rolls {
        after = roll(caller, &mut list, after.count, pools, after.base_day).expect("a list that is rolled");
    }
    list.truncate(RECORD * after.count);
    (list, after.base_day)
}

/// The dates of a file's events, one in each section.
fn dates(file: &[u8]) -> Vec<u32> {
    let date = |bytes: &[u8]| u32::from(u16::from_be_bytes([bytes[2], bytes[3]]));
    sections::with_events(file).iter().map(|(.., bytes)| date(bytes)).collect()
}

/// Twelve midnights of an event on each of ten days, with versions that follow from file to file.
fn every_midnight(caller: Caller) -> bool {
    let records = noon(&[0, 1, 2, 3, 4, 5, 6, 7, 8, 9]);
    let mut list = numbers(&records);
    let mut file = built(caller, &records, &[]);
    let mut held = Rolled { count: records.len(), base_day: BASE_DAY };
    (1..=12).all(|night: u32| {
        let previous = Previous { file: &file, base_day: held.base_day };
        let next = roll(caller, &mut list, held.count, NO_POOLS, held.base_day).expect("a list that is rolled");
        let short = rebuild(caller, previous, &list, next.count, NO_POOLS, next.base_day, &mut []);
        let list = &list[..RECORD * next.count];
        let new = rebuilt_with(caller, previous, list, NO_POOLS, next.base_day).expect("a rebuilt file");
        let refused = short.map_err(|refusal| (refusal.number(), refusal.value())) == Err((11, new.len()));
        let read = check(caller, &new, next.base_day).map(|reading| reading.count);
        let version = versions_of(caller, &new, next.base_day)[0];
        held = next;
        file = new;
        let days: Vec<_> = (night..10).map(|day| BASE_DAY + day).collect();
        (held.base_day, read, refused) == (BASE_DAY + night, Ok(days.len()), true)
            && dates(&file) == days
            && u32::from(version) == night.min(10)
    })
}

/// Each under the wrong base day, by Build and by rebuild.
fn together(caller: Caller) -> bool {
    let records = noon(&[1, 2, 5]);
    let (list, base_day) = rolled(caller, &numbers(&records), NO_POOLS, BASE_DAY, 1);
    let file = built(caller, &records, &[]);
    let shifted = |list: &[u32], base_day, days: [u32; 3]| {
        let records: Vec<_> = list.chunks(RECORD).map(|record| event(record[0], record[1])).collect();
        let build = file_from(caller, base_day, &records, NO_POOLS);
        let rebuilt = rebuilt_with(caller, on_air(&file), list, NO_POOLS, base_day).expect("a rebuilt file");
        [build, rebuilt].iter().all(|file| check(caller, file, base_day).is_ok() && dates(file) == days)
    };
    let right = [BASE_DAY + 1, BASE_DAY + 2, BASE_DAY + 5];
    dates(&file) == right
        && shifted(&list, base_day, right)
        && shifted(&list, BASE_DAY, right.map(|day| day - 1))
        && shifted(&numbers(&records), base_day, right.map(|day| day + 1))
}

/// A film from 23:00 to 00:30, and one behind it.
fn over_midnight(caller: Caller) -> bool {
    let film = Record { duration: HOUR + HOUR / 2, ..event(1, 23 * HOUR) };
    let records = [film, event(2, film.start + film.duration)];
    let (mut list, base_day) = rolled(caller, &numbers(&records), NO_POOLS, BASE_DAY, 1);
    let old = built(caller, &records, &[]);
    let new = rebuilt_with(caller, on_air(&old), &list, NO_POOLS, base_day).expect("a rebuilt file");
    let said = |file: &[u8], base_day| check(caller, file, base_day).map(|reading| reading.count);
    list.resize(2 * RECORD, 0);
    let again = put(Record { start: film.start.wrapping_sub(DAY), ..film });
    (said(&old, BASE_DAY), said(&new, base_day)) == (Ok(2), Ok(1))
        && edit(caller, &mut list, 1, NO_POOLS, &again) == Err(EditRefusal::OutOfRange { offset: 0, count: 1 })
}

/// Up to seven days, from one file; with another base day for that file it is refused.
fn missed(caller: Caller) -> bool {
    let records = noon(&[0, 1, 2, 3, 4, 5, 6, 7, 8]);
    let old = built(caller, &records, &[]);
    (1..=7).all(|days| {
        let (list, base_day) = rolled(caller, &numbers(&records), NO_POOLS, BASE_DAY, days);
        let new = |previous| rebuilt_with(caller, previous, &list, NO_POOLS, base_day);
        let file = new(on_air(&old)).expect("a rebuilt file");
        let refused = new(Previous { file: &old, base_day });
        base_day == BASE_DAY + days
            && dates(&file) == (days..9).map(|day| BASE_DAY + day).collect::<Vec<_>>()
            && refused == Err(RebuildRefusal::Previous(ReadRefusal::EventLoop { offset: 72 }))
    })
}

/// A programme of the day behind the window; then as many events as the caller may have.
fn new_day(caller: Caller) -> bool {
    let said = |list: &mut [u32], count, record| {
        edit(caller, list, count, NO_POOLS, &put(record)).map_err(EditRefusal::number)
    };
    let mut list = numbers(&[event(1, 0), event(2, DAY), Record::default()]);
    let late = |start| event(3, start);
    let before = said(&mut list, 2, late(64 * DAY + 12 * HOUR));
    let after = roll(caller, &mut list, 2, NO_POOLS, BASE_DAY);
    let carried = said(&mut list, 1, late(63 * DAY + 12 * HOUR));

    let most = caller.events_max();
    let mut full = numbers(&(0..most as u32).map(|place| event(place, 60 * place)).collect::<Vec<_>>());
    full.resize(NUMBERS_MAX + RECORD, 0);
    let leaving = most.min(1_440);
    (before, after, carried) == (Err(5), Ok(Rolled { count: 1, base_day: BASE_DAY + 1 }), Ok(2))
        && said(&mut full, most, event(9_999, 30 * DAY)) == Err(8)
        && roll(caller, &mut full, most, NO_POOLS, BASE_DAY).map(|rolled| rolled.count) == Ok(most - leaving)
        && said(&mut full, most - leaving, event(9_999, 30 * DAY)) == Ok(most - leaving + 1)
}

/// A PUT and a MOVE before the roll, after it as they were, and after it a day earlier; then joined over a roll.
fn scripts(caller: Caller) -> bool {
    let script = |earlier| [put(event(3, 3 * DAY - earlier)), shift(2, 2 * DAY - earlier)].concat();
    let lent = numbers(&[event(1, 0), event(2, DAY), Record::default()]);
    let edited = |list: &[u32], count: usize, script: &[u8]| {
        let mut list = list.to_vec();
        let count = edit(caller, &mut list, count, NO_POOLS, script).expect("a script that is carried out");
        list.truncate(RECORD * count);
        list
    };
    let night = |list: &[u32]| rolled(caller, list, NO_POOLS, BASE_DAY, 1).0;
    let held = |list: &[u32]| [list, &[0; 2 * RECORD]].concat();
    let before = night(&edited(&lent, 2, &script(0)));
    let (late, right) = {
        let list = held(&night(&lent[..2 * RECORD]));
        (edited(&list, 1, &script(0)), edited(&list, 1, &script(DAY)))
    };
    // The first script of the next day, behind that of the day before: in turn, with the roll between, and joined.
    let second = put(event(4, 5 * DAY));
    let in_turn = edited(&held(&before), 2, &second);
    let joined = night(&edited(&held(&lent[..2 * RECORD]), 2, &[script(0), second.clone()].concat()));
    right == before
        && late == numbers(&[event(2, 2 * DAY), event(3, 3 * DAY)])
        && in_turn == numbers(&[event(2, DAY), event(3, 2 * DAY), event(4, 5 * DAY)])
        && joined == numbers(&[event(2, DAY), event(3, 2 * DAY), event(4, 4 * DAY)])
}

/// Events with titles, whose list and pools are no longer there; their own rolled list gives the same file.
fn only_the_file(caller: Caller) -> bool {
    let day = [title("News"), title("Film"), title("Opera")].concat();
    let titled = |id, start, offset, chain_length| Record { offset, chain_length, ..event(id, start) };
    let records = [titled(1, 0, 0, 11), titled(2, DAY, 11, 11), titled(3, 5 * DAY, 22, 12)];
    let pools = Pools { day: &day, series: &[] };
    let file = file_from(caller, BASE_DAY, &records, pools);
    let (list, base_day) = rolled(caller, &numbers(&records), pools, BASE_DAY, 1);
    let wanted = rebuilt_with(caller, on_air(&file), &list, pools, base_day).expect("a rebuilt file");

    let mut read_back = [0; 3 * RECORD];
    let count = read(caller, &file, BASE_DAY, &mut read_back).expect("a file that is accepted").count;
    let pools = Pools { day: &file, series: &[] };
    let (list, base_day) = rolled(caller, &read_back[..RECORD * count], pools, BASE_DAY, 1);
    rebuilt_with(caller, on_air(&file), &list, pools, base_day) == Ok(wanted)
}

/// Ten events with descriptors of their own, of which nine leave.
fn small_pools(caller: Caller) -> bool {
    let day = chain(10 * 257);
    let part = |place| Record { offset: 257 * place, chain_length: 257, ..event(place + 1, 11 * HOUR * place) };
    let records: Vec<_> = (0..10).map(part).collect();
    let pools = Pools { day: &day, series: &[] };
    let (list, base_day) = rolled(caller, &numbers(&records), pools, BASE_DAY, 4);
    let file = file_from(caller, BASE_DAY, &records, pools);
    let new = rebuilt_with(caller, on_air(&file), &list, pools, base_day).expect("a rebuilt file");
    let mut read_back = [0; RECORD];
    let count = read(caller, &new, base_day, &mut read_back).expect("a file that is accepted").count;
    let again = rebuilt_with(caller, on_air(&file), &read_back, Pools { day: &new, series: &[] }, base_day);
    let same = list[..4] == read_back[..4] && list[5] == read_back[5];
    count == 1 && same && again == Ok(new.clone()) && new.len() < day.len()
}

fn standby(caller: Caller) -> bool {
    let records = noon(&[0, 1, 4]);
    let old = built(caller, &records, &[]);
    let night = || rolled(caller, &numbers(&records), NO_POOLS, BASE_DAY, 1);
    let update = |(list, base_day): (Vec<u32>, u32)| {
        rebuilt_with(caller, on_air(&old), &list, NO_POOLS, base_day).expect("a rebuilt file")
    };
    let stayed = update((numbers(&noon(&[1, 4])), BASE_DAY));
    night() == night()
        && update(night()) == update(night())
        && dates(&stayed) == dates(&update(night()))
        && sections::with_events(&stayed) != sections::with_events(&update(night()))
}

/// A list on the last base day, with an event on its last day; base days above it.
fn last_base_day(caller: Caller) -> bool {
    let records = noon(&[0, 1, 63]);
    let mut list = numbers(&records);
    let said = roll(caller, &mut list, 3, NO_POOLS, 65_472);
    let withdrawn = edit(caller, &mut list, 3, NO_POOLS, &withdraw(1));
    let file = file_from(caller, 65_472, &noon(&[1, 63]), NO_POOLS);
    said == Err(RollRefusal::LastBaseDay)
        && withdrawn == Ok(2)
        && list[..2 * RECORD] == numbers(&noon(&[1, 63]))
        && dates(&file) == [65_473, 65_535]
        && [65_473, 65_536, 19_931_013].iter().all(|&base_day| {
            roll(caller, &mut [], 0, NO_POOLS, base_day) == Err(RollRefusal::LastBaseDay)
                && build(caller, &[], 0, NO_POOLS, base_day, IDENTITY, &mut [0; 18]) == Err(BuildRefusal::BaseDay)
        })
}
