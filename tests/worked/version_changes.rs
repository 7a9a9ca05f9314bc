//! What to do about versions, each a sentence and the calls that show it, for both callers.

use crate::build_details::file_of;
use crate::chirdaluko::{build, check, edit, read, rebuild, roll, Caller, Pools, Previous, Record, Rolled, RECORD};
use crate::chirdaluko::{BuildRefusal, ReadRefusal, RebuildRefusal};
use crate::details::{self, Detail};
use crate::edit_details::NO_POOLS;
use crate::inputs::{event, numbers, put, row, tagged, withdraw, TAGGED};
use crate::rebuilt::{built, identity, on_air, rebuilt, rebuilt_with, versions, versions_of, with_version, ROOM};
use crate::schedule::{title, BASE_DAY};
use crate::sections::{self, section};

const ALL: [Detail; 11] = [
    (
        "**The first file** has no previous one: Build it, with 0 for each of the sixteen versions, or with any.",
        first_file,
    ),
    (
        "**A change**: keep the file that is on air, and its base day. Edit the list, rebuild, check, and send the \
         new file, which is the previous one from then on.",
        changes,
    ),
    (
        "**Only the file is left, and its list is lost**: Read it, and edit the records that come back, with the file \
         as day pool and new descriptors in the series pool. Rebuild takes the file as previous file and as day pool \
         at the same time.",
        list_lost,
    ),
    (
        "**The previous file is refused** with the number and the value that check returns of it, whatever else is \
         wrong, and the output stays; in Rust it is `RebuildRefusal::Previous`. Look at its base day, its caller and \
         its bytes as \"Refusals\" says.",
        previous_refused,
    ),
    (
        "**A previous file with tag 0xFF or with overlap**, as the library could build it before versions 2.1 and 4, \
         is 24, and no base day helps: Build instead, with the next version for every table. The old version of a \
         table is (byte 5 of its sections − 0xC1) ÷ 2.",
        build_instead,
    ),
    ("**1** is about the previous base day if that is above 65,472, and otherwise about the new one.", two_base_days),
    (
        "**The base day moves on**, at midnight: roll the list (\"Midnight\"), and give each file its own. Events then \
         stand in other segments, and each table where bytes change has its next version.",
        midnight,
    ),
    (
        "**The standby generator** arrives at the same bytes if it rebuilds from the same previous file: give it each \
         file that goes on air. One that has missed an update, and rebuilds from its own last file, has other \
         versions.",
        standby,
    ),
    (
        "**The caller changes**: rebuild for broadcast takes a file for cable as previous file, and gives the next \
         version to each table that is packed otherwise. A file for broadcast can be 20 or 26 for cable: Build \
         instead, with the next version for every table.",
        other_caller,
    ),
    (
        "**A table that goes and comes back** has version 0, whatever it had: the previous file alone is looked at. \
         If it had 0 when it went, a receiver that still keeps it sees no difference: Build then, with another \
         version for it.",
        comes_back,
    ),
    (
        "**Versions of your own choice**: take those that check returns, change them, and Build the list with them. \
         All bytes but versions and CRC_32 are the same.",
        own_choice,
    ),
];

pub fn print() {
    details::print_under("### What to do about versions", &ALL);
}

/// Events of tables 0x50 and 0x51.
fn two_tables() -> Vec<Record> {
    vec![event(1, 0), event(2, 345_600)]
}

/// The same, of which one lasts so much longer.
fn longer(place: usize, seconds: u32) -> Vec<Record> {
    let mut records = two_tables();
    records[place].duration += seconds;
    records
}

fn first_file(caller: Caller) -> bool {
    let list = numbers(&two_tables());
    let none = rebuilt_with(caller, on_air(&[]), &list, NO_POOLS, BASE_DAY);
    let first = built(caller, &two_tables(), &[]);
    none == Err(RebuildRefusal::Previous(ReadRefusal::EarlyEnd { file_length: 0 }))
        && versions_of(caller, &first, BASE_DAY) == [0, 0]
        && versions_of(caller, &built(caller, &two_tables(), &[17, 31]), BASE_DAY) == [17, 31]
}

/// Forty changes in table 0x51, by Edit, with two buffers in turn.
fn changes(caller: Caller) -> bool {
    let mut list = numbers(&two_tables());
    let mut buffers = [vec![0; 60], vec![0; 60]];
    let mut said = build(caller, &list, 2, NO_POOLS, BASE_DAY, identity(&[]), &mut buffers[0]).ok();
    (1..=40).all(|change: u32| {
        let script = [withdraw(2), put(Record { duration: 60 + change, ..event(2, 345_600) })].concat();
        let [previous, out] = &mut buffers;
        let length = said.expect("a file");
        let edited = edit(caller, &mut list, 2, NO_POOLS, &script);
        said = rebuild(caller, on_air(&previous[..length]), &list, 2, NO_POOLS, BASE_DAY, out).ok();
        let versions = versions_of(caller, out, BASE_DAY);
        buffers.reverse();
        (edited, said) == (Ok(2), Some(60)) && versions == [0, (change % 32) as u8]
    })
}

/// A file of two events with titles; the second gets another one.
fn list_lost(caller: Caller) -> bool {
    let (day, series) = ([title("News"), title("Film")].concat(), title("Opera"));
    let titled = |id, start, offset| Record { offset, chain_length: 11, ..event(id, start) };
    let list = numbers(&[titled(1, 0, 0), titled(2, 345_600, 11)]);
    let file_with = |list: &[u32], pools, first: &[u8]| {
        let mut out = vec![0; ROOM];
        let length = build(caller, list, 2, pools, BASE_DAY, identity(first), &mut out).expect("a file");
        out.truncate(length);
        out
    };
    let file = file_with(&list, Pools { day: &day, series: &[] }, &[7, 8]);

    let mut records = [0; 2 * RECORD];
    let read_back = read(caller, &file, BASE_DAY, &mut records).map(|reading| reading.count);
    let pools = Pools { day: &file, series: &series };
    let opera = Record { marks: Record::SERIES_POOL, chain_length: 12, ..event(2, 345_600) };
    let edited = edit(caller, &mut records, 2, pools, &[withdraw(2), put(opera)].concat());
    (read_back, edited) == (Ok(2), Ok(2))
        && rebuilt_with(caller, on_air(&file), &records, pools, BASE_DAY) == Ok(file_with(&records, pools, &[7, 9]))
}

/// Files that are damaged, each with a list that can be built and with causes of Build's; the output stays.
fn previous_refused(caller: Caller) -> bool {
    let file = built(caller, &two_tables(), &[1, 2]);
    let mut damaged = file.clone();
    damaged[59] ^= 1;
    let twice = [event(1, 0), event(1, 60)];
    [(&file[..59], BASE_DAY), (&damaged, BASE_DAY), (&file[..30], BASE_DAY), (&file, BASE_DAY + 1), (&file, 70_000)]
        .iter()
        .all(|&(file, base_day)| {
            let refusal = check(caller, file, base_day).expect_err("a file that is refused");
            [(&two_tables()[..], BASE_DAY), (&two_tables(), 70_000), (&twice, BASE_DAY)].iter().all(
                |&(records, day)| {
                    let mut out = [0xA5; 60];
                    let (previous, list) = (Previous { file, base_day }, numbers(records));
                    let said = rebuild(caller, previous, &list, 2, NO_POOLS, day, &mut out);
                    said == Err(RebuildRefusal::Previous(refusal)) && out == [0xA5; 60]
                },
            )
        })
}

/// A file with the tag in its second section, and one whose second event begins before the first one ends, under every
/// base day, and with every version.
fn build_instead(caller: Caller) -> bool {
    let mut second = sections::event(2, 0x03, 0x00);
    second[11] = TAGGED as u8;
    second.extend(tagged(0xFF));
    let first = sections::event(1, 0x00, 0x00);
    let forbidden = [section([0x50, 0, 0, 8, 0x50], &[first.clone()]), section([0x50, 8, 8, 8, 0x50], &[second])];
    let overlap = section([0x50, 0, 0, 0, 0x50], &[first, sections::event(2, 0x00, 0x00)]);
    let said = |file: &[u8], base_day| {
        let previous = Previous { file, base_day };
        rebuilt_with(caller, previous, &numbers(&two_tables()), NO_POOLS, BASE_DAY).map_err(RebuildRefusal::number)
    };
    let next = |byte: u8| ((byte - 0xC1) / 2 + 1) % 32;
    [forbidden.concat(), overlap].iter().all(|file| {
        (0..=65_472).all(|base_day| said(file, base_day) == Err(24))
            && (0..32).all(|version| {
                let old = with_version(file, version, |_| true);
                let new = built(caller, &two_tables(), &[next(old[5])]);
                versions_of(caller, &new, BASE_DAY) == [(version + 1) % 32, 0]
            })
    })
}

fn two_base_days(caller: Caller) -> bool {
    let file = built(caller, &[], &[]);
    let said = |previous, new| rebuilt_with(caller, Previous { file: &file, base_day: previous }, &[], NO_POOLS, new);
    let previous = Err(RebuildRefusal::Previous(ReadRefusal::BaseDay));
    [said(65_473, 0), said(65_473, 65_473), said(u32::MAX, 65_472)].iter().all(|said| *said == previous)
        && said(65_472, 65_473) == Err(RebuildRefusal::Build(BuildRefusal::BaseDay))
        && said(65_472, 65_472) == Ok(file.clone())
}

/// An event at noon of each of nine days, so in three tables. A day later the first event is gone, and so is table
/// 0x52. Then a schedule in which table 0x50 has no events, before and after.
fn midnight(caller: Caller) -> bool {
    let noon = |days: &[u32]| days.iter().map(|&day| event(day, 86_400 * day + 43_200)).collect::<Vec<_>>();
    let all = noon(&[0, 1, 2, 3, 4, 5, 6, 7, 8]);
    let file = built(caller, &all, &[3, 4, 5]);
    let after = |file: &[u8], previous_base_day, records: &[Record]| {
        let mut list = numbers(records);
        let Rolled { count, base_day } =
            roll(caller, &mut list, records.len(), NO_POOLS, BASE_DAY).expect("a list that is rolled");
        let previous = Previous { file, base_day: previous_base_day };
        let said = rebuilt_with(caller, previous, &list[..RECORD * count], NO_POOLS, base_day);
        said.map(|file| versions_of(caller, &file, base_day))
    };
    let late = built(caller, &noon(&[6, 7]), &[3, 4]);
    after(&file, BASE_DAY, &all) == Ok(vec![4, 5])
        && after(&file, BASE_DAY + 1, &all) == Err(RebuildRefusal::Previous(ReadRefusal::EventLoop { offset: 72 }))
        && after(&late, BASE_DAY, &noon(&[6, 7])) == Ok(vec![3, 5])
}

/// Two updates of the main generator. The standby generator makes the second one from the file on air, and then from
/// its own file before the first.
fn standby(caller: Caller) -> bool {
    let first = built(caller, &two_tables(), &[]);
    let second = rebuilt(caller, &first, &longer(0, 1));
    let third = rebuilt(caller, &second, &longer(0, 2));
    let missed = rebuilt(caller, &first, &longer(0, 2));
    rebuilt(caller, &second, &longer(0, 2)) == third
        && versions_of(caller, &third, BASE_DAY) == [2, 0]
        && versions_of(caller, &missed, BASE_DAY) == [1, 0]
}

/// 84 events in a segment, which are two sections for cable, and one event of the fifth day.
fn other_caller(_: Caller) -> bool {
    let records = [row(84), vec![event(1_000, 345_600)]].concat();
    let (cable, broadcast) = (built(Caller::Cable, &records, &[5, 6]), built(Caller::Broadcast, &records, &[5, 6]));
    let many: Vec<_> = (0..257).map(|place| event(place, 10_800 * place)).collect();
    let said = |file: &[u8]| {
        let said = rebuilt_with(Caller::Cable, on_air(file), &numbers(&records), NO_POOLS, BASE_DAY);
        said.map_err(RebuildRefusal::number)
    };
    rebuilt(Caller::Broadcast, &cable, &records) == built(Caller::Broadcast, &records, &[6, 6])
        && said(&broadcast) == Err(20)
        && said(&file_of(Caller::Broadcast, &many, NO_POOLS)) == Err(26)
        && versions_of(Caller::Cable, &built(Caller::Cable, &records, &[6, 7]), BASE_DAY) == [6, 7]
}

fn comes_back(caller: Caller) -> bool {
    [0, 1, 9, 31].iter().all(|&version| {
        let file = built(caller, &two_tables(), &[5, version]);
        let gone = rebuilt(caller, &file, &two_tables()[..1]);
        let back = rebuilt(caller, &gone, &two_tables());
        versions_of(caller, &gone, BASE_DAY) == [6] && versions_of(caller, &back, BASE_DAY) == [7, 0]
    }) && versions_of(caller, &built(caller, &two_tables(), &[7, 1]), BASE_DAY) == [7, 1]
}

fn own_choice(caller: Caller) -> bool {
    let file = built(caller, &two_tables(), &[5, 6]);
    let mut chosen = check(caller, &file, BASE_DAY).expect("a file that is accepted").identity.versions;
    let returned = chosen;
    chosen[1] = 20;
    returned == versions(&[5, 6])
        && built(caller, &two_tables(), &chosen) == with_version(&file, 20, |section| section[0] == 0x51)
}
