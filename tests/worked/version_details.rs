//! Details of versions and of rebuild.

use crate::chirdaluko::{build, check, read, BuildRefusal, Caller, Identity, Pools, ReadRefusal, Record, TABLES};
use crate::details::Detail;
use crate::edit_details::NO_POOLS;
use crate::inputs::{chain, event, numbers};
use crate::rebuilt::{built, identity, on_air, rebuilt, rebuilt_with, versions_of, with_version, ROOM};
use crate::schedule::BASE_DAY;

pub const ALL: [Detail; 6] = [
    (
        "Under other versions Build's file differs in byte 5 and CRC_32 of its sections alone, \
         and only in tables whose version is another one.",
        other_versions,
    ),
    ("2 is said for a version above 31 of any table, in the file or not, before the list is looked at.", above),
    ("A section that comes back is 22 with another version than that of its table, and 23 with the same.", comes_back),
    (
        "A rebuilt file is what Build writes of the list under the previous service, stream and network \
         and the new versions.",
        as_built,
    ),
    (
        "A table without events has a version, too; it keeps it until it gets an event, or last_table_id changes.",
        empty_table,
    ),
    (
        "Rebuild of the records that Read returned, with the file as previous file and as day pool, \
         is the file again if Build made it.",
        read_and_rebuilt,
    ),
];

/// Events of three tables, two in the first.
fn three_tables() -> Vec<Record> {
    vec![event(1, 0), event(2, 10_800), event(3, 345_600), event(4, 691_200)]
}

fn other_versions(caller: Caller) -> bool {
    let file = built(caller, &three_tables(), &[1, 2, 3]);
    (0..32).all(|version| {
        built(caller, &three_tables(), &[version, 2, 3]) == with_version(&file, version, |section| section[0] == 0x50)
            && built(caller, &three_tables(), &[1, 2, version])
                == with_version(&file, version, |section| section[0] == 0x52)
    })
}

/// Of the empty list, and of one that is not sound, with an output of no bytes.
fn above(caller: Caller) -> bool {
    let twice = numbers(&[event(1, 0), event(1, 60)]);
    (0..TABLES).all(|table| {
        [32, 64, 255].iter().all(|&version| {
            let mut versions = [31; TABLES];
            versions[table] = version;
            let said = |count, base_day| build(caller, &twice, count, NO_POOLS, base_day, identity(&versions), &mut []);
            [said(0, BASE_DAY), said(2, BASE_DAY)] == [Err(BuildRefusal::Version); 2]
                && said(2, 65_473) == Err(BuildRefusal::BaseDay)
        })
    })
}

/// Each section of the first two tables behind the third, and behind the last.
fn comes_back(caller: Caller) -> bool {
    let file = built(caller, &three_tables(), &[1, 1, 1]);
    [(0, 90), (30, 90), (60, 90), (0, 120), (30, 120), (60, 120), (90, 120)].iter().all(|&(from, offset)| {
        let said = |version| {
            let again = with_version(&file[from..from + 30], version, |_| true);
            check(caller, &[&file[..offset], &again].concat(), BASE_DAY).map(|reading| reading.count)
        };
        said(1) == Err(ReadRefusal::Numbering { offset }) && said(2) == Err(ReadRefusal::Header { offset })
    })
}

/// Lists before and after, each a part of the events of three tables.
fn as_built(caller: Caller) -> bool {
    let ids =
        Identity { service_id: 0x1234, transport_stream_id: 0x5678, original_network_id: 0x9ABC, ..identity(&[]) };
    let file_with = |records: &[Record], identity| {
        let mut out = vec![0; ROOM];
        let length = build(caller, &numbers(records), records.len(), NO_POOLS, BASE_DAY, identity, &mut out);
        out.truncate(length.expect("a file"));
        out
    };
    let parts =
        || (0..16).map(|part| three_tables().into_iter().filter(move |record| part >> (record.id - 1) & 1 == 1));
    parts().all(|before| {
        let previous = file_with(&before.collect::<Vec<_>>(), Identity { versions: [31; TABLES], ..ids });
        parts().all(|after| {
            let after: Vec<_> = after.collect();
            let file = rebuilt(caller, &previous, &after);
            let identity = check(caller, &file, BASE_DAY).expect("a file that is accepted").identity;
            let Identity { versions, .. } = identity;
            identity == Identity { versions, ..ids } && file == file_with(&after, identity)
        })
    })
}

/// Table 0x51 has no events between those of 0x50 and 0x52.
fn empty_table(caller: Caller) -> bool {
    let records = [event(1, 0), event(2, 691_200)];
    let file = built(caller, &records, &[4, 5, 6]);
    let after = |records: &[Record]| versions_of(caller, &rebuilt(caller, &file, records), BASE_DAY);
    let [first, last] = records;
    after(&[event(9, 0), last]) == [5, 5, 6]
        && after(&[first, event(9, 691_200)]) == [4, 5, 7]
        && after(&[first, event(9, 345_600), last]) == [4, 6, 6]
        && after(&[first, last, event(9, 1_036_800)]) == [5, 6, 7, 0]
}

fn read_and_rebuilt(caller: Caller) -> bool {
    let day = chain(caller.section_max() / 2);
    let large = |id, start| Record { chain_length: day.len() as u32, ..event(id, start) };
    let list = numbers(&[large(1, 0), large(2, 60), event(3, 345_600)]);
    let mut file = vec![0; ROOM];
    let pools = Pools { day: &day, series: &[] };
    let length = build(caller, &list, 3, pools, BASE_DAY, identity(&[8, 9]), &mut file).expect("a file");
    file.truncate(length);
    let mut records = [0; 18];
    read(caller, &file, BASE_DAY, &mut records).is_ok()
        && rebuilt_with(caller, on_air(&file), &records, Pools { day: &file, series: &[] }, BASE_DAY)
            == Ok(file.clone())
}
