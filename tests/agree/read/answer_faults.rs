//! Faults of what Read and check answer, and of their checks outside of sections: each stands in for the library, and
//! must show.

use super::comparison::{CheckCall, ReadCall};
use super::file::File;
use crate::build::sections;
use crate::other::{check, crc32_by_table, frame_within, read, refused, Identity, Reading, Triplet, TABLE_IDS};

pub const READS: [(&str, ReadCall); 22] = [
    ("serves the other caller", |caller, file, base_day, records| read(caller.other(), file, base_day, records)),
    // The note from the buyer.
    ("always says 25", |_, file, _, _| refused(25, file.len())),
    ("always returns no events", |caller, file, base_day, _| {
        let reading = check(caller, file, base_day);
        Reading { value: if reading.number == 0 { 0 } else { reading.value }, count: 0, ..reading }
    }),
    // Answers.
    ("says 0 for a file that ends early", |caller, file, base_day, records| {
        let reading = read(caller, file, base_day, records);
        if reading.number == 25 && !file.is_empty() {
            Reading { number: 0, value: held(file), count: held(file), ..reading }
        } else {
            reading
        }
    }),
    ("says 20 for an empty file", |caller, file, base_day, records| {
        let reading = read(caller, file, base_day, records);
        instead_if(file.is_empty() && reading.number == 25, refused(20, 0), reading)
    }),
    ("says 25 for a byte behind the last section", |caller, file, base_day, records| {
        let reading = read(caller, file, base_day, records);
        let is_one_byte = reading.number == 20 && reading.value + 1 == file.len();
        instead_if(is_one_byte, refused(25, file.len()), reading)
    }),
    ("leaves bytes behind the last section aside", |caller, file, base_day, records| {
        let reading = read(caller, file, base_day, records);
        let front = file.get(..reading.value).unwrap_or_default();
        if reading.number == 20 && check(caller, front, base_day).number == 0 {
            read(caller, front, base_day, records)
        } else {
            reading
        }
    }),
    ("says where the file breaks in sixteen bits", |caller, file, base_day, records| {
        let reading = read(caller, file, base_day, records);
        Reading { value: reading.value & 0xFFFF, ..reading }
    }),
    ("says where the events begin for 24", |caller, file, base_day, records| {
        let reading = read(caller, file, base_day, records);
        instead_if(reading.number == 24, refused(24, reading.value + 14), reading)
    }),
    ("asks for numbers with 27", |caller, file, base_day, records| {
        let reading = read(caller, file, base_day, records);
        instead_if(reading.number == 27, refused(27, 6 * reading.value), reading)
    }),
    ("returns an identity with 25", |caller, file, base_day, records| {
        let reading = read(caller, file, base_day, records);
        let triplet = Triplet { service_id: 1, ..reading.identity.triplet };
        let identity = Identity { triplet, ..reading.identity };
        instead_if(reading.number == 25, Reading { identity, ..reading }, reading)
    }),
    ("returns a count with 27", |caller, file, base_day, records| {
        let reading = read(caller, file, base_day, records);
        instead_if(reading.number == 27, Reading { count: reading.value, ..reading }, reading)
    }),
    ("confuses stream and network", |caller, file, base_day, records| {
        let reading = read(caller, file, base_day, records);
        let mut identity = reading.identity;
        std::mem::swap(&mut identity.triplet.transport_stream_id, &mut identity.triplet.original_network_id);
        Reading { identity, ..reading }
    }),
    ("returns the version of table 0x50 for every table", |caller, file, base_day, records| {
        with_versions(read(caller, file, base_day, records), |versions| *versions = [versions[0]; 16])
    }),
    ("returns the last table's version for absent ones", |caller, file, base_day, records| {
        let reading = read(caller, file, base_day, records);
        let last_table = usize::from(file.get(13).map_or(0, |last_table_id| last_table_id.wrapping_sub(0x50)));
        with_versions(reading, |versions| {
            let last = versions[last_table];
            versions[last_table..].fill(last);
        })
    }),
    ("loses a version's highest bit", |caller, file, base_day, records| {
        with_versions(read(caller, file, base_day, records), |versions| {
            *versions = versions.map(|version| version & 15)
        })
    }),
    ("returns a version behind 24", |caller, file, base_day, records| {
        let reading = read(caller, file, base_day, records);
        let identity = Identity { versions: [1; 16], ..reading.identity };
        instead_if(reading.number == 24, Reading { identity, ..reading }, reading)
    }),
    // The order of checks that rules do not have, and the base day.
    ("asks for CRC_32 before the table_id", |caller, file, base_day, records| {
        let reading = read(caller, file, base_day, records);
        let framed = frame_within(0x00..=0xFF, caller.sizes().section_lengths(), from(file, reading));
        let is_wrong = framed.is_some_and(|bytes| crc32_by_table(bytes) != 0);
        instead_if(reading.number == 20 && is_wrong, refused(21, reading.value), reading)
    }),
    ("asks for CRC_32 before the caller's length", |caller, file, base_day, records| {
        let reading = read(caller, file, base_day, records);
        let framed = frame_within(TABLE_IDS, 15..=0xFFF, from(file, reading));
        let is_wrong = framed.is_some_and(|bytes| crc32_by_table(bytes) != 0);
        instead_if(reading.number == 20 && is_wrong, refused(21, reading.value), reading)
    }),
    ("says 27 before 25", |caller, file, base_day, records| {
        let reading = read(caller, file, base_day, records);
        let is_short = reading.number == 25 && records.len() < 6 * held(file);
        instead_if(is_short, refused(27, held(file)), reading)
    }),
    ("looks at the file before the base day", |caller, file, base_day, records| {
        let reading = read(caller, file, base_day, records);
        let by_file = check(caller, file, 0);
        instead_if(reading.number == 1 && by_file.number == 20, by_file, reading)
    }),
    ("takes the base day in sixteen bits", |caller, file, base_day, records| {
        read(caller, file, base_day & 0xFFFF, records)
    }),
];

pub const CHECKS: [(&str, CheckCall); 7] = [
    ("serves the other caller", |caller, file, base_day| check(caller.other(), file, base_day)),
    ("takes base day 65,473", |caller, file, base_day| {
        check(caller, file, if base_day == 65_473 { 65_472 } else { base_day })
    }),
    ("returns no identity", |caller, file, base_day| Reading {
        identity: Identity::default(),
        ..check(caller, file, base_day)
    }),
    ("returns no versions", |caller, file, base_day| {
        with_versions(check(caller, file, base_day), |versions| *versions = [0; 16])
    }),
    ("returns no count", |caller, file, base_day| Reading { count: 0, ..check(caller, file, base_day) }),
    ("says 27 for more than half of the caller's events", |caller, file, base_day| {
        let checked = check(caller, file, base_day);
        instead_if(checked.count > caller.sizes().events / 2, refused(27, checked.count), checked)
    }),
    ("does not look for the end", |caller, file, base_day| {
        let checked = check(caller, file, base_day);
        instead_if(checked.number == 25, Reading { number: 0, ..checked }, checked)
    }),
];

/// The file from where it is refused.
fn from(file: &[u8], reading: Reading) -> &[u8] {
    file.get(reading.value..).unwrap_or_default()
}

/// The wrong answer where the fault shows, and else the right one.
fn instead_if(shows: bool, wrong: Reading, right: Reading) -> Reading {
    if shows {
        wrong
    } else {
        right
    }
}

/// An accepted reading with other versions.
fn with_versions(mut reading: Reading, change: impl FnOnce(&mut [u8; 16])) -> Reading {
    if reading.number == 0 {
        change(&mut reading.identity.versions);
    }
    reading
}

/// How many events the sections of a file hold that ends early.
fn held(file: &[u8]) -> usize {
    sections(file).map_or(0, |_| File::of(file, 0).events())
}
